//! DES and two-key triple DES, one bit at a time (FIPS 46-3).

use crate::bytes::{left, right};
use crate::tables::{E, IP, IP_INVERSE, LEFT_SHIFTS, P, PC_1, PC_2, S};
use std::collections::BTreeSet;

/// Single bits, each 0 or 1. Bit 1 of FIPS 46-3 stands first.
type Bits = Vec<u8>;

/// One entry of the selection functions: S-box 1 to 8, row 0 to 3, column 0 to 15.
pub type Entry = (usize, usize, usize);

/// Number of entries in the eight selection functions together.
pub const ENTRIES: usize = 512;

/// Bits of some bytes, the highest bit of each byte first.
fn bits_of(bytes: &[u8]) -> Bits {
    let mut bits = Vec::with_capacity(8 * bytes.len());
    for byte in bytes {
        for place in (0..8).rev() {
            bits.push(byte >> place & 1);
        }
    }
    bits
}

/// The eight bytes of 64 bits.
fn block_of(bits: &[u8]) -> [u8; 8] {
    assert_eq!(bits.len(), 64);
    std::array::from_fn(|i| number_of(&bits[8 * i..8 * i + 8]) as u8)
}

/// The number that some bits write, the highest first.
fn number_of(bits: &[u8]) -> usize {
    bits.iter()
        .fold(0, |number, bit| 2 * number + *bit as usize)
}

/// The bits that a table names, in its order; a table counts bits from 1.
fn selected(table: &[usize], bits: &[u8]) -> Bits {
    table.iter().map(|number| bits[number - 1]).collect()
}

/// Bit-by-bit addition modulo 2.
fn added(a: &[u8], b: &[u8]) -> Bits {
    assert_eq!(a.len(), b.len());
    a.iter().zip(b).map(|(x, y)| x ^ y).collect()
}

/// Two strings of bits, one after the other.
fn joined(a: &[u8], b: &[u8]) -> Bits {
    [a, b].concat()
}

/// Key schedule KS: K1 to K16, each 48 bits of the key.
fn key_schedule(key: &[u8; 8]) -> Vec<Bits> {
    let chosen = selected(&PC_1, &bits_of(key));
    let (mut c, mut d) = (chosen[..28].to_vec(), chosen[28..].to_vec());
    let mut keys = Vec::new();
    for shifts in LEFT_SHIFTS {
        c.rotate_left(shifts);
        d.rotate_left(shifts);
        keys.push(selected(&PC_2, &joined(&c, &d)));
    }
    keys
}

/// The entries that the eight blocks of six bits of E(R) + K select: the first
/// and last bit give the row, the middle four the column.
fn entries(r: &[u8], k: &[u8]) -> Vec<Entry> {
    let b = added(&selected(&E, r), k);
    let mut entries = Vec::new();
    for (i, six) in b.chunks(6).enumerate() {
        let row = number_of(&[six[0], six[5]]);
        let column = number_of(&six[1..5]);
        entries.push((i + 1, row, column));
    }
    entries
}

/// The cipher function f(R, K) = P(S1(B1) S2(B2) ... S8(B8)).
fn f(r: &[u8], k: &[u8]) -> Bits {
    let mut b = Vec::new();
    for (s_box, row, column) in entries(r, k) {
        let value = S[s_box - 1][row][column];
        b.extend([value >> 3 & 1, value >> 2 & 1, value >> 1 & 1, value & 1]);
    }
    selected(&P, &b)
}

/// L0 R0 to L16 R16: L' = R and R' = L + f(R, K).
fn halves(keys: &[Bits], block: &[u8; 8]) -> Vec<(Bits, Bits)> {
    let input = selected(&IP, &bits_of(block));
    let mut halves = vec![(input[..32].to_vec(), input[32..].to_vec())];
    for (n, k) in keys.iter().enumerate() {
        let (l, r) = &halves[n];
        let next = (r.clone(), added(l, &f(r, k)));
        halves.push(next);
    }
    halves
}

/// Computation with the keys in the order given; the preoutput
/// block is R16 L16.
fn computed(keys: &[Bits], block: &[u8; 8]) -> [u8; 8] {
    let halves = halves(keys, block);
    let (l16, r16) = &halves[16];
    block_of(&selected(&IP_INVERSE, &joined(r16, l16)))
}

/// DES encryption of a block under a key.
pub fn encrypt(key: &[u8; 8], block: &[u8; 8]) -> [u8; 8] {
    computed(&key_schedule(key), block)
}

/// DES decryption: the same computation, K16 first and K1 last.
pub fn decrypt(key: &[u8; 8], block: &[u8; 8]) -> [u8; 8] {
    let mut keys = key_schedule(key);
    keys.reverse();
    computed(&keys, block)
}

/// Triple DES: encrypts with the left half, decrypts with the right, encrypts
/// with the left (01, the job and its edge).
pub fn triple_encrypt(key: &[u8; 16], block: &[u8; 8]) -> [u8; 8] {
    let first = encrypt(&left(key), block);
    let second = decrypt(&right(key), &first);
    encrypt(&left(key), &second)
}

/// Triple DES undone: decrypts with the left half, encrypts with the right,
/// decrypts with the left.
pub fn triple_decrypt(key: &[u8; 16], block: &[u8; 8]) -> [u8; 8] {
    let third = decrypt(&left(key), block);
    let second = encrypt(&right(key), &third);
    decrypt(&left(key), &second)
}

/// The entries of the selection functions that an encryption reads.
pub fn entries_read(key: &[u8; 8], block: &[u8; 8]) -> BTreeSet<Entry> {
    let keys = key_schedule(key);
    let halves = halves(&keys, block);
    let rounds = halves.iter().zip(&keys);
    rounds.flat_map(|((_, r), k)| entries(r, k)).collect()
}
