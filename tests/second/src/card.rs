//! The card's keys and cryptograms (01, the card's keys and cryptograms; 001,
//! 003 and 004).

use crate::bytes::{all_digits, array, digit_values, left, pack, right, turned, xor};
use crate::des::{decrypt, encrypt, triple_encrypt};
use crate::mac::{chained, filled};
use crate::numbers::{require, Answer, CHARACTER, SIZE};

/// 13 to 19 digits of card number, sequence 0 to 99.
fn sizes(card: &[u8], sequence: u32) -> bool {
    (13..=19).contains(&card.len()) && sequence <= 99
}

/// Card number then two digits of sequence, rightmost 16, zeros put on the left
/// if short: 6, 7.
fn y(card: &[u8], sequence: u32) -> Result<[u8; 8], u8> {
    require(sizes(card, sequence), SIZE)?;
    require(all_digits(card), CHARACTER)?;
    let mut digits = vec![b'0'; 16];
    digits.extend(card);
    digits.extend(format!("{sequence:02}").as_bytes());
    Ok(pack(&digit_values(&digits[digits.len() - 16..])))
}

/// Y of a card number and sequence: 6, 7.
pub fn derivation_data(card: &[u8], sequence: u32) -> Answer {
    y(card, sequence).map(Vec::from)
}

/// Triple DES of a block, then of another, as one key of 16 bytes.
fn two_halves(key: &[u8], first: [u8; 8], second: [u8; 8]) -> Vec<u8> {
    let key = array(key);
    [triple_encrypt(&key, &first), triple_encrypt(&key, &second)].concat()
}

/// A byte with an odd number of ones: the seven high bits as they are, and the
/// low bit that they ask for.
fn odd(byte: u8) -> u8 {
    let mut low = 1;
    for bit in 1..8 {
        low ^= byte >> bit & 1;
    }
    byte & 0xFE | low
}

/// Card key before its parity is set: triple DES of Y, then of Y with all bits
/// turned: 6, 7.
pub fn card_key_unadjusted(master: &[u8], card: &[u8], sequence: u32) -> Answer {
    require(master.len() == 16, SIZE)?;
    let y = y(card, sequence)?;
    Ok(two_halves(master, y, turned(y)))
}

/// Card key, with an odd number of ones in every byte (02, M-103): 6, 7.
pub fn card_key(master: &[u8], card: &[u8], sequence: u32) -> Answer {
    let key = card_key_unadjusted(master, card, sequence)?;
    Ok(key.into_iter().map(odd).collect())
}

/// The two halves of a session key before encryption: the counter with six
/// zero bytes before it, then the same with the counter's bits turned.
pub fn session_halves(counter: [u8; 2]) -> [[u8; 8]; 2] {
    let [high, low] = counter;
    let before = [0, 0, 0, 0, 0, 0, high, low];
    let after = [0, 0, 0, 0, 0, 0, 0xFF - high, 0xFF - low];
    [before, after]
}

/// Session key of a 2-byte transaction counter: 6.
pub fn session_key(card_key: &[u8], counter: [u8; 2]) -> Answer {
    require(card_key.len() == 16, SIZE)?;
    let [first, second] = session_halves(counter);
    Ok(two_halves(card_key, first, second))
}

/// ARQC: 80 hex added, always, then zeros to a multiple of 8; ISO/IEC 9797-1
/// algorithm 3 under the session key: 6.
pub fn arqc(session_key: &[u8], data: &[u8]) -> Answer {
    require(session_key.len() == 16, SIZE)?;
    require((1..=255).contains(&data.len()), SIZE)?;
    let key: [u8; 16] = array(session_key);
    let padded = filled(&[data, &[0x80]].concat());
    let chained = chained(&left(&key), &padded);
    let undone = decrypt(&right(&key), &chained);
    Ok(encrypt(&left(&key), &undone).to_vec())
}

/// ARPC: ARQC exclusive-or the two code bytes and six zeros, triple DES under
/// the session key: 6.
pub fn arpc(session_key: &[u8], arqc: &[u8], code: &[u8]) -> Answer {
    require(session_key.len() == 16, SIZE)?;
    require(arqc.len() == 8, SIZE)?;
    require(code.len() == 2, SIZE)?;
    let code = [code[0], code[1], 0, 0, 0, 0, 0, 0];
    let block = xor(array(arqc), code);
    Ok(triple_encrypt(&array(session_key), &block).to_vec())
}
