//! The keys of both kinds of terminal, and all in which the two kinds differ.

use crate::bytes::{array, left, right, xor};
use crate::des::{encrypt, triple_encrypt};
use std::fmt::Debug;

/// The key of a single-length terminal (01, terminal keys; 002).
pub type Single = [u8; 8];

/// The key of a double-length terminal, left half first (02, M-105).
pub type Double = [u8; 16];

/// A terminal's key, of either length.
pub trait Key: Copy + Debug + Eq + AsRef<[u8]> + for<'a> TryFrom<&'a [u8]> {
    /// Its size in bytes.
    const SIZE: usize;
    /// What an empty register holds.
    const ZERO: Self;

    /// Initial key, from the serial number's first 8 bytes with the low five
    /// bits cleared.
    fn initial(derivation: &[u8; 16], cleared: &[u8; 8]) -> Self;

    /// One-way step on some data. All bits of the key take part.
    fn one_way(self, data: [u8; 8]) -> Self;

    /// The key given out, from the register key.
    fn given_out(self) -> Self;
}

/// Data exclusive-or `with`, encrypted under `under`, exclusive-or `with` again
/// (002, Tb, Tc and the new Ka).
fn step(data: [u8; 8], with: [u8; 8], under: [u8; 8]) -> [u8; 8] {
    xor(encrypt(&under, &xor(data, with)), with)
}

impl Key for Single {
    const SIZE: usize = 8;
    const ZERO: Self = [0; 8];

    /// Triple DES.
    fn initial(derivation: &[u8; 16], cleared: &[u8; 8]) -> Self {
        triple_encrypt(derivation, cleared)
    }

    /// 002's step with the key and under it.
    fn one_way(self, data: [u8; 8]) -> Self {
        step(data, self, self)
    }

    /// FF exclusive-or'd into the last byte.
    fn given_out(self) -> Self {
        xor(self, [0, 0, 0, 0, 0, 0, 0, 0xFF])
    }
}

/// A key with the mask C0C0C0C000000000 exclusive-or'd into both halves.
fn masked(key: &[u8; 16]) -> [u8; 16] {
    let mask = 0xC0C0_C0C0_0000_0000_C0C0_C0C0_0000_0000u128;
    xor(*key, mask.to_be_bytes())
}

/// A key of two halves.
fn joined(left: [u8; 8], right: [u8; 8]) -> [u8; 16] {
    array(&[left, right].concat())
}

impl Key for Double {
    const SIZE: usize = 16;
    const ZERO: Self = [0; 16];

    /// Left half as for single length; right half the same under the masked
    /// derivation key.
    fn initial(derivation: &[u8; 16], cleared: &[u8; 8]) -> Self {
        let left = triple_encrypt(derivation, cleared);
        let right = triple_encrypt(&masked(derivation), cleared);
        joined(left, right)
    }

    /// 002's step with the right half and under the left: of the key it gives
    /// the right half, of the masked key the left.
    fn one_way(self, data: [u8; 8]) -> Self {
        let half = |key: [u8; 16]| step(data, right(&key), left(&key));
        joined(half(masked(&self)), half(self))
    }

    /// FF exclusive-or'd into the last byte of each half.
    fn given_out(self) -> Self {
        let variant = 0x0000_0000_0000_00FF_0000_0000_0000_00FFu128;
        xor(self, variant.to_be_bytes())
    }
}
