//! The self-test of the cipher: its published examples.

use crate::des::{decrypt, encrypt, triple_encrypt};

/// The number of the check that computes the published examples.
const EXAMPLES: u8 = 7;

/// Whether DES gives what J. Orlin Grabbe, The DES Algorithm Illustrated, says:
/// the worked example, and his other one, decrypted.
fn des_examples() -> bool {
    let worked = 0x133457799BBCDFF1u64.to_be_bytes();
    let other = 0x0E329232EA6D0D73u64.to_be_bytes();
    let block = 0x0123456789ABCDEFu64.to_be_bytes();
    encrypt(&worked, &block) == 0x85E813540F0AB405u64.to_be_bytes()
        && decrypt(&other, &[0; 8]) == [0x87; 8]
}

/// Whether triple DES gives the initial key of ANSI X9.24-1.
fn triple_example() -> bool {
    let key = 0x0123456789ABCDEFFEDCBA9876543210u128.to_be_bytes();
    let serial = 0xFFFF9876543210E0u64.to_be_bytes();
    triple_encrypt(&key, &serial) == 0x6AC292FAA1315B4Du64.to_be_bytes()
}

/// Computes the published examples: the number of the check where one differs.
pub fn self_test() -> Result<(), u8> {
    if des_examples() && triple_example() {
        Ok(())
    } else {
        Err(EXAMPLES)
    }
}
