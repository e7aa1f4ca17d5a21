//! Entries of the library that take or give what the functions of their rules
//! have in another form: the cipher for a key of either size, and the terminal
//! with the bytes of its record.

use crate::bytes::array;
use crate::des;
use crate::dukpt::{self, from_bytes, to_bytes, Key, NextKey};
use crate::numbers::{require, Answer, SHORT_BUFFER, SIZE};

/// DES or triple DES by the key's size: 6.
fn cipher(
    key: &[u8],
    block: &[u8],
    single: fn(&[u8; 8], &[u8; 8]) -> [u8; 8],
    triple: fn(&[u8; 16], &[u8; 8]) -> [u8; 8],
) -> Answer {
    require(key.len() == 8 || key.len() == 16, SIZE)?;
    require(block.len() == 8, SIZE)?;
    let block = array(block);
    let result = match key.len() {
        8 => single(&array(key), &block),
        _ => triple(&array(key), &block),
    };
    Ok(result.to_vec())
}

/// A block encrypted under a key of 8 or 16 bytes: 6.
pub fn encrypt(key: &[u8], block: &[u8]) -> Answer {
    cipher(key, block, des::encrypt, des::triple_encrypt)
}

/// A block decrypted under a key of 8 or 16 bytes: 6.
pub fn decrypt(key: &[u8], block: &[u8]) -> Answer {
    cipher(key, block, des::decrypt, des::triple_decrypt)
}

/// The record's bytes of a terminal that is loaded: 6.
pub fn terminal_load<K: Key>(initial: &[u8], serial: &[u8]) -> Answer {
    dukpt::terminal_load::<K>(initial, serial).map(|record| to_bytes(&record))
}

/// The next key of a record's bytes, with buffers of so much room for the key
/// and for the serial number: 6, 11, 12, 13.
pub fn terminal_next_key<K: Key>(
    record: &[u8],
    key_room: usize,
    serial_room: usize,
) -> Result<NextKey<K>, u8> {
    let record = from_bytes(record)?;
    let next = dukpt::terminal_next_key(&record, key_room)?;
    require(serial_room >= next.serial.len(), SHORT_BUFFER)?;
    Ok(next)
}
