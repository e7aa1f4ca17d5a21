//! MAC of a text and of a message: ISO/IEC 9797-1 algorithm 1 with DES, the
//! full 8 bytes (01, the message and its MAC text).

use crate::bytes::{array, xor};
use crate::cleaning::{cleaned, Counted, CountedAnswer, LONGEST_TEXT};
use crate::des::encrypt;
use crate::message::joined;
use crate::numbers::{require, EMPTY_TEXT, SIZE};

/// Last block of cipher block chaining over whole blocks, start value zero.
pub fn chained(key: &[u8; 8], blocks: &[u8]) -> [u8; 8] {
    let mut value = [0; 8];
    for block in blocks.chunks_exact(8) {
        value = encrypt(key, &xor(value, array(block)));
    }
    value
}

/// Bytes with zeros put after them up to a multiple of 8, if they are not one.
pub fn filled(bytes: &[u8]) -> Vec<u8> {
    let mut filled = bytes.to_vec();
    while !filled.len().is_multiple_of(8) {
        filled.push(0);
    }
    filled
}

/// CBC-MAC of a text that is clean already.
fn mac_of(key: &[u8], text: &[u8]) -> Vec<u8> {
    chained(&array(key), &filled(text)).to_vec()
}

/// MAC of a free text, which is cleaned first: 6, 5.
pub fn text_mac(key: &[u8], text: &[u8]) -> CountedAnswer {
    require(key.len() == 8, SIZE)?;
    require(text.len() <= LONGEST_TEXT, SIZE)?;
    let after = cleaned(text);
    require(!after.is_empty(), EMPTY_TEXT)?;
    Ok(Counted::new(mac_of(key, &after), text))
}

/// MAC of a message: 6 for the key, then what the message is refused with.
pub fn message_mac(key: &[u8], message: &[u8]) -> CountedAnswer {
    require(key.len() == 8, SIZE)?;
    let before = joined(message)?;
    Ok(Counted::new(mac_of(key, &cleaned(&before)), &before))
}
