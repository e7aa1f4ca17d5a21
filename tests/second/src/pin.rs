//! PIN blocks with and without the card number (01, PIN blocks; 000, figure 2;
//! ISO 9564-1 format 0).
//!
//! A block is read by search: it is read exactly when some permitted PIN makes
//! it, and then as that PIN.

use crate::bytes::{all_digits, array, digit_values, half_byte, pack, xor};
use crate::des;
use crate::numbers::{lend, require, Answer, BAD_BLOCK, CHARACTER, SIZE};

/// A card number, or none.
type Card<'a> = Option<&'a [u8]>;

/// 4 to 12 digits of PIN.
fn pin_size(pin: &[u8]) -> bool {
    (4..=12).contains(&pin.len())
}

/// 13 to 19 digits of card number, where there is one.
fn card_size(card: Card) -> bool {
    card.is_none_or(|card| (13..=19).contains(&card.len()))
}

/// A PIN key is single or double length.
fn key_size(key: &[u8]) -> bool {
    key.len() == 8 || key.len() == 16
}

/// Half-bytes 0, length, the digits, then F up to sixteen (000, figure 2).
fn pin_field(pin: &[u8]) -> [u8; 8] {
    let mut half_bytes = vec![0, pin.len() as u8];
    half_bytes.extend(digit_values(pin));
    half_bytes.resize(16, 0xF);
    pack(&half_bytes)
}

/// 0000, then the twelve rightmost digits leaving out the last.
fn card_field(card: &[u8]) -> [u8; 8] {
    let without_last = &card[..card.len() - 1];
    let twelve = &without_last[without_last.len() - 12..];
    pack(&[vec![0; 4], digit_values(twelve)].concat())
}

/// The block of a permitted PIN (ISO 9564-1 format 0 with a card number).
fn block_of(pin: &[u8], card: Card) -> [u8; 8] {
    match card {
        None => pin_field(pin),
        Some(card) => xor(pin_field(pin), card_field(card)),
    }
}

/// A PIN of so many digits that agrees with the block where its digits stand:
/// each digit is found by trying all ten.
fn candidate(block: [u8; 8], card: Card, length: usize) -> Option<Vec<u8>> {
    let mut pin = vec![b'0'; length];
    for i in 0..length {
        let agreeing = (b'0'..=b'9').find(|digit| {
            pin[i] = *digit;
            half_byte(&block_of(&pin, card), 2 + i) == half_byte(&block, 2 + i)
        });
        pin[i] = agreeing?;
    }
    Some(pin)
}

/// The permitted PIN that makes the block, if there is one.
fn pin_of(block: [u8; 8], card: Card) -> Option<Vec<u8>> {
    let mut candidates = (4..=12).filter_map(|length| candidate(block, card, length));
    candidates.find(|pin| block_of(pin, card) == block)
}

/// 6 (PIN before card number), 7.
fn make_any(pin: &[u8], card: Card) -> Result<[u8; 8], u8> {
    require(pin_size(pin), SIZE)?;
    require(card_size(card), SIZE)?;
    require(all_digits(pin), CHARACTER)?;
    require(card.is_none_or(all_digits), CHARACTER)?;
    Ok(block_of(pin, card))
}

/// 6, 7, 8, 13.
fn read_any(block: &[u8], card: Card, room: usize) -> Answer {
    require(block.len() == 8, SIZE)?;
    require(card_size(card), SIZE)?;
    require(card.is_none_or(all_digits), CHARACTER)?;
    let pin = pin_of(array(block), card).ok_or(BAD_BLOCK)?;
    lend(pin, room)
}

/// DES under an 8-byte PIN key, triple DES under a 16-byte one: 6, 7.
fn encrypt_any(key: &[u8], pin: &[u8], card: Card) -> Answer {
    require(key_size(key), SIZE)?;
    let block = make_any(pin, card)?;
    let encrypted = match key.len() {
        8 => des::encrypt(&array(key), &block),
        _ => des::triple_encrypt(&array(key), &block),
    };
    Ok(encrypted.to_vec())
}

/// Decrypted first, then read by the same rules: 6, 7, 8, 13.
fn decrypt_any(key: &[u8], block: &[u8], card: Card, room: usize) -> Answer {
    require(key_size(key), SIZE)?;
    require(block.len() == 8, SIZE)?;
    let clear = match key.len() {
        8 => des::decrypt(&array(key), &array(block)),
        _ => des::triple_decrypt(&array(key), &array(block)),
    };
    read_any(&clear, card, room)
}

/// Clear PIN block without card number: 6, 7.
pub fn make(pin: &[u8]) -> Answer {
    make_any(pin, None).map(Vec::from)
}

/// Clear PIN block with card number: 6, 7.
pub fn make_with_card(pin: &[u8], card: &[u8]) -> Answer {
    make_any(pin, Some(card)).map(Vec::from)
}

/// The PIN of a clear block without card number: 6, 8, 13.
pub fn read(block: &[u8], room: usize) -> Answer {
    read_any(block, None, room)
}

/// The PIN of a clear block with card number: 6, 7, 8, 13.
pub fn read_with_card(block: &[u8], card: &[u8], room: usize) -> Answer {
    read_any(block, Some(card), room)
}

/// Encrypted PIN block without card number: 6, 7.
pub fn encrypt(key: &[u8], pin: &[u8]) -> Answer {
    encrypt_any(key, pin, None)
}

/// Encrypted PIN block with card number: 6, 7.
pub fn encrypt_with_card(key: &[u8], pin: &[u8], card: &[u8]) -> Answer {
    encrypt_any(key, pin, Some(card))
}

/// The PIN of an encrypted block without card number: 6, 8, 13.
pub fn decrypt(key: &[u8], block: &[u8], room: usize) -> Answer {
    decrypt_any(key, block, None, room)
}

/// The PIN of an encrypted block with card number: 6, 7, 8, 13.
pub fn decrypt_with_card(key: &[u8], block: &[u8], card: &[u8], room: usize) -> Answer {
    decrypt_any(key, block, Some(card), room)
}
