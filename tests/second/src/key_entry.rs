//! Key entry from hexadecimal text (01, digits and bytes).

use crate::numbers::{lend, require, Answer, CHARACTER, SIZE};

/// Hexadecimal digits of either case, each at the place of twice its value.
const DIGITS: &[u8; 32] = b"00112233445566778899aAbBcCdDeEfF";

/// Value of a hexadecimal digit of either case.
fn value(character: u8) -> Option<u8> {
    let place = DIGITS.iter().position(|digit| *digit == character)?;
    Some(place as u8 / 2)
}

/// The key of `bytes_wanted` bytes that a text writes: 6, 7, 13.
pub fn key_entry(text: &[u8], bytes_wanted: usize, room: usize) -> Answer {
    require(bytes_wanted == 8 || bytes_wanted == 16, SIZE)?;
    let digits_wanted = 2 * bytes_wanted;
    require(text.len() == digits_wanted, SIZE)?;
    let values: Option<Vec<u8>> = text.iter().map(|character| value(*character)).collect();
    let values = values.ok_or(CHARACTER)?;
    let key = values.chunks(2).map(|pair| 16 * pair[0] + pair[1]);
    lend(key.collect(), room)
}
