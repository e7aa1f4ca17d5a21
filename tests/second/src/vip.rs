//! Blocks of VIP numbers, in the clear (02, M-102; 003, 5.4 and figure 4).

use crate::bytes::{digit_values, half_byte, pack};
use crate::numbers::Answer;
use crate::text_block::TextBlock;

/// Half-bytes: two decimal digits of length, the number, then F up to thirty-two.
fn block_of(number: &[u8]) -> Vec<u8> {
    let length = format!("{:02}", number.len());
    let mut half_bytes = digit_values(&[length.as_bytes(), number].concat());
    half_bytes.resize(32, 0xF);
    pack::<16>(&half_bytes).to_vec()
}

/// 11 to 19 digits, a half-byte each.
const BLOCK: TextBlock = TextBlock {
    lengths: 11..=19,
    characters: b'0'..=b'9',
    size: 16,
    block_of,
    has: |block, place, digit| half_byte(block, 2 + place) == digit - b'0',
};

/// The block of a VIP number: 6, 7.
pub fn make(number: &[u8]) -> Answer {
    BLOCK.make(number)
}

/// The VIP number of a block: 6, 8, 13.
pub fn read(block: &[u8], room: usize) -> Answer {
    BLOCK.read(block, room)
}
