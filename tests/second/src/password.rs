//! Blocks of Internet passwords, in the clear (02, M-102; 003, 5.5 and figure 5;
//! 000, 5.4 and figure 4).

use crate::numbers::Answer;
use crate::text_block::TextBlock;

/// Two decimal characters of length, the password, then FF up to 24 bytes.
fn block_of(password: &[u8]) -> Vec<u8> {
    let mut block = format!("{:02}", password.len()).into_bytes();
    block.extend(password);
    block.resize(24, 0xFF);
    block
}

/// 6 to 20 characters from 21 to 7E hex, a byte each.
const BLOCK: TextBlock = TextBlock {
    lengths: 6..=20,
    characters: 0x21..=0x7E,
    size: 24,
    block_of,
    has: |block, place, character| block[2 + place] == character,
};

/// The block of a password: 6, 7.
pub fn make(password: &[u8]) -> Answer {
    BLOCK.make(password)
}

/// The password of a block: 6, 8, 13.
pub fn read(block: &[u8], room: usize) -> Answer {
    BLOCK.read(block, room)
}
