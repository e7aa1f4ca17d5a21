//! Blocks that hold the length of a text, the text, and fill up to their end:
//! those of passwords and of VIP numbers (02, M-102).
//!
//! A block is read by search: it is read exactly when some permitted text makes
//! it, and then as that text.

use crate::numbers::{lend, require, Answer, BAD_BLOCK, CHARACTER, SIZE};
use std::ops::RangeInclusive;

/// A kind of block.
pub struct TextBlock {
    /// How many characters a text may have.
    pub lengths: RangeInclusive<usize>,
    /// The characters that are permitted.
    pub characters: RangeInclusive<u8>,
    /// How many bytes a block has.
    pub size: usize,
    /// The block of a permitted text.
    pub block_of: fn(&[u8]) -> Vec<u8>,
    /// Whether a block has a character at a place of its text, the first being 0.
    pub has: fn(&[u8], usize, u8) -> bool,
}

impl TextBlock {
    /// The longest text that could stand in a block: each character is found by
    /// trying all that are permitted, up to the first place that has none.
    fn longest(&self, block: &[u8]) -> Vec<u8> {
        let character = |place| {
            let mut permitted = self.characters.clone();
            permitted.find(|character| (self.has)(block, place, *character))
        };
        (0..*self.lengths.end()).map_while(character).collect()
    }

    /// The permitted text that makes the block, if there is one: each length of
    /// the longest is tried.
    fn text_of(&self, block: &[u8]) -> Option<Vec<u8>> {
        let longest = self.longest(block);
        let mut lengths = self.lengths.clone();
        let makes_it = |text: &&[u8]| (self.block_of)(text) == block;
        let found = lengths.find_map(|length| longest.get(..length).filter(makes_it));
        found.map(<[u8]>::to_vec)
    }

    /// The block of a text: 6, 7.
    pub fn make(&self, text: &[u8]) -> Answer {
        let permitted = |character| self.characters.contains(character);
        require(self.lengths.contains(&text.len()), SIZE)?;
        require(text.iter().all(permitted), CHARACTER)?;
        Ok((self.block_of)(text))
    }

    /// The text of a block: 6, 8, 13.
    pub fn read(&self, block: &[u8], room: usize) -> Answer {
        require(block.len() == self.size, SIZE)?;
        lend(self.text_of(block).ok_or(BAD_BLOCK)?, room)
    }
}
