//! Password and VIP blocks that are not random: lengths of every kind before every text that fits, and each byte of a block
//! through all 256 values.

use crate::compare::compare_call;
use crate::entries::{parts, Entry, PASSWORD_READ, VIP_READ};
use crate::random::Random;
use second::lines::hexadecimal;
use std::ops::RangeInclusive;

/// Room for the longest password and the longest VIP number.
const ROOM: usize = 20;

/// A kind of block. Its length has two parts: a byte each, or a half-byte each.
pub struct Kind {
    /// The entry that reads it.
    pub entry: Entry<Vec<u8>>,
    /// The block with both parts of a length and a text in it, whether or not they belong together.
    block_of: fn([u8; 2], &str) -> Vec<u8>,
    /// What is tried as a part of the length: the digits and what stands about them.
    tried: RangeInclusive<u8>,
    /// The part of a length that is the digit 0.
    zero: u8,
    /// The lengths that are permitted.
    lengths: RangeInclusive<u8>,
    /// A text that leaves no room for fill.
    text: &'static str,
}

pub const PASSWORD: Kind = Kind {
    entry: PASSWORD_READ,
    block_of: |length, text| {
        let mut block = [&length, text.as_bytes()].concat();
        block.resize(24, 0xFF);
        block
    },
    tried: 0x20..=0x40,
    zero: b'0',
    lengths: 6..=20,
    text: "!~aZ09\"'-hex:#/@\\^`$zA",
};

pub const VIP: Kind = Kind {
    entry: VIP_READ,
    block_of: |[tens, ones], digits| {
        let start = format!("{tens:X}{ones:X}{digits}");
        hexadecimal(format!("{start:F<32}").as_bytes()).expect("hexadecimal")
    },
    tried: 0..=15,
    zero: 0,
    lengths: 11..=19,
    text: "908172635445362718090817263544",
};

impl Kind {
    /// Reads a block through both; gives the number.
    fn compare(&self, random: &mut Random, block: Vec<u8>) -> Result<u8, String> {
        let input = parts(vec![block]);
        let unlimited = (self.entry.second)(&input);
        compare_call(random, &self.entry, &input, unlimited, ROOM)
            .map_err(|difference| format!("{}: {difference}", self.entry.name))
    }

    /// Each length of two parts before each text that fits. Gives the numbers.
    pub fn length_by_length(&self, random: &mut Random) -> Result<Vec<u8>, String> {
        let mut numbers = Vec::new();
        for tens in self.tried.clone() {
            for ones in self.tried.clone() {
                for end in 0..=self.text.len() {
                    let block = (self.block_of)([tens, ones], &self.text[..end]);
                    numbers.push(self.compare(random, block)?);
                }
            }
        }
        Ok(numbers)
    }

    /// A block of each permitted length, with each byte through all 256 values. Gives the numbers.
    pub fn byte_by_byte(&self, random: &mut Random) -> Result<Vec<u8>, String> {
        let mut numbers = Vec::new();
        for length in self.lengths.clone() {
            let decimal = [length / 10, length % 10].map(|digit| self.zero + digit);
            let block = (self.block_of)(decimal, &self.text[..usize::from(length)]);
            for place in 0..block.len() {
                for byte in 0..=255 {
                    let mut damaged = block.clone();
                    damaged[place] = byte;
                    numbers.push(self.compare(random, damaged)?);
                }
            }
        }
        Ok(numbers)
    }
}
