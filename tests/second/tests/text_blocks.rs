//! Password and VIP blocks (02, M-102): every length, every character, each
//! place of a block through all values, and the order of the refusals.

mod common;

use common::hex;
use second::bytes::half_byte;
use second::numbers::Answer;
use second::{password, vip};

/// What both kinds of block have.
struct Kind {
    make: fn(&[u8]) -> Answer,
    read: fn(&[u8], usize) -> Answer,
    size: usize,
    least: usize,
    longest: &'static [u8],
    permitted: fn(&u8) -> bool,
}

const PASSWORD: Kind = Kind {
    make: password::make,
    read: password::read,
    size: 24,
    least: 6,
    longest: b"!~aZ09\"'-hex:#/@\\^`$",
    permitted: |character| (0x21..=0x7E).contains(character),
};

const VIP: Kind = Kind {
    make: vip::make,
    read: vip::read,
    size: 16,
    least: 11,
    longest: b"9081726354453627180",
    permitted: u8::is_ascii_digit,
};

impl Kind {
    /// The texts of every permitted length with their blocks.
    fn blocks(&self) -> impl Iterator<Item = (&'static [u8], Vec<u8>)> + '_ {
        let texts = (self.least..=self.longest.len()).map(|length| &self.longest[..length]);
        texts.map(|text| (text, (self.make)(text).unwrap()))
    }
}

#[test]
fn every_text_made_is_read() {
    for kind in [PASSWORD, VIP] {
        for (text, block) in kind.blocks() {
            assert_eq!(block.len(), kind.size);
            assert_eq!((kind.read)(&block, text.len()), Ok(text.to_vec()));
            assert_eq!((kind.read)(&block, text.len() - 1), Err(13));
        }
    }
}

#[test]
fn other_lengths_and_sizes_are_6() {
    for kind in [PASSWORD, VIP] {
        let lengths = kind.least..=kind.longest.len();
        for length in (0..=40).filter(|length| !lengths.contains(length)) {
            assert_eq!((kind.make)(&vec![b'1'; length]), Err(6));
            assert_eq!((kind.make)(&vec![b' '; length]), Err(6));
        }
        let (text, block) = kind.blocks().last().unwrap();
        for size in (0..=50).filter(|size| *size != kind.size) {
            let mut resized = block.clone();
            resized.resize(size, 0xFF);
            assert_eq!((kind.read)(&resized, text.len()), Err(6));
            assert_eq!((kind.read)(&vec![0; size], 0), Err(6));
        }
    }
}

#[test]
fn characters_that_are_not_permitted_are_7() {
    for kind in [PASSWORD, VIP] {
        for place in 0..kind.longest.len() {
            for character in 0..=255 {
                let mut text = kind.longest.to_vec();
                text[place] = character;
                let made = (kind.make)(&text);
                if (kind.permitted)(&character) {
                    assert_eq!((kind.read)(&made.unwrap(), text.len()), Ok(text));
                } else {
                    assert_eq!(made, Err(7));
                }
            }
        }
    }
}

/// Each byte of a block through all values: a permitted character in the place
/// of another gives another password, and every other change none.
#[test]
fn password_blocks_with_one_byte_changed() {
    for (text, block) in PASSWORD.blocks() {
        let places = 2..2 + text.len();
        for place in 0..block.len() {
            for byte in 0..=255 {
                let mut changed = block.clone();
                changed[place] = byte;
                let character = places.contains(&place) && (PASSWORD.permitted)(&byte);
                let wanted = match character || byte == block[place] {
                    true => Ok(changed[places.clone()].to_vec()),
                    false => Err(8),
                };
                assert_eq!(password::read(&changed, 20), wanted);
            }
        }
    }
}

/// Each half-byte of a block through all values: a digit in the place of another
/// gives another number, and every other change none.
#[test]
fn vip_blocks_with_one_half_byte_changed() {
    for (text, block) in VIP.blocks() {
        for place in 0..2 * block.len() {
            for value in 0..16 {
                let mut changed = block.clone();
                changed[place / 2] ^= (half_byte(&block, place) ^ value) << [4, 0][place % 2];
                let digit = (2..2 + text.len()).contains(&place) && value < 10;
                let mut number = text.to_vec();
                if digit {
                    number[place - 2] = b'0' + value;
                }
                let wanted = match digit || changed == block {
                    true => Ok(number),
                    false => Err(8),
                };
                assert_eq!(vip::read(&changed, 19), wanted);
            }
        }
    }
}

/// The block that starts with these digits, with FF up to its end.
fn filled(kind: &Kind, digits: &str) -> Vec<u8> {
    let mut block = hex(digits);
    assert!(block.len() <= kind.size);
    block.resize(kind.size, 0xFF);
    block
}

#[test]
fn blocks_of_no_permitted_password() {
    for start in [
        "3035 6162636465",                                   // five characters
        "3231 616263646566616263646566616263646566616263",   // 21
        "3232 61626364656661626364656661626364656661626364", // 22
        "3030",                                              // none
        "3041 61626364656661626364",                         // ten, as 0A
        "313A 6162636465666162636465666162636465666162",     // 20, as 1 and 10
        "2F40 616263646566",                                 // six, as -1 and 16
        "2036 616263646566",                                 // six, as a space and 6
        "3620 616263646566",                                 // six, as 6 and a space
        "0006 616263646566",                                 // six, not in characters
        "06 616263646566",                                   // six, in one byte
        "3036 61626364656620",                               // space for fill
        "3036 61626364656600",                               // zero for fill
        "3036 6162636465 FF 66",                             // fill in the password
    ] {
        let block = filled(&PASSWORD, start);
        assert_eq!(password::read(&block, 20), Err(8), "{start}");
    }
    for byte in [0, b' ', b'0', 0xFF] {
        assert_eq!(password::read(&[byte; 24], 20), Err(8));
    }
}

#[test]
fn blocks_of_no_permitted_number() {
    for start in [
        "10 1234567890",                     // ten digits
        "20 12345678901234567890",           // 20
        "30 123456789012345678901234567890", // 30, which fill the block
        "00",                                // none
        "0B 12345678901F",                   // eleven, in one byte
        "13 1234567890123456789F",           // 19, in one byte
        "11 12345678901234567F",             // 17, in one byte
        "F1 12345678901F",                   // eleven, with fill before
        "1F 1234567890123456789F",           // F for the second digit
        "11 123456789010",                   // twelve digits, the last 0
        "11 12345678901E",                   // E for fill
        "11 123456789F1F",                   // fill in the number
    ] {
        let block = filled(&VIP, start);
        assert_eq!(vip::read(&block, 19), Err(8), "{start}");
    }
    for byte in [0, 0x11, b'0', 0xFF] {
        assert_eq!(vip::read(&[byte; 16], 19), Err(8));
    }
}

#[test]
fn refusal_8_before_13() {
    for (kind, start) in [(PASSWORD, "3035 6162636465"), (VIP, "10 1234567890")] {
        assert_eq!((kind.read)(&filled(&kind, start), 0), Err(8));
    }
}
