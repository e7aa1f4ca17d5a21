//! Cleaning of a text (01, the message and its MAC text; 000 and 003, 5.2.3).

use crate::numbers::{require, SHORT_BUFFER, SIZE};

/// Longest free text in bytes.
pub const LONGEST_TEXT: usize = 1024;

/// The characters that stay.
const STAYING: &[u8] = b"ABCDEFGHIJKLMNOPQRSTUVWXYZ0123456789 ,.";

/// The characters that count as kept: small letters do.
const KEPT: &[u8] = b"ABCDEFGHIJKLMNOPQRSTUVWXYZabcdefghijklmnopqrstuvwxyz0123456789 ,.";

/// A cleaned text or its MAC, and what cleaning threw away.
#[derive(Clone, Debug, PartialEq, Eq)]
pub struct Counted {
    /// The cleaned text, or its MAC.
    pub value: Vec<u8>,
    /// Bytes of the text before cleaning that are not kept.
    pub dropped: usize,
    /// Spaces of the text before cleaning less those of the cleaned text.
    pub spaces: usize,
}

/// A done value with its counts, or the number of the refusal.
pub type CountedAnswer = Result<Counted, u8>;

impl Counted {
    /// A value made from a text before cleaning, with the counts of that text.
    pub(crate) fn new(value: Vec<u8>, before: &[u8]) -> Counted {
        let is_dropped = |byte: &&u8| !KEPT.contains(byte);
        Counted {
            value,
            dropped: before.iter().filter(is_dropped).count(),
            spaces: spaces(before) - spaces(&cleaned(before)),
        }
    }

    /// The same, if a lent buffer of `room` bytes is long enough for the value
    /// (13).
    pub fn lend(self, room: usize) -> CountedAnswer {
        require(self.value.len() <= room, SHORT_BUFFER)?;
        Ok(self)
    }
}

/// How many spaces a text has.
fn spaces(text: &[u8]) -> usize {
    text.iter().filter(|byte| **byte == b' ').count()
}

/// A text with its small letters made capitals, then all but the staying
/// characters dropped, then its words joined by one space each.
pub fn cleaned(text: &[u8]) -> Vec<u8> {
    let capitals = text.to_ascii_uppercase();
    let mut staying = capitals;
    staying.retain(|character| STAYING.contains(character));
    let words = staying.split(|character| *character == b' ');
    let words: Vec<&[u8]> = words.filter(|word| !word.is_empty()).collect();
    words.join(&b' ')
}

/// Cleaning of a free text of 0 to 1,024 bytes: 6, 13.
pub fn clean(text: &[u8], room: usize) -> CountedAnswer {
    require(text.len() <= LONGEST_TEXT, SIZE)?;
    Counted::new(cleaned(text), text).lend(room)
}
