//! Numbers an operator sees (01, the table of that name).

/// A done value as bytes, or the number of the refusal.
pub type Answer = Result<Vec<u8>, u8>;

/// Message empty, or a record is cut short.
pub const CUT_SHORT: u8 = 1;
/// First field is not 0, a field number is above 192 or does not rise.
pub const FIELD_ORDER: u8 = 2;
/// Message type does not start with 01, 02, 04 or 05.
pub const MESSAGE_TYPE: u8 = 3;
/// A listed field has the wrong length or characters.
pub const FIELD_FORM: u8 = 4;
/// MAC asked over a text that is empty after cleaning.
pub const EMPTY_TEXT: u8 = 5;
/// A length or size is outside its range.
pub const SIZE: u8 = 6;
/// A character is not a digit, hexadecimal or a password's, where one is asked.
pub const CHARACTER: u8 = 7;
/// A block comes from no permitted PIN, password or VIP number.
pub const BAD_BLOCK: u8 = 8;
/// The two halves of a derivation key agree without the low bit of each byte.
pub const EQUAL_HALVES: u8 = 9;
/// Host counter is 0 or has more than ten one bits.
pub const BAD_COUNTER: u8 = 10;
/// Terminal state does not hang together.
pub const BAD_RECORD: u8 = 11;
/// Terminal exhausted.
pub const EXHAUSTED: u8 = 12;
/// Lent buffer shorter than the result.
pub const SHORT_BUFFER: u8 = 13;

/// What each number means, from 0 (01, the same table).
const MEANINGS: [&str; 14] = [
    "done",
    "message empty, or a record is cut short",
    "first field is not 0, a field number is above 192, or not above the one before",
    "message type does not start with 01, 02, 04 or 05",
    "a listed field has the wrong length or characters",
    "MAC asked over a text that is empty after cleaning",
    "a length or size is outside its range",
    "a character is not a digit, hexadecimal or a password's, where one is asked",
    "a block comes from no permitted PIN, password or VIP number",
    "the two halves of a derivation key agree without the low bit of each byte",
    "host counter is 0 or has more than ten one bits",
    "terminal state does not hang together",
    "terminal exhausted",
    "lent buffer shorter than the result",
];

/// What a number means, as text: 6 for a number of no meaning.
pub fn meaning(number: u32) -> Answer {
    let mut numbered = (0u32..).zip(MEANINGS);
    let found = numbered.find(|(place, _)| *place == number);
    Ok(found.ok_or(SIZE)?.1.as_bytes().to_vec())
}

/// Refuses with `number` unless `condition` holds.
pub fn require(condition: bool, number: u8) -> Result<(), u8> {
    if condition {
        Ok(())
    } else {
        Err(number)
    }
}

/// The result, if a lent buffer of `room` bytes is long enough for it (13).
pub fn lend(result: Vec<u8>, room: usize) -> Answer {
    require(result.len() <= room, SHORT_BUFFER)?;
    Ok(result)
}
