//! The MAC text of an online message (01, the message and its MAC text; 003,
//! table 8).

use crate::bytes::all_digits;
use crate::cleaning::{cleaned, Counted, CountedAnswer};
use crate::numbers::{require, Answer, CUT_SHORT, FIELD_FORM, FIELD_ORDER, MESSAGE_TYPE, SIZE};

/// Longest message in bytes.
const LONGEST_MESSAGE: usize = 4096;
/// Highest field number.
const HIGHEST_FIELD: u16 = 192;
/// Fields that go into the text, in rising order.
const LISTED: [u16; 16] = [0, 2, 3, 4, 7, 11, 18, 25, 28, 32, 33, 38, 39, 41, 42, 90];

/// A field number and its body.
type Record = (u16, Vec<u8>);

/// Digits, from `least` to `most` of them.
fn digits(body: &[u8], least: usize, most: usize) -> bool {
    (least..=most).contains(&body.len()) && all_digits(body)
}

/// So many letters of either case or digits.
fn letters_or_digits(body: &[u8], count: usize) -> bool {
    body.len() == count && body.iter().all(u8::is_ascii_alphanumeric)
}

/// So many bytes from 20 to 7E hex.
fn printable(body: &[u8], count: usize) -> bool {
    body.len() == count && body.iter().all(|byte| (0x20..=0x7E).contains(byte))
}

/// C or D, then 8 digits.
fn signed_amount(body: &[u8]) -> bool {
    body.len() == 9 && b"CD".contains(&body[0]) && all_digits(&body[1..])
}

/// Whether a body is what the table asks of its field; other fields are free.
fn body_is_right(field: u16, body: &[u8]) -> bool {
    match field {
        0 | 18 => digits(body, 4, 4),
        2 => digits(body, 13, 19),
        3 | 11 => digits(body, 6, 6),
        4 => digits(body, 12, 12),
        7 => digits(body, 10, 10),
        25 => digits(body, 2, 2),
        28 => signed_amount(body),
        32 | 33 => digits(body, 1, 11),
        38 => letters_or_digits(body, 6),
        39 => letters_or_digits(body, 2),
        41 => printable(body, 8),
        42 => printable(body, 15),
        90 => digits(body, 42, 42),
        _ => true,
    }
}

/// Whether a message type starts with 01, 02, 04 or 05.
fn type_is_right(body: &[u8]) -> bool {
    [b"01", b"02", b"04", b"05"]
        .iter()
        .any(|start| body.starts_with(*start))
}

/// The record at the start of `rest`, if it is whole, and what follows it: body
/// length and field number in two bytes each, little-endian, then the body.
fn first_record(rest: &[u8]) -> Option<(Record, &[u8])> {
    let head = rest.get(..4)?;
    let length = head[0] as usize + 256 * head[1] as usize;
    let field = head[2] as u16 + 256 * head[3] as u16;
    let body = rest.get(4..4 + length)?;
    Some(((field, body.to_vec()), &rest[4 + length..]))
}

/// Whether a field number may follow the one before, or stand first.
fn number_is_right(field: u16, before: Option<u16>) -> bool {
    match before {
        None => field == 0,
        Some(before) => field > before && field <= HIGHEST_FIELD,
    }
}

/// All records, judged one at a time: 1, 2, 4, 3.
fn records(message: &[u8]) -> Result<Vec<Record>, u8> {
    require(!message.is_empty(), CUT_SHORT)?;
    let mut records: Vec<Record> = Vec::new();
    let mut rest = message;
    while !rest.is_empty() {
        let (record, following) = first_record(rest).ok_or(CUT_SHORT)?;
        let (field, body) = &record;
        let before = records.last().map(|record| record.0);
        require(number_is_right(*field, before), FIELD_ORDER)?;
        require(body_is_right(*field, body), FIELD_FORM)?;
        require(*field != 0 || type_is_right(body), MESSAGE_TYPE)?;
        records.push(record);
        rest = following;
    }
    Ok(records)
}

/// What a listed field puts into the text: two digits of length before 2, 32
/// and 33, the first 20 digits of 90, the body of any other.
fn part(field: u16, body: &[u8]) -> Vec<u8> {
    match field {
        2 | 32 | 33 => [format!("{:02}", body.len()).as_bytes(), body].concat(),
        90 => body[..20].to_vec(),
        _ => body.to_vec(),
    }
}

/// The text of a message before cleaning, its parts joined by one space each: 6,
/// then 1, 2, 4, 3 record by record.
pub(crate) fn joined(message: &[u8]) -> Answer {
    require(message.len() <= LONGEST_MESSAGE, SIZE)?;
    let records = records(message)?;
    let mut parts = Vec::new();
    for listed in LISTED {
        let present = records.iter().find(|(field, _)| *field == listed);
        parts.extend(present.map(|(field, body)| part(*field, body)));
    }
    Ok(parts.join(&b' '))
}

/// MAC text of a message: 6, then 1, 2, 4, 3 record by record, then 13.
pub fn message_text(message: &[u8], room: usize) -> CountedAnswer {
    let before = joined(message)?;
    Counted::new(cleaned(&before), &before).lend(room)
}
