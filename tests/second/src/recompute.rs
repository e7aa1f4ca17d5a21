//! Computes the answer of each request from its inputs alone.

use crate::cleaning::{Counted, CountedAnswer};
use crate::dukpt::{to_bytes, Double, Key, NextKey, Single};
use crate::lines::{answer_line, bytes_value, requests, self_test_line, text_value};
use crate::lines::{Inputs, Request, Rooms};
use crate::numbers::{lend, Answer};
use crate::{card, cleaning, dukpt, entries, key_entry, mac, message, numbers};
use crate::{password, pin, self_test, vip};
use std::io::{BufRead, Write};

/// Reads the inputs of a request and computes its answer's line, with the rooms
/// lent. An error says what is wrong with the inputs.
type Compute = fn(&mut Inputs, Rooms) -> Result<String, String>;

/// The line of the one value of bytes, if the room is enough for it.
fn bytes(answer: Answer, rooms: Rooms) -> Result<String, String> {
    let lent = answer.and_then(|value| lend(value, rooms.result));
    Ok(answer_line(&lent.map(|value| vec![bytes_value(&value)])))
}

/// The line of the one value that is a PIN, a password, a VIP number or a text,
/// if the room is enough for it.
fn text(answer: Answer, rooms: Rooms) -> Result<String, String> {
    let lent = answer.and_then(|value| lend(value, rooms.result));
    Ok(answer_line(&lent.map(|value| vec![text_value(&value)])))
}

/// The line of a value as it is written and its two counts, if the room is
/// enough for it.
fn counted(
    answer: CountedAnswer,
    rooms: Rooms,
    written: fn(&[u8]) -> String,
) -> Result<String, String> {
    let values = |counted: Counted| {
        let (dropped, spaces) = (counted.dropped, counted.spaces);
        vec![
            written(&counted.value),
            dropped.to_string(),
            spaces.to_string(),
        ]
    };
    let lent = answer.and_then(|counted| counted.lend(rooms.result));
    Ok(answer_line(&lent.map(values)))
}

/// The line of key, serial number and the record after the call.
fn next_key<K: Key>(answer: Result<NextKey<K>, u8>) -> Result<String, String> {
    let values = |next: NextKey<K>| {
        let record = to_bytes(&next.record);
        [next.key.as_ref(), &next.serial, &record].map(bytes_value)
    };
    Ok(answer_line(&answer.map(values).map(Vec::from)))
}

/// Every request, by its name.
#[rustfmt::skip]
const REQUESTS: [(&str, Compute); 35] = [
    ("meaning", |i, r| text(numbers::meaning(i.number()?), r)),

    ("encrypt", |i, r| bytes(entries::encrypt(&i.bytes()?, &i.bytes()?), r)),
    ("decrypt", |i, r| bytes(entries::decrypt(&i.bytes()?, &i.bytes()?), r)),

    ("key-entry", |i, r| {
        let (wanted, text) = (i.number()?, i.text()?);
        bytes(key_entry::key_entry(&text, wanted, r.result), r)
    }),
    ("clean", |i, r| counted(cleaning::clean(&i.text()?, r.result), r, text_value)),
    ("message-text", |i, r| counted(message::message_text(&i.bytes()?, r.result), r, text_value)),
    ("text-mac", |i, r| counted(mac::text_mac(&i.bytes()?, &i.text()?), r, bytes_value)),
    ("message-mac", |i, r| counted(mac::message_mac(&i.bytes()?, &i.bytes()?), r, bytes_value)),

    ("pin-make", |i, r| bytes(pin::make(&i.characters()?), r)),
    ("pin-make-with-card", |i, r| bytes(pin::make_with_card(&i.characters()?, &i.characters()?), r)),
    ("pin-read", |i, r| text(pin::read(&i.bytes()?, r.result), r)),
    ("pin-read-with-card", |i, r| text(pin::read_with_card(&i.bytes()?, &i.characters()?, r.result), r)),
    ("pin-encrypt", |i, r| bytes(pin::encrypt(&i.bytes()?, &i.characters()?), r)),
    ("pin-encrypt-with-card", |i, r| {
        bytes(pin::encrypt_with_card(&i.bytes()?, &i.characters()?, &i.characters()?), r)
    }),
    ("pin-decrypt", |i, r| text(pin::decrypt(&i.bytes()?, &i.bytes()?, r.result), r)),
    ("pin-decrypt-with-card", |i, r| {
        text(pin::decrypt_with_card(&i.bytes()?, &i.bytes()?, &i.characters()?, r.result), r)
    }),

    ("password-make", |i, r| bytes(password::make(&i.characters()?), r)),
    ("password-read", |i, r| text(password::read(&i.bytes()?, r.result), r)),
    ("vip-make", |i, r| bytes(vip::make(&i.characters()?), r)),
    ("vip-read", |i, r| text(vip::read(&i.bytes()?, r.result), r)),

    ("derivation-data", |i, r| bytes(card::derivation_data(&i.characters()?, i.number()?), r)),
    ("card-key", |i, r| bytes(card::card_key(&i.bytes()?, &i.characters()?, i.number()?), r)),
    ("card-key-unadjusted", |i, r| {
        bytes(card::card_key_unadjusted(&i.bytes()?, &i.characters()?, i.number()?), r)
    }),
    ("session-key", |i, r| bytes(card::session_key(&i.bytes()?, i.number::<u16>()?.to_be_bytes()), r)),
    ("arqc", |i, r| bytes(card::arqc(&i.bytes()?, &i.bytes()?), r)),
    ("arpc", |i, r| bytes(card::arpc(&i.bytes()?, &i.bytes()?, &i.bytes()?), r)),

    ("initial-key", |i, r| bytes(dukpt::initial_key::<Single>(&i.bytes()?, &i.bytes()?), r)),
    ("host-key", |i, r| bytes(dukpt::host_key::<Single>(&i.bytes()?, &i.bytes()?), r)),
    ("terminal-load", |i, r| bytes(entries::terminal_load::<Single>(&i.bytes()?, &i.bytes()?), r)),
    ("terminal-next-key", |i, r| {
        next_key(entries::terminal_next_key::<Single>(&i.bytes()?, r.result, r.serial))
    }),
    ("double-initial-key", |i, r| bytes(dukpt::initial_key::<Double>(&i.bytes()?, &i.bytes()?), r)),
    ("double-host-key", |i, r| bytes(dukpt::host_key::<Double>(&i.bytes()?, &i.bytes()?), r)),
    ("double-terminal-load", |i, r| bytes(entries::terminal_load::<Double>(&i.bytes()?, &i.bytes()?), r)),
    ("double-terminal-next-key", |i, r| {
        next_key(entries::terminal_next_key::<Double>(&i.bytes()?, r.result, r.serial))
    }),

    ("self-test", |_, _| Ok(self_test_line(self_test::self_test()))),
];

/// The answer's line of a request's line; an error says why it is no request.
pub fn answer(line: &[u8]) -> Result<String, String> {
    let mut request = Request::read(line)?;
    let found = REQUESTS.iter().find(|(name, _)| *name == request.name);
    let (_, compute) = found.ok_or(format!("no request `{}`", request.name))?;
    let line = compute(&mut request.inputs, request.rooms)?;
    request.inputs.end()?;
    Ok(line)
}

/// Answers every request of the input. A line that is no request is an error.
pub fn run(input: impl BufRead, output: &mut impl Write) -> Result<(), String> {
    for (number, line) in requests(input)? {
        let answer = answer(&line).map_err(|error| format!("line {number}: {error}"))?;
        writeln!(output, "{answer}").map_err(|error| error.to_string())?;
    }
    Ok(())
}
