//! One input through both, and every byte of lent memory and every member of the answer compared.

use crate::entries::{meaning_of, Entry, Input, Value, MEANING};
use crate::random::Random;
use chizuregwo::{Error, MOST_MEANING};
use second::bytes::hex;
use second::numbers::SHORT_BUFFER;
use std::panic::{catch_unwind, AssertUnwindSafe};

/// Bytes on each side of a lent buffer that must stay as they are.
const MARGIN: usize = 16;

/// A lent buffer with a margin on each side, filled with a pattern.
pub struct Lent {
    before: Vec<u8>,
    after: Vec<u8>,
    room: usize,
}

impl Lent {
    /// A buffer of so many bytes.
    pub fn new(random: &mut Random, room: usize) -> Lent {
        let before = random.bytes(room + 2 * MARGIN);
        let after = before.clone();
        Lent {
            before,
            after,
            room,
        }
    }

    /// Puts bytes into the buffer, to be there before the call.
    pub fn start_with(&mut self, bytes: &[u8]) {
        self.before[MARGIN..MARGIN + bytes.len()].copy_from_slice(bytes);
        self.after.clone_from(&self.before);
    }

    /// The bytes that are lent.
    pub fn bytes(&mut self) -> &mut [u8] {
        &mut self.after[MARGIN..MARGIN + self.room]
    }

    /// Compares every byte: the value from the start, then the old bytes, and the margins.
    pub fn holds(&self, value: &[u8]) -> Result<(), String> {
        let mut wanted = self.before.clone();
        wanted[MARGIN..MARGIN + value.len()].copy_from_slice(value);
        if self.after == wanted {
            return Ok(());
        }
        Err(format!(
            "memory {} where {} was to be (with {MARGIN} bytes around)",
            hex(&self.after),
            hex(&wanted)
        ))
    }
}

// The crate holds a refusal to zeros by assertions: this test is built with them.
const _: () = assert!(cfg!(debug_assertions));

/// Calls the library. The crate panics where a refusal has a length or a count that is not 0: that is a difference too.
pub fn called<W>(call: impl FnOnce() -> Result<W, Error>) -> Result<Result<W, Error>, String> {
    catch_unwind(AssertUnwindSafe(call))
        .map_err(|_| "the crate panicked, as standard error says".to_string())
}

/// Compares what the library answers with an expected answer, the length and both counts too, and gives the number.
pub fn same_answer<V: Value>(
    answer: Result<V::Written, Error>,
    expected: &Result<V, u8>,
) -> Result<u8, String> {
    let got = answer.map_err(|error| error.number());
    let wanted = match expected {
        Ok(value) => Ok(value.written()),
        Err(number) => Err(u32::from(*number)),
    };
    if got == wanted {
        return Ok(expected.as_ref().err().copied().unwrap_or(0));
    }
    Err(format!(
        "{got:?} where the second implementation has {wanted:?}"
    ))
}

/// Room for a result: its length, more or less; any for a refusal.
fn room<V: Value>(random: &mut Random, result: &Result<V, u8>) -> usize {
    let Ok(value) = result.as_ref().map(V::bytes) else {
        return random.below(200);
    };
    match random.below(10) {
        0..=4 => value.len(),
        5 => value.len() + 1,
        6 => value.len() + random.between(2, 60),
        7 => value.len().saturating_sub(1),
        8 => random.below(value.len() + 1),
        _ => 0,
    }
}

/// One input of an entry; gives the number answered, or says what differs.
pub fn compare<V: Value>(random: &mut Random, entry: &Entry<V>) -> Result<u8, String> {
    let input = (entry.input)(random);
    let unlimited = (entry.second)(&input);
    let room = room(random, &unlimited);
    compare_call(random, entry, &input, unlimited, room)
}

/// The meanings of the numbers from 0 to 20 and of larger ones, each with every room up to one byte more than the longest
/// meaning fills. Gives the numbers answered.
pub fn room_by_room(random: &mut Random) -> Result<Vec<u8>, String> {
    let larger = [255, 256, 256 + 13, 1 << 16, 1 << 31, u32::MAX - 1, u32::MAX];
    let mut numbers = Vec::new();
    for number in (0..=20).chain(larger) {
        let input = meaning_of(number);
        let unlimited = (MEANING.second)(&input);
        for room in 0..=MOST_MEANING + 1 {
            let expected = unlimited.clone();
            numbers.push(compare_call(random, &MEANING, &input, expected, room)?);
        }
    }
    Ok(numbers)
}

/// One call of the library, its answer and every byte of lent memory compared with what the second implementation answers
/// if the room is unlimited; gives the number.
pub fn compare_call<V: Value>(
    random: &mut Random,
    entry: &Entry<V>,
    input: &Input,
    unlimited: Result<V, u8>,
    room: usize,
) -> Result<u8, String> {
    let expected = match unlimited {
        Ok(value) if value.bytes().len() > room => Err(SHORT_BUFFER),
        unlimited => unlimited,
    };
    let mut lent = Lent::new(random, room);
    let parts = input.parts.clone();
    let answer = called(|| (entry.library)(input, lent.bytes()));
    let value = expected.as_ref().map_or(&[][..], V::bytes);
    answer
        .and_then(|answer| same_answer(answer, &expected))
        .and_then(|number| lent.holds(value).map(|_| number))
        .and_then(|number| {
            if input.parts == parts {
                Ok(number)
            } else {
                Err("a part lent to be read was changed".to_string())
            }
        })
        .map_err(|difference| format!("{}: {difference}", shown(input, room)))
}

/// An input in hexadecimal.
fn shown(input: &Input, room: usize) -> String {
    let parts: Vec<String> = input
        .parts
        .iter()
        .map(|part| format!("[{}]", hex(part)))
        .collect();
    format!(
        "parts {} number {} room {room}",
        parts.join(" "),
        input.number
    )
}
