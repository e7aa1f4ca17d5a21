//! Lines of requests and lines of answers, as the program `czg` reads and
//! writes them.
//!
//! A request is `NAME[@ROOM][/LABEL] INPUT INPUT ..` with single spaces between.
//! An answer is `done` and the values, or `refused` and the number; of the
//! self-test `done`, or `failed` and the number of the check. The values of a
//! request that cleans a text are the text or its MAC, the bytes dropped and the
//! spaces that went out, both in decimal.

use std::io::BufRead;

/// The largest room, and the one that is lent where a request names none.
const MOST_ROOM: usize = 1024;

/// The requests for a terminal's next key: they may name two rooms.
const NEXT_KEYS: [&[u8]; 2] = [b"terminal-next-key", b"double-terminal-next-key"];

/// The room that is lent.
#[derive(Clone, Copy, Debug, PartialEq, Eq)]
pub struct Rooms {
    /// For the result; for the key where a terminal's next key is asked for.
    pub result: usize,
    /// For the serial number where a terminal's next key is asked for.
    pub serial: usize,
}

/// A request.
#[derive(Clone, Debug, PartialEq, Eq)]
pub struct Request<'a> {
    /// What is computed.
    pub name: &'a str,
    /// The room that is lent.
    pub rooms: Rooms,
    /// Name of the case; it has no effect.
    pub label: &'a [u8],
    /// The inputs, none of them read yet.
    pub inputs: Inputs<'a>,
}

/// The inputs that are not read yet: what stands after the last space.
#[derive(Clone, Debug, PartialEq, Eq)]
pub struct Inputs<'a>(Option<&'a [u8]>);

/// What stands before the first `mark` and after it, if there is one.
fn split(bytes: &[u8], mark: u8) -> (&[u8], Option<&[u8]>) {
    match bytes.iter().position(|byte| *byte == mark) {
        Some(place) => (&bytes[..place], Some(&bytes[place + 1..])),
        None => (bytes, None),
    }
}

/// A decimal number.
fn decimal<T: std::str::FromStr>(digits: &[u8]) -> Result<T, String> {
    let shown = String::from_utf8_lossy(digits);
    let read = shown.parse().ok();
    read.filter(|_| digits.iter().all(u8::is_ascii_digit))
        .ok_or(format!("`{shown}` is not a decimal number in range"))
}

/// A room of at most 1,024 bytes; that much where none is named.
fn room(digits: Option<&[u8]>) -> Result<usize, String> {
    let room = digits.map_or(Ok(MOST_ROOM), decimal)?;
    if room > MOST_ROOM {
        return Err(format!("a room of {room} bytes"));
    }
    Ok(room)
}

/// The rooms that stand after `@`: a second one for a terminal's next key alone,
/// and none for the self-test.
fn rooms(name: &[u8], named: Option<&[u8]>) -> Result<Rooms, String> {
    let (result, serial) = match named.map(|named| split(named, b',')) {
        Some((result, serial)) => (Some(result), serial),
        None => (None, None),
    };
    if serial.is_some() && !NEXT_KEYS.contains(&name) {
        return Err("two rooms".to_string());
    }
    if named.is_some() && name == b"self-test" {
        return Err("a room for no result".to_string());
    }
    Ok(Rooms {
        result: room(result)?,
        serial: room(serial)?,
    })
}

impl<'a> Request<'a> {
    /// The request of a line.
    pub fn read(line: &'a [u8]) -> Result<Self, String> {
        let (head, inputs) = split(line, b' ');
        let (asked, label) = split(head, b'/');
        let (name, named) = split(asked, b'@');
        Ok(Request {
            name: std::str::from_utf8(name).map_err(|error| error.to_string())?,
            rooms: rooms(name, named)?,
            label: label.unwrap_or_default(),
            inputs: Inputs(inputs),
        })
    }
}

/// Value of a hexadecimal digit of either case.
fn digit(character: u8) -> Option<u8> {
    let capital = character.to_ascii_uppercase();
    let place = b"0123456789ABCDEF".iter().position(|d| *d == capital)?;
    Some(place as u8)
}

/// One byte or more that hexadecimal digits write, two digits a byte.
pub fn hexadecimal(digits: &[u8]) -> Option<Vec<u8>> {
    let byte = |pair: &[u8]| match pair {
        [high, low] => Some(16 * digit(*high)? + digit(*low)?),
        _ => None,
    };
    let bytes: Option<Vec<u8>> = digits.chunks(2).map(byte).collect();
    bytes.filter(|bytes| !bytes.is_empty())
}

/// Characters as such; `-` for none; `hex:` and hexadecimal digits for any bytes.
fn as_such(input: &[u8]) -> Result<Vec<u8>, String> {
    if input == b"-" {
        return Ok(Vec::new());
    }
    match input.strip_prefix(b"hex:") {
        Some(b"") => Ok(Vec::new()),
        Some(digits) => hexadecimal(digits).ok_or("no hexadecimal bytes after `hex:`".to_string()),
        None => Ok(input.to_vec()),
    }
}

impl<'a> Inputs<'a> {
    /// The next input, up to a space.
    fn next(&mut self) -> Result<&'a [u8], String> {
        let (input, rest) = split(self.0.ok_or("an input is missing")?, b' ');
        self.0 = rest;
        if input.is_empty() {
            return Err("an empty input".to_string());
        }
        Ok(input)
    }

    /// An input of bytes: hexadecimal, `-` for none.
    pub fn bytes(&mut self) -> Result<Vec<u8>, String> {
        let input = self.next()?;
        if input == b"-" {
            return Ok(Vec::new());
        }
        let shown = String::from_utf8_lossy(input);
        hexadecimal(input).ok_or(format!("`{shown}` is not hexadecimal bytes"))
    }

    /// An input of characters: a PIN, a card number, a password or a VIP number.
    pub fn characters(&mut self) -> Result<Vec<u8>, String> {
        as_such(self.next()?)
    }

    /// An input of text: the rest of the line, with its spaces.
    pub fn text(&mut self) -> Result<Vec<u8>, String> {
        let rest = self.0.take().filter(|rest| !rest.is_empty());
        as_such(rest.ok_or("a text is missing")?)
    }

    /// An input that is a decimal number.
    pub fn number<T: std::str::FromStr>(&mut self) -> Result<T, String> {
        decimal(self.next()?)
    }

    /// That no input is left.
    pub fn end(&self) -> Result<(), String> {
        match self.0 {
            None => Ok(()),
            Some(_) => Err("an input too many".to_string()),
        }
    }
}

/// The lines of requests with their numbers, from 1; empty lines and comments
/// are passed over. An input without a request is an error.
pub fn requests(input: impl BufRead) -> Result<Vec<(usize, Vec<u8>)>, String> {
    let mut requests = Vec::new();
    for (i, line) in input.split(b'\n').enumerate() {
        let line = line.map_err(|error| format!("line {}: {error}", i + 1))?;
        if !line.is_empty() && line[0] != b'#' {
            requests.push((i + 1, line));
        }
    }
    if requests.is_empty() {
        return Err("the input holds no request".to_string());
    }
    Ok(requests)
}

/// A value of bytes as it is written: capital hexadecimal, `-` for none.
pub fn bytes_value(bytes: &[u8]) -> String {
    if bytes.is_empty() {
        "-".to_string()
    } else {
        crate::bytes::hex(bytes)
    }
}

/// A PIN, a password, a VIP number or a text as it is written: as such, `-` for
/// none.
pub fn text_value(text: &[u8]) -> String {
    assert!(text.is_ascii());
    if text.is_empty() {
        "-".to_string()
    } else {
        String::from_utf8_lossy(text).into_owned()
    }
}

/// Values when done, as they are written, or the number of the refusal.
pub type Answered = Result<Vec<String>, u8>;

/// The line of an answer.
pub fn answer_line(answered: &Answered) -> String {
    match answered {
        Ok(values) => format!("done {}", values.join(" ")),
        Err(number) => format!("refused {number}"),
    }
}

/// The line of the self-test's answer: the number is that of the check.
pub fn self_test_line(tested: Result<(), u8>) -> String {
    match tested {
        Ok(()) => "done".to_string(),
        Err(number) => format!("failed {number}"),
    }
}
