//! Messages and free texts, whole and damaged.

use crate::random::Random;

/// A record of a message: field number and body.
type Record = (u16, Vec<u8>);

const DIGITS: &[u8] = b"0123456789";
const LETTERS_AND_DIGITS: &[u8] = b"0123456789ABCDEFGHIJKLMNOPQRSTUVWXYZabcdefghijklmnopqrstuvwxyz";
/// Listed fields after the message type.
const LISTED: [u16; 15] = [2, 3, 4, 7, 11, 18, 25, 28, 32, 33, 38, 39, 41, 42, 90];

/// A body that the field accepts.
fn body(random: &mut Random, field: u16) -> Vec<u8> {
    let mut digits = |least, most| {
        let length = random.between(least, most);
        random.characters(DIGITS, length)
    };
    match field {
        18 => digits(4, 4),
        2 => digits(13, 19),
        3 | 11 => digits(6, 6),
        4 => digits(12, 12),
        7 => digits(10, 10),
        25 => digits(2, 2),
        32 | 33 => digits(1, 11),
        90 => digits(42, 42),
        28 => {
            let sign = [random.one_of(b"CD")];
            [sign.to_vec(), random.characters(DIGITS, 8)].concat()
        }
        38 => random.characters(LETTERS_AND_DIGITS, 6),
        39 => random.characters(LETTERS_AND_DIGITS, 2),
        41 => printable(random, 8),
        42 => printable(random, 15),
        _ => {
            let length = random.below(20);
            random.bytes(length)
        }
    }
}

/// So many bytes from 20 to 7E hex, with many spaces.
fn printable(random: &mut Random, count: usize) -> Vec<u8> {
    let one = |random: &mut Random| match random.below(3) {
        0 => b' ',
        1 => random.one_of(LETTERS_AND_DIGITS),
        _ => random.between(0x20, 0x7E) as u8,
    };
    (0..count).map(|_| one(random)).collect()
}

/// The records of a message that is accepted.
fn records(random: &mut Random) -> Vec<Record> {
    let start = random.one_of(&[b"01", b"02", b"04", b"05"]);
    let kind = [start.to_vec(), random.characters(DIGITS, 2)].concat();
    let often = random.between(1, 6);
    let mut records = vec![(0, kind)];
    for field in 1..=192 {
        let listed = LISTED.contains(&field);
        if (listed && random.below(6) < often) || (!listed && random.once_in(40)) {
            records.push((field, body(random, field)));
        }
    }
    records
}

/// Records as the bytes of a message.
fn written(records: &[Record]) -> Vec<u8> {
    let mut message = Vec::new();
    for (field, body) in records {
        message.extend((body.len() as u16).to_le_bytes());
        message.extend(field.to_le_bytes());
        message.extend(body);
    }
    message
}

/// Damages records: their order, numbers, bodies or type.
fn damage_records(random: &mut Random, records: &mut Vec<Record>) {
    let place = random.below(records.len());
    match random.below(8) {
        0 => records.swap(0, place),
        1 => records.insert(place, records[place].clone()),
        2 => records.push((random.between(193, 300) as u16, Vec::new())),
        3 => drop(records.remove(place)),
        4 => {
            records[0].1 = random
                .one_of(&[b"0300", b"0000", b"0600", b"1200", b"0x00"])
                .to_vec()
        }
        5 => drop(records[place].1.pop()),
        6 => records[place].1.push(random.one_of(DIGITS)),
        _ => random.spoil(&mut records[place].1, b"/:aC E\x1F\x7F"),
    }
}

/// Damages the bytes of a message.
fn damage_bytes(random: &mut Random, message: &mut Vec<u8>) {
    match random.below(5) {
        0 => message.truncate(random.below(message.len() + 1)),
        1 => message.extend(random.array::<3>()),
        2 => random.spoil(message, b"\0\x01\x04\xFF"),
        3 => message.push(0),
        _ => message.clear(),
    }
}

/// A message padded by an unlisted last field to 4,096 bytes or about as many.
fn long(random: &mut Random, mut records: Vec<Record>) -> Vec<u8> {
    records.retain(|(field, _)| *field < 192);
    let size = random.one_of(&[4000, 4095, 4096, 4097, 4098, 5000]);
    let left = size - written(&records).len() - 4;
    records.push((192, random.bytes(left)));
    written(&records)
}

/// A message: half of them whole.
pub fn message(random: &mut Random) -> Vec<u8> {
    let mut records = records(random);
    match random.below(32) {
        0 | 1 => long(random, records),
        2..=12 => {
            damage_records(random, &mut records);
            written(&records)
        }
        13..=16 => {
            let mut message = written(&records);
            damage_bytes(random, &mut message);
            message
        }
        _ => written(&records),
    }
}

/// A free text of at most so many bytes, now and then of another size about 1,024.
pub fn text(random: &mut Random, most: usize) -> Vec<u8> {
    let length = match random.below(16) {
        0 => random.between(1020, 1030),
        1 => random.below(4),
        _ => random.between(0, most),
    };
    match random.below(8) {
        0 => random.bytes(length),
        1 => random.characters(b" -;", length),
        2 => random.characters(b"a ", length),
        3 => random.characters(LETTERS_AND_DIGITS, length),
        _ => random.characters(b"AZaz09@[`{/:,.  - xY", length),
    }
}
