//! DUKPT on the host and in the terminal (01, terminal keys; 002), single and
//! double length (02, M-105).

mod keys;

use crate::bytes::array;
use crate::numbers::{
    require, Answer, BAD_COUNTER, BAD_RECORD, EQUAL_HALVES, EXHAUSTED, SHORT_BUFFER, SIZE,
};
pub use keys::{Double, Key, Single};

/// Number of registers and of counter bits.
pub const REGISTERS: usize = 21;
/// Largest number that the 21 counter bits hold.
const LARGEST_COUNTER: u32 = 0x1F_FFFF;

/// The terminal's state.
#[derive(Clone, Debug, PartialEq, Eq)]
pub struct Record<K> {
    /// Registers 0 to 20; register b belongs to the bit worth 2 to the power b.
    pub keys: [K; REGISTERS],
    /// Which registers are filled: bit b for register b.
    pub filled: u32,
    /// Serial number with its counter bits cleared.
    pub serial: [u8; 10],
    /// Counter to be given out next; 0 when exhausted.
    pub counter: u32,
    /// Whether the terminal is exhausted.
    pub exhausted: bool,
}

impl<K: Key> Record<K> {
    /// Length of the byte form: 187 or 355.
    pub const BYTES: usize = REGISTERS * K::SIZE + 19;
}

/// What a terminal's call for its next key gives.
#[derive(Clone, Debug, PartialEq, Eq)]
pub struct NextKey<K> {
    /// The key given out.
    pub key: K,
    /// Serial number with the counter of that key in it.
    pub serial: [u8; 10],
    /// The state after the call.
    pub record: Record<K>,
}

/// Whether bit b of a counter or mask is 1.
fn bit(number: u32, b: usize) -> bool {
    number >> b & 1 == 1
}

/// The lowest one bit of a counter that is not 0.
fn lowest(counter: u32) -> usize {
    let mut bits = 0..REGISTERS;
    bits.find(|b| bit(counter, *b)).expect("a one bit")
}

/// Register b's label when a counter is next: the bits of the counter above b,
/// plus bit b.
fn label(counter: u32, b: usize) -> u32 {
    let above = (b + 1..REGISTERS).filter(|above| bit(counter, *above));
    above.fold(1 << b, |sum, above| sum + (1 << above))
}

/// From 1 up in 21 bits, with at most ten one bits.
fn permitted(counter: u32) -> bool {
    let one_bits = (0..REGISTERS).filter(|b| bit(counter, *b)).count();
    (1..=LARGEST_COUNTER).contains(&counter) && one_bits <= 10
}

/// The smallest permitted counter above, if there is one.
pub fn next_counter(counter: u32) -> Option<u32> {
    (counter + 1..=LARGEST_COUNTER).find(|above| permitted(*above))
}

/// The 21-bit counter at the end of a serial number.
fn counter_of(serial: &[u8; 10]) -> u32 {
    let last = u32::from_be_bytes([0, serial[7], serial[8], serial[9]]);
    last & LARGEST_COUNTER
}

/// A serial number with its counter bits replaced.
pub fn with_counter(serial: &[u8; 10], counter: u32) -> [u8; 10] {
    let [_, high, middle, low] = counter.to_be_bytes();
    let mut replaced = *serial;
    replaced[7] = serial[7] & 0xE0 | high;
    replaced[8] = middle;
    replaced[9] = low;
    replaced
}

/// The last 8 bytes of a serial number with its counter bits replaced.
fn data(serial: &[u8; 10], counter: u32) -> [u8; 8] {
    array(&with_counter(serial, counter)[2..])
}

/// Register key of a counter: from the initial key and the cleared data, a step
/// for each one bit, highest first, which is set in the data.
pub fn register_key<K: Key>(initial: K, serial: &[u8; 10], counter: u32) -> K {
    let mut key = initial;
    let mut set = 0;
    for b in (0..REGISTERS).rev() {
        if bit(counter, b) {
            set += 1 << b;
            key = key.one_way(data(serial, set));
        }
    }
    key
}

/// Whether the two halves of a key agree in each byte without its low bit.
fn same_halves(key: &[u8; 16]) -> bool {
    (0..8).all(|i| key[i] / 2 == key[8 + i] / 2)
}

/// 6, then 9.
fn host_inputs(derivation: &[u8], serial: &[u8]) -> Result<([u8; 16], [u8; 10]), u8> {
    require(derivation.len() == 16, SIZE)?;
    require(serial.len() == 10, SIZE)?;
    let derivation = array(derivation);
    require(!same_halves(&derivation), EQUAL_HALVES)?;
    Ok((derivation, array(serial)))
}

/// From the serial number's first 8 bytes, low five bits cleared.
fn initial_of<K: Key>(derivation: &[u8; 16], serial: &[u8; 10]) -> K {
    let cleared = with_counter(serial, 0);
    K::initial(derivation, &array(&cleared[..8]))
}

/// Initial key of a serial number, whatever its counter: 6, 9.
pub fn initial_key<K: Key>(derivation: &[u8], serial: &[u8]) -> Answer {
    let (derivation, serial) = host_inputs(derivation, serial)?;
    let initial: K = initial_of(&derivation, &serial);
    Ok(initial.as_ref().to_vec())
}

/// The host's key for a serial number with its counter: 6, 9, 10.
pub fn host_key<K: Key>(derivation: &[u8], serial: &[u8]) -> Answer {
    let (derivation, serial) = host_inputs(derivation, serial)?;
    let counter = counter_of(&serial);
    require(permitted(counter), BAD_COUNTER)?;
    let initial: K = initial_of(&derivation, &serial);
    let key = register_key(initial, &serial, counter).given_out();
    Ok(key.as_ref().to_vec())
}

/// Whether register b is filled when the counter is next: b is its lowest one
/// bit l, or b is above l and that bit of the counter is 0.
fn is_filled(counter: u32, b: usize) -> bool {
    let l = lowest(counter);
    b == l || (b > l && !bit(counter, b))
}

/// The filled mask when a counter is next.
fn filled_mask(counter: u32) -> u32 {
    let filled = (0..REGISTERS).filter(|b| is_filled(counter, *b));
    filled.map(|b| 1 << b).sum()
}

/// Exhausted: all registers empty and the counter 0. Otherwise a permitted
/// counter with its registers filled and no others.
fn counter_and_mask_agree<K>(record: &Record<K>) -> bool {
    if record.exhausted {
        record.counter == 0 && record.filled == 0
    } else {
        permitted(record.counter) && record.filled == filled_mask(record.counter)
    }
}

/// Whether a record hangs together. Only the bytes in a filled register are not
/// looked at.
pub fn hangs_together<K: Key>(record: &Record<K>) -> bool {
    let empty = (0..REGISTERS).filter(|b| !bit(record.filled, *b));
    let empty_are_zero = empty.map(|b| record.keys[b]).all(|key| key == K::ZERO);
    let serial_is_cleared = counter_of(&record.serial) == 0;
    counter_and_mask_agree(record) && empty_are_zero && serial_is_cleared
}

/// The labels of a record's filled registers, lowest register first.
pub fn labels<K>(record: &Record<K>) -> Vec<u32> {
    let filled = (0..REGISTERS).filter(|b| bit(record.filled, *b));
    filled.map(|b| label(record.counter, b)).collect()
}

/// Whether a counter lies under a register with this label: clearing all its
/// bits below the label's lowest one bit gives the label (02, M-101).
pub fn lies_under(counter: u32, label: u32) -> bool {
    let below = (1 << label.trailing_zeros()) - 1;
    counter & !below == label
}

/// Loading: the counter bits of the serial number are cleared and counter 1 is
/// next; register b holds the register key of bit b alone: 6.
pub fn terminal_load<K: Key>(initial: &[u8], serial: &[u8]) -> Result<Record<K>, u8> {
    require(initial.len() == K::SIZE, SIZE)?;
    require(serial.len() == 10, SIZE)?;
    let serial = with_counter(&array(serial), 0);
    Ok(Record {
        keys: std::array::from_fn(|b| register_key(array(initial), &serial, 1 << b)),
        filled: filled_mask(1),
        serial,
        counter: 1,
        exhausted: false,
    })
}

/// Past the last counter: all registers empty and the counter 0.
fn exhausted<K: Key>(serial: [u8; 10]) -> Record<K> {
    Record {
        keys: [K::ZERO; REGISTERS],
        filled: 0,
        serial,
        counter: 0,
        exhausted: true,
    }
}

/// What register b holds when `next` is next. Above l it holds it already. Below
/// l the bits of `next` above b are the counter given out, so its key is one
/// step from the register key just used.
fn new_register<K: Key>(record: &Record<K>, next: u32, b: usize) -> K {
    let l = lowest(record.counter);
    if !is_filled(next, b) {
        K::ZERO
    } else if b > l {
        record.keys[b]
    } else {
        let counter = label(next, b);
        assert_eq!(counter, record.counter + (1 << b));
        record.keys[l].one_way(data(&record.serial, counter))
    }
}

/// The record after its counter was given out.
fn following<K: Key>(record: &Record<K>) -> Record<K> {
    let Some(next) = next_counter(record.counter) else {
        return exhausted(record.serial);
    };
    Record {
        keys: std::array::from_fn(|b| new_register(record, next, b)),
        filled: filled_mask(next),
        serial: record.serial,
        counter: next,
        exhausted: false,
    }
}

/// The terminal's next key, from the register of the counter's lowest one bit:
/// 11, 12, 13.
pub fn terminal_next_key<K: Key>(record: &Record<K>, room: usize) -> Result<NextKey<K>, u8> {
    require(hangs_together(record), BAD_RECORD)?;
    require(!record.exhausted, EXHAUSTED)?;
    require(room >= K::SIZE, SHORT_BUFFER)?;
    Ok(NextKey {
        key: record.keys[lowest(record.counter)].given_out(),
        serial: with_counter(&record.serial, record.counter),
        record: following(record),
    })
}

/// Byte form: registers 0 to 20, filled mask, serial number, counter, exhausted.
pub fn to_bytes<K: Key>(record: &Record<K>) -> Vec<u8> {
    let mut bytes = Vec::new();
    for key in &record.keys {
        bytes.extend(key.as_ref());
    }
    bytes.extend(record.filled.to_be_bytes());
    bytes.extend(record.serial);
    bytes.extend(record.counter.to_be_bytes());
    bytes.push(record.exhausted as u8);
    bytes
}

/// The record of a byte form: another length is 6, no valid record is 11.
pub fn from_bytes<K: Key>(bytes: &[u8]) -> Result<Record<K>, u8> {
    require(bytes.len() == Record::<K>::BYTES, SIZE)?;
    let (keys, rest) = bytes.split_at(REGISTERS * K::SIZE);
    require(rest[18] <= 1, BAD_RECORD)?;
    let record = Record {
        keys: std::array::from_fn(|b| array(&keys[K::SIZE * b..][..K::SIZE])),
        filled: u32::from_be_bytes(array(&rest[..4])),
        serial: array(&rest[4..14]),
        counter: u32::from_be_bytes(array(&rest[14..18])),
        exhausted: rest[18] == 1,
    };
    require(hangs_together(&record), BAD_RECORD)?;
    Ok(record)
}
