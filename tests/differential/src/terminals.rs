//! The next key of both kinds of terminal: records whole, damaged and damaged byte by byte, and the drain of one terminal.

use crate::compare::{called, same_answer, Lent};
use crate::entries::counter;
use crate::random::Random;
use chizuregwo::{lent, Error};
use second::bytes::{array, hex};
use second::dukpt::{self, Double, Key, Record, Single, REGISTERS};
use second::entries::terminal_next_key;
use second::numbers::EXHAUSTED;

/// Keys that a terminal gives.
pub const ALL_KEYS: usize = 1_048_575;

/// Derives a key from a derivation key and a serial number.
type Derive<K> = fn(&[u8], &[u8]) -> Result<K, Error>;
/// Loads a terminal with an initial key and a serial number: writes the record.
type Load = fn(&[u8], &[u8], &mut [u8]) -> Result<usize, Error>;
/// Calls for the next key: changes the record, writes the key and the serial number.
type CallForKey = fn(&mut [u8], &mut [u8], &mut [u8]) -> Result<usize, Error>;

/// A kind of terminal, and how the library is called for it.
pub struct Device<K> {
    /// The length of its keys.
    pub length: &'static str,
    /// The name of the entry for its next key in the header, without `czg_`.
    pub next_key_name: &'static str,
    initial_key: Derive<K>,
    host_key: Derive<K>,
    load: Load,
    next_key: CallForKey,
}

pub const SINGLE: Device<Single> = Device {
    length: "single",
    next_key_name: "terminal_next_key",
    initial_key: chizuregwo::initial_key,
    host_key: chizuregwo::host_key,
    load: lent::terminal_load,
    next_key: lent::terminal_next_key,
};

pub const DOUBLE: Device<Double> = Device {
    length: "double",
    next_key_name: "double_terminal_next_key",
    initial_key: chizuregwo::double_initial_key,
    host_key: chizuregwo::double_host_key,
    load: lent::double_terminal_load,
    next_key: lent::double_terminal_next_key,
};

/// A key of any bytes.
fn any_key<K: Key>(random: &mut Random) -> K {
    array(&random.bytes(K::SIZE))
}

/// Which registers are filled when a counter is next (01, Terminal keys): its lowest one bit's, and those above it whose
/// bit is 0.
fn is_filled(counter: u32, b: usize) -> bool {
    let lowest = counter.trailing_zeros() as usize;
    b == lowest || b > lowest && counter >> b & 1 == 0
}

/// The record with a counter next and these keys in its filled registers.
fn with_keys<K: Key>(serial: [u8; 10], counter: u32, key: impl Fn(usize) -> K) -> Record<K> {
    let filled = |b: &usize| is_filled(counter, *b);
    Record {
        keys: std::array::from_fn(|b| if filled(&b) { key(b) } else { K::ZERO }),
        filled: (0..REGISTERS).filter(filled).map(|b| 1 << b).sum(),
        serial: dukpt::with_counter(&serial, 0),
        counter,
        exhausted: false,
    }
}

/// The record of an exhausted terminal.
fn exhausted<K: Key>(serial: [u8; 10]) -> Record<K> {
    Record {
        keys: [K::ZERO; REGISTERS],
        filled: 0,
        serial: dukpt::with_counter(&serial, 0),
        counter: 0,
        exhausted: true,
    }
}

/// The last permitted counter.
const LAST_COUNTER: u32 = 0x1F_F800;

/// A permitted counter, often one with ten one bits or near the end.
fn permitted(random: &mut Random) -> u32 {
    let some = match random.below(8) {
        0 => random.one_of(&[
            1,
            0x3FF,
            0x400,
            0x7FE,
            0x800,
            0x1F_F000,
            LAST_COUNTER,
            0x10_0000,
        ]),
        1 => LAST_COUNTER >> random.below(12),
        _ => counter(random),
    };
    (some.min(LAST_COUNTER)..)
        .find(|counter| counter.count_ones() <= 10)
        .expect("a permitted counter")
}

/// A record that hangs together, with any keys; once in eight an exhausted one.
fn whole<K: Key>(random: &mut Random) -> Record<K> {
    let serial = random.array();
    if random.once_in(8) {
        return exhausted(serial);
    }
    let counter = permitted(random);
    let keys: [K; REGISTERS] = std::array::from_fn(|_| any_key(random));
    with_keys(serial, counter, |b| keys[b])
}

/// A record's bytes, half of them damaged.
fn record_bytes<K: Key>(random: &mut Random) -> Vec<u8> {
    let mut record = whole::<K>(random);
    match random.below(16) {
        0 => record.counter = random.next() as u32,
        1 => record.counter = counter(random),
        2 => record.filled ^= 1 << random.below(32),
        3 => record.exhausted ^= true,
        4 => record.serial[random.between(7, 9)] ^= 1 << random.below(8),
        5 => record.keys[random.below(REGISTERS)] = any_key(random),
        _ => (),
    }
    let mut bytes = dukpt::to_bytes(&record);
    let size = bytes.len();
    match random.below(16) {
        0 => bytes.resize(other_size(random, size), 0),
        1 => bytes[size - 1] = random.next() as u8,
        2 => random.spoil(&mut bytes, b"\0\x01\xFF"),
        3 => bytes.fill(0),
        _ => (),
    }
    bytes
}

/// A size that a record of so many bytes does not have: that of the other kind's too.
fn other_size(random: &mut Random, size: usize) -> usize {
    let other = Record::<Single>::BYTES + Record::<Double>::BYTES - size;
    random.one_of(&[0, 1, 8, size - 1, size + 1, size + 13, 2 * size, other])
}

impl<K: Key> Device<K> {
    /// One call for the next key through both, every byte of the three buffers compared; gives the number.
    fn compare_call(
        &self,
        random: &mut Random,
        bytes: &[u8],
        key_room: usize,
        serial_room: usize,
    ) -> Result<u8, String> {
        let expected = terminal_next_key::<K>(bytes, key_room, serial_room);
        let mut record = Lent::new(random, bytes.len());
        record.start_with(bytes);
        let mut key = Lent::new(random, key_room);
        let mut serial = Lent::new(random, serial_room);
        let answer = called(|| (self.next_key)(record.bytes(), key.bytes(), serial.bytes()));
        let same = || {
            let answered = expected
                .as_ref()
                .map(|next| next.key.as_ref().to_vec())
                .map_err(|number| *number);
            let number = same_answer(answer?, &answered)?;
            match &expected {
                Ok(next) => {
                    record.holds(&dukpt::to_bytes(&next.record))?;
                    key.holds(next.key.as_ref())?;
                    serial.holds(&next.serial)?;
                }
                Err(_) => {
                    record.holds(&[])?;
                    key.holds(&[])?;
                    serial.holds(&[])?;
                }
            }
            Ok(number)
        };
        same().map_err(|difference: String| {
            format!(
                "record {} key room {key_room} serial room {serial_room}: {difference}",
                hex(bytes)
            )
        })
    }

    /// One call on a record, whole or damaged, with buffers of any room.
    pub fn compare(&self, random: &mut Random) -> Result<u8, String> {
        let bytes = record_bytes::<K>(random);
        let size = K::SIZE;
        let key_rooms = [size, size, size, size, size + 1, 2 * size, 30, size - 1, 0];
        let key_room = random.one_of(&key_rooms);
        let serial_room = random.one_of(&[10, 10, 10, 10, 11, 16, 30, 9, 0]);
        self.compare_call(random, &bytes, key_room, serial_room)
    }

    /// One record damaged in each byte: each bit turned, then 0 and FF put there. Gives the numbers.
    pub fn byte_by_byte(&self, random: &mut Random) -> Result<Vec<u8>, String> {
        let whole = dukpt::to_bytes(&whole::<K>(random));
        let mut numbers = Vec::new();
        for place in 0..whole.len() {
            let old = whole[place];
            let turned = (0..8).map(|bit| old ^ 1 << bit);
            for new in turned.chain([0, 0xFF]) {
                let mut damaged = whole.clone();
                damaged[place] = new;
                numbers.push(self.compare_call(random, &damaged, K::SIZE, 10)?);
            }
        }
        Ok(numbers)
    }
}

/// What the second implementation says that a terminal's record holds when a counter is next: each filled register the
/// register key of the counter's bits above it, plus its own.
fn described<K: Key>(initial: K, serial: [u8; 10], counter: u32) -> Record<K> {
    with_keys(serial, counter, |b| {
        let above = counter >> b >> 1 << 1 << b;
        dukpt::register_key(initial, &serial, above + (1 << b))
    })
}

/// A terminal that is drained, with what the host knows of it and the counters that it has given out.
struct Drained<'a, K> {
    device: &'a Device<K>,
    derivation: [u8; 16],
    serial: [u8; 10],
    initial: K,
    record: Vec<u8>,
    given: Vec<bool>,
}

/// The permitted counters from the first on, in steps of so many numbers of 21 bits.
fn counters(first: usize, step: usize) -> impl Iterator<Item = u32> {
    let numbers = (first as u32..1 << 21).step_by(step);
    numbers.filter(|counter| counter.count_ones() <= 10)
}

impl<'a, K: Key> Drained<'a, K> {
    /// A terminal just loaded.
    fn loaded(device: &'a Device<K>, random: &mut Random) -> Result<Self, Error> {
        let (derivation, serial) = (random.array(), random.array());
        let initial = (device.initial_key)(&derivation, &serial)?;
        let mut record = vec![0; Record::<K>::BYTES];
        (device.load)(initial.as_ref(), &serial, &mut record)?;
        Ok(Drained {
            device,
            derivation,
            serial,
            initial,
            record,
            given: vec![false; 1 << 21],
        })
    }

    /// The library's host key for a serial number.
    fn host_key(&self, serial: &[u8; 10]) -> Result<K, String> {
        (self.device.host_key)(&self.derivation, serial).map_err(|e| e.to_string())
    }

    /// Calls for the next key: it must come with this counter and be the library's host key.
    fn call(&mut self, counter: u32) -> Result<(), String> {
        let (mut key, mut serial) = (vec![0; K::SIZE], [0; 10]);
        (self.device.next_key)(&mut self.record, &mut key, &mut serial)
            .map_err(|e| e.to_string())?;
        if serial != dukpt::with_counter(&self.serial, counter) {
            return Err(format!("given out with serial number {}", hex(&serial)));
        }
        let host = self.host_key(&serial)?;
        if key != host.as_ref() {
            return Err(format!(
                "key {} where the host has {}",
                hex(&key),
                hex(host.as_ref())
            ));
        }
        self.given[counter as usize] = true;
        Ok(())
    }

    /// Each of these counters must lie under exactly one filled register of the record, or under none if it was given out
    /// (02, M-101). Gives how many they are.
    fn reach(&self, counters: impl Iterator<Item = u32>) -> Result<usize, String> {
        let record = dukpt::from_bytes::<K>(&self.record);
        let labels = dukpt::labels(&record.map_err(|number| format!("record: {number}"))?);
        let mut checked = 0;
        for counter in counters {
            let over = labels
                .iter()
                .filter(|label| dukpt::lies_under(counter, **label));
            let (over, given) = (over.count(), self.given[counter as usize]);
            if over != usize::from(!given) {
                return Err(format!(
                    "{counter:X} lies under {over} filled registers, and given out is {given}"
                ));
            }
            checked += 1;
        }
        Ok(checked)
    }

    /// Before a counter is given out: the record must be as described, and the second implementation's host key the
    /// library's.
    fn sample(&self, counter: u32) -> Result<(), String> {
        let cleared = dukpt::with_counter(&self.serial, 0);
        let described = dukpt::to_bytes(&described(self.initial, cleared, counter));
        if self.record != described {
            return Err(format!(
                "record {} where {} was to be",
                hex(&self.record),
                hex(&described)
            ));
        }
        let serial = dukpt::with_counter(&self.serial, counter);
        let library = self.host_key(&serial)?;
        let second = dukpt::host_key::<K>(&self.derivation, &serial);
        if second != Ok(library.as_ref().to_vec()) {
            return Err(format!(
                "host key {} where the second has {second:02X?}",
                hex(library.as_ref())
            ));
        }
        Ok(())
    }
}

impl<K: Key> Device<K> {
    /// Loads a terminal and calls for so many keys: each must have the next permitted counter and be the library's host key;
    /// one in `sample` is compared with the second implementation's host key, and the record with its description, and some
    /// counters by the registers that they lie under; all counters before the first key and after the last. After the last
    /// of all keys three more calls must be refused with 12 and change nothing. Gives how many keys were sampled, and how
    /// many counters.
    pub fn drain(
        &self,
        random: &mut Random,
        keys: usize,
        sample: usize,
    ) -> Result<(usize, usize), String> {
        let mut terminal = Drained::loaded(self, random)
            .map_err(|e| format!("{} drain, loading: {e}", self.length))?;
        let (derivation, serial) = (hex(&terminal.derivation), hex(&terminal.serial));
        let failed = |when: &str, difference: String| {
            let length = self.length;
            format!("{length} drain, derivation key {derivation} serial number {serial} {when}: {difference}")
        };
        let loaded = terminal.reach(counters(1, 1));
        let mut reached = loaded.map_err(|difference| failed("loaded", difference))?;
        for (n, counter) in counters(1, 1).take(keys).enumerate() {
            let at = |difference| failed(&format!("counter {counter:X}"), difference);
            if n % sample == 0 {
                terminal.sample(counter).map_err(at)?;
                let some = counters(1 + n / sample % sample, sample);
                reached += terminal.reach(some).map_err(at)?;
            }
            terminal.call(counter).map_err(at)?;
        }
        let drained = terminal.reach(counters(1, 1));
        reached += drained.map_err(|difference| failed("drained", difference))?;
        for _ in 0..if keys == ALL_KEYS { 3 } else { 0 } {
            let number = self.compare_call(random, &terminal.record, K::SIZE, 10)?;
            if number != EXHAUSTED {
                let answered = format!("the number is {number}");
                return Err(failed("after the last key", answered));
            }
        }
        Ok((keys.div_ceil(sample), reached))
    }
}
