//! The terminal against the host and against paper 01's description of its
//! state, and the record's byte form: single and double length.

mod common;

use common::{described, hex, sized, DERIVATION, SERIAL};
use second::bytes::array;
use second::dukpt::{
    from_bytes, hangs_together, host_key, initial_key, labels, lies_under, next_counter,
    terminal_load, terminal_next_key, to_bytes, with_counter, Double, Key, Record, Single,
};

const LAST: u32 = 0x1F_F800;

/// Each test for both kinds of terminal.
macro_rules! for_both {
    ($($(#[$attribute:meta])* $test:ident,)*) => {
        mod single {
            $(#[test] $(#[$attribute])* fn $test() { super::$test::<super::Single>() })*
        }
        mod double {
            $(#[test] $(#[$attribute])* fn $test() { super::$test::<super::Double>() })*
        }
    };
}

for_both! {
    loading,
    first_3000_keys_are_the_hosts,
    each_state_is_the_described_one,
    step_past_the_last_counter,
    the_last_keys,
    #[ignore = "takes minutes: every key of a terminal"]
    all_keys_are_the_hosts,
    refusals_11_12_13,
    spoiled_records_do_not_hang_together,
    free_bytes_of_a_record,
    byte_form_round_trip,
    byte_form_places,
    byte_form_6_11,
}

fn initial<K: Key>() -> K {
    array(&initial_key::<K>(&hex(DERIVATION), &hex(SERIAL)).unwrap())
}

fn serial() -> [u8; 10] {
    with_counter(&sized(SERIAL), 0)
}

fn loaded<K: Key>() -> Record<K> {
    terminal_load(initial::<K>().as_ref(), &hex(SERIAL)).unwrap()
}

fn at<K: Key>(counter: u32) -> Record<K> {
    described(initial(), &serial(), counter)
}

/// The record after the last key.
fn exhausted<K: Key>() -> Record<K> {
    terminal_next_key(&at(LAST), K::SIZE).unwrap().record
}

/// A key of the same byte throughout.
fn key_of<K: Key>(byte: u8) -> K {
    array(&vec![byte; K::SIZE])
}

fn loading<K: Key>() {
    let loaded = loaded::<K>();
    assert_eq!(loaded, at(1));
    assert_eq!(loaded.filled, 0x1F_FFFF);
    assert_eq!(loaded.serial.to_vec(), hex("0123456789ABCDE00000"));
    for size in (0..=24).filter(|size| *size != K::SIZE) {
        assert_eq!(terminal_load::<K>(&vec![0; size], &[0; 10]), Err(6));
    }
    let zeros = vec![0; K::SIZE];
    assert_eq!(terminal_load::<K>(&zeros, &[0; 9]), Err(6));
    assert_eq!(terminal_load::<K>(&zeros, &[0; 11]), Err(6));
    assert!(terminal_load::<K>(&zeros, &[0xFF; 10]).is_ok());
}

/// Calls for so many keys and compares each with the host's.
fn drain<K: Key>(mut record: Record<K>, keys: u32) -> Record<K> {
    let mut given = 0;
    let mut counter = record.counter;
    while given < keys {
        // The next counter, from 1 up, with at most ten one bits.
        while counter.count_ones() > 10 {
            counter += 1;
        }
        let next = terminal_next_key(&record, K::SIZE).unwrap();
        let with = with_counter(&record.serial, counter);
        assert_eq!(next.serial, with);
        let host = host_key::<K>(&hex(DERIVATION), &with).unwrap();
        assert_eq!(next.key.as_ref(), host);
        record = next.record;
        given += 1;
        counter += 1;
    }
    record
}

fn first_3000_keys_are_the_hosts<K: Key>() {
    let record = drain(loaded::<K>(), 3000);
    assert_eq!(record, at(record.counter));
    // 7FF hex is left out.
    assert_eq!(record.counter, 3002);
}

fn each_state_is_the_described_one<K: Key>() {
    let starts = [
        1, 0x3F0, 0x7F0, 0xFFF, 0xF_F000, 0x10_0000, 0x1F_E000, 0x1F_F000,
    ];
    for start in starts.map(|start| next_counter(start - 1).unwrap()) {
        let mut record = at::<K>(start);
        for _ in 0..40 {
            let next = terminal_next_key(&record, K::SIZE).unwrap().record;
            if next.exhausted {
                break;
            }
            assert_eq!(next, at(next_counter(record.counter).unwrap()));
            record = next;
        }
    }
}

#[test]
fn next_counter_adds_1_or_the_lowest_one_bit() {
    let mut counter = 1u32;
    let mut given = 1;
    while let Some(next) = next_counter(counter) {
        let low = 1 << counter.trailing_zeros();
        let step = if counter.count_ones() < 10 { 1 } else { low };
        assert_eq!(next, counter + step);
        counter = next;
        given += 1;
    }
    assert_eq!(counter, LAST);
    // Counters of 21 bits with 1 to 10 one bits: half of 2^21, without 0.
    assert_eq!(given, (1 << 20) - 1);
}

#[test]
fn each_counter_lies_under_one_register_until_it_is_given() {
    let starts = [1, 2, 3, 0x3FF, 0x7FE, 0x800, 0xF_FC00, 0x10_0000, LAST];
    for record in starts.map(at::<Single>) {
        let labels = labels(&record);
        let permitted = (1u32..1 << 21).filter(|c| c.count_ones() <= 10);
        for counter in permitted {
            let over = labels.iter().filter(|label| lies_under(counter, **label));
            assert_eq!(over.count(), usize::from(counter >= record.counter));
        }
    }
    // 3 is 2 and 1: with 2 next it lies under register 1, whose label is 2.
    assert!(lies_under(3, 2) && !lies_under(4, 2) && !lies_under(3, 1));
}

fn step_past_the_last_counter<K: Key>() {
    let record = at::<K>(LAST);
    assert_eq!(record.filled, 1 << 11);
    let next = terminal_next_key(&record, K::SIZE).unwrap();
    let host = host_key::<K>(&hex(DERIVATION), &with_counter(&serial(), LAST));
    assert_eq!(Ok(next.key.as_ref().to_vec()), host);
    assert_eq!(next.serial.to_vec(), hex("0123456789ABCDFFF800"));
    let exhausted = Record {
        keys: [K::ZERO; 21],
        filled: 0,
        serial: serial(),
        counter: 0,
        exhausted: true,
    };
    assert_eq!(next.record, exhausted);
    assert_eq!(terminal_next_key(&exhausted, 0), Err(12));
}

fn the_last_keys<K: Key>() {
    let start = next_counter(0x1F_C000).unwrap();
    let (mut left, mut counter) = (1, start);
    while let Some(next) = next_counter(counter) {
        (left, counter) = (left + 1, next);
    }
    let record = drain(at::<K>(start), left);
    assert_eq!(terminal_next_key(&record, K::SIZE), Err(12));
}

fn all_keys_are_the_hosts<K: Key>() {
    let record = drain(loaded::<K>(), (1 << 20) - 1);
    assert!(record.exhausted);
    assert_eq!(terminal_next_key(&record, K::SIZE), Err(12));
}

fn refusals_11_12_13<K: Key>() {
    let good = at::<K>(0x7FE);
    assert_eq!(terminal_next_key(&good, K::SIZE - 1), Err(13));
    assert!(terminal_next_key(&good, K::SIZE).is_ok());
    let mut bad = good.clone();
    bad.counter = 0x7FF;
    assert_eq!(terminal_next_key(&bad, 0), Err(11));
    let exhausted = exhausted::<K>();
    assert_eq!(terminal_next_key(&exhausted, 0), Err(12));
    let mut bad = exhausted;
    bad.serial[9] = 1;
    assert_eq!(terminal_next_key(&bad, 0), Err(11));
    let all_zero = from_bytes::<K>(&vec![0; Record::<K>::BYTES]);
    assert_eq!(all_zero, Err(11));
}

/// Each way to spoil a record.
fn spoiled<K: Key>(good: &Record<K>) -> Vec<Record<K>> {
    let mut all = Vec::new();
    let mut spoil = |change: &dyn Fn(&mut Record<K>)| {
        let mut record = good.clone();
        change(&mut record);
        all.push(record);
    };
    for b in 0..32 {
        spoil(&|record| record.filled ^= 1 << b);
        spoil(&|record| record.counter ^= 1 << b);
    }
    for b in 0..21 {
        spoil(&|record| record.serial[9 - b / 8] ^= 1 << (b % 8));
    }
    for b in (0..21).filter(|b| good.filled >> b & 1 == 0) {
        for bit in [0, 7, 8 * K::SIZE - 8, 8 * K::SIZE - 1] {
            let mut key = vec![0; K::SIZE];
            key[bit / 8] = 1 << (bit % 8);
            spoil(&|record| record.keys[b] = array(&key));
        }
    }
    spoil(&|record| record.exhausted = !record.exhausted);
    if !good.exhausted {
        spoil(&|record| record.counter = 0);
        spoil(&|record| record.filled = 0);
    }
    all
}

fn spoiled_records_do_not_hang_together<K: Key>() {
    let mut records = [1, 2, 0x555, 0x7FE, 0x10_0001, LAST].map(at::<K>).to_vec();
    records.push(exhausted());
    for good in records {
        assert!(hangs_together(&good));
        for record in spoiled(&good) {
            assert_eq!(terminal_next_key(&record, K::SIZE), Err(11));
            assert_eq!(from_bytes::<K>(&to_bytes(&record)), Err(11));
        }
    }
}

fn free_bytes_of_a_record<K: Key>() {
    let mut record = at::<K>(0x400);
    record.keys[10] = key_of(0);
    record.keys[20] = key_of(0xFF);
    record.serial = [0xFF; 10];
    record.serial[7..].copy_from_slice(&[0xE0, 0, 0]);
    let next = terminal_next_key(&record, K::SIZE).unwrap();
    assert_eq!(next.key, K::ZERO.given_out());
    assert_eq!(next.serial[7..], [0xE0, 0x04, 0x00]);
    assert_eq!(next.record.keys[20], key_of(0xFF));
}

#[test]
fn keys_given_out() {
    assert_eq!(Single::ZERO.given_out(), sized("00000000000000FF"));
    let double = sized("00000000000000FF 00000000000000FF");
    assert_eq!(Double::ZERO.given_out(), double);
}

#[test]
fn byte_form_sizes() {
    assert_eq!(Record::<Single>::BYTES, 187);
    assert_eq!(Record::<Double>::BYTES, 355);
}

fn byte_form_round_trip<K: Key>() {
    for record in [at::<K>(1), at(0x555), at(0x7FE), at(LAST), exhausted()] {
        let bytes = to_bytes(&record);
        assert_eq!(bytes.len(), Record::<K>::BYTES);
        assert_eq!(from_bytes(&bytes), Ok(record));
    }
}

fn byte_form_places<K: Key>() {
    let record = at::<K>(0x10_0001);
    let bytes = to_bytes(&record);
    let (keys, rest) = bytes.split_at(21 * K::SIZE);
    assert_eq!(keys[..K::SIZE], *record.keys[0].as_ref());
    assert_eq!(keys[20 * K::SIZE..], *record.keys[20].as_ref());
    assert_eq!(rest[..4], [0x00, 0x0F, 0xFF, 0xFF]);
    assert_eq!(rest[4..14], hex("0123456789ABCDE00000"));
    assert_eq!(rest[14..18], [0x00, 0x10, 0x00, 0x01]);
    assert_eq!(rest[18..], [0]);
}

fn byte_form_6_11<K: Key>() {
    let last = Record::<K>::BYTES - 1;
    let bytes = to_bytes(&at::<K>(1));
    assert_eq!(from_bytes::<K>(&bytes[..last]), Err(6));
    assert_eq!(from_bytes::<K>(&[&bytes[..], &[0]].concat()), Err(6));
    assert_eq!(from_bytes::<K>(&[]), Err(6));
    for exhausted in 1..=255 {
        let mut wrong = bytes.clone();
        wrong[last] = exhausted;
        assert_eq!(from_bytes::<K>(&wrong), Err(11));
    }
    let mut wrong = to_bytes(&exhausted::<K>());
    wrong[last] = 2;
    assert_eq!(from_bytes::<K>(&wrong), Err(11));
}

/// A record of one kind has no size of the other.
#[test]
fn records_of_the_other_kind_are_6() {
    assert_eq!(from_bytes::<Double>(&to_bytes(&at::<Single>(1))), Err(6));
    assert_eq!(from_bytes::<Single>(&to_bytes(&at::<Double>(1))), Err(6));
}
