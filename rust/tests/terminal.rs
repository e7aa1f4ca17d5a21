//! Terminals of both lengths through their types: their first keys against the host's, their last key, and records that
//! were kept. ANSI's published examples of double length.

mod common;

use chizuregwo::*;
use common::{hex, DERIVATION_KEY, DOUBLE_DERIVATION_KEY, DOUBLE_SERIAL_NUMBER, SERIAL_NUMBER};

/// The tests of a kind of terminal: its type, sizes and entries, a derivation key and a serial number, and the last key
/// that a record holds with the key given out for it.
macro_rules! tests_of {
    (
        $kind:ident: $terminal:ident, key $key_size:literal, record $record_size:ident;
        entries $initial_key:path, $host_key:path, $next_key:path;
        inputs $derivation_key:ident, $serial_number:ident;
        last key $last_key:literal, given out $given_out:literal;
    ) => {
        mod $kind {
            use super::*;

            /// Where the filled mask stands: after the registers.
            const FILLED: usize = 21 * $key_size;
            const SERIAL: usize = FILLED + 4;
            const COUNTER: usize = SERIAL + 10;

            /// The terminal just loaded.
            fn loaded() -> $terminal {
                let key = $initial_key(&hex($derivation_key), &hex($serial_number)).unwrap();
                $terminal::load(&key, &hex($serial_number)).unwrap()
            }

            /// The place of the last key in a record: register 11.
            const LAST: std::ops::Range<usize> = 11 * $key_size..12 * $key_size;

            /// A record about to give its last key, from register 11 alone (counter 1FF800 hex).
            fn last_record() -> [u8; $record_size] {
                let mut record = [0; $record_size];
                record[LAST].copy_from_slice($last_key);
                record[FILLED..SERIAL].copy_from_slice(&(1u32 << 11).to_be_bytes());
                record[COUNTER..COUNTER + 4].copy_from_slice(&0x1FF800u32.to_be_bytes());
                record
            }

            #[test]
            fn keys_are_the_hosts() {
                let mut terminal = loaded();
                let mut cleared = hex($serial_number);
                cleared[7] &= 0xE0;
                cleared[8..].fill(0);
                assert_eq!(terminal.serial_number().to_vec(), cleared);
                let permitted = (1u32..).filter(|counter| counter.count_ones() <= 10);
                for counter in permitted.take(3000) {
                    assert_eq!(terminal.counter(), counter);
                    let next = terminal.next_key().unwrap();
                    assert_eq!(next.serial_number[8..], counter.to_be_bytes()[2..]);
                    let host = $host_key(&hex($derivation_key), &next.serial_number);
                    assert_eq!(host, Ok(next.key));
                }
                assert!(!terminal.is_exhausted());
            }

            #[test]
            fn loading_is_refused_for_wrong_sizes() {
                for size in [0, $key_size - 1, $key_size + 1, 24 - $key_size] {
                    let load = $terminal::load(&vec![0; size], &[0; 10]);
                    assert_eq!(load, Err(Error::Size));
                }
                for size in [0, 9, 11] {
                    let load = $terminal::load(&[0; $key_size], &vec![0; size]);
                    assert_eq!(load, Err(Error::Size));
                }
            }

            #[test]
            fn the_last_key_exhausts() {
                let mut terminal = $terminal::from_record(&last_record()).unwrap();
                let next = terminal.next_key().unwrap();
                assert_eq!(next.key, *$given_out);
                assert_eq!(next.serial_number.to_vec(), hex("000000000000001FF800"));
                assert!(terminal.is_exhausted());
                assert_eq!(terminal.counter(), 0);
                let record = *terminal.record();
                assert!(record[..$record_size - 1].iter().all(|byte| *byte == 0));
                assert_eq!(terminal.next_key(), Err(Error::Exhausted));
                assert_eq!(*terminal.record(), record);
                assert_eq!($terminal::from_record(&record), Ok(terminal));
            }

            #[test]
            fn records_are_judged() {
                let record = last_record();
                for size in [0, 186, 187, 188, 354, 355, 356, 374] {
                    if size != $record_size {
                        let judged = $terminal::from_record(&vec![0; size]);
                        assert_eq!(judged, Err(Error::Size));
                    }
                }
                for place in 0..$record_size {
                    let mut damaged = record;
                    damaged[place] ^= 1;
                    // The key and the first bytes of the serial number are free.
                    let free = LAST.contains(&place) || (SERIAL..SERIAL + 7).contains(&place);
                    let judged = $terminal::from_record(&damaged).err();
                    assert_eq!(judged, (!free).then_some(Error::BadRecord), "byte {place}");
                }
            }

            #[test]
            fn refused_calls_change_nothing() {
                let mut record = last_record();
                let (mut key, mut serial) = ([0xA5; $key_size], [0xA5; 10]);
                for (keys, serials) in [($key_size - 1, 10), ($key_size, 9), (0, 0)] {
                    let call = $next_key(&mut record, &mut key[..keys], &mut serial[..serials]);
                    assert_eq!(call, Err(Error::ShortBuffer));
                }
                let call = $next_key(&mut record[1..], &mut key, &mut serial);
                assert_eq!(call, Err(Error::Size));
                assert_eq!(record, last_record());
                assert_eq!((key, serial), ([0xA5; $key_size], [0xA5; 10]));
            }

            #[test]
            fn buffers_keep_their_bytes() {
                let mut record = last_record();
                let (mut key, mut serial) = ([0xA5; $key_size + 1], [0xA5; 11]);
                assert_eq!($next_key(&mut record, &mut key, &mut serial), Ok($key_size));
                assert_eq!(key[..$key_size], *$given_out);
                assert_eq!((key[$key_size], serial[10]), (0xA5, 0xA5));
            }

            #[test]
            fn debug_shows_no_key() {
                let mut terminal = loaded();
                let key = format!("{:?}", terminal.next_key().unwrap());
                assert!(!key.contains("key:"), "{key}");
                let shown = format!("{terminal:?}");
                assert!(shown.starts_with(stringify!($terminal)), "{shown}");
                assert!(shown.contains("counter: 2"), "{shown}");
            }
        }
    };
}

tests_of! {
    single: Terminal, key 8, record RECORD_SIZE;
    entries initial_key, host_key, lent::terminal_next_key;
    inputs DERIVATION_KEY, SERIAL_NUMBER;
    last key b"last key", given out b"last ke\x86";
}

tests_of! {
    double: DoubleTerminal, key 16, record DOUBLE_RECORD_SIZE;
    entries double_initial_key, double_host_key, lent::double_terminal_next_key;
    inputs DOUBLE_DERIVATION_KEY, DOUBLE_SERIAL_NUMBER;
    last key b"left keylast key", given out b"left ke\x86last ke\x86";
}

/// PIN blocks of counters 1 to 7 (ANS X9.24-1:2004, A.4): PIN 1234, card number 4012345678909.
const PUBLISHED_BLOCKS: [&str; 7] = [
    "1B9C1845EB993A7A",
    "10A01C8D02C69107",
    "18DC07B94797B466",
    "0BC79509D5645DF7",
    "5BC0AF22AD87B327",
    "A16DF70AE36158D8",
    "27711C16CB257F8E",
];

#[test]
fn published_double_length_keys() {
    let initial_key = hex("6AC292FAA1315B4D858AB3A3D7D5933A");
    let mut terminal = DoubleTerminal::load(&initial_key, &hex(DOUBLE_SERIAL_NUMBER)).unwrap();
    let register_key = hex("042666B49184CFA368DE9628D0397BC9");
    assert_eq!(terminal.record()[..16], register_key);
    for (number, block) in PUBLISHED_BLOCKS.iter().enumerate() {
        let key = terminal.next_key().unwrap().key;
        if number == 0 {
            assert_eq!(key.to_vec(), hex("042666B49184CF5C68DE9628D0397B36"));
        }
        let made = pin_encrypt_with_card(&key, b"1234", b"4012345678909");
        assert_eq!(made.unwrap().to_vec(), hex(block), "counter {}", number + 1);
    }
}

#[test]
fn halves_of_an_initial_key_are_not_compared() {
    let mut terminal = DoubleTerminal::load(&[1; 16], &[0; 10]).unwrap();
    let key = terminal.next_key().unwrap().key;
    assert_ne!(key[..8], key[8..]);
}
