//! Every refusal of paper 01 and their order.

mod common;

use common::{counted, field, hex, message};
use second::cleaning::clean;
use second::dukpt::{Double, Single};
use second::key_entry::key_entry;
use second::mac::{message_mac, text_mac};
use second::message::message_text;
use second::numbers::{meaning, Answer};
use second::{card, dukpt, pin};

const KEY: &[u8] = &[0x11; 8];
const DOUBLE: &[u8] = b"0123456789abcdef";
const CARD: &[u8] = b"4219876543210987";

/// An entry that takes a derivation key and a serial number.
type Derivation = fn(&[u8], &[u8]) -> Answer;
const INITIAL_KEYS: [Derivation; 2] = [dukpt::initial_key::<Single>, dukpt::initial_key::<Double>];
const HOST_KEYS: [Derivation; 2] = [dukpt::host_key::<Single>, dukpt::host_key::<Double>];

#[test]
fn meaning_6() {
    assert_eq!(meaning(0), Ok(b"done".to_vec()));
    let last = b"lent buffer shorter than the result";
    assert_eq!(meaning(13), Ok(last.to_vec()));
    for number in [14, 15, 255, 256, 1 << 16, u32::MAX] {
        assert_eq!(meaning(number), Err(6));
    }
}

#[test]
fn key_entry_6_7_13() {
    assert_eq!(key_entry(b"", 0, 0), Err(6));
    assert_eq!(key_entry(b"0123456789ABCDEF01234567", 12, 99), Err(6));
    assert_eq!(key_entry(b"0123456789ABCDEF", 16, 99), Err(6));
    assert_eq!(key_entry(b"01234567", 8, 99), Err(6));
    assert_eq!(key_entry(b"0123456789ABCDEG0", 8, 0), Err(6));
    assert_eq!(key_entry(b"0123456789ABCDEF", usize::MAX, 0), Err(6));
    assert_eq!(key_entry(b"0123456789ABCDEG", 8, 0), Err(7));
    assert_eq!(key_entry(b" 123456789ABCDEF", 8, 8), Err(7));
    assert_eq!(key_entry(b"0123456789ABCDEF", 8, 7), Err(13));
}

#[test]
fn cleaning_6_13() {
    assert_eq!(clean(&[b' '; 1025], 0), Err(6));
    assert_eq!(clean(&[b' '; 1024], 0), counted(b"", 0, 1024));
    assert_eq!(clean(&[b'a'; 1025], 0), Err(6));
    assert_eq!(clean(&[b'a'; 1024], 1023), Err(13));
    assert_eq!(clean(&[b'a'; 1024], 1024), counted(&[b'A'; 1024], 0, 0));
    assert_eq!(clean(b"", 0), counted(b"", 0, 0));
}

#[test]
fn text_mac_6_5() {
    assert_eq!(text_mac(&[0; 7], b""), Err(6));
    assert_eq!(text_mac(DOUBLE, b"A"), Err(6));
    assert_eq!(text_mac(KEY, &[b'-'; 1025]), Err(6));
    assert_eq!(text_mac(KEY, &[b'-'; 1024]), Err(5));
    assert_eq!(text_mac(KEY, b""), Err(5));
}

/// The refusal of a message's text, whatever the room.
fn refused(message: &[u8]) -> u8 {
    let number = message_text(message, 0).unwrap_err();
    assert_eq!(message_mac(KEY, message), Err(number));
    number
}

#[test]
fn message_size_first() {
    assert_eq!(refused(&[0xFF; 4097]), 6);
    assert_eq!(refused(&[0xFF; 4096]), 1);
    assert_eq!(refused(b""), 1);
    assert_eq!(message_mac(&[0; 9], b""), Err(6));
    let body = vec![0; 4096 - 8 - 4];
    let whole = message(&[(0, b"0200"), (192, &body)]);
    assert_eq!(whole.len(), 4096);
    assert_eq!(message_text(&whole, 4), counted(b"0200", 0, 0));
    let longer = message(&[(0, b"0200"), (192, &[body, vec![0]].concat())]);
    assert_eq!(refused(&longer), 6);
}

#[test]
fn records_one_at_a_time_1_2_4_3() {
    let type_3 = field(0, b"0300");
    // 1: head cut short, body cut short; before that record's 2.
    assert_eq!(refused(&[0, 0, 0]), 1);
    assert_eq!(refused(&[5, 0, 7, 0, b'x']), 1);
    assert_eq!(refused(&[0xFF, 0xFF, 0, 0, b'0']), 1);
    // 2: first field not 0; before 4.
    assert_eq!(refused(&field(2, b"x")), 2);
    assert_eq!(refused(&field(256, b"0200")), 2);
    // 4 before 3.
    assert_eq!(refused(&field(0, b"03x0")), 4);
    assert_eq!(refused(&field(0, b"")), 4);
    assert_eq!(refused(&field(0, b"02000")), 4);
    assert_eq!(refused(&type_3), 3);
    // The first record is judged before anything of the second.
    assert_eq!(refused(&[&type_3[..], b"x"].concat()), 3);
    assert_eq!(refused(&[&field(0, b"0200")[..], b"x"].concat()), 1);
    assert_eq!(refused(&[&type_3[..], &field(0, b"")].concat()), 3);
}

#[test]
fn message_types() {
    for number in 0..100 {
        let kind = format!("{number:02}00");
        let text = message_text(&field(0, kind.as_bytes()), 4);
        if [1, 2, 4, 5].contains(&number) {
            assert_eq!(text, counted(kind.as_bytes(), 0, 0));
        } else {
            assert_eq!(text, Err(3));
        }
    }
}

#[test]
fn field_numbers_rise_to_192() {
    let with = |fields: &[(u16, &[u8])]| {
        let all = [&[(0, &b"0200"[..])], fields].concat();
        message_text(&message(&all), 166)
    };
    assert_eq!(with(&[(192, b"")]), counted(b"0200", 0, 0));
    assert_eq!(with(&[(193, b"")]), Err(2));
    assert_eq!(with(&[(0, b"0200")]), Err(2));
    assert_eq!(with(&[(5, b""), (5, b"")]), Err(2));
    assert_eq!(with(&[(3, b"123456"), (2, b"x")]), Err(2));
    assert_eq!(with(&[(3, b"x"), (2, b"x")]), Err(4));
    assert_eq!(with(&[(256 + 3, b"123456")]), Err(2));
}

#[test]
fn bodies_of_listed_fields() {
    let fits = |number, body: &[u8]| {
        let answer = message_text(&message(&[(0, b"0200"), (number, body)]), 166);
        assert!(answer.is_ok() || answer == Err(4));
        answer.is_ok()
    };
    let digits = b"012345678901234567890123456789012345678901234567";
    for (number, least, most) in [
        (2, 13, 19),
        (3, 6, 6),
        (4, 12, 12),
        (7, 10, 10),
        (11, 6, 6),
        (18, 4, 4),
        (25, 2, 2),
        (32, 1, 11),
        (33, 1, 11),
        (38, 6, 6),
        (39, 2, 2),
        (41, 8, 8),
        (42, 15, 15),
        (90, 42, 42),
    ] {
        for length in 0..=45 {
            let expected = (least..=most).contains(&length);
            assert_eq!(fits(number, &digits[..length]), expected, "{number}");
        }
        for byte in 0..=255u8 {
            let mut body = digits[..most].to_vec();
            body[most - 1] = byte;
            let expected = match number {
                38 | 39 => byte.is_ascii_alphanumeric(),
                41 | 42 => (0x20..=0x7E).contains(&byte),
                _ => byte.is_ascii_digit(),
            };
            assert_eq!(fits(number, &body), expected, "{number}");
        }
    }
    assert!(fits(28, b"C00000000") && fits(28, b"D99999999"));
    assert!(!fits(28, b"c00000000") && !fits(28, b"d00000000"));
    assert!(!fits(28, b"000000000") && !fits(28, b"C0000000D"));
    assert!(!fits(28, b"C0000000") && !fits(28, b"C000000000") && !fits(28, b""));
}

#[test]
fn message_13_last() {
    let done = message(&[(0, b"0200"), (3, b"123456")]);
    assert_eq!(message_text(&done, 10), Err(13));
    assert_eq!(message_text(&done, 11), counted(b"0200 123456", 0, 0));
    let bad = message(&[(0, b"0200"), (3, b"12345x")]);
    assert_eq!(message_text(&bad, 0), Err(4));
}

#[test]
fn pin_make_6_7() {
    assert_eq!(pin::make(b"12x"), Err(6));
    assert_eq!(pin::make(b"1234567890123"), Err(6));
    assert_eq!(pin::make(b"123x"), Err(7));
    assert_eq!(pin::make_with_card(b"123x", b""), Err(6));
    assert_eq!(pin::make_with_card(b"1234", b"123456789012"), Err(6));
    assert_eq!(pin::make_with_card(b"123x", &[b'1'; 20]), Err(6));
    assert_eq!(pin::make_with_card(b"1234", b"123456789012x"), Err(7));
    assert_eq!(pin::make_with_card(b"12:4", CARD), Err(7));
}

#[test]
fn pin_read_6_7_8_13() {
    let good = hex("041234FFFFFFFFFF");
    assert_eq!(pin::read(&good[..7], 0), Err(6));
    assert_eq!(pin::read(&[0; 8], 0), Err(8));
    assert_eq!(pin::read(&good, 3), Err(13));
    assert_eq!(pin::read(&good, 4), Ok(b"1234".to_vec()));
    let block = hex("0412AC89ABCDEF67");
    assert_eq!(pin::read_with_card(&block, b"12x", 0), Err(6));
    assert_eq!(pin::read_with_card(&[0; 9], b"421987654321098x", 0), Err(6));
    assert_eq!(pin::read_with_card(&block, b"421987654321098x", 0), Err(7));
    assert_eq!(pin::read_with_card(&good, CARD, 0), Err(8));
    assert_eq!(pin::read_with_card(&block, CARD, 3), Err(13));
}

#[test]
fn pin_keys_are_8_or_16_bytes() {
    for length in 0..=33 {
        let key = vec![0x11; length];
        let number = if length == 8 || length == 16 { 7 } else { 6 };
        assert_eq!(pin::encrypt(&key, b"123x"), Err(number));
        assert_eq!(pin::encrypt_with_card(&key, b"123x", CARD), Err(number));
        let refused = pin::decrypt_with_card(&key, &[0; 8], b"421987654321098x", 0);
        assert_eq!(refused, Err(number));
    }
    assert_eq!(pin::encrypt(KEY, b"12x"), Err(6));
    assert_eq!(pin::encrypt_with_card(KEY, b"123x", b"1"), Err(6));
    assert_eq!(pin::decrypt(KEY, &[0; 7], 12), Err(6));
    assert_eq!(pin::decrypt(&[0; 7], &[0; 8], 12), Err(6));
    assert_eq!(pin::decrypt_with_card(KEY, &[0; 8], b"1", 12), Err(6));
    let block = pin::encrypt(KEY, b"1234").unwrap();
    assert_eq!(pin::decrypt(KEY, &block, 3), Err(13));
    assert_eq!(pin::decrypt(DOUBLE, &block, 3), Err(8));
}

#[test]
fn card_6_7() {
    assert_eq!(card::derivation_data(b"12345678901x", 0), Err(6));
    assert_eq!(card::derivation_data(&[b'1'; 20], 0), Err(6));
    assert_eq!(card::derivation_data(b"421987654321098x", 100), Err(6));
    assert_eq!(card::derivation_data(CARD, u32::MAX), Err(6));
    assert_eq!(card::derivation_data(b"421987654321098x", 99), Err(7));
    for entry in [card::card_key, card::card_key_unadjusted] {
        assert_eq!(entry(KEY, b"421987654321098x", 0), Err(6));
        assert_eq!(entry(DOUBLE, b"421987654321098x", 0), Err(7));
    }
    assert_eq!(card::session_key(KEY, [0, 1]), Err(6));
    assert_eq!(card::arqc(KEY, b"x"), Err(6));
    assert_eq!(card::arqc(DOUBLE, b""), Err(6));
    assert_eq!(card::arqc(DOUBLE, &[0; 256]), Err(6));
    assert!(card::arqc(DOUBLE, &[0; 255]).is_ok());
    assert_eq!(card::arpc(KEY, &[0; 8], b"01"), Err(6));
    assert_eq!(card::arpc(DOUBLE, &[0; 7], b"01"), Err(6));
    assert_eq!(card::arpc(DOUBLE, &[0; 8], b"1"), Err(6));
}

#[test]
fn equal_halves_are_refused_for_the_derivation_key_alone() {
    let equal = [0x11; 16];
    for entry in INITIAL_KEYS {
        assert_eq!(entry(&equal, &[0; 10]), Err(9));
    }
    assert!(card::card_key(&equal, CARD, 0).is_ok());
    assert!(dukpt::terminal_load::<Double>(&equal, &[0; 10]).is_ok());
}

#[test]
fn halves_are_compared_without_low_bits() {
    let serial = dukpt::with_counter(&[0; 10], 1);
    for entry in [INITIAL_KEYS, HOST_KEYS].concat() {
        for bits in 0..256 {
            let mut low_bits: [u8; 16] = std::array::from_fn(|i| 0x31 + i as u8 % 8);
            (0..8).for_each(|i| low_bits[8 + i] ^= (bits >> i & 1) as u8);
            assert_eq!(entry(&low_bits, &serial), Err(9));
            assert_eq!(entry(&low_bits, &serial[1..]), Err(6));
            for bit in (0..64).filter(|bit| bit % 8 != 0) {
                let mut other = low_bits;
                other[8 + bit / 8] ^= 1 << (bit % 8);
                assert!(entry(&other, &serial).is_ok());
            }
        }
    }
}

#[test]
fn halves_that_differ_by_the_mask_alone_are_taken() {
    let serial = dukpt::with_counter(&[0; 10], 1);
    let key = hex("0123456789ABCDEF C1E385A789ABCDEF");
    for entry in [INITIAL_KEYS, HOST_KEYS].concat() {
        assert!(entry(&key, &serial).is_ok());
    }
}

#[test]
fn host_6_9_10() {
    let equal = [0x11; 16];
    for initial_key in INITIAL_KEYS {
        assert_eq!(initial_key(&equal, &[0; 9]), Err(6));
        assert_eq!(initial_key(&equal[..15], &[0; 10]), Err(6));
        assert!(initial_key(DOUBLE, &[0; 10]).is_ok());
    }
    for host_key in HOST_KEYS {
        assert_eq!(host_key(&equal, &[0; 11]), Err(6));
        assert_eq!(host_key(&equal[..8], &[0; 10]), Err(6));
        assert_eq!(host_key(&equal, &[0; 10]), Err(9));
        assert_eq!(host_key(DOUBLE, &[0; 10]), Err(10));
        let serial = |counter| dukpt::with_counter(&[0xFF; 10], counter);
        assert_eq!(host_key(DOUBLE, &serial(0)), Err(10));
        assert_eq!(host_key(DOUBLE, &serial(0x7FF)), Err(10));
        assert_eq!(host_key(DOUBLE, &serial(0x1F_FFFF)), Err(10));
        assert!(host_key(DOUBLE, &serial(0x7FE)).is_ok());
        assert!(host_key(DOUBLE, &serial(0x1F_F800)).is_ok());
    }
}
