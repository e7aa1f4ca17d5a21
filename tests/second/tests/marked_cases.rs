//! The marked cases a to p of paper 01, its whole message, and its slips.

mod common;

use common::{counted, described, field, hex, message, sized};
use second::cleaning::{clean, cleaned};
use second::dukpt::{next_counter, terminal_next_key, Double, Key, Single};
use second::key_entry::key_entry;
use second::mac::{message_mac, text_mac};
use second::message::message_text;
use second::{card, des, pin};

const KEY: &[u8] = b"\x13\x34\x57\x79\x9B\xBC\xDF\xF1";

#[test]
fn a_to_e_cleaning() {
    assert_eq!(clean(b"ab  c", 1024), counted(b"AB C", 0, 1));
    assert_eq!(clean(b" -x- ", 1024), counted(b"X", 2, 2));
    assert_eq!(clean(b"a - b", 1024), counted(b"A B", 1, 1));
    assert_eq!(clean(b"1,2.3;4", 1024), counted(b"1,2.34", 1, 0));
    assert_eq!(clean(b"---", 0), counted(b"", 3, 0));
    assert_eq!(text_mac(KEY, b"---"), Err(5));
}

#[test]
fn what_cleaning_takes_out() {
    for (text, after, dropped, spaces) in [
        (&b""[..], &b""[..], 0, 0),
        (b"az AZ 09, 1.5", b"AZ AZ 09, 1.5", 0, 0),
        (b"     ", b"", 0, 5),
        (b"  a   b  ", b"A B", 0, 6),
        (b"\0a\xFF\tb\r\n", b"AB", 5, 0),
        (b"\xA0a\xE1\x80", b"A", 3, 0),
        (b"/0:9@A[Z`a{z!-+", b"09AZAZ", 9, 0),
        (b"- - -", b"", 3, 2),
        (b"a -- - b", b"A B", 3, 2),
        (b" , . ", b", .", 0, 2),
    ] {
        assert_eq!(clean(text, 1024), counted(after, dropped, spaces));
        let mac = text_mac(KEY, text).map(|mac| (mac.dropped, mac.spaces));
        let wanted = match after {
            [] => Err(5),
            _ => Ok((dropped, spaces)),
        };
        assert_eq!(mac, wanted);
    }
}

/// Every text of up to five characters out of a kept one, a small letter, a
/// dropped one and a space: it has as many bytes as its cleaned text and both
/// counts together.
#[test]
fn sizes_before_and_after_cleaning() {
    for length in 0..=5 {
        for number in 0..4usize.pow(length) {
            let character = |place| b"Aa- "[number >> (2 * place) & 3];
            let text: Vec<u8> = (0..length).map(character).collect();
            let done = clean(&text, 1024).unwrap();
            assert_eq!(text.len(), done.value.len() + done.dropped + done.spaces);
            assert_eq!(clean(&done.value, 1024), counted(&done.value, 0, 0));
        }
    }
}

/// Each byte alone between two letters.
#[test]
fn bytes_that_count_as_kept() {
    for byte in 0..=255u8 {
        let kept = byte.is_ascii_alphanumeric() || b" ,.".contains(&byte);
        let done = clean(&[b'a', byte, b'b'], 3).unwrap();
        assert_eq!((done.dropped == 0, done.spaces), (kept, 0), "{byte:02X}");
    }
}

#[test]
fn f_to_j_pin_blocks() {
    assert_eq!(pin::make(b"1234"), Ok(hex("041234FFFFFFFFFF")));
    assert_eq!(pin::make(b"123456789012"), Ok(hex("0C123456789012FF")));
    let with_card = pin::make_with_card(b"1234", b"4219876543210987");
    assert_eq!(with_card, Ok(hex("0412AC89ABCDEF67")));
    assert_eq!(pin::read(&hex("03123FFFFFFFFFFF"), 12), Err(8));
    assert_eq!(pin::make(b"123"), Err(6));
}

#[test]
fn k_to_m_card() {
    let y = card::derivation_data(b"4219876543210987", 0);
    assert_eq!(y, Ok(hex("1987654321098700")));
    let y = card::derivation_data(b"6228000100001", 1);
    assert_eq!(y, Ok(hex("0622800010000101")));
    let [first, second] = card::session_halves([0x02, 0x40]);
    assert_eq!(first.to_vec(), hex("0000000000000240"));
    assert_eq!(second.to_vec(), hex("000000000000FDBF"));
}

#[test]
fn n_to_p_counters() {
    assert_eq!(next_counter(0x3FF), Some(0x400));
    assert_eq!(next_counter(0x7FE), Some(0x800));
    assert_eq!(next_counter(0x1F_F800), None);
    n_to_p_terminal::<Single>(sized("21EE7C08DBE820AB"));
    n_to_p_terminal::<Double>(sized("6AC292FAA1315B4D858AB3A3D7D5933A"));
}

fn n_to_p_terminal<K: Key>(initial: K) {
    let serial = sized("0123456789ABCDE00000");
    let after = |counter| {
        let record = described(initial, &serial, counter);
        terminal_next_key(&record, K::SIZE).unwrap().record
    };
    assert_eq!(after(0x3FF).counter, 0x400);
    assert_eq!(after(0x7FE).counter, 0x800);
    assert!(after(0x1F_F800).exhausted);
}

#[test]
fn whole_message() {
    let message = hex("04 00 00 00 30 32 30 30 06 00 03 00 30 30 30 30 30 30 \
                       08 00 29 00 61 2D 31 20 20 20 20 20");
    let text = b"0200 000000 A1";
    assert_eq!(message_text(&message, 14), counted(text, 1, 5));
    assert_eq!(message_text(&message, 13), Err(13));
    let key = sized("133457799BBCDFF1");
    let first = des::encrypt(&key, b"0200 000");
    let padded = b"000 A1\0\0";
    let second = std::array::from_fn(|i| first[i] ^ padded[i]);
    let mac = des::encrypt(&key, &second);
    assert_eq!(message_mac(KEY, &message), counted(&mac, 1, 5));
    assert_eq!(text_mac(KEY, text), counted(&mac, 0, 0));
    let other = b" 0200  000000 a-1; ";
    assert_eq!(text_mac(KEY, other), counted(&mac, 2, 3));
}

#[test]
fn mac_of_whole_blocks_adds_nothing() {
    let key = sized("133457799BBCDFF1");
    let first = des::encrypt(&key, b"ABCDEFGH");
    assert_eq!(text_mac(KEY, b"abcdefgh"), counted(&first, 0, 0));
    let second = std::array::from_fn(|i| first[i] ^ b"I\0\0\0\0\0\0\0"[i]);
    let longer = des::encrypt(&key, &second);
    assert_eq!(text_mac(KEY, b"abcdefghi"), counted(&longer, 0, 0));
}

/// A message with every listed field at its longest, and its text.
fn longest() -> (Vec<u8>, Vec<u8>) {
    let message = message(&[
        (0, b"0200"),
        (2, b"1234567890123456789"),
        (3, b"000001"),
        (4, b"000000000002"),
        (7, b"0000000003"),
        (11, b"000004"),
        (18, b"0005"),
        (25, b"06"),
        (28, b"C00000007"),
        (32, b"00000000008"),
        (33, b"00000000009"),
        (38, b"abcDEF"),
        (39, b"0a"),
        (41, b"terminal"),
        (42, b"A,B.C0123456789"),
        (90, b"012345678901234567899999999999999999999999"),
    ]);
    let text = "0200 191234567890123456789 000001 000000000002 0000000003 000004 0005 06 \
                C00000007 1100000000008 1100000000009 ABCDEF 0A TERMINAL A,B.C0123456789 \
                01234567890123456789";
    (message, text.into())
}

#[test]
fn longest_message_text_has_166_characters() {
    let (message, text) = longest();
    assert_eq!(text.len(), 166);
    assert_eq!(message_text(&message, 166), counted(&text, 0, 0));
    assert_eq!(message_text(&message, 165), Err(13));
}

#[test]
fn cleaning_a_cleaned_text_changes_nothing() {
    let every_byte: Vec<u8> = (0..=255).collect();
    let (longest, _) = longest();
    for text in [&b" a  -  b "[..], b" , . ", &every_byte, &longest] {
        assert_eq!(cleaned(&cleaned(text)), cleaned(text));
    }
    let staying = b" ,.0123456789ABCDEFGHIJKLMNOPQRSTUVWXYZABCDEFGHIJKLMNOPQRSTUVWXYZ";
    assert_eq!(cleaned(&every_byte), staying[1..]);
}

#[test]
fn unlisted_fields_are_walked_over() {
    let with = message(&[
        (0, b"0100"),
        (1, b""),
        (3, b"123456"),
        (5, b"\xFF"),
        (192, b"x"),
    ]);
    let without = message(&[(0, b"0100"), (3, b"123456")]);
    assert_eq!(message_text(&with, 166), counted(b"0100 123456", 0, 0));
    assert_eq!(message_text(&with, 166), message_text(&without, 166));
    assert_eq!(message_mac(KEY, &with), message_mac(KEY, &without));
    let type_alone = field(0, b"0599");
    assert_eq!(message_text(&type_alone, 4), counted(b"0599", 0, 0));
}

#[test]
fn ends_of_the_whole_text_are_trimmed_and_not_of_each_field() {
    let first = message(&[(0, b"0200"), (41, b"--------"), (42, b"---------------")]);
    assert_eq!(message_text(&first, 166), counted(b"0200", 23, 2));
    let second = message(&[(0, b"0200"), (41, b" a      "), (42, b"  b            ")]);
    assert_eq!(message_text(&second, 166), counted(b"0200 A B", 0, 21));
}

/// Fields of a message and its text, the bytes dropped and the spaces that went
/// out.
type MessageCase<'a> = (&'a [(u16, &'a [u8])], &'a [u8], usize, usize);

/// The counts of a message are over its joined text: with the spaces between
/// fields and the length digits, and without the last digits of field 90.
#[test]
fn what_cleaning_takes_out_of_messages() {
    let digits = b"012345678901234567890123456789012345678901";
    let spaces = [b' '; 15];
    let cases: [MessageCase; 9] = [
        (&[], b"0200", 0, 0),
        (&[(2, b"1234567890123")], b"0200 131234567890123", 0, 0),
        (&[(90, digits)], b"0200 01234567890123456789", 0, 0),
        (&[(38, b"a1B2c3")], b"0200 A1B2C3", 0, 0),
        (&[(42, b"Joe's Fish-&Chi")], b"0200 JOES FISHCHI", 3, 0),
        (&[(41, b" A  B  C")], b"0200 A B C", 0, 3),
        (&[(41, &spaces[..8]), (42, &spaces)], b"0200", 0, 25),
        (&[(41, b" - a - b")], b"0200 A B", 2, 3),
        (&[(5, b" - - "), (192, b" - ")], b"0200", 0, 0),
    ];
    for (fields, text, dropped, spaces) in cases {
        let message = message(&[&[(0, &b"0200"[..])], fields].concat());
        assert_eq!(message_text(&message, 166), counted(text, dropped, spaces));
        let mac = message_mac(KEY, &message).unwrap();
        assert_eq!((mac.dropped, mac.spaces), (dropped, spaces));
        assert_eq!(text_mac(KEY, text), counted(&mac.value, 0, 0));
    }
}

#[test]
fn key_entry_of_either_case() {
    let key = key_entry(b"0123456789abCDef", 8, 8);
    assert_eq!(key, Ok(hex("0123456789ABCDEF")));
    let key = key_entry(b"0123456789abCDefFEDCBA9876543210", 16, 16);
    assert_eq!(key, Ok(hex("0123456789ABCDEFFEDCBA9876543210")));
}

#[test]
fn every_pin_made_is_read() {
    let digits = b"918273645500";
    let cards: [&[u8]; 3] = [
        b"1234567890123",
        b"4219876543210987",
        b"9999999999999999999",
    ];
    for length in 4..=12 {
        let text = &digits[..length];
        let block = pin::make(text).unwrap();
        assert_eq!(pin::read(&block, length), Ok(text.to_vec()));
        for card in cards {
            let block = pin::make_with_card(text, card).unwrap();
            assert_eq!(pin::read_with_card(&block, card, 12), Ok(text.to_vec()));
        }
    }
}

#[test]
fn encrypted_pins_are_read_again() {
    let card = b"4219876543210987";
    for key in [KEY.to_vec(), hex("0123456789ABCDEFFEDCBA9876543210")] {
        let block = pin::encrypt(&key, b"12345").unwrap();
        assert_eq!(pin::decrypt(&key, &block, 5), Ok(b"12345".to_vec()));
        let block = pin::encrypt_with_card(&key, b"12345", card).unwrap();
        let read = pin::decrypt_with_card(&key, &block, card, 5);
        assert_eq!(read, Ok(b"12345".to_vec()));
    }
    let block = pin::encrypt(KEY, b"1234").unwrap();
    let clear = sized("041234FFFFFFFFFF");
    assert_eq!(block, des::encrypt(&sized("133457799BBCDFF1"), &clear));
}

#[test]
fn blocks_of_no_permitted_pin() {
    for block in [
        "03123FFFFFFFFFFF", // three digits
        "0D1234567890123F", // thirteen
        "141234FFFFFFFFFF", // control half-byte 1
        "041234FFFFFFFFFE", // last fill is not F
        "0412341FFFFFFFFF", // first fill is not F
        "04123AFFFFFFFFFF", // half-byte above 9 in the PIN
        "05123FFFFFFFFFFF", // fill in the PIN
        "0000000000000000",
    ] {
        assert_eq!(pin::read(&hex(block), 12), Err(8), "{block}");
    }
}

#[test]
fn last_card_digit_is_not_used_in_pin_blocks() {
    let first = pin::make_with_card(b"1234", b"4219876543210987");
    let second = pin::make_with_card(b"1234", b"4219876543210980");
    assert_eq!(first, second);
}

#[test]
fn arqc_data_that_fills_its_blocks_gets_a_block_more() {
    let key = hex("D4102725E6E5AD329E55AAB50BF23DA9");
    let (left, right) = (sized("D4102725E6E5AD32"), sized("9E55AAB50BF23DA9"));
    let first = des::encrypt(&left, b"12345678");
    let second: [u8; 8] = std::array::from_fn(|i| first[i] ^ b"\x80\0\0\0\0\0\0\0"[i]);
    let chained = des::encrypt(&left, &second);
    let last = des::encrypt(&left, &des::decrypt(&right, &chained));
    assert_eq!(card::arqc(&key, b"12345678"), Ok(last.to_vec()));
}

#[test]
fn derivation_data_of_long_card_numbers() {
    let y = card::derivation_data(b"1234567890123456789", 99);
    assert_eq!(y, Ok(hex("6789012345678999")));
    let y = card::derivation_data(b"12345678901234", 7);
    assert_eq!(y, Ok(hex("1234567890123407")));
}

/// The bytes of card keys are those with an odd number of ones, and all of them
/// come up.
#[test]
fn card_keys_have_odd_parity() {
    let master = hex("0123456789ABCDEFFEDCBA9876543210");
    let mut times = [0; 256];
    for n in 0..2000 {
        let card = format!("{n:013}");
        let key = card::card_key(&master, card.as_bytes(), 0).unwrap();
        key.iter().for_each(|byte| times[usize::from(*byte)] += 1);
    }
    for (byte, times) in times.iter().enumerate() {
        assert_eq!(*times > 0, byte.count_ones() % 2 == 1, "{byte:02X}");
    }
}
