//! Each entry on published or marked cases, and its refusals.

mod common;

use chizuregwo::*;
use common::{hex, DERIVATION_KEY, DOUBLE_DERIVATION_KEY, DOUBLE_SERIAL_NUMBER, SERIAL_NUMBER};
use std::fmt::Debug;

const CARD: &[u8] = b"4219876543210987";
const TYPE: &[u8] = b"\x04\0\0\x000200";

/// A result as hexadecimal digits, for comparing.
fn same<const N: usize>(result: Result<[u8; N], Error>, digits: &str) {
    assert_eq!(result.expect("done").to_vec(), hex(digits));
}

/// A cleaned text with its counts, for comparing.
fn same_text(result: Result<Cleaned, Error>, text: &[u8], dropped: usize, spaces: usize) {
    let text = text.to_vec();
    let wanted = Cleaned {
        text,
        dropped,
        spaces,
    };
    assert_eq!(result, Ok(wanted));
}

/// A MAC as hexadecimal digits with its counts, for comparing.
fn same_mac(result: Result<TextMac, Error>, digits: &str, dropped: usize, spaces: usize) {
    let made = result.expect("done");
    assert_eq!(made.mac.to_vec(), hex(digits));
    assert_eq!((made.dropped, made.spaces), (dropped, spaces));
}

/// A message of type 0200 and some fields.
fn message(fields: &[(u8, &[u8])]) -> Vec<u8> {
    let mut message = TYPE.to_vec();
    for (number, body) in fields {
        message.extend([body.len() as u8, 0, *number, 0]);
        message.extend(*body);
    }
    message
}

#[test]
fn encrypt_and_decrypt() {
    let (key, block) = (hex("133457799BBCDFF1"), hex("0123456789ABCDEF"));
    same(encrypt(&key, &block), "85E813540F0AB405");
    same(decrypt(&key, &hex("85E813540F0AB405")), "0123456789ABCDEF");
    let double = [key.clone(), key.clone()].concat();
    same(encrypt(&double, &block), "85E813540F0AB405");
    same(
        decrypt(&double, &hex("85E813540F0AB405")),
        "0123456789ABCDEF",
    );
    for size in [0, 1, 7, 9, 15, 17, 24] {
        assert_eq!(encrypt(&vec![0; size], &block), Err(Error::Size));
        assert_eq!(decrypt(&vec![0; size], &block), Err(Error::Size));
        assert_eq!(encrypt(&key, &vec![0; size]), Err(Error::Size));
        assert_eq!(decrypt(&key, &vec![0; size]), Err(Error::Size));
    }
}

#[test]
fn keys_from_text() {
    let text = b"0123456789ABCDEFfedcba9876543210";
    assert_eq!(
        key_entry(text, 16),
        Ok(hex("0123456789ABCDEFFEDCBA9876543210"))
    );
    assert_eq!(key_entry(&text[..16], 8), Ok(hex("0123456789ABCDEF")));
    assert_eq!(key_entry(text, 8), Err(Error::Size));
    assert_eq!(key_entry(&text[..16], 16), Err(Error::Size));
    assert_eq!(key_entry(b"", 0), Err(Error::Size));
    assert_eq!(key_entry(text, usize::MAX), Err(Error::Size));
    assert_eq!(key_entry(b"0123456789ABCDEG", 8), Err(Error::Character));
}

/// Texts with what is left of them, the bytes dropped and the spaces that went out.
const TEXTS: &[(&[u8], &[u8], usize, usize)] = &[
    (b"ab  c", b"AB C", 0, 1),
    (b" -x- ", b"X", 2, 2),
    (b"a - b", b"A B", 1, 1),
    (b"1,2.3;4", b"1,2.34", 1, 0),
    (b"---", b"", 3, 0),
    (b"", b"", 0, 0),
    // Nothing goes out: small letters count as kept.
    (b"abcxyz", b"ABCXYZ", 0, 0),
    (b"AZ az 09, 1.5", b"AZ AZ 09, 1.5", 0, 0),
    // Spaces alone, at the ends, and in the middle.
    (b" ", b"", 0, 1),
    (b"     ", b"", 0, 5),
    (b"   a", b"A", 0, 3),
    (b"a  ", b"A", 0, 2),
    (b"  a   b  ", b"A B", 0, 6),
    // Bytes that are no space, though they look like one, and the neighbours of those that are kept.
    (b"\0a\xFF\tb\r\n", b"AB", 5, 0),
    (b"\xA0a\xE1\x80", b"A", 3, 0),
    (b"/0:9@A[Z`a{z!-+", b"09AZAZ", 9, 0),
    // Spaces that meet once the bytes between them are dropped.
    (b"- - -", b"", 3, 2),
    (b"a -- - b", b"A B", 3, 2),
    (b" , . ", b", .", 0, 2),
];

#[test]
fn cleaning() {
    for (text, cleaned, dropped, spaces) in TEXTS {
        same_text(clean(text), cleaned, *dropped, *spaces);
        assert_eq!(text.len(), cleaned.len() + dropped + spaces);
    }
    same_text(clean(&[b'a'; 1024]), &[b'A'; 1024], 0, 0);
    same_text(clean(&[b'-'; 1024]), b"", 1024, 0);
    same_text(clean(&[b' '; 1024]), b"", 0, 1024);
    assert_eq!(clean(&[b'-'; 1025]), Err(Error::Size));
}

#[test]
fn every_byte_is_kept_or_dropped() {
    let kept = b"ABCDEFGHIJKLMNOPQRSTUVWXYZabcdefghijklmnopqrstuvwxyz0123456789,.";
    for byte in 0..=255u8 {
        let text = [b'x', byte];
        match byte {
            b' ' => same_text(clean(&text), b"X", 0, 1),
            _ if kept.contains(&byte) => {
                same_text(clean(&text), &[b'X', byte.to_ascii_uppercase()], 0, 0)
            }
            _ => same_text(clean(&text), b"X", 1, 0),
        }
    }
}

/// Messages by their fields, with their texts, the bytes dropped and the spaces that went out.
type MessageCase = (&'static [(u8, &'static [u8])], &'static str, usize, usize);

const MESSAGES: &[MessageCase] = &[
    (&[], "0200", 0, 0),
    (&[(3, b"000000"), (41, b"a-1     ")], "0200 000000 A1", 1, 5),
    // Nothing goes out. Field 5 and the last 22 digits of field 90 are not in the text before cleaning.
    (&[(2, b"1234567890123")], "0200 131234567890123", 0, 0),
    (&[(32, b"7"), (33, b"8")], "0200 017 018", 0, 0),
    (&[(38, b"a1B2c3"), (39, b"z9")], "0200 A1B2C3 Z9", 0, 0),
    (
        &[(90, b"012345678901234567890123456789012345678901")],
        "0200 01234567890123456789",
        0,
        0,
    ),
    (&[(5, b" - - ")], "0200", 0, 0),
    // Bytes alone.
    (&[(42, b"Joe's Fish-&Chi")], "0200 JOES FISHCHI", 3, 0),
    // Spaces alone: those of a field, and with an empty field the space before it.
    (&[(41, b" A  B  C")], "0200 A B C", 0, 3),
    (&[(41, b"        ")], "0200", 0, 9),
    (
        &[(41, b"        "), (42, b"               ")],
        "0200",
        0,
        25,
    ),
    // Both.
    (&[(41, b"--------")], "0200", 8, 1),
    (
        &[(41, b"--------"), (42, b"SHOP 42 & 43 OK")],
        "0200 SHOP 42 43 OK",
        9,
        2,
    ),
    (
        &[(41, b" - a - b"), (42, b" - c - d - e - ")],
        "0200 A B C D E",
        6,
        9,
    ),
];

#[test]
fn texts_of_messages() {
    for (fields, text, dropped, spaces) in MESSAGES {
        same_text(
            message_text(&message(fields)),
            text.as_bytes(),
            *dropped,
            *spaces,
        );
    }
    assert_eq!(message_text(b""), Err(Error::CutShort));
    assert_eq!(message_text(&TYPE[..7]), Err(Error::CutShort));
    let no_type = message(&[(3, b"000000")]);
    assert_eq!(message_text(&no_type[8..]), Err(Error::FieldOrder));
    assert_eq!(message_text(b"\x04\0\0\x000300"), Err(Error::MessageType));
    assert_eq!(message_text(b"\x04\0\0\x0002x0"), Err(Error::FieldForm));
    assert_eq!(message_text(&[0; 4097]), Err(Error::Size));
}

#[test]
fn macs() {
    let key = hex("0123456789ABCDEF");
    same_mac(text_mac(&key, b" -x- "), "C49CF44D534EFBC0", 2, 2);
    assert_eq!(text_mac(&key, b"---"), Err(Error::EmptyText));
    assert_eq!(text_mac(&key, b"   "), Err(Error::EmptyText));
    assert_eq!(text_mac(&key, b""), Err(Error::EmptyText));
    assert_eq!(text_mac(&key, &[b'-'; 1025]), Err(Error::Size));
    assert_eq!(text_mac(&key[..7], b"---"), Err(Error::Size));
    same_mac(message_mac(&key, TYPE), "DB81035675C65160", 0, 0);
    same_mac(text_mac(&key, b"0200"), "DB81035675C65160", 0, 0);
    same_mac(text_mac(&key, b" 0-2-0-0 "), "DB81035675C65160", 3, 2);
    for (fields, text, dropped, spaces) in MESSAGES {
        let made = message_mac(&key, &message(fields)).expect("done");
        assert_eq!((made.dropped, made.spaces), (*dropped, *spaces));
        let of_text = text_mac(&key, text.as_bytes()).expect("done");
        assert_eq!(of_text.mac, made.mac);
        assert_eq!((of_text.dropped, of_text.spaces), (0, 0));
    }
    assert_eq!(message_mac(&key[..7], b""), Err(Error::Size));
    assert_eq!(message_mac(&key, b""), Err(Error::CutShort));
    assert_eq!(message_mac(&key, b"\0\0\x01\0"), Err(Error::FieldOrder));
    assert_eq!(
        message_mac(&key, b"\x04\0\0\x000300\0"),
        Err(Error::MessageType)
    );
    assert_eq!(message_mac(&key, b"\x03\0\0\x00020"), Err(Error::FieldForm));
}

#[test]
fn clear_pin_blocks() {
    for (pin, block) in [
        ("1234", "041234FFFFFFFFFF"),
        ("123456789012", "0C123456789012FF"),
    ] {
        same(pin_make(pin.as_bytes()), block);
        assert_eq!(pin_read(&hex(block)), Ok(pin.as_bytes().to_vec()));
    }
    same(pin_make_with_card(b"1234", CARD), "0412AC89ABCDEF67");
    let read = |block| pin_read_with_card(&hex(block), CARD);
    assert_eq!(read("0412AC89ABCDEF67"), Ok(b"1234".to_vec()));
    assert_eq!(read("0412AC89ABCDEF66"), Err(Error::NoSuchPin));
    assert_eq!(pin_read(&hex("03123FFFFFFFFFFF")), Err(Error::NoSuchPin));
    assert_eq!(pin_make(b"123"), Err(Error::Size));
    assert_eq!(pin_make(b"123a"), Err(Error::Character));
    assert_eq!(pin_make_with_card(b"123a", b"42"), Err(Error::Size));
    assert_eq!(
        pin_make_with_card(b"1234", b"421987654321098x"),
        Err(Error::Character)
    );
    assert_eq!(pin_read(&[0; 7]), Err(Error::Size));
    assert_eq!(pin_read_with_card(&[0; 8], b""), Err(Error::Size));
    assert_eq!(
        pin_read_with_card(&[0; 8], b"x219876543210987"),
        Err(Error::Character)
    );
}

#[test]
fn encrypted_pin_blocks() {
    for key in [b"PIN key.".to_vec(), b"double PIN key..".to_vec()] {
        let block = pin_encrypt(&key, b"1234").unwrap();
        assert_eq!(Ok(block), encrypt(&key, &hex("041234FFFFFFFFFF")));
        assert_eq!(pin_decrypt(&key, &block), Ok(b"1234".to_vec()));
        let block = pin_encrypt_with_card(&key, b"1234", CARD).unwrap();
        assert_eq!(Ok(block), encrypt(&key, &hex("0412AC89ABCDEF67")));
        assert_eq!(
            pin_decrypt_with_card(&key, &block, CARD),
            Ok(b"1234".to_vec())
        );
        let wrong = encrypt(&key, &[0; 8]).unwrap();
        assert_eq!(pin_decrypt(&key, &wrong), Err(Error::NoSuchPin));
        assert_eq!(
            pin_decrypt_with_card(&key, &wrong, CARD),
            Err(Error::NoSuchPin)
        );
        assert_eq!(
            pin_decrypt_with_card(&key, &wrong, b"421987654321098x"),
            Err(Error::Character)
        );
        assert_eq!(pin_encrypt(&key, b"12a4"), Err(Error::Character));
        assert_eq!(
            pin_encrypt_with_card(&key, b"12a4", CARD),
            Err(Error::Character)
        );
    }
    assert_eq!(pin_encrypt(&[0; 9], b"12a4"), Err(Error::Size));
    assert_eq!(
        pin_encrypt_with_card(&[0; 9], b"12a4", CARD),
        Err(Error::Size)
    );
    assert_eq!(pin_decrypt(&[0; 9], &[0; 8]), Err(Error::Size));
    assert_eq!(
        pin_decrypt_with_card(&[0; 9], &[0; 8], CARD),
        Err(Error::Size)
    );
}

/// A kind of block that holds a text: its entries into a buffer, the block of a text by its rule, and the longest text.
struct TextBlock {
    make: fn(&[u8], &mut [u8]) -> Result<usize, Error>,
    read: fn(&[u8], &mut [u8]) -> Result<usize, Error>,
    block_of: fn(&str) -> Vec<u8>,
    least: usize,
    longest: &'static str,
}

const PASSWORD: TextBlock = TextBlock {
    make: lent::password_make,
    read: lent::password_read,
    block_of: |password| {
        let start = format!("{:02}{password}", password.len());
        filled(start.as_bytes(), PASSWORD_BLOCK_SIZE)
    },
    least: LEAST_PASSWORD,
    longest: "!~aZ09\"'-hex:#/@\\^`$",
};

const VIP: TextBlock = TextBlock {
    make: lent::vip_make,
    read: lent::vip_read,
    block_of: |digits| {
        let start = format!("{:02}{digits}", digits.len());
        hex(&format!("{start:F<32}"))
    },
    least: LEAST_VIP_NUMBER,
    longest: "9081726354453627180",
};

/// Some bytes with FF after them, up to a size.
fn filled(start: &[u8], size: usize) -> Vec<u8> {
    assert!(start.len() <= size);
    let mut block = start.to_vec();
    block.resize(size, 0xFF);
    block
}

/// An entry must refuse so and leave the buffer as it was.
fn refused(error: Error, entry: impl Fn(&mut [u8]) -> Result<usize, Error>) {
    for room in [0, 32] {
        let mut out = vec![0xA5; room];
        assert_eq!(entry(&mut out), Err(error));
        assert_eq!(out, vec![0xA5; room]);
    }
}

#[test]
fn printed_password_and_vip_blocks() {
    // Source document 003 prints 25 bytes, one FF too many.
    let printed = hex("303948656C6C6F21313233FFFFFFFFFFFFFFFFFFFFFFFFFFFF");
    let block = &printed[..24];
    assert_eq!(password_make(b"Hello!123").unwrap(), *block);
    assert_eq!(password_read(block), Ok(b"Hello!123".to_vec()));
    assert_eq!(password_read(&printed), Err(Error::Size));
    let (number, block) = (b"1234567890123456789", "191234567890123456789FFFFFFFFFFF");
    same(vip_make(number), block);
    assert_eq!(vip_read(&hex(block)), Ok(number.to_vec()));
}

#[test]
fn password_and_vip_blocks_of_every_length() {
    for kind in [PASSWORD, VIP] {
        for length in kind.least..=kind.longest.len() {
            let text = &kind.longest[..length];
            let block = (kind.block_of)(text);
            in_every_room(&block, block.len(), |out| (kind.make)(text.as_bytes(), out));
            in_every_room(text.as_bytes(), length, |out| (kind.read)(&block, out));
        }
    }
}

#[test]
fn password_and_vip_blocks_of_other_sizes() {
    for kind in [PASSWORD, VIP] {
        let longer = format!("{}0", kind.longest);
        for text in ["", &kind.longest[..kind.least - 1], &longer] {
            refused(Error::Size, |out| (kind.make)(text.as_bytes(), out));
        }
        refused(Error::Size, |out| (kind.make)(b"   ", out));
        let block = (kind.block_of)(kind.longest);
        let longer = filled(&block, block.len() + 1);
        for block in [&[], &block[1..], &block[..block.len() - 1], &longer] {
            refused(Error::Size, |out| (kind.read)(block, out));
        }
    }
}

#[test]
fn password_and_vip_characters() {
    for (kind, permitted) in [(PASSWORD, 0x21..=0x7E), (VIP, b'0'..=b'9')] {
        for character in 0..=255 {
            for place in [0, kind.least - 1] {
                let mut text = kind.longest.as_bytes()[..kind.least].to_vec();
                text[place] = character;
                if permitted.contains(&character) {
                    let block = (kind.block_of)(std::str::from_utf8(&text).unwrap());
                    in_every_room(&block, block.len(), |out| (kind.make)(&text, out));
                    in_every_room(&text, text.len(), |out| (kind.read)(&block, out));
                } else {
                    refused(Error::Character, |out| (kind.make)(&text, out));
                }
            }
        }
    }
}

#[test]
fn blocks_of_no_permitted_password() {
    for start in [
        &b"05abcde"[..],             // five characters
        b"21abcdefghijklmnopqrstu",  // 21
        b"22abcdefghijklmnopqrstuv", // 22
        b"00",                       // none
        b"06abcdefg",                // one fewer than stand there
        b"07abcdef",                 // one more
        b"0Aabcdefghij",             // ten in hexadecimal
        b"14abcdefghijklmnopqrst",   // 20 in hexadecimal
        b"\0\x06abcdef",             // six, not in characters
        b" 6abcdef",                 // six with a space before
        b"1:abcdefghijklmnopqrst",   // 20, as 1 and 10
        b"/@abcdef",                 // six, as -1 and 16
        b"06abcdef ",                // fill of a space
        b"06abcdef\0",               // of zero
        b"06abcdef0",                // of a digit
        b"06abcdef\xFE",             // of FE
        b"06 bcdef",                 // a space first
        b"06abc ef",                 // between
        b"06abcde ",                 // last
        b"06\x7Fbcdef",              // 7F
        b"06abcde\x80",              // 80
        b"06abc\xFFef",              // FF
        b"",                         // FF alone
    ] {
        let block = filled(start, PASSWORD_BLOCK_SIZE);
        refused(Error::BadBlock, |out| lent::password_read(&block, out));
    }
    let mut block = password_make(PASSWORD.longest.as_bytes()).unwrap();
    for fill in [0, b' ', b'0', 0xFE] {
        block[PASSWORD_BLOCK_SIZE - 1] = fill;
        assert_eq!(password_read(&block), Err(Error::BadBlock));
    }
}

#[test]
fn blocks_of_no_permitted_vip_number() {
    for start in [
        "101234567890",                     // ten digits
        "2012345678901234567890",           // 20
        "30123456789012345678901234567890", // 30
        "00",                               // none
        "11123456789012",                   // one fewer than stand there
        "1212345678901F",                   // one more
        "0B12345678901F",                   // eleven in hexadecimal
        "131234567890123456789F",           // 19 in hexadecimal
        "1112345678901234567F",             // 17 in hexadecimal
        "F112345678901F",                   // eleven with F before
        "11123456789010",                   // fill of 0
        "1112345678901E",                   // of E
        "1112345678901FEF",                 // of E after F
        "11A2345678901F",                   // a half-byte above 9 first
        "11123456789B1F",                   // between
        "111234567890EF",                   // last
        "11123456789F1F",                   // F
        "",                                 // F alone
    ] {
        let block = filled(&hex(start), VIP_BLOCK_SIZE);
        refused(Error::BadBlock, |out| lent::vip_read(&block, out));
    }
    let mut block = vip_make(VIP.longest.as_bytes()).unwrap();
    for fill in [0, 0xF0, 0x0F, 0xFE, 0xEF] {
        block[VIP_BLOCK_SIZE - 1] = fill;
        assert_eq!(vip_read(&block), Err(Error::BadBlock));
    }
}

#[test]
fn card_keys_and_cryptograms() {
    same(derivation_data(CARD, 0), "1987654321098700");
    same(derivation_data(b"6228000100001", 1), "0622800010000101");
    assert_eq!(derivation_data(b"62280001000x1", 100), Err(Error::Size));
    assert_eq!(derivation_data(b"62280001000x1", 99), Err(Error::Character));
    let master = hex("F0C34A8124CEE0A91A0B034AA97D6EAC");
    let card = card_key(&master, b"6228000100001", 1);
    same(card, "014C986ECD8F49157CC8B59E3BCDFD98");
    let unadjusted = card_key_unadjusted(&master, b"6228000100001", 1);
    same(unadjusted, "014D996FCC8F49157DC8B49E3BCDFD99");
    for entry in [card_key, card_key_unadjusted] {
        assert_eq!(entry(&master[..8], CARD, 0), Err(Error::Size));
        assert_eq!(entry(&master, CARD, 100), Err(Error::Size));
        assert_eq!(entry(&master, b"62280001000x1", 0), Err(Error::Character));
    }
    let session = session_key(&card.unwrap(), 0x0240);
    same(session, "D4102725E6E5AD329E55AAB50BF23DA9");
    assert_eq!(session_key(&unadjusted.unwrap(), 0x0240), session);
    assert_eq!(session_key(&master[..8], 0), Err(Error::Size));
    let session = session.unwrap();
    let data = "000000000001000000000000015600800460000156140701001E78EEBC7D00024003A04002";
    same(arqc(&session, &hex(data)), "5D016C91005E7CC2");
    assert_eq!(arqc(&session, b""), Err(Error::Size));
    assert!(arqc(&session, &[0; 255]).is_ok());
    assert_eq!(arqc(&session, &[0; 256]), Err(Error::Size));
    same(
        arpc(&session, &hex("5D016C91005E7CC2"), b"01"),
        "21415243527CE78F",
    );
    assert_eq!(arpc(&session, &[0; 8], b"001"), Err(Error::Size));
    assert_eq!(arpc(&session, &[0; 7], b"00"), Err(Error::Size));
}

/// A derivation of the host: of a derivation key and a serial number.
type Derivation<const N: usize> = fn(&[u8], &[u8]) -> Result<[u8; N], Error>;

/// The refusals of the initial key and of the host's key, at either length.
fn derivations_refuse<const N: usize>(initial_key: Derivation<N>, host_key: Derivation<N>) {
    let (derivation, serial) = (hex(DERIVATION_KEY), hex(SERIAL_NUMBER));
    let equal = [&derivation[..8], &derivation[..8]].concat();
    let halves = |turned: [u8; 8]| -> Vec<u8> {
        let right = derivation.iter().zip(turned).map(|(byte, bit)| byte ^ bit);
        derivation[..8].iter().copied().chain(right).collect()
    };
    for entry in [initial_key, host_key] {
        let one_low_bit = halves([0, 0, 0, 1, 0, 0, 0, 0]);
        assert_eq!(entry(&one_low_bit, &serial), Err(Error::EqualHalves));
        assert_eq!(entry(&halves([1; 8]), &serial), Err(Error::EqualHalves));
        for place in 0..8 {
            let mut other = [1; 8];
            other[place] = 2 << (place % 7);
            assert!(entry(&halves(other), &serial).is_ok());
        }
        assert_eq!(entry(&derivation[..15], &serial), Err(Error::Size));
        assert_eq!(entry(&equal, &serial[..9]), Err(Error::Size));
        assert_eq!(entry(&equal, &[0; 10]), Err(Error::EqualHalves));
    }
    assert_eq!(host_key(&derivation, &[0; 10]), Err(Error::BadCounter));
    let eleven = hex("0123456789ABCDE007FF");
    assert_eq!(host_key(&derivation, &eleven), Err(Error::BadCounter));
    assert!(initial_key(&derivation, &eleven).is_ok());
}

#[test]
fn host_keys() {
    let (derivation, serial) = (hex(DERIVATION_KEY), hex(SERIAL_NUMBER));
    same(initial_key(&derivation, &serial), "21EE7C08DBE820AB");
    same(host_key(&derivation, &serial), "670B395E6CFB60C2");
    derivations_refuse(initial_key, host_key);
}

#[test]
fn double_host_keys() {
    let (derivation, mut serial) = (hex(DOUBLE_DERIVATION_KEY), hex(DOUBLE_SERIAL_NUMBER));
    let initial = "6AC292FAA1315B4D858AB3A3D7D5933A";
    same(double_initial_key(&derivation, &serial), initial);
    same(initial_key(&derivation, &serial), &initial[..16]);
    serial[9] = 1;
    let given_out = "042666B49184CF5C68DE9628D0397B36";
    same(double_host_key(&derivation, &serial), given_out);
    same(double_initial_key(&derivation, &serial), initial);
    in_every_room(&hex(initial), 16, |out| {
        lent::double_initial_key(&derivation, &serial, out)
    });
    in_every_room(&hex(given_out), 16, |out| {
        lent::double_host_key(&derivation, &serial, out)
    });
    derivations_refuse(double_initial_key, double_host_key);
}

#[test]
fn buffers_keep_their_bytes() {
    let mut out = [0xA5; 12];
    assert_eq!(lent::pin_make(b"1234", &mut out), Ok(8));
    assert_eq!(out.to_vec(), hex("041234FFFFFFFFFFA5A5A5A5"));
    let mut short = [0xA5; 7];
    assert_eq!(lent::pin_make(b"1234", &mut short), Err(Error::ShortBuffer));
    assert_eq!(short, [0xA5; 7]);
    assert_eq!(lent::pin_make(b"123", &mut out), Err(Error::Size));
    assert_eq!(out.to_vec(), hex("041234FFFFFFFFFFA5A5A5A5"));
}

/// Calls an entry with every room up to four bytes more than its result has: 13 where it is short, else this answer and the
/// result, and no other byte is written.
fn in_every_room<W: Copy + Debug + PartialEq>(
    result: &[u8],
    written: W,
    entry: impl Fn(&mut [u8]) -> Result<W, Error>,
) {
    for room in 0..=result.len() + 4 {
        let mut out = vec![0xA5; room];
        let answer = entry(&mut out);
        let untouched = if room < result.len() {
            assert_eq!(answer, Err(Error::ShortBuffer));
            &out[..]
        } else {
            assert_eq!(answer, Ok(written));
            assert_eq!(out[..result.len()], *result);
            &out[result.len()..]
        };
        assert!(untouched.iter().all(|byte| *byte == 0xA5));
    }
}

/// The same for an entry that cleans a text.
fn cleaned_in_every_room(
    result: &[u8],
    (dropped, spaces): (usize, usize),
    entry: impl Fn(&mut [u8]) -> Result<lent::WrittenText, Error>,
) {
    let length = result.len();
    let written = lent::WrittenText {
        length,
        dropped,
        spaces,
    };
    in_every_room(result, written, entry);
}

#[test]
fn cleaned_texts_in_buffers() {
    let key = hex("0123456789ABCDEF");
    let message = message(&[(41, b" - a - b")]);
    cleaned_in_every_room(b"", (2, 0), |out| lent::clean(b"--", out));
    cleaned_in_every_room(b"A B", (1, 3), |out| lent::clean(b" a - b ", out));
    cleaned_in_every_room(b"0200 A B", (2, 3), |out| lent::message_text(&message, out));
    cleaned_in_every_room(&hex("77E77CBD7C75ABEC"), (1, 3), |out| {
        lent::text_mac(&key, b" a - b ", out)
    });
    cleaned_in_every_room(&hex("A544B5E0D9DE3B60"), (2, 3), |out| {
        lent::message_mac(&key, &message, out)
    });
}

#[test]
fn errors_have_the_librarys_meanings() {
    assert_eq!(Error::from_number(0), None);
    assert_eq!(meaning(0).as_deref(), Ok("done"));
    let mut longest = 0;
    for number in 1..=13 {
        let error = Error::from_number(number).unwrap();
        assert!(!matches!(error, Error::Unknown(_)));
        assert_eq!(error.number(), number);
        assert_eq!(meaning(number).as_deref(), Ok(error.meaning()));
        assert_eq!(
            error.to_string(),
            format!("refused {number}: {}", error.meaning())
        );
        longest = longest.max(error.meaning().len());
    }
    assert_eq!(longest, MOST_MEANING);
    assert_eq!(
        Error::Exhausted.to_string(),
        "refused 12: terminal exhausted"
    );
}

#[test]
fn unknown_numbers_are_errors_too() {
    for number in [14, 255, 256, u32::MAX] {
        let error = Error::from_number(number).unwrap();
        assert_eq!(error, Error::Unknown(number));
        assert_eq!(error.number(), number);
        assert_eq!(
            error.to_string(),
            format!("refused {number}: a number without a meaning")
        );
        assert_eq!(meaning(number), Err(Error::Size));
    }
}

#[test]
fn meanings_in_buffers() {
    for number in 0..14 {
        let text = meaning(number).unwrap();
        in_every_room(text.as_bytes(), text.len(), |out| {
            lent::meaning(number, out)
        });
    }
    assert_eq!(lent::meaning(14, &mut []), Err(Error::Size));
}

#[test]
fn the_crate_has_the_librarys_version() {
    let part = |text: &str| text.parse::<u32>().unwrap();
    let major = part(env!("CARGO_PKG_VERSION_MAJOR"));
    let minor = part(env!("CARGO_PKG_VERSION_MINOR"));
    let patch = part(env!("CARGO_PKG_VERSION_PATCH"));
    assert_eq!(version(), 10_000 * major + 100 * minor + patch);
    assert_eq!(version(), lent::version());
}
