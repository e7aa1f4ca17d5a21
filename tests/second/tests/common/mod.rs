//! What the tests share.
#![allow(dead_code)]

use second::cleaning::{Counted, CountedAnswer};
use second::dukpt::{register_key, Key, Record};
use second::lines;

/// Bytes of hexadecimal digits, spaces aside.
pub fn hex(digits: &str) -> Vec<u8> {
    lines::hexadecimal(digits.replace(' ', "").as_bytes()).expect("hexadecimal")
}

/// Exactly so many bytes of hexadecimal digits.
pub fn sized<const N: usize>(digits: &str) -> [u8; N] {
    hex(digits).try_into().expect("the size")
}

/// A record of a message: body length, field number, body.
pub fn field(number: u16, body: &[u8]) -> Vec<u8> {
    let length = body.len() as u16;
    [&length.to_le_bytes(), &number.to_le_bytes(), body].concat()
}

/// A message of some fields.
pub fn message(fields: &[(u16, &[u8])]) -> Vec<u8> {
    let records = fields.iter().map(|(number, body)| field(*number, body));
    records.collect::<Vec<_>>().concat()
}

/// A done value with the bytes dropped and the spaces that went out.
pub fn counted(value: &[u8], dropped: usize, spaces: usize) -> CountedAnswer {
    Ok(Counted {
        value: value.to_vec(),
        dropped,
        spaces,
    })
}

/// The record that paper 01 describes for a next counter, register by register
/// from the initial key.
pub fn described<K: Key>(initial: K, serial: &[u8; 10], c: u32) -> Record<K> {
    let l = c.trailing_zeros();
    let mut keys = [K::ZERO; 21];
    let mut filled = 0;
    for b in 0..21u32 {
        if b == l || (b > l && c & (1 << b) == 0) {
            filled |= 1 << b;
            let above = c >> (b + 1) << (b + 1);
            keys[b as usize] = register_key(initial, serial, above | 1 << b);
        }
    }
    Record {
        keys,
        filled,
        serial: *serial,
        counter: c,
        exhausted: false,
    }
}

/// The derivation key of document 002.
pub const DERIVATION: &str = "5152 5457 585B 5D5E 6162 6467 686B 6D6E";
/// The serial number of document 002, with counter 100001 hex.
pub const SERIAL: &str = "0123 4567 89AB CDF0 0001";

/// The derivation key of ANS X9.24-1, A.4.
pub const ANSI_DERIVATION: &str = "0123456789ABCDEF FEDCBA9876543210";
/// The serial number of ANS X9.24-1, A.4, with counter 0.
pub const ANSI_SERIAL: &str = "FFFF 9876543210E00000";

/// NBS Special Publication 500-20, substitution table test: key, block, result.
pub const SUBSTITUTION: [[&str; 3]; 19] = [
    ["7CA110454A1A6E57", "01A1D6D039776742", "690F5B0D9A26939B"],
    ["0131D9619DC1376E", "5CD54CA83DEF57DA", "7A389D10354BD271"],
    ["07A1133E4A0B2686", "0248D43806F67172", "868EBB51CAB4599A"],
    ["3849674C2602319E", "51454B582DDF440A", "7178876E01F19B2A"],
    ["04B915BA43FEB5B6", "42FD443059577FA2", "AF37FB421F8C4095"],
    ["0113B970FD34F2CE", "059B5E0851CF143A", "86A560F10EC6D85B"],
    ["0170F175468FB5E6", "0756D8E0774761D2", "0CD3DA020021DC09"],
    ["43297FAD38E373FE", "762514B829BF486A", "EA676B2CB7DB2B7A"],
    ["07A7137045DA2A16", "3BDD119049372802", "DFD64A815CAF1A0F"],
    ["04689104C2FD3B2F", "26955F6835AF609A", "5C513C9C4886C088"],
    ["37D06BB516CB7546", "164D5E404F275232", "0A2AEEAE3FF4AB77"],
    ["1F08260D1AC2465E", "6B056E18759F5CCA", "EF1BF03E5DFA575A"],
    ["584023641ABA6176", "004BD6EF09176062", "88BF0DB6D70DEE56"],
    ["025816164629B007", "480D39006EE762F2", "A1F9915541020B56"],
    ["49793EBC79B3258F", "437540C8698F3CFA", "6FBF1CAFCFFD0556"],
    ["4FB05E1515AB73A7", "072D43A077075292", "2F22E49BAB7CA1AC"],
    ["49E95D6D4CA229BF", "02FE55778117F12A", "5A6B612CC26CCE4A"],
    ["018310DC409B26D6", "1D9D5C5018F728C2", "5F4C038ED12B2E41"],
    ["1C587F1C13924FEF", "305532286D6F295A", "63FAC0D034D9F793"],
];
