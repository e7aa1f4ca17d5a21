//! What the tests share.

/// The bytes that hexadecimal digits write.
pub fn hex(digits: &str) -> Vec<u8> {
    assert!(digits.len().is_multiple_of(2) && digits.is_ascii());
    (0..digits.len() / 2)
        .map(|i| u8::from_str_radix(&digits[2 * i..2 * i + 2], 16).expect("hexadecimal"))
        .collect()
}

/// The derivation key of document 002.
pub const DERIVATION_KEY: &str = "51525457585B5D5E61626467686B6D6E";
/// The serial number of document 002, with counter 100001 hex.
pub const SERIAL_NUMBER: &str = "0123456789ABCDF00001";

/// The derivation key of ANSI's double-length examples (ANS X9.24-1:2004, A.4).
pub const DOUBLE_DERIVATION_KEY: &str = "0123456789ABCDEFFEDCBA9876543210";
/// The serial number of ANSI's double-length examples, with counter 0.
pub const DOUBLE_SERIAL_NUMBER: &str = "FFFF9876543210E00000";
