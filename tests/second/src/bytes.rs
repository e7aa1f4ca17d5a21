//! Bytes, digits and hexadecimal text.

/// Exclusive-or of two strings of bytes.
pub fn xor<const N: usize>(a: [u8; N], b: [u8; N]) -> [u8; N] {
    std::array::from_fn(|i| a[i] ^ b[i])
}

/// All bits of eight bytes turned.
pub fn turned(block: [u8; 8]) -> [u8; 8] {
    block.map(|byte| 0xFF - byte)
}

/// A slice as an array; its length is known to be the array's.
pub fn array<A: for<'a> TryFrom<&'a [u8]>>(bytes: &[u8]) -> A {
    let array = A::try_from(bytes).ok();
    array.expect("the length was checked before")
}

/// Left 8 bytes of a 16-byte key.
pub fn left(key: &[u8; 16]) -> [u8; 8] {
    array(&key[..8])
}

/// Right 8 bytes of a 16-byte key.
pub fn right(key: &[u8; 16]) -> [u8; 8] {
    array(&key[8..])
}

/// Half-bytes as bytes, two a byte, the first half-byte on the left.
pub fn pack<const N: usize>(half_bytes: &[u8]) -> [u8; N] {
    assert_eq!(half_bytes.len(), 2 * N);
    std::array::from_fn(|i| half_bytes[2 * i] * 16 + half_bytes[2 * i + 1])
}

/// Half-byte of a block, the leftmost being 0.
pub fn half_byte(block: &[u8], place: usize) -> u8 {
    let byte = block[place / 2];
    [byte / 16, byte % 16][place % 2]
}

/// Whether every byte is a text digit.
pub fn all_digits(text: &[u8]) -> bool {
    text.iter().all(|byte| b"0123456789".contains(byte))
}

/// Values of text digits.
pub fn digit_values(text: &[u8]) -> Vec<u8> {
    text.iter().map(|digit| digit - b'0').collect()
}

/// Bytes as capital hexadecimal digits.
pub fn hex(bytes: &[u8]) -> String {
    bytes.iter().map(|byte| format!("{byte:02X}")).collect()
}
