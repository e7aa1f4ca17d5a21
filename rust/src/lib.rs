//! The cryptography of rented card terminals: DES and two-key triple DES, key entry, the MAC of a text and of an online
//! message, the blocks of PINs, passwords and VIP numbers, chip-card keys and cryptograms, and DUKPT on the host and in the
//! terminal.
//!
//! Safe functions over `libchizuregwo.a`, one for each of its entries. Each but [`version`] returns the result, or an
//! [`Error`] with the refusal's number and meaning. The module [`lent`] has the same entries over buffers of the caller's own.
//!
//! Where several refusals apply, the error is the first in the order that stands with the function.

#![deny(missing_docs)]
#![deny(unsafe_code)]

mod error;
#[allow(unsafe_code)]
pub mod lent;
mod terminal;

pub use error::Error;
pub use terminal::{
    DoubleTerminal, NextKey, SerialNumber, Terminal, DOUBLE_RECORD_SIZE, RECORD_SIZE,
};

use lent::WrittenText;

/// A block, a MAC, a cryptogram or a single-length key: 8 bytes.
pub type Block = [u8; 8];

/// A double-length key, left half first: 16 bytes.
pub type DoubleKey = [u8; 16];

/// A password block: 24 bytes.
pub type PasswordBlock = [u8; PASSWORD_BLOCK_SIZE];

/// A VIP block: 16 bytes.
pub type VipBlock = [u8; VIP_BLOCK_SIZE];

/// A cleaned text, and what cleaning threw away. Both counts are over the text before cleaning; a message's is the joined
/// one, with the length digits and the spaces between fields. That text has as many bytes as the cleaned one, plus
/// `dropped`, plus `spaces`.
#[derive(Clone, Debug, PartialEq, Eq)]
pub struct Cleaned {
    /// The cleaned text.
    pub text: Vec<u8>,
    /// Bytes that are no letter of either case, digit, space, comma or full stop.
    pub dropped: usize,
    /// Spaces, less those of the cleaned text.
    pub spaces: usize,
}

/// The MAC of a cleaned text, and what cleaning threw away, as in [`Cleaned`].
#[derive(Clone, Copy, Debug, PartialEq, Eq)]
pub struct TextMac {
    /// The MAC.
    pub mac: Block,
    /// Bytes that are no letter of either case, digit, space, comma or full stop.
    pub dropped: usize,
    /// Spaces, less those of the cleaned text.
    pub spaces: usize,
}

/// Most characters of a message's MAC text.
pub const MOST_MESSAGE_TEXT: usize = 166;

/// Most digits of a PIN.
pub const MOST_PIN: usize = 12;

/// Size in bytes of a password block.
pub const PASSWORD_BLOCK_SIZE: usize = 24;

/// Fewest characters of a password.
pub const LEAST_PASSWORD: usize = 6;

/// Most characters of a password.
pub const MOST_PASSWORD: usize = 20;

/// Size in bytes of a VIP block.
pub const VIP_BLOCK_SIZE: usize = 16;

/// Fewest digits of a VIP number.
pub const LEAST_VIP_NUMBER: usize = 11;

/// Most digits of a VIP number.
pub const MOST_VIP_NUMBER: usize = 19;

/// Most characters of the meaning of a number.
pub const MOST_MEANING: usize = 78;

/// A result of fixed size.
fn fixed<const N: usize>(
    entry: impl FnOnce(&mut [u8]) -> Result<usize, Error>,
) -> Result<[u8; N], Error> {
    let mut out = [0; N];
    let length = entry(&mut out)?;
    debug_assert_eq!(length, N);
    Ok(out)
}

/// A result of at most so many bytes.
fn at_most(
    room: usize,
    entry: impl FnOnce(&mut [u8]) -> Result<usize, Error>,
) -> Result<Vec<u8>, Error> {
    let mut out = vec![0; room];
    let length = entry(&mut out)?;
    out.truncate(length);
    Ok(out)
}

/// A cleaned text of at most so many bytes.
fn cleaned(
    room: usize,
    entry: impl FnOnce(&mut [u8]) -> Result<WrittenText, Error>,
) -> Result<Cleaned, Error> {
    let mut text = vec![0; room];
    let written = entry(&mut text)?;
    text.truncate(written.length);
    Ok(Cleaned {
        text,
        dropped: written.dropped,
        spaces: written.spaces,
    })
}

/// The MAC of a cleaned text.
fn cleaned_mac(
    entry: impl FnOnce(&mut [u8]) -> Result<WrittenText, Error>,
) -> Result<TextMac, Error> {
    let mut mac = [0; 8];
    let written = entry(&mut mac)?;
    debug_assert_eq!(written.length, mac.len());
    Ok(TextMac {
        mac,
        dropped: written.dropped,
        spaces: written.spaces,
    })
}

/// The version of the library that is linked: 10,000 times the major number plus 100 times the minor plus the patch.
///
/// ```
/// assert_eq!(chizuregwo::version(), 100);
/// ```
pub fn version() -> u32 {
    lent::version()
}

/// The meaning of a number from 0 to 13. Refusals: 6.
///
/// ```
/// use chizuregwo::{meaning, Error};
/// assert_eq!(meaning(0)?, "done");
/// assert_eq!(meaning(12)?, Error::Exhausted.meaning());
/// assert_eq!(meaning(14), Err(Error::Size));
/// # Ok::<(), Error>(())
/// ```
pub fn meaning(number: u32) -> Result<String, Error> {
    let text = at_most(MOST_MEANING, |out| lent::meaning(number, out))?;
    Ok(String::from_utf8_lossy(&text).into_owned())
}

/// Encrypts a block of 8 bytes: DES under a key of 8 bytes, triple DES under one of 16. Refusals: 6.
///
/// ```
/// let key = [0x13, 0x34, 0x57, 0x79, 0x9B, 0xBC, 0xDF, 0xF1];
/// let block = [0x01, 0x23, 0x45, 0x67, 0x89, 0xAB, 0xCD, 0xEF];
/// let encrypted = [0x85, 0xE8, 0x13, 0x54, 0x0F, 0x0A, 0xB4, 0x05];
/// assert_eq!(chizuregwo::encrypt(&key, &block), Ok(encrypted));
/// ```
pub fn encrypt(key: &[u8], block: &[u8]) -> Result<Block, Error> {
    fixed(|out| lent::encrypt(key, block, out))
}

/// Decrypts: undoes [`encrypt`] under the same key. Refusals: 6.
///
/// ```
/// let key = *b"left halrightha.";
/// let encrypted = chizuregwo::encrypt(&key, b"a block.")?;
/// assert_eq!(&chizuregwo::decrypt(&key, &encrypted)?, b"a block.");
/// # Ok::<(), chizuregwo::Error>(())
/// ```
pub fn decrypt(key: &[u8], block: &[u8]) -> Result<Block, Error> {
    fixed(|out| lent::decrypt(key, block, out))
}

/// A key from hexadecimal text, letters of either case: 8 or 16 bytes are wanted, and the text has exactly twice as many
/// digits. Refusals: 6, 7.
///
/// ```
/// use chizuregwo::{key_entry, Error};
/// assert_eq!(key_entry(b"0123456789abCDEF", 8)?, [0x01, 0x23, 0x45, 0x67, 0x89, 0xAB, 0xCD, 0xEF]);
/// assert_eq!(key_entry(b"0123456789abCDEF", 16), Err(Error::Size));
/// # Ok::<(), Error>(())
/// ```
pub fn key_entry(text: &[u8], bytes_wanted: usize) -> Result<Vec<u8>, Error> {
    at_most(16, |out| lent::key_entry(text, bytes_wanted, out))
}

/// Cleans a text of 0 to 1,024 bytes: small letters become capitals; only A to Z, 0 to 9, space, comma and full stop
/// stay; after that, spaces at both ends go and each run of spaces becomes one. Refusals: 6.
///
/// ```
/// let cleaned = chizuregwo::clean(b"a - b")?;
/// assert_eq!(cleaned.text, b"A B");
/// assert_eq!((cleaned.dropped, cleaned.spaces), (1, 1));
/// # Ok::<(), chizuregwo::Error>(())
/// ```
pub fn clean(text: &[u8]) -> Result<Cleaned, Error> {
    cleaned(text.len(), |out| lent::clean(text, out))
}

/// The MAC text of an online message of 1 to 4,096 bytes. Refusals: 6; then records one at a time, each 1, 2, 4, 3.
///
/// ```
/// let message = b"\x04\0\0\x000200\x06\0\x03\x00000000\x08\0\x29\0a-1     ";
/// let cleaned = chizuregwo::message_text(message)?;
/// assert_eq!(cleaned.text, b"0200 000000 A1");
/// assert_eq!((cleaned.dropped, cleaned.spaces), (1, 5));
/// # Ok::<(), chizuregwo::Error>(())
/// ```
pub fn message_text(message: &[u8]) -> Result<Cleaned, Error> {
    cleaned(MOST_MESSAGE_TEXT, |out| lent::message_text(message, out))
}

/// The MAC of a free text of 0 to 1,024 bytes under a key of 8, the text being cleaned first. Refusals: 6, 5.
///
/// ```
/// use chizuregwo::{text_mac, Error};
/// let key = [0x01, 0x23, 0x45, 0x67, 0x89, 0xAB, 0xCD, 0xEF];
/// let made = text_mac(&key, b"ab  c")?;
/// assert_eq!(made.mac, [0x07, 0x74, 0xE3, 0xFC, 0x85, 0x9D, 0x71, 0xF2]);
/// assert_eq!((made.dropped, made.spaces), (0, 1));
/// assert_eq!(text_mac(&key, b"---"), Err(Error::EmptyText));
/// # Ok::<(), Error>(())
/// ```
pub fn text_mac(key: &[u8], text: &[u8]) -> Result<TextMac, Error> {
    cleaned_mac(|out| lent::text_mac(key, text, out))
}

/// The MAC of a message under a key of 8 bytes: of its MAC text. Refusals: 6; then records one at a time, each 1, 2, 4, 3.
///
/// ```
/// let key = [0x01, 0x23, 0x45, 0x67, 0x89, 0xAB, 0xCD, 0xEF];
/// let made = chizuregwo::message_mac(&key, b"\x04\0\0\x000200\x08\0\x29\0--------")?;
/// assert_eq!(made.mac, [0xDB, 0x81, 0x03, 0x56, 0x75, 0xC6, 0x51, 0x60]);
/// assert_eq!((made.dropped, made.spaces), (8, 1));
/// # Ok::<(), chizuregwo::Error>(())
/// ```
pub fn message_mac(key: &[u8], message: &[u8]) -> Result<TextMac, Error> {
    cleaned_mac(|out| lent::message_mac(key, message, out))
}

/// Clear PIN block of a PIN of 4 to 12 digits, without card number. Refusals: 6, 7.
///
/// ```
/// assert_eq!(chizuregwo::pin_make(b"1234"), Ok([0x04, 0x12, 0x34, 0xFF, 0xFF, 0xFF, 0xFF, 0xFF]));
/// ```
pub fn pin_make(pin: &[u8]) -> Result<Block, Error> {
    fixed(|out| lent::pin_make(pin, out))
}

/// Clear PIN block with a card number of 13 to 19 digits (ISO 9564-1, format 0). Refusals: 6, 7.
///
/// ```
/// let block = chizuregwo::pin_make_with_card(b"1234", b"4219876543210987");
/// assert_eq!(block, Ok([0x04, 0x12, 0xAC, 0x89, 0xAB, 0xCD, 0xEF, 0x67]));
/// ```
pub fn pin_make_with_card(pin: &[u8], card: &[u8]) -> Result<Block, Error> {
    fixed(|out| lent::pin_make_with_card(pin, card, out))
}

/// The PIN of a clear block of 8 bytes, as text digits. Refusals: 6, 8.
///
/// ```
/// use chizuregwo::{pin_read, Error};
/// assert_eq!(pin_read(&[0x04, 0x12, 0x34, 0xFF, 0xFF, 0xFF, 0xFF, 0xFF])?, b"1234");
/// assert_eq!(pin_read(&[0x03, 0x12, 0x3F, 0xFF, 0xFF, 0xFF, 0xFF, 0xFF]), Err(Error::BadBlock));
/// # Ok::<(), Error>(())
/// ```
pub fn pin_read(block: &[u8]) -> Result<Vec<u8>, Error> {
    at_most(MOST_PIN, |out| lent::pin_read(block, out))
}

/// The PIN of a clear block with card number. Refusals: 6, 7, 8.
///
/// ```
/// let block = [0x04, 0x12, 0xAC, 0x89, 0xAB, 0xCD, 0xEF, 0x67];
/// assert_eq!(chizuregwo::pin_read_with_card(&block, b"4219876543210987")?, b"1234");
/// # Ok::<(), chizuregwo::Error>(())
/// ```
pub fn pin_read_with_card(block: &[u8], card: &[u8]) -> Result<Vec<u8>, Error> {
    at_most(MOST_PIN, |out| lent::pin_read_with_card(block, card, out))
}

/// Encrypted PIN block without card number: DES under a key of 8 bytes, triple DES under one of 16. Refusals: 6, 7.
///
/// ```
/// use chizuregwo::{encrypt, pin_encrypt, pin_make};
/// let key = *b"PIN key.";
/// assert_eq!(pin_encrypt(&key, b"1234")?, encrypt(&key, &pin_make(b"1234")?)?);
/// # Ok::<(), chizuregwo::Error>(())
/// ```
pub fn pin_encrypt(key: &[u8], pin: &[u8]) -> Result<Block, Error> {
    fixed(|out| lent::pin_encrypt(key, pin, out))
}

/// Encrypted PIN block with card number. Refusals: 6, 7.
///
/// ```
/// use chizuregwo::{encrypt, pin_encrypt_with_card, pin_make_with_card};
/// let (key, card) = (*b"double PIN key..", b"4219876543210987");
/// let clear = pin_make_with_card(b"1234", card)?;
/// assert_eq!(pin_encrypt_with_card(&key, b"1234", card)?, encrypt(&key, &clear)?);
/// # Ok::<(), chizuregwo::Error>(())
/// ```
pub fn pin_encrypt_with_card(key: &[u8], pin: &[u8], card: &[u8]) -> Result<Block, Error> {
    fixed(|out| lent::pin_encrypt_with_card(key, pin, card, out))
}

/// The PIN of an encrypted block of 8 bytes, as text digits. Refusals: 6, 8.
///
/// ```
/// use chizuregwo::{pin_decrypt, pin_encrypt};
/// let block = pin_encrypt(b"PIN key.", b"987654")?;
/// assert_eq!(pin_decrypt(b"PIN key.", &block)?, b"987654");
/// # Ok::<(), chizuregwo::Error>(())
/// ```
pub fn pin_decrypt(key: &[u8], block: &[u8]) -> Result<Vec<u8>, Error> {
    at_most(MOST_PIN, |out| lent::pin_decrypt(key, block, out))
}

/// The PIN of an encrypted block with card number. Refusals: 6, 7, 8.
///
/// ```
/// use chizuregwo::{pin_decrypt_with_card, pin_encrypt_with_card};
/// let card = b"4219876543210987";
/// let block = pin_encrypt_with_card(b"PIN key.", b"987654", card)?;
/// assert_eq!(pin_decrypt_with_card(b"PIN key.", &block, card)?, b"987654");
/// # Ok::<(), chizuregwo::Error>(())
/// ```
pub fn pin_decrypt_with_card(key: &[u8], block: &[u8], card: &[u8]) -> Result<Vec<u8>, Error> {
    at_most(MOST_PIN, |out| {
        lent::pin_decrypt_with_card(key, block, card, out)
    })
}

/// Clear block of a password of 6 to 20 characters from 21 to 7E hex: two decimal characters of length, the password, then
/// FF hex to the end. Refusals: 6, 7.
///
/// ```
/// use chizuregwo::{password_make, Error};
/// let block = password_make(b"Hello!123")?;
/// assert_eq!(block[..11], [0x30, 0x39, 0x48, 0x65, 0x6C, 0x6C, 0x6F, 0x21, 0x31, 0x32, 0x33]);
/// assert_eq!(block[11..], [0xFF; 13]);
/// assert_eq!(password_make(b"Hello 123"), Err(Error::Character));
/// # Ok::<(), Error>(())
/// ```
pub fn password_make(password: &[u8]) -> Result<PasswordBlock, Error> {
    fixed(|out| lent::password_make(password, out))
}

/// The password of a clear block of 24 bytes. Refusals: 6, 8.
///
/// ```
/// use chizuregwo::{password_make, password_read, Error};
/// let mut block = password_make(b"Hello!123")?;
/// assert_eq!(password_read(&block)?, b"Hello!123");
/// block[23] = b' ';
/// assert_eq!(password_read(&block), Err(Error::BadBlock));
/// # Ok::<(), Error>(())
/// ```
pub fn password_read(block: &[u8]) -> Result<Vec<u8>, Error> {
    at_most(MOST_PASSWORD, |out| lent::password_read(block, out))
}

/// Clear block of a VIP number of 11 to 19 digits: two decimal half-bytes of length, the digits as half-bytes, then F to the
/// end. Refusals: 6, 7.
///
/// ```
/// let block = chizuregwo::vip_make(b"1234567890123456789")?;
/// assert_eq!(block[..8], [0x19, 0x12, 0x34, 0x56, 0x78, 0x90, 0x12, 0x34]);
/// assert_eq!(block[8..], [0x56, 0x78, 0x9F, 0xFF, 0xFF, 0xFF, 0xFF, 0xFF]);
/// # Ok::<(), chizuregwo::Error>(())
/// ```
pub fn vip_make(digits: &[u8]) -> Result<VipBlock, Error> {
    fixed(|out| lent::vip_make(digits, out))
}

/// The VIP number of a clear block of 16 bytes, as text digits. Refusals: 6, 8.
///
/// ```
/// use chizuregwo::{vip_make, vip_read, Error};
/// let mut block = vip_make(b"1234567890123456789")?;
/// assert_eq!(vip_read(&block)?, b"1234567890123456789");
/// // The length is in decimal: 13 hex is not 19.
/// block[0] = 0x13;
/// assert_eq!(vip_read(&block), Err(Error::BadBlock));
/// # Ok::<(), Error>(())
/// ```
pub fn vip_read(block: &[u8]) -> Result<Vec<u8>, Error> {
    at_most(MOST_VIP_NUMBER, |out| lent::vip_read(block, out))
}

/// Y: the card number and two digits of sequence (0 to 99), its rightmost 16 digits, zeros put on the left if short.
/// Refusals: 6, 7.
///
/// ```
/// let y = chizuregwo::derivation_data(b"6228000100001", 1);
/// assert_eq!(y, Ok([0x06, 0x22, 0x80, 0x00, 0x10, 0x00, 0x01, 0x01]));
/// ```
pub fn derivation_data(card: &[u8], sequence: u32) -> Result<Block, Error> {
    fixed(|out| lent::derivation_data(card, sequence, out))
}

/// The card key: under a master key of 16 bytes, triple DES of Y, then of Y with all bits turned; and then the low bit of
/// each byte is turned that has an even number of ones, so that every byte has an odd number. Refusals: 6, 7.
///
/// ```
/// use chizuregwo::{card_key, key_entry};
/// let master_key = key_entry(b"0123456789ABCDEFFEDCBA9876543210", 16)?;
/// let key = card_key(&master_key, b"4219876543210987", 0)?;
/// assert_eq!(key.to_vec(), key_entry(b"9249345E0220CEBA0D20D6A2453BF407", 16)?);
/// assert!(key.iter().all(|byte| byte.count_ones() % 2 == 1));
/// # Ok::<(), chizuregwo::Error>(())
/// ```
pub fn card_key(master_key: &[u8], card: &[u8], sequence: u32) -> Result<DoubleKey, Error> {
    fixed(|out| lent::card_key(master_key, card, sequence, out))
}

/// The card key before its parity is set, for comparison with lists of such keys. It has the same session keys, and so the
/// same cryptograms. Refusals: 6, 7.
///
/// ```
/// use chizuregwo::{card_key, card_key_unadjusted, key_entry, session_key};
/// let master_key = key_entry(b"F0C34A8124CEE0A91A0B034AA97D6EAC", 16)?;
/// let key = card_key_unadjusted(&master_key, b"6228000100001", 1)?;
/// assert_eq!(key.to_vec(), key_entry(b"014D996FCC8F49157DC8B49E3BCDFD99", 16)?);
/// let adjusted = card_key(&master_key, b"6228000100001", 1)?;
/// assert_eq!(session_key(&adjusted, 0x0240)?, session_key(&key, 0x0240)?);
/// # Ok::<(), chizuregwo::Error>(())
/// ```
pub fn card_key_unadjusted(
    master_key: &[u8],
    card: &[u8],
    sequence: u32,
) -> Result<DoubleKey, Error> {
    fixed(|out| lent::card_key_unadjusted(master_key, card, sequence, out))
}

/// The session key of a transaction counter, under a card key of 16 bytes. The low bits of the card key's bytes have no
/// effect, and no parity is set on the session key. Refusals: 6.
///
/// ```
/// use chizuregwo::{key_entry, session_key};
/// let card_key = key_entry(b"014C986ECD8F49157CC8B59E3BCDFD98", 16)?;
/// let key = session_key(&card_key, 0x0240)?;
/// assert_eq!(key.to_vec(), key_entry(b"D4102725E6E5AD329E55AAB50BF23DA9", 16)?);
/// # Ok::<(), chizuregwo::Error>(())
/// ```
pub fn session_key(card_key: &[u8], counter: u16) -> Result<DoubleKey, Error> {
    fixed(|out| lent::session_key(card_key, counter, out))
}

/// ARQC of 1 to 255 bytes of data under a session key of 16. Refusals: 6.
///
/// ```
/// use chizuregwo::{arqc, encrypt, key_entry};
/// let session_key = key_entry(b"D4102725E6E5AD329E55AAB50BF23DA9", 16)?;
/// assert_eq!(arqc(&session_key, b"1234567")?, encrypt(&session_key, b"1234567\x80")?);
/// # Ok::<(), chizuregwo::Error>(())
/// ```
pub fn arqc(session_key: &[u8], data: &[u8]) -> Result<Block, Error> {
    fixed(|out| lent::arqc(session_key, data, out))
}

/// ARPC of an ARQC of 8 bytes and a code of 2 under a session key of 16. Refusals: 6.
///
/// ```
/// use chizuregwo::{arpc, key_entry};
/// let session_key = key_entry(b"D4102725E6E5AD329E55AAB50BF23DA9", 16)?;
/// let arqc = key_entry(b"5D016C91005E7CC2", 8)?;
/// assert_eq!(arpc(&session_key, &arqc, b"01")?.to_vec(), key_entry(b"21415243527CE78F", 8)?);
/// # Ok::<(), chizuregwo::Error>(())
/// ```
pub fn arpc(session_key: &[u8], arqc: &[u8], code: &[u8]) -> Result<Block, Error> {
    fixed(|out| lent::arpc(session_key, arqc, code, out))
}

/// The initial key of a serial number of 10 bytes, whatever its counter, under a derivation key of 16. Refusals: 6, 9.
///
/// ```
/// use chizuregwo::{initial_key, key_entry, Error};
/// let derivation_key = key_entry(b"51525457585B5D5E61626467686B6D6E", 16)?;
/// let serial_number = [0x01, 0x23, 0x45, 0x67, 0x89, 0xAB, 0xCD, 0xF0, 0x00, 0x01];
/// let key = initial_key(&derivation_key, &serial_number)?;
/// assert_eq!(key.to_vec(), key_entry(b"21EE7C08DBE820AB", 8)?);
/// // Halves that differ in the low bits of bytes alone are the same key.
/// assert_eq!(initial_key(b"0123456710325476", &serial_number), Err(Error::EqualHalves));
/// # Ok::<(), Error>(())
/// ```
pub fn initial_key(derivation_key: &[u8], serial_number: &[u8]) -> Result<Block, Error> {
    fixed(|out| lent::initial_key(derivation_key, serial_number, out))
}

/// The host's key for a serial number of 10 bytes with its counter, under a derivation key of 16. Refusals: 6, 9, 10.
///
/// ```
/// use chizuregwo::{host_key, key_entry, Error};
/// let derivation_key = key_entry(b"51525457585B5D5E61626467686B6D6E", 16)?;
/// let serial_number = [0x01, 0x23, 0x45, 0x67, 0x89, 0xAB, 0xCD, 0xF0, 0x00, 0x01];
/// let key = host_key(&derivation_key, &serial_number)?;
/// assert_eq!(key.to_vec(), key_entry(b"670B395E6CFB60C2", 8)?);
/// assert_eq!(host_key(&derivation_key, &[0; 10]), Err(Error::BadCounter));
/// # Ok::<(), Error>(())
/// ```
pub fn host_key(derivation_key: &[u8], serial_number: &[u8]) -> Result<Block, Error> {
    fixed(|out| lent::host_key(derivation_key, serial_number, out))
}

/// The initial key of a double-length terminal: the left half is [`initial_key`]'s, the right half the same under the
/// derivation key with C0C0C0C000000000 exclusive-or'd into both its halves. The halves of the derivation key are compared
/// before that. Refusals: 6, 9.
///
/// ```
/// use chizuregwo::{double_initial_key, initial_key, key_entry};
/// let derivation_key = key_entry(b"0123456789ABCDEFFEDCBA9876543210", 16)?;
/// let serial_number = [0xFF, 0xFF, 0x98, 0x76, 0x54, 0x32, 0x10, 0xE0, 0, 0];
/// let key = double_initial_key(&derivation_key, &serial_number)?;
/// assert_eq!(key.to_vec(), key_entry(b"6AC292FAA1315B4D858AB3A3D7D5933A", 16)?);
/// assert_eq!(key[..8], initial_key(&derivation_key, &serial_number)?);
/// # Ok::<(), chizuregwo::Error>(())
/// ```
pub fn double_initial_key(derivation_key: &[u8], serial_number: &[u8]) -> Result<DoubleKey, Error> {
    fixed(|out| lent::double_initial_key(derivation_key, serial_number, out))
}

/// The host's key for a double-length terminal and a serial number of 10 bytes with its counter, under a derivation key of
/// 16. Refusals: 6, 9, 10.
///
/// ```
/// use chizuregwo::{double_host_key, key_entry};
/// let derivation_key = key_entry(b"0123456789ABCDEFFEDCBA9876543210", 16)?;
/// let serial_number = [0xFF, 0xFF, 0x98, 0x76, 0x54, 0x32, 0x10, 0xE0, 0, 1];
/// let key = double_host_key(&derivation_key, &serial_number)?;
/// assert_eq!(key.to_vec(), key_entry(b"042666B49184CF5C68DE9628D0397B36", 16)?);
/// # Ok::<(), chizuregwo::Error>(())
/// ```
pub fn double_host_key(derivation_key: &[u8], serial_number: &[u8]) -> Result<DoubleKey, Error> {
    fixed(|out| lent::double_host_key(derivation_key, serial_number, out))
}
