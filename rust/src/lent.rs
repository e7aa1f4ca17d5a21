//! The entries of the library as they are: bytes lent to be read, bytes lent to be written.
//!
//! Done is `Ok` with how many bytes were written from the start of the buffer; the buffer's bytes after these are as they
//! were. The entries that clean a text also say what cleaning threw away. A refusal is `Err`, and every byte of every buffer
//! is as it was.
//!
//! This is the only module with `unsafe` code.

use crate::Error;

/// What an entry that cleans a text wrote, and what cleaning threw away. Both counts are over the text before cleaning; a
/// message's is the joined one, with the length digits and the spaces between fields.
#[derive(Clone, Copy, Debug, PartialEq, Eq)]
pub struct WrittenText {
    /// Bytes written from the start of the buffer.
    pub length: usize,
    /// Bytes that are no letter of either case, digit, space, comma or full stop.
    pub dropped: usize,
    /// Spaces, less those of the cleaned text.
    pub spaces: usize,
}

/// What every entry answers but `czg_version` and those that clean a text.
#[repr(C)]
struct Answer {
    number: u32,
    length: usize,
}

impl Answer {
    /// Done with a length, or the refusal of a number.
    fn result(self) -> Result<usize, Error> {
        match Error::from_number(self.number) {
            None => Ok(self.length),
            Some(error) => {
                debug_assert_eq!(self.length, 0, "the length of a refusal");
                Err(error)
            }
        }
    }
}

/// What the entries that clean a text answer.
#[repr(C)]
struct TextAnswer {
    number: u32,
    length: usize,
    dropped: usize,
    spaces: usize,
}

impl TextAnswer {
    /// Done with a length and both counts, or the refusal of a number.
    fn result(self) -> Result<WrittenText, Error> {
        match Error::from_number(self.number) {
            None => Ok(WrittenText {
                length: self.length,
                dropped: self.dropped,
                spaces: self.spaces,
            }),
            Some(error) => {
                debug_assert_eq!(self.length, 0, "the length of a refusal");
                debug_assert_eq!(self.dropped, 0, "the dropped bytes of a refusal");
                debug_assert_eq!(self.spaces, 0, "the spaces of a refusal");
                Err(error)
            }
        }
    }
}

/// Bytes lent to be read.
type Bytes = *const u8;
/// Bytes lent to be written.
type Buffer = *mut u8;

// The entries as chizuregwo.h declares them.
#[rustfmt::skip]
extern "C" {
    fn czg_version() -> u32;
    fn czg_meaning(number: u32, out: Buffer, out_size: usize) -> Answer;
    fn czg_encrypt(key: Bytes, key_size: usize, block: Bytes, block_size: usize,
        out: Buffer, out_size: usize) -> Answer;
    fn czg_decrypt(key: Bytes, key_size: usize, block: Bytes, block_size: usize,
        out: Buffer, out_size: usize) -> Answer;
    fn czg_key_entry(text: Bytes, text_size: usize, bytes_wanted: usize, out: Buffer, out_size: usize) -> Answer;
    fn czg_clean(text: Bytes, text_size: usize, out: Buffer, out_size: usize) -> TextAnswer;
    fn czg_message_text(message: Bytes, message_size: usize, out: Buffer, out_size: usize) -> TextAnswer;
    fn czg_text_mac(key: Bytes, key_size: usize, text: Bytes, text_size: usize,
        out: Buffer, out_size: usize) -> TextAnswer;
    fn czg_message_mac(key: Bytes, key_size: usize, message: Bytes, message_size: usize,
        out: Buffer, out_size: usize) -> TextAnswer;
    fn czg_pin_make(pin: Bytes, pin_size: usize, out: Buffer, out_size: usize) -> Answer;
    fn czg_pin_make_with_card(pin: Bytes, pin_size: usize, card: Bytes, card_size: usize,
        out: Buffer, out_size: usize) -> Answer;
    fn czg_pin_read(block: Bytes, block_size: usize, out: Buffer, out_size: usize) -> Answer;
    fn czg_pin_read_with_card(block: Bytes, block_size: usize, card: Bytes, card_size: usize,
        out: Buffer, out_size: usize) -> Answer;
    fn czg_pin_encrypt(key: Bytes, key_size: usize, pin: Bytes, pin_size: usize,
        out: Buffer, out_size: usize) -> Answer;
    fn czg_pin_encrypt_with_card(key: Bytes, key_size: usize, pin: Bytes, pin_size: usize,
        card: Bytes, card_size: usize, out: Buffer, out_size: usize) -> Answer;
    fn czg_pin_decrypt(key: Bytes, key_size: usize, block: Bytes, block_size: usize,
        out: Buffer, out_size: usize) -> Answer;
    fn czg_pin_decrypt_with_card(key: Bytes, key_size: usize, block: Bytes, block_size: usize,
        card: Bytes, card_size: usize, out: Buffer, out_size: usize) -> Answer;
    fn czg_password_make(password: Bytes, password_size: usize, out: Buffer, out_size: usize) -> Answer;
    fn czg_password_read(block: Bytes, block_size: usize, out: Buffer, out_size: usize) -> Answer;
    fn czg_vip_make(digits: Bytes, digits_size: usize, out: Buffer, out_size: usize) -> Answer;
    fn czg_vip_read(block: Bytes, block_size: usize, out: Buffer, out_size: usize) -> Answer;
    fn czg_derivation_data(card: Bytes, card_size: usize, sequence: u32, out: Buffer, out_size: usize) -> Answer;
    fn czg_card_key(master_key: Bytes, master_key_size: usize, card: Bytes, card_size: usize,
        sequence: u32, out: Buffer, out_size: usize) -> Answer;
    fn czg_card_key_unadjusted(master_key: Bytes, master_key_size: usize, card: Bytes, card_size: usize,
        sequence: u32, out: Buffer, out_size: usize) -> Answer;
    fn czg_session_key(card_key: Bytes, card_key_size: usize, counter: u16, out: Buffer, out_size: usize) -> Answer;
    fn czg_arqc(session_key: Bytes, session_key_size: usize, data: Bytes, data_size: usize,
        out: Buffer, out_size: usize) -> Answer;
    fn czg_arpc(session_key: Bytes, session_key_size: usize, arqc: Bytes, arqc_size: usize,
        code: Bytes, code_size: usize, out: Buffer, out_size: usize) -> Answer;
    fn czg_initial_key(derivation_key: Bytes, derivation_key_size: usize, serial_number: Bytes, serial_number_size: usize,
        out: Buffer, out_size: usize) -> Answer;
    fn czg_host_key(derivation_key: Bytes, derivation_key_size: usize, serial_number: Bytes, serial_number_size: usize,
        out: Buffer, out_size: usize) -> Answer;
    fn czg_terminal_load(initial_key: Bytes, initial_key_size: usize, serial_number: Bytes, serial_number_size: usize,
        out: Buffer, out_size: usize) -> Answer;
    fn czg_terminal_next_key(record: Buffer, record_size: usize, key: Buffer, key_size: usize,
        serial_number: Buffer, serial_number_size: usize) -> Answer;
    fn czg_double_initial_key(derivation_key: Bytes, derivation_key_size: usize,
        serial_number: Bytes, serial_number_size: usize, out: Buffer, out_size: usize) -> Answer;
    fn czg_double_host_key(derivation_key: Bytes, derivation_key_size: usize,
        serial_number: Bytes, serial_number_size: usize, out: Buffer, out_size: usize) -> Answer;
    fn czg_double_terminal_load(initial_key: Bytes, initial_key_size: usize,
        serial_number: Bytes, serial_number_size: usize, out: Buffer, out_size: usize) -> Answer;
    fn czg_double_terminal_next_key(record: Buffer, record_size: usize, key: Buffer, key_size: usize,
        serial_number: Buffer, serial_number_size: usize) -> Answer;
}

/// Calls an entry on some slices, a number where it takes one, and the buffer that it writes; or on the buffers that it
/// changes.
macro_rules! call {
    ($entry:ident($($bytes:ident),* $(; $number:ident)?) into $out:ident) => {
        // SAFETY: each pointer and size are those of one slice, and `out`, being lent to be changed, overlaps none.
        unsafe { $entry($($bytes.as_ptr(), $bytes.len(),)* $($number,)? $out.as_mut_ptr(), $out.len()) }.result()
    };
    ($entry:ident changing $($buffer:ident),*) => {
        // SAFETY: each pointer and size are those of one slice; lent to be changed, they do not overlap.
        unsafe { $entry($($buffer.as_mut_ptr(), $buffer.len()),*) }.result()
    };
}

/// [`version`](crate::version).
pub fn version() -> u32 {
    // SAFETY: it takes nothing and reads no memory of the caller's.
    unsafe { czg_version() }
}

/// [`meaning`](crate::meaning) into a buffer.
pub fn meaning(number: u32, out: &mut [u8]) -> Result<usize, Error> {
    call!(czg_meaning(; number) into out)
}

/// [`encrypt`](crate::encrypt) into a buffer.
pub fn encrypt(key: &[u8], block: &[u8], out: &mut [u8]) -> Result<usize, Error> {
    call!(czg_encrypt(key, block) into out)
}

/// [`decrypt`](crate::decrypt) into a buffer.
pub fn decrypt(key: &[u8], block: &[u8], out: &mut [u8]) -> Result<usize, Error> {
    call!(czg_decrypt(key, block) into out)
}

/// [`key_entry`](crate::key_entry) into a buffer.
pub fn key_entry(text: &[u8], bytes_wanted: usize, out: &mut [u8]) -> Result<usize, Error> {
    call!(czg_key_entry(text; bytes_wanted) into out)
}

/// [`clean`](crate::clean) into a buffer.
pub fn clean(text: &[u8], out: &mut [u8]) -> Result<WrittenText, Error> {
    call!(czg_clean(text) into out)
}

/// [`message_text`](crate::message_text) into a buffer.
pub fn message_text(message: &[u8], out: &mut [u8]) -> Result<WrittenText, Error> {
    call!(czg_message_text(message) into out)
}

/// [`text_mac`](crate::text_mac) into a buffer.
pub fn text_mac(key: &[u8], text: &[u8], out: &mut [u8]) -> Result<WrittenText, Error> {
    call!(czg_text_mac(key, text) into out)
}

/// [`message_mac`](crate::message_mac) into a buffer.
pub fn message_mac(key: &[u8], message: &[u8], out: &mut [u8]) -> Result<WrittenText, Error> {
    call!(czg_message_mac(key, message) into out)
}

/// [`pin_make`](crate::pin_make) into a buffer.
pub fn pin_make(pin: &[u8], out: &mut [u8]) -> Result<usize, Error> {
    call!(czg_pin_make(pin) into out)
}

/// [`pin_make_with_card`](crate::pin_make_with_card) into a buffer.
pub fn pin_make_with_card(pin: &[u8], card: &[u8], out: &mut [u8]) -> Result<usize, Error> {
    call!(czg_pin_make_with_card(pin, card) into out)
}

/// [`pin_read`](crate::pin_read) into a buffer.
pub fn pin_read(block: &[u8], out: &mut [u8]) -> Result<usize, Error> {
    call!(czg_pin_read(block) into out)
}

/// [`pin_read_with_card`](crate::pin_read_with_card) into a buffer.
pub fn pin_read_with_card(block: &[u8], card: &[u8], out: &mut [u8]) -> Result<usize, Error> {
    call!(czg_pin_read_with_card(block, card) into out)
}

/// [`pin_encrypt`](crate::pin_encrypt) into a buffer.
pub fn pin_encrypt(key: &[u8], pin: &[u8], out: &mut [u8]) -> Result<usize, Error> {
    call!(czg_pin_encrypt(key, pin) into out)
}

/// [`pin_encrypt_with_card`](crate::pin_encrypt_with_card) into a buffer.
pub fn pin_encrypt_with_card(
    key: &[u8],
    pin: &[u8],
    card: &[u8],
    out: &mut [u8],
) -> Result<usize, Error> {
    call!(czg_pin_encrypt_with_card(key, pin, card) into out)
}

/// [`pin_decrypt`](crate::pin_decrypt) into a buffer.
pub fn pin_decrypt(key: &[u8], block: &[u8], out: &mut [u8]) -> Result<usize, Error> {
    call!(czg_pin_decrypt(key, block) into out)
}

/// [`pin_decrypt_with_card`](crate::pin_decrypt_with_card) into a buffer.
pub fn pin_decrypt_with_card(
    key: &[u8],
    block: &[u8],
    card: &[u8],
    out: &mut [u8],
) -> Result<usize, Error> {
    call!(czg_pin_decrypt_with_card(key, block, card) into out)
}

/// [`password_make`](crate::password_make) into a buffer.
pub fn password_make(password: &[u8], out: &mut [u8]) -> Result<usize, Error> {
    call!(czg_password_make(password) into out)
}

/// [`password_read`](crate::password_read) into a buffer.
pub fn password_read(block: &[u8], out: &mut [u8]) -> Result<usize, Error> {
    call!(czg_password_read(block) into out)
}

/// [`vip_make`](crate::vip_make) into a buffer.
pub fn vip_make(digits: &[u8], out: &mut [u8]) -> Result<usize, Error> {
    call!(czg_vip_make(digits) into out)
}

/// [`vip_read`](crate::vip_read) into a buffer.
pub fn vip_read(block: &[u8], out: &mut [u8]) -> Result<usize, Error> {
    call!(czg_vip_read(block) into out)
}

/// [`derivation_data`](crate::derivation_data) into a buffer.
pub fn derivation_data(card: &[u8], sequence: u32, out: &mut [u8]) -> Result<usize, Error> {
    call!(czg_derivation_data(card; sequence) into out)
}

/// [`card_key`](crate::card_key) into a buffer.
pub fn card_key(
    master_key: &[u8],
    card: &[u8],
    sequence: u32,
    out: &mut [u8],
) -> Result<usize, Error> {
    call!(czg_card_key(master_key, card; sequence) into out)
}

/// [`card_key_unadjusted`](crate::card_key_unadjusted) into a buffer.
pub fn card_key_unadjusted(
    master_key: &[u8],
    card: &[u8],
    sequence: u32,
    out: &mut [u8],
) -> Result<usize, Error> {
    call!(czg_card_key_unadjusted(master_key, card; sequence) into out)
}

/// [`session_key`](crate::session_key) into a buffer.
pub fn session_key(card_key: &[u8], counter: u16, out: &mut [u8]) -> Result<usize, Error> {
    call!(czg_session_key(card_key; counter) into out)
}

/// [`arqc`](crate::arqc) into a buffer.
pub fn arqc(session_key: &[u8], data: &[u8], out: &mut [u8]) -> Result<usize, Error> {
    call!(czg_arqc(session_key, data) into out)
}

/// [`arpc`](crate::arpc) into a buffer.
pub fn arpc(session_key: &[u8], arqc: &[u8], code: &[u8], out: &mut [u8]) -> Result<usize, Error> {
    call!(czg_arpc(session_key, arqc, code) into out)
}

/// [`initial_key`](crate::initial_key) into a buffer.
pub fn initial_key(
    derivation_key: &[u8],
    serial_number: &[u8],
    out: &mut [u8],
) -> Result<usize, Error> {
    call!(czg_initial_key(derivation_key, serial_number) into out)
}

/// [`host_key`](crate::host_key) into a buffer.
pub fn host_key(
    derivation_key: &[u8],
    serial_number: &[u8],
    out: &mut [u8],
) -> Result<usize, Error> {
    call!(czg_host_key(derivation_key, serial_number) into out)
}

/// [`Terminal::load`](crate::Terminal::load) into a buffer: the record.
pub fn terminal_load(
    initial_key: &[u8],
    serial_number: &[u8],
    out: &mut [u8],
) -> Result<usize, Error> {
    call!(czg_terminal_load(initial_key, serial_number) into out)
}

/// [`Terminal::next_key`](crate::Terminal::next_key) on a record of 187 bytes, changed in place, with the key and the
/// serial number into buffers.
pub fn terminal_next_key(
    record: &mut [u8],
    key: &mut [u8],
    serial_number: &mut [u8],
) -> Result<usize, Error> {
    call!(czg_terminal_next_key changing record, key, serial_number)
}

/// [`double_initial_key`](crate::double_initial_key) into a buffer.
pub fn double_initial_key(
    derivation_key: &[u8],
    serial_number: &[u8],
    out: &mut [u8],
) -> Result<usize, Error> {
    call!(czg_double_initial_key(derivation_key, serial_number) into out)
}

/// [`double_host_key`](crate::double_host_key) into a buffer.
pub fn double_host_key(
    derivation_key: &[u8],
    serial_number: &[u8],
    out: &mut [u8],
) -> Result<usize, Error> {
    call!(czg_double_host_key(derivation_key, serial_number) into out)
}

/// [`DoubleTerminal::load`](crate::DoubleTerminal::load) into a buffer: the record.
pub fn double_terminal_load(
    initial_key: &[u8],
    serial_number: &[u8],
    out: &mut [u8],
) -> Result<usize, Error> {
    call!(czg_double_terminal_load(initial_key, serial_number) into out)
}

/// [`DoubleTerminal::next_key`](crate::DoubleTerminal::next_key) on a record of 355 bytes, changed in place, with the key
/// and the serial number into buffers.
pub fn double_terminal_next_key(
    record: &mut [u8],
    key: &mut [u8],
    serial_number: &mut [u8],
) -> Result<usize, Error> {
    call!(czg_double_terminal_next_key changing record, key, serial_number)
}

#[cfg(test)]
mod tests {
    use super::*;

    #[test]
    fn answers_of_every_number_are_values() {
        let result = |number, length| Answer { number, length }.result();
        assert_eq!(result(0, 8), Ok(8));
        assert_eq!(result(0, usize::MAX), Ok(usize::MAX));
        assert_eq!(result(13, 0), Err(Error::ShortBuffer));
        for number in [14, 255, 256, 256 + 6, u32::MAX] {
            assert_eq!(result(number, 0), Err(Error::Unknown(number)));
        }
    }

    /// The result of an answer with these members.
    fn text_result(
        number: u32,
        length: usize,
        dropped: usize,
        spaces: usize,
    ) -> Result<WrittenText, Error> {
        TextAnswer {
            number,
            length,
            dropped,
            spaces,
        }
        .result()
    }

    #[test]
    fn text_answers_of_every_number_are_values() {
        for (length, dropped, spaces) in [(0, 0, 0), (3, 1, 2), (8, usize::MAX, 0)] {
            let written = WrittenText {
                length,
                dropped,
                spaces,
            };
            assert_eq!(text_result(0, length, dropped, spaces), Ok(written));
        }
        assert_eq!(text_result(5, 0, 0, 0), Err(Error::EmptyText));
        assert_eq!(text_result(13, 0, 0, 0), Err(Error::ShortBuffer));
        for number in [14, 255, 256, 256 + 6, u32::MAX] {
            assert_eq!(text_result(number, 0, 0, 0), Err(Error::Unknown(number)));
        }
    }

    #[test]
    #[cfg(debug_assertions)]
    fn a_refusal_has_no_length_and_no_counts() {
        for (length, dropped, spaces) in [(1, 0, 0), (0, 1, 0), (0, 0, 1)] {
            let call = || text_result(13, length, dropped, spaces);
            assert!(std::panic::catch_unwind(call).is_err());
        }
    }
}
