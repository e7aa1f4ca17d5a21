//! The entries that write one buffer: how each is called, here and in the second implementation, and its inputs.

use crate::messages::{message, text};
use crate::random::Random;
use chizuregwo::lent::{self, WrittenText};
use chizuregwo::Error;
use second::cleaning::{self, Counted};
use second::dukpt::{Double, Single};
use second::entries::{decrypt, encrypt, terminal_load};
use second::numbers::{meaning, Answer};
use second::{card, dukpt, key_entry, mac, message as messages, password, pin, vip};
use std::fmt::Debug;

/// Room that no result fills.
const ENOUGH: usize = usize::MAX;

/// An input: the lent parts, and a number where the entry takes one.
pub struct Input {
    pub parts: Vec<Vec<u8>>,
    pub number: u64,
}

/// What the second implementation gives when done.
pub trait Value {
    /// What the library answers when done, beside the bytes that it writes.
    type Written: Debug + PartialEq;
    /// The bytes that the library must write.
    fn bytes(&self) -> &[u8];
    /// What the library must answer.
    fn written(&self) -> Self::Written;
}

/// Bytes alone: the library answers their length.
impl Value for Vec<u8> {
    type Written = usize;
    fn bytes(&self) -> &[u8] {
        self
    }
    fn written(&self) -> usize {
        self.len()
    }
}

/// A cleaned text or its MAC: the library answers both counts too.
impl Value for Counted {
    type Written = WrittenText;
    fn bytes(&self) -> &[u8] {
        &self.value
    }
    fn written(&self) -> WrittenText {
        WrittenText {
            length: self.value.len(),
            dropped: self.dropped,
            spaces: self.spaces,
        }
    }
}

/// An entry and how it is called in the library and in the second implementation.
pub struct Entry<V: Value> {
    /// Its name in the header, without `czg_`.
    pub name: &'static str,
    /// Inputs of every thousand.
    pub share: usize,
    pub input: fn(&mut Random) -> Input,
    pub library: fn(&Input, &mut [u8]) -> Result<V::Written, Error>,
    pub second: fn(&Input) -> Result<V, u8>,
}

/// An input of parts alone.
pub fn parts(parts: Vec<Vec<u8>>) -> Input {
    Input { parts, number: 0 }
}

/// A single- or double-length key.
fn key(random: &mut Random) -> Vec<u8> {
    let size = random.one_of(&[8, 16]);
    random.sized(size)
}

fn cipher_input(random: &mut Random) -> Input {
    parts(vec![key(random), random.sized(8)])
}

fn key_entry_input(random: &mut Random) -> Input {
    let wanted = random.one_of(&[8usize, 16]);
    let length = if random.once_in(12) {
        random.below(40)
    } else {
        2 * wanted
    };
    let mut text = random.characters(b"0123456789ABCDEFabcdef", length);
    if random.once_in(6) {
        random.spoil(&mut text, b"/:@G`g \xFF");
    }
    let odd = [
        0,
        1,
        4,
        7,
        9,
        15,
        17,
        24,
        32,
        1 << 63,
        (1 << 63) + 8,
        u64::MAX,
    ];
    let number = if random.once_in(10) {
        random.one_of(&odd)
    } else {
        wanted as u64
    };
    Input {
        parts: vec![text],
        number,
    }
}

fn pin_digits(random: &mut Random) -> Vec<u8> {
    random.digits(4, 12)
}

fn card_number(random: &mut Random) -> Vec<u8> {
    random.digits(13, 19)
}

/// A clear block: mostly of a permitted PIN and the card number, if that can be made, and a third of these damaged.
fn clear_block(random: &mut Random, card: Option<&[u8]>) -> [u8; 8] {
    let pin = pin_digits(random);
    let made = match card {
        None => pin::make(&pin),
        Some(card) => pin::make_with_card(&pin, card),
    };
    let Ok(made) = made else {
        return random.array();
    };
    let mut block: [u8; 8] = made.try_into().expect("a block has 8 bytes");
    damage(random, &mut block);
    block
}

/// Changes one half-byte of a block, once in three.
fn damage(random: &mut Random, block: &mut [u8]) {
    if random.once_in(3) {
        let place = random.below(2 * block.len());
        let half_byte = random.between(1, 15) as u8;
        block[place / 2] ^= half_byte << (4 * (1 - place % 2));
    }
}

/// A block; once in sixteen of another size.
fn resized(random: &mut Random, block: &[u8]) -> Vec<u8> {
    let mut block = block.to_vec();
    if random.once_in(16) {
        let size = random.below(2 * block.len() + 2);
        block.resize(size, random.one_of(&[0, 0xFF]));
    }
    block
}

fn read_input(random: &mut Random) -> Input {
    let block = clear_block(random, None);
    parts(vec![resized(random, &block)])
}

fn read_with_card_input(random: &mut Random) -> Input {
    let card = card_number(random);
    let block = clear_block(random, Some(&card));
    parts(vec![resized(random, &block), card])
}

/// A clear block encrypted under a key, if that has a key's size.
fn encrypted(random: &mut Random, key: &[u8], block: [u8; 8]) -> Vec<u8> {
    let block = encrypt(key, &block).map_or(block, |bytes| bytes.try_into().expect("8 bytes"));
    resized(random, &block)
}

fn decrypt_input(random: &mut Random) -> Input {
    let (key, block) = (key(random), clear_block(random, None));
    let block = encrypted(random, &key, block);
    parts(vec![key, block])
}

fn decrypt_with_card_input(random: &mut Random) -> Input {
    let (key, card) = (key(random), card_number(random));
    let block = clear_block(random, Some(&card));
    let block = encrypted(random, &key, block);
    parts(vec![key, block, card])
}

/// A password, mostly of 6 to 20 characters from 21 to 7E hex.
fn password_text(random: &mut Random) -> Vec<u8> {
    let permitted: Vec<u8> = (0x21..=0x7E).collect();
    random.text(&permitted, 6, 20, b" \x7F\x1F\0\x80\xFF")
}

fn vip_digits(random: &mut Random) -> Vec<u8> {
    random.digits(11, 19)
}

/// The block of a permitted text; a third of these damaged, and once in sixteen of another size.
fn block_input(
    random: &mut Random,
    text: fn(&mut Random) -> Vec<u8>,
    make: fn(&[u8]) -> Answer,
) -> Input {
    let mut block = loop {
        if let Ok(block) = make(&text(random)) {
            break block;
        }
    };
    damage(random, &mut block);
    parts(vec![resized(random, &block)])
}

/// A card sequence: 0 to 99, and now and then above.
fn sequence(random: &mut Random) -> u64 {
    match random.below(16) {
        0 => random.one_of(&[100, 101, 255, 256, 1000, u32::MAX as u64]),
        1 => random.one_of(&[0, 9, 10, 99]),
        _ => random.below(100) as u64,
    }
}

/// A master key, a card number and a sequence.
fn card_key_input(random: &mut Random) -> Input {
    Input {
        parts: vec![random.sized(16), card_number(random)],
        number: sequence(random),
    }
}

fn card_data(random: &mut Random) -> Vec<u8> {
    let length = match random.below(12) {
        0 => random.one_of(&[0, 256, 257, 300]),
        1 => random.between(248, 255),
        2..=4 => random.one_of(&[8, 16, 24, 32]),
        _ => random.between(1, 60),
    };
    random.bytes(length)
}

/// A derivation key; once in eight with halves that are equal, or differ in low
/// bits alone, or differ in one other bit or by the mask of double length, and
/// perhaps in low bits.
fn derivation_key(random: &mut Random) -> Vec<u8> {
    let mut key = random.sized(16);
    if key.len() == 16 && random.once_in(8) {
        key.copy_within(..8, 8);
        let low_bits = match random.below(4) {
            0 => 0,
            1 => 1 << random.below(8),
            2 => 0xFF,
            _ => random.below(256),
        };
        (0..8).for_each(|i| key[8 + i] ^= (low_bits >> i & 1) as u8);
        match random.below(6) {
            0 | 1 => key[random.between(8, 15)] ^= 2 << random.below(7),
            2 => (8..12).for_each(|i| key[i] ^= 0xC0),
            _ => (),
        }
    }
    key
}

/// A counter of about so many one bits.
pub fn counter(random: &mut Random) -> u32 {
    let ones = random.between(1, 12);
    (0..ones).fold(0, |counter, _| counter | 1 << random.below(21))
}

/// A serial number whose counter is mostly permitted.
fn serial_number(random: &mut Random) -> Vec<u8> {
    let mut serial = random.sized(10);
    if serial.len() == 10 && !random.once_in(8) {
        let counter = if random.once_in(16) {
            0
        } else {
            counter(random)
        };
        let array: [u8; 10] = serial.try_into().expect("10 bytes");
        serial = dukpt::with_counter(&array, counter).to_vec();
    }
    serial
}

/// A derivation key and a serial number.
fn host_input(random: &mut Random) -> Input {
    parts(vec![derivation_key(random), serial_number(random)])
}

/// A card sequence as the entries take it.
fn sequence_of(input: &Input) -> u32 {
    u32::try_from(input.number).expect("a sequence of 32 bits")
}

/// A transaction counter as the entries take it.
fn transaction_counter(input: &Input) -> u16 {
    u16::try_from(input.number).expect("a counter of 16 bits")
}

/// How many bytes key entry is asked for.
fn wanted(input: &Input) -> usize {
    input.number as usize
}

/// The number whose meaning is asked for.
fn asked_number(input: &Input) -> u32 {
    u32::try_from(input.number).expect("a number of 32 bits")
}

/// The meaning of a number, mostly of one from 0 to 20.
pub const MEANING: Entry<Vec<u8>> = Entry {
    name: "meaning",
    share: 10,
    input: |random| {
        meaning_of(match random.below(4) {
            0 => random.next() as u32 >> random.below(32),
            _ => random.below(21) as u32,
        })
    },
    library: |i, out| lent::meaning(asked_number(i), out),
    second: |i| meaning(asked_number(i)),
};

/// The input that asks for the meaning of a number.
pub fn meaning_of(number: u32) -> Input {
    Input {
        parts: Vec::new(),
        number: u64::from(number),
    }
}

/// The password of a block.
pub const PASSWORD_READ: Entry<Vec<u8>> = Entry {
    name: "password_read",
    share: 20,
    input: |random| block_input(random, password_text, password::make),
    library: |i, out| lent::password_read(&i.parts[0], out),
    second: |i| password::read(&i.parts[0], ENOUGH),
};

/// The VIP number of a block.
pub const VIP_READ: Entry<Vec<u8>> = Entry {
    name: "vip_read",
    share: 20,
    input: |random| block_input(random, vip_digits, vip::make),
    library: |i, out| lent::vip_read(&i.parts[0], out),
    second: |i| vip::read(&i.parts[0], ENOUGH),
};

/// Every entry that writes one buffer, but for those that clean a text. The shares make a thousand with those and the
/// next keys of both kinds of terminal.
pub const ENTRIES: [Entry<Vec<u8>>; 28] = [
    MEANING,
    Entry {
        name: "encrypt",
        share: 35,
        input: cipher_input,
        library: |i, out| lent::encrypt(&i.parts[0], &i.parts[1], out),
        second: |i| encrypt(&i.parts[0], &i.parts[1]),
    },
    Entry {
        name: "decrypt",
        share: 35,
        input: cipher_input,
        library: |i, out| lent::decrypt(&i.parts[0], &i.parts[1], out),
        second: |i| decrypt(&i.parts[0], &i.parts[1]),
    },
    Entry {
        name: "key_entry",
        share: 35,
        input: key_entry_input,
        library: |i, out| lent::key_entry(&i.parts[0], wanted(i), out),
        second: |i| key_entry::key_entry(&i.parts[0], wanted(i), ENOUGH),
    },
    Entry {
        name: "pin_make",
        share: 40,
        input: |random| parts(vec![pin_digits(random)]),
        library: |i, out| lent::pin_make(&i.parts[0], out),
        second: |i| pin::make(&i.parts[0]),
    },
    Entry {
        name: "pin_make_with_card",
        share: 40,
        input: |random| parts(vec![pin_digits(random), card_number(random)]),
        library: |i, out| lent::pin_make_with_card(&i.parts[0], &i.parts[1], out),
        second: |i| pin::make_with_card(&i.parts[0], &i.parts[1]),
    },
    Entry {
        name: "pin_read",
        share: 40,
        input: read_input,
        library: |i, out| lent::pin_read(&i.parts[0], out),
        second: |i| pin::read(&i.parts[0], ENOUGH),
    },
    Entry {
        name: "pin_read_with_card",
        share: 40,
        input: read_with_card_input,
        library: |i, out| lent::pin_read_with_card(&i.parts[0], &i.parts[1], out),
        second: |i| pin::read_with_card(&i.parts[0], &i.parts[1], ENOUGH),
    },
    Entry {
        name: "pin_encrypt",
        share: 30,
        input: |random| parts(vec![key(random), pin_digits(random)]),
        library: |i, out| lent::pin_encrypt(&i.parts[0], &i.parts[1], out),
        second: |i| pin::encrypt(&i.parts[0], &i.parts[1]),
    },
    Entry {
        name: "pin_encrypt_with_card",
        share: 30,
        input: |random| parts(vec![key(random), pin_digits(random), card_number(random)]),
        library: |i, out| lent::pin_encrypt_with_card(&i.parts[0], &i.parts[1], &i.parts[2], out),
        second: |i| pin::encrypt_with_card(&i.parts[0], &i.parts[1], &i.parts[2]),
    },
    Entry {
        name: "pin_decrypt",
        share: 30,
        input: decrypt_input,
        library: |i, out| lent::pin_decrypt(&i.parts[0], &i.parts[1], out),
        second: |i| pin::decrypt(&i.parts[0], &i.parts[1], ENOUGH),
    },
    Entry {
        name: "pin_decrypt_with_card",
        share: 30,
        input: decrypt_with_card_input,
        library: |i, out| lent::pin_decrypt_with_card(&i.parts[0], &i.parts[1], &i.parts[2], out),
        second: |i| pin::decrypt_with_card(&i.parts[0], &i.parts[1], &i.parts[2], ENOUGH),
    },
    Entry {
        name: "password_make",
        share: 20,
        input: |random| parts(vec![password_text(random)]),
        library: |i, out| lent::password_make(&i.parts[0], out),
        second: |i| password::make(&i.parts[0]),
    },
    PASSWORD_READ,
    Entry {
        name: "vip_make",
        share: 20,
        input: |random| parts(vec![vip_digits(random)]),
        library: |i, out| lent::vip_make(&i.parts[0], out),
        second: |i| vip::make(&i.parts[0]),
    },
    VIP_READ,
    Entry {
        name: "derivation_data",
        share: 25,
        input: |random| Input {
            parts: vec![card_number(random)],
            number: sequence(random),
        },
        library: |i, out| lent::derivation_data(&i.parts[0], sequence_of(i), out),
        second: |i| card::derivation_data(&i.parts[0], sequence_of(i)),
    },
    Entry {
        name: "card_key",
        share: 20,
        input: card_key_input,
        library: |i, out| lent::card_key(&i.parts[0], &i.parts[1], sequence_of(i), out),
        second: |i| card::card_key(&i.parts[0], &i.parts[1], sequence_of(i)),
    },
    Entry {
        name: "card_key_unadjusted",
        share: 20,
        input: card_key_input,
        library: |i, out| lent::card_key_unadjusted(&i.parts[0], &i.parts[1], sequence_of(i), out),
        second: |i| card::card_key_unadjusted(&i.parts[0], &i.parts[1], sequence_of(i)),
    },
    Entry {
        name: "session_key",
        share: 25,
        input: |random| Input {
            parts: vec![random.sized(16)],
            number: random.next() % 65536,
        },
        library: |i, out| lent::session_key(&i.parts[0], transaction_counter(i), out),
        second: |i| card::session_key(&i.parts[0], transaction_counter(i).to_be_bytes()),
    },
    Entry {
        name: "arqc",
        share: 25,
        input: |random| parts(vec![random.sized(16), card_data(random)]),
        library: |i, out| lent::arqc(&i.parts[0], &i.parts[1], out),
        second: |i| card::arqc(&i.parts[0], &i.parts[1]),
    },
    Entry {
        name: "arpc",
        share: 25,
        input: |random| parts(vec![random.sized(16), random.sized(8), random.sized(2)]),
        library: |i, out| lent::arpc(&i.parts[0], &i.parts[1], &i.parts[2], out),
        second: |i| card::arpc(&i.parts[0], &i.parts[1], &i.parts[2]),
    },
    Entry {
        name: "initial_key",
        share: 20,
        input: host_input,
        library: |i, out| lent::initial_key(&i.parts[0], &i.parts[1], out),
        second: |i| dukpt::initial_key::<Single>(&i.parts[0], &i.parts[1]),
    },
    Entry {
        name: "host_key",
        share: 25,
        input: host_input,
        library: |i, out| lent::host_key(&i.parts[0], &i.parts[1], out),
        second: |i| dukpt::host_key::<Single>(&i.parts[0], &i.parts[1]),
    },
    Entry {
        name: "terminal_load",
        share: 15,
        input: |random| parts(vec![random.sized(8), serial_number(random)]),
        library: |i, out| lent::terminal_load(&i.parts[0], &i.parts[1], out),
        second: |i| terminal_load::<Single>(&i.parts[0], &i.parts[1]),
    },
    Entry {
        name: "double_initial_key",
        share: 20,
        input: host_input,
        library: |i, out| lent::double_initial_key(&i.parts[0], &i.parts[1], out),
        second: |i| dukpt::initial_key::<Double>(&i.parts[0], &i.parts[1]),
    },
    Entry {
        name: "double_host_key",
        share: 20,
        input: host_input,
        library: |i, out| lent::double_host_key(&i.parts[0], &i.parts[1], out),
        second: |i| dukpt::host_key::<Double>(&i.parts[0], &i.parts[1]),
    },
    Entry {
        name: "double_terminal_load",
        share: 10,
        // The halves of an initial key are not compared: now and then they are the same.
        input: host_input,
        library: |i, out| lent::double_terminal_load(&i.parts[0], &i.parts[1], out),
        second: |i| terminal_load::<Double>(&i.parts[0], &i.parts[1]),
    },
];

/// The entries that clean a text: they answer both counts.
pub const TEXT_ENTRIES: [Entry<Counted>; 4] = [
    Entry {
        name: "clean",
        share: 60,
        input: |random| parts(vec![text(random, 200)]),
        library: |i, out| lent::clean(&i.parts[0], out),
        second: |i| cleaning::clean(&i.parts[0], ENOUGH),
    },
    Entry {
        name: "message_text",
        share: 80,
        input: |random| parts(vec![message(random)]),
        library: |i, out| lent::message_text(&i.parts[0], out),
        second: |i| messages::message_text(&i.parts[0], ENOUGH),
    },
    Entry {
        name: "text_mac",
        share: 30,
        input: |random| parts(vec![random.sized(8), text(random, 60)]),
        library: |i, out| lent::text_mac(&i.parts[0], &i.parts[1], out),
        second: |i| mac::text_mac(&i.parts[0], &i.parts[1]),
    },
    Entry {
        name: "message_mac",
        share: 35,
        input: |random| parts(vec![random.sized(8), message(random)]),
        library: |i, out| lent::message_mac(&i.parts[0], &i.parts[1], out),
        second: |i| mac::message_mac(&i.parts[0], &i.parts[1]),
    },
];
