//! Published values: FIPS, NBS and ANSI, and documents 000 to 004.

mod common;

use common::{hex, sized, ANSI_DERIVATION, ANSI_SERIAL, DERIVATION, SERIAL, SUBSTITUTION};
use second::bytes::xor;
use second::des::{decrypt, encrypt, entries_read, triple_decrypt, triple_encrypt, ENTRIES};
use second::dukpt::{Double, Single};
use second::{card, dukpt, password, pin, vip};
use std::collections::BTreeSet;

/// DES both ways: key, block, result.
fn check_des(key: &str, block: &str, result: &str) {
    let (key, block, result) = (sized(key), sized(block), sized(result));
    assert_eq!(encrypt(&key, &block), result);
    assert_eq!(decrypt(&key, &result), block);
}

#[test]
fn worked_vector() {
    check_des("133457799BBCDFF1", "0123456789ABCDEF", "85E813540F0AB405");
}

#[test]
fn nbs_initial_permutation_and_expansion() {
    let key = "0101010101010101";
    check_des(key, "95F8A5E5DD31D900", "8000000000000000");
    check_des(key, "DD7F121CA5015619", "4000000000000000");
    check_des(key, "2E8653104F3834EA", "2000000000000000");
    check_des(key, "8000000000000000", "95F8A5E5DD31D900");
    check_des(key, "4000000000000000", "DD7F121CA5015619");
    check_des(key, "2000000000000000", "2E8653104F3834EA");
}

#[test]
fn nbs_key_permutation() {
    check_des("8001010101010101", "0000000000000000", "95A8D72813DAA94D");
    check_des("4001010101010101", "0000000000000000", "0EEC1487DD8C26D5");
}

#[test]
fn nbs_data_permutation() {
    check_des("1046913489980131", "0000000000000000", "88D55E54F54C97B4");
    check_des("1007103489988020", "0000000000000000", "0C0CC00C83EA48FD");
}

#[test]
fn nbs_substitution_tables() {
    let mut entries = BTreeSet::new();
    for [key, block, result] in SUBSTITUTION {
        check_des(key, block, result);
        entries.extend(entries_read(&sized(key), &sized(block)));
    }
    assert_eq!(entries.len(), ENTRIES);
}

#[test]
fn one_encryption_reads_at_most_sixteen_entries_of_each_box() {
    let read = entries_read(&sized("133457799BBCDFF1"), &sized("0123456789ABCDEF"));
    for s_box in 1..=8 {
        let count = read.iter().filter(|entry| entry.0 == s_box).count();
        assert!((1..=16).contains(&count));
    }
    // First round of the worked vector: E(R0) + K1 is
    // 011000 010001 011110 111010 100001 100110 010100 100111.
    for entry in [
        (1, 0, 12),
        (2, 1, 8),
        (3, 0, 15),
        (4, 2, 13),
        (5, 3, 0),
        (6, 2, 3),
        (7, 0, 10),
        (8, 3, 3),
    ] {
        assert!(read.contains(&entry));
    }
}

#[test]
fn low_bits_of_key_bytes_have_no_effect() {
    let key: [u8; 8] = sized("133457799BBCDFF1");
    let turned = key.map(|byte| byte ^ 1);
    let block = sized("0123456789ABCDEF");
    assert_eq!(encrypt(&key, &block), encrypt(&turned, &block));
    assert_eq!(decrypt(&key, &block), decrypt(&turned, &block));
}

#[test]
fn triple_des_with_halves_that_are_the_same_without_low_bits_is_des() {
    let key: [u8; 8] = sized("133457799BBCDFF1");
    let block = sized("0123456789ABCDEF");
    for right in [key, key.map(|byte| byte ^ 1)] {
        let double: [u8; 16] = [key, right].concat().try_into().unwrap();
        assert_eq!(triple_encrypt(&double, &block), encrypt(&key, &block));
        assert_eq!(triple_decrypt(&double, &block), decrypt(&key, &block));
    }
}

#[test]
fn document_000_pin_blocks() {
    let made = |card: &[u8]| pin::make_with_card(b"123456", card);
    assert_eq!(pin::make(b"123456"), Ok(hex("06123456FFFFFFFF")));
    assert_eq!(made(b"123456789012345678"), Ok(hex("061253DFFEDCBA98")));
    assert_eq!(made(b"1234567890123456"), Ok(hex("0612713176FEDCBA")));
}

/// 003 prints 25 bytes, one FF too many; 000 has the same password and 24.
#[test]
fn documents_000_and_003_password_block() {
    let printed = hex("30 39 48 65 6C 6C 6F 21 31 32 33 FF FF FF FF FF FF FF FF FF FF FF FF FF FF");
    let block = &printed[..24];
    assert_eq!(password::make(b"Hello!123"), Ok(block.to_vec()));
    assert_eq!(password::read(block, 9), Ok(b"Hello!123".to_vec()));
    assert_eq!(password::read(&printed, 9), Err(6));
}

#[test]
fn document_003_vip_block() {
    let block = hex("19 12 34 56 78 90 12 34 56 78 9F FF FF FF FF FF");
    let number = b"1234567890123456789";
    assert_eq!(vip::make(number), Ok(block.clone()));
    assert_eq!(vip::read(&block, 19), Ok(number.to_vec()));
}

/// It prints the key twice, with odd and with even parity: every low bit
/// differs.
#[test]
fn document_001_card_key() {
    let master = hex("0123456789ABCDEFFEDCBA9876543210");
    let key = card::card_key(&master, b"4219876543210987", 0).unwrap();
    assert_eq!(key, hex("9249345E0220CEBA0D20D6A2453BF407"));
    let even: Vec<u8> = key.iter().map(|b| b ^ 1).collect();
    assert_eq!(even, hex("9348355F0321CFBB0C21D7A3443AF506"));
    let unadjusted = card::card_key_unadjusted(&master, b"4219876543210987", 0).unwrap();
    let same = |(a, b): (&u8, &u8)| a >> 1 == b >> 1;
    assert!(unadjusted.iter().zip(&key).all(same));
}

#[test]
fn document_001_last_step() {
    let session_key = hex("E57C032E6FE8AA94D0D72FF8E4D4DFBC");
    // Its printed data without the padding 800000.
    let data = hex("00000000100000000000000007100000000000071013020500\
                    30901B6A3C00005503A4A082");
    assert_eq!(data.len(), 37);
    assert_eq!(card::arqc(&session_key, &data), Ok(hex("6BC76F457CC4FB24")));
}

#[test]
fn document_002_initial_key() {
    let (derivation, serial) = (hex(DERIVATION), hex(SERIAL));
    let ca = sized("0123 4567 89AB CDE0");
    let cb = encrypt(&sized(&DERIVATION[..19]), &ca);
    let cc = decrypt(&sized(&DERIVATION[20..]), &cb);
    assert_eq!(cb.to_vec(), hex("6497 E2F4 C59D 952E"));
    assert_eq!(cc.to_vec(), hex("0163 CE85 359F F599"));
    let initial = dukpt::initial_key::<Single>(&derivation, &serial);
    assert_eq!(initial, Ok(hex("21EE 7C08 DBE8 20AB")));
}

#[test]
fn document_002_current_key() {
    let initial: Single = sized("21EE 7C08 DBE8 20AB");
    let serial = sized(SERIAL);
    let tc1 = encrypt(&initial, &sized("6489 F5A3 1618 20AB"));
    assert_eq!(tc1.to_vec(), hex("F9AC C638 1939 44BC"));
    let ka2 = dukpt::register_key(initial, &serial, 0x10_0000);
    assert_eq!(ka2.to_vec(), hex("D842 BA30 C2D1 6417"));
    let tc20 = encrypt(&ka2, &sized("9D25 339B 0F21 6416"));
    assert_eq!(tc20.to_vec(), hex("BF49 836E AE2A 042A"));
    let last = dukpt::register_key(initial, &serial, 0x10_0001);
    assert_eq!(last.to_vec(), hex("670B 395E 6CFB 603D"));
    let key = dukpt::host_key::<Single>(&hex(DERIVATION), &serial);
    assert_eq!(key, Ok(hex("670B 395E 6CFB 60C2")));
}

#[test]
fn ansi_double_length_keys() {
    let (derivation, serial) = (hex(ANSI_DERIVATION), sized(ANSI_SERIAL));
    let initial: Double = sized("6AC292FAA1315B4D 858AB3A3D7D5933A");
    let computed = dukpt::initial_key::<Double>(&derivation, &serial);
    assert_eq!(computed, Ok(initial.to_vec()));
    // The left half is the initial key of single length.
    let single = dukpt::initial_key::<Single>(&derivation, &serial);
    assert_eq!(single, Ok(initial[..8].to_vec()));
    let register_key = dukpt::register_key(initial, &serial, 1);
    assert_eq!(register_key, sized("042666B49184CFA3 68DE9628D0397BC9"));
    let key = dukpt::host_key::<Double>(&derivation, &dukpt::with_counter(&serial, 1));
    assert_eq!(key, Ok(hex("042666B49184CF5C 68DE9628D0397B36")));
}

/// The step of counter 1 by hand: the data are 9876543210E00001, and the mask is
/// C0C0C0C000000000.
#[test]
fn ansi_double_length_step() {
    let masked = encrypt(&sized("AA02523AA1315B4D"), &sized("DD3C2751C735933B"));
    let left = xor(masked, sized("454A7363D7D5933A"));
    assert_eq!(left, sized("042666B49184CFA3"));
    let unmasked = encrypt(&sized("6AC292FAA1315B4D"), &sized("1DFCE791C735933B"));
    let right = xor(unmasked, sized("858AB3A3D7D5933A"));
    assert_eq!(right, sized("68DE9628D0397BC9"));
}

/// The keys of the example's terminal are the host's, from the first on.
#[test]
fn ansi_double_length_terminal() {
    let initial: Double = sized("6AC292FAA1315B4D 858AB3A3D7D5933A");
    let serial = sized(ANSI_SERIAL);
    let mut record = dukpt::terminal_load::<Double>(&initial, &serial).unwrap();
    for counter in 1..=100 {
        let next = dukpt::terminal_next_key(&record, 16).unwrap();
        assert_eq!(next.serial, dukpt::with_counter(&serial, counter));
        let host = dukpt::host_key::<Double>(&hex(ANSI_DERIVATION), &next.serial);
        assert_eq!(host, Ok(next.key.to_vec()));
        record = next.record;
    }
}

/// The published block is that of paper 01: ISO 9564-1 format 0.
#[test]
fn ansi_double_length_pin_blocks() {
    let (pin, card) = (b"1234", b"4012345678909");
    let clear = pin::make_with_card(pin, card);
    assert_eq!(clear, Ok(hex("041274EDCBA9876F")));
    for (counter, block) in [
        (1, "1B9C1845EB993A7A"),
        (2, "10A01C8D02C69107"),
        (3, "18DC07B94797B466"),
        (4, "0BC79509D5645DF7"),
        (5, "5BC0AF22AD87B327"),
        (6, "A16DF70AE36158D8"),
        (7, "27711C16CB257F8E"),
    ] {
        let serial = dukpt::with_counter(&sized(ANSI_SERIAL), counter);
        let key = dukpt::host_key::<Double>(&hex(ANSI_DERIVATION), &serial).unwrap();
        let encrypted = pin::encrypt_with_card(&key, pin, card);
        assert_eq!(encrypted, Ok(hex(block)), "{counter}");
    }
}

#[test]
fn document_004_keys_and_cryptograms() {
    let master = hex("F0C34A8124CEE0A91A0B034AA97D6EAC");
    let unadjusted = card::card_key_unadjusted(&master, b"6228000100001", 1).unwrap();
    assert_eq!(unadjusted, hex("014D996FCC8F49157DC8B49E3BCDFD99"));
    let card_key = card::card_key(&master, b"6228000100001", 1).unwrap();
    assert_ne!(card_key, unadjusted);
    let session_key = card::session_key(&unadjusted, [0x02, 0x40]).unwrap();
    assert_eq!(session_key, hex("D4102725E6E5AD329E55AAB50BF23DA9"));
    assert_eq!(
        card::session_key(&card_key, [0x02, 0x40]),
        Ok(session_key.clone())
    );
    let data = hex("0000000000010000000000000156008004600001561407010\
                    01E78EEBC7D00024003A04002");
    let arqc = card::arqc(&session_key, &data).unwrap();
    assert_eq!(arqc, hex("5D016C91005E7CC2"));
    let arpc = card::arpc(&session_key, &arqc, b"01");
    assert_eq!(arpc, Ok(hex("21415243527CE78F")));
}
