//! Lines of requests and answers, and the program over them.

mod common;

use common::{hex, SUBSTITUTION};
use second::bytes::hex as shown;
use second::dukpt::{terminal_load, terminal_next_key, to_bytes, Double, Key, Record, Single};
use second::lines::self_test_line;
use second::recompute::answer;
use std::io::Write;
use std::process::{Command, Output, Stdio};

/// Requests with their answers, one or more for every name but the terminal's.
const RIGHT: &str = "\
meaning/done 0 = done done
meaning@35/last 13 = done lent buffer shorter than the result
meaning@34/room 13 = refused 13
meaning@0/none 14 = refused 6
meaning/largest 4294967295 = refused 6
encrypt/worked 133457799BBCDFF1 0123456789ABCDEF = done 85E813540F0AB405
encrypt/small-letters 133457799bbcdff1 0123456789abcdef = done 85E813540F0AB405
encrypt/arpc D4102725E6E5AD329E55AAB50BF23DA9 6D306C91005E7CC2 = done 21415243527CE78F
encrypt/key 133457799BBCDF 0123456789ABCDEF = refused 6
encrypt/long-key D4102725E6E5AD329E55AAB50BF23DA9D4102725E6E5AD32 0123456789ABCDEF = refused 6
encrypt/block 133457799BBCDFF1 - = refused 6
encrypt@7/room 133457799BBCDFF1 0123456789ABCDEF = refused 13
encrypt@0/size-first 133457799BBCDFF1 0123456789ABCD = refused 6
decrypt/worked 133457799BBCDFF1 85E813540F0AB405 = done 0123456789ABCDEF
decrypt/arpc D4102725E6E5AD329E55AAB50BF23DA9 21415243527CE78F = done 6D306C91005E7CC2
decrypt/none - - = refused 6
decrypt@8 133457799BBCDFF1 85E813540F0AB405 = done 0123456789ABCDEF
key-entry@8/done 8 0123456789abcdef = done 0123456789ABCDEF
key-entry@7/room 8 0123456789abcdef = refused 13
key-entry/size 8 0 = refused 6
key-entry/empty 8 - = refused 6
key-entry/space 8 01234567 9ABCDEF = refused 7
key-entry/largest 18446744073709551615 0123456789ABCDEF = refused 6
clean/a ab  c = done AB C 0 1
clean/before   ab = done AB 0 2
clean/after hex:616220 = done AB 0 1
clean/both a - b = done A B 1 1
clean/hyphen hex:2D = done - 1 0
clean/hyphens --- = done - 3 0
clean@3/room ab  c = refused 13
clean@0/empty - = done - 0 0
clean ab/c@d #e = done ABCD E 3 0
message-text/whole 04000000303230300600030030303030303008002900612D312020202020 = done 0200 000000 A1 1 5
message-text@14/room 04000000303230300600030030303030303008002900612D312020202020 = done 0200 000000 A1 1 5
message-text@13/room 04000000303230300600030030303030303008002900612D312020202020 = refused 13
message-text@0/empty - = refused 1
text-mac/done 0123456789ABCDEF hex:202D782D20 = done C49CF44D534EFBC0 2 2
text-mac@7/room 0123456789ABCDEF hex:202D782D20 = refused 13
text-mac/empty 133457799BBCDFF1 --- = refused 5
text-mac/no-key - A = refused 6
message-mac/done 0123456789ABCDEF 0400000030323030080029002D2D2D2D2D2D2D2D = done DB81035675C65160 8 1
message-mac@7/room 0123456789ABCDEF 0400000030323030080029002D2D2D2D2D2D2D2D = refused 13
message-mac/no-key - - = refused 6
message-mac/empty 133457799BBCDFF1 - = refused 1
pin-make/f 1234 = done 041234FFFFFFFFFF
pin-make/hex hex:31323334 = done 041234FFFFFFFFFF
pin-make/j 123 = refused 6
pin-make/none - = refused 6
pin-make/hyphen hex:2D = refused 6
pin-make/prefix hex: = refused 6
pin-make@7/room 1234 = refused 13
pin-make-with-card/h 1234 4219876543210987 = done 0412AC89ABCDEF67
pin-read/f 041234FFFFFFFFFF = done 1234
pin-read/i 03123FFFFFFFFFFF = refused 8
pin-read-with-card@4/h 0412AC89ABCDEF67 4219876543210987 = done 1234
pin-read-with-card@3/h 0412AC89ABCDEF67 4219876543210987 = refused 13
pin-encrypt/key - 1234 = refused 6
pin-encrypt/done 0123456789ABCDEF 1234 = done 286344C32894AFB6
pin-encrypt-with-card/card 133457799BBCDFF1 1234 - = refused 6
pin-encrypt-with-card/done 0123456789ABCDEF 1234 4219876543210987 = done 864C0D7C2D6C8B94
pin-decrypt/none 133457799BBCDFF1 0000000000000000 = refused 8
pin-decrypt/done 0123456789ABCDEF 286344C32894AFB6 = done 1234
pin-decrypt-with-card/card 133457799BBCDFF1 0000000000000000 - = refused 6
pin-decrypt-with-card/done 0123456789ABCDEF 864C0D7C2D6C8B94 4219876543210987 = done 1234
password-make/003 Hello!123 = done 303948656C6C6F21313233FFFFFFFFFFFFFFFFFFFFFFFFFF
password-make/odd !\"#$%&' = done 303721222324252627FFFFFFFFFFFFFFFFFFFFFFFFFFFFFF
password-make/hex hex:6865783A3132 = done 30366865783A3132FFFFFFFFFFFFFFFFFFFFFFFFFFFFFFFF
password-make/none - = refused 6
password-make/space hex:616263202020 = refused 7
password-make@23/room Hello!123 = refused 13
password-read@9/003 303948656C6C6F21313233FFFFFFFFFFFFFFFFFFFFFFFFFF = done Hello!123
password-read/hex 30366865783A3132FFFFFFFFFFFFFFFFFFFFFFFFFFFFFFFF = done hex:12
password-read/printed 303948656C6C6F21313233FFFFFFFFFFFFFFFFFFFFFFFFFFFF = refused 6
password-read/length 313048656C6C6F21313233FFFFFFFFFFFFFFFFFFFFFFFFFF = refused 8
password-read@8/room 303948656C6C6F21313233FFFFFFFFFFFFFFFFFFFFFFFFFF = refused 13
vip-make/003 1234567890123456789 = done 191234567890123456789FFFFFFFFFFF
vip-make/size 123456789x = refused 6
vip-make/character 1234567890x = refused 7
vip-make@15/room 12345678901 = refused 13
vip-read@19/003 191234567890123456789FFFFFFFFFFF = done 1234567890123456789
vip-read/hexadecimal 131234567890123456789FFFFFFFFFFF = refused 8
vip-read/none - = refused 6
vip-read@18/room 191234567890123456789FFFFFFFFFFF = refused 13
derivation-data/l 6228000100001 1 = done 0622800010000101
derivation-data/sequence 6228000100001 100 = refused 6
card-key/001 0123456789ABCDEFFEDCBA9876543210 4219876543210987 0 = done 9249345E0220CEBA0D20D6A2453BF407
card-key-unadjusted/004 F0C34A8124CEE0A91A0B034AA97D6EAC 6228000100001 1 = done 014D996FCC8F49157DC8B49E3BCDFD99
session-key/004 014D996FCC8F49157DC8B49E3BCDFD99 576 = done D4102725E6E5AD329E55AAB50BF23DA9
session-key@15/room 014D996FCC8F49157DC8B49E3BCDFD99 576 = refused 13
arqc/004 D4102725E6E5AD329E55AAB50BF23DA9 \
000000000001000000000000015600800460000156140701001E78EEBC7D00024003A04002 = done 5D016C91005E7CC2
arpc/004 D4102725E6E5AD329E55AAB50BF23DA9 5D016C91005E7CC2 3031 = done 21415243527CE78F
initial-key/002 51525457585B5D5E61626467686B6D6E 0123456789ABCDF00001 = done 21EE7C08DBE820AB
host-key/002 51525457585B5D5E61626467686B6D6E 0123456789ABCDF00001 = done 670B395E6CFB60C2
host-key/zero 51525457585B5D5E61626467686B6D6E 0123456789ABCDE00000 = refused 10
terminal-load/size - - = refused 6
terminal-next-key/size - = refused 6
double-initial-key/ansi 0123456789ABCDEFFEDCBA9876543210 FFFF9876543210E00000 = done 6AC292FAA1315B4D858AB3A3D7D5933A
double-initial-key@15/room 0123456789ABCDEFFEDCBA9876543210 FFFF9876543210E00000 = refused 13
double-initial-key/halves 0123456789ABCDEF0022446688AACCEE FFFF9876543210E00000 = refused 9
double-host-key/ansi 0123456789ABCDEFFEDCBA9876543210 FFFF9876543210E00001 = done 042666B49184CF5C68DE9628D0397B36
double-host-key/zero 0123456789ABCDEFFEDCBA9876543210 FFFF9876543210E00000 = refused 10
double-terminal-load/size 6AC292FAA1315B4D FFFF9876543210E00000 = refused 6
double-terminal-next-key/size - = refused 6
encrypt/ansi-pin-block 042666B49184CF5C68DE9628D0397B36 041274EDCBA9876F = done 1B9C1845EB993A7A
self-test = done
self-test/label = done
";

/// The requests of `RIGHT` with their answers.
fn right() -> Vec<(&'static str, &'static str)> {
    let pairs = RIGHT.lines().map(|line| line.split_once(" = ").unwrap());
    pairs.collect()
}

/// Lines, each with its end.
fn joined<'a>(lines: impl Iterator<Item = &'a str>) -> String {
    lines.map(|line| format!("{line}\n")).collect()
}

#[test]
fn every_name() {
    for (request, right) in right() {
        assert_eq!(
            answer(request.as_bytes()).as_deref(),
            Ok(right),
            "{request}"
        );
    }
}

/// The terminal's requests of one kind: what stands before their names, an
/// initial key, and the rooms of the key.
fn check_terminal<K: Key>(kind: &str, initial: &str, enough: [&str; 6], short: [&str; 4]) {
    let serial = "0123456789ABCDF00001";
    let loaded = terminal_load::<K>(&hex(initial), &hex(serial)).unwrap();
    let next = terminal_next_key(&loaded, K::SIZE).unwrap();
    let record = shown(&to_bytes(&loaded));
    let asked = |request: &str| answer(format!("{kind}{request}").as_bytes()).unwrap();
    let load = |room: &str| asked(&format!("terminal-load{room}/label {initial} {serial}"));
    let size = Record::<K>::BYTES;
    assert_eq!(load(""), format!("done {record}"));
    assert_eq!(load(&format!("@{size}")), format!("done {record}"));
    assert_eq!(load(&format!("@{}", size - 1)), "refused 13");
    let call = |rooms: &str| asked(&format!("terminal-next-key{rooms} {record}"));
    let (key, serial) = (shown(next.key.as_ref()), shown(&next.serial));
    let given = format!("done {key} {serial} {}", shown(&to_bytes(&next.record)));
    for rooms in enough {
        assert_eq!(call(rooms), given, "{rooms}");
    }
    for rooms in short {
        assert_eq!(call(rooms), "refused 13", "{rooms}");
    }
    let zeros = "00".repeat(size);
    assert_eq!(asked(&format!("terminal-next-key@0 {zeros}")), "refused 11");
}

#[test]
fn terminal_requests() {
    check_terminal::<Single>(
        "",
        "21EE7C08DBE820AB",
        ["", "@8", "@8,10", "@1024,1024", "/label", "@9/label"],
        ["@7", "@0,10", "@8,9", "@8,0/label"],
    );
    check_terminal::<Double>(
        "double-",
        "6AC292FAA1315B4D858AB3A3D7D5933A",
        ["", "@16", "@16,10", "@1024,1024", "/label", "@17/label"],
        ["@15", "@8,10", "@16,9", "@16,0/label"],
    );
}

#[test]
fn self_test_lines() {
    assert_eq!(self_test_line(Ok(())), "done");
    assert_eq!(self_test_line(Err(7)), "failed 7");
}

#[test]
fn bytes_that_are_no_text() {
    let asked = |request: &[u8]| answer(request).unwrap();
    assert_eq!(asked(b"clean a\xFF\xC3b\r"), "done AB 3 0");
    assert_eq!(asked(b"clean/\xFF a"), "done A 0 0");
    assert_eq!(asked(b"pin-make 12\xFF4"), "refused 7");
    assert_eq!(asked(b"password-make 12345\xFF"), "refused 7");
}

#[test]
fn wrong_lines() {
    for wrong in [
        "x",
        "help",
        "encrypt",
        "encrypt/x",
        "encrypt/x ",
        "encrypt/x 133457799BBCDFF1",
        "encrypt/x 133457799BBCDFF1 ",
        "encrypt/x 133457799BBCDFF1 0123456789ABCDEF ",
        "encrypt/x 133457799BBCDFF1 0123456789ABCDEF 00",
        "encrypt/x 133457799BBCDFF1  0123456789ABCDEF",
        "encrypt/x  133457799BBCDFF1 0123456789ABCDEF",
        "encrypt/x 133457799BBCDFF 0123456789ABCDEF",
        "encrypt/x 133457799BBCDFG1 0123456789ABCDEF",
        "encrypt/x hex:133457799BBCDFF1 0123456789ABCDEF",
        "clean/x hex:616220x",
        "clean/x hex:616",
        "clean/x hex:61 62",
        "pin-make/x hex:3",
        " encrypt/x 133457799BBCDFF1 0123456789ABCDEF",
        "Encrypt/x 133457799BBCDFF1 0123456789ABCDEF",
        "des-encrypt/x 133457799BBCDFF1 0123456789ABCDEF",
        "encrypt@/x 133457799BBCDFF1 0123456789ABCDEF",
        "encrypt@1025/x 133457799BBCDFF1 0123456789ABCDEF",
        "encrypt@-1/x 133457799BBCDFF1 0123456789ABCDEF",
        "encrypt@+8/x 133457799BBCDFF1 0123456789ABCDEF",
        "encrypt@8,10/x 133457799BBCDFF1 0123456789ABCDEF",
        "encrypt@8@8/x 133457799BBCDFF1 0123456789ABCDEF",
        "terminal-next-key@8,/x 00",
        "terminal-next-key@8,1025/x 00",
        "terminal-next-key@8,10,10/x 00",
        "terminal-load@8,10/x 00 00",
        "double-terminal-next-key@16,/x 00",
        "double-terminal-next-key@16,10,10/x 00",
        "double-terminal-next-key/x 00 00",
        "double-terminal-load@355,10/x 00 00",
        "double-host-key/x 00",
        "double-encrypt/x 00 00",
        "double/x 00 00",
        "self-test ",
        "self-test/x x",
        "self-test@8",
        "self-test@/x",
        "self-tests",
        "clean",
        "clean/x ",
        "key-entry/x 0123456789ABCDEF",
        "key-entry/x 8",
        "key-entry/x 8 ",
        "key-entry/x 18446744073709551616 0123456789ABCDEF",
        "pin-make/x 1234 ",
        "meaning",
        "meaning/x -",
        "meaning/x 0 0",
        "meaning/x 4294967296",
        "pin-make/x 12 34",
        "password-make/x abc def",
        "password-make/x abcdef ",
        "password-make/x hex:61626",
        "password-read/x Hello!123",
        "vip-make/x",
        "vip-read/x hex:19",
        "derivation-data/x 6228000100001 4294967296",
        "derivation-data/x 6228000100001 -",
        "session-key/x 014D996FCC8F49157DC8B49E3BCDFD99 65536",
        "session-key/x 014D996FCC8F49157DC8B49E3BCDFD99 FF",
    ] {
        assert!(answer(wrong.as_bytes()).is_err(), "{wrong}");
    }
    assert!(answer(b"\xFFclean/x a").is_err());
}

/// Runs the program with some words and input.
fn second(words: &[&str], input: &str) -> (Option<i32>, String, String) {
    let mut command = Command::new(env!("CARGO_BIN_EXE_second"));
    command.args(words).stdin(Stdio::piped());
    command.stdout(Stdio::piped()).stderr(Stdio::piped());
    let mut child = command.spawn().unwrap();
    let _ = child.stdin.take().unwrap().write_all(input.as_bytes());
    let Output {
        status,
        stdout,
        stderr,
    } = child.wait_with_output().unwrap();
    let text = |bytes| String::from_utf8(bytes).unwrap();
    (status.code(), text(stdout), text(stderr))
}

#[test]
fn program_recomputes() {
    let asked = joined(right().into_iter().map(|(request, _)| request));
    let answers = joined(right().into_iter().map(|(_, answer)| answer));
    let right = (Some(0), answers, String::new());
    assert_eq!(second(&["recompute"], &asked), right);
    let commented = format!("# published\n\n{}", asked.replace('\n', "\n\n#\n"));
    assert_eq!(second(&["recompute"], &commented), right);
    // The last line may lack its end.
    assert_eq!(second(&["recompute"], asked.trim_end()), right);
}

#[test]
fn program_names_a_wrong_line() {
    for (word, wrong) in [
        ("recompute", "none/x 00 00"),
        ("recompute", " "),
        ("openssl", "encrypt/x 00"),
        ("coverage", "encrypt/s-boxes-01 00 00"),
    ] {
        let input = format!("# first\n\n{}\n{wrong}\n", right()[0].0);
        let (code, _, errors) = second(&[word], &input);
        if code == Some(3) {
            continue;
        }
        assert_eq!(code, Some(1));
        assert!(errors.contains("line 4"), "{errors}");
    }
}

#[test]
fn program_refuses_an_input_without_requests() {
    for input in ["", "\n", "# nothing\n"] {
        assert_eq!(second(&["recompute"], input).0, Some(1));
        assert_ne!(second(&["openssl"], input).0, Some(0));
        assert_eq!(second(&["coverage"], input).0, Some(1));
    }
    assert_ne!(second(&["openssl"], "clean a\n").0, Some(0));
}

#[test]
fn program_wants_a_known_word() {
    for words in [&[][..], &["x"], &["recompute", "x"]] {
        let (code, output, errors) = second(words, "");
        assert_eq!(code, Some(2));
        assert!(output.is_empty() && errors.contains("usage"));
    }
}

#[test]
fn program_counts_entries() {
    let lines = SUBSTITUTION.iter().enumerate();
    let lines = lines.map(|(i, [k, b, _])| format!("encrypt/s-boxes-{i:02} {k} {b}\n"));
    let all: String = lines.collect();
    let (code, output, _) = second(&["coverage"], &all);
    assert_eq!(code, Some(0));
    assert!(output.contains("512 of 512"));
    let first = all.lines().next().unwrap();
    assert_eq!(second(&["coverage"], first).0, Some(1));
    for others in [
        all.replace("s-boxes", "other"),
        all.replace("encrypt", "decrypt"),
    ] {
        assert_eq!(second(&["coverage"], &others).0, Some(1));
    }
}

#[test]
fn program_asks_openssl() {
    let asked = joined(right().into_iter().map(|(request, _)| request));
    let (code, output, errors) = second(&["openssl"], &asked);
    if code == Some(3) {
        assert_eq!(errors.lines().count(), 1);
        return;
    }
    let ciphers = right().into_iter().filter(|(request, answer)| {
        let cipher = request.starts_with("encrypt") || request.starts_with("decrypt");
        cipher && answer.starts_with("done")
    });
    assert_eq!((code, errors), (Some(0), String::new()));
    assert_eq!(output, joined(ciphers.map(|(_, answer)| answer)));
}
