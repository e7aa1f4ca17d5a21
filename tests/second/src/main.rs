//! `second recompute`, `second openssl` and `second coverage` read lines of
//! requests from standard input, as the program `czg` does. Empty lines and
//! lines that start with `#` are passed over.
//!
//! - `recompute` prints the line of the answer to each request.
//! - `openssl` prints those of the encrypt and decrypt requests with a key of 8
//!   or 16 bytes, a block of 8 and room for it, as the command `openssl enc
//!   -des-ede` gives them; it ends with 3 if that cannot be used.
//! - `coverage` says how many of the 512 S-box entries the `encrypt/s-boxes`
//!   requests read together; it ends with 1 if not all.
//!
//! A line that is no request, or an input without one, ends with 1; no word or
//! an unknown one with 2.

#![deny(missing_docs)]
#![forbid(unsafe_code)]

use second::des::ENTRIES;
use second::openssl::Failure;
use second::{coverage, openssl, recompute};
use std::io::{stdin, stdout, BufWriter, Write};
use std::process::ExitCode;

/// Says what is wrong and gives the number to end with.
fn failed(error: &str, code: u8) -> ExitCode {
    eprintln!("second: {error}");
    ExitCode::from(code)
}

/// Ends well once everything written has gone out.
fn flushed(mut output: impl Write) -> ExitCode {
    match output.flush() {
        Ok(()) => ExitCode::SUCCESS,
        Err(error) => failed(&error.to_string(), 1),
    }
}

/// `second recompute`.
fn run_recompute() -> ExitCode {
    let mut output = BufWriter::new(stdout().lock());
    match recompute::run(stdin().lock(), &mut output) {
        Ok(()) => flushed(output),
        Err(error) => failed(&error, 1),
    }
}

/// `second openssl`.
fn run_openssl() -> ExitCode {
    let mut output = BufWriter::new(stdout().lock());
    match openssl::run(stdin().lock(), &mut output) {
        Ok(()) => flushed(output),
        Err(Failure::Missing(error)) => failed(&error, 3),
        Err(Failure::Wrong(error)) => failed(&error, 1),
    }
}

/// `second coverage`.
fn run_coverage() -> ExitCode {
    match coverage::run(stdin().lock()) {
        Ok(read) => {
            println!("{read} of {ENTRIES} S-box entries are read");
            ExitCode::from((read != ENTRIES) as u8)
        }
        Err(error) => failed(&error, 1),
    }
}

fn main() -> ExitCode {
    let words: Vec<String> = std::env::args().skip(1).collect();
    let words: Vec<&str> = words.iter().map(String::as_str).collect();
    match words[..] {
        ["recompute"] => run_recompute(),
        ["openssl"] => run_openssl(),
        ["coverage"] => run_coverage(),
        _ => failed(
            "usage: second recompute | openssl | coverage, with lines of requests on standard input",
            2,
        ),
    }
}
