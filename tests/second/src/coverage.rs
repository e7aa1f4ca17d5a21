//! Which entries of the selection functions the `encrypt/s-boxes` requests read
//! together.

use crate::des::{entries_read, Entry};
use crate::lines::{requests, Request};
use std::collections::BTreeSet;
use std::io::BufRead;

/// Adds the entries that a request reads, if its label starts with `s-boxes`.
fn add(line: &[u8], entries: &mut BTreeSet<Entry>) -> Result<(), String> {
    let mut request = Request::read(line)?;
    if request.name != "encrypt" || !request.label.starts_with(b"s-boxes") {
        return Ok(());
    }
    let (key, block) = (request.inputs.bytes()?, request.inputs.bytes()?);
    request.inputs.end()?;
    let (Ok(key), Ok(block)) = (key.try_into(), block.try_into()) else {
        return Err("an s-boxes request takes a key and a block of 8 bytes".to_string());
    };
    entries.extend(entries_read(&key, &block));
    Ok(())
}

/// Number of entries that the `s-boxes` requests of the input read.
pub fn run(input: impl BufRead) -> Result<usize, String> {
    let mut entries = BTreeSet::new();
    for (number, line) in requests(input)? {
        add(&line, &mut entries).map_err(|error| format!("line {number}: {error}"))?;
    }
    Ok(entries.len())
}
