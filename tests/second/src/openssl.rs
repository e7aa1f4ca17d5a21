//! Answers the cipher requests with the command `openssl enc -des-ede`: two-key
//! triple DES of each block by itself, without padding. With both halves of the
//! key the same it is DES.

use crate::bytes::{array, hex};
use crate::lines::{answer_line, bytes_value, requests, Request};
use std::collections::BTreeMap;
use std::io::{BufRead, Write};
use std::process::{Command, Stdio};

/// A key of two halves and the direction, `-e` or `-d`.
type Under = ([u8; 16], &'static str);

/// One request: where its answer stands in the output, and its block.
type Place = (usize, [u8; 8]);

/// Why nothing was computed.
#[derive(Clone, Debug, PartialEq, Eq)]
pub enum Failure {
    /// `openssl` cannot be started or has no two-key triple DES.
    Missing(String),
    /// The input, the output or a run of `openssl` is wrong.
    Wrong(String),
}

/// The output of `openssl enc -des-ede` over whole blocks.
fn enc(under: &Under, blocks: &[u8]) -> Result<Vec<u8>, String> {
    let (key, direction) = under;
    let mut command = Command::new("openssl");
    command.args(["enc", "-des-ede", direction, "-nopad", "-K", &hex(key)]);
    command.stdin(Stdio::piped()).stdout(Stdio::piped());
    command.stderr(Stdio::null());
    let mut child = command.spawn().map_err(|error| error.to_string())?;
    let mut input = child.stdin.take().ok_or("no standard input")?;
    let blocks_in = blocks.to_vec();
    let writer = std::thread::spawn(move || input.write_all(&blocks_in));
    let output = child.wait_with_output();
    let written = writer.join();
    let output = output.map_err(|error| error.to_string())?;
    if !output.status.success() {
        return Err(format!("enc -des-ede ended with {}", output.status));
    }
    if !matches!(written, Ok(Ok(()))) || output.stdout.len() != blocks.len() {
        return Err("enc -des-ede did not take or give all blocks".to_string());
    }
    Ok(output.stdout)
}

/// Tries `openssl` with one block.
fn try_out() -> Result<(), Failure> {
    let tried = enc(&([0; 16], "-e"), &[0; 8]);
    let missing = |error| Failure::Missing(format!("openssl enc -des-ede cannot be used: {error}"));
    tried.map(|_| ()).map_err(missing)
}

/// Key, direction and block of a line, if it asks for the cipher with a key of 8
/// or 16 bytes, a block of 8 and room for the result.
fn cipher_request(line: &[u8]) -> Result<Option<(Under, [u8; 8])>, String> {
    let mut request = Request::read(line)?;
    let direction = match request.name {
        "encrypt" => "-e",
        "decrypt" => "-d",
        _ => return Ok(None),
    };
    let (key, block) = (request.inputs.bytes()?, request.inputs.bytes()?);
    request.inputs.end()?;
    let key = match key.len() {
        8 => key.repeat(2),
        _ => key,
    };
    if key.len() != 16 || block.len() != 8 || request.rooms.result < 8 {
        return Ok(None);
    }
    Ok(Some(((array(&key), direction), array(&block))))
}

/// The cipher requests of the input, in its order.
fn cipher_requests(input: impl BufRead) -> Result<Vec<(Under, [u8; 8])>, String> {
    let mut found = Vec::new();
    for (number, line) in requests(input)? {
        let read = cipher_request(&line).map_err(|error| format!("line {number}: {error}"))?;
        found.extend(read);
    }
    if found.is_empty() {
        return Err("the input holds no cipher request".to_string());
    }
    Ok(found)
}

/// The requests grouped by key and direction, so that few processes are started.
fn grouped(requests: &[(Under, [u8; 8])]) -> BTreeMap<Under, Vec<Place>> {
    let mut groups: BTreeMap<Under, Vec<Place>> = BTreeMap::new();
    for (place, (under, block)) in requests.iter().enumerate() {
        groups.entry(*under).or_default().push((place, *block));
    }
    groups
}

/// The blocks that `openssl` gives for all groups, in the order of the requests.
fn results(groups: &BTreeMap<Under, Vec<Place>>) -> Result<Vec<Vec<u8>>, String> {
    let mut results = BTreeMap::new();
    for (under, places) in groups {
        let blocks: Vec<u8> = places.iter().flat_map(|(_, block)| *block).collect();
        let computed = enc(under, &blocks)?;
        for ((place, _), block) in places.iter().zip(computed.chunks(8)) {
            results.insert(*place, block.to_vec());
        }
    }
    Ok(results.into_values().collect())
}

/// Answers the cipher requests of the input, in its order.
pub fn run(input: impl BufRead, output: &mut impl Write) -> Result<(), Failure> {
    try_out()?;
    let requests = cipher_requests(input).map_err(Failure::Wrong)?;
    for block in results(&grouped(&requests)).map_err(Failure::Wrong)? {
        let written = writeln!(output, "{}", answer_line(&Ok(vec![bytes_value(&block)])));
        written.map_err(|error| Failure::Wrong(error.to_string()))?;
    }
    Ok(())
}
