//! differential [COUNT [KEYS [SEED]]]: the library's entries against the second implementation.
//!
//! COUNT seeded inputs (200,000 if not given) over every entry, whole and damaged, long and short, with buffers of any
//! room; then the meanings with every room; then password and VIP blocks with lengths of every kind, and with each byte
//! through all 256 values; then records damaged byte by byte; then two terminals, of single and of double length, drained
//! of KEYS keys each (all 1,048,575 if not given). Prints a line for each kind and how often each number was answered. Ends
//! at the first difference with its input, status 1.
//!
//! Each entry must have answered every refusal that chizuregwo.h lists with it, and no other, and every entry of the
//! header must have been called, but for czg_version, which answers no refusal. Of the entries that answer a
//! czg_text_answer, and of no other, both counts are compared.

#![forbid(unsafe_code)]

mod blocks;
mod compare;
mod entries;
mod header;
mod messages;
mod random;
mod terminals;

use blocks::{PASSWORD, VIP};
use entries::{Entry, Value, ENTRIES, TEXT_ENTRIES};
use header::Listed;
use random::Random;
use second::dukpt::Key;
use std::collections::BTreeMap;
use std::process::ExitCode;
use std::time::Instant;
use terminals::{Device, ALL_KEYS, DOUBLE, SINGLE};

/// Share of each kind of terminal's next key of every thousand inputs.
const NEXT_KEY_SHARE: usize = 35;

/// The shares of some entries together.
const fn share_of<V: Value>(entries: &[Entry<V>]) -> usize {
    let (mut sum, mut i) = (0, 0);
    while i < entries.len() {
        sum += entries[i].share;
        i += 1;
    }
    sum
}

// The shares make a thousand.
const _: () = assert!(share_of(&ENTRIES) + share_of(&TEXT_ENTRIES) + 2 * NEXT_KEY_SHARE == 1000);

/// One key in so many of the drain is compared with the second implementation's.
const SAMPLE: usize = 1009;

/// The fewest inputs with which every pair of entry and refusal is answered.
const LEAST_COUNT: usize = 10_000;
/// Each pair is to be answered once in so many inputs, and at least once.
const PAIR_IN: usize = 40_000;

/// How often each number was answered.
#[derive(Default)]
struct Seen([usize; 14]);

/// What each entry answered, by its name.
type All = BTreeMap<&'static str, Seen>;

impl Seen {
    /// The counts of some numbers.
    fn of(numbers: Vec<u8>) -> Seen {
        let mut seen = Seen::default();
        numbers.into_iter().for_each(|number| seen.count(number));
        seen
    }

    /// Counts a number.
    fn count(&mut self, number: u8) {
        self.0[number as usize] += 1;
    }

    /// Prints a line for one kind and adds its counts to those of an entry.
    fn print(&self, kind: &str, entry: &'static str, all: &mut All) {
        let inputs: usize = self.0.iter().sum();
        let refused: Vec<String> = (1..14)
            .filter(|number| self.0[*number] > 0)
            .map(|number| format!("{number}: {}", self.0[number]))
            .collect();
        println!(
            "{kind:27} {inputs:>8} inputs, {:>8} done; refused {}",
            self.0[0],
            refused.join(", ")
        );
        let sums = &mut all.entry(entry).or_default().0;
        for (sum, count) in sums.iter_mut().zip(self.0) {
            *sum += count;
        }
    }

    /// Holds the numbers answered to those that the header lists: each of these, and done, at least so often, and no other.
    fn agrees(&self, listed: &Listed, least: usize) -> Result<(), String> {
        let name = &listed.name;
        for (number, times) in self.0.iter().enumerate() {
            let is_listed = number == 0 || listed.refusals.contains(&(number as u8));
            if is_listed && *times < least {
                return Err(format!(
                    "czg_{name} answered {number}, as the header has it, {times} times; {least} is the least"
                ));
            }
            if !is_listed && *times > 0 {
                return Err(format!(
                    "czg_{name} answered {number}, which the header does not list with it"
                ));
            }
        }
        Ok(())
    }
}

/// A count from the command line, or its default.
fn argument(place: usize, default: u64) -> Result<u64, String> {
    match std::env::args().nth(place) {
        None => Ok(default),
        Some(text) => text.parse().map_err(|_| format!("{text}: not a count")),
    }
}

/// So many inputs of one entry.
fn run(
    entry: &'static str,
    count: usize,
    all: &mut All,
    mut one: impl FnMut() -> Result<u8, String>,
) -> Result<(), String> {
    let mut seen = Seen::default();
    for n in 1..=count {
        seen.count(one().map_err(|difference| format!("{entry}, input {n}: {difference}"))?);
    }
    seen.print(entry, entry, all);
    Ok(())
}

/// What the command line asks for.
struct Asked {
    count: usize,
    keys: usize,
    seed: u64,
}

/// Reads the command line.
fn asked() -> Result<Asked, String> {
    let asked = Asked {
        count: argument(1, 200_000)? as usize,
        keys: argument(2, ALL_KEYS as u64)? as usize,
        seed: argument(3, 20_241_115)?,
    };
    if asked.count < LEAST_COUNT || asked.keys > ALL_KEYS || std::env::args().len() > 4 {
        return Err(
            "usage: differential [COUNT [KEYS [SEED]]], COUNT at least 10000, KEYS at most 1048575"
                .to_string(),
        );
    }
    Ok(asked)
}

/// Each of some entries on its share of the inputs.
fn shares<V: Value>(
    entries: &[Entry<V>],
    random: &mut Random,
    count: usize,
    all: &mut All,
) -> Result<(), String> {
    for entry in entries {
        run(entry.name, count * entry.share / 1000, all, || {
            compare::compare(random, entry)
        })?;
    }
    Ok(())
}

/// The next key of one kind of terminal on its share of the inputs.
fn next_keys<K: Key>(
    device: &Device<K>,
    random: &mut Random,
    count: usize,
    all: &mut All,
) -> Result<(), String> {
    let share = count * NEXT_KEY_SHARE / 1000;
    run(device.next_key_name, share, all, || device.compare(random))
}

/// Records of one kind of terminal damaged byte by byte.
fn damaged_records<K: Key>(
    device: &Device<K>,
    random: &mut Random,
    count: usize,
    all: &mut All,
) -> Result<(), String> {
    let kind = format!("{} records byte by byte", device.length);
    let mut numbers = Vec::new();
    for _ in 0..1 + count / 20_000 {
        let damaged = device.byte_by_byte(random);
        numbers.extend(damaged.map_err(|difference| format!("{kind}: {difference}"))?);
    }
    Seen::of(numbers).print(&kind, device.next_key_name, all);
    Ok(())
}

/// Every entry on seeded inputs, then the meanings room by room, the blocks of passwords and VIP numbers, and records damaged
/// byte by byte.
fn inputs(random: &mut Random, count: usize, all: &mut All) -> Result<(), String> {
    shares(&ENTRIES, random, count, all)?;
    shares(&TEXT_ENTRIES, random, count, all)?;
    next_keys(&SINGLE, random, count, all)?;
    next_keys(&DOUBLE, random, count, all)?;
    let meanings = compare::room_by_room(random)?;
    Seen::of(meanings).print("meanings room by room", "meaning", all);
    for (texts, kind) in [("passwords", &PASSWORD), ("VIP numbers", &VIP)] {
        let lengths = Seen::of(kind.length_by_length(random)?);
        lengths.print(&format!("{texts} by length"), kind.entry.name, all);
        let bytes = Seen::of(kind.byte_by_byte(random)?);
        bytes.print(&format!("{texts} byte by byte"), kind.entry.name, all);
    }
    damaged_records(&SINGLE, random, count, all)?;
    damaged_records(&DOUBLE, random, count, all)
}

/// Holds what the entries answered to the header's list: the same entries, and each its refusals, and its counts where it
/// has them.
fn same_refusals(listed: &[Listed], all: &All, least: usize) -> Result<(), String> {
    for entry in listed {
        let counts = TEXT_ENTRIES.iter().any(|text| text.name == entry.name);
        if counts != entry.counts {
            let with = |counts| if counts { "with" } else { "without" };
            return Err(format!(
                "czg_{} is compared {} counts, and the header has it {} them",
                entry.name,
                with(counts),
                with(entry.counts)
            ));
        }
        match all.get(entry.name.as_str()) {
            Some(seen) => seen.agrees(entry, least)?,
            None => return Err(format!("czg_{} of the header is not called", entry.name)),
        }
    }
    match all
        .keys()
        .find(|name| listed.iter().all(|entry| entry.name != **name))
    {
        Some(name) => Err(format!("the header has no czg_{name}")),
        None => Ok(()),
    }
}

/// One terminal of a kind drained of so many keys.
fn drain<K: Key>(device: &Device<K>, random: &mut Random, keys: usize) -> Result<(), String> {
    let (sampled, reached) = device.drain(random, keys, SAMPLE)?;
    let length = device.length;
    println!(
        "{:27} {keys:>8} keys, each the host's; {sampled} compared with the second implementation",
        format!("{length} drain")
    );
    println!(
        "{:27} {reached:>8} counters of its records, each under one filled register, or under none once given",
        format!("{length} reach")
    );
    Ok(())
}

/// All of it.
fn differential() -> Result<(), String> {
    let Asked { count, keys, seed } = asked()?;
    let start = Instant::now();
    let listed = header::entries()?;
    let mut random = Random(seed);
    let mut all = All::new();
    println!("seed {seed}");
    inputs(&mut random, count, &mut all)?;
    let least = (count / PAIR_IN).max(1);
    same_refusals(&listed, &all, least)?;
    let pairs: usize = listed.iter().map(|entry| entry.refusals.len()).sum();
    println!(
        "{:27} {pairs:>8} pairs of an entry and a refusal, each answered {least} times or more",
        "header"
    );
    drain(&SINGLE, &mut random, keys)?;
    drain(&DOUBLE, &mut random, keys)?;
    let inputs: usize = all.values().flat_map(|seen| seen.0).sum();
    println!(
        "differential: ok, {inputs} inputs, {:.0} s",
        start.elapsed().as_secs_f64()
    );
    Ok(())
}

fn main() -> ExitCode {
    match differential() {
        Ok(()) => ExitCode::SUCCESS,
        Err(difference) => {
            println!("differential: FAILED: {difference}");
            ExitCode::FAILURE
        }
    }
}
