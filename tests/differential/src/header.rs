//! The refusals that chizuregwo.h lists with each entry: the last sentence of the comment before its declaration, as in
//! `Refusals: 6 (key, block), 13.`, the details in brackets. The version alone answers no refusal.

/// The header's path.
const PATH: &str = concat!(env!("CARGO_MANIFEST_DIR"), "/../../include/chizuregwo.h");

/// An entry as the header has it: its name without `czg_`, whether it answers the counts of a cleaned text, and the
/// refusals that it lists.
pub struct Listed {
    pub name: String,
    pub counts: bool,
    pub refusals: Vec<u8>,
}

/// A number from 1 to 13 at the start of a text, with its details in brackets if it has any, and what stands after.
fn refusal(text: &str) -> Option<(u8, &str)> {
    let end = text.find(|c: char| !c.is_ascii_digit())?;
    let number = text[..end].parse().ok().filter(|n| (1..=13).contains(n))?;
    let rest = &text[end..];
    match rest.strip_prefix(" (") {
        None => Some((number, rest)),
        Some(details) => Some((number, details.split_once(')')?.1)),
    }
}

/// The numbers of a list `6 (key, block), 13.` that ends the text; each stands there once.
fn refusals(text: &str) -> Option<Vec<u8>> {
    let mut numbers = Vec::new();
    let mut text = text;
    loop {
        let (number, rest) = refusal(text)?;
        if numbers.contains(&number) {
            return None;
        }
        numbers.push(number);
        if rest == "." {
            return Some(numbers);
        }
        text = rest.strip_prefix(", ")?;
    }
}

/// The comment that ends a text, in one line, without its marks.
fn comment(text: &str) -> Option<String> {
    let (_, comment) = text.trim_end().strip_suffix("*/")?.rsplit_once("/*")?;
    let lines = comment
        .lines()
        .map(|line| line.trim().trim_start_matches("* "));
    Some(lines.collect::<Vec<_>>().join(" ").trim().to_string())
}

/// The name that starts a text: letters, digits and underscores.
fn name(text: &str) -> &str {
    let end = text.find(|c: char| !c.is_ascii_alphanumeric() && c != '_');
    &text[..end.unwrap_or(text.len())]
}

/// The entry whose name starts at a place of the header, after `czg_`.
fn listed(header: &str, place: usize) -> Result<Listed, String> {
    let name = name(&header[place..]);
    let answers = |answer: &str| header[..place].strip_suffix(&format!("\n{answer} czg_"));
    let (counts, before) = match (answers("czg_answer"), answers("czg_text_answer")) {
        (Some(before), _) => (false, before),
        (_, Some(before)) => (true, before),
        _ => {
            return Err(format!(
                "{PATH}: czg_{name}: it answers neither czg_answer nor czg_text_answer"
            ))
        }
    };
    let comment = comment(before).unwrap_or_default();
    let list = comment.rsplit_once("Refusals: ").map(|(_, list)| list);
    match list.and_then(refusals) {
        Some(refusals) => Ok(Listed {
            name: name.to_string(),
            counts,
            refusals,
        }),
        None => Err(format!(
            "{PATH}: czg_{name}: the comment before it does not end as in `Refusals: 6 (key, block), 13.`"
        )),
    }
}

/// The declaration of the version, which is a number alone.
const VERSION: &str = "\nuint32_t czg_version(void);\n";

/// Every entry of a header that answers refusals: each name that starts with `czg_` and has a bracket after it, but for
/// the version.
fn parsed(header: &str) -> Result<Vec<Listed>, String> {
    let (before, after) = header
        .split_once(VERSION)
        .ok_or(format!("{PATH}: no line `{}`", VERSION.trim()))?;
    let header = &[before, after].join("\n");
    let is_called = |place: &usize| {
        let text = &header[*place..];
        text[name(text).len()..].starts_with('(')
    };
    let names = header.match_indices("czg_");
    let places = names.map(|(place, prefix)| place + prefix.len());
    let entries = places.filter(is_called);
    entries.map(|place| listed(header, place)).collect()
}

/// Every entry of chizuregwo.h.
pub fn entries() -> Result<Vec<Listed>, String> {
    let header = std::fs::read_to_string(PATH).map_err(|error| format!("{PATH}: {error}"))?;
    parsed(&header)
}
