//! `vault vectors`: the library's answers to the vectors, compared with the stored ones or written.
use crate::arguments::Arguments;
use crate::calls::Transaction;
use crate::failure::{End, Failure};
use crate::files::{self, MOST_TEXT};
use crate::numbers::counted;
use crate::vectors::{self, fields, List, Vector, NAMES};
use std::io::Write;
use std::path::Path;
use token_vault::{exports, Refusal};

const CALLS: &str = "crates/token_vault_vectors/stdin";

pub fn command(mut arguments: Arguments, out: &mut dyn Write) -> Result<End, Failure> {
    let written = arguments.take_value("write")?;
    arguments.nothing_left("vectors")?;
    let words = arguments.words("vectors", &["CALLS", "ANSWERS"], 0)?;
    let calls = words.first().map_or(CALLS, String::as_str);
    match (written, words.get(1)) {
        (Some(_), Some(_)) => Err(Failure::Usage("vectors: with --write there is no ANSWERS".to_string())),
        (Some(file), None) => write(calls, &file, out),
        (None, Some(answers)) => compare(calls, answers, out),
        (None, None) => compare(calls, &beside(calls), out),
    }
}

/// The file `stdout` in the folder of the calls.
fn beside(calls: &str) -> String {
    Path::new(calls).with_file_name("stdout").to_string_lossy().into_owned()
}

fn read_lists<'a>(path: &str, bytes: &'a [u8]) -> Result<Vec<List<'a>>, Failure> {
    vectors::read(bytes).map_err(|what| Failure::Usage(format!("{path}: {what}")))
}

fn size(lists: &[List]) -> String {
    let calls = lists.iter().map(|list| list.calls.len()).sum();
    format!("{} in {}", counted(calls, "call"), counted(lists.len(), "list"))
}

fn write(calls: &str, file: &str, out: &mut dyn Write) -> Result<End, Failure> {
    let bytes = files::read(calls, MOST_TEXT)?;
    let lists = read_lists(calls, &bytes)?;
    let lines: String = lists.iter().flat_map(answers).map(|line| line + "\n").collect();
    files::write(file, lines.as_bytes())?;
    writeln!(out, "{}: answers written", size(&lists))?;
    Ok(End::Done)
}

fn compare(calls: &str, answers_path: &str, out: &mut dyn Write) -> Result<End, Failure> {
    let bytes = files::read(calls, MOST_TEXT)?;
    let stored = files::read(answers_path, MOST_TEXT)?;
    let lists = read_lists(calls, &bytes)?;
    let stored = stored_lines(answers_path, &stored)?;
    let mut n = 0;
    for (l, list) in lists.iter().enumerate() {
        for (c, given) in answers(list).enumerate() {
            let place = || format!("list {}, call {}: {}", l + 1, c + 1, list.calls[c]);
            match stored.get(n) {
                None => return missing(&place(), n, out),
                Some(line) if *line != given => {
                    let values = fields(line).map_err(|what| format!("{answers_path}:{}: {what}", n + 1))?;
                    return difference(&place(), values, &given, out);
                }
                Some(_) => n += 1,
            }
        }
    }
    if n < stored.len() {
        writeln!(out, "{}, but {} stored", size(&lists), counted(stored.len(), "answer"))?;
        return Ok(End::Refused);
    }
    writeln!(out, "{}: all as stored", size(&lists))?;
    Ok(End::Done)
}

fn missing(place: &str, stored: usize, out: &mut dyn Write) -> Result<End, Failure> {
    writeln!(out, "missing: {place}")?;
    writeln!(out, "  only {} stored", counted(stored, "answer"))?;
    Ok(End::Refused)
}

/// The lines of a file of answers, each of which ends with a line feed.
fn stored_lines<'a>(path: &str, bytes: &'a [u8]) -> Result<Vec<&'a str>, Failure> {
    let wrong = |line: usize, what: &str| Failure::Usage(format!("{path}:{line}: {what}"));
    let text = std::str::from_utf8(bytes).map_err(|error| {
        let line = 1 + bytes[..error.valid_up_to()].iter().filter(|byte| **byte == b'\n').count();
        wrong(line, "the line is not text (UTF-8)")
    })?;
    let mut lines: Vec<&str> = text.split('\n').collect();
    match lines.pop() {
        Some("") | None => Ok(lines),
        Some(_) => Err(wrong(lines.len() + 1, "the line does not end with a line feed")),
    }
}

/// The fields that differ, stored and given.
fn difference(place: &str, stored: [&str; 6], given: &str, out: &mut dyn Write) -> Result<End, Failure> {
    writeln!(out, "differs: {place}")?;
    let given = fields(given)?;
    for ((name, stored), given) in NAMES.iter().zip(stored).zip(given) {
        if stored != given {
            writeln!(out, "  {name}: stored {}, the library gives {}", in_words(name, stored), in_words(name, given))?;
        }
    }
    Ok(End::Refused)
}

/// An answer with the name of its refusal; any other field as it is.
fn in_words(name: &str, value: &str) -> String {
    match (name, value.parse().ok().and_then(Refusal::from_number)) {
        ("answer", Some(refusal)) => format!("{value} {}", refusal.name()),
        ("answer", None) if value == "0" => "0 done".to_string(),
        _ => value.to_string(),
    }
}

/// The line of answer of each call of a list, made one after the other.
fn answers<'a>(list: &'a List) -> impl Iterator<Item = String> + 'a {
    let mut image = Hashed::new(list.image);
    let mut journal = Hashed::new(list.journal);
    list.calls.iter().map(move |call| {
        let (mut value, mut count, mut events) = ([0; 16], 0, Vec::new());
        let number = match call {
            Vector::Operation(lent) => {
                events = lent.events();
                exports::call(&mut image.bytes, &mut journal.bytes, lent.record, &mut events, &mut value, &mut count)
            }
            Vector::Preview(lent) => {
                events = lent.events();
                exports::preview(&image.bytes, lent.record, &mut events, &mut value, &mut count)
            }
            Vector::Transaction(transaction) => transact(*transaction, &mut image.bytes, &mut journal.bytes),
        };
        let value = i128::from_le_bytes(value);
        let event_bytes = sha256::hex(&events);
        format!(
            "answer={number} value={value} events={count} event_bytes={event_bytes} image={} journal={}",
            image.digest(),
            journal.digest()
        )
    })
}

fn transact(transaction: Transaction, image: &mut [u8], journal: &mut [u8]) -> u32 {
    match transaction {
        Transaction::Begin => exports::begin(image, journal),
        Transaction::Commit => exports::commit(image, journal),
        Transaction::Rollback => exports::rollback(image, journal),
        Transaction::Undo => exports::undo(image, journal),
    }
}

/// Bytes, and the digest of what they were when it was last asked for: most calls leave image or journal as it was.
struct Hashed {
    bytes: Vec<u8>,
    last: Option<(Vec<u8>, String)>,
}

impl Hashed {
    fn new(bytes: &[u8]) -> Hashed {
        Hashed { bytes: bytes.to_vec(), last: None }
    }

    fn digest(&mut self) -> String {
        match &self.last {
            Some((bytes, digest)) if *bytes == self.bytes => digest.clone(),
            _ => {
                let digest = sha256::hex(&self.bytes);
                self.last = Some((self.bytes.clone(), digest.clone()));
                digest
            }
        }
    }
}

/// The table of causes names exactly the refusals that the vectors show of each call.
#[cfg(test)]
mod tests {
    use super::*;
    use crate::causes::{of_operation, of_transaction};
    use std::collections::{BTreeMap, BTreeSet};
    use token_vault::Operation;

    type Pairs = BTreeMap<String, BTreeSet<u32>>;

    fn shown() -> Pairs {
        let calls = std::fs::read(concat!(env!("CARGO_MANIFEST_DIR"), "/../../", "crates/token_vault_vectors/stdin")).expect("the vectors");
        let mut pairs = Pairs::new();
        for list in vectors::read(&calls).expect("lists") {
            for (call, line) in list.calls.iter().zip(answers(&list)) {
                let name = match call {
                    Vector::Transaction(transaction) => transaction.name(),
                    Vector::Operation(lent) => match lent.record.first().and_then(|n| Operation::from_number(*n)) {
                        Some(operation) if lent.record.len() == 448 => operation.name(),
                        _ => continue,
                    },
                    Vector::Preview(_) => continue,
                };
                let number = fields(&line).expect("an answer")[0].parse().expect("a number");
                pairs.entry(name.to_string()).or_default().insert(number);
            }
        }
        pairs
    }

    /// 30 to 33 come for every operation alike, and the vectors show each of them for some only.
    fn is_own(number: &u32) -> bool {
        *number > 0 && !(30..=33).contains(number)
    }

    #[test]
    fn causes_are_those_of_the_vectors() {
        let shown = shown();
        let operations = Operation::ALL.into_iter().map(|operation| (operation.name(), of_operation(operation)));
        let transactions = Transaction::ALL.into_iter().map(|transaction| (transaction.name(), of_transaction(transaction)));
        for (name, causes) in operations.chain(transactions) {
            let told: BTreeSet<u32> = causes.iter().map(|cause| cause.refusal.number()).filter(is_own).collect();
            let seen: BTreeSet<u32> = shown[name].iter().copied().filter(is_own).collect();
            assert_eq!(told, seen, "{name}");
        }
    }
}
