//! The files of the vectors (docs/VECTORS.md): lists of calls, and a line of answer a call.
use crate::calls::Transaction;
use crate::describe;
use std::fmt;

/// The most that the format allows.
const MOST_IMAGE: usize = 36_848;
const MOST_JOURNAL: usize = 48_048;
const MOST_RECORD: usize = 512;
const MOST_EVENTS: usize = 1_024;

pub struct List<'a> {
    pub image: &'a [u8],
    pub journal: &'a [u8],
    pub calls: Vec<Vector<'a>>,
}

pub enum Vector<'a> {
    Operation(Lent<'a>),
    Preview(Lent<'a>),
    Transaction(Transaction),
}

/// What an operation or its preview is lent: a record, and an event buffer full of one byte.
pub struct Lent<'a> {
    pub record: &'a [u8],
    fill: u8,
    events_length: usize,
}

impl Lent<'_> {
    pub fn events(&self) -> Vec<u8> {
        vec![self.fill; self.events_length]
    }
}

/// The call in words.
impl fmt::Display for Vector<'_> {
    fn fmt(&self, f: &mut fmt::Formatter<'_>) -> fmt::Result {
        match self {
            Vector::Operation(lent) => write!(f, "{lent}"),
            Vector::Preview(lent) => write!(f, "preview of {lent}"),
            Vector::Transaction(transaction) => write!(f, "{}", transaction.name()),
        }
    }
}

impl fmt::Display for Lent<'_> {
    fn fmt(&self, f: &mut fmt::Formatter<'_>) -> fmt::Result {
        write!(f, "{}", describe::record(self.record))?;
        match self.events_length {
            896 => Ok(()),
            length => write!(f, ", with an event buffer of {length} bytes"),
        }
    }
}

/// All lists of a file; else the place of what is wrong, and what it is.
pub fn read(bytes: &[u8]) -> Result<Vec<List<'_>>, String> {
    let mut reader = Reader { bytes, at: 0, list: 0, call: None };
    let mut lists = Vec::new();
    while reader.at < bytes.len() {
        reader.list += 1;
        reader.call = None;
        lists.push(reader.next_list()?);
    }
    Ok(lists)
}

/// How far a file is read; lists and calls are counted from 1.
struct Reader<'a> {
    bytes: &'a [u8],
    at: usize,
    list: usize,
    call: Option<usize>,
}

impl<'a> Reader<'a> {
    /// Something wrong in what begins at a byte.
    fn wrong(&self, at: usize, what: String) -> String {
        match self.call {
            Some(call) => format!("byte {at}, list {}, call {call}: {what}", self.list),
            None => format!("byte {at}, list {}: {what}", self.list),
        }
    }

    fn take(&mut self, length: usize, what: &str) -> Result<&'a [u8], String> {
        let rest = &self.bytes[self.at..];
        match rest.get(..length) {
            Some(taken) => {
                self.at += length;
                Ok(taken)
            }
            None => Err(self.wrong(self.at, format!("the file ends after {} of the {length} bytes of {what}", rest.len()))),
        }
    }

    fn within(&self, at: usize, n: usize, most: usize, what: &str) -> Result<usize, String> {
        match n <= most {
            true => Ok(n),
            false => Err(self.wrong(at, format!("{what} is {n} bytes long, and {most} are the most"))),
        }
    }

    fn zero(&self, at: usize, n: usize, what: &str) -> Result<(), String> {
        match n {
            0 => Ok(()),
            _ => Err(self.wrong(at, format!("{what} is {n}, and has to be 0"))),
        }
    }

    fn next_list(&mut self) -> Result<List<'a>, String> {
        let at = self.at;
        let head = self.take(16, "the head of a list")?;
        let image = self.within(at, number(&head[0..4]), MOST_IMAGE, "the image")?;
        let journal = self.within(at + 4, number(&head[4..8]), MOST_JOURNAL, "the journal")?;
        self.zero(at + 12, number(&head[12..16]), "the end of the list's head")?;
        let (image, journal) = (self.take(image, "the image")?, self.take(journal, "the journal")?);
        let mut calls = Vec::new();
        for call in 1..=number(&head[8..12]) {
            self.call = Some(call);
            calls.push(self.next_call()?);
        }
        Ok(List { image, journal, calls })
    }

    fn next_call(&mut self) -> Result<Vector<'a>, String> {
        let at = self.at;
        let head = self.take(8, "the head of a call")?;
        let record = self.within(at + 2, number(&head[2..4]), MOST_RECORD, "the record")?;
        let events_length = self.within(at + 4, number(&head[4..6]), MOST_EVENTS, "the event buffer")?;
        self.zero(at + 6, number(&head[6..8]), "the end of the call's head")?;
        let mut lent = || Ok(Lent { record: self.take(record, "the record")?, fill: head[1], events_length });
        let transaction = match head[0] {
            0 => return lent().map(Vector::Operation),
            5 => return lent().map(Vector::Preview),
            kind => Transaction::ALL.get(usize::from(kind - 1)),
        };
        let transaction = transaction.ok_or_else(|| self.wrong(at, format!("there is no call of kind {}", head[0])))?;
        self.zero(at + 2, record, &format!("the length of the record of {}", transaction.name()))?;
        self.zero(at + 4, events_length, &format!("the length of the event buffer of {}", transaction.name()))?;
        Ok(Vector::Transaction(*transaction))
    }
}

fn number(bytes: &[u8]) -> usize {
    bytes.iter().rev().fold(0, |n, byte| 256 * n + usize::from(*byte))
}

/// The fields of a line of answer.
pub const NAMES: [&str; 6] = ["answer", "value", "events", "event_bytes", "image", "journal"];

/// The values of a line, as they are written; else what is wrong with the line.
pub fn fields(line: &str) -> Result<[&str; 6], String> {
    let words: Vec<&str> = line.split(' ').collect();
    let words: [&str; 6] = words.try_into().map_err(|_| "the line has not the six fields of an answer".to_string())?;
    let mut values = [""; 6];
    for ((value, name), word) in values.iter_mut().zip(NAMES).zip(words) {
        let found = word.strip_prefix(name).and_then(|rest| rest.strip_prefix('=')).filter(|value| is_value(name, value));
        *value = found.ok_or(format!("'{word}' is no field {name}"))?;
    }
    Ok(values)
}

fn is_value(name: &str, value: &str) -> bool {
    let digits = if name == "value" { value.strip_prefix('-').unwrap_or(value) } else { value };
    match name {
        "answer" | "value" | "events" => !digits.is_empty() && digits.bytes().all(|b| b.is_ascii_digit()),
        _ => value.len() == 64 && value.bytes().all(|b| matches!(b, b'0'..=b'9' | b'a'..=b'f')),
    }
}
