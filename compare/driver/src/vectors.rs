//! Vectors: lists of calls that reach every pair and every situation, with the answers of the Rust side (docs/VECTORS.md).
use crate::compare::{copy, operate};
use crate::scenario::{list_operation, operation};
use crate::situation::{Seen, Situations};
use crate::table::Table;
use crate::{bad_images, bad_journals, cases, directed, fields, generate, previews, tolls_cases, trial};
use model::image::LENGTH;
use model::random::Random;
use model::vault::{Answer, Call, Vault};
use std::io;
use std::path::Path;

/// What the program that replays vectors has room for.
const MOST_IMAGE: usize = 36_848;
const MOST_JOURNAL: usize = 48_048;
const MOST_RECORD: usize = 512;
const MOST_EVENTS: usize = 1_024;

/// Calls that are tried at one state before a list ends.
const TRIES: usize = 400;

/// A list is taken if it reaches so many new pairs or situations; so many lists are tried at most.
const LEAST: [(usize, u64); 6] = [(40, 60), (20, 60), (10, 60), (5, 60), (2, 60), (1, 10_000)];

const LONG_LISTS: u64 = 4;
const LONG_LIST: usize = 40;

pub struct Reached {
    table: Table,
    situations: Situations,
}

impl Reached {
    pub fn nothing() -> Reached {
        Reached { table: Table::of_calls(), situations: Situations::new() }
    }

    fn missing(&self) -> Vec<String> {
        [self.table.missing(), self.situations.missing()].concat()
    }

    /// Whether the call reaches something new.
    fn count(&mut self, before: &Vault, after: &Vault, call: &Call, answer: &Answer) -> bool {
        let mut is_new = self.table.is_new(call, answer.number);
        self.table.count(call, answer.number);
        if let Call::Operation { record, .. } = call {
            is_new |= self.situations.count(&Seen {
                before: &before.image,
                after: &after.image,
                journal_before: &before.journal,
                journal_after: &after.journal,
                record,
                answer,
            });
        }
        is_new
    }
}

pub struct List {
    pub start: Vault,
    pub calls: Vec<Call>,
}

/// Any call, more often one of an operation that is unfinished; its record is made for a good image.
fn any_call(r: &mut Random, image: &[u8], unfinished: &[u8]) -> Call {
    let mut call = match r.weighted(&[44, 40, 4, 4, 4, 4]) {
        0 if !unfinished.is_empty() => {
            let operation = r.of_list(unfinished);
            Call::Operation { record: generate::record(r, image, operation), events: generate::events(r) }
        }
        0 | 1 => operation(r, image),
        2 => Call::Undo,
        3 => Call::Rollback,
        4 => Call::Commit,
        _ => Call::Begin,
    };
    if let Call::Operation { record, events } = &mut call {
        if r.percent(10) {
            generate::damage_record(r, record);
        }
        if r.percent(10) {
            *events = vec![7; r.of_list(&[0, 1, 56, 895, 897])];
        }
    }
    call
}

fn fits(call: &Call) -> bool {
    match call {
        Call::Operation { record, events } | Call::Preview { record, events } => {
            let same = events.iter().all(|b| *b == events[0]);
            record.len() <= MOST_RECORD && events.len() <= MOST_EVENTS && same
        }
        _ => true,
    }
}

/// An image and a journal that are good, or one of them damaged.
fn start(r: &mut Random) -> Vault {
    let mut image = generate::image(r);
    let open = r.percent(50);
    let mut journal = if open { generate::open_journal(r, &image) } else { vec![0; generate::journal_length(r)] };
    match r.weighted(&[80, 10, 10]) {
        0 => {}
        1 => generate::damage_image(r, &mut image),
        _ => generate::damage_journal(r, &mut journal),
    }
    Vault { image, journal }
}

/// Calls one after another, each the first of those tried that reaches something new.
fn new_list(r: &mut Random, reached: &mut Reached) -> List {
    let start = start(r);
    let other = generate::image(r);
    let mut vault = start.clone();
    let mut calls = Vec::new();
    let mut tries = TRIES;
    while tries > 0 {
        tries -= 1;
        let image = if model::image::good(&vault.image) { &vault.image } else { &other };
        let call = any_call(r, image, &reached.table.unfinished());
        if !fits(&call) {
            continue;
        }
        let mut after = vault.clone();
        let answer = after.call(&call, &mut operate);
        if reached.count(&vault, &after, &call, &answer) {
            calls.push(call);
            vault = after;
            tries = TRIES;
        }
    }
    List { start, calls }
}

/// Calls with transactions, most of them accepted.
pub fn long_list(r: &mut Random, reached: &mut Reached) -> List {
    let start = Vault { image: generate::image(r), journal: vec![0; 24 * 41] };
    let mut vault = start.clone();
    let mut calls = Vec::new();
    while calls.len() < LONG_LIST {
        let call = match r.weighted(&[76, 8, 4, 4, 8]) {
            0 => list_operation(r, &vault.image),
            1 => Call::Begin,
            2 => Call::Commit,
            3 => Call::Rollback,
            _ => Call::Undo,
        };
        let mut after = vault.clone();
        let answer = after.call(&call, &mut operate);
        if fits(&call) && (answer.number == 0 || r.percent(10)) {
            reached.count(&vault, &after, &call, &answer);
            calls.push(call);
            vault = after;
        }
    }
    List { start, calls }
}

/// An image or a journal of a wrong length: 30 and 31, whatever else is wrong.
pub fn wrong_length(r: &mut Random, image_length: usize, journal_length: usize) -> List {
    let mut image = generate::image(r);
    let operation =
        |r: &mut Random, operation: u8| Call::Operation { record: generate::record(r, &image, operation), events: vec![9; 896] };
    let short = Call::Operation { record: Vec::new(), events: Vec::new() };
    let calls = vec![operation(r, 24), operation(r, 2), short, Call::Begin, Call::Commit, Call::Rollback, Call::Undo];
    image.resize(image_length, 0);
    List { start: Vault { image, journal: vec![0; journal_length] }, calls }
}

/// Few lists that together reach all.
fn lists(seed: u64) -> Vec<List> {
    let mut reached = Reached::nothing();
    let mut lists = Vec::new();
    for n in 0..LONG_LISTS {
        lists.push(long_list(&mut Random::of(seed, n), &mut reached));
    }
    for (image, journal) in [(0, 0), (LENGTH - 1, 48), (LENGTH + 1, 48), (LENGTH, 0), (LENGTH, 47), (LENGTH, 48_048)] {
        lists.push(wrong_length(&mut Random::of(seed, 0), image, journal));
    }
    let mut n = LONG_LISTS;
    for (least, tried) in LEAST {
        for _ in 0..tried {
            if reached.missing().is_empty() {
                return lists;
            }
            let mut trial = Reached { table: reached.table.clone(), situations: reached.situations.clone() };
            let list = new_list(&mut Random::of(seed, n), &mut trial);
            n += 1;
            let room = list.start.image.len() <= MOST_IMAGE && list.start.journal.len() <= MOST_JOURNAL;
            if room && list.calls.len() >= least {
                lists.push(list);
                reached = trial;
            }
        }
    }
    panic!("not reached: {}", reached.missing().join(", "))
}

fn kind(call: &Call) -> u8 {
    match call {
        Call::Operation { .. } => 0,
        Call::Begin => 1,
        Call::Commit => 2,
        Call::Rollback => 3,
        Call::Undo => 4,
        Call::Preview { .. } => 5,
    }
}

fn write_call(bytes: &mut Vec<u8>, call: &Call) {
    let (record, events): (&[u8], &[u8]) = match call {
        Call::Operation { record, events } | Call::Preview { record, events } => (record, events),
        _ => (&[], &[]),
    };
    bytes.extend([kind(call), events.first().copied().unwrap_or(0)]);
    bytes.extend((record.len() as u16).to_le_bytes());
    bytes.extend((events.len() as u16).to_le_bytes());
    bytes.extend([0; 2]);
    bytes.extend(record);
}

/// The part of a line that the program prints too.
pub fn answer_text(answer: &Answer) -> String {
    format!("answer={} value={} events={}", answer.number, answer.value, answer.count)
}

fn line(answer: &Answer, vault: &Vault) -> String {
    format!(
        "{} event_bytes={} image={} journal={}\n",
        answer_text(answer),
        sha256::hex(&answer.events),
        sha256::hex(&vault.image),
        sha256::hex(&vault.journal)
    )
}

/// The lists in the order of docs/VECTORS.md.
fn all(seed: u64) -> Vec<List> {
    let mut all = lists(seed);
    all.extend(directed::lists());
    all.extend(bad_images::lists());
    all.extend(bad_journals::lists());
    all.extend(fields::lists());
    all.extend(cases::lists());
    all.extend(previews::lists(seed));
    all.extend(trial::lists());
    all
}

/// Writes the calls to `stdin` and the answers to `stdout` in a folder, and lines of toll bounds, which are those of any seed.
pub fn write(folder: &Path, seed: u64) -> io::Result<()> {
    let (mut bytes, mut lines, mut calls) = (Vec::new(), String::new(), 0);
    let lists = all(seed);
    for list in &lists {
        let mut vault = list.start.clone();
        for n in [vault.image.len(), vault.journal.len(), list.calls.len(), 0] {
            bytes.extend((n as u32).to_le_bytes());
        }
        bytes.extend(&vault.image);
        bytes.extend(&vault.journal);
        for call in &list.calls {
            let answer = vault.call(&copy(call), &mut operate);
            write_call(&mut bytes, call);
            lines.push_str(&line(&answer, &vault));
            calls += 1;
        }
    }
    std::fs::create_dir_all(folder)?;
    std::fs::write(folder.join("stdin"), &bytes)?;
    std::fs::write(folder.join("stdout"), &lines)?;
    let bounds = tolls_cases::lines().map_err(io::Error::other)?;
    std::fs::write(folder.join("toll_bounds.txt"), tolls_cases::file(&bounds))?;
    println!("vectors: {} lists, {calls} calls, {} bytes; {} lines of toll bounds", lists.len(), bytes.len(), bounds.len());
    Ok(())
}
