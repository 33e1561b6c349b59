//! `vault run`: a file of calls, one a line.
use crate::arguments::Arguments;
use crate::call::{entries, print_events};
use crate::calls::{Call, Transaction, Vault};
use crate::failure::{End, Failure};
use crate::files::{self, Files, Missing, MOST_TEXT};
use crate::numbers::counted;
use std::io::{self, IsTerminal, Write};

/// Above so many calls progress is shown, where standard error is a terminal and the answers do not go there too.
const MANY_CALLS: usize = 10_000;

/// A call as it is written, and where it stands in the file. It is read once to find what is wrong, and again when it is made:
/// a record is far longer than its line.
struct Line<'a> {
    number: usize,
    text: &'a str,
}

pub fn command(mut arguments: Arguments, out: &mut dyn Write) -> Result<End, Failure> {
    let journal = arguments.take_value("journal")?;
    let entries = entries(&mut arguments, journal.as_deref())?;
    let stops = arguments.take_switch("stop-at-refusal");
    arguments.nothing_left("run")?;
    let words = arguments.words("run", &["IMAGE", "FILE"], 2)?;
    let bytes = files::read(&words[1], MOST_TEXT)?;
    let lines = read_lines(&words[1], &bytes, journal.is_some())?;
    let has_begin = lines.iter().any(|line| line.text.split_whitespace().next() == Some(Transaction::Begin.name()));
    let missing = if has_begin { Missing::IsMade(entries) } else { Missing::Fails };
    let (files, mut vault) = Files::open(&words[0], journal.as_deref(), missing)?;
    let count = make_all(&lines, &mut vault, stops, out).map_err(unheard)?;
    if count.done > 0 {
        files.store(&vault)?;
    }
    summary(&lines, &count, out)
}

/// Answers that nobody gets are not stored either.
fn unheard(failure: Failure) -> Failure {
    match failure {
        Failure::Output(error) => Failure::File(format!("standard output: {error}; image and journal are as they were")),
        other => other,
    }
}

/// The calls of a file. Nothing is run where one of them is malformed.
fn read_lines<'a>(path: &str, bytes: &'a [u8], has_journal: bool) -> Result<Vec<Line<'a>>, String> {
    let mut lines = Vec::new();
    for (i, line) in bytes.split(|byte| *byte == b'\n').enumerate() {
        let number = i + 1;
        let text = std::str::from_utf8(line).map_err(|_| format!("{path}:{number}: the line is not text (UTF-8)"))?.trim();
        if text.is_empty() || text.starts_with('#') {
            continue;
        }
        let call = read_call(text).and_then(|call| match call.is_transaction() && !has_journal {
            true => Err(format!("{text} needs --journal on the command line of vault run")),
            false => Ok(call),
        });
        call.map_err(|what| format!("{path}:{number}: {what}"))?;
        lines.push(Line { number, text });
    }
    Ok(lines)
}

fn read_call(text: &str) -> Result<Call, String> {
    let mut arguments = Arguments::split(text.split_whitespace())?;
    for name in ["journal", "entries"] {
        if arguments.options().iter().any(|given| given.name == name) {
            return Err(format!("--{name} stands on the command line of vault run, once for all calls"));
        }
    }
    let words = arguments.words("the call", &["an operation"], 1)?;
    Call::read(&words[0], &mut arguments)
}

#[derive(Default)]
struct Count {
    done: usize,
    refused: usize,
    stopped_at: Option<usize>,
}

fn make_all(lines: &[Line], vault: &mut Vault, stops: bool, out: &mut dyn Write) -> Result<Count, Failure> {
    let mut progress = Progress::new(lines.len());
    let mut count = Count::default();
    for (i, line) in lines.iter().enumerate() {
        progress.show(i);
        let answer = vault.make(&read_call(line.text)?);
        writeln!(out, "{}: {} -> {answer}", line.number, line.text)?;
        print_events(&answer, out)?;
        if answer.is_done() {
            count.done += 1;
            continue;
        }
        count.refused += 1;
        if stops {
            count.stopped_at = Some(line.number);
            break;
        }
    }
    out.flush()?;
    Ok(count)
}

fn summary(lines: &[Line], count: &Count, out: &mut dyn Write) -> Result<End, Failure> {
    let made = count.done + count.refused;
    writeln!(out, "{}, {} done, {} refused", counted(made, "call"), count.done, count.refused)?;
    match count.stopped_at {
        Some(number) => {
            writeln!(out, "stopped at line {number}, {} not made", counted(lines.len() - made, "call"))?;
            Ok(End::Refused)
        }
        None => Ok(End::Done),
    }
}

/// A line on standard error that counts.
struct Progress {
    calls: usize,
    is_shown: bool,
}

impl Progress {
    fn new(calls: usize) -> Progress {
        let is_shown = calls > MANY_CALLS && io::stderr().is_terminal() && !io::stdout().is_terminal();
        Progress { calls, is_shown }
    }

    fn show(&mut self, made: usize) {
        if self.is_shown && made.is_multiple_of(1_000) {
            let _ = write!(io::stderr(), "\rvault: {made} of {} calls", self.calls);
        }
    }
}

impl Drop for Progress {
    fn drop(&mut self) {
        if self.is_shown {
            let _ = write!(io::stderr(), "\r\x1b[K");
        }
    }
}
