//! `vault call`: one call on an image, and on its journal where one is named.
use crate::arguments::Arguments;
use crate::calls::{Answer, Call, Transaction};
use crate::failure::{End, Failure};
use crate::files::{Files, Missing};
use crate::numbers;
use std::io::Write;
use std::path::Path;
use token_vault::layout::JOURNAL_ENTRIES_MAX;

pub fn command(mut arguments: Arguments, out: &mut dyn Write) -> Result<End, Failure> {
    let words = arguments.words("call", &["IMAGE", "OPERATION"], 2)?;
    let journal = arguments.take_value("journal")?;
    let missing = match words[1] == Transaction::Begin.name() {
        true => Missing::IsMade(entries(&mut arguments, journal.as_deref())?),
        false => Missing::Fails,
    };
    let call = Call::read(&words[1], &mut arguments)?;
    if call.is_transaction() && journal.is_none() {
        return Err(Failure::Usage(format!("{} needs --journal", words[1])));
    }
    let (files, mut vault) = Files::open(&words[0], journal.as_deref(), missing)?;
    let answer = vault.make(&call);
    if answer.is_done() {
        files.store(&vault)?;
    }
    print_answer(&answer, out)
}

/// How many entries a journal gets that is made because its file is not there.
pub fn entries(arguments: &mut Arguments, journal: Option<&str>) -> Result<usize, Failure> {
    let Some(given) = arguments.take(&["entries"])? else {
        return Ok(JOURNAL_ENTRIES_MAX);
    };
    let entries = given.read(numbers::entries)?;
    match journal {
        Some(path) if Path::new(path).exists() => {
            Err(Failure::Usage(format!("--entries is for a journal that is new, and {path} is there already")))
        }
        _ => Ok(entries),
    }
}

pub fn print_answer(answer: &Answer, out: &mut dyn Write) -> Result<End, Failure> {
    writeln!(out, "{answer}")?;
    print_events(answer, out)?;
    Ok(if answer.is_done() { End::Done } else { End::Refused })
}

pub fn print_events(answer: &Answer, out: &mut dyn Write) -> Result<(), Failure> {
    for event in answer.events() {
        writeln!(out, "  {event}")?;
    }
    Ok(())
}
