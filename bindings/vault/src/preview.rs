//! `vault preview`: the answer that a call would get, with nothing written.
use crate::arguments::Arguments;
use crate::call::print_answer;
use crate::calls::{read_operation, Answer, Transaction};
use crate::failure::{End, Failure};
use crate::files::{Files, Missing};
use std::io::Write;

pub fn command(mut arguments: Arguments, out: &mut dyn Write) -> Result<End, Failure> {
    let words = arguments.words("preview", &["IMAGE", "OPERATION"], 2)?;
    if Transaction::from_name(&words[1]).is_some() {
        return Err(Failure::Usage(format!("{} has no preview: it is a call on the journal (vault preview --help)", words[1])));
    }
    if arguments.options().iter().any(|given| given.name == "journal") {
        return Err(Failure::Usage("preview takes no --journal: it neither reads nor fills one (vault preview --help)".to_string()));
    }
    let (operation, record) = read_operation(&words[1], &mut arguments)?;
    let (_, vault) = Files::open(&words[0], None, Missing::Fails)?;
    print_answer(&Answer::of(operation, vault.image.preview(&record)), out)
}
