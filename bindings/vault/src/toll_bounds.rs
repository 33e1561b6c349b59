//! `vault toll-bounds`: what the vault will hold of a token whose toll is known only within bounds.
use crate::arguments::Arguments;
use crate::call::print_answer;
use crate::calls::Answer;
use crate::failure::{End, Failure};
use crate::files::{Files, Missing};
use crate::numbers;
use std::io::Write;

/// The name of the command.
pub const NAME: &str = "toll-bounds";

pub fn command(arguments: Arguments, out: &mut dyn Write) -> Result<End, Failure> {
    arguments.nothing_left(NAME)?;
    let words = arguments.at_least(NAME, &["IMAGE", "TOKEN", "LEAST", "GREATEST"])?;
    let token = read("TOKEN", &words[1], numbers::address)?;
    let tolls = read("LEAST", &words[2], numbers::amount)?..=read("GREATEST", &words[3], numbers::amount)?;
    let amounts: Vec<i128> = words[4..].iter().map(|word| read("AMOUNT", word, numbers::amount)).collect::<Result<_, _>>()?;
    let (_, vault) = Files::open(&words[0], None, Missing::Fails)?;
    match vault.image.toll_bounds(token, &amounts, tolls) {
        Ok(holdings) => {
            writeln!(out, "least {}\ngreatest {}", holdings.start(), holdings.end())?;
            Ok(End::Done)
        }
        Err(refusal) => print_answer(&Answer::Refused(refusal), out),
    }
}

/// A word, read; what is wrong with it stands after the word's name.
fn read<T>(name: &str, word: &str, parse: fn(&str) -> Result<T, String>) -> Result<T, String> {
    parse(word).map_err(|what| format!("{name}: {what}"))
}
