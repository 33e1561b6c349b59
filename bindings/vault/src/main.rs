//! The token vault on the command line: images, calls, previews, transactions, toll bounds and vectors. `vault --help` says more.
#![forbid(unsafe_code)]

mod arguments;
mod call;
mod calls;
mod causes;
mod describe;
mod explain;
mod failure;
mod fields;
mod files;
mod help;
mod new;
mod numbers;
mod places;
mod preview;
mod replay;
mod run;
mod show;
mod table;
mod times;
mod toll_bounds;
mod vectors;

use arguments::Arguments;
use failure::{End, Failure};
use std::io::{self, BufWriter, Write};
use std::process::ExitCode;

type Command = fn(Arguments, &mut dyn Write) -> Result<End, Failure>;

const COMMANDS: [(&str, Command); 8] = [
    ("new", new::command),
    ("call", call::command),
    ("preview", preview::command),
    (toll_bounds::NAME, toll_bounds::command),
    ("show", show::command),
    ("run", run::command),
    ("explain", explain::command),
    ("vectors", replay::command),
];

fn main() -> ExitCode {
    let mut out = BufWriter::new(io::stdout());
    let end = vault(&mut out).and_then(|end| out.flush().map(|()| end).map_err(Failure::Output));
    match end {
        Ok(End::Done) => ExitCode::SUCCESS,
        Ok(End::Refused) => ExitCode::from(1),
        Err(failure) => {
            // What was answered before the failure comes first; where it cannot be written the failure still counts.
            let _ = out.flush();
            if let Some(text) = failure.text() {
                let _ = writeln!(io::stderr(), "vault: {text}");
            }
            ExitCode::from(failure.status())
        }
    }
}

fn vault(out: &mut dyn Write) -> Result<End, Failure> {
    let words: Result<Vec<String>, _> = std::env::args_os().skip(1).map(|word| word.into_string()).collect();
    let words = words.map_err(|word| format!("{word:?} is not text (UTF-8)"))?;
    let Some((name, rest)) = words.split_first() else {
        return Err(Failure::Usage("there is no command (vault --help lists them)".to_string()));
    };
    match name.as_str() {
        "--version" | "-V" => return print(&format!("vault {}\n", env!("CARGO_PKG_VERSION")), out),
        "--help" | "-h" => return print(help::ALL, out),
        _ => {}
    }
    let found = COMMANDS.iter().find(|(command, _)| command == name);
    let (_, command) = found.ok_or(format!("there is no command '{name}' (vault --help lists them)"))?;
    if rest.iter().any(|word| word == "--help" || word == "-h") {
        return print(&help::of(name), out);
    }
    command(Arguments::split(rest.iter().map(String::as_str))?, out)
}

fn print(text: &str, out: &mut dyn Write) -> Result<End, Failure> {
    out.write_all(text.as_bytes())?;
    Ok(End::Done)
}
