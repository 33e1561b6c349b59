//! The texts of `vault --help` and `vault COMMAND --help`.
use crate::calls::Transaction;
use crate::explain::what_it_does;
use crate::fields::{read_by, Field, Read};
use crate::table::Table;
use crate::toll_bounds;
use token_vault::Operation;

pub const ALL: &str = "\
vault keeps a token vault in a file, its image, and makes calls on it.

  vault new IMAGE --token TOKEN ...   makes an image
  vault call IMAGE OPERATION ...      makes one call
  vault preview IMAGE OPERATION ...   shows what a call would answer
  vault toll-bounds IMAGE TOKEN ...   shows what will be held, at least and at most
  vault run IMAGE FILE                makes the calls of a file, one a line
  vault show IMAGE                    shows what an image holds
  vault explain [WORD]                explains a refusal or an operation
  vault vectors [CALLS [ANSWERS]]     compares the library with stored answers
  vault COMMAND --help                says more
  vault --version

Addresses are numbers from 0 to 63: 0 is nobody, 1 the vault, and 48 to 63 may be
tokens. Amounts are whole numbers, which may have a sign and underscores (1_000).
The formats of the files are in docs/FORMATS.md.

Exit status: 0 done; 1 refused by the vault, or vectors differ; 2 bad usage or bad
input; 3 a file could not be read or written.
";

const NEW: &str = "\
vault new IMAGE --token TOKEN[:toll=AMOUNT] ... [--holding TOKEN:ACCOUNT=AMOUNT ...] [--force]

Makes an image of a vault that is not initialised. Each --token is there and moves; of
each transfer it keeps its toll. Each --holding is what an account holds of a token at
the start. A file that is there is replaced only with --force.

  vault new my.image --token 48 --token 49:toll=5 --holding 48:2=2_000
";

const CALL: &str = "\
vault call IMAGE OPERATION [OPTION ...] [--journal FILE [--entries NUMBER]]

Makes one call on an image, prints its answer and its events, and writes the image.
An option that the operation does not read is an error. --time and --sequence are 0
where they are not given, and --signers is the caller, for batch_deposit those who pay
in. --signers is a list (2,3) or none. --item can be given up to 16 times.
vault explain OPERATION says what each option is.

  vault call my.image deposit --from 2 --amount 100

With --journal calls can be undone: begin opens a transaction, undo takes back its last
call, rollback all of them, and commit keeps them. begin makes the journal where the
file is not there, with 2,000 entries or as many as --entries says. While a transaction
is open every call has to name the journal: a call without it cannot be undone.

Files are replaced whole, so that a crash leaves the old one or the new one. Where image
and journal both change, the new journal is first written beside the old one, then the
image is replaced, which is when the call counts, and then the journal. After a crash in
between, the next command that names both tells it by the image: it puts the journal in
place where the call was done, drops it where it was not, and says so.
Commands on images of one folder wait for each other.
";

const PREVIEW: &str = "\
vault preview IMAGE OPERATION [OPTION ...]

Prints the answer and the events that vault call would give with no journal, ends with
the same exit status, and writes nothing. Operations and options are those of vault call
(vault call --help); begin, commit, rollback and undo have no preview.

  vault preview my.image withdraw --caller 2 --to 4 --amount 40

There is no --journal, as a preview neither reads nor fills one. The same call, made next,
gives the previewed answer, while a transaction is open too, unless the journal is not good
(31) or has no room for the call (34).
";

const TOLL_BOUNDS: &str = "\
vault toll-bounds IMAGE TOKEN LEAST GREATEST [AMOUNT ...]

For amounts that are still to be moved into the vault, up to 16, and a toll from LEAST to
GREATEST: prints what the vault will hold of the token then, at least and at most. Of each
amount the vault gets what is left after the toll, never below 0. The toll that the token
has in the image plays no part, and nothing is written.

  vault toll-bounds my.image 48 2 6 10 5 1

A refusal is printed as by vault call, with the same exit status; vault explain toll-bounds
lists them.
";

const SHOW: &str = "\
vault show IMAGE [--journal FILE]

Shows settings, handover, migration, tokens, balances and tracked keys of an image, and
the entries of a journal: for each the call, the cell (16 bytes of the image), what it
held before the call, and what stands there. An image or a journal that is not good is
refused (30, 31), with exit status 1.
";

const RUN: &str = "\
vault run IMAGE FILE [--journal FILE [--entries NUMBER]] [--stop-at-refusal]

Makes the calls of a file. A line is a call as it stands after IMAGE in vault call, such
as deposit --from 2 --amount 100; blank lines and lines that begin with # are passed over.
The whole file is read first: where a line is malformed nothing is run. A refused call
does not end the run, unless with --stop-at-refusal, and then the exit status is 1. Image
and journal are written once, at the end. A journal that is not there is made, where the
file has a begin.
";

const EXPLAIN: &str = "\
vault explain [NUMBER | NAME | OPERATION | toll-bounds]

Explains a refusal, by its number or name, an operation, or toll-bounds: its options and
what it is refused for, in the order in which it is tested. With no word: all refusals.
";

const VECTORS: &str = "\
vault vectors [CALLS [ANSWERS]]
vault vectors [CALLS] --write FILE

Makes the calls of a file of vectors (docs/VECTORS.md) and compares the library's answers
with the stored ones. CALLS is crates/token_vault_vectors/stdin where it is not given,
and ANSWERS the file stdout beside it. The first call that differs is shown, with what
is stored and what the library gives, and the exit status is 1. --write writes the
library's answers to a file instead.
";

/// The text for a command.
pub fn of(command: &str) -> String {
    match command {
        "new" => NEW.to_string(),
        "call" => format!("{CALL}\nOperations and their options:\n\n{}", operations()),
        "preview" => PREVIEW.to_string(),
        toll_bounds::NAME => TOLL_BOUNDS.to_string(),
        "show" => SHOW.to_string(),
        "run" => RUN.to_string(),
        "explain" => EXPLAIN.to_string(),
        "vectors" => VECTORS.to_string(),
        _ => ALL.to_string(),
    }
}

/// A line or two for each operation.
fn operations() -> String {
    let mut text = String::new();
    for operation in Operation::ALL {
        text.push_str(&format!("  {}: {}\n", operation.name(), what_it_does(operation)));
        let options: Vec<String> = read_by(operation).iter().map(usage).collect();
        if !options.is_empty() {
            text.push_str(&format!("      {}\n", options.join(" ")));
        }
    }
    let mut transactions = Table::pairs();
    transactions.pair(Transaction::Begin.name(), "--journal FILE [--entries NUMBER]");
    for transaction in &Transaction::ALL[1..] {
        transactions.pair(transaction.name(), "--journal FILE");
    }
    text + &transactions.lines().join("\n") + "\n"
}

/// `--caller|--from ADDRESS`, in brackets where it may be missing.
fn usage(read: &Read) -> String {
    let names: Vec<String> = read.names.iter().map(|name| format!("--{name}")).collect();
    let option = format!("{} {}", names.join("|"), read.field.value());
    match read.field {
        Field::Items => format!("[{option} ...]"),
        field if field.is_needed() => option,
        _ => format!("[{option}]"),
    }
}
