//! What is printed where the vault and the Rust side differ, or where cases are missing.
use crate::scenario::Failure;
use crate::{compare, table};
use model::vault::Call;

/// That a comparison met each of these kinds of cases.
pub fn all_met<'a>(of: &str, mut kinds: impl Iterator<Item = (&'a str, u64)>) -> Result<(), String> {
    match kinds.find(|(_, times)| *times == 0) {
        Some((kind, _)) => Err(format!("{of}, no case {kind}")),
        None => Ok(()),
    }
}

fn hex(bytes: &[u8]) -> String {
    bytes.iter().map(|b| format!("{b:02x}")).collect()
}

/// The cells that are not zero, or in which two lists differ.
fn cells(bytes: &[u8], other: Option<&[u8]>) {
    for (i, cell) in bytes.chunks(16).enumerate() {
        let beside = other.map(|o| &o[(16 * i).min(o.len())..(16 * i + 16).min(o.len())]);
        match beside {
            Some(o) if o != cell => println!("  {:5}  vault {}  rust {}", 16 * i, hex(cell), hex(o)),
            None if cell.iter().any(|b| *b != 0) => println!("  {:5}  {}", 16 * i, hex(cell)),
            _ => {}
        }
    }
}

pub fn difference(seed: u64, f: &Failure) {
    let d = &f.difference;
    println!("DIFFERENCE in {}: seed {seed}, scenario {}, call {}", d.what, f.scenario, f.call_number);
    println!("again with: driver --seed {seed} --scenario {}", f.scenario);
    print_call(&f.call);
    println!("with a journal: {}", f.with_journal);
    if f.before.image.is_empty() {
        println!("below, \"rust\" is the second vault, which got the kept list");
    }
    if d.what == compare::AFTER_PREVIEW {
        println!("below, the answer of \"rust\" is that of the vault's preview");
    }
    for (name, a) in [("vault", &d.vault_answer), ("rust ", &d.rust_answer)] {
        println!("{name} number {} value {} count {}", a.number, a.value, a.count);
    }
    println!("event bytes that differ:");
    cells(&d.vault_answer.events, Some(&d.rust_answer.events));
    println!("image bytes that differ:");
    cells(&d.vault.image, Some(&d.rust.image));
    println!("journal bytes that differ:");
    cells(&d.vault.journal, Some(&d.rust.journal));
    println!("image before:");
    cells(&f.before.image, None);
    println!("journal before ({} bytes):", f.before.journal.len());
    cells(&f.before.journal, None);
    if f.before.image.is_empty() {
        return;
    }
    let (start, call) = compare::shrink(&f.before, &f.call, f.with_journal, &d.what, None);
    println!("A smaller input with a difference in {}:", d.what);
    print_call(&call);
    println!("image before:");
    cells(&start.image, None);
}

fn print_call(call: &Call) {
    match call {
        Call::Operation { record, events } | Call::Preview { record, events } => {
            let of = if matches!(call, Call::Preview { .. }) { "preview of " } else { "" };
            println!("{of}operation {:?}, record of {} bytes:", record.first(), record.len());
            for (i, row) in record.chunks(32).enumerate() {
                println!("  {:4}  {}", 32 * i, hex(row));
            }
            println!("event buffer of {} bytes", events.len());
        }
        other => println!("{}", table::Table::name(other)),
    }
}
