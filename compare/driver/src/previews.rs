//! Vectors of previews: each number that the preview of an operation can answer, previews beside calls in full journals and at journals
//! and images that are not good, and between random calls.
use crate::change::Change::{self, Amount, Caller, Flag, Other};
use crate::change::{accepted, changes, MOST, OPERATOR};
use crate::compare::{copy, operate, preview_of};
use crate::directed::call;
use crate::start_image::{plain, uninitialised};
use crate::table::Table;
use crate::vectors::{long_list, wrong_length, List, Reached};
use crate::{bad_journals, fields};
use model::image::LENGTH;
use model::random::Random;
use model::record::{self, is_view, EVENTS, OPERATIONS};
use model::vault::{Call, Vault};

/// The random numbers of these lists stand apart from those of the lists before them.
const PREVIEWS: u64 = 1 << 35;

/// So many cells can the calls to a state and one behind them change.
const ROOM: usize = 40;

/// An operation's accepted record, with some fields changed.
fn with(operation: u8, changes: &[Change]) -> Call {
    let mut record = accepted(operation);
    changes.iter().for_each(|change| change.apply(&mut record));
    call(record)
}

/// Calls that bring the plain image to a state: as it is, paused, with a default token that is not approved, a holding of the vault that
/// is almost the most, the vault as its own operator, a default token that is frozen, no migration, a proposal that ends too late.
fn plain_states() -> Vec<Vec<Call>> {
    vec![
        vec![],
        vec![with(18, &[])],
        vec![with(20, &[Flag(0)])],
        vec![with(29, &[Caller(7), Other(1), Amount(MOST - 102)]), with(11, &[Amount(MOST)])],
        vec![with(13, &[Other(1)])],
        vec![with(30, &[])],
        vec![with(23, &[])],
        vec![with(17, &[Amount(-1)])],
    ]
}

/// The same of the uninitialised image: as it is, and initialised with an operator that has no limit.
fn uninitialised_states() -> Vec<Vec<Call>> {
    vec![vec![], vec![with(1, &[]), with(13, &[Other(OPERATOR)])]]
}

/// Each operation's accepted record and each change of a field of it; then records and event buffers of wrong form and length.
fn tried() -> Vec<Call> {
    let mut calls = Vec::new();
    for operation in 1..=OPERATIONS {
        calls.push(with(operation, &[]));
        calls.extend(changes(operation).into_iter().map(|change| with(operation, &[change])));
    }
    calls.extend(fields::tried());
    calls.extend(wrong_lengths());
    calls
}

/// The list of one image, with a transaction for each state, which is rolled back: in it the previews that show a pair of operation and
/// number which the table does not have. What is accepted is called behind its preview, and undone.
fn pairs(image: Vec<u8>, states: Vec<Vec<Call>>, table: &mut Table) -> List {
    let start = Vault { image, journal: vec![0; 24 * (1 + ROOM)] };
    let tried = tried();
    let mut calls = Vec::new();
    for steps in states {
        let mut vault = start.clone();
        for call in [Call::Begin].into_iter().chain(steps) {
            assert_eq!(vault.call(&call, &mut operate).number, 0, "a step to a state");
            calls.push(call);
        }
        for call in &tried {
            let Call::Operation { record, events } = call else { continue };
            let number = vault.preview(record, events, &mut operate).number;
            if table.is_new(call, number) {
                table.count(call, number);
                calls.extend(preview_of(call));
                if number == 0 {
                    calls.extend(called_and_undone(call));
                }
            }
        }
        calls.push(Call::Rollback);
    }
    List { start, calls }
}

fn called_and_undone(call: &Call) -> Vec<Call> {
    match call {
        Call::Operation { record, .. } if is_view(record[0]) => vec![copy(call)],
        _ => vec![copy(call), Call::Undo],
    }
}

/// Each operation with a record and with an event buffer of one byte more or less.
fn wrong_lengths() -> Vec<Call> {
    let mut calls = Vec::new();
    for operation in 1..=OPERATIONS {
        let more = 2 * (operation as usize % 2);
        let mut record = accepted(operation);
        calls.push(Call::Operation { record: record.clone(), events: vec![9; EVENTS - 1 + more] });
        record.resize(record.len() - 1 + more, 0);
        calls.push(call(record));
    }
    calls
}

/// Each operation behind its preview.
fn previewed(list: List) -> List {
    let both = |call: Call| preview_of(&call).into_iter().chain([call]);
    List { start: list.start, calls: list.calls.into_iter().flat_map(both).collect() }
}

/// In full journals a preview is done where the call answers 34. In the last of them the image is not good after a rollback: each
/// operation is previewed there once more.
fn full_journals() -> Vec<List> {
    let start = |journal: Vec<u8>| Vault { image: plain(), journal };
    let mut lists: Vec<List> =
        bad_journals::full().into_iter().map(|(journal, calls)| previewed(List { start: start(journal), calls })).collect();
    let last = lists.last_mut().expect("a last list");
    let mut tried: Vec<Call> = (1..=OPERATIONS).map(|operation| with(operation, &[])).collect();
    tried.extend(fields::lengths());
    tried.push(call(vec![0; record::LENGTH]));
    last.calls.extend(tried.iter().filter_map(preview_of));
    lists
}

/// At journals that are not good, by their length, their head and an entry, a preview answers as ever and the call 31.
fn at_bad_journals() -> Vec<List> {
    let calls = || [vec![with(2, &[]), with(2, &[Amount(0)]), with(24, &[])], fields::lengths()].into_iter().flatten().collect();
    let list = |journal: Vec<u8>| previewed(List { start: Vault { image: plain(), journal }, calls: calls() });
    bad_journals::bad().into_iter().step_by(7).map(list).collect()
}

/// Random calls with transactions. Half of the operations are previewed first; and now and then there is a preview of another record.
fn between_random_calls(seed: u64) -> List {
    let r = &mut Random::of(seed, PREVIEWS);
    let list = long_list(r, &mut Reached::nothing());
    let others: Vec<Call> = list.calls.iter().filter_map(preview_of).collect();
    let mut calls = Vec::new();
    for call in list.calls {
        if r.percent(25) {
            calls.push(copy(&others[r.index(others.len())]));
        }
        calls.extend(preview_of(&call).filter(|_| r.percent(50)));
        calls.push(call);
    }
    List { start: list.start, calls }
}

/// The lists of previews, which together reach each pair.
pub fn lists(seed: u64) -> Vec<List> {
    let mut table = Table::of_previews();
    let mut lists = vec![pairs(plain(), plain_states(), &mut table), pairs(uninitialised(), uninitialised_states(), &mut table)];
    lists.extend(full_journals());
    lists.extend(at_bad_journals());
    for (image, journal) in [(0, 0), (LENGTH + 1, 48)] {
        lists.push(previewed(wrong_length(&mut Random::of(seed, PREVIEWS), image, journal)));
    }
    lists.push(between_random_calls(seed));
    let mut table = Table::of_previews();
    lists.iter().for_each(|list| count(&mut table, list));
    let wrong = [table.missing(), table.unexpected()].concat();
    assert!(wrong.is_empty(), "not reached, or not in docs/FORMATS.md: {}", wrong.join(", "));
    lists
}

fn count(table: &mut Table, list: &List) {
    let mut vault = list.start.clone();
    for call in &list.calls {
        let number = vault.call(call, &mut operate).number;
        if matches!(call, Call::Preview { .. }) {
            table.count(call, number);
        }
    }
}
