//! Vectors of journals: for each rule of a good journal one that breaks it alone, and journals that are full.
use crate::change::{accepted, Change, OPERATOR};
use crate::directed::call;
use crate::start_image::plain;
use crate::vectors::List;
use model::bytes::{put, put_amount};
use model::image::{holding_at, CELL, CELLS};
use model::journal::{good, ENTRY, MOST_CALLS};
use model::vault::{Call, Vault};

/// A cell that any amount above 0 may stand in: what address 20 holds of token 48.
fn free_cell() -> u16 {
    (holding_at(48, 20) / CELL) as u16
}

/// An open journal with so many calls, entries of a cell and a call number, and a number of empty places.
fn journal(calls: usize, entries: &[(u16, u16)], places: usize) -> Vec<u8> {
    let mut journal = vec![0; ENTRY * (1 + entries.len() + places)];
    journal[0] = 1;
    put(&mut journal, 2, &(calls as u16).to_le_bytes());
    put(&mut journal, 4, &(entries.len() as u16).to_le_bytes());
    for (i, (cell, number)) in entries.iter().enumerate() {
        let at = ENTRY * (1 + i);
        put(&mut journal, at, &cell.to_le_bytes());
        put(&mut journal, at + 2, &number.to_le_bytes());
        put_amount(&mut journal, at + 8, 1 + i as i128);
    }
    journal
}

fn with(change: fn(&mut Vec<u8>)) -> Vec<u8> {
    let mut bytes = journal(2, &[(free_cell(), 1), (free_cell(), 2)], 1);
    change(&mut bytes);
    bytes
}

pub fn bad() -> Vec<Vec<u8>> {
    let (cell, next) = (free_cell(), free_cell() + 1);
    vec![
        vec![0; ENTRY],
        vec![0; 3 * ENTRY - 1],
        with(|j| j[0] = 0),
        with(|j| j[0] = 2),
        with(|j| j[1] = 1),
        with(|j| j[6] = 1),
        with(|j| j[23] = 1),
        journal(MOST_CALLS + 1, &[], 1),
        with(|j| j[4] = 4),
        with(|j| j[4] = 1),
        journal(2, &[(cell, 0)], 1),
        journal(2, &[(cell, 3)], 1),
        journal(2, &[(CELLS as u16, 1)], 1),
        with(|j| j[ENTRY + 4] = 1),
        with(|j| j[2 * ENTRY + 7] = 1),
        journal(2, &[(cell, 2), (next, 1)], 1),
        journal(2, &[(cell, 1), (cell, 1)], 1),
        journal(2, &[(next, 1), (cell, 1)], 1),
        with(|j| j[3 * ENTRY] = 1),
        with(|j| *j.last_mut().expect("a last byte") = 1),
    ]
}

/// Sets the operator that is set: changes no cell.
fn no_change() -> Call {
    let mut record = accepted(13);
    Change::Other(OPERATOR).apply(&mut record);
    call(record)
}

/// Sets the operator limit: changes one cell.
fn one_cell() -> Call {
    let mut record = accepted(10);
    Change::Amount(51).apply(&mut record);
    call(record)
}

fn view() -> Call {
    call(accepted(24))
}

/// All calls used, or all entries; calls without entries; old bytes of which an image comes that is not good.
pub fn full() -> Vec<(Vec<u8>, Vec<Call>)> {
    let cell = free_cell();
    let last = CELLS as u16 - 1;
    let counted = vec![no_change(), one_cell(), view(), Call::Begin, Call::Undo, no_change(), no_change(), Call::Undo, one_cell()];
    let entered =
        vec![one_cell(), no_change(), view(), Call::Undo, Call::Undo, one_cell(), Call::Undo, Call::Undo, Call::Undo, Call::Rollback];
    let spoilt = vec![view(), one_cell(), Call::Rollback, view(), Call::Begin];
    let mut before_the_first = journal(1, &[(0, 1)], 2);
    before_the_first[ENTRY + 8] = 64;
    let many: Vec<(u16, u16)> = (701..=MOST_CALLS as u16).map(|number| (cell, number)).collect();
    vec![
        (journal(MOST_CALLS, &many, 1), counted),
        (journal(5, &[(cell, 1), (cell, 2), (last - 1023, 4)], 0), entered),
        (before_the_first, spoilt),
    ]
}

pub fn lists() -> Vec<List> {
    let start = |journal: Vec<u8>| Vault { image: plain(), journal };
    let mut lists = Vec::new();
    for (n, journal) in bad().into_iter().enumerate() {
        assert!(!good(&journal), "journal {n} breaks no rule");
        lists.push(List { start: start(journal), calls: vec![view(), Call::Undo] });
    }
    for (journal, calls) in full() {
        assert!(good(&journal), "a full journal that is not good");
        lists.push(List { start: start(journal), calls });
    }
    lists
}
