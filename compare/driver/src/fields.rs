//! Vectors of records: each field at the end of its range and beyond, in the operations that read it and in those that do not.
use crate::change::{accepted, Change};
use crate::compare::{copy, operate};
use crate::directed::call;
use crate::start_image::plain;
use crate::vectors::List;
use model::record::{is_view, reads_caller, reads_other, reads_token, LENGTH, OPERATIONS};
use model::vault::{Call, Vault};

fn with(operation: u8, at: usize, byte: u8) -> Call {
    let mut record = accepted(operation);
    record[at] = byte;
    call(record)
}

/// The greatest address where it is read, and one above it everywhere; flag 2 and 17 items everywhere.
fn of_operation(operation: u8) -> Vec<Call> {
    let mut calls = Vec::new();
    for (at, reads) in [(1, reads_caller(operation)), (2, reads_token(operation)), (3, reads_other(operation))] {
        if reads {
            calls.push(with(operation, at, 63));
        }
        calls.push(with(operation, at, 64));
    }
    calls.extend([with(operation, 4, 2), with(operation, 5, 17)]);
    calls
}

/// Addresses of items that are counted, the last of sixteen too, and of one that is not.
fn of_items(operation: u8) -> Vec<Call> {
    let mut sixteen = accepted(operation);
    Change::Items(vec![(2, 1); 16]).apply(&mut sixteen);
    let mut last = sixteen.clone();
    last[64 + 24 * 15] = 64;
    let mut calls = vec![call(sixteen), call(last)];
    calls.extend([(64, 63), (64, 64), (88, 64), (112, 64)].map(|(at, byte)| with(operation, at, byte)));
    calls
}

/// What no operation reads may hold anything.
fn unread() -> Call {
    let mut record = accepted(4);
    for at in [6, 7, 20, 21, 22, 23, 65, 71, 89, 112] {
        record[at] = 255;
    }
    call(record)
}

pub fn lengths() -> Vec<Call> {
    let sized = |length: usize, events: usize| {
        let mut record = accepted(2);
        record.resize(length, 0);
        Call::Operation { record, events: vec![9; events] }
    };
    let mut wrong = accepted(2);
    wrong[1] = 64;
    let both = Call::Operation { record: wrong, events: vec![9; 895] };
    vec![sized(LENGTH - 1, 896), sized(LENGTH + 1, 896), sized(LENGTH, 895), sized(LENGTH, 897), sized(LENGTH + 1, 897), both]
}

pub fn tried() -> Vec<Call> {
    let mut tried: Vec<Call> = (1..=OPERATIONS).flat_map(of_operation).collect();
    tried.extend([4, 6].into_iter().flat_map(of_items));
    tried.extend([0, OPERATIONS + 1, 255].map(|operation| with(2, 0, operation)));
    tried.push(unread());
    tried.extend(lengths());
    tried
}

/// One list from the plain image; what is accepted is undone.
pub fn lists() -> Vec<List> {
    let start = Vault { image: plain(), journal: vec![0; 24 * 41] };
    let mut open = start.clone();
    open.call(&Call::Begin, &mut operate);
    let mut calls = vec![Call::Begin];
    for call in tried() {
        let accepted = open.clone().call(&copy(&call), &mut operate).number == 0;
        let is_operation = matches!(&call, Call::Operation { record, .. } if !is_view(record[0]));
        calls.push(call);
        if accepted && is_operation {
            calls.push(Call::Undo);
        }
    }
    vec![List { start, calls }]
}
