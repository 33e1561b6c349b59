//! All six calls over byte slices: what they answer, change and leave alone.
mod common;

use common::{signed, vault, OWNER, PAYEE, TOKEN};
use token_vault::exports;
use token_vault::layout::{EVENTS_LENGTH, IMAGE_LENGTH, JOURNAL_LENGTH_MAX, RECORD_LENGTH};
use token_vault::{Image, Journal, Record};

#[derive(Debug, PartialEq)]
struct Answer {
    number: u32,
    value: i128,
    events: u32,
}

fn answer(number: u32, value: i128, events: u32) -> Answer {
    Answer { number, value, events }
}

fn call(image: &mut [u8], journal: &mut [u8], record: &[u8], events: &mut [u8]) -> Answer {
    // Bytes that a call must write over.
    let (mut value, mut count) = ([0xa5; 16], 0xa5a5_a5a5);
    let number = exports::call(image, journal, record, events, &mut value, &mut count);
    answer(number, i128::from_le_bytes(value), count)
}

fn call_without_journal(image: &mut [u8], record: &[u8], events: &mut [u8]) -> Answer {
    let (mut value, mut count) = ([0xa5; 16], 0xa5a5_a5a5);
    let number = exports::call_without_journal(image, record, events, &mut value, &mut count);
    answer(number, i128::from_le_bytes(value), count)
}

fn deposit(amount: i128) -> [u8; RECORD_LENGTH] {
    *signed(Record::deposit(OWNER, amount).sequence(7)).as_bytes()
}

fn withdraw(amount: i128) -> [u8; RECORD_LENGTH] {
    *signed(Record::withdraw(OWNER, PAYEE, amount).sequence(7)).as_bytes()
}

fn balance() -> [u8; RECORD_LENGTH] {
    *Record::balance().as_bytes()
}

fn holding(image: &[u8], account: u8) -> i128 {
    Image::from_bytes(image.to_vec()).view().unwrap().holding(TOKEN, account)
}

#[test]
fn zero_image_and_balance() {
    let mut image = vec![0u8; IMAGE_LENGTH];
    let mut zeros = vec![0u8; RECORD_LENGTH];
    zeros[0] = 24;
    let mut events = [0xaau8; EVENTS_LENGTH];
    assert_eq!(call_without_journal(&mut image, &zeros, &mut events), answer(1, 0, 0));
    assert!(image.iter().all(|&b| b == 0));
    assert!(events.iter().all(|&b| b == 0));
}

#[test]
fn initialize() {
    let mut image = common::uninitialized().into_bytes();
    let mut events = [0u8; EVENTS_LENGTH];
    let record = signed(Record::initialize(OWNER, TOKEN, 1_000));
    assert_eq!(call_without_journal(&mut image, record.as_bytes(), &mut events), answer(0, 0, 1));
    assert_eq!(events[0], 1);
    assert_eq!(image, vault().into_bytes());
    assert_eq!(call_without_journal(&mut image, record.as_bytes(), &mut events), answer(2, 0, 0));
    assert!(events.iter().all(|&b| b == 0));
}

#[test]
fn deposit_and_withdraw() {
    let mut image = vault().into_bytes();
    let mut events = [0u8; EVENTS_LENGTH];
    assert_eq!(call_without_journal(&mut image, &deposit(901), &mut events), answer(6, 0, 0));
    assert_eq!(call_without_journal(&mut image, &deposit(900), &mut events), answer(0, 0, 1));
    assert_eq!(holding(&image, 1), 1000);
    assert_eq!(holding(&image, OWNER), 1100);
    assert_eq!(events[0], 2);
    assert_eq!(call_without_journal(&mut image, &withdraw(1001), &mut events), answer(6, 0, 0));
    assert_eq!(call_without_journal(&mut image, &withdraw(40), &mut events), answer(0, 0, 1));
    assert_eq!(events[0], 4);
    assert_eq!(holding(&image, PAYEE), 40);
    assert_eq!(call_without_journal(&mut image, &balance(), &mut events), answer(0, 960, 0));
    assert_eq!(call_without_journal(&mut image, &deposit(-1), &mut events), answer(4, 0, 0));
}

#[test]
fn transaction() {
    let mut image = vault().into_bytes();
    let before = image.clone();
    let mut journal = vec![0u8; JOURNAL_LENGTH_MAX];
    let closed = journal.clone();
    let mut events = [0u8; EVENTS_LENGTH];
    assert_eq!(exports::undo(&mut image, &mut journal), 35);
    assert_eq!(exports::commit(&mut image, &mut journal), 35);
    assert_eq!(exports::rollback(&mut image, &mut journal), 35);
    assert_eq!(journal, closed);
    assert_eq!(exports::begin(&mut image, &mut journal), 0);
    assert_eq!(exports::begin(&mut image, &mut journal), 36);
    assert_eq!(exports::undo(&mut image, &mut journal), 37);
    let opened = journal.clone();

    // A payout undone: image and journal bytes return.
    assert_eq!(call(&mut image, &mut journal, &withdraw(40), &mut events).number, 0);
    assert_ne!(image, before);
    assert_ne!(journal, opened);
    assert_eq!(exports::undo(&mut image, &mut journal), 0);
    assert_eq!(image, before);
    assert_eq!(journal, opened);

    // Two deposits rolled back.
    assert_eq!(call(&mut image, &mut journal, &deposit(10), &mut events).number, 0);
    assert_eq!(call(&mut image, &mut journal, &deposit(20), &mut events).number, 0);
    assert_eq!(exports::rollback(&mut image, &mut journal), 0);
    assert_eq!(image, before);
    assert_eq!(journal, closed);

    // One kept.
    assert_eq!(exports::begin(&mut image, &mut journal), 0);
    assert_eq!(call(&mut image, &mut journal, &deposit(10), &mut events).number, 0);
    assert_eq!(exports::commit(&mut image, &mut journal), 0);
    assert_eq!(journal, closed);
    assert_eq!(holding(&image, 1), 110);
}

#[test]
fn closed_journal_is_as_none() {
    let (mut with, mut without) = (vault().into_bytes(), vault().into_bytes());
    let mut journal = vec![0u8; 48];
    for record in [deposit(10), withdraw(5), balance(), deposit(5_000)] {
        let (mut events, mut events_without) = ([0xaa; EVENTS_LENGTH], [0xbb; EVENTS_LENGTH]);
        let found = call(&mut with, &mut journal, &record, &mut events);
        assert_eq!(found, call_without_journal(&mut without, &record, &mut events_without));
        assert_eq!((&with, events), (&without, events_without));
        assert!(journal.iter().all(|&b| b == 0));
    }
}

#[test]
fn journal_without_room() {
    let mut image = vault().into_bytes();
    let before = image.clone();
    let mut journal = vec![0u8; 48];
    let mut events = [0xaau8; EVENTS_LENGTH];
    assert_eq!(exports::begin(&mut image, &mut journal), 0);
    let opened = journal.clone();
    assert_eq!(call(&mut image, &mut journal, &deposit(10), &mut events), answer(34, 0, 0));
    assert_eq!(image, before);
    assert_eq!(journal, opened);
    assert!(events.iter().all(|&b| b == 0));
}

// 30, 31, 32 and 33 come in that order, and leave the event buffer as it was.

#[test]
fn images_that_are_not_good() {
    let mut events = [0xaau8; EVENTS_LENGTH];
    let mut none: [u8; 0] = [];
    assert_eq!(call(&mut none, &mut [], &[], &mut []), answer(30, 0, 0));
    assert_eq!(call_without_journal(&mut none, &[], &mut []), answer(30, 0, 0));
    for length in [1, IMAGE_LENGTH - 1, IMAGE_LENGTH + 1] {
        assert_eq!(call_without_journal(&mut vec![0; length], &balance(), &mut events), answer(30, 0, 0));
        assert!(!Image::from_bytes(vec![0; length]).is_good());
    }
    let mut damaged = vault().into_bytes();
    damaged[95] = 1;
    assert_eq!(call_without_journal(&mut damaged, &balance(), &mut events), answer(30, 0, 0));
    assert!(!Image::from_bytes(damaged).is_good());
    assert!(vault().is_good() && Image::new().is_good());
    assert!(events.iter().all(|&b| b == 0xaa));
}

#[test]
fn journals_that_are_not_good() {
    let mut image = vault().into_bytes();
    for length in [0, 24, 47, 49, 48_048] {
        let mut journal = vec![0u8; length];
        assert_eq!(call(&mut image, &mut journal, &[], &mut []), answer(31, 0, 0));
        assert_eq!(exports::begin(&mut image, &mut journal), 31);
        assert_eq!(exports::commit(&mut image, &mut journal), 31);
        assert_eq!(exports::rollback(&mut image, &mut journal), 31);
        assert_eq!(exports::undo(&mut image, &mut journal), 31);
        assert_eq!(exports::begin(&mut [], &mut journal), 30);
        assert!(Journal::from_bytes(journal).view().is_none());
    }
    let mut damaged = vec![0u8; 48];
    damaged[0] = 2;
    assert_eq!(exports::begin(&mut image, &mut damaged), 31);
    assert_eq!(image, vault().into_bytes());
}

#[test]
fn records_that_are_not_allowed() {
    let mut image = vault().into_bytes();
    let mut events = [0xaau8; EVENTS_LENGTH];
    for length in [0, RECORD_LENGTH - 1, RECORD_LENGTH + 1] {
        assert_eq!(call_without_journal(&mut image, &vec![24; length], &mut []), answer(32, 0, 0));
    }
    for operation in [0, 31, 255] {
        let mut record = balance();
        record[0] = operation;
        assert_eq!(call_without_journal(&mut image, &record, &mut events), answer(32, 0, 0));
    }
    assert!(events.iter().all(|&b| b == 0xaa));
    assert_eq!(image, vault().into_bytes());
}

#[test]
fn event_buffers_of_another_length() {
    let mut image = vault().into_bytes();
    for length in [0, EVENTS_LENGTH - 1, EVENTS_LENGTH + 1] {
        let mut events = vec![0xaa; length];
        assert_eq!(call_without_journal(&mut image, &deposit(1), &mut events), answer(33, 0, 0));
        assert!(events.iter().all(|&b| b == 0xaa));
    }
    assert_eq!(image, vault().into_bytes());
}
