//! The preview of every operation: it gives what the call gives that follows, and changes nothing.
mod common;

use common::*;
use std::thread;
use token_vault::layout::{EVENTS_LENGTH, EVENT_LENGTH, IMAGE_LENGTH, JOURNAL_CALLS_MAX, RECORD_LENGTH};
use token_vault::{exports, Image, Journal, Operation, Record, Refusal};

/// Fills an event buffer before it is lent.
const FILL: u8 = 0xaa;

/// What a preview or a call gives, with the whole event buffer.
#[derive(Debug, PartialEq)]
struct Answer {
    number: u32,
    value: i128,
    count: u32,
    events: Vec<u8>,
}

/// Lends an event buffer of a length, and bytes for value and count that must be written over.
fn answer(length: usize, make: impl FnOnce(&mut [u8], &mut [u8; 16], &mut u32) -> u32) -> Answer {
    let (mut events, mut value, mut count) = (vec![FILL; length], [0xa5; 16], 0xa5a5_a5a5);
    let number = make(&mut events, &mut value, &mut count);
    Answer { number, value: i128::from_le_bytes(value), count, events }
}

fn preview(image: &[u8], record: &[u8], length: usize) -> Answer {
    answer(length, |events, value, count| exports::preview(image, record, events, value, count))
}

fn call(image: &mut [u8], journal: Option<&mut [u8]>, record: &[u8], length: usize) -> Answer {
    answer(length, |events, value, count| match journal {
        Some(journal) => exports::call(image, journal, record, events, value, count),
        None => exports::call_without_journal(image, record, events, value, count),
    })
}

/// Previews a record and then makes the call; the preview, which the call gives too.
fn previewed(image: &Image, journal: Option<&mut [u8]>, record: &Record) -> Answer {
    let mut bytes = image.as_bytes().to_vec();
    let previewed = preview(&bytes, record.as_bytes(), EVENTS_LENGTH);
    assert_eq!(bytes, image.as_bytes(), "{record:?}");
    assert_eq!(previewed, call(&mut bytes, journal, record.as_bytes(), EVENTS_LENGTH), "{record:?}");
    previewed
}

/// The events, and zeros behind them.
fn is_filled(answer: &Answer) -> bool {
    let (events, rest) = answer.events.split_at(EVENT_LENGTH * answer.count as usize);
    events.chunks(EVENT_LENGTH).all(|event| event[0] != 0 && event[0] != FILL) && rest.iter().all(|&b| b == 0)
}

/// For each operation an image, and a record that it accepts, with the value.
fn one_of_each() -> Vec<(Image, Record, i128)> {
    let (initialize, unpause) = (signed(Record::initialize(OWNER, TOKEN, 1_000)), signed(Record::unpause(OWNER)));
    let mut all = vec![(uninitialized(), initialize, 0), (paused_vault(), unpause, 0)];
    all.extend(accepted().into_iter().map(|(record, value)| (busy_vault(), signed_by_all(record), value)));
    all.sort_by_key(|(_, record, _)| record.operation());
    assert_eq!(all.iter().filter_map(|(_, record, _)| record.operation()).collect::<Vec<_>>(), Operation::ALL);
    all
}

#[test]
fn of_accepted_calls() {
    for (image, record, value) in one_of_each() {
        let previewed = previewed(&image, None, &record);
        assert_eq!((previewed.number, previewed.value), (0, value), "{record:?}");
        assert!(is_filled(&previewed), "{record:?}");
    }
}

#[test]
fn of_refused_calls() {
    for (record, refusal) in refused() {
        let blank = Answer { number: refusal.number(), value: 0, count: 0, events: vec![0; EVENTS_LENGTH] };
        assert_eq!(previewed(&busy_vault(), None, &signed_by_all(record)), blank, "{record:?}");
    }
    for (record, _) in accepted() {
        let unsigned = previewed(&busy_vault(), None, &record);
        let needed = record.operation().unwrap() < Operation::Balance;
        assert_eq!(unsigned.number, if needed { 22 } else { 0 }, "{record:?}");
        assert!(is_filled(&unsigned), "{record:?}");
    }
}

#[test]
fn of_an_image() {
    for (image, record, value) in one_of_each() {
        let before = image.clone();
        let previewed = image.preview(&record);
        assert_eq!(image, before);
        assert_eq!(previewed.as_ref().map(|done| done.value), Ok(value), "{record:?}");
        assert_eq!(previewed, image.clone().call(&record), "{record:?}");
    }
    for (record, refusal) in refused() {
        assert_eq!(busy_vault().preview(&signed_by_all(record)), Err(refusal), "{record:?}");
    }
    assert_eq!(Image::from_bytes(Vec::new()).preview(&Record::balance()), Err(Refusal::InvalidImage));
    assert_eq!(vault().preview(&Record::withdraw(OWNER, 64, 1)), Err(Refusal::InvalidRecord));
}

/// 30, 32 or 33: value and count 0, and the event buffer as it was lent; the call gives the same.
fn refused_as_lent(number: u32, image: &[u8], record: &[u8], length: usize) {
    let as_lent = Answer { number, value: 0, count: 0, events: vec![FILL; length] };
    assert_eq!(preview(image, record, length), as_lent);
    assert_eq!(call(&mut image.to_vec(), None, record, length), as_lent);
}

#[test]
fn of_images_that_are_not_good() {
    let record = signed(Record::deposit(OWNER, 1));
    let mut damaged = vault().into_bytes();
    damaged[95] = 1;
    for image in [Vec::new(), vec![0; 1], vec![0; IMAGE_LENGTH - 1], vec![0; IMAGE_LENGTH + 1], damaged] {
        refused_as_lent(30, &image, record.as_bytes(), EVENTS_LENGTH);
        refused_as_lent(30, &image, &[], EVENTS_LENGTH - 1);
        refused_as_lent(30, &image, &[], 0);
    }
}

#[test]
fn of_records_that_are_not_allowed() {
    let image = vault().into_bytes();
    for length in [0, RECORD_LENGTH - 1, RECORD_LENGTH + 1] {
        refused_as_lent(32, &image, &vec![24; length], EVENTS_LENGTH);
        refused_as_lent(32, &image, &vec![24; length], 0);
    }
    for operation in [0, 31, 255] {
        let mut record = *Record::balance().as_bytes();
        record[0] = operation;
        refused_as_lent(32, &image, &record, EVENTS_LENGTH);
        refused_as_lent(32, &image, &record, EVENTS_LENGTH + 1);
    }
    refused_as_lent(32, &image, signed(Record::withdraw(OWNER, 64, 1)).as_bytes(), EVENTS_LENGTH);
}

#[test]
fn with_event_buffers_of_another_length() {
    let image = vault().into_bytes();
    for record in [Record::deposit(OWNER, 1), signed(Record::deposit(OWNER, 1)), Record::balance()] {
        for length in [0, EVENTS_LENGTH - 1, EVENTS_LENGTH + 1] {
            refused_as_lent(33, &image, record.as_bytes(), length);
        }
    }
}

#[test]
fn in_an_open_transaction() {
    for (mut image, record, _) in one_of_each() {
        let mut journal = Journal::new(100).unwrap();
        image.begin(&mut journal).unwrap();
        let mut journal = journal.into_bytes();
        previewed(&image, Some(&mut journal), &record);
        // The call alone is counted, and no view is.
        let counted = if record.operation().is_some_and(Operation::is_view) { 0 } else { 1 };
        assert_eq!(Journal::from_bytes(journal).view().unwrap().calls(), counted, "{record:?}");
    }
}

/// Where the journal has no room for the call, the preview does not see it.
fn without_room(image: &mut Image, journal: &mut Journal) {
    let payout = signed(Record::withdraw(OWNER, PAYEE, 40));
    let before = (image.clone(), journal.clone());
    assert!(image.preview(&payout).is_ok());
    assert_eq!(image.call_in(journal, &payout), Err(Refusal::JournalFull));
    assert_eq!((&*image, &*journal), (&before.0, &before.1));
    let mut journal = journal.clone().into_bytes();
    // 34 comes last, and never for a view.
    assert_eq!(previewed(image, Some(&mut journal), &signed(Record::withdraw(OWNER, PAYEE, 101))).number, 6);
    assert_eq!(previewed(image, Some(&mut journal), &Record::balance()).value, 100);
}

#[test]
fn in_a_full_journal() {
    let mut image = vault();
    let mut journal = Journal::new(1).unwrap();
    image.begin(&mut journal).unwrap();
    without_room(&mut image, &mut journal);

    let mut journal = Journal::new(2_000).unwrap();
    image.begin(&mut journal).unwrap();
    // An approved token approved again changes no cell, and counts.
    for _ in 0..JOURNAL_CALLS_MAX {
        image.call_in(&mut journal, &signed(Record::approve_token(OWNER, TOKEN, true))).unwrap();
    }
    without_room(&mut image, &mut journal);
}

#[test]
fn with_a_journal_that_is_not_good() {
    let mut image = vault();
    let payout = signed(Record::withdraw(OWNER, PAYEE, 40));
    for length in [0, 47, 49] {
        assert_eq!(image.call_in(&mut Journal::from_bytes(vec![0; length]), &payout), Err(Refusal::InvalidJournal));
        assert!(image.preview(&payout).is_ok());
    }
    assert_eq!(image.preview(&payout), image.call(&payout));
}

/// What a preview only reads may be lent to others at the same time, and to the same preview twice.
#[test]
fn of_bytes_lent_at_once() {
    let image = vault();
    let payout = signed(Record::withdraw(OWNER, PAYEE, 40));
    let alone = image.preview(&payout);
    thread::scope(|scope| {
        let others: Vec<_> = (0..4).map(|_| scope.spawn(|| image.preview(&payout))).collect();
        others.into_iter().for_each(|other| assert_eq!(other.join().unwrap(), alone));
    });
    let bytes = image.as_bytes();
    let record = bytes[..RECORD_LENGTH].to_vec();
    assert_eq!(preview(bytes, &bytes[..RECORD_LENGTH], EVENTS_LENGTH), preview(bytes, &record, EVENTS_LENGTH));
}
