//! The changed cells of two images found a word and a byte at a time: on the images before and after each call of a seeded list,
//! beside one read of both images and beside the whole call in an open transaction; and the journal's test.
use crate::cases::{batch, migration, owner};
use crate::forms::{by_bytes, by_words, good_journal, Image};
use model::build::{record, Fields};
use model::journal;
use model::random::Random;
use std::hint::black_box;
use std::time::{Duration, Instant};
use token_vault::exports;
use token_vault::layout::{CELLS, CELL_LENGTH, EVENTS_LENGTH, IMAGE_LENGTH, JOURNAL_ENTRY_LENGTH, JOURNAL_LENGTH_MAX};

/// A round of one subject on one call, and how many times all rounds of all rows are made; of each the best counts.
const ROUND: Duration = Duration::from_micros(100);
const PASSES: usize = 60;
/// By words, by bytes, one read of both images, and the call in an open transaction with its undo.
const SUBJECTS: usize = 4;
/// The calls of a row.
const CALLS: u32 = 16;
/// Pairs of images at random, for the test of both forms.
const PAIRS: u64 = 4_000;

/// A call with the image before it and the one that it left, and the best microseconds of each subject.
struct Change {
    record: Vec<u8>,
    before: Box<Aligned<IMAGE_LENGTH>>,
    after: Box<Aligned<IMAGE_LENGTH>>,
    best: [f64; SUBJECTS],
}

/// The calls of one kind from one image.
struct Row {
    name: &'static str,
    changes: Vec<Change>,
}

/// Bytes from the start of a cache line on, so that no time hangs on where the allocator put them.
#[repr(align(64))]
#[derive(Clone)]
struct Aligned<const N: usize>([u8; N]);

fn boxed(image: &[u8]) -> Box<Aligned<IMAGE_LENGTH>> {
    Box::new(Aligned(image.try_into().expect("an image")))
}

fn accepted(image: &mut [u8], record: &[u8]) {
    let number = exports::call_without_journal(image, record, &mut [0; EVENTS_LENGTH], &mut [0; 16], &mut 0);
    assert_eq!(number, 0, "operation {} of a row", record[0]);
}

/// Each call of a list, on the image that the one before it left, behind calls that are made first and not timed.
fn changes(image: &[u8], calls: impl Iterator<Item = (Vec<Vec<u8>>, Vec<u8>)>) -> Vec<Change> {
    let mut image = image.to_vec();
    calls
        .map(|(first, record)| {
            first.iter().for_each(|record| accepted(&mut image, record));
            let before = boxed(&image);
            accepted(&mut image, &record);
            Change { record, before, after: boxed(&image), best: [f64::MAX; SUBJECTS] }
        })
        .collect()
}

/// Sixteen of the addresses above the vault's, in any order.
fn payees(random: &mut Random) -> Vec<u8> {
    let mut addresses: Vec<u8> = (2..64).collect();
    for place in 0..16 {
        let other = place + random.index(addresses.len() - place);
        addresses.swap(place, other);
    }
    addresses.truncate(16);
    addresses
}

/// The seeded list: so many calls of each kind.
fn rows(image: &[u8], seed: u64) -> Vec<Row> {
    let random = &mut Random::of(seed, 0);
    let amount = |random: &mut Random| 1 + random.below(1_000) as i128;
    let sequences = 7..7 + CALLS;
    let deposits = sequences.clone().map(|sequence| (vec![], record(Fields { amount: amount(random), sequence, ..owner(2) })));
    let deposits = changes(image, deposits);
    let payouts = sequences.clone().map(|_| {
        let items: Vec<(u8, i128)> = payees(random).into_iter().map(|payee| (payee, amount(random))).collect();
        (vec![], batch(6, items.into_iter()))
    });
    let payouts = changes(image, payouts);
    let migrations = sequences.clone().map(|sequence| {
        let [deposit, initiate, execute] = migration(sequence, payees(random)[0], amount(random));
        (vec![deposit, initiate], execute)
    });
    let migrations = changes(image, migrations);
    let limit = record(Fields { amount: 50, ..owner(10) });
    let limits = changes(image, sequences.map(|_| (vec![limit.clone()], limit.clone())));
    vec![
        Row { name: "deposit", changes: deposits },
        Row { name: "16 payouts in a batch", changes: payouts },
        Row { name: "migration executed", changes: migrations },
        Row { name: "limit set to what it is: nothing changes", changes: limits },
    ]
}

/// The entries that an operation puts behind the head of a journal that was just opened, as the model finds them.
fn expected(before: &Image, after: &Image) -> (u32, Vec<u8>) {
    let mut entered = vec![0; JOURNAL_ENTRY_LENGTH * (1 + CELLS)];
    journal::begin(&mut entered);
    assert!(journal::enter(&mut entered, before, after), "a journal with a place for each cell has room");
    (journal::entries(&entered) as u32, entered.split_off(JOURNAL_ENTRY_LENGTH))
}

/// Both forms on one pair of images, with so many places of 24 bytes and some bytes more, which stay as they were.
fn agree(before: &Image, after: &Image, places: usize, more: usize) {
    let (count, entries) = expected(before, after);
    let mut wanted = vec![0xa5; places * JOURNAL_ENTRY_LENGTH + more];
    let written = places.min(count as usize) * JOURNAL_ENTRY_LENGTH;
    wanted[..written].copy_from_slice(&entries[..written]);
    for form in [by_words, by_bytes] {
        let mut found = vec![0xa5; wanted.len()];
        assert_eq!(form(before, after, &mut found), count, "the number of changed cells");
        assert!(found == wanted, "the entries of the changed cells");
    }
}

/// Both forms beside the model: on each call of the rows, and on images of which bytes at random were changed.
pub fn compare(images: [&[u8]; 2], seed: u64) {
    let mut calls = 0;
    for row in images.iter().flat_map(|image| rows(image, seed)) {
        for change in &row.changes {
            agree(&change.before.0, &change.after.0, CELLS, 0);
            calls += 1;
        }
    }
    let mut random = Random::of(seed, 1);
    let mut before = boxed(images[0]);
    for _ in 0..PAIRS {
        random.fill(&mut before.0);
        let mut after = before.clone();
        let most = random.of_list(&[2, 8, 64, 512, 4_096]);
        for _ in 0..random.below(most) {
            let bit = random.index(8 * after.0.len());
            after.0[bit / 8] ^= 1 << (bit % 8);
        }
        agree(&before.0, &after.0, random.index(CELLS), random.index(JOURNAL_ENTRY_LENGTH));
    }
    println!(
        "bench: the changed cells of {calls} calls and {PAIRS} pairs of images at random, by words, by bytes and by the model: the same"
    );
}

/// One read of both images, a word at a time.
#[inline(never)]
fn read(a: &Image, b: &Image) -> u64 {
    let words = |image: &Image| image.as_chunks::<8>().0.iter().fold(0, |all, word| all | u64::from_le_bytes(*word));
    words(a) | words(b)
}

/// Microseconds that the subject takes, in one round.
fn round(mut subject: impl FnMut()) -> f64 {
    subject();
    let start = Instant::now();
    let mut times = 0;
    while start.elapsed() < ROUND {
        (0..8).for_each(|_| subject());
        times += 8;
    }
    start.elapsed().as_secs_f64() * 1e6 / times as f64
}

/// A round of each subject on one call.
fn time(change: &mut Change, places: &mut [u8]) {
    let Change { record, before, after, best } = change;
    let (before, after) = (&before.0, &after.0);
    let (mut image, mut journal) = (boxed(before), Box::new(Aligned([0; JOURNAL_LENGTH_MAX])));
    let (image, journal) = (&mut image.0, &mut journal.0);
    assert_eq!(exports::begin(image, journal), 0);
    let (mut events, mut value, mut count) = ([0; EVENTS_LENGTH], [0; 16], 0);
    let changed = by_words(before, after, places);
    let found = [
        round(|| assert_eq!(by_words(black_box(before), black_box(after), places), changed)),
        round(|| assert_eq!(by_bytes(black_box(before), black_box(after), places), changed)),
        round(|| _ = black_box(read(black_box(before), black_box(after)))),
        round(|| {
            assert_eq!(exports::call(image, journal, record, &mut events, &mut value, &mut count), 0);
            assert_eq!(exports::undo(image, journal), 0);
        }),
    ];
    best.iter_mut().zip(found).for_each(|(best, us)| *best = best.min(us));
}

fn changed(change: &Change) -> usize {
    let cells = |image: &'_ Image| image.as_chunks::<CELL_LENGTH>().0.to_vec();
    cells(&change.before.0).iter().zip(cells(&change.after.0)).filter(|(a, b)| **a != *b).count()
}

fn line(row: &Row) {
    let calls = row.changes.len() as f64;
    let cells = row.changes.iter().map(changed).sum::<usize>() as f64 / calls;
    let [words, bytes, read, call] = std::array::from_fn(|i| row.changes.iter().map(|change| change.best[i]).sum::<f64>() / calls);
    println!("  {:42}{cells:8.1}{words:9.2}{bytes:9.2}{:9.2}{read:9.2}{call:10.2}", row.name, bytes / words);
}

/// An open journal of 48,024 bytes with so many entries, two of each call.
fn journal_of(entries: usize) -> Box<Aligned<JOURNAL_LENGTH_MAX>> {
    let mut journal = Box::new(Aligned([0; JOURNAL_LENGTH_MAX]));
    journal::begin(&mut journal.0);
    let before = vec![0; IMAGE_LENGTH];
    let mut after = before.clone();
    (after[0], after[CELL_LENGTH]) = (1, 1);
    for _ in 0..entries / 2 {
        assert!(journal::enter(&mut journal.0, &before, &after));
    }
    assert_eq!(journal::entries(&journal.0), entries);
    journal
}

/// What is timed by itself: its name, what it does, and its best microseconds.
struct Alone {
    name: String,
    subject: Box<dyn FnMut()>,
    best: f64,
}

fn alone(name: String, subject: impl FnMut() + 'static) -> Alone {
    Alone { name, subject: Box::new(subject), best: f64::MAX }
}

/// Another read of both images, both forms where all has changed, and the journal's test.
fn alone_subjects(image: &[u8]) -> Vec<Alone> {
    let (image, twin) = (boxed(image), boxed(image));
    let memcmp = alone("two equal images, by the C library's memcmp".into(), move || assert!(black_box(&image.0) == black_box(&twin.0)));
    let every_cell = [("words", by_words as fn(&Image, &Image, &mut [u8]) -> u32), ("bytes", by_bytes)].map(|(name, form)| {
        let (before, after) = (boxed(&[0; IMAGE_LENGTH]), boxed(&[1; IMAGE_LENGTH]));
        let mut places = Box::new(Aligned([0; CELLS * JOURNAL_ENTRY_LENGTH]));
        alone(format!("every cell changed, by {name}"), move || {
            assert_eq!(form(black_box(&before.0), black_box(&after.0), &mut places.0), CELLS as u32);
        })
    });
    let journals = [0, 32, 2_000].map(|entries| {
        let journal = journal_of(entries);
        alone(format!("the test of an open journal with {entries} entries"), move || assert!(good_journal(black_box(&journal.0))))
    });
    [memcmp].into_iter().chain(every_cell).chain(journals).collect()
}

pub fn print(images: [(&str, &[u8]); 2], seed: u64) {
    let mut others = alone_subjects(images[1].1);
    let mut tables = images.map(|(name, image)| (name, rows(image, seed)));
    for change in tables.iter().flat_map(|(_, rows)| rows).flat_map(|row| &row.changes) {
        agree(&change.before.0, &change.after.0, CELLS, 0);
    }
    let mut places = Box::new(Aligned([0; CELLS * JOURNAL_ENTRY_LENGTH]));
    for _ in 0..PASSES {
        for change in tables.iter_mut().flat_map(|(_, rows)| rows).flat_map(|row| &mut row.changes) {
            time(change, &mut places.0);
        }
        for other in &mut others {
            other.best = other.best.min(round(&mut other.subject));
        }
    }
    println!("{:44}{:>8}{:>9}{:>9}{:>9}{:>9}{:>10}", "", "cells", "by words", "by bytes", "bytes /", "one read", "call and");
    println!("{:44}{:>8}{:>9}{:>9}{:>9}{:>9}{:>10}", "", "changed", "us", "us", "words", "us", "undo, us");
    for (name, rows) in &tables {
        println!("{name}");
        rows.iter().for_each(line);
    }
    println!("no call");
    for Alone { name, best, .. } in &others {
        println!("  {name:50}{best:9.2}");
    }
    println!("means of {CALLS} calls a row, seed {seed}; of each call the best of {PASSES} rounds of {} us", ROUND.as_micros());
}
