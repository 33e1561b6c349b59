//! Trial records: every byte of them as docs/FORMATS.md describes it, parts against the whole, and what is refused.
mod common;

use common::vault;
use token_vault::layout::RECORD_LENGTH;
use token_vault::{exports, trial_records, Image, Item, Operation, Record, Refusal};

/// Fills a buffer before it is lent.
const FILL: u8 = 0xa5;
/// One above the last number of a record.
const END: u64 = 1 << 32;
const STARTS: [u64; 9] = [0, 1, 2, 42, END - 1, END, 1 << 63, u64::MAX - 1, u64::MAX];

/// The generator, in numbers that do not wrap.
struct Generator(u128);

impl Generator {
    fn draw(&mut self) -> u128 {
        self.0 = (6_364_136_223_846_793_005 * self.0 + 1_442_695_040_888_963_407) % (1 << 64);
        self.0 / (1 << 32)
    }

    /// The record with this number, of the next six draws.
    fn record(&mut self, number: u64) -> [u8; RECORD_LENGTH] {
        let operation = self.draw() % 30 + 1;
        let caller = self.draw() % 64;
        let token = self.draw() % 64;
        let other = self.draw() % 64;
        let flag = self.draw() % 2;
        let amount = self.draw() % 1001;
        let mut record = [0; RECORD_LENGTH];
        for (at, byte) in [(0, operation), (1, caller), (2, token), (3, other), (4, flag), (5, 1), (64, other)] {
            record[at] = byte as u8;
        }
        record[8..16].copy_from_slice(&number.to_le_bytes());
        record[16..20].copy_from_slice(&number.to_le_bytes()[..4]);
        record[24..32].fill(0xff);
        record[32..48].copy_from_slice(&amount.to_le_bytes());
        record[72..88].copy_from_slice(&amount.to_le_bytes());
        record
    }
}

/// What the library gives: its number, the buffer and the generator's number.
#[derive(Debug, PartialEq)]
struct Made {
    number: u32,
    bytes: Vec<u8>,
    reached: u64,
}

/// Lends a buffer of a length, and a number that must be written over.
fn made(start: u64, first: u64, length: usize) -> Made {
    let (mut bytes, mut reached) = (vec![FILL; length], 0xa5a5_a5a5_a5a5_a5a5);
    let number = exports::trial_records(start, first, &mut bytes, &mut reached);
    Made { number, bytes, reached }
}

/// What it has to give for so many records.
fn described(start: u64, first: u64, count: usize) -> Made {
    let mut generator = Generator(start.into());
    let bytes = (first..).take(count).flat_map(|number| generator.record(number)).collect();
    Made { number: 0, bytes, reached: generator.0 as u64 }
}

/// What it has to give on a refusal: the buffer as it was lent, and the start.
fn as_lent(start: u64, length: usize) -> Made {
    Made { number: 32, bytes: vec![FILL; length], reached: start }
}

#[test]
fn numbers_of_the_generator() {
    let numbers = [
        (7806831264735756412, 1817669548),
        (9396908728118811419, 2187888307),
        (11960119808228829710, 2784682393),
        (7062582979898595269, 1644385741),
        (14673421054488193520, 3416422068),
        (9232803539723513983, 2149679590),
    ];
    let mut generator = Generator(1);
    for (number, draw) in numbers {
        assert_eq!((generator.draw(), generator.0), (draw, number));
    }
    assert_eq!(made(1, 1, RECORD_LENGTH).reached, 9232803539723513983);
}

/// Operation, the three addresses, flag, amount and number; all other fields are the same in every record.
fn holds(record: &Record, operation: Operation, addresses: [u8; 3], flag: u8, amount: i128, number: u32) {
    let [caller, token, other] = addresses;
    assert_eq!(record.operation(), Some(operation), "{record:?}");
    assert_eq!((record.caller(), record.token(), record.other(), record.flag()), (caller, token, other, flag), "{record:?}");
    assert_eq!((record.timestamp(), record.ledger_sequence()), (number.into(), number), "{record:?}");
    assert_eq!((record.amount(), record.fee(), record.signers()), (amount, 0, u64::MAX), "{record:?}");
    assert_eq!(record.items(), [Item { address: other, amount }], "{record:?}");
}

#[test]
fn fields_of_some_records() {
    let from_1 = trial_records(1, 1, 6).unwrap().records;
    holds(&from_1[0], Operation::OutsideMove, [51, 25, 13], 0, 58, 1);
    holds(&from_1[1], Operation::SetLimit, [45, 18, 53], 0, 842, 2);
    holds(&from_1[2], Operation::GetTokenAccountBalance, [0, 52, 25], 0, 105, 3);
    holds(&from_1[5], Operation::WithdrawBatch, [36, 56, 10], 1, 949, 6);
    let at_the_end = trial_records(u64::MAX, END - 1, 1).unwrap().records;
    holds(&at_the_end[0], Operation::IsTokenCompliant, [47, 43, 5], 0, 572, u32::MAX);
}

#[test]
fn every_byte() {
    for start in STARTS {
        for first in [1, 2, 255, 65_536, END - 200] {
            for count in [0, 1, 2, 3, 200] {
                assert_eq!(made(start, first, RECORD_LENGTH * count), described(start, first, count), "{start} {first} {count}");
            }
        }
    }
}

/// Parts of so many records, each from the number that the one before it reached, one behind another.
fn in_parts(start: u64, first: u64, sizes: &[usize]) -> Made {
    let mut all = Made { number: 0, bytes: Vec::new(), reached: start };
    for size in sizes {
        let next = first + (all.bytes.len() / RECORD_LENGTH) as u64;
        let part = made(all.reached, next, RECORD_LENGTH * size);
        assert_eq!(part.number, 0, "{size} records from number {next}");
        all.bytes.extend(part.bytes);
        all.reached = part.reached;
    }
    all
}

#[test]
fn parts_and_the_whole() {
    let sizes: [&[usize]; 8] = [&[0, 0], &[0, 5], &[5, 0], &[1, 1], &[1, 6], &[64, 36], &[3, 0, 4, 1], &[1; 30]];
    for start in STARTS {
        for sizes in sizes {
            let count: usize = sizes.iter().sum();
            // In the second, an empty last part begins behind the last number.
            for first in [1, END - count as u64] {
                let whole = made(start, first, RECORD_LENGTH * count);
                assert_eq!(whole.number, 0);
                assert_eq!(in_parts(start, first, sizes), whole, "{start} {first} {sizes:?}");
            }
        }
    }
}

#[test]
fn lengths_that_are_no_records() {
    for start in STARTS {
        for length in [1, 447, 449, 895, 897, 44_799] {
            assert_eq!(made(start, 1, length), as_lent(start, length));
        }
    }
}

#[test]
fn first_numbers_that_are_not_allowed() {
    for start in STARTS {
        for count in [0, 1, 2, 5] {
            let length = RECORD_LENGTH * count;
            // 2^64 - 1 and a record are 0 in a sum that wraps, and 2^32 + 1 is 1 in 32 bits.
            for first in [0, END - count as u64 + 1, END + 1, 2 * END, 1 << 63, u64::MAX - 1, u64::MAX] {
                assert_eq!(made(start, first, length), as_lent(start, length), "{first} {count}");
            }
        }
    }
}

#[test]
fn at_the_last_number() {
    for start in STARTS {
        assert_eq!(made(start, END, 0), Made { number: 0, bytes: Vec::new(), reached: start });
        assert_eq!(made(start, END + 1, 0), as_lent(start, 0));
        for count in [1, 2, 5] {
            let first = END - count as u64;
            assert_eq!(made(start, first, RECORD_LENGTH * count), described(start, first, count));
            let records = trial_records(start, first, count).unwrap().records;
            assert_eq!(records.last().map(Record::ledger_sequence), Some(u32::MAX));
        }
    }
}

#[test]
fn records_of_the_crate() {
    for start in STARTS {
        for (first, count) in [(1, 0), (1, 1), (7, 100), (END - 3, 3), (END, 0)] {
            let trial = trial_records(start, first, count).unwrap();
            assert_eq!(trial.records.len(), count);
            let bytes = trial.records.iter().flat_map(|record| *record.as_bytes()).collect();
            assert_eq!(Made { number: 0, bytes, reached: trial.reached }, described(start, first, count));
        }
    }
}

/// Some of these would need more memory than there is, or more than there are addresses for.
#[test]
fn refusals_of_the_crate() {
    for count in [0, 1, 5, 1 << 32, 1 << 58, usize::MAX] {
        for first in [0, END + 1, u64::MAX] {
            assert_eq!(trial_records(1, first, count), Err(Refusal::InvalidRecord), "{first} {count}");
        }
    }
    for (first, count) in [(END, 1), (END - 1, 2), (END, (1 << 32) - 1), (1, 1 << 32), (1, 1 << 58), (1, usize::MAX), (2, usize::MAX)] {
        assert_eq!(trial_records(1, first, count), Err(Refusal::InvalidRecord), "{first} {count}");
    }
}

#[test]
fn no_record_is_refused_with_32() {
    let trial = trial_records(1, 1, 500).unwrap();
    for operation in Operation::ALL {
        assert!(trial.records.iter().any(|record| record.operation() == Some(operation)), "{operation}");
    }
    for image in [Image::new(), vault()] {
        let mut after_the_others = image.clone();
        for record in &trial.records {
            assert_ne!(image.clone().call(record), Err(Refusal::InvalidRecord), "{record:?}");
            assert_ne!(after_the_others.call(record), Err(Refusal::InvalidRecord), "{record:?}");
        }
    }
}
