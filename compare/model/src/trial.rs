//! Trial records: records made of the numbers of a generator, the same at every house; and an image to run them on.
use crate::build::set_holding;
use crate::bytes::{put, put_amount};
use crate::image::{cap_at, token_at, toll_at, LENGTH};
use crate::record::{self, OPERATIONS};

/// Starting numbers that are tried.
pub const STARTS: [u64; 3] = [1, 0, 0xfedc_ba98_7654_3210];

/// A record takes so many numbers of the generator.
pub const DRAWS: usize = 6;

/// The generator's number after another.
pub fn next(last: u64) -> u64 {
    ((6_364_136_223_846_793_005 * last as u128 + 1_442_695_040_888_963_407) % (1 << 64)) as u64
}

/// What is drawn with a number of the generator: its upper 32 bits.
pub fn drawn(number: u64) -> u32 {
    (number >> 32) as u32
}

/// The causes of 32 for a buffer of so many bytes: it has not whole records, the first number is 0, the last one does not fit in 32 bits.
pub fn causes(first: u64, length: usize) -> [bool; 3] {
    let count = (length / record::LENGTH) as u128;
    [length % record::LENGTH != 0, first == 0, first as u128 + count > 1 << 32]
}

pub fn refused(first: u64, length: usize) -> bool {
    causes(first, length).contains(&true)
}

/// So many records from a starting number on, the first of them with the number `first`; and the number that the generator has reached.
pub fn records(start: u64, first: u64, count: usize) -> (Vec<u8>, u64) {
    let mut records = vec![0; count * record::LENGTH];
    let reached = fill(start, first, &mut records);
    (records, reached)
}

/// The same in a buffer that is lent.
pub fn fill(start: u64, first: u64, records: &mut [u8]) -> u64 {
    fill_by(start, first, records, |numbers| numbers.map(drawn))
}

/// The same with any way to draw from six numbers of the generator, for mistakes that are made on purpose.
pub fn fill_by(start: u64, first: u64, records: &mut [u8], draw: impl Fn([u64; DRAWS]) -> [u32; DRAWS]) -> u64 {
    let mut last = start;
    for (number, record) in (first..).zip(records.chunks_exact_mut(record::LENGTH)) {
        let numbers = [(); DRAWS].map(|()| {
            last = next(last);
            last
        });
        put_record(record, number, draw(numbers));
    }
    last
}

fn put_record(record: &mut [u8], number: u64, [operation, caller, token, other, flag, amount]: [u32; DRAWS]) {
    let sequence = u32::try_from(number).expect("a number that fits in 32 bits");
    let [operation, other] = [operation % OPERATIONS as u32 + 1, other % 64];
    let amount = (amount % 1_001) as i128;
    record.fill(0);
    put(record, 0, &[operation, caller % 64, token % 64, other, flag % 2, 1].map(|field| field as u8));
    put(record, 8, &number.to_le_bytes());
    put(record, 16, &sequence.to_le_bytes());
    put(record, 24, &[0xff; 8]);
    put_amount(record, 32, amount);
    record[64] = other as u8;
    put_amount(record, 72, amount);
}

/// With these a quarter of the first 64 records from 1 on is accepted.
const OWNER: u8 = 2;
const OPERATOR: u8 = 57;
const PENDING: u8 = 23;

const DEFAULT: u8 = 48;
const TOLL: [u8; 2] = [51, 59];
const FROZEN: [u8; 2] = [55, 61];
const CAPPED: usize = 52;
const UNAPPROVED: u8 = 58;
/// More than trial records ever move.
const MUCH: i128 = 1 << 60;

/// Initialised, with an owner proposed at time 0 and a cap that is soon reached. Token 63 is absent; of each other one a quarter of the
/// addresses, the vault among them, holds little and the rest much.
pub fn image() -> Vec<u8> {
    let mut image = vec![0; LENGTH];
    image[0] = 0b11101;
    put(&mut image, 2, &[OWNER, DEFAULT, OPERATOR, PENDING, OWNER]);
    put_amount(&mut image, 8, MUCH);
    put_amount(&mut image, 24, 500);
    put(&mut image, 48, &604_800u64.to_le_bytes());
    put(&mut image, 72, &(!(1u64 << UNAPPROVED)).to_le_bytes());
    put(&mut image, 80, &(1u64 << CAPPED).to_le_bytes());
    put_amount(&mut image, cap_at(CAPPED), 2_000);
    for token in DEFAULT..63 {
        image[token_at(token as usize)] = if FROZEN.contains(&token) { 2 } else { 1 };
        put_amount(&mut image, toll_at(token as usize), if TOLL.contains(&token) { 3 } else { 0 });
        for account in 0..64 {
            set_holding(&mut image, token, account, if account % 8 < 2 { 1_000 } else { MUCH });
        }
    }
    image
}
