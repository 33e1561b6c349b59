//! Streams for the program: an image and then records as its input, with the lines that the Rust side gives for them.
use crate::compare::operate;
use crate::generate;
use crate::scenario::list_record;
use crate::table::Table;
use crate::vectors::answer_text;
use model::image::{cap_at, credit_at, holding_at, snapshot_at, token_at};
use model::random::Random;
use model::vault::{Call, Vault};
use model::{image, record};
use std::fmt;
use std::iter::repeat_n;

/// The random numbers of streams, and of the pieces in which they arrive, stand apart from those of scenarios.
const STREAMS: u64 = 1 << 32;
const PIECES: u64 = 1 << 33;

/// The image that a stream starts with.
#[derive(Clone, Copy, PartialEq, Eq, Debug)]
enum Start {
    Good,
    /// Good too, but no call initialises it, since there is no token.
    Zeros,
    Bad,
}

/// What a stream consists of.
#[derive(Clone, Copy)]
struct Plan {
    start: Start,
    image_length: usize,
    /// Whole records.
    records: usize,
    /// Bytes of one record more.
    rest: usize,
}

pub struct Stream {
    number: usize,
    plan: Plan,
    pub input: Vec<u8>,
    pub expected: String,
}

impl fmt::Display for Stream {
    fn fmt(&self, f: &mut fmt::Formatter) -> fmt::Result {
        let Plan { start, image_length, records, rest } = self.plan;
        write!(f, "stream {} ({start:?} image, {image_length} bytes of it, {records} records, {rest} bytes of one more)", self.number)
    }
}

impl Stream {
    /// Adds a record, whole or not, and its line.
    fn add(&mut self, vault: &mut Vault, record: Vec<u8>, table: &mut Table) {
        self.input.extend(&record);
        let call = Call::Operation { record, events: vec![0; record::EVENTS] };
        let answer = vault.call(&call, &mut operate);
        table.count(&call, answer.number);
        self.expected += &answer_text(&answer);
        self.expected.push('\n');
    }
}

pub struct Streams {
    pub seed: u64,
    pub list: Vec<Stream>,
    /// The answers of all lines.
    pub table: Table,
}

impl Streams {
    pub fn of(seed: u64) -> Streams {
        let mut table = Table::of_calls();
        let list = plans().into_iter().enumerate().map(|(number, plan)| stream(seed, number, plan, &mut table)).collect();
        Streams { seed, list, table }
    }

    /// Whole records of all streams.
    pub fn records(&self) -> usize {
        self.list.iter().map(|stream| stream.plan.records).sum()
    }

    pub fn lines(&self) -> usize {
        self.list.iter().map(|stream| stream.expected.lines().count()).sum()
    }

    /// The random numbers for the pieces in which a stream arrives.
    pub fn pieces(&self, stream: &Stream) -> Random {
        Random::of(self.seed, PIECES + stream.number as u64)
    }
}

/// Short images, long streams, and last records of every length from 0 to 447, after good images and bad ones.
fn plans() -> Vec<Plan> {
    let whole = |start, records, rest| Plan { start, image_length: image::LENGTH, records, rest };
    let mut plans = Vec::new();
    for image_length in short_images() {
        plans.push(Plan { start: Start::Good, image_length, records: 0, rest: 0 });
    }
    for (records, rest) in [(5_000, 0), (5_000, 1), (5_000, 224), (5_000, 447), (20_000, 0)] {
        plans.push(whole(Start::Good, records, rest));
    }
    plans.extend([whole(Start::Zeros, 5_000, 0), whole(Start::Bad, 5_000, 0)]);
    for rest in 0..record::LENGTH {
        plans.extend([Start::Good, Start::Bad].map(|start| whole(start, rest % 4, rest)));
    }
    plans
}

/// Lengths at and beside the ends of the image's regions, and of records.
fn short_images() -> Vec<usize> {
    let keys = snapshot_at(64);
    let ends = [1, 8, record::LENGTH, cap_at(0), snapshot_at(48), keys, token_at(48), holding_at(48, 0), credit_at(48, 0), image::LENGTH];
    let mut lengths: Vec<usize> = ends.iter().flat_map(|end| [end - 1, *end, end + 1]).filter(|n| *n < image::LENGTH).collect();
    lengths.sort();
    lengths.dedup();
    lengths
}

/// Makes the calls of a plan at the Rust side. The image is carried on, and records are made for the image that they meet.
fn stream(seed: u64, number: usize, plan: Plan, table: &mut Table) -> Stream {
    let mut r = Random::of(seed, STREAMS + number as u64);
    let good = if plan.start == Start::Zeros { vec![0; image::LENGTH] } else { generate::image(&mut r) };
    let mut image = if plan.start == Start::Bad { bad_image(&mut r, &good) } else { good.clone() };
    image.truncate(plan.image_length);
    let mut stream = Stream { number, plan, input: image.clone(), expected: String::new() };
    let mut vault = Vault { image, journal: vec![0; 48] };
    if plan.image_length < image::LENGTH {
        stream.add(&mut vault, Vec::new(), table);
    }
    for length in repeat_n(record::LENGTH, plan.records).chain((plan.rest > 0).then_some(plan.rest)) {
        let met = if plan.start == Start::Bad { &good } else { &vault.image };
        let mut record = list_record(&mut r, met);
        record.truncate(length);
        stream.add(&mut vault, record, table);
    }
    stream
}

/// A whole image that is not good.
fn bad_image(r: &mut Random, good: &[u8]) -> Vec<u8> {
    loop {
        let mut image = good.to_vec();
        generate::damage_image(r, &mut image);
        if image.len() == image::LENGTH && !image::good(&image) {
            return image;
        }
    }
}
