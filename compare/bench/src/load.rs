//! Trial records run through the vault and through the contract's Rust: blocks of calls, timed at the one and then at the other, and
//! compared behind.
use crate::sides::{self, Answer, Side};
use model::record::{EVENTS, LENGTH};
use model::trial;
use model::vault::Call;
use std::time::{Duration, Instant};
use token_vault::exports::trial_records;

/// Calls of a block.
const BLOCK: usize = 2_048;
/// In the gate so many records from each starting number, each a block by itself.
const FEW: u64 = 1_000;
/// So many calls lie between two lines of a load, or a tenth of it where that is less.
const STEP: u64 = 250_000;

/// A side, what it answered in the last block, and how long all its blocks took.
struct Timed {
    side: Box<dyn Side>,
    answers: Vec<Answer>,
    events: Vec<Vec<u8>>,
    time: Duration,
}

impl Timed {
    fn new(side: Box<dyn Side>) -> Timed {
        Timed { side, answers: Vec::new(), events: vec![vec![0; EVENTS]; BLOCK], time: Duration::ZERO }
    }

    fn run(&mut self, calls: &[Call]) {
        self.answers.clear();
        let start = Instant::now();
        for (call, events) in calls.iter().zip(&mut self.events) {
            self.answers.push(self.side.call(call));
            self.side.exchange_events(events);
        }
        self.time += start.elapsed();
    }
}

/// The records of one starting number, on an image that is carried on.
struct Load {
    start: u64,
    /// The generator's number after the records that were made, and how many these are.
    reached: u64,
    made: u64,
    accepted: u64,
    vault: Timed,
    rust: Timed,
}

impl Load {
    fn new(start: u64) -> Load {
        let [vault, rust, _] = sides::all(&trial::image(), None);
        Load { start, reached: start, made: 0, accepted: 0, vault: Timed::new(vault), rust: Timed::new(rust) }
    }

    /// So many calls more.
    fn block(&mut self, count: usize) {
        let calls = self.calls(count);
        self.vault.run(&calls);
        self.rust.run(&calls);
        self.compare();
        self.made += count as u64;
        self.accepted += self.vault.answers.iter().filter(|answer| answer.number == 0).count() as u64;
    }

    /// The next records, made by the library and by the model, which have to agree.
    fn calls(&mut self, count: usize) -> Vec<Call> {
        let (first, mut reached) = (self.made + 1, 0);
        let mut records = vec![0xa5; count * LENGTH];
        let number = trial_records(self.reached, first, &mut records, &mut reached);
        assert_eq!(number, 0, "start {}, trial records from number {first} on", self.start);
        let made = (records, reached);
        assert!(made == trial::records(self.reached, first, count), "start {}, trial records from number {first} on", self.start);
        self.reached = reached;
        made.0.chunks(LENGTH).map(|record| Call::Operation { record: record.to_vec(), events: vec![0; EVENTS] }).collect()
    }

    fn compare(&self) {
        let (vault, rust, start) = (&self.vault, &self.rust, self.start);
        for (i, number) in (0..vault.answers.len()).zip(self.made + 1..) {
            assert_eq!(vault.answers[i], rust.answers[i], "start {start}, trial record {number}: answers of the vault and of the Rust");
            assert!(vault.events[i] == rust.events[i], "start {start}, trial record {number}: event bytes of the vault and of the Rust");
        }
        let same = vault.side.held().image == rust.side.held().image;
        assert!(same, "start {start}, image bytes after the block of {} from number {} on", vault.answers.len(), self.made + 1);
    }
}

/// Few records of each starting number; the images are compared after each.
pub fn compare() {
    let (mut made, mut accepted) = (0, 0);
    for start in trial::STARTS {
        let mut load = Load::new(start);
        (0..FEW).for_each(|_| load.block(1));
        made += load.made;
        accepted += load.accepted;
    }
    println!(
        "load: {made} trial records of {} starting numbers, {accepted} calls accepted, {} refused, 0 differences",
        trial::STARTS.len(),
        made - accepted
    );
}

/// So many records of one starting number, with the calls a second of both sides; the images are compared after each block.
pub fn print(start: u64, records: u64) {
    let mut load = Load::new(start);
    let step = (records / 10).clamp(1, STEP);
    let clock = Instant::now();
    while load.made < records {
        let before = load.made;
        load.block((records - before).min(BLOCK as u64) as usize);
        if load.made / step != before / step {
            println!("{} calls, {:.1} s", load.made, clock.elapsed().as_secs_f64());
        }
    }
    let (accepted, refused) = (load.accepted, load.made - load.accepted);
    println!("load from {start}: {} trial records, {accepted} calls accepted, {refused} refused, 0 differences", load.made);
    let [vault, rust] = [&load.vault, &load.rust].map(|side| load.made as f64 / side.time.as_secs_f64());
    println!("calls a second: the vault {vault:.0}, the Rust on a host kept loaded {rust:.0}; vault / Rust {:.2}", vault / rust);
}
