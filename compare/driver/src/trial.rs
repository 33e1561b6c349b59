//! Trial records of the library beside those of the model; and a list of them as vectors.
use crate::directed::call;
use crate::ffi::Fenced;
use crate::report;
use crate::trial_mistake::Mistake;
use crate::vectors::List;
use model::random::Random;
use model::record::LENGTH;
use model::trial::{self, causes, STARTS};
use model::vault::Vault;
use std::io::{self, Write};
use token_vault::exports::trial_records;

/// The random numbers of requests stand apart from those of scenarios.
const REQUESTS: u64 = 1 << 36;
const RANDOM: usize = 10_000;
/// So many records of each starting number are compared.
const LONG: usize = 1_000;
/// The generator's first numbers from 1 on, as the customer gives them.
const FIRST_NUMBERS: [u64; 6] = [
    7_806_831_264_735_756_412,
    9_396_908_728_118_811_419,
    11_960_119_808_228_829_710,
    7_062_582_979_898_595_269,
    14_673_421_054_488_193_520,
    9_232_803_539_723_513_983,
];

/// Random requests have to be of each kind.
const KINDS: [&str; 6] =
    ["done", "done without a record", "refused for the length", "for the first number", "for the last number", "for several of these"];

/// A request for records.
#[derive(Clone, Copy)]
pub struct Request<'a> {
    pub start: u64,
    pub first: u64,
    /// What the buffer holds before.
    pub lent: &'a [u8],
}

/// What a request gives.
pub struct Given {
    pub number: u32,
    pub records: Vec<u8>,
    pub reached: u64,
}

/// The number reached before a call, which has to write over it.
pub fn unwritten(start: u64) -> u64 {
    !start
}

impl Request<'_> {
    pub fn refused(self) -> Given {
        Given { number: 32, records: self.lent.to_vec(), reached: self.start }
    }

    /// At the library, with the buffer and the number reached between fences; nothing where one of these was written to.
    fn at_library(self) -> Option<Given> {
        const FENCE: u64 = 0x5a5a_5a5a_5a5a_5a5a;
        let mut records = Fenced::of(self.lent);
        let mut reached = [FENCE, unwritten(self.start), FENCE];
        let number = trial_records(self.start, self.first, records.list(), &mut reached[1]);
        let whole = records.whole() && [reached[0], reached[2]] == [FENCE; 2];
        whole.then(|| Given { number, records: records.list().to_vec(), reached: reached[1] })
    }

    fn at_model(self) -> Given {
        if trial::refused(self.first, self.lent.len()) {
            return self.refused();
        }
        let (records, reached) = trial::records(self.start, self.first, self.lent.len() / LENGTH);
        Given { number: 0, records, reached }
    }

    /// What the library gives, or in what the model gives another.
    fn at_both(self, mistake: Option<Mistake>) -> Result<Given, &'static str> {
        let found = self.at_library().ok_or("bytes beside the buffer or beside the number reached")?;
        let mut wanted = self.at_model();
        if let Some(mistake) = mistake {
            mistake.make(self, &mut wanted);
        }
        if found.number != wanted.number {
            Err("number")
        } else if found.records != wanted.records {
            Err("bytes of the buffer")
        } else if found.reached != wanted.reached {
            Err("number reached")
        } else {
            Ok(found)
        }
    }

    /// The place of its kind.
    fn kind(self) -> usize {
        match causes(self.first, self.lent.len()) {
            [false, false, false] => self.lent.is_empty() as usize,
            [true, false, false] => 2,
            [false, true, false] => 3,
            [false, false, true] => 4,
            _ => 5,
        }
    }
}

/// A request that is made whole and in two parts.
struct Case {
    start: u64,
    first: u64,
    lent: Vec<u8>,
    /// Records of the first part.
    cut: usize,
}

impl Case {
    /// With a buffer of any bytes; the first number lies near 1, 2^32 or 2^64, or anywhere.
    fn random(r: &mut Random) -> Case {
        let start = match r.weighted(&[8, 1, 1]) {
            0 => r.next(),
            1 => r.below(4),
            _ => u64::MAX - r.below(4),
        };
        let first = match r.weighted(&[30, 10, 25, 20, 10, 5]) {
            0 => 1 + r.below(4),
            1 => 0,
            2 => (1 << 32) - 8 + r.below(12),
            3 => u64::MAX - r.below(8),
            4 => 1 + r.below(1 << 32),
            _ => r.next(),
        };
        let count = match r.weighted(&[1, 8, 1]) {
            0 => 0,
            1 => 1 + r.index(8),
            _ => 1 + r.index(64),
        };
        let rest = if r.percent(25) { 1 + r.index(LENGTH - 1) } else { 0 };
        let mut lent = vec![0; count * LENGTH + rest];
        r.fill(&mut lent);
        Case { start, first, lent, cut: r.index(count + 1) }
    }

    fn request(&self) -> Request<'_> {
        Request { start: self.start, first: self.first, lent: &self.lent }
    }

    /// Compares the whole and both parts, of which the second begins where the first ended.
    fn compare(&self, mistake: Option<Mistake>) -> Result<(), &'static str> {
        let whole = self.request().at_both(mistake)?;
        let (one, two) = self.lent.split_at(self.cut * LENGTH);
        let one = Request { lent: one, ..self.request() }.at_both(mistake)?;
        let Some(first) = self.first.checked_add(self.cut as u64) else { return Ok(()) };
        let two = Request { start: one.reached, first, lent: two }.at_both(mistake)?;
        let is_whole = [one.records, two.records].concat() == whole.records && two.reached == whole.reached;
        if whole.number == 0 && !is_whole {
            return Err("two parts and the whole");
        }
        Ok(())
    }
}

fn first_difference(cases: &[Case], mistake: Option<Mistake>) -> Option<String> {
    cases.iter().find_map(|case| {
        let what = case.compare(mistake).err()?;
        let Case { start, first, lent, cut } = case;
        Some(format!("start {start}, first {first}, {} bytes, first part of {cut} records: {what}", lent.len()))
    })
}

/// How many cases are of each kind, none of which may be missing.
fn kinds(cases: &[Case]) -> Result<String, String> {
    let mut met = [0; KINDS.len()];
    cases.iter().for_each(|case| met[case.request().kind()] += 1);
    report::all_met("trial records", KINDS.into_iter().zip(met))?;
    let texts: Vec<String> = KINDS.iter().zip(met).map(|(kind, times)| format!("{times} {kind}")).collect();
    Ok(texts.join(", "))
}

fn first_numbers() -> Result<(), String> {
    let mut last = 1;
    for number in FIRST_NUMBERS {
        last = trial::next(last);
        if last != number {
            return Err(format!("the model's generator: {last} in place of {number}"));
        }
    }
    Ok(())
}

fn random(seed: u64) -> Vec<Case> {
    let mut r = Random::of(seed, REQUESTS);
    (0..RANDOM).map(|_| Case::random(&mut r)).collect()
}

/// Where a planted mistake is found, by the random cases.
pub fn found(seed: u64, mistake: Mistake) -> Option<String> {
    first_difference(&random(seed), Some(mistake)).map(|difference| format!("in a random case, {difference}"))
}

pub fn run(seed: u64) -> Result<(), String> {
    first_numbers()?;
    let long = STARTS.map(|start| Case { start, first: 1, lent: vec![0xa5; LONG * LENGTH], cut: LONG / 3 });
    let cases = random(seed);
    if let Some(difference) = first_difference(&long, None).or_else(|| first_difference(&cases, None)) {
        return Err(format!("trial records, {difference}"));
    }
    let kinds = kinds(&cases)?;
    println!(
        "trial records: {LONG} from each of {} starting numbers and {RANDOM} random cases ({kinds}), whole and in two parts, \
         0 differences",
        STARTS.len()
    );
    Ok(())
}

/// Writes so many records, made by the model, to standard output.
pub fn write([start, first, count]: [u64; 3]) -> io::Result<()> {
    const BLOCK: u64 = 1_024;
    let length = count.saturating_mul(LENGTH as u64) as usize;
    if trial::refused(first, length) {
        return Err(io::Error::other("no such trial records (32)"));
    }
    let (mut output, mut last) = (io::stdout().lock(), start);
    for made in (0..count).step_by(BLOCK as usize) {
        let (records, reached) = trial::records(last, first + made, BLOCK.min(count - made) as usize);
        output.write_all(&records)?;
        last = reached;
    }
    output.flush()
}

/// The first 64 records from 1 on, with no transaction.
pub fn lists() -> Vec<List> {
    let (records, _) = trial::records(1, 1, 64);
    let calls = records.chunks(LENGTH).map(|record| call(record.to_vec())).collect();
    vec![List { start: Vault { image: trial::image(), journal: vec![0; 48] }, calls }]
}
