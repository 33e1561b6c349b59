//! Toll bounds of the library beside those of the model, and the moves of which they speak.
use crate::ffi::{self, Fenced};
use crate::tolls_cases::{directed, lines};
use crate::tolls_mistake::Mistake;
use crate::tolls_random::{random, Kinds};
use model::build::{holding, record, set_holding, Fields};
use model::bytes::{amount, put_amount};
use model::image::toll_at;
use model::record::EVENTS;
use model::tolls::Asked;
use model::vault::{Call, Vault};
use std::time::Instant;
use token_vault::exports::toll_bounds;

/// So many random requests.
const RANDOM: usize = 100_000;

/// The holdings before a call, which has to write over them.
pub const UNWRITTEN: [i128; 2] = [i128::from_le_bytes([0xa5; 16]), i128::from_le_bytes([0x3c; 16])];

/// A request, with the least toll and the greatest.
pub struct Case {
    pub image: Vec<u8>,
    pub token: u8,
    pub amounts: Vec<u8>,
    pub tolls: [i128; 2],
}

/// What a request gives: the number, the least holding and the greatest.
#[derive(Clone, Copy)]
pub struct Given {
    pub number: u32,
    pub holdings: [i128; 2],
}

impl Given {
    pub fn of(answer: Result<[i128; 2], u32>) -> Given {
        match answer {
            Ok(holdings) => Given { number: 0, holdings },
            Err(number) => Given { number, holdings: [0; 2] },
        }
    }

    /// In what this, by the library, is not what the model gives.
    fn difference(self, model: Given) -> Option<String> {
        let parts = |given: Given| [given.number as i128, given.holdings[0], given.holdings[1]];
        let names = ["number", "least holding", "greatest holding"];
        let pairs = parts(self).into_iter().zip(parts(model));
        let (what, (found, wanted)) = names.iter().zip(pairs).find(|(_, (found, wanted))| found != wanted)?;
        Some(format!("{what}: the library {found}, the model {wanted}"))
    }
}

impl Case {
    pub fn asked(&self) -> Asked<'_> {
        Asked { image: &self.image, token: self.token, amounts: &self.amounts, tolls: self.tolls }
    }

    /// At the library; nothing where a list that is only lent, or a byte beside one of the lists, was written to.
    fn at_library(&self) -> Option<Given> {
        let (image, amounts) = (Fenced::of(&self.image), Fenced::of(&self.amounts));
        let fenced = |pair: [i128; 2]| pair.map(|number| Fenced::of(&number.to_le_bytes()));
        let (tolls, [mut least, mut greatest]) = (fenced(self.tolls), fenced(UNWRITTEN));
        let [least_toll, greatest_toll] = [&tolls[0], &tolls[1]].map(|toll| toll.bytes().try_into().expect("16 bytes"));
        let [lower, upper] = [&mut least, &mut greatest].map(|holding| holding.list().try_into().expect("16 bytes"));
        let number = toll_bounds(image.bytes(), self.token, amounts.bytes(), least_toll, greatest_toll, lower, upper);
        let same_tolls = tolls.iter().zip(self.tolls).all(|(lent, toll)| lent.is_still(&toll.to_le_bytes()));
        let untouched = image.is_still(&self.image) && amounts.is_still(&self.amounts) && same_tolls;
        let whole = untouched && least.whole() && greatest.whole();
        whole.then(|| Given { number, holdings: [least, greatest].map(|holding| amount(holding.bytes(), 0)) })
    }

    /// What the library gives and how many moves were made, or in what the model differs.
    pub fn compare(&self, mistake: Option<Mistake>) -> Result<(Given, u64), String> {
        let found = self.at_library().ok_or("bytes of a list that is lent, or beside a list")?;
        let right = Given::of(self.asked().answer());
        let wanted = mistake.map_or(right, |mistake| mistake.make(self.asked(), right));
        match found.difference(wanted) {
            Some(difference) => Err(difference),
            None if found.number == 0 => Ok((found, self.within(found.holdings, mistake)?)),
            None => Ok((found, 0)),
        }
    }

    /// At some tolls within the bounds: the model's holding lies between the two, and the moves leave it. How many moves there were.
    fn within(&self, [least, greatest]: [i128; 2], mistake: Option<Mistake>) -> Result<u64, String> {
        let mut moves = 0;
        for toll in self.some_tolls() {
            let wanted = self.asked().holding(toll).filter(|holding| (least..=greatest).contains(holding));
            let wanted = wanted.ok_or_else(|| format!("the model's holding at the toll {toll} is not between {least} and {greatest}"))?;
            let left = self.move_all(if mistake == Some(Mistake::MovesWithoutToll) { 0 } else { toll })?;
            if left != wanted {
                return Err(format!("the moves at the toll {toll} leave {left}, the model {wanted}"));
            }
            moves += self.asked().listed().count() as u64;
        }
        Ok(moves)
    }

    /// The ends of the bounds, the middle, and the first amount where it lies between them.
    fn some_tolls(&self) -> Vec<i128> {
        let [least, greatest] = self.tolls;
        let first = self.asked().listed().next().unwrap_or(least);
        let mut tolls = vec![least, first.clamp(least, greatest), least + (greatest - least) / 2, greatest];
        tolls.sort();
        tolls.dedup();
        tolls
    }

    /// What address 1 holds when the library has moved the amounts one after another at a toll. Each sender, who moves two in a row, is
    /// given the amount before.
    fn move_all(&self, toll: i128) -> Result<i128, String> {
        let mut vault = Vault { image: self.image.clone(), journal: Vec::new() };
        put_amount(&mut vault.image, toll_at(self.token as usize), toll);
        for (place, amount) in self.asked().listed().enumerate() {
            let caller = sender(place, self.token);
            set_holding(&mut vault.image, self.token, caller, amount);
            let record = record(Fields { operation: 29, caller, token: self.token, other: 1, amount, ..Fields::default() });
            let number = ffi::call(&mut vault, &Call::Operation { record, events: vec![0; EVENTS] }, false).number;
            if number != 0 {
                return Err(format!("at the toll {toll} the move of amount {place} answers {number}"));
            }
        }
        Ok(holding(&vault.image, self.token, 1))
    }

    pub fn text(&self) -> String {
        let (asked, [least, greatest]) = (self.asked(), self.tolls);
        let amounts: Vec<String> = asked.listed().map(|amount| amount.to_string()).collect();
        format!(
            "image of {} bytes, token {} of kind {}, held {}, tolls {least} to {greatest}, amounts {} in {} bytes",
            self.image.len(),
            self.token,
            asked.kind(),
            asked.held(),
            amounts.join(","),
            self.amounts.len()
        )
    }
}

/// Any address but 1.
fn sender(place: usize, token: u8) -> u8 {
    match (token as usize + 5 * (place / 2)) % 63 {
        0 => 0,
        n => n as u8 + 1,
    }
}

/// How many requests were compared, and how many moves they made.
#[derive(Default)]
struct Made {
    requests: u64,
    moves: u64,
}

/// The first request in which library and model differ.
struct Difference {
    place: String,
    request: String,
    what: String,
}

impl Difference {
    fn text(self) -> String {
        format!("toll bounds, {}, {}: {}", self.place, self.request, self.what)
    }
}

/// Compares requests up to the first difference; `seen` gets each with the number that it was answered.
fn compare(
    of: &str,
    cases: impl Iterator<Item = Case>,
    mistake: Option<Mistake>,
    mut seen: impl FnMut(&Case, u32),
) -> Result<Made, Difference> {
    let mut made = Made::default();
    for case in cases {
        match case.compare(mistake) {
            Ok((given, moves)) => {
                seen(&case, given.number);
                made.requests += 1;
                made.moves += moves;
            }
            Err(what) => return Err(Difference { place: format!("{of} request {}", made.requests), request: case.text(), what }),
        }
    }
    Ok(made)
}

/// The comparison: lines of text, other directed requests, random ones.
pub fn run(seed: u64) -> Result<(), String> {
    let start = Instant::now();
    let lines = lines()?.len();
    let mut kinds = Kinds::new();
    let fixed = compare("directed", directed(), None, |_, _| {}).map_err(Difference::text)?;
    let drawn = compare("random", random(seed).take(RANDOM), None, |case, number| kinds.count(case.asked(), number));
    let drawn = drawn.map_err(Difference::text)?;
    kinds.all_met()?;
    println!(
        "toll bounds: {} directed requests, {lines} of them lines of text, and {} random ones, with {} outside moves at tolls within the \
         bounds, 0 differences, {:.1} s",
        fixed.requests,
        drawn.requests,
        fixed.moves + drawn.moves,
        start.elapsed().as_secs_f64()
    );
    kinds.print();
    Ok(())
}

/// Where a planted mistake is found, by the directed requests and by the random ones.
pub fn found(seed: u64, mistake: Mistake) -> Option<String> {
    let fixed = compare("directed", directed(), Some(mistake), |_, _| {}).err()?;
    let drawn = compare("random", random(seed).take(RANDOM), Some(mistake), |_, _| {}).err()?;
    Some(format!("in {} ({}) and {} ({})", fixed.place, fixed.what, drawn.place, drawn.what))
}
