//! Random requests for toll bounds, near the numbers on which an answer turns, and which kinds of them a run has to meet.
use crate::change::MOST;
use crate::generate::{any_amount, damage_image, image, near, not_negative};
use crate::report;
use crate::tolls::Case;
use crate::tolls_cases::bytes_of;
use model::build::set_holding;
use model::image::kind;
use model::random::Random;
use model::tolls::{Asked, Cause, CAUSES};

/// The random numbers of these requests stand apart from those of scenarios and of trial records.
const REQUESTS: u64 = 1 << 37;

/// Whether a request, answered with this number, is of a kind.
type Test = fn(Asked, u32) -> bool;

const KINDS: [(&str, Test); 22] = [
    ("done", |_, number| number == 0),
    ("done without an amount", |asked, number| number == 0 && asked.amounts.is_empty()),
    ("done with sixteen amounts", |asked, number| number == 0 && asked.amounts.len() == 256),
    ("done with a greatest holding of 2^127 - 1", |asked, number| number == 0 && asked.holding(asked.tolls[0]) == Some(MOST)),
    ("30", |_, number| number == 30),
    ("46 for a part of an amount alone", |asked, number| number == 46 && asked.has_only(Cause::PartOfAnAmount)),
    ("46 for more than sixteen amounts alone", |asked, number| number == 46 && asked.has_only(Cause::AmountsAboveSixteen)),
    ("46 for a toll below 0 alone", |asked, number| number == 46 && asked.has_only(Cause::TollBelowZero)),
    ("46 for tolls out of order alone", |asked, number| number == 46 && asked.has_only(Cause::TollsOutOfOrder)),
    ("46 for an address above 63 alone", |asked, number| number == 46 && asked.has_only(Cause::AddressAbove63)),
    ("46 for an absent token alone", |asked, number| number == 46 && asked.has_only(Cause::Absent)),
    ("46 for a frozen token alone", |asked, number| number == 46 && asked.has_only(Cause::Frozen)),
    ("46 for several of these", |asked, number| number == 46 && !CAUSES.iter().any(|cause| asked.has_only(*cause))),
    ("4", |_, number| number == 4),
    ("7 at the least toll alone", |asked, number| number == 7 && asked.holding(asked.tolls[1]).is_some()),
    ("7 at both tolls", |asked, number| number == 7 && asked.holding(asked.tolls[1]).is_none()),
    ("30 before 46", |asked, number| number == 30 && asked.holds(46)),
    ("30 before 4", |asked, number| number == 30 && asked.holds(4)),
    ("30 before 7", |asked, number| number == 30 && asked.holds(7)),
    ("46 before 4", |asked, number| number == 46 && asked.holds(4)),
    ("46 before 7", |asked, number| number == 46 && asked.holds(7)),
    ("4 before 7", |asked, number| number == 4 && asked.holds(7)),
];

/// How many requests were of each kind.
pub struct Kinds([u64; KINDS.len()]);

impl Kinds {
    pub fn new() -> Kinds {
        Kinds([0; KINDS.len()])
    }

    pub fn count(&mut self, asked: Asked, number: u32) {
        for (met, (_, test)) in self.0.iter_mut().zip(KINDS) {
            *met += test(asked, number) as u64;
        }
    }

    pub fn all_met(&self) -> Result<(), String> {
        report::all_met("toll bounds", KINDS.iter().map(|(name, _)| *name).zip(self.0))
    }

    pub fn print(&self) {
        for ((name, _), met) in KINDS.iter().zip(self.0) {
            println!("{met:>9} {name}");
        }
    }
}

/// The requests of a seed, without an end.
pub fn random(seed: u64) -> impl Iterator<Item = Case> {
    (0..).map(move |n| request(&mut Random::of(seed, REQUESTS + n)))
}

fn request(r: &mut Random) -> Case {
    let mut image = image(r);
    let token = address(r, &image);
    let tolls = tolls(r);
    let amounts = amounts(r, tolls);
    if kind(&image, token as usize) != 0 && r.percent(75) {
        let held = held(r, tolls, &amounts);
        set_holding(&mut image, token, 1, held);
    }
    if r.percent(12) {
        damage_image(r, &mut image);
    }
    Case { image, token, amounts: list(r, &amounts), tolls }
}

/// A token of this kind, where the image has one.
fn token_of_kind(r: &mut Random, image: &[u8], wanted: u8) -> Option<u8> {
    let tokens: Vec<u8> = (48..64).filter(|token| kind(image, *token as usize) == wanted).collect();
    (!tokens.is_empty()).then(|| r.of_list(&tokens))
}

/// Mostly that of a token that moves; and addresses that are one when their upper bits are left out.
fn address(r: &mut Random, image: &[u8]) -> u8 {
    let drawn = match r.weighted(&[76, 6, 6, 3, 4, 5]) {
        0 => token_of_kind(r, image, 1),
        1 => token_of_kind(r, image, 2),
        2 => token_of_kind(r, image, 0),
        3 => Some(r.below(48) as u8),
        4 => token_of_kind(r, image, 1).map(|token| token + 64 * r.below(3) as u8 + 64),
        _ => None,
    };
    drawn.unwrap_or_else(|| r.next() as u8)
}

fn small(r: &mut Random) -> i128 {
    r.below(12) as i128
}

/// Mostly in order; small, far apart, at the end of the range.
fn tolls(r: &mut Random) -> [i128; 2] {
    let mut tolls = match r.weighted(&[45, 15, 15, 10, 15]) {
        0 => [small(r), small(r)],
        1 => [0, r.below(2_000) as i128],
        2 => [not_negative(r), not_negative(r)],
        3 => [near(r, MOST - 1), MOST],
        _ => [any_amount(r), any_amount(r)],
    };
    match r.weighted(&[80, 14, 6]) {
        0 => tolls.sort(),
        1 => tolls[1] = tolls[0],
        _ => {}
    }
    tolls
}

fn amounts(r: &mut Random, tolls: [i128; 2]) -> Vec<i128> {
    let count = match r.weighted(&[7, 20, 40, 20, 8, 3, 2]) {
        0 => 0,
        1 => 1,
        2 => 2 + r.index(4),
        3 => r.index(17),
        4 => 16,
        5 => 17,
        _ => 18 + r.index(3),
    };
    let most = if r.percent(85) { 0 } else { 40 };
    (0..count).map(|_| one_amount(r, tolls, most)).collect()
}

/// Small, near a toll, or, with a weight, near the end of the range; now and then not above 0.
fn one_amount(r: &mut Random, tolls: [i128; 2], most: u64) -> i128 {
    match r.weighted(&[120, 30, 20, most, most, 2, 1]) {
        0 => 1 + r.below(30) as i128,
        1 => {
            let toll = r.of_list(&tolls);
            near(r, toll).max(1)
        }
        2 => 1 + r.below(2_000) as i128,
        3 => MOST - r.below(3) as i128,
        4 => not_negative(r).max(1),
        5 => r.of_list(&[0, 0, -1, i128::MIN]),
        _ => any_amount(r),
    }
}

/// Nothing, little, almost the most, or what makes the holding at one of the tolls 2^127 - 1 or the number beside it.
fn held(r: &mut Random, tolls: [i128; 2], amounts: &[i128]) -> i128 {
    let toll = r.of_list(&tolls);
    let arrived = amounts.iter().fold(0i128, |sum, amount| sum.saturating_add(amount.saturating_sub(toll).max(0)));
    match r.weighted(&[10, 40, 8, 7, 35]) {
        0 => 0,
        1 => r.below(2_000) as i128,
        2 => MOST - r.below(2_000) as i128,
        3 => MOST,
        _ => near(r, MOST - arrived).max(0),
    }
}

/// The amounts one after another, now and then with some bytes too few or too many.
fn list(r: &mut Random, amounts: &[i128]) -> Vec<u8> {
    let mut bytes = bytes_of(amounts);
    let (fewer, more) = (r.index(16), r.index(16));
    match r.weighted(&[94, 3, 3]) {
        0 => {}
        1 => bytes.truncate(bytes.len().saturating_sub(fewer)),
        _ => bytes.resize(bytes.len() + more, r.next() as u8),
    }
    bytes
}
