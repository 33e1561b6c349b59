//! Start images of the vectors that ask for the order of refusals: a plain one, and others that differ from it in little.
use crate::change::{MOST, MOST_DEPOSIT, OPERATOR, OWNER, PENDING, PROPOSER, STALE};
use model::bytes::{get64, put, put_amount};
use model::image::{cap_at, credit_at, holding_at, snapshot_at, token_at, toll_at, LENGTH};

const DEFAULT: usize = 48;
/// Tokens of the plain image: with a toll, a holding of the vault or a credit of the owner that is almost the most, and so on.
const TOLL: [usize; 3] = [53, 54, 57];
const FULL: [usize; 4] = [54, 56, 57, 59];
const FROZEN: [usize; 2] = [52, 60];
const CREDITED: usize = 61;
const ABSENT: [usize; 4] = [51, 58, 62, 63];
const UNAPPROVED: [usize; 3] = [47, 50, 58];
const CAPS: [(usize, i128); 5] = [(51, 4), (55, 104), (56, MOST), (57, MOST), (60, 104)];

fn token(image: &mut [u8], token: usize) {
    image[token_at(token)] = if FROZEN.contains(&token) { 2 } else { 1 };
    let toll = if TOLL.contains(&token) { 3 } else { 0 };
    let held = if FULL.contains(&token) { MOST - 2 } else { 100 };
    put_amount(image, toll_at(token), toll);
    let richest = 3 * MOST_DEPOSIT;
    for (account, held) in [(1, held), (OWNER, richest), (OPERATOR, 2_000), (0, 20), (7, MOST), (8, MOST - 2), (10, 20)] {
        put_amount(image, holding_at(token, account as usize), held);
    }
    let owners = if token == DEFAULT || token == CREDITED { MOST - 5 } else { 30 };
    let operators = if token == DEFAULT || TOLL.contains(&token) { MOST } else { 40 };
    for (account, credit) in [(OWNER, owners), (OPERATOR, operators)] {
        put_amount(image, credit_at(token, account as usize), credit);
    }
    let at = snapshot_at(token);
    image[at] = 1;
    put(image, at + 4, &STALE.to_le_bytes());
    put_amount(image, at + 8, 99);
}

/// Tokens in different states, low addresses approved; an operator with a limit of 50; an owner proposed and a migration under way.
pub fn plain() -> Vec<u8> {
    let mut image = vec![0; LENGTH];
    image[0] = 0b111101;
    put(&mut image, 2, &[OWNER, DEFAULT as u8, OPERATOR, PENDING, PROPOSER, 6]);
    put_amount(&mut image, 8, 1_000);
    put_amount(&mut image, 24, 50);
    for (at, time) in [(40, 1_000u64), (48, 100), (56, 10), (64, 500)] {
        put(&mut image, at, &time.to_le_bytes());
    }
    for t in (48..64).filter(|t| !ABSENT.contains(t)) {
        token(&mut image, t);
    }
    let approved = UNAPPROVED.iter().fold(u64::MAX, |set, t| set & !(1 << t));
    let capped = CAPS.iter().fold(0u64, |set, (t, _)| set | 1 << t);
    put(&mut image, 72, &approved.to_le_bytes());
    put(&mut image, 80, &capped.to_le_bytes());
    for (t, cap) in CAPS {
        put_amount(&mut image, cap_at(t), cap);
    }
    image
}

pub fn uninitialised() -> Vec<u8> {
    let mut image = plain();
    image[..3680].fill(0);
    image
}

/// And a proposal that is good up to the last second that there is.
fn without_approval(image: &mut [u8]) {
    put(image, 40, &(u64::MAX - 100).to_le_bytes());
    let approved = get64(image, 72) & !(1 << DEFAULT);
    put(image, 72, &approved.to_le_bytes());
}

fn full(image: &mut [u8]) {
    put_amount(image, holding_at(DEFAULT, 1), MOST - 2);
    put_amount(image, 8, MOST);
}

fn owner_is_operator(image: &mut [u8]) {
    (image[4], image[7]) = (OWNER, 1);
    put_amount(image, 24, 4);
    put(image, 40, &(u64::MAX - 50).to_le_bytes());
}

pub fn nothing_pending(image: &mut [u8]) {
    image[0] &= 0b1111;
    image[5..8].fill(0);
    image[40..48].fill(0);
    image[56..72].fill(0);
}

fn empty_and_frozen(image: &mut [u8]) {
    image[token_at(DEFAULT)] = 2;
    put_amount(image, holding_at(DEFAULT, 1), 0);
    image[snapshot_at(DEFAULT)..snapshot_at(DEFAULT) + 24].fill(0);
}

fn toll_and_own_migration(image: &mut [u8]) {
    put_amount(image, toll_at(DEFAULT), 3);
    image[7] = 1;
}

/// The plain image, then others that differ from it in little; and whether it is in who is owner and operator.
pub fn all() -> Vec<(Vec<u8>, bool)> {
    let with = |change: &dyn Fn(&mut [u8])| {
        let mut image = plain();
        change(&mut image);
        (image, false)
    };
    let roles = |change: &dyn Fn(&mut [u8])| (with(change).0, true);
    vec![
        with(&|_| {}),
        with(&|image| image[..3680].fill(0)),
        with(&|image| image[0] |= 2),
        with(&without_approval),
        with(&|image| image[token_at(DEFAULT)] = 2),
        with(&toll_and_own_migration),
        with(&full),
        with(&|image| {
            full(image);
            without_approval(image);
        }),
        with(&|image| {
            image[0] = 0b110101;
            put_amount(image, 24, 0);
        }),
        with(&nothing_pending),
        with(&empty_and_frozen),
        roles(&|image| (image[0], image[4]) = (0b111001, 0)),
        roles(&owner_is_operator),
    ]
}
