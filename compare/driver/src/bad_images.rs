//! Vectors of images: for each rule of a good image one that breaks it alone, and good images at the edge of the rules.
use crate::change::{accepted, MOST, OPERATOR};
use crate::directed::call;
use crate::start_image::{nothing_pending, plain, uninitialised};
use crate::vectors::List;
use model::bytes::{put, put_amount};
use model::image::{cap_at, credit_at, good, holding_at, snapshot_at, token_at, toll_at, LENGTH, TRACKED};
use model::vault::{Call, Vault};

/// Moving, frozen and absent tokens of the plain image.
const MOVING: usize = 49;
const FROZEN: usize = 52;
const ABSENT: usize = 63;
const KEYS: usize = 1504;

/// Neither operator nor operator limit, no owner proposed, no migration.
fn bare() -> Vec<u8> {
    let mut image = plain();
    nothing_pending(&mut image);
    (image[0], image[4]) = (1, 0);
    put_amount(&mut image, 24, 0);
    image
}

fn set_keys(image: &mut [u8], count: usize, keys: &[u16]) {
    put(image, 88, &(count as u16).to_le_bytes());
    for (i, key) in keys.iter().enumerate() {
        put(image, KEYS + 2 * i, &key.to_le_bytes());
    }
}

/// No snapshot of a token, but for one byte.
fn snapshot_byte(image: &mut [u8], token: usize, at: usize) {
    let snapshot = snapshot_at(token);
    image[snapshot..snapshot + 24].fill(0);
    image[snapshot + at] = 1;
}

/// An image that breaks one rule.
type Break = fn(&mut [u8]);

const HEAD: [Break; 15] = [
    |i| i[0] |= 64,
    |i| i[1] |= 128,
    |i| i[2] = 64,
    |i| i[3] = 64,
    |i| i[4] = 64,
    |i| i[5] = 64,
    |i| i[6] = 64,
    |i| i[7] = 64,
    |i| put_amount(i, 8, 0),
    |i| put_amount(i, 8, -1),
    |i| i[48..56].fill(0),
    |i| {
        set_keys(i, TRACKED, &all_keys());
        i[3] = 47;
    },
    |i| i[3] = ABSENT as u8,
    |i| put_amount(i, 24, 0),
    |i| put_amount(i, 24, -1),
];

/// What has to be zero where there is no operator, operator limit, proposal or migration.
const NOT_SET: [Break; 8] =
    [|i| i[4] = OPERATOR, |i| put_amount(i, 24, 1), |i| i[5] = 1, |i| i[6] = 1, |i| i[47] = 1, |i| i[7] = 1, |i| i[63] = 1, |i| i[71] = 1];

const LISTS: [Break; 10] = [
    |i| i[80] |= 1,
    |i| {
        i[80] |= 1;
        put_amount(i, cap_at(0), -1);
    },
    |i| put_amount(i, cap_at(63), 1),
    |i| i[90] = 1,
    |i| i[95] = 1,
    |i| set_keys(i, TRACKED + 1, &all_keys()),
    |i| set_keys(i, 2, &[3, TRACKED as u16]),
    |i| set_keys(i, 3, &[3, 7, 3]),
    |i| set_keys(i, 1, &[3, 7]),
    |i| put(i, KEYS + 2 * TRACKED - 2, &7u16.to_le_bytes()),
];

const TOKENS: [Break; 17] = [
    |i| i[snapshot_at(MOVING)] = 2,
    |i| i[snapshot_at(MOVING) + 3] = 1,
    |i| snapshot_byte(i, MOVING, 4),
    |i| snapshot_byte(i, MOVING, 23),
    |i| i[token_at(MOVING)] = 3,
    |i| i[token_at(MOVING) + 1] = 1,
    |i| i[token_at(ABSENT) + 7] = 1,
    |i| put_amount(i, toll_at(ABSENT), 1),
    |i| put_amount(i, toll_at(ABSENT), 1 << 120),
    |i| i[snapshot_at(ABSENT)] = 1,
    |i| put_amount(i, holding_at(ABSENT, 63), 1),
    |i| put_amount(i, credit_at(ABSENT, 63), 1),
    |i| put_amount(i, toll_at(MOVING), -1),
    |i| put_amount(i, holding_at(MOVING, 63), -1),
    |i| put_amount(i, credit_at(MOVING, 0), i128::MIN),
    |i| put_amount(i, holding_at(FROZEN, 0), i128::MIN),
    |i| put_amount(i, credit_at(FROZEN, 63), -1),
];

const UNINITIALISED: [Break; 7] = [
    |i| i[0] = 2,
    |i| i[2] = 1,
    |i| i[72] = 1,
    |i| {
        i[80] = 1;
        put_amount(i, cap_at(0), 1);
    },
    |i| set_keys(i, 1, &[0]),
    |i| i[snapshot_at(MOVING)] = 1,
    |i| put_amount(i, holding_at(MOVING, 2), -1),
];

fn all_keys() -> Vec<u16> {
    (0..TRACKED as u16).rev().collect()
}

/// Every field at the end of what is good: least limits, no roles that fit together, all keys tracked.
fn edge() -> Vec<u8> {
    let mut image = vec![0; LENGTH];
    image[0] = 0b111001;
    put(&mut image, 2, &[63, 63, 0, 0, 63, 0]);
    for at in [8, 24, cap_at(0)] {
        put_amount(&mut image, at, 1);
    }
    for (at, time) in [(40, u64::MAX), (48, 1), (56, u64::MAX), (64, 0), (72, u64::MAX), (80, 1 | 1 << 63)] {
        put(&mut image, at, &time.to_le_bytes());
    }
    put_amount(&mut image, cap_at(63), MOST);
    set_keys(&mut image, TRACKED, &all_keys());
    image[token_at(63)] = 2;
    put_amount(&mut image, toll_at(63), MOST);
    for account in 0..64 {
        put_amount(&mut image, holding_at(63, account), MOST);
        put_amount(&mut image, credit_at(63, account), MOST);
    }
    put(&mut image, snapshot_at(63), &[1, 0, 0, 0, 255, 255, 255, 255]);
    put_amount(&mut image, snapshot_at(63) + 8, i128::MIN);
    image
}

/// Roles at address 63, the vault with a holding of 1, a snapshot with nothing in it, a token that nobody holds, one key.
fn other_edge() -> Vec<u8> {
    let mut image = plain();
    put(&mut image, 2, &[63, 48, 63, 63, 0, 63]);
    put_amount(&mut image, holding_at(48, 1), 1);
    image[snapshot_at(48) + 4..snapshot_at(48) + 24].fill(0);
    image[holding_at(50, 0)..holding_at(51, 0)].fill(0);
    image[credit_at(50, 0)..credit_at(51, 0)].fill(0);
    set_keys(&mut image, 1, &[TRACKED as u16 - 1]);
    image
}

/// Calls of the owner, then some with the address before the first token, whose place would be among the keys.
fn edge_calls() -> Vec<Vec<u8>> {
    let mut records: Vec<Vec<u8>> = [27, 24, 26, 28, 2, 5, 22, 16, 23, 30, 12, 7].into_iter().map(accepted).collect();
    for operation in [26, 28, 29, 30] {
        let mut record = accepted(operation);
        record[2] = 47;
        records.push(record);
    }
    for record in &mut records {
        record[1] = 63;
    }
    records
}

fn list(image: Vec<u8>, records: Vec<Vec<u8>>) -> List {
    let mut calls: Vec<Call> = records.into_iter().map(call).collect();
    calls.push(Call::Begin);
    List { start: Vault { image, journal: vec![0; 48] }, calls }
}

pub fn lists() -> Vec<List> {
    let mut lists = Vec::new();
    let from = [(plain(), &HEAD[..]), (bare(), &NOT_SET), (plain(), &LISTS), (plain(), &TOKENS), (uninitialised(), &UNINITIALISED)];
    for (start, breaks) in from {
        assert!(good(&start), "an image to start from that is not good");
        for (n, break_rule) in breaks.iter().enumerate() {
            let mut image = start.clone();
            break_rule(&mut image);
            assert!(!good(&image), "image {n} breaks no rule");
            lists.push(list(image, vec![accepted(27)]));
        }
    }
    for image in [edge(), other_edge()] {
        lists.push(list(image, edge_calls()));
    }
    lists
}
