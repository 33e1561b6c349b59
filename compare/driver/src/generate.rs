//! Random good images, records near the limits of an image, journals, and damaged bytes.
use model::bytes::{amount, get16, get32, get64, put, put_amount};
use model::image::{cap_at, credit_at, flag, holding_at, kind, snapshot_at, token_at, toll_at, LENGTH};
use model::random::Random;
use model::record::{reads_items, EVENTS};

const MOST: i128 = i128::MAX;
const MOST_DEPOSIT: i128 = 1_000_000_000_000_000_000_000_000_000_000;
const TIMELOCK: u64 = 172_800;

/// The number, or one beside it.
pub fn near(r: &mut Random, n: i128) -> i128 {
    n.wrapping_add(r.of_list(&[0, 0, 0, 1, -1]))
}

fn near_time(r: &mut Random, n: u64) -> u64 {
    n.wrapping_add(r.of_list(&[0, 0, 1, u64::MAX]))
}

/// Any amount, the ends of the range and of a deposit more often.
pub fn any_amount(r: &mut Random) -> i128 {
    match r.weighted(&[30, 20, 10, 8, 8, 8, 6, 4, 6]) {
        0 => r.below(12) as i128,
        1 => r.below(2_000) as i128,
        2 => MOST_DEPOSIT + r.of_list(&[-1, 0, 0, 1]),
        3 => MOST - r.below(3) as i128,
        4 => MOST - r.below(2_000) as i128,
        5 => (r.wide() >> (1 + r.below(126))) as i128,
        6 => {
            let n = r.of_list(&[1 << 63, 1 << 64, u64::MAX as i128, 1 << 126, MOST - MOST_DEPOSIT]);
            near(r, n)
        }
        7 => -(r.below(2_000) as i128),
        _ => r.of_list(&[i128::MIN, i128::MIN + 1, -1, 0, -(1 << 64), -(1 << 63)]),
    }
}

pub fn not_negative(r: &mut Random) -> i128 {
    match any_amount(r) {
        n if n < 0 => n.wrapping_neg().max(0),
        n => n,
    }
}

/// A holding that small deposits and payouts can be made of, as a rule.
fn holding(r: &mut Random) -> i128 {
    match r.weighted(&[50, 15, 35]) {
        0 => r.below(2_000) as i128,
        1 => MOST_DEPOSIT * (1 + r.below(20) as i128),
        _ => not_negative(r),
    }
}

fn above_zero(r: &mut Random) -> i128 {
    not_negative(r).max(1)
}

fn any_time(r: &mut Random) -> u64 {
    match r.weighted(&[30, 30, 15, 25]) {
        0 => r.below(10),
        1 => 1_700_000_000 + r.below(2_000_000),
        2 => u64::MAX - r.below(2 * TIMELOCK),
        _ => r.next() >> r.below(64),
    }
}

fn ledger(r: &mut Random) -> u32 {
    match r.weighted(&[60, 20, 20]) {
        0 => r.below(4) as u32,
        1 => u32::MAX - r.below(2) as u32,
        _ => r.next() as u32,
    }
}

/// Few addresses, so that roles meet in one.
fn person(r: &mut Random) -> u8 {
    match r.weighted(&[70, 6, 6, 18]) {
        0 => 2 + r.below(5) as u8,
        1 => 0,
        2 => 1,
        _ => r.below(64) as u8,
    }
}

fn set_of(r: &mut Random) -> u64 {
    match r.weighted(&[35, 20, 15, 30]) {
        0 => 0,
        1 => 1 << r.below(64),
        2 => u64::MAX,
        _ => r.next() & r.next(),
    }
}

/// A good image.
pub fn image(r: &mut Random) -> Vec<u8> {
    let mut image = vec![0; LENGTH];
    let default_token = if r.percent(50) { 48 } else { 48 + r.index(16) };
    let people = [1, person(r), person(r), person(r), person(r)];
    for token in 48..64 {
        let weights = if token == default_token { [0, 88, 12] } else { [60, 32, 8] };
        let kind = r.weighted(&weights);
        if kind != 0 {
            image[token_at(token)] = kind as u8;
            token_table(r, &mut image, token, &people);
        }
    }
    if r.percent(92) {
        initialised(r, &mut image, default_token, &people);
        settings(r, &mut image, default_token);
        tracked_keys(r, &mut image, default_token, people[1]);
    }
    image
}

fn token_table(r: &mut Random, image: &mut [u8], token: usize, people: &[u8]) {
    if r.percent(25) {
        let toll = if r.percent(50) { r.below(10) as i128 } else { not_negative(r) };
        put_amount(image, toll_at(token), toll);
    }
    for person in people {
        if r.percent(85) {
            let held = holding(r);
            put_amount(image, holding_at(token, *person as usize), held);
        }
        if r.percent(40) {
            let credit = if r.percent(30) { MOST - r.below(1_500) as i128 } else { not_negative(r) };
            put_amount(image, credit_at(token, *person as usize), credit);
        }
    }
    let more = r.of_list(&[0, 0, 0, 0, 3, 3, 20, 64]);
    for _ in 0..more {
        let (held, credit) = (holding(r), not_negative(r));
        put_amount(image, holding_at(token, r.index(64)), held);
        put_amount(image, credit_at(token, r.index(64)), credit);
    }
}

fn initialised(r: &mut Random, image: &mut [u8], default_token: usize, people: &[u8]) {
    let mut flags = 1u16;
    for (bit, weight) in [(1, 10), (2, 70), (3, 65), (4, 50), (5, 50)] {
        if r.percent(weight) {
            flags |= 1 << bit;
        }
    }
    put(image, 0, &flags.to_le_bytes());
    image[2] = people[1];
    image[3] = default_token as u8;
    let held = amount(image, holding_at(default_token, 1));
    let limit = match r.weighted(&[45, 20, 35]) {
        0 => held.saturating_add(r.below(2_000) as i128),
        1 => MOST,
        _ => above_zero(r),
    };
    put_amount(image, 8, limit.max(1));
    if flag(image, 2) {
        image[4] = if r.percent(8) { people[1] } else { people[2] };
    }
    if flag(image, 3) {
        let limit = if r.percent(50) { 1 + r.below(1_500) as i128 } else { above_zero(r) };
        put_amount(image, 24, limit);
    }
    let ttl = match r.weighted(&[40, 30, 30]) {
        0 => 604_800,
        1 => 1 + r.below(100),
        _ => any_time(r).max(1),
    };
    put(image, 48, &ttl.to_le_bytes());
    if flag(image, 4) {
        image[5] = people[3];
        image[6] = person(r);
        put(image, 40, &any_time(r).to_le_bytes());
    }
    if flag(image, 5) {
        image[7] = person(r);
        put(image, 56, &any_time(r).to_le_bytes());
        put(image, 64, &any_time(r).to_le_bytes());
    }
}

fn settings(r: &mut Random, image: &mut [u8], default_token: usize) {
    let mut approved = set_of(r) | set_of(r);
    if r.percent(85) {
        approved |= 1 << default_token;
    }
    put(image, 72, &approved.to_le_bytes());
    let capped = set_of(r);
    put(image, 80, &capped.to_le_bytes());
    for address in 0..64 {
        if capped >> address & 1 == 1 {
            let held = if address >= 48 { amount(image, holding_at(address, 1)) } else { 0 };
            let cap = match r.weighted(&[50, 20, 30]) {
                0 => held.saturating_add(r.below(1_500) as i128),
                1 => MOST,
                _ => above_zero(r),
            };
            put_amount(image, cap_at(address), cap.max(1));
        }
    }
    for token in 48..64 {
        if kind(image, token) != 0 && r.percent(60) {
            let at = snapshot_at(token);
            let held = amount(image, holding_at(token, 1));
            let seen = match r.weighted(&[70, 10, 20]) {
                0 => held,
                1 => near(r, held),
                _ => any_amount(r),
            };
            put(image, at, &1u32.to_le_bytes());
            put(image, at + 4, &ledger(r).to_le_bytes());
            put_amount(image, at + 8, seen);
        }
    }
}

/// None, some, or nearly all keys; those that a call is likely to need come last.
fn tracked_keys(r: &mut Random, image: &mut [u8], default_token: usize, owner: u8) {
    let count = match r.weighted(&[25, 57, 6, 6, 6]) {
        0 => 0,
        1 => r.index(8),
        2 => r.index(1_089),
        3 => 1_087 - r.index(4),
        _ => 1_088,
    };
    let wanted = 64 * (default_token as u16 - 48) + owner as u16;
    let mut keys: Vec<u16> = (0..1_088).filter(|k| *k != wanted).collect();
    let mixed = count.min(keys.len());
    for i in 0..mixed {
        let j = i + r.index(keys.len() - i);
        keys.swap(i, j);
    }
    keys.push(wanted);
    if count < keys.len() && count > 0 && r.percent(30) {
        keys[r.index(count)] = wanted;
    }
    for (i, key) in keys[..count].iter().enumerate() {
        put(image, 1504 + 2 * i, &key.to_le_bytes());
    }
    put(image, 88, &(count as u16).to_le_bytes());
}

/// A record for an image: mostly of good form, with amounts and times near what the image's limits turn on.
pub fn record(r: &mut Random, image: &[u8], operation: u8) -> Vec<u8> {
    let mut record = vec![0; 448];
    if r.percent(50) {
        r.fill(&mut record);
    }
    record[0] = operation;
    record[1] = caller(r, image, operation);
    record[2] = token(r, image, operation);
    record[3] = other(r, image, operation);
    record[4] = if r.percent(1) { 2 + r.below(254) as u8 } else { r.below(2) as u8 };
    put(&mut record, 8, &timestamp(r, image).to_le_bytes());
    let target = if matches!(operation, 7 | 8 | 12 | 29) { record[2] } else { image[3] };
    let target = if (48..64).contains(&target) { target as usize } else { 48 };
    let sequence = if r.percent(55) { get32(image, snapshot_at(target) + 4) } else { ledger(r) };
    put(&mut record, 16, &sequence.to_le_bytes());
    let signers = signers(r, record[1]);
    put(&mut record, 24, &signers.to_le_bytes());
    let sum = call_amount(r, image, &record, target);
    put_amount(&mut record, 32, sum);
    if operation == 17 && r.percent(90) {
        let ttl = if r.percent(15) { 0 } else { any_time(r) };
        put(&mut record, 32, &ttl.to_le_bytes());
    }
    let fee = match r.weighted(&[30, 30, 20, 20]) {
        0 => 0,
        1 => sum.wrapping_sub(r.below(1_000) as i128),
        2 => near(r, sum),
        _ => any_amount(r),
    };
    put_amount(&mut record, 48, fee);
    if operation == 3 && r.percent(60) {
        // the net near a limit
        let gross = sum.wrapping_add(fee.clamp(0, 1_000));
        put_amount(&mut record, 32, gross);
        put_amount(&mut record, 48, fee.clamp(0, 1_000));
    }
    if reads_items(operation) {
        items(r, image, &mut record, target, sum);
    }
    record
}

/// A record that is likely to be accepted.
pub fn likely_record(r: &mut Random, image: &[u8], operation: u8) -> Vec<u8> {
    let mut record = record(r, image, operation);
    let token = if image[3] >= 48 && r.percent(70) { image[3] } else { 48 + r.below(16) as u8 };
    record[1] = if operation == 16 { image[5] } else { image[2] };
    record[2] = token;
    record[3] = if r.percent(25) { 1 } else { 2 + r.below(6) as u8 };
    record[4] &= 1;
    put(&mut record, 24, &[255; 8]);
    if matches!(operation, 2 | 3 | 5 | 7 | 8 | 9 | 29) {
        put_amount(&mut record, 32, 5 + r.below(20) as i128);
        put_amount(&mut record, 48, r.below(5) as i128);
    }
    match operation {
        16 => put(&mut record, 8, &get64(image, 40).to_le_bytes()),
        22 => put(&mut record, 8, &get64(image, 64).to_le_bytes()),
        29 => {
            let holders: Vec<u8> = (2..64).filter(|a| amount(image, holding_at(token as usize, *a as usize)) > 20).collect();
            if !holders.is_empty() {
                record[1] = r.of_list(&holders);
            }
        }
        _ => {}
    }
    record
}

fn out_of_range(r: &mut Random) -> u8 {
    64 + r.below(192) as u8
}

fn caller(r: &mut Random, image: &[u8], operation: u8) -> u8 {
    let weights = match operation {
        16 => [10, 5, 75, 9, 1],
        29 => [15, 15, 10, 59, 1],
        11 => [45, 30, 5, 19, 1],
        _ => [62, 22, 5, 10, 1],
    };
    match r.weighted(&weights) {
        0 => image[2],
        1 => image[4],
        2 => image[5],
        3 => person(r),
        _ => out_of_range(r),
    }
}

fn token(r: &mut Random, image: &[u8], operation: u8) -> u8 {
    let approved = get64(image, 72);
    match r.weighted(&[25, 40, 14, 10, 10, 1]) {
        0 => image[3],
        1 => {
            let wanted = |t: &u8| kind(image, *t as usize) != 0 && (operation != 7 || approved >> t & 1 == 1);
            let present: Vec<u8> = (48..64).filter(wanted).collect();
            if present.is_empty() {
                48
            } else {
                r.of_list(&present)
            }
        }
        2 => 48 + r.below(16) as u8,
        3 => r.below(64) as u8,
        4 => 0,
        _ => out_of_range(r),
    }
}

fn other(r: &mut Random, image: &[u8], operation: u8) -> u8 {
    let vault = if operation == 29 { 50 } else { 12 };
    match r.weighted(&[40, vault, 20, 8, 19, 1]) {
        0 => person(r),
        1 => 1,
        2 => image[2],
        3 => 0,
        4 => r.below(64) as u8,
        _ => out_of_range(r),
    }
}

fn signers(r: &mut Random, caller: u8) -> u64 {
    match r.weighted(&[78, 8, 4, 2, 8]) {
        0 => u64::MAX,
        1 => !(1 << (caller & 63)),
        2 => 1 << (caller & 63),
        3 => 0,
        _ => r.next() | r.next(),
    }
}

fn timestamp(r: &mut Random, image: &[u8]) -> u64 {
    match r.weighted(&[25, 20, 15, 10, 30]) {
        0 => near_time(r, get64(image, 40).wrapping_add(get64(image, 48))),
        1 => near_time(r, get64(image, 64)),
        2 => get64(image, 40).saturating_add(r.below(5)),
        3 => near_time(r, u64::MAX - TIMELOCK),
        _ => any_time(r),
    }
}

/// An amount near one that a rule of the operation compares with.
fn call_amount(r: &mut Random, image: &[u8], record: &[u8], token: usize) -> i128 {
    let account = |a: u8| (a & 63) as usize;
    let held = amount(image, holding_at(token, 1));
    let credit = amount(image, credit_at(token, account(record[1])));
    let turn = match r.weighted(&[22, 10, 8, 8, 8, 8, 6, 5, 6, 5, 5, 5, 4, 8, 3]) {
        0 => return 1 + r.below(60) as i128,
        1 => held,
        2 => amount(image, 8).wrapping_sub(held),
        3 => amount(image, 24),
        4 => credit,
        5 => amount(image, holding_at(token, account(record[1]))),
        6 => amount(image, toll_at(token)),
        7 => amount(image, cap_at(token)).wrapping_sub(held),
        8 => MOST.wrapping_sub(held),
        9 => MOST.wrapping_sub(credit),
        10 => MOST.wrapping_sub(amount(image, holding_at(token, account(record[3])))),
        11 => MOST_DEPOSIT,
        12 => amount(image, 8),
        13 => return any_amount(r),
        _ => return r.of_list(&[0, -1, i128::MIN]),
    };
    near(r, turn)
}

fn items(r: &mut Random, image: &[u8], record: &mut [u8], token: usize, sum: i128) {
    let count = match r.weighted(&[5, 25, 45, 15, 9, 1]) {
        0 => 0,
        1 => 1,
        2 => 2 + r.below(4) as u8,
        3 => r.below(17) as u8,
        4 => 16,
        _ => 17 + r.below(239) as u8,
    };
    record[5] = count;
    let split = r.percent(35);
    let modest = r.percent(60);
    let holders: Vec<u8> = (0..64).filter(|a| amount(image, holding_at(token, *a as usize)) > 20).collect();
    let mut left = sum;
    for i in 0..count.min(16) as usize {
        let at = 64 + 24 * i;
        let holder = if modest { 1_000 } else { 40 };
        record[at] = match r.weighted(&[25, 15, 6, 13, 1, holder]) {
            5 if !holders.is_empty() => r.of_list(&holders),
            0 | 5 => person(r),
            1 => image[2],
            2 => 1,
            3 => r.below(64) as u8,
            _ if r.percent(20) => out_of_range(r),
            _ => person(r),
        };
        let part = if split && i + 1 == count as usize {
            left
        } else if split {
            (left / 2).min(1 + r.below(1_000) as i128)
        } else if modest {
            1 + r.below(12) as i128
        } else {
            match r.weighted(&[80, 8, 4, 4, 4]) {
                0 => 1 + r.below(40) as i128,
                1 => amount(image, holding_at(token, (record[at] & 63) as usize)),
                2 => sum,
                3 => any_amount(r),
                _ => MOST_DEPOSIT + r.of_list(&[0, 0, 1]),
            }
        };
        left = left.wrapping_sub(part);
        put_amount(record, at + 8, part);
    }
}

/// An operation's number; now and then one that is none.
pub fn operation(r: &mut Random, image: &[u8]) -> u8 {
    if image.len() == LENGTH && flag(image, 1) && r.percent(15) {
        return 19;
    }
    if image.len() == LENGTH && !flag(image, 0) && r.percent(25) {
        return 1;
    }
    match r.weighted(&[70, 29, 1]) {
        0 => 1 + r.below(30) as u8,
        1 => r.of_list(&[2, 3, 4, 5, 6, 7, 8, 9, 11, 16, 22, 29, 30]),
        _ => r.of_list(&[0, 31, 32, 64, 128, 255]),
    }
}

/// The caller's event buffer: any bytes, now and then of another length.
pub fn events(r: &mut Random) -> Vec<u8> {
    let length = if r.percent(1) { r.of_list(&[0, 1, 55, 56, 448, 895, 897, 952, 1792]) } else { EVENTS };
    let mut events = vec![0; length];
    if r.percent(60) {
        let byte = r.next() as u8;
        events.fill(byte);
    }
    events
}

/// The length of a good journal.
pub fn journal_length(r: &mut Random) -> usize {
    let places = match r.weighted(&[35, 25, 25, 15]) {
        0 => 1 + r.index(8),
        1 => 1 + r.index(60),
        2 => 100 + r.index(200),
        _ => r.of_list(&[1_999, 2_000]),
    };
    24 * (1 + places)
}

/// A good open journal, with any entries.
pub fn open_journal(r: &mut Random, image: &[u8]) -> Vec<u8> {
    let length = journal_length(r);
    let places = length / 24 - 1;
    let mut journal = vec![0; length];
    journal[0] = 1;
    let calls = match r.weighted(&[15, 45, 20, 20]) {
        0 => 0,
        1 => 1 + r.index(6),
        2 => r.index(1_001),
        _ => 1_000 - r.index(2),
    };
    let entries = match r.weighted(&[25, 30, 15, 30]) {
        _ if calls == 0 => 0,
        0 => 0,
        1 => r.index(places.min(12) + 1),
        2 => r.index(places + 1),
        _ => places - r.index(places.min(6)),
    };
    put(&mut journal, 2, &(calls as u16).to_le_bytes());
    let mut keys: Vec<(u16, u16)> = Vec::new();
    for _ in 0..entries {
        let cell = if r.percent(50) { r.index(300) } else { r.index(2_302) };
        keys.push((1 + r.index(calls) as u16, cell as u16));
    }
    keys.sort();
    keys.dedup();
    for (i, (call, cell)) in keys.iter().enumerate() {
        let at = 24 * (1 + i);
        put(&mut journal, at, &cell.to_le_bytes());
        put(&mut journal, at + 2, &call.to_le_bytes());
        let old = &image[16 * *cell as usize..16 * *cell as usize + 16];
        if r.percent(60) {
            put(&mut journal, at + 8, old);
        } else if r.percent(50) {
            put_amount(&mut journal, at + 8, any_amount(r));
        }
    }
    put(&mut journal, 4, &(keys.len() as u16).to_le_bytes());
    journal
}

/// Changes the length, or some bytes where a rule of goodness looks.
pub fn damage_image(r: &mut Random, image: &mut Vec<u8>) {
    if r.percent(8) {
        let length = r.of_list(&[0, 1, 2, 95, 3680, LENGTH - 16, LENGTH - 1, LENGTH + 1, LENGTH + 16, 2 * LENGTH]);
        image.resize(length, 0);
        return;
    }
    for _ in 0..1 + r.below(2) {
        let at = match r.weighted(&[45, 8, 8, 8, 12, 10, 9]) {
            0 => r.index(96),
            1 => 96 + r.index(1024),
            2 => 1120 + r.index(384),
            3 => 1504 + r.index(2176),
            4 => 3680 + r.index(384),
            5 => 4064 + 16 * r.index(2048) + 15,
            _ => r.index(LENGTH),
        };
        match r.weighted(&[30, 20, 20, 10, 10, 10]) {
            0 => image[at] ^= 1 << r.below(8),
            1 => image[at] = r.next() as u8,
            2 => image[at] = 0,
            3 => image[at] = r.of_list(&[1, 2, 3, 63, 64, 127, 128, 255]),
            4 => {
                let cell = at / 16 * 16;
                image[cell..cell + 16].fill(0);
            }
            _ => {
                let count = get16(image, 88) as usize;
                if count >= 2 && count <= 1_088 {
                    // a key twice
                    let (from, to) = (1504 + 2 * r.index(count), 1504 + 2 * r.index(count));
                    image.copy_within(from..from + 2, to);
                }
            }
        }
    }
}

pub fn damage_journal(r: &mut Random, journal: &mut Vec<u8>) {
    if r.percent(35) {
        let length = r.of_list(&[0, 1, 23, 24, 25, 47, 48, 49, 71, 72, 73, 48_000, 48_023, 48_024, 48_025, 48_048]);
        journal.resize(length, 0);
        return;
    }
    let entries = get16(journal, 4) as usize;
    let at = match r.weighted(&[50, 35, 15]) {
        0 => r.index(24),
        1 if entries > 0 => 24 * (1 + r.index(entries)) + r.index(8),
        _ => r.index(journal.len()),
    };
    if at < journal.len() {
        journal[at] = match r.weighted(&[40, 30, 30]) {
            0 => journal[at] ^ 1 << r.below(8),
            1 => r.of_list(&[0, 1, 2, 3, 255]),
            _ => r.next() as u8,
        };
    }
}

pub fn damage_record(r: &mut Random, record: &mut Vec<u8>) {
    match r.weighted(&[50, 50]) {
        0 => {
            let length = r.of_list(&[0, 1, 32, 63, 64, 447, 449, 472, 896]);
            record.resize(length, 0);
        }
        _ => {
            let at = r.of_list(&[0, 1, 2, 3, 4, 5, 64, 88, 424]);
            record[at] = r.of_list(&[0, 1, 2, 16, 17, 30, 31, 63, 64, 255]);
        }
    }
}
