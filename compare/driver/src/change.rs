//! For each operation a record that is accepted, and the changes of its fields that the vectors try.
use model::bytes::put;
use model::record::LENGTH;

pub const OWNER: u8 = 2;
pub const OPERATOR: u8 = 3;
pub const PROPOSER: u8 = 4;
pub const PENDING: u8 = 5;
pub const STRANGER: u8 = 9;
/// The one address that does not sign.
const UNSIGNED: u8 = 10;
pub const MOST: i128 = i128::MAX;
pub const MOST_DEPOSIT: i128 = 1_000_000_000_000_000_000_000_000_000_000;
/// The ledger sequence of the snapshots in the images, which are out of date; that of the records differs in its last byte alone.
pub const STALE: u32 = 0x0700_0007;

#[derive(Clone)]
pub enum Change {
    Caller(u8),
    Token(u8),
    Other(u8),
    Flag(u8),
    Time(u64),
    Sequence(u32),
    Signers(u64),
    Amount(i128),
    Fee(i128),
    Items(Vec<(u8, i128)>),
}
use Change::*;

impl Change {
    pub fn apply(&self, record: &mut [u8]) {
        match self {
            Caller(a) => record[1] = *a,
            Token(a) => record[2] = *a,
            Other(a) => record[3] = *a,
            Flag(f) => record[4] = *f,
            Time(t) => put(record, 8, &t.to_le_bytes()),
            Sequence(s) => put(record, 16, &s.to_le_bytes()),
            Signers(s) => put(record, 24, &s.to_le_bytes()),
            Amount(a) => put(record, 32, &a.to_le_bytes()),
            Fee(a) => put(record, 48, &a.to_le_bytes()),
            Items(items) => put_items(record, items),
        }
    }

    /// The place of the field in the record.
    pub fn field(&self) -> u8 {
        match self {
            Caller(_) => 1,
            Token(_) => 2,
            Other(_) => 3,
            Flag(_) => 4,
            Items(_) => 5,
            Time(_) => 8,
            Sequence(_) => 16,
            Signers(_) => 24,
            Amount(_) => 32,
            Fee(_) => 48,
        }
    }
}

fn put_items(record: &mut [u8], items: &[(u8, i128)]) {
    record[5] = items.len() as u8;
    for (i, (address, amount)) in items.iter().enumerate() {
        record[64 + 24 * i] = *address;
        put(record, 72 + 24 * i, &amount.to_le_bytes());
    }
}

/// A record that the plain image accepts; 1 and 19 want another image.
pub fn accepted(operation: u8) -> Vec<u8> {
    let mut record = vec![0; LENGTH];
    record[0] = operation;
    let token = if matches!(operation, 7 | 8 | 12) { 49 } else { 48 };
    for change in [Caller(OWNER), Token(token), Other(4), Flag(1), Time(1_050), Sequence(7), Signers(!(1 << UNSIGNED)), Fee(2)] {
        change.apply(&mut record);
    }
    match operation {
        1 | 11 => Amount(900).apply(&mut record),
        4 => Items(vec![(OWNER, 5), (OPERATOR, 5)]).apply(&mut record),
        6 => Items(vec![(4, 5), (6, 5)]).apply(&mut record),
        16 => Caller(PENDING).apply(&mut record),
        _ => {}
    }
    if !matches!(operation, 1 | 11) {
        Amount(5).apply(&mut record);
    }
    record
}

/// The operations that let the operator in; 3 and 9 do it as 2 does.
pub fn shared(operation: u8) -> bool {
    matches!(operation, 2 | 5..=8 | 11 | 12 | 25)
}

/// The changes of an operation's fields: those of all that read a caller, then its own.
pub fn changes(operation: u8) -> Vec<Change> {
    let mut changes = Vec::new();
    if model::record::reads_caller(operation) {
        changes.extend([Caller(OPERATOR), Caller(STRANGER), Caller(0), Caller(1)]);
    }
    changes.push(Signers(0));
    if (2..=9).contains(&operation) {
        changes.push(Sequence(STALE));
    }
    changes.extend(own_changes(operation));
    changes
}

fn amounts(list: &[i128]) -> Vec<Change> {
    list.iter().map(|a| Amount(*a)).collect()
}

fn tokens(list: &[u8]) -> Vec<Change> {
    list.iter().map(|t| Token(*t)).collect()
}

fn others(list: &[u8]) -> Vec<Change> {
    list.iter().map(|a| Other(*a)).collect()
}

fn times(list: &[u64]) -> Vec<Change> {
    list.iter().map(|t| Time(*t)).collect()
}

fn own_changes(operation: u8) -> Vec<Change> {
    const DEPOSITS: [i128; 8] = [0, -1, 3, 900, 901, 3_000, MOST_DEPOSIT, MOST_DEPOSIT + 1];
    const PAYOUTS: [i128; 10] = [0, -1, 1, 40, 41, 50, 51, 100, 101, MOST];
    const ADDRESSES: [u8; 6] = [0, 1, OWNER, 7, 8, 63];
    let all_tokens: Vec<u8> = [0, 47].into_iter().chain(48..64).collect();
    match operation {
        1 => [amounts(&[0, -1, 1, MOST]), tokens(&[0, 47, 51, 52, 58])].concat(),
        2 | 9 => amounts(&DEPOSITS),
        3 => {
            let fees = [-1, 0, 4, 5, 6, MOST].map(Fee);
            [amounts(&[0, -1, 2, 902, 903, MOST_DEPOSIT, MOST_DEPOSIT + 1, MOST]), fees.to_vec()].concat()
        }
        4 => batches(),
        5 => [amounts(&PAYOUTS), others(&ADDRESSES)].concat(),
        6 => payout_lists(),
        7 => [amounts(&[0, -1, 2, 4, 3_000, MOST_DEPOSIT, MOST_DEPOSIT + 1]), tokens(&all_tokens)].concat(),
        8 => [amounts(&PAYOUTS), others(&[1, 7, 8]), tokens(&all_tokens)].concat(),
        10 => amounts(&[0, -1, 1, MOST]),
        11 => amounts(&[0, -1, 1, 99, 100, 1_000, 1_001, MOST]),
        12 => [amounts(&[0, -1, 1, MOST]), tokens(&[0, 3, 48, 51, 63])].concat(),
        13 => others(&ADDRESSES),
        15 => [others(&ADDRESSES), times(&[0, u64::MAX])].concat(),
        16 => [vec![Caller(PENDING)], times(&[0, 999, 1_099, 1_100, u64::MAX - 1, u64::MAX])].concat(),
        17 => amounts(&[0, 1, -1, 1 << 63, 1 << 64, (1 << 64) + 5]),
        18 | 19 => times(&[0, 1 << 63, u64::MAX]),
        20 => [vec![Flag(0)], tokens(&[0, 2, 47, 49, 50, 51, 52, 58, 63])].concat(),
        21 => [others(&ADDRESSES), times(&[0, 1 << 63, u64::MAX - 172_800, u64::MAX - 172_799, u64::MAX])].concat(),
        22 => times(&[0, 499, 500, u64::MAX]),
        26..=28 => tokens(&[0, 2, 47, 49, 50, 51, 52, 58, 63]),
        29 => {
            let callers = [8, 10, 63].map(Caller);
            [callers.to_vec(), amounts(&[0, -1, 1, 3, MOST]), others(&ADDRESSES), tokens(&[0, 47, 50, 51, 52, 53])].concat()
        }
        30 => [vec![Flag(0)], tokens(&[0, 47, 51, 52, 58, 63])].concat(),
        _ => Vec::new(),
    }
}

/// Deposits of one or two items: each cause in the first, in the second, and two causes in both orders.
fn batches() -> Vec<Change> {
    let causes = [(OWNER, 0), (OWNER, -1), (OWNER, MOST_DEPOSIT + 1), (UNSIGNED, 5), (STRANGER, 5), (OWNER, 901), (1, 5)];
    let mut lists = vec![vec![], vec![(OPERATOR, 450), (OWNER, 450)], vec![(OPERATOR, 451), (OWNER, 450)], vec![(OWNER, 1); 16]];
    lists.extend([vec![(UNSIGNED, 0)], vec![(UNSIGNED, MOST_DEPOSIT + 1)], vec![(OWNER, 3), (OPERATOR, 2_001)]]);
    lists.extend([vec![(OWNER, MOST_DEPOSIT)], vec![(OWNER, 2), (OPERATOR, 3)]]);
    lists.extend(in_pairs(&causes, (OPERATOR, 5)));
    lists.into_iter().map(Items).collect()
}

fn payout_lists() -> Vec<Change> {
    let causes = [(4, 0), (4, -1), (4, MOST), (4, 51), (4, 101), (1, 5), (7, 5), (8, 3)];
    let mut lists = vec![vec![], vec![(4, 25), (6, 25)], vec![(4, 25), (6, 26)], vec![(4, 50), (6, 50)], vec![(4, 50), (6, 51)]];
    lists.extend([vec![(4, MOST), (4, 1), (4, 0)], vec![(4, MOST), (4, 0), (4, 1)], vec![(4, 0), (4, MOST), (4, 1)]]);
    lists.extend([vec![(4, MOST), (4, 1)], vec![(4, 1); 16], vec![(1, 3)]]);
    lists.extend(in_pairs(&causes, (6, 5)));
    lists.into_iter().map(Items).collect()
}

type Item = (u8, i128);

/// Each alone, each behind a plain item, and each before each other.
fn in_pairs(causes: &[Item], plain: Item) -> Vec<Vec<Item>> {
    let mut lists = Vec::new();
    for (i, first) in causes.iter().enumerate() {
        lists.extend([vec![*first], vec![plain, *first]]);
        for (_, second) in causes.iter().enumerate().filter(|(j, _)| *j != i) {
            lists.push(vec![*first, *second]);
        }
    }
    lists
}
