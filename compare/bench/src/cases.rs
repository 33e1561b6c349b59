//! The images and the calls that are timed.
use model::build::{image_with_token, record, set_holding, Fields};
use model::bytes::put;
use model::image::{cap_at, credit_at, holding_at, token_at};
use model::vault::Call;
use token_vault::exports::call_without_journal;
use token_vault::layout::{EVENTS_LENGTH, JOURNAL_LENGTH_MAX};

const VAULT: u8 = 1;
const OWNER: u8 = 2;
const PAYEE: u8 = 4;
pub const TOKEN: u8 = 48;
const MUCH: i128 = 1 << 100;
/// Who pays and is paid in batches: the owner and fifteen others.
const HOLDERS: std::ops::Range<u8> = OWNER..OWNER + 16;
const TIMELOCK: u64 = 172_800;

/// Calls that are made over and over, and the calls before the first of them.
pub struct Case {
    pub name: &'static str,
    pub journal: Option<Vec<u8>>,
    pub before: Vec<Call>,
    pub calls: Vec<Call>,
}

/// Initialised; the holders can pay for ever, and so can the vault.
pub fn sparse_image() -> Vec<u8> {
    let mut image = image_with_token(TOKEN);
    for account in HOLDERS {
        set_holding(&mut image, TOKEN, account, MUCH);
    }
    set_holding(&mut image, TOKEN, VAULT, MUCH >> 10);
    let initialize = record(Fields { operation: 1, caller: OWNER, token: TOKEN, amount: MUCH, ..Fields::default() });
    assert_eq!(call_without_journal(&mut image, &initialize, &mut [0; EVENTS_LENGTH], &mut [0; 16], &mut 0), 0);
    image
}

/// The same with every token, holding, credit, cap and tracked key in use; the key that a deposit looks for stands half way.
pub fn full_image() -> Vec<u8> {
    let mut image = sparse_image();
    let much = MUCH.to_le_bytes();
    put(&mut image, 80, &[0xff; 8]);
    put(&mut image, 88, &1088u16.to_le_bytes());
    for account in 0..64 {
        put(&mut image, cap_at(account), &much);
    }
    for place in 0..1088 {
        let key = (place + 544) % 1088;
        put(&mut image, 1504 + 2 * place, &(key as u16).to_le_bytes());
    }
    for token in 48..64 {
        image[token_at(token)] = 1;
        for account in 0..64 {
            put(&mut image, credit_at(token, account), &much);
            if (token, account) != (TOKEN as usize, VAULT as usize) {
                put(&mut image, holding_at(token, account), &much);
            }
        }
    }
    image
}

fn operation(record: Vec<u8>) -> Call {
    Call::Operation { record, events: vec![0; EVENTS_LENGTH] }
}

/// The preview of an operation, in place of its call.
fn previewed(call: Call) -> Call {
    match call {
        Call::Operation { record, events } => Call::Preview { record, events },
        other => other,
    }
}

pub fn owner(operation: u8) -> Fields {
    Fields { operation, caller: OWNER, token: TOKEN, sequence: 7, ..Fields::default() }
}

fn deposit(amount: i128) -> Call {
    operation(record(Fields { amount, ..owner(2) }))
}

fn withdraw() -> Call {
    operation(record(Fields { other: PAYEE, amount: 1, ..owner(5) }))
}

/// Sixteen items, signed by everyone.
pub fn batch(number: u8, items: impl Iterator<Item = (u8, i128)>) -> Vec<u8> {
    let mut record = record(owner(number));
    record[5] = 16;
    put(&mut record, 24, &[0xff; 8]);
    for (place, (account, amount)) in (64..448).step_by(24).zip(items) {
        record[place] = account;
        put(&mut record, place + 8, &amount.to_le_bytes());
    }
    record
}

/// Sixteen items of 1, one for each holder.
fn batch_of_ones(number: u8) -> Call {
    operation(batch(number, HOLDERS.map(|account| (account, 1))))
}

/// A deposit, and its migration initiated and executed: the sequence has to be another than that of the deposit before.
pub fn migration(sequence: u32, other: u8, amount: i128) -> [Vec<u8>; 3] {
    [
        Fields { sequence, amount, ..owner(2) },
        Fields { sequence, other, ..owner(21) },
        Fields { sequence, timestamp: TIMELOCK, ..owner(22) },
    ]
    .map(record)
}

/// Operations 10 to 21 and 23, each accepted; the owner hands over to itself.
fn settings() -> Vec<Call> {
    let all = [
        Fields { other: PAYEE, ..owner(13) },
        Fields { amount: 50, ..owner(10) },
        owner(14),
        Fields { amount: MUCH, ..owner(11) },
        Fields { amount: MUCH, ..owner(12) },
        Fields { other: OWNER, ..owner(15) },
        Fields { amount: 604_800, ..owner(17) },
        owner(16),
        owner(18),
        owner(19),
        owner(20),
        Fields { flag: 1, ..owner(20) },
        Fields { other: PAYEE, ..owner(21) },
        owner(23),
    ];
    all.map(|fields| operation(record(fields))).into()
}

/// Four hundred deposits between begin and rollback.
fn long_transaction() -> Vec<Call> {
    let mut calls = vec![Call::Begin];
    calls.extend((0..400).map(|_| deposit(1)));
    calls.push(Call::Rollback);
    calls
}

pub fn all() -> Vec<Case> {
    let alone = |name, calls| Case { name, journal: None, before: Vec::new(), calls };
    let journal = || Some(vec![0; JOURNAL_LENGTH_MAX]);
    let view = || operation(record(owner(24)));
    let migrations = [7, 8].into_iter().flat_map(|sequence| migration(sequence, PAYEE, 1)).map(operation).collect();
    vec![
        alone("deposit, accepted, no journal", vec![deposit(1)]),
        alone("deposit, accepted, previewed", vec![previewed(deposit(1))]),
        alone("deposit then withdraw, accepted, no journal", vec![deposit(1), withdraw()]),
        alone("16 deposits in a batch, no journal", vec![batch_of_ones(4)]),
        alone("16 payouts in a batch, no journal", vec![batch_of_ones(6)]),
        alone("16 payouts in a batch, previewed", vec![previewed(batch_of_ones(6))]),
        alone("deposit, migration initiated and executed", migrations),
        alone("settings: operations 10 to 21 and 23 in turn", settings()),
        alone("deposit, refused (4), no journal", vec![deposit(0)]),
        alone("deposit, refused (4), previewed", vec![previewed(deposit(0))]),
        alone("balance, no journal", vec![view()]),
        alone("balance, previewed", vec![previewed(view())]),
        Case { journal: Some(Vec::new()), ..alone("begin with no bytes as journal (31): the image test", vec![Call::Begin]) },
        Case {
            journal: journal(),
            before: vec![Call::Begin],
            ..alone("deposit in an open transaction, each undone", vec![deposit(1), Call::Undo])
        },
        Case { journal: journal(), ..alone("begin, 400 deposits, rollback", long_transaction()) },
        Case { journal: journal(), ..alone("begin then rollback", vec![Call::Begin, Call::Rollback]) },
    ]
}
