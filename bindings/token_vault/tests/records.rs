//! Each builder: the bytes that it puts, and what the library answers to its record.
mod common;

use common::*;
use token_vault::layout::RECORD_LENGTH;
use token_vault::{Item, Operation, Record, Refusal};

const AMOUNT: i128 = 0x1112_1314_1516_1718_191a_1b1c_1d1e_1f20;
const AMOUNT_BYTES: [u8; 16] = [0x20, 0x1f, 0x1e, 0x1d, 0x1c, 0x1b, 0x1a, 0x19, 0x18, 0x17, 0x16, 0x15, 0x14, 0x13, 0x12, 0x11];
const NEGATIVE: i128 = -0x0102;
const NEGATIVE_BYTES: [u8; 16] = [0xfe, 0xfe, 0xff, 0xff, 0xff, 0xff, 0xff, 0xff, 0xff, 0xff, 0xff, 0xff, 0xff, 0xff, 0xff, 0xff];
const SECONDS: u64 = 0x2122_2324_2526_2728;
const SECONDS_BYTES: [u8; 8] = [0x28, 0x27, 0x26, 0x25, 0x24, 0x23, 0x22, 0x21];

/// The record holds these bytes at these places, and zeros at all others.
fn holds(record: Record, places: &[(usize, &[u8])]) {
    let mut bytes = [0; RECORD_LENGTH];
    for (place, field) in places {
        bytes[*place..place + field.len()].copy_from_slice(field);
    }
    assert_eq!(record.as_bytes(), &bytes, "{record:?}");
    assert_eq!(Record::from_bytes(bytes), record);
}

#[test]
fn bytes_of_deposits() {
    holds(Record::initialize(7, 48, AMOUNT), &[(0, &[1, 7, 48]), (32, &AMOUNT_BYTES)]);
    holds(Record::deposit(7, AMOUNT), &[(0, &[2, 7]), (32, &AMOUNT_BYTES)]);
    holds(Record::deposit_with_fee(7, AMOUNT, NEGATIVE), &[(0, &[3, 7]), (32, &AMOUNT_BYTES), (48, &NEGATIVE_BYTES)]);
    holds(Record::deposit_token(7, 49, AMOUNT), &[(0, &[7, 7, 49]), (32, &AMOUNT_BYTES)]);
    holds(Record::deposit_with_failure_report(7, AMOUNT), &[(0, &[9, 7]), (32, &AMOUNT_BYTES)]);
}

#[test]
fn bytes_of_payouts() {
    holds(Record::withdraw(7, 8, NEGATIVE), &[(0, &[5, 7, 0, 8]), (32, &NEGATIVE_BYTES)]);
    holds(Record::withdraw_token(7, 49, 8, AMOUNT), &[(0, &[8, 7, 49, 8]), (32, &AMOUNT_BYTES)]);
}

#[test]
fn bytes_of_items() {
    let items = [Item { address: 10, amount: AMOUNT }, Item { address: 63, amount: NEGATIVE }];
    let in_place: [(usize, &[u8]); 4] = [(64, &[10]), (72, &AMOUNT_BYTES), (88, &[63]), (96, &NEGATIVE_BYTES)];
    holds(Record::batch_deposit(&items).unwrap(), &[&[(0, &[4, 0, 0, 0, 0, 2][..])], &in_place[..]].concat());
    holds(Record::withdraw_batch(7, &items).unwrap(), &[&[(0, &[6, 7, 0, 0, 0, 2][..])], &in_place[..]].concat());
    holds(Record::batch_deposit(&[]).unwrap(), &[(0, &[4])]);

    let sixteen = [Item { address: 63, amount: NEGATIVE }; 16];
    let full = Record::withdraw_batch(7, &sixteen).unwrap();
    assert_eq!(full.as_bytes()[5], 16);
    assert_eq!(full.as_bytes()[424], 63);
    assert_eq!(full.as_bytes()[432..], NEGATIVE_BYTES);
    let seventeen = [Item { address: 63, amount: NEGATIVE }; 17];
    assert_eq!(Record::batch_deposit(&seventeen), None);
    assert_eq!(Record::withdraw_batch(7, &seventeen), None);
    assert_eq!(Record::withdraw_batch(7, &[Item { address: 63, amount: 1 }; 256]), None);
}

#[test]
fn bytes_of_settings() {
    holds(Record::set_operator_withdraw_limit(7, AMOUNT), &[(0, &[10, 7]), (32, &AMOUNT_BYTES)]);
    holds(Record::set_limit(7, AMOUNT), &[(0, &[11, 7]), (32, &AMOUNT_BYTES)]);
    holds(Record::set_token_max_limit(7, 49, AMOUNT), &[(0, &[12, 7, 49]), (32, &AMOUNT_BYTES)]);
    holds(Record::set_operator(7, 8), &[(0, &[13, 7, 0, 8])]);
    holds(Record::revoke_operator(7), &[(0, &[14, 7])]);
    holds(Record::pause(7), &[(0, &[18, 7])]);
    holds(Record::unpause(7), &[(0, &[19, 7])]);
    holds(Record::approve_token(7, 49, true), &[(0, &[20, 7, 49, 0, 1])]);
    holds(Record::approve_token(7, 49, false), &[(0, &[20, 7, 49])]);
}

#[test]
fn bytes_of_handover_and_migration() {
    holds(Record::propose_owner(7, 8), &[(0, &[15, 7, 0, 8])]);
    holds(Record::accept_owner(7), &[(0, &[16, 7])]);
    holds(Record::set_owner_proposal_ttl(7, SECONDS), &[(0, &[17, 7]), (32, &SECONDS_BYTES)]);
    holds(Record::initiate_emergency_migration(7, 8), &[(0, &[21, 7, 0, 8])]);
    holds(Record::execute_emergency_migration(7), &[(0, &[22, 7])]);
    holds(Record::cancel_emergency_migration(7), &[(0, &[23, 7])]);
}

#[test]
fn bytes_of_views_and_moves() {
    holds(Record::balance(), &[(0, &[24])]);
    holds(Record::effective_withdraw_limit(7), &[(0, &[25, 7])]);
    holds(Record::get_token_account_balance(49, 7), &[(0, &[26, 7, 49])]);
    holds(Record::is_token_approved(49), &[(0, &[27, 0, 49])]);
    holds(Record::is_token_compliant(49), &[(0, &[28, 0, 49])]);
    holds(Record::outside_move(49, 7, 8, AMOUNT), &[(0, &[29, 7, 49, 8]), (32, &AMOUNT_BYTES)]);
    holds(Record::freeze(49, true), &[(0, &[30, 0, 49, 0, 1])]);
    holds(Record::freeze(49, false), &[(0, &[30, 0, 49])]);
}

#[test]
fn bytes_of_what_surrounds_a_call() {
    holds(Record::balance().at(SECONDS), &[(0, &[24]), (8, &SECONDS_BYTES)]);
    holds(Record::balance().sequence(0x3132_3334), &[(0, &[24]), (16, &[0x34, 0x33, 0x32, 0x31])]);
    holds(Record::balance().signed_by(&[0, 9, 63]), &[(0, &[24]), (24, &[1, 2, 0, 0, 0, 0, 0, 0x80])]);
    holds(Record::balance().signed_by(&[0]).signed_by(&[9, 9]), &[(0, &[24]), (24, &[1, 2])]);
    holds(Record::balance().signed_by(&[64, 128, 255]), &[(0, &[24])]);
    holds(Record::balance().at(1).at(2), &[(0, &[24]), (8, &[2])]);
}

#[test]
fn fields_read_back() {
    let record = Record::withdraw_token(7, 49, 8, AMOUNT).at(SECONDS).sequence(9).signed_by(&[7]);
    assert_eq!(record.operation(), Some(Operation::WithdrawToken));
    assert_eq!((record.caller(), record.token(), record.other(), record.flag()), (7, 49, 8, 0));
    assert_eq!((record.timestamp(), record.ledger_sequence(), record.signers()), (SECONDS, 9, 1 << 7));
    assert_eq!((record.amount(), record.fee(), record.item_count()), (AMOUNT, 0, 0));
    assert_eq!(Record::deposit_with_fee(7, 1, NEGATIVE).fee(), NEGATIVE);
    assert_eq!(Record::set_owner_proposal_ttl(7, SECONDS).seconds(), SECONDS);
    assert_eq!(Record::freeze(49, true).flag(), 1);
    let items = [Item { address: 10, amount: AMOUNT }, Item { address: 63, amount: NEGATIVE }];
    let batch = Record::batch_deposit(&items).unwrap();
    assert_eq!((batch.item_count(), batch.items()), (2, items.to_vec()));
}

#[test]
fn fields_of_any_bytes() {
    let record = Record::from_bytes([0xff; RECORD_LENGTH]);
    assert_eq!(record.operation(), None);
    assert_eq!((record.item_count(), record.items()), (255, vec![Item { address: 255, amount: -1 }; 16]));
    assert_eq!(vault().call(&record), Err(Refusal::InvalidRecord));
}

#[test]
fn library_accepts() {
    for (record, value) in accepted() {
        let done = busy_vault().call(&record.signed_by(&[OWNER, OPERATOR, NEW_OWNER]));
        assert_eq!(done.map(|done| done.value), Ok(value), "{record:?}");
    }
    accept(&mut uninitialized(), Record::initialize(OWNER, TOKEN, 1));
    accept(&mut paused_vault(), Record::unpause(OWNER));
    // With these the list above has every operation.
    let tried: Vec<Operation> = accepted().iter().filter_map(|(record, _)| record.operation()).collect();
    let rest = Operation::ALL.into_iter().filter(|operation| !tried.contains(operation));
    assert_eq!(rest.collect::<Vec<_>>(), [Operation::Initialize, Operation::Unpause]);
}

/// Operations 1 to 23 need a signer; views, outside moves and freezes do not.
#[test]
fn library_asks_for_signers() {
    for (record, _) in accepted() {
        let needed = record.operation().unwrap() < Operation::Balance;
        let refusal = busy_vault().call(&record).err();
        assert_eq!(refusal, needed.then_some(Refusal::SignatureMissing), "{record:?}");
    }
    assert_eq!(uninitialized().call(&Record::initialize(OWNER, TOKEN, 1)), Err(Refusal::SignatureMissing));
    assert_eq!(paused_vault().call(&Record::unpause(OWNER)), Err(Refusal::SignatureMissing));
}

#[test]
fn library_refuses() {
    for (record, refusal) in refused() {
        assert_eq!(busy_vault().call(&signed_by_all(record)), Err(refusal), "{record:?}");
    }
}

/// The addresses that an operation reads are below 64.
#[test]
fn library_refuses_addresses_above_63() {
    let records = [
        Record::initialize(64, TOKEN, 1),
        Record::initialize(OWNER, 64, 1),
        Record::batch_deposit(&[item(OWNER, 1), item(64, 1)]).unwrap(),
        Record::withdraw(OWNER, 255, 1),
        Record::withdraw_batch(OWNER, &[item(64, 1)]).unwrap(),
        Record::propose_owner(OWNER, 64),
        Record::get_token_account_balance(64, 0),
        Record::get_token_account_balance(TOKEN, 64),
        Record::outside_move(TOKEN, OWNER, 64, 1),
        Record::freeze(64, false),
    ];
    for record in records {
        assert_eq!(busy_vault().call(&record.signed_by(&[OWNER])), Err(Refusal::InvalidRecord), "{record:?}");
    }
}
