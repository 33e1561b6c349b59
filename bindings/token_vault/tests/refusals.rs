//! Every refusal, reached by a call and decoded to its name.
mod common;

use common::*;
use token_vault::layout::{EVENTS_LENGTH, RECORD_LENGTH};
use token_vault::{exports, Image, Item, Journal, Record, Refusal, VAULT_ADDRESS, ZERO_ADDRESS};

/// The refusal of the last call on the vault; all calls before it are done.
fn refused(calls: &[Record]) -> Refusal {
    refused_on(vault(), calls)
}

fn refused_on(mut image: Image, calls: &[Record]) -> Refusal {
    let (last, before) = calls.split_last().unwrap();
    for record in before {
        accept(&mut image, *record);
    }
    let unchanged = image.clone();
    let refusal = call(&mut image, *last).unwrap_err();
    assert_eq!(image, unchanged);
    refusal
}

fn reaches(refusal: Refusal, number: u32, name: &str) {
    assert_eq!((refusal.number(), refusal.name()), (number, name));
    assert_eq!(Refusal::from_number(number), Some(refusal));
    assert_eq!(Refusal::from_name(name), Some(refusal));
    assert_eq!(refusal.to_string(), format!("{number} {name}: {}", refusal.sentence()));
}

#[test]
fn of_the_vault_and_its_caller() {
    reaches(refused_on(Image::new(), &[Record::balance()]), 1, "NotInitialized");
    reaches(refused(&[Record::initialize(OWNER, TOKEN, 1)]), 2, "AlreadyInitialized");
    reaches(refused(&[Record::withdraw(STRANGER, PAYEE, 1)]), 3, "NotAuthorized");
    reaches(refused(&[Record::pause(OWNER), Record::deposit(OWNER, 1)]), 8, "ContractPaused");
    reaches(refused(&[Record::propose_owner(OWNER, ZERO_ADDRESS)]), 14, "InvalidParam");
    reaches(refused(&[Record::pause(OWNER), Record::pause(OWNER)]), 18, "AlreadyPaused");
    reaches(refused(&[Record::unpause(OWNER)]), 19, "NotPaused");
    reaches(vault().call(&Record::deposit(OWNER, 1)).unwrap_err(), 22, "SignatureMissing");
}

#[test]
fn of_amounts() {
    let above_any = [i128::MAX, 1].map(|amount| Item { address: PAYEE, amount });
    reaches(refused(&[Record::deposit(OWNER, 0)]), 4, "InvalidAmount");
    reaches(refused(&[Record::deposit(OWNER, 10i128.pow(30) + 1)]), 5, "DepositExceedsMax");
    reaches(refused(&[Record::withdraw(OWNER, PAYEE, 101)]), 6, "LimitExceeded");
    reaches(refused(&[Record::withdraw_batch(OWNER, &above_any).unwrap()]), 7, "ArithmeticOverflow");
}

#[test]
fn of_tokens() {
    reaches(refused(&[Record::approve_token(OWNER, ZERO_ADDRESS, true)]), 9, "InvalidToken");
    reaches(refused(&[Record::deposit_token(OWNER, OTHER_TOKEN, 1)]), 10, "TokenNotApproved");
    let moved = [
        Record::deposit(OWNER, 1).sequence(7),
        Record::outside_move(TOKEN, OWNER, VAULT_ADDRESS, 1),
        Record::deposit(OWNER, 1).sequence(7),
    ];
    reaches(refused(&moved), 11, "VaultBalanceChanged");
    let toll = [Record::approve_token(OWNER, TOLL_TOKEN, true), Record::deposit_token(OWNER, TOLL_TOKEN, 10)];
    reaches(refused(&toll), 12, "DepositTransferFailed");
    reaches(refused(&[Record::withdraw(OWNER, VAULT_ADDRESS, 1)]), 13, "WithdrawTransferFailed");
    reaches(refused(&[Record::freeze(TOKEN, true), Record::deposit(OWNER, 1)]), 23, "TokenCallFailed");
}

#[test]
fn of_a_new_owner() {
    let proposed = Record::propose_owner(OWNER, NEW_OWNER).at(1_000);
    reaches(refused(&[Record::accept_owner(NEW_OWNER)]), 15, "NoPendingOwner");
    reaches(refused(&[proposed, Record::accept_owner(STRANGER)]), 16, "NotPendingOwner");
    reaches(refused(&[proposed, Record::accept_owner(NEW_OWNER).at(605_800)]), 17, "PendingOwnerExpired");
    let mut image = vault();
    accept(&mut image, proposed);
    accept(&mut image, Record::accept_owner(NEW_OWNER).at(605_799));
}

#[test]
fn of_the_emergency_migration() {
    let started = Record::initiate_emergency_migration(OWNER, PAYEE).at(1_000);
    reaches(refused(&[Record::execute_emergency_migration(OWNER)]), 20, "NoMigrationProposed");
    reaches(refused(&[started, Record::execute_emergency_migration(OWNER).at(173_799)]), 21, "TimelockNotExpired");
    let mut image = vault();
    accept(&mut image, started);
    assert_eq!(accept(&mut image, Record::execute_emergency_migration(OWNER).at(173_800)).value, 100);
}

#[test]
fn of_bytes() {
    let mut journal = Journal::new(1).unwrap();
    reaches(Image::from_bytes(Vec::new()).call(&Record::balance()).unwrap_err(), 30, "InvalidImage");
    reaches(vault().begin(&mut Journal::from_bytes(vec![0; 47])).unwrap_err(), 31, "InvalidJournal");
    reaches(vault().call_in(&mut journal, &Record::from_bytes([0; RECORD_LENGTH])).unwrap_err(), 32, "InvalidRecord");
    let mut image = vault().into_bytes();
    let record = Record::balance();
    let number = exports::call_without_journal(&mut image, record.as_bytes(), &mut [0; EVENTS_LENGTH - 1], &mut [0; 16], &mut 0);
    reaches(Refusal::from_number(number).unwrap(), 33, "InvalidEventBuffer");
}

#[test]
fn of_the_journal() {
    let mut image = vault();
    let mut journal = Journal::new(1).unwrap();
    reaches(image.undo(&mut journal).unwrap_err(), 35, "NoTransaction");
    reaches(image.commit(&mut journal).unwrap_err(), 35, "NoTransaction");
    reaches(image.rollback(&mut journal).unwrap_err(), 35, "NoTransaction");
    image.begin(&mut journal).unwrap();
    reaches(image.begin(&mut journal).unwrap_err(), 36, "TransactionOpen");
    reaches(image.undo(&mut journal).unwrap_err(), 37, "NothingToUndo");
    let deposit = signed(Record::deposit(OWNER, 1));
    reaches(image.call_in(&mut journal, &deposit).unwrap_err(), 34, "JournalFull");
}

#[test]
fn of_toll_bounds() {
    reaches(vault().toll_bounds(TOKEN, &[1], -1..=1).unwrap_err(), 46, "InvalidTollBounds");
}

#[test]
fn numbers_that_are_none() {
    for number in [0, 24, 29, 38, 45, 47, u32::MAX] {
        assert_eq!(Refusal::from_number(number), None);
    }
    assert_eq!(Refusal::from_name("Done"), None);
    assert_eq!(Refusal::ALL.map(Refusal::number)[..], (1..=23).chain(30..=37).chain([46]).collect::<Vec<u32>>());
}
