//! Every kind of event, announced by a call, decoded and put into words.
mod common;

use common::*;
use token_vault::layout::{EVENTS_LENGTH, EVENT_LENGTH};
use token_vault::{decode_events, Event, Item, Record};

/// Makes calls on the vault; the events of the last one.
fn announced(calls: &[Record]) -> Vec<Event> {
    let mut image = vault();
    calls.iter().map(|record| accept(&mut image, *record).events).last().unwrap()
}

fn check(event: Event, kind: u8, words: &str) {
    assert_eq!(event.kind(), kind);
    assert_eq!(event.name(), Event::NAMES[usize::from(kind) - 1]);
    assert_eq!(event.to_string(), format!("{}: {words}", event.name()));
    assert_eq!(Event::decode(&event.encode()), Some(event));
}

/// The one event of the last call.
fn announces(calls: &[Record], event: Event, kind: u8, words: &str) {
    assert_eq!(announced(calls), [event]);
    check(event, kind, words);
}

#[test]
fn initialized() {
    let event = Event::Initialized { owner: OWNER, token: TOKEN, max_limit: 700 };
    assert_eq!(accept(&mut uninitialized(), Record::initialize(OWNER, TOKEN, 700)).events, [event]);
    check(event, 1, "owner 2, default token 48, limit 700");
}

#[test]
fn deposited() {
    let event = Event::Deposited { from: OWNER, amount: 30, new_balance: 130 };
    announces(&[Record::deposit(OWNER, 30)], event, 2, "2 paid in 30; the vault now holds 130");
}

#[test]
fn token_deposited() {
    let events = announced(&[Record::deposit_with_fee(OWNER, 30, 4)]);
    let event = Event::TokenDeposited { from: OWNER, gross_amount: 30, fee_amount: 4, net_amount: 26 };
    assert_eq!(events, [Event::Deposited { from: OWNER, amount: 26, new_balance: 126 }, event]);
    check(event, 3, "2 paid in 30 less a fee of 4, which makes 26");
}

#[test]
fn withdrawn() {
    let event = Event::Withdrawn { caller: OWNER, to: PAYEE, by_operator: false, amount: 40, new_balance: 60 };
    announces(&[Record::withdraw(OWNER, PAYEE, 40)], event, 4, "owner 2 paid 40 to 4; the vault now holds 60");
    let calls =
        [Record::set_operator(OWNER, OPERATOR), Record::set_operator_withdraw_limit(OWNER, 50), Record::withdraw(OPERATOR, PAYEE, 50)];
    let event = Event::Withdrawn { caller: OPERATOR, to: PAYEE, by_operator: true, amount: 50, new_balance: 50 };
    announces(&calls, event, 4, "operator 3 paid 50 to 4; the vault now holds 50");
}

#[test]
fn limits_set() {
    let event = Event::LimitSet { caller: OWNER, old_limit: 1_000, new_limit: 900 };
    announces(&[Record::set_limit(OWNER, 900)], event, 5, "2 changed the vault limit from 1000 to 900");
    let event = Event::OperatorWithdrawLimitSet { caller: OWNER, old_limit: 0, new_limit: 50 };
    announces(&[Record::set_operator_withdraw_limit(OWNER, 50)], event, 6, "2 changed the operator limit from 0 to 50");
}

#[test]
fn operators() {
    let event = Event::OperatorSet { caller: OWNER, operator: OPERATOR };
    announces(&[Record::set_operator(OWNER, OPERATOR)], event, 7, "2 made 3 the operator");
    announces(&[Record::revoke_operator(OWNER)], Event::OperatorRevoked { caller: OWNER }, 8, "2 removed the operator");
}

#[test]
fn pauses() {
    let paused = Record::pause(OWNER).at(u64::MAX);
    let event = Event::Paused { caller: OWNER, paused_at: u64::MAX };
    announces(&[paused], event, 9, "2 paused the vault at 18446744073709551615 s");
    let event = Event::Unpaused { caller: OWNER, resumed_at: 5 };
    announces(&[paused, Record::unpause(OWNER).at(5)], event, 10, "2 ended the pause at 5 s");
}

#[test]
fn owners() {
    let proposed = Record::propose_owner(OWNER, NEW_OWNER);
    announces(&[proposed], Event::OwnerProposed { caller: OWNER, new_owner: NEW_OWNER }, 11, "2 proposed 5 as owner");
    let event = Event::OwnerAccepted { caller: NEW_OWNER, old_owner: OWNER };
    announces(&[proposed, Record::accept_owner(NEW_OWNER)], event, 12, "5 is the owner now, as 2 proposed");
    let event = Event::OwnerProposalTtlSet { caller: OWNER, old_ttl: 604_800, new_ttl: 60 };
    let words = "2 changed the time to live of a proposal from 604800 s to 60 s";
    announces(&[Record::set_owner_proposal_ttl(OWNER, 60)], event, 13, words);
}

#[test]
fn migrations() {
    let started = Record::initiate_emergency_migration(OWNER, PAYEE).at(100);
    let event = Event::EmergencyMigrationInitiated { caller: OWNER, destination: PAYEE, executable_at: 172_900 };
    announces(&[started], event, 14, "2 started a migration to 4, which can be executed from 172900 s on");
    let event = Event::EmergencyMigrationExecuted { caller: OWNER, destination: PAYEE, amount: 100 };
    announces(&[started, Record::execute_emergency_migration(OWNER).at(172_900)], event, 15, "2 moved 100 to 4");
    let event = Event::EmergencyMigrationCancelled { caller: OWNER };
    announces(&[started, Record::cancel_emergency_migration(OWNER)], event, 16, "2 cancelled the migration");
}

#[test]
fn failed_deposit() {
    let event = Event::VaultDepositFailed { from: OWNER, token: TOKEN, amount: 30, reason_code: 1 };
    let calls = [Record::freeze(TOKEN, true), Record::deposit_with_failure_report(OWNER, 30)];
    announces(&calls, event, 17, "2 could not pay in 30 of token 48, reason 1");
}

#[test]
fn approvals() {
    let event = Event::TokenApprovalChanged { token: OTHER_TOKEN, approved: true };
    announces(&[Record::approve_token(OWNER, OTHER_TOKEN, true)], event, 18, "token 49 is approved");
    let event = Event::TokenApprovalChanged { token: TOKEN, approved: false };
    announces(&[Record::approve_token(OWNER, TOKEN, false)], event, 18, "token 48 is no longer approved");
}

#[test]
fn sixteen_in_order() {
    let items: Vec<Item> = (1..=16).map(|amount| Item { address: PAYEE, amount: amount / 2 + 1 }).collect();
    let events = announced(&[Record::withdraw_batch(OWNER, &items).unwrap()]);
    assert_eq!(events.len(), 16);
    let mut held = 100;
    for (event, Item { address, amount }) in events.into_iter().zip(items) {
        held -= amount;
        assert_eq!(event, Event::Withdrawn { caller: OWNER, to: address, by_operator: false, amount, new_balance: held });
    }
}

#[test]
fn bytes_at_their_places() {
    let mut bytes = [0; EVENT_LENGTH];
    bytes[..4].copy_from_slice(&[4, 3, 63, 1]);
    bytes[8..24].copy_from_slice(&[0xff; 16]);
    bytes[24] = 7;
    let event = Event::Withdrawn { caller: 3, to: 63, by_operator: true, amount: -1, new_balance: 7 };
    assert_eq!(Event::decode(&bytes), Some(event));
    assert_eq!(event.encode(), bytes);
}

/// Bytes that no call announces.
#[test]
fn bytes_that_are_no_event() {
    let event = Event::Paused { caller: OWNER, paused_at: 5 }.encode();
    let wrong = [(0, 0), (0, 19), (1, 64), (2, 1), (3, 1), (4, 1), (7, 1), (16, 1), (23, 0x80), (24, 1), (40, 1), (55, 1)];
    for (place, byte) in wrong {
        let mut damaged = event;
        damaged[place] = byte;
        assert_eq!(Event::decode(&damaged), None, "{byte} at {place}");
    }
    let mut approval = Event::TokenApprovalChanged { token: TOKEN, approved: true }.encode();
    approval[3] = 2;
    assert_eq!(Event::decode(&approval), None);
}

#[test]
fn buffers() {
    let event = Event::OperatorRevoked { caller: OWNER };
    let mut buffer = vec![0; EVENTS_LENGTH];
    buffer[..EVENT_LENGTH].copy_from_slice(&event.encode());
    assert_eq!(decode_events(&buffer, 0), Some(vec![]));
    assert_eq!(decode_events(&buffer, 1), Some(vec![event]));
    assert_eq!(decode_events(&buffer, 2), None);
    assert_eq!(decode_events(&buffer, u32::MAX), None);
    assert_eq!(decode_events(&buffer[..EVENT_LENGTH - 1], 1), None);
}
