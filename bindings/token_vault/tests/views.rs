//! The fields of image and journal after a known list of calls.
mod common;

use common::*;
use token_vault::layout::IMAGE_LENGTH;
use token_vault::{Entry, Handover, Image, Journal, Migration, PlaceError, Record, Snapshot, Token, TokenState, TrackedKey};

const MOVING: Token = Token { state: TokenState::Moving, toll: 0 };

#[test]
fn before_initialisation() {
    let image = Image::new();
    let view = image.view().unwrap();
    assert!(!view.is_initialized() && !view.is_paused());
    assert_eq!((view.owner(), view.default_token(), view.operator()), (None, None, None));
    assert_eq!((view.vault_limit(), view.operator_limit(), view.proposal_ttl()), (None, None, 0));
    assert_eq!((view.handover(), view.migration()), (None, None));
    assert_eq!((view.tracked_keys(), view.tokens()), (vec![], vec![]));
    assert_eq!((view.token(TOKEN), view.snapshot(TOKEN), view.cap(TOKEN)), (None, None, None));
}

#[test]
fn after_initialisation() {
    let image = vault();
    let view = image.view().unwrap();
    assert!(view.is_initialized() && !view.is_paused());
    assert_eq!((view.owner(), view.default_token(), view.operator()), (Some(OWNER), Some(TOKEN), None));
    assert_eq!((view.vault_limit(), view.operator_limit(), view.proposal_ttl()), (Some(1_000), None, 604_800));
    assert!(view.is_approved(TOKEN) && !view.is_approved(OTHER_TOKEN) && !view.is_approved(255));
    let toll = Token { state: TokenState::Moving, toll: 2 };
    assert_eq!(view.tokens(), [(TOKEN, MOVING), (OTHER_TOKEN, MOVING), (TOLL_TOKEN, toll)]);
    assert_eq!((view.holding(TOKEN, 1), view.holding(TOKEN, OWNER), view.holding(TOKEN, PAYEE)), (100, 2_000, 0));
}

fn after_calls() -> Image {
    let mut image = vault();
    let calls = [
        Record::set_operator(OWNER, OPERATOR),
        Record::set_operator_withdraw_limit(OWNER, 50),
        Record::approve_token(OWNER, OTHER_TOKEN, true),
        Record::set_token_max_limit(OWNER, OTHER_TOKEN, 70),
        Record::deposit(OWNER, 200).sequence(7),
        Record::deposit_token(OWNER, OTHER_TOKEN, 30).sequence(8),
        Record::withdraw(OPERATOR, PAYEE, 40).sequence(9),
        Record::set_token_max_limit(OWNER, STRANGER, 5),
        Record::set_owner_proposal_ttl(OWNER, 60),
        Record::propose_owner(OWNER, NEW_OWNER).at(1_000),
        Record::initiate_emergency_migration(OWNER, PAYEE).at(2_000),
        Record::freeze(OTHER_TOKEN, true),
        Record::pause(OWNER),
    ];
    for record in calls {
        accept(&mut image, record);
    }
    image
}

#[test]
fn head_after_calls() {
    let image = after_calls();
    let view = image.view().unwrap();
    assert!(view.is_initialized() && view.is_paused());
    assert_eq!((view.operator(), view.operator_limit()), (Some(OPERATOR), Some(50)));
    assert_eq!(view.proposal_ttl(), 60);
    assert_eq!(view.handover(), Some(Handover { new_owner: NEW_OWNER, proposer: OWNER, proposed_at: 1_000 }));
    assert_eq!(view.migration(), Some(Migration { destination: PAYEE, proposed_at: 2_000, executable_at: 174_800 }));
}

#[test]
fn tables_after_calls() {
    let image = after_calls();
    let view = image.view().unwrap();
    assert!(view.is_approved(TOKEN) && view.is_approved(OTHER_TOKEN) && !view.is_approved(TOLL_TOKEN));
    assert_eq!((view.cap(OTHER_TOKEN), view.cap(STRANGER), view.cap(TOKEN)), (Some(70), Some(5), None));
    let keys = [
        TrackedKey::Cap { address: OTHER_TOKEN },
        TrackedKey::Credit { token: TOKEN, account: OWNER },
        TrackedKey::Credit { token: OTHER_TOKEN, account: OWNER },
        TrackedKey::Cap { address: STRANGER },
    ];
    assert_eq!(view.tracked_keys(), keys);
    assert_eq!(view.snapshot(TOKEN), Some(Snapshot { ledger_sequence: 9, holding: 260 }));
    assert_eq!(view.snapshot(OTHER_TOKEN), Some(Snapshot { ledger_sequence: 8, holding: 30 }));
    assert_eq!(view.snapshot(TOLL_TOKEN), None);
    assert_eq!(view.token(OTHER_TOKEN), Some(Token { state: TokenState::Frozen, toll: 0 }));
    assert_eq!([1, OWNER, PAYEE].map(|account| view.holding(TOKEN, account)), [260, 1_800, 40]);
    assert_eq!([1, OWNER, PAYEE].map(|account| view.credit(TOKEN, account)), [0, 200, 0]);
    assert_eq!((view.holding(OTHER_TOKEN, 1), view.credit(OTHER_TOKEN, OWNER)), (30, 30));
}

#[test]
fn places_outside_the_tables() {
    let mut image = after_calls();
    let view = image.view().unwrap();
    for (token, account) in [(47, 2), (64, 2), (255, 2), (TOKEN, 64), (TOKEN, 255)] {
        assert_eq!((view.holding(token, account), view.credit(token, account)), (0, 0));
    }
    assert_eq!((view.token(47), view.token(64), view.snapshot(47), view.snapshot(64)), (None, None, None, None));
    assert_eq!((view.cap(64), view.is_approved(64)), (None, false));
    assert_eq!(image.add_token(47, 0), Err(PlaceError));
    assert_eq!(image.add_token(64, 0), Err(PlaceError));
    assert_eq!(image.set_holding(47, 2, 1), Err(PlaceError));
    assert_eq!(image.set_holding(TOKEN, 64, 1), Err(PlaceError));
    assert_eq!(image, after_calls());
    assert_eq!(image.add_token(63, 1), Ok(()));
    assert_eq!(image.set_holding(63, 63, 1), Ok(()));
    assert_eq!(image.view().unwrap().holding(63, 63), 1);
    assert!(image.is_good());
}

#[test]
fn images_that_are_not_good() {
    for length in [0, IMAGE_LENGTH - 1, IMAGE_LENGTH + 1] {
        let mut image = Image::from_bytes(vec![0xff; length]);
        assert!(image.view().is_none() && !image.is_good());
        assert_eq!(image.add_token(TOKEN, 0), Err(PlaceError));
        assert_eq!(image.set_holding(TOKEN, 2, 1), Err(PlaceError));
        assert_eq!(image.into_bytes(), vec![0xff; length]);
    }
    let image = Image::from_bytes(vec![0xff; IMAGE_LENGTH]);
    let view = image.view().unwrap();
    assert!(!image.is_good());
    assert_eq!((view.owner(), view.holding(TOKEN, 2), view.cap(63)), (Some(255), -1, Some(-1)));
    assert_eq!((view.tracked_keys(), view.tokens(), view.snapshot(TOKEN)), (vec![], vec![], None));
    let mut image = vault();
    image.set_holding(TOKEN, 2, -1).unwrap();
    assert!(!image.is_good());
}

/// An entry for each cell in which the image after differs, ascending.
fn changed(before: &Image, after: &Image, call: u16) -> Vec<Entry> {
    let (old, new) = (before.as_bytes().as_chunks::<16>().0, after.as_bytes().as_chunks::<16>().0);
    let cells = (0..2_302u16).filter(|cell| old[usize::from(*cell)] != new[usize::from(*cell)]);
    cells.map(|cell| Entry { cell, call, old: old[usize::from(cell)] }).collect()
}

#[test]
fn journal_of_two_calls() {
    let mut image = vault();
    let mut journal = Journal::new(20).unwrap();
    let view = journal.view().unwrap();
    assert_eq!((view.is_open(), view.calls(), view.entries(), view.capacity()), (false, 0, 0, 20));
    image.begin(&mut journal).unwrap();

    let (first, second) = (image.clone(), signed(Record::pause(OWNER)));
    image.call_in(&mut journal, &signed(Record::withdraw(OWNER, PAYEE, 40))).unwrap();
    let between = image.clone();
    image.call_in(&mut journal, &second).unwrap();
    image.call_in(&mut journal, &Record::balance()).unwrap();

    let entries = [changed(&first, &between, 1), changed(&between, &image, 2)].concat();
    let view = journal.view().unwrap();
    assert_eq!((view.is_open(), view.calls(), view.entries()), (true, 2, entries.len()));
    assert_eq!((0..20).filter_map(|i| view.entry(i)).collect::<Vec<_>>(), entries);
    // The pause changes the flags alone, which are in the first cell.
    assert_eq!(entries.last().map(|entry| (entry.cell, entry.call)), Some((0, 2)));

    image.undo(&mut journal).unwrap();
    assert_eq!((&image, journal.view().unwrap().calls()), (&between, 1));
    image.undo(&mut journal).unwrap();
    assert_eq!(image, first);
    image.commit(&mut journal).unwrap();
    assert_eq!(journal, Journal::new(20).unwrap());
}

#[test]
fn journals_of_all_lengths() {
    assert_eq!((Journal::new(0), Journal::new(2_001), Journal::new(usize::MAX)), (None, None, None));
    for entries in [1, 2, 2_000] {
        let mut journal = Journal::new(entries).unwrap();
        assert_eq!(journal.as_bytes(), vec![0; 24 + 24 * entries]);
        assert_eq!(journal.view().unwrap().capacity(), entries);
        vault().begin(&mut journal).unwrap();
        assert_eq!(journal.into_bytes()[0], 1);
    }
    for length in [0, 24, 47, 49, 48_048] {
        assert!(Journal::from_bytes(vec![0; length]).view().is_none());
    }
    // More entries are counted than there is room for.
    let journal = Journal::from_bytes(vec![0xff; 48]);
    let view = journal.view().unwrap();
    assert_eq!((view.is_open(), view.calls(), view.entries(), view.capacity()), (false, 65_535, 65_535, 1));
    assert_eq!(view.entry(0), Some(Entry { cell: 65_535, call: 65_535, old: [0xff; 16] }));
    assert_eq!(view.entry(1), None);
}
