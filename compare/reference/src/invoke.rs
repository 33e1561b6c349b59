//! One operation, 1 to 28, of the Rust contract on a good image and a record of good form.
use crate::contract::{DepositSpec, TokenVault};
use crate::errors::Error;
use crate::image;
use model::bytes;
use soroban_sdk::{Address, Env, Trap, Vec as Values};
use std::panic::{catch_unwind, AssertUnwindSafe};

/// What a call gave. A refused or trapped call is undone: image and events are then missing.
pub struct Done {
    pub number: u32,
    pub value: i128,
    pub events: Vec<[u8; 56]>,
    pub image: Option<Vec<u8>>,
}

/// The numbers of the host's trap (docs/FORMATS.md, "Refusals"). The contract's caller sees one trap; which of the two it was is known to the stand-in alone.
fn trap_number(trap: Trap) -> u32 {
    match trap {
        Trap::Authorisation => 22,
        Trap::Token => 23,
    }
}

pub fn operation(image: &[u8], record: &[u8]) -> Done {
    let env = image::load(image);
    match run(&env, record) {
        Ok(value) => Done { number: 0, value, events: events(&env), image: Some(image::store(&env)) },
        Err(number) => Done { number, value: 0, events: Vec::new(), image: None },
    }
}

/// A call on a loaded host, with the record's ledger and signers: the value, or the number of a refusal or trap.
pub(crate) fn run(env: &Env, record: &[u8]) -> Result<i128, u32> {
    env.with(|host| {
        host.timestamp = bytes::get64(record, 8);
        host.sequence = bytes::get32(record, 16);
        host.signers = bytes::get64(record, 24);
        host.events.clear();
    });
    match catch_unwind(AssertUnwindSafe(|| invoke(env, record))) {
        Ok(result) => result.map_err(|error| error as u32),
        Err(thrown) => match thrown.downcast::<Trap>() {
            Ok(trap) => Err(trap_number(*trap)),
            Err(panic) => std::panic::resume_unwind(panic),
        },
    }
}

/// The events of the last call.
pub(crate) fn events(env: &Env) -> Vec<[u8; 56]> {
    env.with(|host| host.events.iter().map(|e| image::event_bytes(&e.topics, &e.data)).collect())
}

fn invoke(env: &Env, record: &[u8]) -> Result<i128, Error> {
    let address = |at: usize| Address::new(env, record[at]);
    let (caller, token, other) = (|| address(1), || address(2), || address(3));
    let amount = bytes::amount(record, 32);
    let fee = bytes::amount(record, 48);
    let e = env.clone();
    let nothing = |result: Result<(), Error>| result.map(|()| 0);
    match record[0] {
        1 => nothing(TokenVault::initialize(e, caller(), token(), amount)),
        2 => nothing(TokenVault::deposit(e, caller(), amount)),
        3 => nothing(TokenVault::deposit_with_fee(e, caller(), amount, fee)),
        4 => nothing(TokenVault::batch_deposit(e, deposits(env, record))),
        5 => nothing(TokenVault::withdraw(e, caller(), other(), amount)),
        6 => nothing(TokenVault::withdraw_batch(e, caller(), payouts(env, record))),
        7 => nothing(TokenVault::deposit_token(e, caller(), token(), amount)),
        8 => nothing(TokenVault::withdraw_token(e, caller(), token(), other(), amount)),
        9 => TokenVault::deposit_with_failure_report(e, caller(), amount).map(i128::from),
        10 => nothing(TokenVault::set_operator_withdraw_limit(e, caller(), amount)),
        11 => nothing(TokenVault::set_limit(e, caller(), amount)),
        12 => nothing(TokenVault::set_token_max_limit(e, caller(), token(), amount)),
        13 => nothing(TokenVault::set_operator(e, caller(), other())),
        14 => nothing(TokenVault::revoke_operator(e, caller())),
        15 => nothing(TokenVault::propose_owner(e, caller(), other())),
        16 => nothing(TokenVault::accept_owner(e, caller())),
        17 => nothing(TokenVault::set_owner_proposal_ttl(e, caller(), bytes::get64(record, 32))),
        18 => nothing(TokenVault::pause(e, caller())),
        19 => nothing(TokenVault::unpause(e, caller())),
        20 => nothing(TokenVault::approve_token(e, caller(), token(), record[4] == 1)),
        21 => nothing(TokenVault::initiate_emergency_migration(e, caller(), other())),
        22 => TokenVault::execute_emergency_migration(e, caller()),
        23 => nothing(TokenVault::cancel_emergency_migration(e, caller())),
        24 => TokenVault::balance(e).ok_or(Error::NotInitialized),
        25 => TokenVault::effective_withdraw_limit(e, caller()),
        26 => Ok(TokenVault::get_token_account_balance(e, token(), caller())),
        27 => Ok(TokenVault::is_token_approved(e, token()).into()),
        28 => Ok(TokenVault::is_token_compliant(e, token()).into()),
        other => panic!("{other} is no operation of the contract"),
    }
}

fn items(env: &Env, record: &[u8]) -> impl Iterator<Item = (Address, i128)> {
    let items: Vec<(Address, i128)> =
        (0..record[5] as usize).map(|i| 64 + 24 * i).map(|at| (Address::new(env, record[at]), bytes::amount(record, at + 8))).collect();
    items.into_iter()
}

fn deposits(env: &Env, record: &[u8]) -> Values<DepositSpec> {
    let mut all = Values::new(env);
    for (from, amount) in items(env, record) {
        all.push_back(DepositSpec { from, amount });
    }
    all
}

fn payouts(env: &Env, record: &[u8]) -> Values<(Address, i128)> {
    let mut all = Values::new(env);
    for item in items(env, record) {
        all.push_back(item);
    }
    all
}
