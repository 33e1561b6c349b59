//! The vaults that the tests start from, and records that they accept and refuse.
#![allow(dead_code)] // no test uses all of it
use token_vault::{Address, Done, Image, Item, Record, Refusal, VAULT_ADDRESS, ZERO_ADDRESS};

pub const OWNER: Address = 2;
pub const OPERATOR: Address = 3;
pub const PAYEE: Address = 4;
pub const NEW_OWNER: Address = 5;
pub const STRANGER: Address = 9;
pub const TOKEN: Address = 48;
pub const OTHER_TOKEN: Address = 49;
/// It keeps 2 of each transfer.
pub const TOLL_TOKEN: Address = 50;

/// Three tokens, of each of which the owner holds 2,000; the vault holds 100 of the default token, and its limit is 1,000.
pub fn vault() -> Image {
    let mut image = uninitialized();
    accept(&mut image, Record::initialize(OWNER, TOKEN, 1_000));
    image
}

/// The same before initialisation.
pub fn uninitialized() -> Image {
    let mut image = Image::new();
    for (token, toll) in [(TOKEN, 0), (OTHER_TOKEN, 0), (TOLL_TOKEN, 2)] {
        image.add_token(token, toll).unwrap();
        image.set_holding(token, OWNER, 2_000).unwrap();
    }
    image.set_holding(TOKEN, 1, 100).unwrap();
    image
}

/// A call signed by its caller.
pub fn signed(record: Record) -> Record {
    record.signed_by(&[record.caller()])
}

/// Makes a call, signed by its caller.
pub fn call(image: &mut Image, record: Record) -> Result<Done, Refusal> {
    image.call(&signed(record))
}

/// Makes a call, signed by its caller, that is done.
pub fn accept(image: &mut Image, record: Record) -> Done {
    call(image, record).unwrap_or_else(|refusal| panic!("{record:?}: {refusal}"))
}

/// A call signed by all addresses.
pub fn signed_by_all(record: Record) -> Record {
    let everybody: Vec<Address> = (0..64).collect();
    record.signed_by(&everybody)
}

pub fn item(address: Address, amount: i128) -> Item {
    Item { address, amount }
}

/// The vault with an operator whose limit is 50, a second approved token, a proposed owner and a migration under way.
pub fn busy_vault() -> Image {
    let mut image = vault();
    let calls = [
        Record::set_operator(OWNER, OPERATOR),
        Record::set_operator_withdraw_limit(OWNER, 50),
        Record::approve_token(OWNER, OTHER_TOKEN, true),
        Record::deposit_token(OWNER, OTHER_TOKEN, 30),
        Record::propose_owner(OWNER, NEW_OWNER),
        Record::initiate_emergency_migration(OWNER, PAYEE),
    ];
    for record in calls {
        accept(&mut image, record);
    }
    image
}

/// The vault in a pause.
pub fn paused_vault() -> Image {
    let mut image = vault();
    accept(&mut image, Record::pause(OWNER));
    image
}

/// One record an operation that the busy vault accepts, with the value that it gives: all operations but `initialize` and
/// `unpause`.
pub fn accepted() -> Vec<(Record, i128)> {
    vec![
        (Record::deposit(OWNER, 900), 0),
        (Record::deposit_with_fee(OWNER, 905, 5), 0),
        (Record::batch_deposit(&[item(OWNER, 400), item(OWNER, 500)]).unwrap(), 0),
        (Record::withdraw(OPERATOR, PAYEE, 50), 0),
        (Record::withdraw_batch(OWNER, &[item(PAYEE, 40), item(STRANGER, 60)]).unwrap(), 0),
        (Record::deposit_token(OWNER, OTHER_TOKEN, 1_970), 0),
        (Record::withdraw_token(OWNER, OTHER_TOKEN, PAYEE, 30), 0),
        (Record::deposit_with_failure_report(OWNER, 900), 1),
        (Record::set_operator_withdraw_limit(OWNER, 1), 0),
        (Record::set_limit(OWNER, 100), 0),
        (Record::set_token_max_limit(OPERATOR, OTHER_TOKEN, 1), 0),
        (Record::set_operator(OWNER, STRANGER), 0),
        (Record::revoke_operator(OWNER), 0),
        (Record::propose_owner(OWNER, STRANGER), 0),
        (Record::accept_owner(NEW_OWNER).at(604_799), 0),
        (Record::set_owner_proposal_ttl(OWNER, 1), 0),
        (Record::pause(OWNER), 0),
        (Record::approve_token(OWNER, TOLL_TOKEN, true), 0),
        (Record::initiate_emergency_migration(OWNER, OWNER), 0),
        (Record::execute_emergency_migration(OWNER).at(172_800), 100),
        (Record::cancel_emergency_migration(OWNER), 0),
        (Record::balance(), 100),
        (Record::effective_withdraw_limit(OPERATOR), 50),
        (Record::get_token_account_balance(OTHER_TOKEN, OWNER), 30),
        (Record::is_token_approved(OTHER_TOKEN), 1),
        (Record::is_token_compliant(TOLL_TOKEN), 1),
        (Record::outside_move(TOLL_TOKEN, OWNER, PAYEE, 2_000), 0),
        (Record::freeze(OTHER_TOKEN, true), 0),
    ]
}

/// Records that the busy vault refuses, whoever signs.
pub fn refused() -> Vec<(Record, Refusal)> {
    vec![
        (Record::initialize(OWNER, TOKEN, 0), Refusal::InvalidAmount),
        (Record::deposit(STRANGER, 1), Refusal::NotAuthorized),
        (Record::deposit(OWNER, 901), Refusal::LimitExceeded),
        (Record::deposit_with_fee(OWNER, 10, 10), Refusal::InvalidAmount),
        (Record::batch_deposit(&[]).unwrap(), Refusal::InvalidAmount),
        (Record::withdraw(OPERATOR, PAYEE, 51), Refusal::LimitExceeded),
        (Record::withdraw_batch(OWNER, &[item(PAYEE, 41), item(STRANGER, 60)]).unwrap(), Refusal::LimitExceeded),
        (Record::deposit_token(OWNER, TOLL_TOKEN, 1), Refusal::TokenNotApproved),
        (Record::withdraw_token(OWNER, OTHER_TOKEN, PAYEE, 31), Refusal::LimitExceeded),
        (Record::deposit_with_failure_report(OWNER, 0), Refusal::InvalidAmount),
        (Record::set_operator_withdraw_limit(OPERATOR, 1), Refusal::NotAuthorized),
        (Record::set_limit(STRANGER, 99), Refusal::LimitExceeded),
        (Record::set_limit(STRANGER, 100), Refusal::NotAuthorized),
        (Record::set_token_max_limit(OPERATOR, OTHER_TOKEN, 0), Refusal::InvalidAmount),
        (Record::set_operator(OPERATOR, STRANGER), Refusal::NotAuthorized),
        (Record::revoke_operator(OPERATOR), Refusal::NotAuthorized),
        (Record::propose_owner(OWNER, ZERO_ADDRESS), Refusal::InvalidParam),
        (Record::accept_owner(NEW_OWNER).at(604_800), Refusal::PendingOwnerExpired),
        (Record::set_owner_proposal_ttl(OWNER, 0), Refusal::InvalidAmount),
        (Record::pause(OPERATOR), Refusal::NotAuthorized),
        (Record::unpause(OWNER), Refusal::NotPaused),
        (Record::approve_token(OWNER, 51, true), Refusal::TokenCallFailed),
        (Record::initiate_emergency_migration(OWNER, ZERO_ADDRESS), Refusal::InvalidParam),
        (Record::execute_emergency_migration(OWNER).at(172_799), Refusal::TimelockNotExpired),
        (Record::cancel_emergency_migration(OPERATOR), Refusal::NotAuthorized),
        (Record::effective_withdraw_limit(STRANGER), Refusal::NotAuthorized),
        (Record::is_token_compliant(51), Refusal::TokenCallFailed),
        (Record::outside_move(TOKEN, VAULT_ADDRESS, PAYEE, 1), Refusal::InvalidParam),
        (Record::freeze(51, true), Refusal::InvalidParam),
    ]
}
