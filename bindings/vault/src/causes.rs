//! Why a call is refused: its causes in the order in which they are looked at (docs/FORMATS.md).
use crate::calls::Transaction;
use token_vault::{Operation, Refusal};

/// A refusal of a call, and what brings it about.
#[derive(Clone, Copy, Debug, PartialEq, Eq)]
pub struct Cause {
    pub refusal: Refusal,
    pub text: &'static str,
}

const fn cause(refusal: Refusal, text: &'static str) -> Cause {
    Cause { refusal, text }
}

const STATE: [Cause; 2] =
    [cause(Refusal::InvalidImage, "the image is not good"), cause(Refusal::InvalidJournal, "the journal, where there is one, is not good")];
const FORM: [Cause; 2] = [
    cause(Refusal::InvalidRecord, "the record's length, an address, a flag or the number of items is out of range"),
    cause(Refusal::InvalidEventBuffer, "the event buffer has not 896 bytes"),
];
const ROOM: [Cause; 1] = [cause(Refusal::JournalFull, "a transaction is open, and its journal has no room for the call")];

const PAUSED: [Cause; 1] = [cause(Refusal::ContractPaused, "the vault is paused")];
const NOT_INITIALIZED: Cause = cause(Refusal::NotInitialized, "the vault is not initialised");
const UNSIGNED: Cause = cause(Refusal::SignatureMissing, "the caller is not among the signers");
const OWNER: [Cause; 3] = [NOT_INITIALIZED, cause(Refusal::NotAuthorized, "the caller is not the owner"), UNSIGNED];
const SHARED: [Cause; 3] = [NOT_INITIALIZED, cause(Refusal::NotAuthorized, "the caller is neither the owner nor the operator"), UNSIGNED];

const AMOUNT: Cause = cause(Refusal::InvalidAmount, "the amount is not above 0");
const LIMIT: Cause = cause(Refusal::InvalidAmount, "the limit is not above 0");
const NO_ITEM: Cause = cause(Refusal::InvalidAmount, "there is no item");
const MOST: Cause = cause(Refusal::DepositExceedsMax, "the amount is above 10^30");
const DEPOSIT_AMOUNT: [Cause; 2] = [AMOUNT, MOST];

const FUNDING: [Cause; 4] = [
    cause(Refusal::TokenNotApproved, "the default token is not approved"),
    cause(Refusal::ArithmeticOverflow, "the vault's holding plus what is paid in passes 2^127 - 1"),
    cause(Refusal::LimitExceeded, "the vault's holding plus what is paid in is above the vault limit"),
    cause(Refusal::VaultBalanceChanged, "the snapshot of this ledger sequence shows another holding of the vault"),
];
const TRANSFER: Cause = cause(Refusal::TokenCallFailed, "the transfer fails: the token is frozen, or the sender is short of the amount");
const RECEIVED: Cause =
    cause(Refusal::DepositTransferFailed, "afterwards the vault's holding is not what it should be, as when the token takes a toll");
const CREDIT: Cause = cause(Refusal::ArithmeticOverflow, "the depositor's credit plus the amount passes 2^127 - 1");

const OPERATOR_LIMIT: Cause = cause(Refusal::LimitExceeded, "the caller is not the owner, and no operator limit is set or it is passed");
const PAYOUT: [Cause; 2] = [
    cause(Refusal::TokenCallFailed, "a transfer fails: the token is frozen, or the receiver would pass 2^127 - 1"),
    cause(Refusal::WithdrawTransferFailed, "afterwards the vault's holding is not what it should be, as when the vault pays itself"),
];
const ABSENT: Cause = cause(Refusal::TokenCallFailed, "there is no such token");
const ZERO_TOKEN: Cause = cause(Refusal::InvalidToken, "the token is address 0");

/// All causes of an operation, those of every call before and after its own.
pub fn of_operation(operation: Operation) -> Vec<Cause> {
    let room: &[Cause] = if operation.is_view() { &[] } else { &ROOM };
    [&STATE, &FORM, own(operation).as_slice(), room].concat()
}

/// All causes of a call on the journal.
pub fn of_transaction(transaction: Transaction) -> Vec<Cause> {
    let own: &[Cause] = match transaction {
        Transaction::Begin => &[cause(Refusal::TransactionOpen, "a transaction is open already")],
        Transaction::Commit | Transaction::Rollback => &[NO_TRANSACTION],
        Transaction::Undo => &[NO_TRANSACTION, cause(Refusal::NothingToUndo, "the transaction has no call, or all are undone")],
    };
    [&STATE, own].concat()
}

const NO_TRANSACTION: Cause = cause(Refusal::NoTransaction, "no transaction is open");

/// All causes of toll bounds, which read no journal.
pub fn of_toll_bounds() -> Vec<Cause> {
    let own = [
        cause(Refusal::InvalidTollBounds, "there are more than 16 amounts, or they have not 16 bytes each"),
        cause(Refusal::InvalidTollBounds, "a toll is below 0, or the least toll is above the greatest"),
        cause(Refusal::InvalidTollBounds, "there is no such token, or it is frozen"),
        cause(Refusal::InvalidAmount, "an amount is not above 0"),
        cause(Refusal::ArithmeticOverflow, "the vault's holding plus what arrives at the least toll passes 2^127 - 1"),
    ];
    [&STATE[..1], &own].concat()
}

fn own(operation: Operation) -> Vec<Cause> {
    match operation {
        Operation::Initialize | Operation::ApproveToken => setup(operation),
        Operation::Deposit
        | Operation::DepositWithFee
        | Operation::BatchDeposit
        | Operation::DepositToken
        | Operation::DepositWithFailureReport => deposits(operation),
        Operation::Withdraw | Operation::WithdrawBatch | Operation::WithdrawToken => payouts(operation),
        Operation::ProposeOwner | Operation::AcceptOwner | Operation::SetOwnerProposalTtl => handover(operation),
        Operation::InitiateEmergencyMigration | Operation::ExecuteEmergencyMigration | Operation::CancelEmergencyMigration => {
            migration(operation)
        }
        Operation::OutsideMove | Operation::Freeze => outside(operation),
        _ if operation.is_view() => views(operation),
        _ => settings(operation),
    }
}

fn setup(operation: Operation) -> Vec<Cause> {
    match operation {
        Operation::Initialize => vec![
            cause(Refusal::SignatureMissing, "the owner is not among the signers"),
            LIMIT,
            ZERO_TOKEN,
            ABSENT,
            cause(Refusal::AlreadyInitialized, "the vault was initialised before"),
        ],
        _ => [
            &OWNER[..],
            &[
                cause(Refusal::InvalidToken, "the token is to be approved and is address 0"),
                cause(Refusal::TokenCallFailed, "the token is to be approved and is not there"),
            ],
        ]
        .concat(),
    }
}

fn deposits(operation: Operation) -> Vec<Cause> {
    let checks = [&PAUSED[..], &SHARED, &DEPOSIT_AMOUNT, &FUNDING];
    match operation {
        Operation::Deposit => [checks.concat(), vec![TRANSFER, RECEIVED]].concat(),
        Operation::DepositWithFee => {
            let fee = [
                cause(Refusal::InvalidAmount, "the fee is below 0, the gross amount not above 0, or the fee not below it"),
                cause(Refusal::DepositExceedsMax, "the gross amount is above 10^30"),
            ];
            [&fee[..], &PAUSED, &SHARED, &FUNDING, &[TRANSFER, RECEIVED]].concat()
        }
        Operation::BatchDeposit => {
            let item = [
                cause(Refusal::InvalidAmount, "item by item: the amount is not above 0"),
                cause(Refusal::DepositExceedsMax, "item by item: the amount is above 10^30"),
                cause(Refusal::SignatureMissing, "item by item: the depositor is not among the signers"),
            ];
            [&PAUSED[..], &[NO_ITEM, NOT_INITIALIZED], &item, &FUNDING, &[TRANSFER, RECEIVED]].concat()
        }
        Operation::DepositToken => [&PAUSED[..], &SHARED, &DEPOSIT_AMOUNT, &TOKEN_FUNDING].concat(),
        _ => [checks.concat(), vec![RECEIVED, CREDIT]].concat(),
    }
}

const TOKEN_FUNDING: [Cause; 9] = [
    cause(Refusal::TokenNotApproved, "the token is not approved"),
    ABSENT,
    cause(Refusal::VaultBalanceChanged, "the snapshot of this ledger sequence shows another holding of the vault"),
    cause(Refusal::ArithmeticOverflow, "the token has a cap, and the vault's holding plus the amount passes 2^127 - 1"),
    cause(Refusal::LimitExceeded, "the token has a cap, and the vault's holding plus the amount is above it"),
    cause(Refusal::TokenCallFailed, "the transfer fails: the token is frozen, the sender is short, or the vault would pass 2^127 - 1"),
    cause(Refusal::ArithmeticOverflow, "the vault's holding plus the amount passes 2^127 - 1, though less arrives"),
    RECEIVED,
    CREDIT,
];

fn payouts(operation: Operation) -> Vec<Cause> {
    let above_holding = cause(Refusal::LimitExceeded, "the sum is above the vault's holding");
    match operation {
        Operation::Withdraw => [
            &PAUSED[..],
            &SHARED,
            &[AMOUNT, OPERATOR_LIMIT, cause(Refusal::LimitExceeded, "the amount is above the vault's holding")],
            &PAYOUT,
        ]
        .concat(),
        Operation::WithdrawBatch => {
            let item = [
                cause(Refusal::InvalidAmount, "item by item: the amount is not above 0"),
                cause(Refusal::ArithmeticOverflow, "item by item: the sum so far passes 2^127 - 1"),
            ];
            [&PAUSED[..], &SHARED, &[NO_ITEM], &item, &[OPERATOR_LIMIT, above_holding], &PAYOUT].concat()
        }
        _ => {
            let token = [
                cause(Refusal::LimitExceeded, "the amount is above the vault's holding of the token"),
                cause(Refusal::LimitExceeded, "the caller is not the owner, and the amount is above the caller's credit"),
            ];
            [&PAUSED[..], &SHARED, &[AMOUNT, OPERATOR_LIMIT, ABSENT], &token, &PAYOUT].concat()
        }
    }
}

fn settings(operation: Operation) -> Vec<Cause> {
    match operation {
        Operation::SetOperatorWithdrawLimit => [&PAUSED[..], &OWNER, &[LIMIT]].concat(),
        Operation::SetTokenMaxLimit => [&PAUSED[..], &SHARED, &[LIMIT]].concat(),
        Operation::SetLimit => {
            let own = [
                NOT_INITIALIZED,
                LIMIT,
                cause(Refusal::LimitExceeded, "the limit is below the vault's holding"),
                cause(Refusal::NotAuthorized, "the caller is not the owner, nor, where the limit is not raised, the operator"),
                UNSIGNED,
            ];
            [&PAUSED[..], &own].concat()
        }
        Operation::Pause => [&OWNER[..], &[cause(Refusal::AlreadyPaused, "the vault is paused already")]].concat(),
        Operation::Unpause => [&OWNER[..], &[cause(Refusal::NotPaused, "the vault is not paused")]].concat(),
        _ => OWNER.to_vec(),
    }
}

fn handover(operation: Operation) -> Vec<Cause> {
    match operation {
        Operation::ProposeOwner => [&OWNER[..], &[cause(Refusal::InvalidParam, "the new owner is address 0")]].concat(),
        Operation::SetOwnerProposalTtl => [&OWNER[..], &[cause(Refusal::InvalidAmount, "the time to live is 0")]].concat(),
        _ => vec![
            cause(Refusal::NoPendingOwner, "no new owner is proposed"),
            cause(Refusal::NotPendingOwner, "the caller is not the proposed owner"),
            UNSIGNED,
            cause(Refusal::ArithmeticOverflow, "the time of the proposal plus the time to live passes 2^64 - 1"),
            cause(Refusal::PendingOwnerExpired, "the time of the call is not before the time of the proposal plus the time to live"),
        ],
    }
}

fn migration(operation: Operation) -> Vec<Cause> {
    let none = cause(Refusal::NoMigrationProposed, "no migration is under way");
    let own = match operation {
        Operation::InitiateEmergencyMigration => vec![
            cause(Refusal::InvalidParam, "the destination is address 0"),
            cause(Refusal::ArithmeticOverflow, "the time plus 172,800 s passes 2^64 - 1"),
        ],
        Operation::ExecuteEmergencyMigration => vec![
            none,
            cause(Refusal::TimelockNotExpired, "172,800 s have not passed since it was initiated"),
            cause(Refusal::TokenCallFailed, "the transfer fails: the token is frozen, or the receiver would pass 2^127 - 1"),
        ],
        _ => vec![none],
    };
    [&OWNER[..], &own].concat()
}

fn views(operation: Operation) -> Vec<Cause> {
    match operation {
        Operation::Balance => vec![NOT_INITIALIZED],
        Operation::EffectiveWithdrawLimit => {
            let own = [
                NOT_INITIALIZED,
                cause(Refusal::NotAuthorized, "the caller is neither the owner nor the operator"),
                cause(Refusal::LimitExceeded, "the caller is the operator, and no operator limit is set"),
            ];
            [&PAUSED[..], &own].concat()
        }
        Operation::IsTokenCompliant => vec![cause(Refusal::TokenCallFailed, "there is no such token, and the address is not 0")],
        _ => Vec::new(),
    }
}

fn outside(operation: Operation) -> Vec<Cause> {
    match operation {
        Operation::OutsideMove => vec![
            cause(Refusal::InvalidParam, "the sender is the vault"),
            AMOUNT,
            cause(
                Refusal::TokenCallFailed,
                "the transfer fails: there is no such token, it is frozen, the sender is short of the amount, or the receiver would pass 2^127 - 1",
            ),
        ],
        _ => vec![cause(Refusal::InvalidParam, "there is no such token")],
    }
}

/// The causes stand in the order of docs/FORMATS.md.
#[cfg(test)]
mod tests {
    use super::{of_toll_bounds, own};
    use token_vault::Operation;

    const PAGE: &str = include_str!("../../../docs/FORMATS.md");

    /// Checks that the page names, with their refusals.
    const CHECKS: [(&str, &[u32]); 6] = [
        ("paused", &[8]),
        ("owner gate", &[1, 3, 22]),
        ("shared gate", &[1, 3, 22]),
        ("funding", &[10, 7, 6, 11]),
        ("snapshot of the token", &[11]),
        ("operator limit", &[6]),
    ];

    fn without_brackets(text: &str) -> String {
        let mut depth = 0;
        let mut outside = String::new();
        for c in text.chars() {
            depth += i32::from(c == '(');
            if depth == 0 {
                outside.push(c);
            }
            depth -= i32::from(c == ')');
        }
        outside
    }

    /// The refusals of a text in their order: checks by their names, and numbers before a name in code with a capital letter.
    fn refusals(text: &str) -> Vec<u32> {
        let text = without_brackets(text);
        let mut found = Vec::new();
        for (word, numbers) in CHECKS {
            found.extend(text.match_indices(word).map(|(at, _)| (at, numbers.to_vec())));
        }
        for (at, _) in text.match_indices(" `") {
            let digits = text[..at].rfind(|c: char| !c.is_ascii_digit()).map_or(0, |last| last + 1);
            if text[at + 2..].starts_with(|c: char| c.is_ascii_uppercase()) {
                found.push((digits, vec![text[digits..at].parse().expect("a number before a refusal's name")]));
            }
        }
        found.sort();
        found.into_iter().flat_map(|(_, numbers)| numbers).collect()
    }

    fn section(operation: Operation) -> &'static str {
        let heading = format!("{} `{}`", operation.number(), operation.name());
        let (_, from) = PAGE
            .split("\n### ")
            .find_map(|section| section.split_once('\n').filter(|(title, _)| title.contains(&heading)))
            .unwrap_or_else(|| panic!("the page has no section {heading}"));
        from.split_once("Refusals:").expect("refusals").1
    }

    /// What the page says of an operation that has a paragraph of refusals.
    fn paragraph(operation: Operation) -> Vec<u32> {
        refusals(section(operation).split("\n\n").next().expect("a paragraph"))
    }

    fn view(operation: Operation) -> Vec<u32> {
        let start = format!("| {} `{}` | ", operation.number(), operation.name());
        let row = PAGE.lines().find_map(|line| line.strip_prefix(&start)).expect("a row of the views");
        refusals(row.split(" | ").next().expect("a cell"))
    }

    fn page(operation: Operation) -> Vec<u32> {
        let deposit = || paragraph(Operation::Deposit);
        match operation {
            _ if operation.is_view() => view(operation),
            // All of deposit, whose 4 and 5 the net amount cannot meet.
            Operation::DepositWithFee => [paragraph(operation), deposit().into_iter().filter(|n| ![4, 5].contains(n)).collect()].concat(),
            // As deposit up to and with funding, which the section names again.
            Operation::DepositWithFailureReport => [&deposit()[..6], &refusals(section(operation))].concat(),
            // One payout: there is an item, and its sum is its amount.
            Operation::Withdraw => [&[8, 1, 3, 22], &paragraph(operation)[5..6], &paragraph(operation)[7..]].concat(),
            Operation::Pause => paragraph(operation).into_iter().filter(|n| *n != 19).collect(),
            Operation::Unpause => paragraph(operation).into_iter().filter(|n| *n != 18).collect(),
            _ => paragraph(operation),
        }
    }

    #[test]
    fn causes_stand_in_the_order_of_the_page() {
        for operation in Operation::ALL {
            let told: Vec<u32> = own(operation).iter().map(|cause| cause.refusal.number()).collect();
            assert_eq!(told, page(operation), "{operation}");
        }
    }

    /// The page lists them as `1. 30: ...`, one line for each number.
    #[test]
    fn causes_of_toll_bounds_stand_in_the_order_of_the_page() {
        let section = PAGE.split("\n## ").find_map(|section| section.strip_prefix("Toll bounds\n")).expect("a section");
        let number = |line: &str| line.split_once(". ")?.1.split_once(": ")?.0.parse().ok();
        let page: Vec<u32> = section.lines().filter_map(number).collect();
        let mut told: Vec<u32> = of_toll_bounds().iter().map(|cause| cause.refusal.number()).collect();
        told.dedup();
        assert_eq!(told, page);
    }
}
