//! The refusals: their numbers, names and sentences.
use std::error::Error;
use std::fmt;

/// Why a call was not made. A refused call changes neither image nor journal.
///
/// ```
/// use token_vault::{Image, Record, Refusal};
///
/// let refusal = Image::new().call(&Record::balance()).unwrap_err();
/// assert_eq!(refusal, Refusal::NotInitialized);
/// assert_eq!(refusal.to_string(), "1 NotInitialized: The vault is not initialised.");
/// assert_eq!(Refusal::from_number(34), Some(Refusal::JournalFull));
/// ```
#[derive(Clone, Copy, Debug, PartialEq, Eq, Hash, PartialOrd, Ord)]
#[repr(u32)]
pub enum Refusal {
    /// The vault is not initialised.
    NotInitialized = 1,
    /// The vault was initialised before.
    AlreadyInitialized = 2,
    /// The caller is not the owner, nor the operator where an operator is let in.
    NotAuthorized = 3,
    /// An amount, fee, limit or time is out of range, or there is no item.
    InvalidAmount = 4,
    /// A deposit is above 10^30.
    DepositExceedsMax = 5,
    /// A limit, a cap, a holding or a credit is passed.
    LimitExceeded = 6,
    /// A sum passes the greatest number that its field holds.
    ArithmeticOverflow = 7,
    /// The vault is paused.
    ContractPaused = 8,
    /// The token is the zero address.
    InvalidToken = 9,
    /// The token is not approved.
    TokenNotApproved = 10,
    /// The vault's holding differs from the snapshot taken at this ledger sequence.
    VaultBalanceChanged = 11,
    /// After the deposit the vault's holding is not what it should be, as when the token takes a toll.
    DepositTransferFailed = 12,
    /// After the payout the vault's holding is not what it should be, as when the vault pays itself.
    WithdrawTransferFailed = 13,
    /// The address or the token is not allowed here.
    InvalidParam = 14,
    /// No new owner is proposed.
    NoPendingOwner = 15,
    /// The caller is not the proposed owner.
    NotPendingOwner = 16,
    /// The proposal of a new owner has expired.
    PendingOwnerExpired = 17,
    /// The vault is paused already.
    AlreadyPaused = 18,
    /// The vault is not paused.
    NotPaused = 19,
    /// No emergency migration is under way.
    NoMigrationProposed = 20,
    /// The waiting time of the emergency migration is not over.
    TimelockNotExpired = 21,
    /// The address that has to sign is not in the signer set.
    SignatureMissing = 22,
    /// The token is absent or frozen, or a transfer of it failed.
    TokenCallFailed = 23,
    /// The image is not good.
    InvalidImage = 30,
    /// The journal is not good.
    InvalidJournal = 31,
    /// The record's length, its operation or a field that the operation reads is not allowed.
    InvalidRecord = 32,
    /// The event buffer has not 896 bytes.
    InvalidEventBuffer = 33,
    /// The journal has no room for the call: all entries or all 1,000 calls are used.
    JournalFull = 34,
    /// No transaction is open.
    NoTransaction = 35,
    /// A transaction is open already.
    TransactionOpen = 36,
    /// The transaction has no call to undo.
    NothingToUndo = 37,
    /// The amounts, the tolls or the token that toll bounds are asked for are not allowed.
    InvalidTollBounds = 46,
}

impl Refusal {
    /// All refusals, by number.
    pub const ALL: [Refusal; 32] = [
        Refusal::NotInitialized,
        Refusal::AlreadyInitialized,
        Refusal::NotAuthorized,
        Refusal::InvalidAmount,
        Refusal::DepositExceedsMax,
        Refusal::LimitExceeded,
        Refusal::ArithmeticOverflow,
        Refusal::ContractPaused,
        Refusal::InvalidToken,
        Refusal::TokenNotApproved,
        Refusal::VaultBalanceChanged,
        Refusal::DepositTransferFailed,
        Refusal::WithdrawTransferFailed,
        Refusal::InvalidParam,
        Refusal::NoPendingOwner,
        Refusal::NotPendingOwner,
        Refusal::PendingOwnerExpired,
        Refusal::AlreadyPaused,
        Refusal::NotPaused,
        Refusal::NoMigrationProposed,
        Refusal::TimelockNotExpired,
        Refusal::SignatureMissing,
        Refusal::TokenCallFailed,
        Refusal::InvalidImage,
        Refusal::InvalidJournal,
        Refusal::InvalidRecord,
        Refusal::InvalidEventBuffer,
        Refusal::JournalFull,
        Refusal::NoTransaction,
        Refusal::TransactionOpen,
        Refusal::NothingToUndo,
        Refusal::InvalidTollBounds,
    ];

    /// The number that the library answers.
    pub fn number(self) -> u32 {
        self as u32
    }

    /// The name.
    pub fn name(self) -> &'static str {
        match self {
            Refusal::NotInitialized => "NotInitialized",
            Refusal::AlreadyInitialized => "AlreadyInitialized",
            Refusal::NotAuthorized => "NotAuthorized",
            Refusal::InvalidAmount => "InvalidAmount",
            Refusal::DepositExceedsMax => "DepositExceedsMax",
            Refusal::LimitExceeded => "LimitExceeded",
            Refusal::ArithmeticOverflow => "ArithmeticOverflow",
            Refusal::ContractPaused => "ContractPaused",
            Refusal::InvalidToken => "InvalidToken",
            Refusal::TokenNotApproved => "TokenNotApproved",
            Refusal::VaultBalanceChanged => "VaultBalanceChanged",
            Refusal::DepositTransferFailed => "DepositTransferFailed",
            Refusal::WithdrawTransferFailed => "WithdrawTransferFailed",
            Refusal::InvalidParam => "InvalidParam",
            Refusal::NoPendingOwner => "NoPendingOwner",
            Refusal::NotPendingOwner => "NotPendingOwner",
            Refusal::PendingOwnerExpired => "PendingOwnerExpired",
            Refusal::AlreadyPaused => "AlreadyPaused",
            Refusal::NotPaused => "NotPaused",
            Refusal::NoMigrationProposed => "NoMigrationProposed",
            Refusal::TimelockNotExpired => "TimelockNotExpired",
            Refusal::SignatureMissing => "SignatureMissing",
            Refusal::TokenCallFailed => "TokenCallFailed",
            Refusal::InvalidImage => "InvalidImage",
            Refusal::InvalidJournal => "InvalidJournal",
            Refusal::InvalidRecord => "InvalidRecord",
            Refusal::InvalidEventBuffer => "InvalidEventBuffer",
            Refusal::JournalFull => "JournalFull",
            Refusal::NoTransaction => "NoTransaction",
            Refusal::TransactionOpen => "TransactionOpen",
            Refusal::NothingToUndo => "NothingToUndo",
            Refusal::InvalidTollBounds => "InvalidTollBounds",
        }
    }

    /// What it says, in one sentence.
    pub fn sentence(self) -> &'static str {
        match self {
            Refusal::NotInitialized => "The vault is not initialised.",
            Refusal::AlreadyInitialized => "The vault was initialised before.",
            Refusal::NotAuthorized => "The caller is not the owner, nor the operator where an operator is let in.",
            Refusal::InvalidAmount => "An amount, fee, limit or time is out of range, or there is no item.",
            Refusal::DepositExceedsMax => "A deposit is above 10^30.",
            Refusal::LimitExceeded => "A limit, a cap, a holding or a credit is passed.",
            Refusal::ArithmeticOverflow => "A sum passes the greatest number that its field holds.",
            Refusal::ContractPaused => "The vault is paused.",
            Refusal::InvalidToken => "The token is the zero address.",
            Refusal::TokenNotApproved => "The token is not approved.",
            Refusal::VaultBalanceChanged => "The vault's holding differs from the snapshot taken at this ledger sequence.",
            Refusal::DepositTransferFailed => {
                "After the deposit the vault's holding is not what it should be, as when the token takes a toll."
            }
            Refusal::WithdrawTransferFailed => {
                "After the payout the vault's holding is not what it should be, as when the vault pays itself."
            }
            Refusal::InvalidParam => "The address or the token is not allowed here.",
            Refusal::NoPendingOwner => "No new owner is proposed.",
            Refusal::NotPendingOwner => "The caller is not the proposed owner.",
            Refusal::PendingOwnerExpired => "The proposal of a new owner has expired.",
            Refusal::AlreadyPaused => "The vault is paused already.",
            Refusal::NotPaused => "The vault is not paused.",
            Refusal::NoMigrationProposed => "No emergency migration is under way.",
            Refusal::TimelockNotExpired => "The waiting time of the emergency migration is not over.",
            Refusal::SignatureMissing => "The address that has to sign is not in the signer set.",
            Refusal::TokenCallFailed => "The token is absent or frozen, or a transfer of it failed.",
            Refusal::InvalidImage => "The image is not good.",
            Refusal::InvalidJournal => "The journal is not good.",
            Refusal::InvalidRecord => "The record's length, its operation or a field that the operation reads is not allowed.",
            Refusal::InvalidEventBuffer => "The event buffer has not 896 bytes.",
            Refusal::JournalFull => "The journal has no room for the call: all entries or all 1,000 calls are used.",
            Refusal::NoTransaction => "No transaction is open.",
            Refusal::TransactionOpen => "A transaction is open already.",
            Refusal::NothingToUndo => "The transaction has no call to undo.",
            Refusal::InvalidTollBounds => "The amounts, the tolls or the token that toll bounds are asked for are not allowed.",
        }
    }

    /// The refusal with this number.
    pub fn from_number(number: u32) -> Option<Refusal> {
        Refusal::ALL.into_iter().find(|refusal| refusal.number() == number)
    }

    /// The refusal with this name.
    pub fn from_name(name: &str) -> Option<Refusal> {
        Refusal::ALL.into_iter().find(|refusal| refusal.name() == name)
    }
}

impl fmt::Display for Refusal {
    fn fmt(&self, f: &mut fmt::Formatter<'_>) -> fmt::Result {
        write!(f, "{} {}: {}", self.number(), self.name(), self.sentence())
    }
}

impl Error for Refusal {}

/// What the library's number says.
pub(crate) fn result(number: u32) -> Result<(), Refusal> {
    match number {
        0 => Ok(()),
        _ => Err(Refusal::from_number(number).expect("a refusal that this crate knows")),
    }
}
