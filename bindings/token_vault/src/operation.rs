//! The 30 operations: their numbers and names.
use std::fmt;

/// What a record asks for. The names are those of the Rust contract's functions; the last two are added.
#[derive(Clone, Copy, Debug, PartialEq, Eq, Hash, PartialOrd, Ord)]
#[repr(u8)]
pub enum Operation {
    /// Sets owner, default token and vault limit, once.
    Initialize = 1,
    /// Pays the default token into the vault.
    Deposit = 2,
    /// Pays in an amount less a fee.
    DepositWithFee = 3,
    /// Pays in for up to 16 depositors at once.
    BatchDeposit = 4,
    /// Pays the default token out of the vault.
    Withdraw = 5,
    /// Pays out to up to 16 receivers at once.
    WithdrawBatch = 6,
    /// Pays in any approved token and credits the depositor.
    DepositToken = 7,
    /// Pays out any token.
    WithdrawToken = 8,
    /// Pays in as `deposit`; a failed transfer is announced instead of refused.
    DepositWithFailureReport = 9,
    /// Sets the most that the operator may pay out in one call.
    SetOperatorWithdrawLimit = 10,
    /// Sets the vault limit.
    SetLimit = 11,
    /// Sets the cap of a token.
    SetTokenMaxLimit = 12,
    /// Names the operator.
    SetOperator = 13,
    /// Removes the operator.
    RevokeOperator = 14,
    /// Proposes a new owner.
    ProposeOwner = 15,
    /// Makes the proposed owner the owner.
    AcceptOwner = 16,
    /// Sets how long a proposal of a new owner lasts.
    SetOwnerProposalTtl = 17,
    /// Pauses the vault.
    Pause = 18,
    /// Ends the pause.
    Unpause = 19,
    /// Approves a token, or takes the approval back.
    ApproveToken = 20,
    /// Starts the waiting time of an emergency migration.
    InitiateEmergencyMigration = 21,
    /// Moves the vault's holding of the default token to the destination.
    ExecuteEmergencyMigration = 22,
    /// Ends an emergency migration that was not executed.
    CancelEmergencyMigration = 23,
    /// View: the vault's holding of the default token.
    Balance = 24,
    /// View: the most that the caller may pay out in one call.
    EffectiveWithdrawLimit = 25,
    /// View: an account's credit of a token.
    GetTokenAccountBalance = 26,
    /// View: whether a token is approved.
    IsTokenApproved = 27,
    /// View: whether an address is a token that answers.
    IsTokenCompliant = 28,
    /// A transfer of a token by anyone but the vault.
    OutsideMove = 29,
    /// Freezes a token, or thaws it.
    Freeze = 30,
}

impl Operation {
    /// All operations, by number.
    pub const ALL: [Operation; 30] = [
        Operation::Initialize,
        Operation::Deposit,
        Operation::DepositWithFee,
        Operation::BatchDeposit,
        Operation::Withdraw,
        Operation::WithdrawBatch,
        Operation::DepositToken,
        Operation::WithdrawToken,
        Operation::DepositWithFailureReport,
        Operation::SetOperatorWithdrawLimit,
        Operation::SetLimit,
        Operation::SetTokenMaxLimit,
        Operation::SetOperator,
        Operation::RevokeOperator,
        Operation::ProposeOwner,
        Operation::AcceptOwner,
        Operation::SetOwnerProposalTtl,
        Operation::Pause,
        Operation::Unpause,
        Operation::ApproveToken,
        Operation::InitiateEmergencyMigration,
        Operation::ExecuteEmergencyMigration,
        Operation::CancelEmergencyMigration,
        Operation::Balance,
        Operation::EffectiveWithdrawLimit,
        Operation::GetTokenAccountBalance,
        Operation::IsTokenApproved,
        Operation::IsTokenCompliant,
        Operation::OutsideMove,
        Operation::Freeze,
    ];

    /// The number that a record holds at its first place.
    pub fn number(self) -> u8 {
        self as u8
    }

    /// The name, as in the Rust contract.
    pub fn name(self) -> &'static str {
        match self {
            Operation::Initialize => "initialize",
            Operation::Deposit => "deposit",
            Operation::DepositWithFee => "deposit_with_fee",
            Operation::BatchDeposit => "batch_deposit",
            Operation::Withdraw => "withdraw",
            Operation::WithdrawBatch => "withdraw_batch",
            Operation::DepositToken => "deposit_token",
            Operation::WithdrawToken => "withdraw_token",
            Operation::DepositWithFailureReport => "deposit_with_failure_report",
            Operation::SetOperatorWithdrawLimit => "set_operator_withdraw_limit",
            Operation::SetLimit => "set_limit",
            Operation::SetTokenMaxLimit => "set_token_max_limit",
            Operation::SetOperator => "set_operator",
            Operation::RevokeOperator => "revoke_operator",
            Operation::ProposeOwner => "propose_owner",
            Operation::AcceptOwner => "accept_owner",
            Operation::SetOwnerProposalTtl => "set_owner_proposal_ttl",
            Operation::Pause => "pause",
            Operation::Unpause => "unpause",
            Operation::ApproveToken => "approve_token",
            Operation::InitiateEmergencyMigration => "initiate_emergency_migration",
            Operation::ExecuteEmergencyMigration => "execute_emergency_migration",
            Operation::CancelEmergencyMigration => "cancel_emergency_migration",
            Operation::Balance => "balance",
            Operation::EffectiveWithdrawLimit => "effective_withdraw_limit",
            Operation::GetTokenAccountBalance => "get_token_account_balance",
            Operation::IsTokenApproved => "is_token_approved",
            Operation::IsTokenCompliant => "is_token_compliant",
            Operation::OutsideMove => "outside_move",
            Operation::Freeze => "freeze",
        }
    }

    /// The operation with this number.
    pub fn from_number(number: u8) -> Option<Operation> {
        Operation::ALL.into_iter().find(|operation| operation.number() == number)
    }

    /// The operation with this name.
    pub fn from_name(name: &str) -> Option<Operation> {
        Operation::ALL.into_iter().find(|operation| operation.name() == name)
    }

    /// Whether it only answers: a view changes nothing and is not counted as a call of a transaction.
    pub fn is_view(self) -> bool {
        (Operation::Balance..=Operation::IsTokenCompliant).contains(&self)
    }
}

impl fmt::Display for Operation {
    fn fmt(&self, f: &mut fmt::Formatter<'_>) -> fmt::Result {
        f.pad(self.name())
    }
}
