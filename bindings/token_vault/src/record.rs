//! The record of a call, 448 bytes: one builder an operation, and readers of its fields.
use crate::bytes::{get_amount, get_u32, get_u64, put};
use crate::layout::record as at;
use crate::layout::{ITEMS_MAX, RECORD_LENGTH};
use crate::{Address, Operation};
use std::fmt;

/// An item of a batch: who pays in or is paid, and how much.
#[derive(Clone, Copy, Debug, PartialEq, Eq)]
pub struct Item {
    /// Who pays in or is paid.
    pub address: Address,
    /// How much.
    pub amount: i128,
}

/// The record of a call. A builder takes the arguments of its operation; what it does not take is zero.
/// A record is signed by nobody until [`Record::signed_by`] names the signers.
///
/// ```
/// use token_vault::{Operation, Record};
///
/// let record = Record::withdraw(2, 4, 40).signed_by(&[2]).at(1_700_000_000).sequence(7);
/// assert_eq!(record.operation(), Some(Operation::Withdraw));
/// assert_eq!((record.caller(), record.other(), record.amount()), (2, 4, 40));
/// assert_eq!(record.signers(), 1 << 2);
/// assert_eq!(record.as_bytes().len(), 448);
/// ```
#[derive(Clone, Copy, PartialEq, Eq)]
pub struct Record([u8; RECORD_LENGTH]);

/// One builder for each operation.
impl Record {
    /// Sets owner, default token and vault limit, once.
    pub fn initialize(owner: Address, token: Address, max_limit: i128) -> Record {
        Record::of(Operation::Initialize).with_caller(owner).with_token(token).with_amount(max_limit)
    }

    /// Pays the default token into the vault.
    pub fn deposit(from: Address, amount: i128) -> Record {
        Record::of(Operation::Deposit).with_caller(from).with_amount(amount)
    }

    /// Pays in a gross amount less a fee.
    pub fn deposit_with_fee(from: Address, gross_amount: i128, fee_amount: i128) -> Record {
        Record::of(Operation::DepositWithFee).with_caller(from).with_amount(gross_amount).with_fee(fee_amount)
    }

    /// Pays in for each item's address; none above 16 items.
    pub fn batch_deposit(items: &[Item]) -> Option<Record> {
        Record::of(Operation::BatchDeposit).with_items(items)
    }

    /// Pays the default token out of the vault.
    pub fn withdraw(caller: Address, to: Address, amount: i128) -> Record {
        Record::of(Operation::Withdraw).with_caller(caller).with_other(to).with_amount(amount)
    }

    /// Pays out to each item's address; none above 16 items.
    pub fn withdraw_batch(caller: Address, items: &[Item]) -> Option<Record> {
        Record::of(Operation::WithdrawBatch).with_caller(caller).with_items(items)
    }

    /// Pays in any approved token and credits the depositor.
    pub fn deposit_token(from: Address, token: Address, amount: i128) -> Record {
        Record::of(Operation::DepositToken).with_caller(from).with_token(token).with_amount(amount)
    }

    /// Pays out any token.
    pub fn withdraw_token(caller: Address, token: Address, to: Address, amount: i128) -> Record {
        Record::of(Operation::WithdrawToken).with_caller(caller).with_token(token).with_other(to).with_amount(amount)
    }

    /// Pays in as `deposit`; a failed transfer is announced instead of refused.
    pub fn deposit_with_failure_report(from: Address, amount: i128) -> Record {
        Record::of(Operation::DepositWithFailureReport).with_caller(from).with_amount(amount)
    }

    /// Sets the most that the operator may pay out in one call.
    pub fn set_operator_withdraw_limit(caller: Address, limit: i128) -> Record {
        Record::of(Operation::SetOperatorWithdrawLimit).with_caller(caller).with_amount(limit)
    }

    /// Sets the vault limit.
    pub fn set_limit(caller: Address, limit: i128) -> Record {
        Record::of(Operation::SetLimit).with_caller(caller).with_amount(limit)
    }

    /// Sets the cap of a token.
    pub fn set_token_max_limit(caller: Address, token: Address, limit: i128) -> Record {
        Record::of(Operation::SetTokenMaxLimit).with_caller(caller).with_token(token).with_amount(limit)
    }

    /// Names the operator.
    pub fn set_operator(caller: Address, operator: Address) -> Record {
        Record::of(Operation::SetOperator).with_caller(caller).with_other(operator)
    }

    /// Removes the operator.
    pub fn revoke_operator(caller: Address) -> Record {
        Record::of(Operation::RevokeOperator).with_caller(caller)
    }

    /// Proposes a new owner.
    pub fn propose_owner(caller: Address, new_owner: Address) -> Record {
        Record::of(Operation::ProposeOwner).with_caller(caller).with_other(new_owner)
    }

    /// Makes the caller, who was proposed, the owner.
    pub fn accept_owner(caller: Address) -> Record {
        Record::of(Operation::AcceptOwner).with_caller(caller)
    }

    /// Sets how long a proposal of a new owner lasts.
    pub fn set_owner_proposal_ttl(caller: Address, seconds: u64) -> Record {
        Record::of(Operation::SetOwnerProposalTtl).with_caller(caller).put(at::SECONDS, &seconds.to_le_bytes())
    }

    /// Pauses the vault.
    pub fn pause(caller: Address) -> Record {
        Record::of(Operation::Pause).with_caller(caller)
    }

    /// Ends the pause.
    pub fn unpause(caller: Address) -> Record {
        Record::of(Operation::Unpause).with_caller(caller)
    }

    /// Approves a token, or takes the approval back.
    pub fn approve_token(caller: Address, token: Address, approved: bool) -> Record {
        Record::of(Operation::ApproveToken).with_caller(caller).with_token(token).with_flag(approved)
    }

    /// Starts the waiting time of an emergency migration.
    pub fn initiate_emergency_migration(caller: Address, destination: Address) -> Record {
        Record::of(Operation::InitiateEmergencyMigration).with_caller(caller).with_other(destination)
    }

    /// Moves the vault's holding of the default token to the destination.
    pub fn execute_emergency_migration(caller: Address) -> Record {
        Record::of(Operation::ExecuteEmergencyMigration).with_caller(caller)
    }

    /// Ends an emergency migration that was not executed.
    pub fn cancel_emergency_migration(caller: Address) -> Record {
        Record::of(Operation::CancelEmergencyMigration).with_caller(caller)
    }

    /// Asks for the vault's holding of the default token.
    pub fn balance() -> Record {
        Record::of(Operation::Balance)
    }

    /// Asks for the most that the caller may pay out in one call.
    pub fn effective_withdraw_limit(caller: Address) -> Record {
        Record::of(Operation::EffectiveWithdrawLimit).with_caller(caller)
    }

    /// Asks for an account's credit of a token.
    pub fn get_token_account_balance(token: Address, account: Address) -> Record {
        Record::of(Operation::GetTokenAccountBalance).with_token(token).with_caller(account)
    }

    /// Asks whether a token is approved.
    pub fn is_token_approved(token: Address) -> Record {
        Record::of(Operation::IsTokenApproved).with_token(token)
    }

    /// Asks whether an address is a token that answers.
    pub fn is_token_compliant(token: Address) -> Record {
        Record::of(Operation::IsTokenCompliant).with_token(token)
    }

    /// A transfer of a token by anyone but the vault, outside its rules.
    pub fn outside_move(token: Address, from: Address, to: Address, amount: i128) -> Record {
        Record::of(Operation::OutsideMove).with_token(token).with_caller(from).with_other(to).with_amount(amount)
    }

    /// Freezes a token, or thaws it.
    pub fn freeze(token: Address, frozen: bool) -> Record {
        Record::of(Operation::Freeze).with_token(token).with_flag(frozen)
    }
}

/// What surrounds a call, and the bytes.
impl Record {
    /// Adds signers. An address above 63 has no place in the signer set and is passed over.
    pub fn signed_by(self, signers: &[Address]) -> Record {
        let bits = signers.iter().filter_map(|signer| 1u64.checked_shl(u32::from(*signer)));
        let set = bits.fold(self.signers(), |set, bit| set | bit);
        self.put(at::SIGNERS, &set.to_le_bytes())
    }

    /// Sets the time of the call, in seconds.
    pub fn at(self, timestamp: u64) -> Record {
        self.put(at::TIMESTAMP, &timestamp.to_le_bytes())
    }

    /// Sets the ledger sequence of the call.
    pub fn sequence(self, ledger_sequence: u32) -> Record {
        self.put(at::LEDGER_SEQUENCE, &ledger_sequence.to_le_bytes())
    }

    /// The bytes that the library reads.
    pub fn as_bytes(&self) -> &[u8; RECORD_LENGTH] {
        &self.0
    }

    /// A record of any bytes.
    pub fn from_bytes(bytes: [u8; RECORD_LENGTH]) -> Record {
        Record(bytes)
    }
}

/// The fields. What stands in a field that the operation does not read is ignored by the library.
impl Record {
    /// The operation; none where its number is not 1 to 30.
    pub fn operation(&self) -> Option<Operation> {
        Operation::from_number(self.0[at::OPERATION])
    }

    /// The address that calls, owns or deposits.
    pub fn caller(&self) -> Address {
        self.0[at::CALLER]
    }

    /// The token.
    pub fn token(&self) -> Address {
        self.0[at::TOKEN]
    }

    /// The address that is paid, set as operator, proposed as owner or migrated to.
    pub fn other(&self) -> Address {
        self.0[at::OTHER]
    }

    /// The flag: 1 yes, 0 no; the library refuses others.
    pub fn flag(&self) -> u8 {
        self.0[at::FLAG]
    }

    /// The number of items; the library refuses more than 16.
    pub fn item_count(&self) -> u8 {
        self.0[at::ITEM_COUNT]
    }

    /// The time of the call, in seconds.
    pub fn timestamp(&self) -> u64 {
        get_u64(&self.0, at::TIMESTAMP)
    }

    /// The ledger sequence of the call.
    pub fn ledger_sequence(&self) -> u32 {
        get_u32(&self.0, at::LEDGER_SEQUENCE)
    }

    /// The signer set: bit a is address a.
    pub fn signers(&self) -> u64 {
        get_u64(&self.0, at::SIGNERS)
    }

    /// The amount.
    pub fn amount(&self) -> i128 {
        get_amount(&self.0, at::AMOUNT)
    }

    /// The fee.
    pub fn fee(&self) -> i128 {
        get_amount(&self.0, at::FEE)
    }

    /// The time to live, which stands where the amount does.
    pub fn seconds(&self) -> u64 {
        get_u64(&self.0, at::SECONDS)
    }

    /// The counted items, at most 16.
    pub fn items(&self) -> Vec<Item> {
        (0..ITEMS_MAX.min(self.item_count().into())).map(|i| self.item(i)).collect()
    }

    fn item(&self, i: usize) -> Item {
        let item = item_at(i);
        Item { address: self.0[item + at::ITEM_ADDRESS], amount: get_amount(&self.0, item + at::ITEM_AMOUNT) }
    }
}

fn item_at(i: usize) -> usize {
    at::ITEMS + at::ITEM_STRIDE * i
}

/// The fields that the builders set.
impl Record {
    fn of(operation: Operation) -> Record {
        Record([0; RECORD_LENGTH]).put(at::OPERATION, &[operation.number()])
    }

    fn put(mut self, at: usize, field: &[u8]) -> Record {
        put(&mut self.0, at, field);
        self
    }

    fn with_caller(self, caller: Address) -> Record {
        self.put(at::CALLER, &[caller])
    }

    fn with_token(self, token: Address) -> Record {
        self.put(at::TOKEN, &[token])
    }

    fn with_other(self, other: Address) -> Record {
        self.put(at::OTHER, &[other])
    }

    fn with_flag(self, flag: bool) -> Record {
        self.put(at::FLAG, &[flag.into()])
    }

    fn with_amount(self, amount: i128) -> Record {
        self.put(at::AMOUNT, &amount.to_le_bytes())
    }

    fn with_fee(self, fee: i128) -> Record {
        self.put(at::FEE, &fee.to_le_bytes())
    }

    fn with_items(self, items: &[Item]) -> Option<Record> {
        let count = u8::try_from(items.len()).ok().filter(|_| items.len() <= ITEMS_MAX)?;
        let with_count = self.put(at::ITEM_COUNT, &[count]);
        Some(items.iter().enumerate().fold(with_count, |record, (i, item)| record.with_item(i, item)))
    }

    fn with_item(self, i: usize, item: &Item) -> Record {
        let place = item_at(i);
        self.put(place + at::ITEM_ADDRESS, &[item.address]).put(place + at::ITEM_AMOUNT, &item.amount.to_le_bytes())
    }
}

impl fmt::Debug for Record {
    fn fmt(&self, f: &mut fmt::Formatter<'_>) -> fmt::Result {
        f.debug_struct("Record")
            .field("operation", &self.0[at::OPERATION])
            .field("caller", &self.caller())
            .field("token", &self.token())
            .field("other", &self.other())
            .field("flag", &self.flag())
            .field("timestamp", &self.timestamp())
            .field("ledger_sequence", &self.ledger_sequence())
            .field("signers", &format_args!("{:#x}", self.signers()))
            .field("amount", &self.amount())
            .field("fee", &self.fee())
            .field("items", &self.items())
            .finish()
    }
}
