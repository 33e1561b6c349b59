//! Which options an operation reads, and by which names.
use token_vault::Operation;

/// The fields of a record that options set.
#[derive(Clone, Copy, Debug, PartialEq, Eq)]
pub enum Field {
    Caller,
    Token,
    Other,
    Amount,
    Fee,
    Seconds,
    Flag,
    Items,
    Time,
    Sequence,
    Signers,
}

impl Field {
    /// What stands for the value in a usage line.
    pub fn value(self) -> &'static str {
        match self {
            Field::Caller | Field::Other => "ADDRESS",
            Field::Token => "TOKEN",
            Field::Amount | Field::Fee => "AMOUNT",
            Field::Seconds | Field::Time => "SECONDS",
            Field::Flag => "yes|no",
            Field::Items => "ADDRESS:AMOUNT",
            Field::Sequence => "NUMBER",
            Field::Signers => "ADDRESS,...|none",
        }
    }

    /// Time and sequence are 0 where they are not given, the signers those who have to sign, and there may be no item.
    pub fn is_needed(self) -> bool {
        !matches!(self, Field::Time | Field::Sequence | Field::Signers | Field::Items)
    }
}

/// A field that an operation reads, and the names of its option: the general one, then those that say what it is here.
#[derive(Clone, Copy, Debug)]
pub struct Read {
    pub field: Field,
    pub names: &'static [&'static str],
}

const fn read(field: Field, names: &'static [&'static str]) -> Read {
    Read { field, names }
}

const CALLER: Read = read(Field::Caller, &["caller"]);
const OWNER: Read = read(Field::Caller, &["caller", "owner"]);
const FROM: Read = read(Field::Caller, &["caller", "from"]);
const ACCOUNT: Read = read(Field::Caller, &["caller", "account"]);
const TOKEN: Read = read(Field::Token, &["token"]);
const TO: Read = read(Field::Other, &["other", "to"]);
const OPERATOR: Read = read(Field::Other, &["other", "operator"]);
const NEW_OWNER: Read = read(Field::Other, &["other", "new-owner"]);
const DESTINATION: Read = read(Field::Other, &["other", "destination"]);
const AMOUNT: Read = read(Field::Amount, &["amount"]);
const GROSS_AMOUNT: Read = read(Field::Amount, &["amount", "gross-amount"]);
const LIMIT: Read = read(Field::Amount, &["amount", "limit"]);
const MAX_LIMIT: Read = read(Field::Amount, &["amount", "limit", "max-limit"]);
const FEE: Read = read(Field::Fee, &["fee", "fee-amount"]);
const SECONDS: Read = read(Field::Seconds, &["seconds"]);
const APPROVED: Read = read(Field::Flag, &["approved"]);
const FROZEN: Read = read(Field::Flag, &["frozen"]);
const ITEMS: Read = read(Field::Items, &["item"]);
const TIME: Read = read(Field::Time, &["time"]);
const SEQUENCE: Read = read(Field::Sequence, &["sequence"]);
const SIGNERS: Read = read(Field::Signers, &["signers"]);

/// The arguments of the Rust contract's function, in its order.
fn arguments(operation: Operation) -> &'static [Read] {
    match operation {
        Operation::Initialize => &[OWNER, TOKEN, MAX_LIMIT],
        Operation::Deposit | Operation::DepositWithFailureReport => &[FROM, AMOUNT],
        Operation::DepositWithFee => &[FROM, GROSS_AMOUNT, FEE],
        Operation::BatchDeposit => &[ITEMS],
        Operation::Withdraw => &[CALLER, TO, AMOUNT],
        Operation::WithdrawBatch => &[CALLER, ITEMS],
        Operation::DepositToken => &[FROM, TOKEN, AMOUNT],
        Operation::WithdrawToken => &[CALLER, TOKEN, TO, AMOUNT],
        Operation::SetOperatorWithdrawLimit | Operation::SetLimit => &[CALLER, LIMIT],
        Operation::SetTokenMaxLimit => &[CALLER, TOKEN, MAX_LIMIT],
        Operation::SetOperator => &[CALLER, OPERATOR],
        Operation::ProposeOwner => &[CALLER, NEW_OWNER],
        Operation::SetOwnerProposalTtl => &[CALLER, SECONDS],
        Operation::RevokeOperator | Operation::AcceptOwner | Operation::Pause | Operation::Unpause => &[CALLER],
        Operation::ApproveToken => &[CALLER, TOKEN, APPROVED],
        Operation::InitiateEmergencyMigration => &[CALLER, DESTINATION],
        Operation::ExecuteEmergencyMigration | Operation::CancelEmergencyMigration => &[CALLER],
        Operation::Balance => &[],
        Operation::EffectiveWithdrawLimit => &[CALLER],
        Operation::GetTokenAccountBalance => &[TOKEN, ACCOUNT],
        Operation::IsTokenApproved | Operation::IsTokenCompliant => &[TOKEN],
        Operation::OutsideMove => &[TOKEN, FROM, TO, AMOUNT],
        Operation::Freeze => &[TOKEN, FROZEN],
    }
}

fn reads_time(operation: Operation) -> bool {
    use Operation::*;
    matches!(operation, ProposeOwner | AcceptOwner | Pause | Unpause | InitiateEmergencyMigration | ExecuteEmergencyMigration)
}

/// Those that take or compare a snapshot.
fn reads_sequence(operation: Operation) -> bool {
    (Operation::Deposit.number()..=Operation::DepositWithFailureReport.number()).contains(&operation.number())
}

fn reads_signers(operation: Operation) -> bool {
    operation.number() <= Operation::CancelEmergencyMigration.number()
}

/// All that an operation reads.
pub fn read_by(operation: Operation) -> Vec<Read> {
    let mut all = arguments(operation).to_vec();
    let surroundings = [(TIME, reads_time(operation)), (SEQUENCE, reads_sequence(operation)), (SIGNERS, reads_signers(operation))];
    all.extend(surroundings.into_iter().filter(|(_, is_read)| *is_read).map(|(read, _)| read));
    all
}

/// Whether some operation has an option of this name.
pub fn is_known(name: &str) -> bool {
    Operation::ALL.into_iter().any(|operation| read_by(operation).iter().any(|read| read.names.contains(&name)))
}

/// `--caller (or --from)`.
pub fn names_in_words(read: &Read) -> String {
    let others: Vec<String> = read.names[1..].iter().map(|name| format!("--{name}")).collect();
    match others.is_empty() {
        true => format!("--{}", read.names[0]),
        false => format!("--{} (or {})", read.names[0], others.join(", ")),
    }
}
