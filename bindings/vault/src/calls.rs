//! A call as it is written on a line, made on an image and a journal, and its answer in words.
use crate::arguments::{Arguments, Given};
use crate::fields::{is_known, names_in_words, read_by, Field, Read};
use crate::numbers;
use std::fmt;
use token_vault::layout::ITEMS_MAX;
use token_vault::{Address, Done, Event, Image, Item, Journal, Operation, Record, Refusal};

/// What is asked of the vault.
#[derive(Clone, Debug, PartialEq, Eq)]
pub enum Call {
    Operation(Operation, Box<Record>),
    Transaction(Transaction),
}

/// The calls on the journal.
#[derive(Clone, Copy, Debug, PartialEq, Eq)]
pub enum Transaction {
    Begin,
    Commit,
    Rollback,
    Undo,
}

impl Transaction {
    pub const ALL: [Transaction; 4] = [Transaction::Begin, Transaction::Commit, Transaction::Rollback, Transaction::Undo];

    pub fn name(self) -> &'static str {
        match self {
            Transaction::Begin => "begin",
            Transaction::Commit => "commit",
            Transaction::Rollback => "rollback",
            Transaction::Undo => "undo",
        }
    }

    pub fn from_name(name: &str) -> Option<Transaction> {
        Transaction::ALL.into_iter().find(|transaction| transaction.name() == name)
    }
}

/// An image, and the journal of its transactions where there is one.
#[derive(Clone, Debug)]
pub struct Vault {
    pub image: Image,
    pub journal: Option<Journal>,
}

impl Vault {
    pub fn make(&mut self, call: &Call) -> Answer {
        match call {
            Call::Operation(operation, record) => Answer::of(*operation, self.operate(record)),
            Call::Transaction(transaction) => match self.transact(*transaction) {
                Ok(()) => Answer::Done { value: None, events: Vec::new() },
                Err(refusal) => Answer::Refused(refusal),
            },
        }
    }

    fn operate(&mut self, record: &Record) -> Result<Done, Refusal> {
        match &mut self.journal {
            Some(journal) => self.image.call_in(journal, record),
            None => self.image.call(record),
        }
    }

    fn transact(&mut self, transaction: Transaction) -> Result<(), Refusal> {
        let journal = self.journal.get_or_insert_with(|| Journal::from_bytes(Vec::new()));
        match transaction {
            Transaction::Begin => self.image.begin(journal),
            Transaction::Commit => self.image.commit(journal),
            Transaction::Rollback => self.image.rollback(journal),
            Transaction::Undo => self.image.undo(journal),
        }
    }
}

/// What the vault answers.
#[derive(Clone, Debug, PartialEq, Eq)]
pub enum Answer {
    Done { value: Option<String>, events: Vec<Event> },
    Refused(Refusal),
}

impl Answer {
    /// What an operation, called or previewed, gave.
    pub fn of(operation: Operation, result: Result<Done, Refusal>) -> Answer {
        match result {
            Ok(done) => Answer::Done { value: value_in_words(operation, done.value), events: done.events },
            Err(refusal) => Answer::Refused(refusal),
        }
    }

    pub fn is_done(&self) -> bool {
        matches!(self, Answer::Done { .. })
    }

    pub fn events(&self) -> &[Event] {
        match self {
            Answer::Done { events, .. } => events,
            Answer::Refused(_) => &[],
        }
    }
}

/// The answer without its events.
impl fmt::Display for Answer {
    fn fmt(&self, f: &mut fmt::Formatter<'_>) -> fmt::Result {
        match self {
            Answer::Done { value: None, .. } => write!(f, "done"),
            Answer::Done { value: Some(value), .. } => write!(f, "done: {value}"),
            Answer::Refused(refusal) => write!(f, "refused: {refusal}"),
        }
    }
}

/// What the value of an operation is.
#[derive(Clone, Copy, Debug, PartialEq, Eq)]
pub enum Value {
    Nothing,
    Number,
    YesOrNo,
}

pub fn value_of(operation: Operation) -> Value {
    match operation {
        Operation::Balance
        | Operation::EffectiveWithdrawLimit
        | Operation::GetTokenAccountBalance
        | Operation::ExecuteEmergencyMigration => Value::Number,
        Operation::IsTokenApproved | Operation::IsTokenCompliant | Operation::DepositWithFailureReport => Value::YesOrNo,
        _ => Value::Nothing,
    }
}

fn value_in_words(operation: Operation, value: i128) -> Option<String> {
    match value_of(operation) {
        Value::Nothing => None,
        Value::Number => Some(value.to_string()),
        Value::YesOrNo => Some(if value == 1 { "yes" } else { "no" }.to_string()),
    }
}

impl Call {
    /// The call that has this name, with the options that are left.
    pub fn read(name: &str, options: &mut Arguments) -> Result<Call, String> {
        let Some(transaction) = Transaction::from_name(name) else {
            let (operation, record) = read_operation(name, options)?;
            return Ok(Call::Operation(operation, Box::new(record)));
        };
        match options.options().first() {
            Some(given) => Err(unread(name, given)),
            None => Ok(Call::Transaction(transaction)),
        }
    }

    pub fn is_transaction(&self) -> bool {
        matches!(self, Call::Transaction(_))
    }
}

/// The operation that has this name, and its record with the options that are left.
pub fn read_operation(name: &str, options: &mut Arguments) -> Result<(Operation, Record), String> {
    let operation = Operation::from_name(name).ok_or(format!("there is no operation '{name}' (vault call --help lists them)"))?;
    let read = read_by(operation);
    match options.options().iter().find(|given| !read.iter().any(|read| read.names.contains(&given.name.as_str()))) {
        Some(given) => Err(unread(name, given)),
        None => Ok((operation, Reader { operation, read, options }.record()?)),
    }
}

fn unread(call: &str, given: &Given) -> String {
    let is_of_a_call = is_known(&given.name) || ["journal", "entries"].contains(&given.name.as_str());
    match is_of_a_call {
        true => format!("{call} does not read --{}", given.name),
        false => format!("there is no option --{} (vault call --help lists them)", given.name),
    }
}

/// Reads the options of an operation.
struct Reader<'a> {
    operation: Operation,
    read: Vec<Read>,
    options: &'a mut Arguments,
}

impl Reader<'_> {
    fn record(mut self) -> Result<Record, String> {
        let time = self.optional(Field::Time, numbers::seconds)?.unwrap_or(0);
        let sequence = self.optional(Field::Sequence, numbers::sequence)?.unwrap_or(0);
        let signers = self.optional(Field::Signers, numbers::addresses)?;
        let record = self.unsigned()?;
        let signers = signers.unwrap_or_else(|| self.usual_signers(&record));
        Ok(record.at(time).sequence(sequence).signed_by(&signers))
    }

    /// Those who have to sign: the caller, in a batch of deposits each depositor, and for a view nobody.
    fn usual_signers(&self, record: &Record) -> Vec<Address> {
        if self.names(Field::Signers).is_empty() {
            return Vec::new();
        }
        match self.operation {
            Operation::BatchDeposit => record.items().iter().map(|item| item.address).collect(),
            _ => vec![record.caller()],
        }
    }

    fn unsigned(&mut self) -> Result<Record, String> {
        let record = match self.operation {
            Operation::Initialize => Record::initialize(self.caller()?, self.token()?, self.amount()?),
            Operation::Deposit => Record::deposit(self.caller()?, self.amount()?),
            Operation::DepositWithFee => Record::deposit_with_fee(self.caller()?, self.amount()?, self.fee()?),
            Operation::BatchDeposit => return self.with_items(|_, items| Record::batch_deposit(items)),
            Operation::Withdraw => Record::withdraw(self.caller()?, self.other()?, self.amount()?),
            Operation::WithdrawBatch => return self.with_items(Record::withdraw_batch),
            Operation::DepositToken => Record::deposit_token(self.caller()?, self.token()?, self.amount()?),
            Operation::WithdrawToken => Record::withdraw_token(self.caller()?, self.token()?, self.other()?, self.amount()?),
            Operation::DepositWithFailureReport => Record::deposit_with_failure_report(self.caller()?, self.amount()?),
            Operation::SetOperatorWithdrawLimit => Record::set_operator_withdraw_limit(self.caller()?, self.amount()?),
            Operation::SetLimit => Record::set_limit(self.caller()?, self.amount()?),
            Operation::SetTokenMaxLimit => Record::set_token_max_limit(self.caller()?, self.token()?, self.amount()?),
            Operation::SetOperator => Record::set_operator(self.caller()?, self.other()?),
            Operation::RevokeOperator => Record::revoke_operator(self.caller()?),
            Operation::ProposeOwner => Record::propose_owner(self.caller()?, self.other()?),
            Operation::AcceptOwner => Record::accept_owner(self.caller()?),
            Operation::SetOwnerProposalTtl => Record::set_owner_proposal_ttl(self.caller()?, self.seconds()?),
            Operation::Pause => Record::pause(self.caller()?),
            Operation::Unpause => Record::unpause(self.caller()?),
            Operation::ApproveToken => Record::approve_token(self.caller()?, self.token()?, self.flag()?),
            Operation::InitiateEmergencyMigration => Record::initiate_emergency_migration(self.caller()?, self.other()?),
            Operation::ExecuteEmergencyMigration => Record::execute_emergency_migration(self.caller()?),
            Operation::CancelEmergencyMigration => Record::cancel_emergency_migration(self.caller()?),
            Operation::Balance => Record::balance(),
            Operation::EffectiveWithdrawLimit => Record::effective_withdraw_limit(self.caller()?),
            Operation::GetTokenAccountBalance => Record::get_token_account_balance(self.token()?, self.caller()?),
            Operation::IsTokenApproved => Record::is_token_approved(self.token()?),
            Operation::IsTokenCompliant => Record::is_token_compliant(self.token()?),
            Operation::OutsideMove => Record::outside_move(self.token()?, self.caller()?, self.other()?, self.amount()?),
            Operation::Freeze => Record::freeze(self.token()?, self.flag()?),
        };
        Ok(record)
    }

    fn with_items(&mut self, record: impl FnOnce(Address, &[Item]) -> Option<Record>) -> Result<Record, String> {
        let caller = if self.names(Field::Caller).is_empty() { 0 } else { self.caller()? };
        let given = self.options.take_all(self.names(Field::Items));
        let items: Vec<Item> = given.iter().map(|given| given.read(numbers::item)).collect::<Result<_, _>>()?;
        record(caller, &items).ok_or(format!("{} items are given, and a call has at most {ITEMS_MAX}", items.len()))
    }

    fn names(&self, field: Field) -> &'static [&'static str] {
        self.read.iter().find(|read| read.field == field).map_or(&[], |read| read.names)
    }

    fn optional<T>(&mut self, field: Field, parse: fn(&str) -> Result<T, String>) -> Result<Option<T>, String> {
        self.options.take(self.names(field))?.map(|given| given.read(parse)).transpose()
    }

    fn needed<T>(&mut self, field: Field, parse: fn(&str) -> Result<T, String>) -> Result<T, String> {
        let names = self.names(field);
        let name = self.operation.name();
        self.optional(field, parse)?.ok_or_else(|| format!("{name} needs {}", names_in_words(&Read { field, names })))
    }

    fn caller(&mut self) -> Result<Address, String> {
        self.needed(Field::Caller, numbers::address)
    }

    fn token(&mut self) -> Result<Address, String> {
        self.needed(Field::Token, numbers::address)
    }

    fn other(&mut self) -> Result<Address, String> {
        self.needed(Field::Other, numbers::address)
    }

    fn amount(&mut self) -> Result<i128, String> {
        self.needed(Field::Amount, numbers::amount)
    }

    fn fee(&mut self) -> Result<i128, String> {
        self.needed(Field::Fee, numbers::amount)
    }

    fn seconds(&mut self) -> Result<u64, String> {
        self.needed(Field::Seconds, numbers::seconds)
    }

    fn flag(&mut self) -> Result<bool, String> {
        self.needed(Field::Flag, numbers::yes_or_no)
    }
}
