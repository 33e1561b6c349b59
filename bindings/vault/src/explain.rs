//! `vault explain`: refusals and operations in words.
use crate::arguments::Arguments;
use crate::calls::{value_of, Transaction, Value};
use crate::causes::{of_operation, of_toll_bounds, of_transaction, Cause};
use crate::failure::{End, Failure};
use crate::fields::{names_in_words, read_by, Field, Read};
use crate::table::{Side, Table};
use crate::toll_bounds;
use std::io::Write;
use token_vault::{Operation, Refusal};

pub fn command(arguments: Arguments, out: &mut dyn Write) -> Result<End, Failure> {
    arguments.nothing_left("explain")?;
    let words = arguments.words("explain", &["WORD"], 0)?;
    let lines = match words.first() {
        None => all_refusals(),
        Some(word) => {
            explained(word).ok_or(format!("'{word}' is neither a refusal nor an operation (vault explain lists the refusals)"))?
        }
    };
    for line in lines {
        writeln!(out, "{line}")?;
    }
    Ok(End::Done)
}

fn explained(word: &str) -> Option<Vec<String>> {
    let by_number = || word.parse().ok().and_then(Refusal::from_number);
    let by_name = || Refusal::ALL.into_iter().find(|refusal| refusal.name().eq_ignore_ascii_case(word));
    if let Some(refusal) = by_number().or_else(by_name) {
        return Some(of_refusal(refusal));
    }
    if let Some(operation) = Operation::from_name(word) {
        return Some(operation_in_words(operation));
    }
    if word == toll_bounds::NAME {
        return Some(toll_bounds_in_words());
    }
    Transaction::from_name(word).map(transaction_in_words)
}

fn all_refusals() -> Vec<String> {
    let mut table = Table::new(&[("", Side::Right), ("", Side::Left), ("", Side::Left)]);
    for refusal in Refusal::ALL {
        table.row(vec![refusal.number().to_string(), refusal.name().to_string(), refusal.sentence().to_string()]);
    }
    table.lines()
}

/// Every call with its causes.
fn all_causes() -> Vec<(&'static str, Vec<Cause>)> {
    let operations = Operation::ALL.into_iter().map(|operation| (operation.name(), of_operation(operation)));
    let transactions = Transaction::ALL.into_iter().map(|transaction| (transaction.name(), of_transaction(transaction)));
    operations.chain(transactions).chain([(toll_bounds::NAME, of_toll_bounds())]).collect()
}

fn of_refusal(refusal: Refusal) -> Vec<String> {
    let mut table = Table::pairs();
    match refusal {
        Refusal::InvalidImage | Refusal::InvalidJournal => table.pair("every call", only_cause(refusal)),
        Refusal::InvalidRecord | Refusal::InvalidEventBuffer => table.pair("every operation", only_cause(refusal)),
        Refusal::JournalFull => table.pair("every operation but the views", only_cause(refusal)),
        _ => {
            for (name, causes) in all_causes() {
                causes.iter().filter(|cause| cause.refusal == refusal).for_each(|cause| table.pair(name, cause.text));
            }
        }
    }
    [vec![refusal.to_string()], table.lines()].concat()
}

/// The cause of a refusal that has the same in all calls.
fn only_cause(refusal: Refusal) -> &'static str {
    of_operation(Operation::Deposit).iter().find(|cause| cause.refusal == refusal).map_or("", |cause| cause.text)
}

fn operation_in_words(operation: Operation) -> Vec<String> {
    let mut lines = vec![format!("{} (operation {}): {}", operation.name(), operation.number(), what_it_does(operation))];
    let mut options = Table::pairs();
    for read in read_by(operation) {
        options.pair(&names_in_words(&read), option_in_words(operation, &read));
    }
    if options.is_empty() {
        lines.push("options: none".to_string());
    } else {
        lines.push("options".to_string());
        lines.extend(options.lines());
    }
    lines.push(format!("answers: {}", answer_in_words(operation)));
    lines.extend(causes_in_words(&of_operation(operation)));
    lines
}

fn transaction_in_words(transaction: Transaction) -> Vec<String> {
    let (does, options) = match transaction {
        Transaction::Begin => (
            "opens a transaction; from here on calls can be undone",
            "options: --journal FILE, which is made where it is not there; --entries NUMBER, how many entries it then has; 2,000 where it is not given",
        ),
        Transaction::Commit => ("keeps what the transaction did, and closes it", "options: --journal FILE"),
        Transaction::Rollback => ("undoes all that the transaction did, and closes it", "options: --journal FILE"),
        Transaction::Undo => ("undoes the last call of the transaction", "options: --journal FILE"),
    };
    let lines = vec![format!("{}: {does}", transaction.name()), options.to_string(), "answers: done".to_string()];
    [lines, causes_in_words(&of_transaction(transaction))].concat()
}

fn toll_bounds_in_words() -> Vec<String> {
    let lines = [
        "toll-bounds: what the vault will hold of a token once amounts are moved in, at least and at most",
        "options: none; the words are IMAGE TOKEN LEAST GREATEST [AMOUNT ...], with a toll from LEAST to GREATEST",
        "answers: least AMOUNT and greatest AMOUNT",
    ];
    [lines.map(str::to_string).to_vec(), causes_in_words(&of_toll_bounds())].concat()
}

fn causes_in_words(causes: &[Cause]) -> Vec<String> {
    let mut table = Table::new(&[("", Side::Right), ("", Side::Left), ("", Side::Left)]);
    for cause in causes {
        table.row(vec![cause.refusal.number().to_string(), cause.refusal.name().to_string(), cause.text.to_string()]);
    }
    [vec!["refused, by the first of these that holds".to_string()], table.lines()].concat()
}

fn answer_in_words(operation: Operation) -> &'static str {
    match (operation, value_of(operation)) {
        (Operation::DepositWithFailureReport, _) => "done: yes, or done: no where the transfer failed and nothing was moved",
        (Operation::ExecuteEmergencyMigration, _) => "done: AMOUNT, what the vault held of the default token",
        (_, Value::Nothing) => "done",
        (_, Value::Number) => "done: AMOUNT",
        (_, Value::YesOrNo) => "done: yes or done: no",
    }
}

fn option_in_words(operation: Operation, read: &Read) -> String {
    let what = match read.field {
        Field::Caller => caller_in_words(operation),
        Field::Token => "the token",
        Field::Other => other_in_words(operation),
        Field::Amount => amount_in_words(operation),
        Field::Fee => "the part of the gross amount that is not paid in",
        Field::Seconds => "how long a proposal lasts",
        Field::Flag if operation == Operation::Freeze => "whether the token is frozen from now on, or moves",
        Field::Flag => "whether the token is approved from now on",
        Field::Items if operation == Operation::BatchDeposit => "who pays in, and how much; up to 16 times",
        Field::Items => "who is paid, and how much; up to 16 times",
        Field::Time => "the time of the call, counted from the start of 1970; 0 where it is not given",
        Field::Sequence => "the ledger sequence of the call; 0 where it is not given",
        Field::Signers if operation == Operation::BatchDeposit => "who signed; those who pay in where it is not given",
        Field::Signers => "who signed; the caller where it is not given",
    };
    format!("{}: {what}", read.field.value())
}

fn caller_in_words(operation: Operation) -> &'static str {
    match operation {
        Operation::Initialize => "who becomes the owner",
        Operation::Deposit | Operation::DepositWithFee | Operation::DepositToken | Operation::DepositWithFailureReport => "who pays in",
        Operation::GetTokenAccountBalance => "whose credit",
        Operation::OutsideMove => "who pays",
        _ => "who calls",
    }
}

fn other_in_words(operation: Operation) -> &'static str {
    match operation {
        Operation::SetOperator => "who becomes the operator",
        Operation::ProposeOwner => "who is proposed as owner",
        Operation::InitiateEmergencyMigration => "where the money is to go",
        _ => "who is paid",
    }
}

fn amount_in_words(operation: Operation) -> &'static str {
    match operation {
        Operation::Initialize | Operation::SetLimit => "the most that the vault may hold of the default token",
        Operation::SetOperatorWithdrawLimit => "the most that the operator may pay out in one call",
        Operation::SetTokenMaxLimit => "the most that deposits of the token may bring the vault to",
        Operation::DepositWithFee => "the gross amount, of which the fee is taken off",
        _ => "how much",
    }
}

/// An operation in a few words.
pub fn what_it_does(operation: Operation) -> &'static str {
    match operation {
        Operation::Initialize => "sets owner, default token and vault limit, and approves the token; once",
        Operation::Deposit => "pays the default token into the vault, and credits the depositor",
        Operation::DepositWithFee => "pays in an amount less a fee",
        Operation::BatchDeposit => "pays in for up to 16 depositors at once; no credits",
        Operation::Withdraw => "pays the default token out of the vault; no credits",
        Operation::WithdrawBatch => "pays out to up to 16 receivers at once; no credits",
        Operation::DepositToken => "pays in any approved token, and credits the depositor",
        Operation::WithdrawToken => "pays out any token, off the caller's credit",
        Operation::DepositWithFailureReport => "pays in as deposit does; a failed transfer is announced, not refused",
        Operation::SetOperatorWithdrawLimit => "sets the most that the operator may pay out in one call",
        Operation::SetLimit => "sets the most that the vault may hold of the default token",
        Operation::SetTokenMaxLimit => "sets the cap of a token",
        Operation::SetOperator => "names the operator",
        Operation::RevokeOperator => "removes the operator; the operator limit stays",
        Operation::ProposeOwner => "proposes a new owner",
        Operation::AcceptOwner => "makes the proposed owner, who calls, the owner",
        Operation::SetOwnerProposalTtl => "sets how long a proposal of a new owner lasts",
        Operation::Pause => "pauses the vault",
        Operation::Unpause => "ends the pause",
        Operation::ApproveToken => "approves a token, or takes the approval back",
        Operation::InitiateEmergencyMigration => "starts the 48 hours after which the default token can be moved away",
        Operation::ExecuteEmergencyMigration => "moves all that the vault holds of the default token to the destination",
        Operation::CancelEmergencyMigration => "ends a migration that was not executed",
        Operation::Balance => "what the vault holds of the default token",
        Operation::EffectiveWithdrawLimit => "the most that the caller may pay out in one call now",
        Operation::GetTokenAccountBalance => "the credit of an account",
        Operation::IsTokenApproved => "whether a token is approved",
        Operation::IsTokenCompliant => "whether there is such a token; no for address 0",
        Operation::OutsideMove => "a transfer of a token by anyone but the vault",
        Operation::Freeze => "freezes a token, so that its transfers fail, or lets it move again",
    }
}
