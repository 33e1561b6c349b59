//! A record of any bytes in the words of a call.
use crate::fields::{read_by, Field};
use token_vault::layout::RECORD_LENGTH;
use token_vault::{Operation, Record};

/// The call that the bytes of a record ask for. What stands in a field is shown even where the library refuses it.
pub fn record(bytes: &[u8]) -> String {
    let Ok(whole) = <[u8; RECORD_LENGTH]>::try_from(bytes) else {
        return format!("a record of {} bytes", bytes.len());
    };
    let record = Record::from_bytes(whole);
    match record.operation() {
        Some(operation) => options(operation, &record),
        None => format!("operation {}, which there is not", bytes[0]),
    }
}

fn options(operation: Operation, record: &Record) -> String {
    let mut words = operation.name().to_string();
    for read in read_by(operation) {
        for value in values(read.field, record) {
            words.push_str(&format!(" --{} {value}", read.names[0]));
        }
    }
    words
}

fn values(field: Field, record: &Record) -> Vec<String> {
    match field {
        Field::Caller => vec![record.caller().to_string()],
        Field::Token => vec![record.token().to_string()],
        Field::Other => vec![record.other().to_string()],
        Field::Amount => vec![record.amount().to_string()],
        Field::Fee => vec![record.fee().to_string()],
        Field::Seconds => vec![record.seconds().to_string()],
        Field::Flag => vec![flag(record.flag())],
        Field::Items => items(record),
        Field::Time => vec![record.timestamp().to_string()],
        Field::Sequence => vec![record.ledger_sequence().to_string()],
        Field::Signers => vec![signers(record.signers())],
    }
}

fn flag(byte: u8) -> String {
    match byte {
        0 => "no".to_string(),
        1 => "yes".to_string(),
        other => other.to_string(),
    }
}

fn items(record: &Record) -> Vec<String> {
    let mut words: Vec<String> = record.items().iter().map(|item| format!("{}:{}", item.address, item.amount)).collect();
    if usize::from(record.item_count()) > words.len() {
        words.push(format!("... ({} are counted)", record.item_count()));
    }
    words
}

fn signers(set: u64) -> String {
    let addresses: Vec<String> = (0..64).filter(|address| set >> address & 1 == 1).map(|address| address.to_string()).collect();
    match addresses.is_empty() {
        true => "none".to_string(),
        false => addresses.join(","),
    }
}

#[cfg(test)]
mod tests {
    use super::*;
    use crate::arguments::Arguments;
    use crate::calls::Call;

    fn sample(field: Field) -> &'static [&'static str] {
        match field {
            Field::Caller => &["2"],
            Field::Token => &["48"],
            Field::Other => &["63"],
            Field::Amount => &["-170141183460469231731687303715884105728"],
            Field::Fee => &["170141183460469231731687303715884105727"],
            Field::Seconds | Field::Time => &["18446744073709551615"],
            Field::Flag => &["yes"],
            Field::Items => &["4:40", "5:-60", "0:0"],
            Field::Sequence => &["4294967295"],
            Field::Signers => &["0,2,63"],
        }
    }

    #[test]
    fn a_call_is_described_as_it_is_written() {
        for operation in Operation::ALL {
            let read = read_by(operation);
            for alias in 0..read.iter().map(|read| read.names.len()).max().unwrap_or(1) {
                let written = |alias: usize| {
                    let options = read.iter().flat_map(|read| {
                        let name = read.names[alias.min(read.names.len() - 1)];
                        sample(read.field).iter().map(move |value| format!(" --{name} {value}"))
                    });
                    operation.name().to_string() + &options.collect::<String>()
                };
                let text = written(alias);
                let mut arguments = Arguments::split(text.split(' ').skip(1)).expect("options");
                let Ok(Call::Operation(_, call)) = Call::read(operation.name(), &mut arguments) else { panic!("{text}") };
                assert_eq!(record(call.as_bytes()), written(0));
            }
        }
    }
}
