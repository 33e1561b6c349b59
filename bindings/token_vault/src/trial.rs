//! Trial records: a load that every house makes alike.
use crate::layout::RECORD_LENGTH;
use crate::refusal::result;
use crate::{exports, Record, Refusal};

/// Trial records, and the number from which those that follow are made.
///
/// ```
/// use token_vault::trial_records;
///
/// // Five records, and the same in two parts.
/// let whole = trial_records(1, 1, 5)?;
/// let part = trial_records(1, 1, 3)?;
/// let rest = trial_records(part.reached, 4, 2)?;
/// assert_eq!([part.records, rest.records].concat(), whole.records);
/// assert_eq!(rest.reached, whole.reached);
/// # Ok::<(), token_vault::Refusal>(())
/// ```
#[derive(Clone, Debug, PartialEq, Eq)]
pub struct TrialRecords {
    /// The records, in order.
    pub records: Vec<Record>,
    /// The generator's number after the last draw.
    pub reached: u64,
}

/// Makes so many trial records, numbered from `first` on and drawn by the generator from `start` on. They are refused with
/// [`Refusal::InvalidRecord`] where `first` is 0 or the last number would be above 2^32 - 1. Panics only where the linked
/// archive answers what this version of the crate does not know.
///
/// ```
/// use token_vault::{trial_records, Image, Operation, Refusal};
///
/// let trial = trial_records(1, 1, 100)?;
/// let record = trial.records[0];
/// assert_eq!(record.operation(), Some(Operation::OutsideMove));
/// assert_eq!((record.caller(), record.token(), record.other(), record.amount()), (51, 25, 13, 58));
/// assert_eq!((record.timestamp(), record.ledger_sequence()), (1, 1));
///
/// // The load is made on a vault; what is refused there is part of it.
/// let mut image = Image::new();
/// let answers: Vec<_> = trial.records.iter().map(|record| image.call(record)).collect();
/// assert_eq!(answers[0], Err(Refusal::TokenCallFailed));
///
/// assert_eq!(trial_records(1, 0, 100), Err(Refusal::InvalidRecord));
/// # Ok::<(), Refusal>(())
/// ```
pub fn trial_records(start: u64, first: u64, count: usize) -> Result<TrialRecords, Refusal> {
    // The library is asked for no record at the first number, and for none behind the last: it refuses one of these where
    // it would refuse all the records, and no memory is used for them.
    fill(start, first, &mut [])?;
    fill(start, first.saturating_add(count as u64), &mut [])?;
    let mut bytes = vec![0; RECORD_LENGTH * count];
    let reached = fill(start, first, &mut bytes)?;
    let (records, _) = bytes.as_chunks();
    Ok(TrialRecords { records: records.iter().map(|record| Record::from_bytes(*record)).collect(), reached })
}

/// Fills whole records, and gives the number reached.
fn fill(start: u64, first: u64, records: &mut [u8]) -> Result<u64, Refusal> {
    let mut reached = 0;
    result(exports::trial_records(start, first, records, &mut reached))?;
    Ok(reached)
}
