//! The record of 448 bytes: which operation reads which field, and refusal 32.
use crate::bytes::amount;

pub const LENGTH: usize = 448;
pub const EVENTS: usize = 896;
pub const OPERATIONS: u8 = 30;

pub fn is_view(operation: u8) -> bool {
    (24..=28).contains(&operation)
}

pub fn reads_caller(operation: u8) -> bool {
    !matches!(operation, 4 | 24 | 27 | 28 | 30)
}

pub fn reads_token(operation: u8) -> bool {
    matches!(operation, 1 | 7 | 8 | 12 | 20 | 26..=30)
}

pub fn reads_other(operation: u8) -> bool {
    matches!(operation, 5 | 8 | 13 | 15 | 21 | 29)
}

pub fn reads_flag(operation: u8) -> bool {
    matches!(operation, 20 | 30)
}

pub fn reads_items(operation: u8) -> bool {
    matches!(operation, 4 | 6)
}

/// The address and the amount of each counted item.
pub fn items(record: &[u8]) -> impl Iterator<Item = (u8, i128)> + '_ {
    (0..record[5] as usize).map(|i| (record[64 + 24 * i], amount(record, 72 + 24 * i)))
}

/// Not refused with 32.
pub fn good(record: &[u8]) -> bool {
    if record.len() != LENGTH {
        return false;
    }
    let o = record[0];
    (1..=OPERATIONS).contains(&o)
        && !(reads_caller(o) && record[1] > 63)
        && !(reads_token(o) && record[2] > 63)
        && !(reads_other(o) && record[3] > 63)
        && !(reads_flag(o) && record[4] > 1)
        && !(reads_items(o) && (record[5] > 16 || items(record).any(|(a, _)| a > 63)))
}
