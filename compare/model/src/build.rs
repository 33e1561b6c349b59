//! Images and records put together by their fields, for tests and benchmarks.
use crate::bytes::{amount, put};
use crate::{image, record};

/// An image with one moving token, before initialisation.
pub fn image_with_token(token: u8) -> Vec<u8> {
    let mut image = vec![0; image::LENGTH];
    image[image::token_at(token as usize)] = 1;
    image
}

pub fn holding(image: &[u8], token: u8, account: u8) -> i128 {
    amount(image, image::holding_at(token as usize, account as usize))
}

pub fn set_holding(image: &mut [u8], token: u8, account: u8, held: i128) {
    put(image, image::holding_at(token as usize, account as usize), &held.to_le_bytes());
}

/// The fields of a record; signed by its caller.
#[derive(Clone, Copy, Default)]
pub struct Fields {
    pub operation: u8,
    pub caller: u8,
    pub token: u8,
    pub other: u8,
    pub flag: u8,
    pub timestamp: u64,
    pub sequence: u32,
    pub amount: i128,
}

pub fn record(fields: Fields) -> Vec<u8> {
    let mut record = vec![0; record::LENGTH];
    put(&mut record, 0, &[fields.operation, fields.caller, fields.token, fields.other, fields.flag]);
    put(&mut record, 8, &fields.timestamp.to_le_bytes());
    put(&mut record, 16, &fields.sequence.to_le_bytes());
    put(&mut record, 24, &(1u64 << fields.caller).to_le_bytes());
    put(&mut record, 32, &fields.amount.to_le_bytes());
    record
}
