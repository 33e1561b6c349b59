//! Mistakes that are made on purpose in the model's trial records, to see that the comparison finds them.
use crate::trial::{unwritten, Given, Request};
use model::record::LENGTH;
use model::trial::{causes, drawn, fill, fill_by, DRAWS};

#[derive(Clone, Copy, PartialEq, Eq, Debug)]
pub enum Mistake {
    LowBitsDrawn,
    FlagAndAmountExchanged,
    NumbersOneLess,
    ItemWithoutAmount,
    OldBytesKept,
    ReachedNotWritten,
    LastNumberWraps,
    LastNumberOfAllRefused,
    OneNumberTooMany,
    BufferClearedOnRefusal,
}

pub const ALL: [Mistake; 10] = [
    Mistake::LowBitsDrawn,
    Mistake::FlagAndAmountExchanged,
    Mistake::NumbersOneLess,
    Mistake::ItemWithoutAmount,
    Mistake::OldBytesKept,
    Mistake::ReachedNotWritten,
    Mistake::LastNumberWraps,
    Mistake::LastNumberOfAllRefused,
    Mistake::OneNumberTooMany,
    Mistake::BufferClearedOnRefusal,
];

fn low_bits(numbers: [u64; DRAWS]) -> [u32; DRAWS] {
    numbers.map(|number| number as u32)
}

fn amount_before_flag(numbers: [u64; DRAWS]) -> [u32; DRAWS] {
    let [operation, caller, token, other, amount, flag] = numbers.map(drawn);
    [operation, caller, token, other, flag, amount]
}

impl Mistake {
    /// Changes what the model gives as the mistake would; much stays as it is.
    pub fn make(self, request: Request, given: &mut Given) {
        let Request { start, first, lent } = request;
        let (done, records) = (given.number == 0, &mut given.records);
        let after_last = first as u128 + (lent.len() / LENGTH) as u128;
        let by_last_number = causes(first, lent.len()) == [false, false, true];
        match self {
            Mistake::LowBitsDrawn if done => _ = fill_by(start, first, records, low_bits),
            Mistake::FlagAndAmountExchanged if done => _ = fill_by(start, first, records, amount_before_flag),
            Mistake::NumbersOneLess if done => _ = fill(start, first - 1, records),
            Mistake::ItemWithoutAmount if done => records.chunks_mut(LENGTH).for_each(|record| record[72..88].fill(0)),
            Mistake::OldBytesKept if done => {
                let pairs = records.chunks_mut(LENGTH).zip(lent.chunks(LENGTH));
                pairs.for_each(|(record, old)| record[88..].copy_from_slice(&old[88..]));
            }
            Mistake::ReachedNotWritten => given.reached = unwritten(start),
            Mistake::LastNumberWraps if by_last_number && after_last > u64::MAX as u128 => given.number = 0,
            Mistake::LastNumberOfAllRefused if done && after_last == 1 << 32 => *given = request.refused(),
            Mistake::OneNumberTooMany if by_last_number && after_last == (1 << 32) + 1 => given.number = 0,
            Mistake::BufferClearedOnRefusal if !done => records.fill(0),
            _ => {}
        }
    }
}
