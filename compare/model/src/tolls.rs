//! Toll bounds: what address 1 will hold of a token, at least and at most, when amounts have come in at a toll of which the bounds are
//! known. The first refusal that holds is the answer.
use crate::bytes::amount;
use crate::image::{self, holding_at, LENGTH};

/// What is asked: image and amounts as they are lent, the least toll and the greatest.
#[derive(Clone, Copy)]
pub struct Asked<'a> {
    pub image: &'a [u8],
    pub token: u8,
    pub amounts: &'a [u8],
    pub tolls: [i128; 2],
}

/// The refusals in their order.
pub const ORDER: [u32; 4] = [30, 46, 4, 7];

/// The causes of 46.
#[derive(Clone, Copy, PartialEq, Eq, Debug)]
pub enum Cause {
    PartOfAnAmount,
    AmountsAboveSixteen,
    TollBelowZero,
    TollsOutOfOrder,
    AddressAbove63,
    Absent,
    Frozen,
}

pub const CAUSES: [Cause; 7] = [
    Cause::PartOfAnAmount,
    Cause::AmountsAboveSixteen,
    Cause::TollBelowZero,
    Cause::TollsOutOfOrder,
    Cause::AddressAbove63,
    Cause::Absent,
    Cause::Frozen,
];

impl Asked<'_> {
    /// The least holding and the greatest, or the number of the refusal.
    pub fn answer(&self) -> Result<[i128; 2], u32> {
        self.answer_by(&ORDER)
    }

    /// The same by some of the refusals or in another order, for mistakes that are made on purpose.
    pub fn answer_by(&self, order: &[u32]) -> Result<[i128; 2], u32> {
        if let Some(number) = order.iter().find(|number| self.holds(**number)) {
            return Err(*number);
        }
        let [least_toll, greatest_toll] = self.tolls;
        match [greatest_toll, least_toll].map(|toll| self.holding(toll)) {
            [Some(least), Some(greatest)] => Ok([least, greatest]),
            _ => Err(7),
        }
    }

    /// Whether a refusal holds, whatever the others do. Of an image that is not good what can be read is read.
    pub fn holds(&self, number: u32) -> bool {
        match number {
            30 => !image::good(self.image),
            46 => CAUSES.iter().any(|cause| self.has(*cause)),
            4 => self.listed().any(|amount| amount <= 0),
            7 => self.holding(self.tolls[0]).is_none(),
            _ => unreachable!("{number} is no refusal of toll bounds"),
        }
    }

    pub fn has(&self, cause: Cause) -> bool {
        let [least, greatest] = self.tolls;
        match cause {
            Cause::PartOfAnAmount => self.amounts.len() % 16 != 0,
            Cause::AmountsAboveSixteen => self.amounts.len() > 256,
            Cause::TollBelowZero => least < 0 || greatest < 0,
            Cause::TollsOutOfOrder => least > greatest,
            Cause::AddressAbove63 => self.token > 63,
            Cause::Absent => self.token < 64 && self.kind() == 0,
            Cause::Frozen => self.kind() == 2,
        }
    }

    /// Whether 46 has this cause and no other.
    pub fn has_only(&self, cause: Cause) -> bool {
        CAUSES.iter().all(|other| self.has(*other) == (*other == cause))
    }

    /// The amounts of the list, without bytes that make no whole one.
    pub fn listed(&self) -> impl Iterator<Item = i128> + '_ {
        self.amounts.chunks_exact(16).map(|bytes| amount(bytes, 0))
    }

    /// What address 1 holds at a toll; nothing where it passes 2^127 - 1. Upper and lower halves are summed by themselves, which no
    /// list of amounts brings near the end of their range.
    pub fn holding(&self, toll: i128) -> Option<i128> {
        let arrivals = self.listed().map(|amount| amount.saturating_sub(toll).max(0));
        let (mut upper, mut lower) = (0, 0);
        for part in arrivals.chain([self.held()]) {
            upper += part >> 64;
            lower += (part as u64) as i128;
        }
        upper += lower >> 64;
        (upper < 1 << 63).then_some(upper << 64 | (lower as u64) as i128)
    }

    /// The token's kind; 0 where it has no place in the image.
    pub fn kind(&self) -> u8 {
        self.placed().map_or(0, |token| image::kind(self.image, token))
    }

    /// What address 1 holds of the token before.
    pub fn held(&self) -> i128 {
        self.placed().map_or(0, |token| amount(self.image, holding_at(token, 1)))
    }

    /// The token's address, where the image has a place for it.
    fn placed(&self) -> Option<usize> {
        (self.image.len() == LENGTH && (48..64).contains(&self.token)).then_some(self.token as usize)
    }
}
