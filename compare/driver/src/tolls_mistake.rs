//! Mistakes that are made on purpose in the model's toll bounds, to see that the comparison finds them.
use crate::tolls::{Given, UNWRITTEN};
use model::bytes::amount;
use model::image::toll_at;
use model::tolls::{Asked, Cause};

#[derive(Clone, Copy, PartialEq, Eq, Debug)]
pub enum Mistake {
    BoundsExchanged,
    TollTakenOnce,
    TollBelowZeroAllowed,
    ArrivalBelowZero,
    SevenBeforeFour,
    FourBefore46,
    FortySixBefore30,
    SeventeenAmountsTaken,
    LengthCutDown,
    GreatestSumRefused,
    SevenAtGreatestTollOnly,
    FrozenTokenAllowed,
    AddressFolded,
    TollOfTheImage,
    HoldingsLeftOnRefusal,
    TollsOutOfOrderAllowed,
    AmountOfZeroAllowed,
    /// In the moves instead.
    MovesWithoutToll,
}

pub const ALL: [Mistake; 18] = [
    Mistake::BoundsExchanged,
    Mistake::TollTakenOnce,
    Mistake::TollBelowZeroAllowed,
    Mistake::ArrivalBelowZero,
    Mistake::SevenBeforeFour,
    Mistake::FourBefore46,
    Mistake::FortySixBefore30,
    Mistake::SeventeenAmountsTaken,
    Mistake::LengthCutDown,
    Mistake::GreatestSumRefused,
    Mistake::SevenAtGreatestTollOnly,
    Mistake::FrozenTokenAllowed,
    Mistake::AddressFolded,
    Mistake::TollOfTheImage,
    Mistake::HoldingsLeftOnRefusal,
    Mistake::TollsOutOfOrderAllowed,
    Mistake::AmountOfZeroAllowed,
    Mistake::MovesWithoutToll,
];

/// The holdings of a request that is done by another sum; as they are where that sum passes its range.
fn by_sum(asked: Asked, given: Given, sum: fn(Asked, i128) -> Option<i128>) -> Given {
    let [least, greatest] = asked.tolls;
    match [greatest, least].map(|toll| sum(asked, toll)) {
        [Some(least), Some(greatest)] => Given::of(Ok([least, greatest])),
        _ => given,
    }
}

fn toll_once(asked: Asked, toll: i128) -> Option<i128> {
    let sum = asked.listed().try_fold(0i128, |sum, amount| sum.checked_add(amount))?;
    asked.held().checked_add((sum - toll).max(0))
}

fn below_zero(asked: Asked, toll: i128) -> Option<i128> {
    asked.listed().try_fold(asked.held(), |sum, amount| sum.checked_add(amount - toll))
}

/// At the toll that the token has in the image.
fn own_toll(asked: Asked, _: i128) -> Option<i128> {
    asked.holding(amount(asked.image, toll_at(asked.token as usize)))
}

/// What is given where a request has this cause of 46 alone, and the cause is not asked for.
fn allowed(asked: Asked, given: Given, cause: Cause) -> Given {
    if given.number == 46 && asked.has_only(cause) {
        return Given::of(asked.answer_by(&[4, 7]));
    }
    given
}

/// The least holding as it is, the greatest as much as fits.
fn greatest_cut_down(asked: Asked, given: Given) -> Given {
    asked.holding(asked.tolls[1]).map_or(given, |least| Given::of(Ok([least, i128::MAX])))
}

fn whole_amounts<'a>(asked: &Asked<'a>) -> Asked<'a> {
    Asked { amounts: &asked.amounts[..asked.amounts.len() / 16 * 16], ..*asked }
}

impl Mistake {
    /// What the model would give with the mistake, in place of what it gives; mostly that is the same.
    pub fn make(self, asked: Asked, given: Given) -> Given {
        let done = given.number == 0;
        let in_order = |order: [u32; 4]| Given::of(asked.answer_by(&order));
        match self {
            Mistake::BoundsExchanged => Given { holdings: [given.holdings[1], given.holdings[0]], ..given },
            Mistake::TollTakenOnce if done => by_sum(asked, given, toll_once),
            Mistake::TollBelowZeroAllowed => allowed(asked, given, Cause::TollBelowZero),
            Mistake::ArrivalBelowZero if done => by_sum(asked, given, below_zero),
            Mistake::SevenBeforeFour => in_order([30, 46, 7, 4]),
            Mistake::FourBefore46 => in_order([30, 4, 46, 7]),
            Mistake::FortySixBefore30 => in_order([46, 30, 4, 7]),
            Mistake::SeventeenAmountsTaken if asked.amounts.len() == 17 * 16 => allowed(asked, given, Cause::AmountsAboveSixteen),
            Mistake::LengthCutDown => Given::of(whole_amounts(&asked).answer()),
            Mistake::GreatestSumRefused if given.holdings[1] == i128::MAX => Given::of(Err(7)),
            Mistake::SevenAtGreatestTollOnly if given.number == 7 => greatest_cut_down(asked, given),
            Mistake::FrozenTokenAllowed => allowed(asked, given, Cause::Frozen),
            Mistake::AddressFolded => Given::of(Asked { token: asked.token % 64, ..asked }.answer()),
            Mistake::TollOfTheImage if done => by_sum(asked, given, own_toll),
            Mistake::HoldingsLeftOnRefusal if !done => Given { holdings: UNWRITTEN, ..given },
            Mistake::TollsOutOfOrderAllowed => allowed(asked, given, Cause::TollsOutOfOrder),
            Mistake::AmountOfZeroAllowed if given.number == 4 && asked.listed().all(|amount| amount >= 0) => {
                Given::of(asked.answer_by(&[7]))
            }
            _ => given,
        }
    }
}
