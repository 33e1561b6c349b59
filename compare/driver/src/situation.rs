//! Situations inside one pair of operation and number that a run has to reach as well.
use model::bytes::{amount, get16, get32, get64};
use model::image::{credit_at, flag, holding_at, kind, snapshot_at, toll_at};
use model::record::items;
use model::vault::Answer;
use model::{image, journal};

/// A call that was answered, with what stood before and after it.
pub struct Seen<'a> {
    pub before: &'a [u8],
    pub after: &'a [u8],
    pub journal_before: &'a [u8],
    pub journal_after: &'a [u8],
    pub record: &'a [u8],
    pub answer: &'a Answer,
}

impl Seen<'_> {
    fn is(&self, operation: u8, number: u32) -> bool {
        self.record[0] == operation && self.answer.number == number
    }

    fn amount(&self) -> i128 {
        amount(self.record, 32)
    }

    fn time(&self) -> u64 {
        get64(self.record, 8)
    }

    fn caller(&self) -> usize {
        self.record[1] as usize
    }

    fn default_token(&self) -> usize {
        self.before[3] as usize
    }

    fn holding(&self, account: usize) -> i128 {
        amount(self.before, holding_at(self.default_token(), account))
    }

    fn toll(&self) -> i128 {
        amount(self.before, toll_at(self.default_token()))
    }

    fn credit(&self, token: usize) -> i128 {
        amount(self.before, credit_at(token, self.caller()))
    }

    fn tracked(&self) -> (u16, u16) {
        (get16(self.before, 88), get16(self.after, 88))
    }

    fn by_owner(&self) -> bool {
        self.record[1] == self.before[2]
    }

    fn snapshot_of_this_sequence(&self) -> bool {
        let at = snapshot_at(self.default_token());
        get32(self.before, at) == 1 && get32(self.before, at + 4) == get32(self.record, 16)
    }

    fn is_deposit(&self) -> bool {
        matches!(self.record[0], 2..=4 | 9)
    }

    fn present(&self, token: u8) -> bool {
        kind(self.before, token as usize) != 0
    }
}

type Test = fn(&Seen) -> bool;

const SITUATIONS: &[(&str, Test)] = &[
    ("deposit done, its credit does not fit and is kept", |s| s.is(2, 0) && s.credit(s.default_token()).checked_add(s.amount()).is_none()),
    ("deposit of 10^30 done", |s| s.is(2, 0) && s.amount() == 10i128.pow(30)),
    ("deposit up to the vault limit done", |s| s.is(2, 0) && s.holding(1) + s.amount() == amount(s.before, 8)),
    ("deposit up to 2^127 - 1 done", |s| s.is(2, 0) && s.holding(1) + s.amount() == i128::MAX),
    ("deposit in the sequence of its snapshot done", |s| s.answer.number == 0 && s.is_deposit() && s.snapshot_of_this_sequence()),
    ("deposit by the vault itself", |s| s.is_deposit() && s.record[0] != 4 && s.caller() == 1 && matches!(s.answer.number, 12 | 23)),
    ("deposit 12 for a toll", |s| s.is(2, 12) && s.toll() > 0 && s.caller() != 1),
    ("a key tracked as the last of 1,088", |s| s.answer.number == 0 && s.tracked() == (1_087, 1_088)),
    ("a credit or cap written with all keys tracked", |s| {
        s.answer.number == 0 && s.tracked().0 == 1_088 && matches!(s.record[0], 2 | 3 | 7 | 8 | 9 | 12)
    }),
    ("a first key tracked", |s| s.answer.number == 0 && s.tracked() == (0, 1)),
    ("withdraw of the whole holding done", |s| s.is(5, 0) && s.amount() == s.holding(1)),
    ("withdraw of the operator limit done", |s| s.is(5, 0) && !s.by_owner() && s.amount() == amount(s.before, 24)),
    ("owner and operator in one address pays above the operator limit", |s| {
        s.is(5, 0) && flag(s.before, 2) && s.before[2] == s.before[4] && flag(s.before, 3) && s.amount() > amount(s.before, 24)
    }),
    ("payout to the vault done, toll at or above the amount", |s| s.is(5, 0) && s.record[3] == 1 && s.toll() >= s.amount()),
    ("payout with a toll done", |s| s.is(5, 0) && s.record[3] != 1 && s.toll() > 0),
    ("payout 23 of a frozen token", |s| s.is(5, 23) && kind(s.before, s.default_token()) == 2),
    ("payout 23 of a full receiver", |s| s.is(5, 23) && kind(s.before, s.default_token()) == 1),
    ("sixteen payouts done", |s| s.is(6, 0) && s.record[5] == 16),
    ("two payouts to one address done", |s| s.is(6, 0) && s.record[5] == 2 && s.record[64] == s.record[88]),
    ("23 after a first payout", |s| s.is(6, 23) && kind(s.before, s.default_token()) == 1),
    ("sixteen deposits done", |s| s.is(4, 0) && s.record[5] == 16),
    ("two deposits of one address done", |s| s.is(4, 0) && s.record[5] == 2 && s.record[64] == s.record[88]),
    ("batch 22 before a later 4", |s| s.is(4, 22) && items(s.record).any(|(_, a)| a <= 0)),
    ("deposit_token of a token without a cap done", |s| s.is(7, 0) && get64(s.before, 80) >> s.record[2] & 1 == 0),
    ("deposit_token up to a cap done", |s| {
        let t = s.record[2] as usize;
        s.is(7, 0) && get64(s.before, 80) >> t & 1 == 1 && amount(s.after, holding_at(t, 1)) == amount(s.before, 96 + 16 * t)
    }),
    ("deposit_token 7 for the sum with a cap", |s| {
        let t = s.record[2] as usize;
        s.is(7, 7) && get64(s.before, 80) >> t & 1 == 1 && amount(s.before, holding_at(t, 1)).checked_add(s.amount()).is_none()
    }),
    ("deposit_token 7 after a transfer that a toll let through", |s| {
        let t = s.record[2] as usize;
        s.is(7, 7) && get64(s.before, 80) >> t & 1 == 0 && amount(s.before, holding_at(t, 1)).checked_add(s.amount()).is_none()
    }),
    ("deposit_token 7 for the credit", |s| {
        let t = s.record[2] as usize;
        s.is(7, 7) && amount(s.before, holding_at(t, 1)).checked_add(s.amount()).is_some()
    }),
    ("deposit_token 23 at a full vault without a cap", |s| {
        let t = s.record[2] as usize;
        s.is(7, 23) && s.present(s.record[2]) && amount(s.before, holding_at(t, 1)).checked_add(s.amount()).is_none()
    }),
    ("withdraw_token brings the credit to 0", |s| s.is(8, 0) && s.credit(s.record[2] as usize) == s.amount()),
    ("withdraw_token by the owner above its credit", |s| s.is(8, 0) && s.by_owner() && s.credit(s.record[2] as usize) < s.amount()),
    ("withdraw_token 6 for the operator's credit", |s| {
        let t = s.record[2] as usize;
        s.is(8, 6)
            && !s.by_owner()
            && s.present(s.record[2])
            && flag(s.before, 3)
            && s.amount() <= amount(s.before, 24)
            && s.amount() <= amount(s.before, holding_at(t, 1))
    }),
    ("failure report of a frozen token", |s| s.is(9, 0) && s.answer.value == 0 && kind(s.before, s.default_token()) == 2),
    ("failure report of a short sender", |s| s.is(9, 0) && s.answer.value == 0 && s.holding(s.caller()) < s.amount()),
    ("failure report: settled", |s| s.is(9, 0) && s.answer.value == 1),
    ("failure report 7 for the credit", |s| s.is(9, 7) && s.holding(1).checked_add(s.amount()).is_some()),
    ("limit set to the holding", |s| s.is(11, 0) && s.amount() == s.holding(1)),
    ("limit lowered by the operator", |s| s.is(11, 0) && !s.by_owner()),
    ("raising refused to the operator", |s| s.is(11, 3) && flag(s.before, 2) && s.record[1] == s.before[4]),
    ("accepted in the last second", |s| s.is(16, 0) && get64(s.before, 40) + get64(s.before, 48) - 1 == s.time()),
    ("17 in the second of the end", |s| s.is(16, 17) && get64(s.before, 40) + get64(s.before, 48) == s.time()),
    ("proposer other than the owner", |s| s.is(16, 0) && s.before[6] != s.before[2]),
    ("execute in its first second", |s| s.is(22, 0) && get64(s.before, 64) == s.time()),
    ("21 a second before", |s| s.is(22, 21) && get64(s.before, 64) - 1 == s.time()),
    ("execute paused", |s| s.is(22, 0) && flag(s.before, 1)),
    ("execute of a holding of 0, token frozen", |s| s.is(22, 0) && s.answer.value == 0 && kind(s.before, s.default_token()) == 2),
    ("execute to the vault with a toll", |s| s.is(22, 0) && s.before[7] == 1 && s.toll() > 0 && s.answer.value > 0),
    ("initiate at the end of time: 7", |s| s.is(21, 7) && s.time() == u64::MAX - 172_800 + 1),
    ("initiate just before", |s| s.is(21, 0) && s.time() == u64::MAX - 172_800),
    ("balance of 2^127 - 1", |s| s.is(24, 0) && s.answer.value == i128::MAX),
    ("approval of an address that is no token withdrawn", |s| s.is(20, 0) && s.record[4] == 0 && s.record[2] < 48),
    ("cap of an address that is no token", |s| s.is(12, 0) && s.record[2] < 48),
    ("outside move to itself with a toll", |s| {
        s.is(29, 0) && s.record[1] == s.record[3] && amount(s.before, toll_at(s.record[2] as usize)) > 0
    }),
    ("outside move with a toll above the amount", |s| s.is(29, 0) && amount(s.before, toll_at(s.record[2] as usize)) > s.amount()),
    ("a call with no changed cell in a transaction", |s| {
        s.answer.number == 0
            && journal::is_open(s.journal_before)
            && journal::calls(s.journal_after) > journal::calls(s.journal_before)
            && s.before == s.after
    }),
    ("34 for 1,000 calls", |s| s.answer.number == 34 && journal::calls(s.journal_before) == 1_000),
    ("34 for entries alone", |s| s.answer.number == 34 && journal::calls(s.journal_before) < 1_000),
    ("the last free entry taken", |s| {
        s.answer.number == 0
            && journal::is_open(s.journal_after)
            && journal::entries(s.journal_after) > journal::entries(s.journal_before)
            && journal::entries(s.journal_after) == journal::places(s.journal_after)
    }),
];

#[derive(Clone)]
pub struct Situations(Vec<u64>);

impl Situations {
    pub fn new() -> Situations {
        Situations(vec![0; SITUATIONS.len()])
    }

    /// Counts a call that got past 30 to 33. Whether one of its situations is new.
    pub fn count(&mut self, seen: &Seen) -> bool {
        if seen.answer.number >= 30 && seen.answer.number != 34 || seen.before.len() != image::LENGTH {
            return false;
        }
        let mut is_new = false;
        for (i, (_, test)) in SITUATIONS.iter().enumerate() {
            if test(seen) {
                is_new |= self.0[i] == 0;
                self.0[i] += 1;
            }
        }
        is_new
    }

    pub fn join(&mut self, other: &Situations) {
        for (mine, count) in self.0.iter_mut().zip(&other.0) {
            *mine += count;
        }
    }

    pub fn print(&self) {
        for (i, (name, _)) in SITUATIONS.iter().enumerate() {
            println!("{:>9} {name}", self.0[i]);
        }
    }

    pub fn missing(&self) -> Vec<String> {
        (0..self.0.len()).filter(|i| self.0[*i] == 0).map(|i| SITUATIONS[i].0.to_string()).collect()
    }
}
