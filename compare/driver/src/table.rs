//! How often each operation, or its preview, gave each number, and which pairs of docs/FORMATS.md have to be reached.
use model::vault::Call;
use std::ops::RangeInclusive;

pub const NUMBERS: usize = 38;
const ROWS: usize = 35;

/// Rows 0 to 30 are operations (0: a record that names none), then begin, commit, rollback, undo.
#[derive(Clone)]
pub struct Table {
    counts: [[u64; NUMBERS]; ROWS],
    of_previews: bool,
}

const NAMES: [&str; ROWS] = [
    "no operation",
    "initialize",
    "deposit",
    "deposit_with_fee",
    "batch_deposit",
    "withdraw",
    "withdraw_batch",
    "deposit_token",
    "withdraw_token",
    "deposit_with_failure_report",
    "set_operator_withdraw_limit",
    "set_limit",
    "set_token_max_limit",
    "set_operator",
    "revoke_operator",
    "propose_owner",
    "accept_owner",
    "set_owner_proposal_ttl",
    "pause",
    "unpause",
    "approve_token",
    "initiate_emergency_migration",
    "execute_emergency_migration",
    "cancel_emergency_migration",
    "balance",
    "effective_withdraw_limit",
    "get_token_account_balance",
    "is_token_approved",
    "is_token_compliant",
    "outside move",
    "freeze or thaw",
    "begin",
    "commit",
    "rollback",
    "undo",
];

/// docs/FORMATS.md, "The operations": each operation's own numbers.
///
/// Not listed, since no good image and record can give them:
/// - 5 `withdraw`: 7 (one amount above 0 is its own sum), though the page names both withdrawals together.
/// - 3 `deposit_with_fee`: no other 4 or 5 of its inner `deposit`, since the net lies between 1 and the gross.
fn own(row: usize) -> &'static [usize] {
    match row {
        1 => &[22, 4, 9, 23, 2],
        2 | 3 => &[8, 1, 3, 22, 4, 5, 10, 7, 6, 11, 23, 12],
        4 => &[8, 4, 1, 5, 22, 10, 7, 6, 11, 23, 12],
        5 => &[8, 1, 3, 22, 4, 6, 23, 13],
        6 => &[8, 1, 3, 22, 4, 7, 6, 23, 13],
        7 => &[8, 1, 3, 22, 4, 5, 10, 23, 11, 7, 6, 12],
        8 => &[8, 1, 3, 22, 4, 6, 23, 13],
        9 => &[8, 1, 3, 22, 4, 5, 10, 7, 6, 11, 12],
        10 | 12 => &[8, 1, 3, 22, 4],
        11 => &[8, 1, 4, 6, 3, 22],
        13 | 14 => &[1, 3, 22],
        15 => &[1, 3, 22, 14],
        16 => &[15, 16, 22, 7, 17],
        17 => &[1, 3, 22, 4],
        18 => &[1, 3, 22, 18],
        19 => &[1, 3, 22, 19],
        20 => &[1, 3, 22, 9, 23],
        21 => &[1, 3, 22, 14, 7],
        22 => &[1, 3, 22, 20, 21, 23],
        23 => &[1, 3, 22, 20],
        24 => &[1],
        25 => &[8, 1, 3, 6],
        28 => &[23],
        29 => &[14, 4, 23],
        30 => &[14],
        31 => &[36],
        32 | 33 => &[35],
        34 => &[35, 37],
        _ => &[],
    }
}

/// The numbers that a row of calls has to reach: done, its own, and those of every call. Views never answer 34.
fn wanted_of_calls(row: usize) -> Vec<usize> {
    let mut numbers = own(row).to_vec();
    match row {
        0 => return vec![30, 31, 32],
        1..=30 => numbers.extend([0, 30, 31, 32, 33]),
        _ => numbers.extend([0, 30, 31]),
    }
    if (1..=23).contains(&row) || row == 29 || row == 30 {
        numbers.push(34);
    }
    numbers
}

impl Table {
    pub fn of_calls() -> Table {
        Table { counts: [[0; NUMBERS]; ROWS], of_previews: false }
    }

    pub fn of_previews() -> Table {
        Table { of_previews: true, ..Table::of_calls() }
    }

    /// The numbers that a row has to reach: of previews those of the operations that no journal gives.
    fn wanted(&self, row: usize) -> Vec<usize> {
        let mut numbers = wanted_of_calls(row);
        if self.of_previews {
            numbers.retain(|number| row <= 30 && !matches!(number, 31 | 34));
        }
        numbers
    }

    pub fn row(call: &Call) -> usize {
        match call {
            Call::Operation { record, .. } | Call::Preview { record, .. } => match record.first() {
                Some(o) if (1..=30).contains(o) => *o as usize,
                _ => 0,
            },
            Call::Begin => 31,
            Call::Commit => 32,
            Call::Rollback => 33,
            Call::Undo => 34,
        }
    }

    pub fn name(call: &Call) -> &'static str {
        NAMES[Table::row(call)]
    }

    pub fn count(&mut self, call: &Call, number: u32) {
        self.counts[Table::row(call)][number as usize] += 1;
    }

    /// Whether docs/FORMATS.md has the pair and it was not reached yet.
    pub fn is_new(&self, call: &Call, number: u32) -> bool {
        let row = Table::row(call);
        self.counts[row][number as usize] == 0 && self.wanted(row).contains(&(number as usize))
    }

    /// The operations, of 1 to 30, with a pair that was not reached yet.
    pub fn unfinished(&self) -> Vec<u8> {
        let open = |row: &usize| self.wanted(*row).iter().any(|number| self.counts[*row][*number] == 0);
        (1..=30).filter(open).map(|row| row as u8).collect()
    }

    /// How often the numbers of a range were given.
    pub fn total(&self, numbers: RangeInclusive<usize>) -> u64 {
        self.counts.iter().flat_map(|counts| &counts[numbers.clone()]).sum()
    }

    /// How many answers there were.
    pub fn all(&self) -> u64 {
        self.total(0..=NUMBERS - 1)
    }

    /// The operations that were never done, or never refused by a rule of their own where they have one.
    pub fn one_sided(&self) -> Vec<&'static str> {
        let refused = |row: usize| own(row).is_empty() || own(row).iter().any(|number| self.counts[row][*number] > 0);
        (1..=30).filter(|row| self.counts[*row][0] == 0 || !refused(*row)).map(|row| NAMES[row]).collect()
    }

    pub fn join(&mut self, other: &Table) {
        for (row, counts) in other.counts.iter().enumerate() {
            for (number, count) in counts.iter().enumerate() {
                self.counts[row][number] += count;
            }
        }
    }

    pub fn print(&self) {
        let rows = if self.of_previews { 31 } else { ROWS };
        for (row, counts) in self.counts[..rows].iter().enumerate() {
            let reached: Vec<String> = (0..NUMBERS).filter(|n| counts[*n] > 0).map(|n| format!("{n}:{}", counts[n])).collect();
            let label = if (1..=30).contains(&row) { row.to_string() } else { String::new() };
            println!("{label:>2} {:<29} {}", NAMES[row], reached.join(" "));
        }
    }

    /// The pairs of docs/FORMATS.md that were not reached.
    pub fn missing(&self) -> Vec<String> {
        self.pairs(|row, number, count| count == 0 && self.wanted(row).contains(&number))
    }

    /// The pairs that were reached though docs/FORMATS.md does not have them.
    pub fn unexpected(&self) -> Vec<String> {
        self.pairs(|row, number, count| count > 0 && !self.wanted(row).contains(&number))
    }

    fn pairs(&self, is: impl Fn(usize, usize, u64) -> bool) -> Vec<String> {
        let of = if self.of_previews { "preview of " } else { "" };
        let all = (0..ROWS).flat_map(|row| (0..NUMBERS).map(move |number| (row, number)));
        all.filter(|(row, number)| is(*row, *number, self.counts[*row][*number]))
            .map(|(row, number)| format!("{of}{} {number}", NAMES[row]))
            .collect()
    }
}
