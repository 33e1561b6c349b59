//! Scenarios: each takes its random numbers from the run's seed and its own number.
use crate::compare::{copy, preview_of, Difference, Pair};
use crate::ffi;
use crate::generate;
use crate::mistake::Mistake;
use crate::situation::{Seen, Situations};
use crate::table::Table;
use model::kept::{Book, KeptList};
use model::random::Random;
use model::vault::{Answer, Call, Vault};

/// The random numbers that say which operations are previewed stand apart from those of scenarios.
const PREVIEWS: u64 = 1 << 34;
/// No scenario has more calls.
const MOST_CALLS: u64 = 64;

pub struct Run {
    pub seed: u64,
    pub mistake: Option<Mistake>,
    pub calls: u64,
    pub lists: u64,
    pub kept: u64,
    pub table: Table,
    /// The answers of previews, which do not count as calls.
    pub previews: Table,
    pub situations: Situations,
}

/// What went wrong, in which call of which scenario, and what the vault held before it.
pub struct Failure {
    pub scenario: u64,
    pub call_number: usize,
    pub call: Call,
    pub before: Vault,
    pub with_journal: bool,
    pub difference: Difference,
}

pub fn operation(r: &mut Random, image: &[u8]) -> Call {
    let operation = generate::operation(r, image);
    Call::Operation { record: generate::record(r, image, operation), events: generate::events(r) }
}

/// In a list, so that much is kept.
pub fn list_operation(r: &mut Random, image: &[u8]) -> Call {
    Call::Operation { record: list_record(r, image), events: generate::events(r) }
}

pub fn list_record(r: &mut Random, image: &[u8]) -> Vec<u8> {
    let operation = generate::operation(r, image);
    let good = image.len() == model::image::LENGTH;
    if good && r.percent(60) {
        generate::likely_record(r, image, operation)
    } else {
        generate::record(r, image, operation)
    }
}

impl Run {
    pub fn new(seed: u64, mistake: Option<Mistake>) -> Run {
        let (table, previews) = (Table::of_calls(), Table::of_previews());
        Run { seed, mistake, calls: 0, lists: 0, kept: 0, table, previews, situations: Situations::new() }
    }

    pub fn join(&mut self, other: &Run) {
        self.calls += other.calls;
        self.lists += other.lists;
        self.kept += other.kept;
        self.table.join(&other.table);
        self.previews.join(&other.previews);
        self.situations.join(&other.situations);
    }

    pub fn scenario(&mut self, scenario: u64) -> Result<(), Box<Failure>> {
        let mut r = Random::of(self.seed, scenario);
        match r.weighted(&[48, 12, 18, 10, 12]) {
            0 => self.operations(&mut r, scenario, None),
            1 => {
                let journal = vec![0; generate::journal_length(&mut r)];
                self.operations(&mut r, scenario, Some(journal))
            }
            2 => self.open(&mut r, scenario),
            3 => self.damaged(&mut r, scenario),
            _ => self.list(&mut r, scenario),
        }
    }

    /// One operation in four.
    fn is_previewed(&self, scenario: u64, call_number: usize) -> bool {
        Random::of(self.seed, PREVIEWS + MOST_CALLS * scenario + call_number as u64).percent(25)
    }

    /// A call at both sides. Where it is an operation that is previewed first, it has to answer as the preview did.
    fn step(&mut self, pair: &mut Pair, scenario: u64, call_number: usize, call: &Call) -> Result<Answer, Box<Failure>> {
        let (before, with_journal) = (pair.vault.clone(), pair.with_journal);
        let failed = |call: &Call, difference: Difference| {
            Box::new(Failure { scenario, call_number, call: copy(call), before: before.clone(), with_journal, difference })
        };
        let mut previewed = None;
        if let Some(preview) = preview_of(call).filter(|_| self.is_previewed(scenario, call_number)) {
            let answer = pair.call(&preview).map_err(|difference| failed(&preview, difference))?;
            self.previews.count(&preview, answer.number);
            previewed = Some(answer);
        }
        self.calls += 1;
        let mut answer = pair.call(call).map_err(|difference| failed(call, difference))?;
        if let Some(previewed) = previewed {
            answer = pair.after_preview(&previewed, answer).map_err(|difference| failed(call, difference))?;
        }
        self.table.count(call, answer.number);
        if let Call::Operation { record, .. } = call {
            self.situations.count(&Seen {
                before: &before.image,
                after: &pair.vault.image,
                journal_before: &before.journal,
                journal_after: &pair.vault.journal,
                record,
                answer: &answer,
            });
        }
        Ok(answer)
    }

    /// Operations one after another, with no journal or a closed one.
    fn operations(&mut self, r: &mut Random, scenario: u64, journal: Option<Vec<u8>>) -> Result<(), Box<Failure>> {
        let mut pair = Pair::new(generate::image(r), journal, self.mistake);
        pair.fenced = r.percent(20);
        let length = r.of_list(&[1, 2, 4, 8, 8, 24]);
        for i in 0..length {
            let call = operation(r, &pair.rust.image);
            self.step(&mut pair, scenario, i, &call)?;
        }
        Ok(())
    }

    /// Any good open journal: its undo may leave an image that is not good.
    fn open(&mut self, r: &mut Random, scenario: u64) -> Result<(), Box<Failure>> {
        let image = generate::image(r);
        let journal = generate::open_journal(r, &image);
        let mut pair = Pair::new(image, Some(journal), self.mistake);
        pair.fenced = r.percent(20);
        let length = r.of_list(&[1, 3, 6]);
        for i in 0..length {
            let call = match r.weighted(&[75, 17, 3, 2, 3]) {
                0 => operation(r, &pair.rust.image),
                1 => Call::Undo,
                2 => Call::Rollback,
                3 => Call::Commit,
                _ => Call::Begin,
            };
            self.step(&mut pair, scenario, i, &call)?;
        }
        Ok(())
    }

    /// Bytes that may be anything, each call on its own.
    fn damaged(&mut self, r: &mut Random, scenario: u64) -> Result<(), Box<Failure>> {
        let image = generate::image(r);
        for i in 0..8 {
            let mut call = match r.weighted(&[60, 10, 10, 10, 10]) {
                0 => operation(r, &image),
                1 => Call::Undo,
                2 => Call::Rollback,
                3 => Call::Commit,
                _ => Call::Begin,
            };
            let mut journal = if r.percent(60) { generate::open_journal(r, &image) } else { vec![0; generate::journal_length(r)] };
            let mut damaged = image.clone();
            if r.percent(45) {
                generate::damage_image(r, &mut damaged);
            }
            if r.percent(45) {
                generate::damage_journal(r, &mut journal);
            }
            if let Call::Operation { record, events } = &mut call {
                if r.percent(35) {
                    generate::damage_record(r, record);
                }
                if r.percent(20) {
                    let length = r.of_list(&[0, 1, 895, 897, 56]);
                    events.resize(length, 7);
                }
            }
            let with_journal = !matches!(call, Call::Operation { .. }) || r.percent(75);
            let mut pair = Pair::new(damaged, with_journal.then_some(journal), self.mistake);
            pair.fenced = true;
            self.step(&mut pair, scenario, i, &call)?;
        }
        Ok(())
    }

    /// Demand 3: a list of calls from a good image and a closed journal. After each call a second vault, which starts from the same two
    /// and gets only the list that is kept so far and no preview, has to hold the same; and before it, it has to answer the call alike.
    fn list(&mut self, r: &mut Random, scenario: u64) -> Result<(), Box<Failure>> {
        let start = Vault { image: generate::image(r), journal: vec![0; generate::journal_length(r)] };
        let mut pair = Pair::new(start.image.clone(), Some(start.journal.clone()), self.mistake);
        let mut kept = KeptList::default();
        let mut second = start.clone();
        let length = r.of_list(&[5, 20, 20, 60]);
        for i in 0..length {
            let call = match r.weighted(&[76, 10, 3, 3, 8]) {
                0 => list_operation(r, &pair.rust.image),
                1 => Call::Begin,
                2 => Call::Commit,
                3 => Call::Rollback,
                _ => Call::Undo,
            };
            let answer = self.step(&mut pair, scenario, i, &call)?;
            let mut next = second.clone();
            let again = ffi::call(&mut next, &call, true);
            if answer != again {
                return Err(second_differs("a call after a kept list", scenario, &call, [&answer, &again], [&pair.vault, &next]));
            }
            let strikes = answer.number == 0 && matches!(call, Call::Undo | Call::Rollback);
            if self.mistake != Some(Mistake::UndoneCallKept) || !matches!(call, Call::Undo) {
                kept.add(copy(&call), answer.clone());
            }
            second = if strikes || i + 1 == length { self.second_vault(&pair.vault, &start, &kept, scenario)? } else { next };
            if !same(&second, &pair.vault) {
                return Err(second_differs("its image or journal", scenario, &call, [&answer, &again], [&pair.vault, &second]));
            }
        }
        self.lists += 1;
        self.kept += kept.0.len() as u64;
        Ok(())
    }

    /// The second vault after the kept list, which has to answer each call as the first did and to end where it ended.
    fn second_vault(&self, first: &Vault, start: &Vault, kept: &KeptList, scenario: u64) -> Result<Vault, Box<Failure>> {
        let mut book = Book::open(&start.image);
        if self.mistake == Some(Mistake::BookWithoutToll) {
            book.tolls = [0; 16];
        }
        let mut second = start.clone();
        for kept in &kept.0 {
            let again = ffi::call(&mut second, &kept.call, true);
            if again != kept.answer {
                return Err(second_differs("a kept call", scenario, &kept.call, [&kept.answer, &again], [first, &second]));
            }
            if let Call::Operation { record, .. } = &kept.call {
                book.enter(record, &again.events, again.count);
            }
        }
        let none = Answer { number: 0, value: 0, count: 0, events: Vec::new() };
        if !same(&second, first) {
            return Err(second_differs("its last image or journal", scenario, &Call::Begin, [&none, &none], [first, &second]));
        }
        if !book.agrees(&second.image) {
            return Err(second_differs("the book", scenario, &Call::Begin, [&none, &none], [first, &second]));
        }
        Ok(second)
    }
}

fn same(one: &Vault, other: &Vault) -> bool {
    one.image == other.image && one.journal == other.journal
}

/// The difference of the first vault and the second; no single call is to blame.
fn second_differs(what: &str, scenario: u64, call: &Call, answers: [&Answer; 2], vaults: [&Vault; 2]) -> Box<Failure> {
    Box::new(Failure {
        scenario,
        call_number: 0,
        call: copy(call),
        before: Vault { image: Vec::new(), journal: Vec::new() },
        with_journal: true,
        difference: Difference {
            what: format!("second vault: {what}"),
            vault_answer: answers[0].clone(),
            rust_answer: answers[1].clone(),
            vault: vaults[0].clone(),
            rust: vaults[1].clone(),
        },
    })
}
