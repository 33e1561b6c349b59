//! Vectors for the order of refusals: from few images, each operation with every change of a field and with two at once.
use crate::change::{accepted, changes, shared, Change, OPERATOR};
use crate::compare::operate;
use crate::start_image;
use crate::vectors::List;
use model::record::{is_view, EVENTS, OPERATIONS};
use model::vault::{Call, Vault};
use std::collections::{HashMap, HashSet};

/// So many cells can one call change.
const ROOM: usize = 40;

/// Number, event count and kind of the first event.
type Outcome = (u32, u32, u8);

/// Operation and caller of the accepted record, the fields that are changed, and the outcomes with and without the changes.
type Signature = (u8, u8, Vec<u8>, Vec<Outcome>);

/// What the plain image answers, and what calls before have shown.
#[derive(Default)]
struct Seen {
    plain: HashMap<Vec<u8>, Outcome>,
    signatures: HashSet<Signature>,
}

/// One list from one image, which it always comes back to: what is accepted is undone.
struct Directed<'a> {
    vault: Vault,
    is_plain: bool,
    calls: Vec<Call>,
    taken: HashSet<Vec<u8>>,
    seen: &'a mut Seen,
}

struct Single {
    change: Change,
    record: Vec<u8>,
    given: Outcome,
}

pub fn call(record: Vec<u8>) -> Call {
    Call::Operation { record, events: vec![9; EVENTS] }
}

fn changed(record: &[u8], change: &Change) -> Vec<u8> {
    let mut record = record.to_vec();
    change.apply(&mut record);
    record
}

impl Directed<'_> {
    fn ask(&mut self, record: &[u8]) -> Outcome {
        let answer = self.vault.clone().call(&call(record.to_vec()), &mut operate);
        let given = (answer.number, answer.count, answer.events[0]);
        if self.is_plain {
            self.seen.plain.insert(record.to_vec(), given);
        }
        given
    }

    fn take(&mut self, record: &[u8], given: Outcome) {
        if !self.taken.insert(record.to_vec()) {
            return;
        }
        self.calls.push(call(record.to_vec()));
        if given.0 == 0 && !is_view(record[0]) {
            self.calls.push(Call::Undo);
        }
    }

    /// Takes a call where outcomes like these were not seen before.
    fn take_new(&mut self, base: &[u8], record: &[u8], fields: Vec<u8>, outcomes: Vec<Outcome>) {
        let given = outcomes[outcomes.len() - 1];
        if self.seen.signatures.insert((base[0], base[1], fields, outcomes)) {
            self.take(record, given);
        }
    }

    /// All changes are taken from the image that first accepts the record; from one with other roles those of caller and amount.
    fn operation(&mut self, base: Vec<u8>, other_roles: bool) {
        let given = self.ask(&base);
        let plain = self.seen.plain[&base];
        if base[1] != OPERATOR || self.is_plain || given != plain {
            self.take(&base, given);
        }
        let all = self.is_plain || (given.0 == 0 && plain.0 != 0);
        let roles = other_roles && given == plain && shared(base[0]);
        let mut singles = Vec::new();
        for change in changes(base[0]) {
            let record = changed(&base, &change);
            let single = Single { given: self.ask(&record), record, change };
            self.single(&base, given, &single, all || (roles && matches!(single.change, Change::Caller(_) | Change::Amount(_))));
            singles.push(single);
        }
        if given.0 == 0 {
            self.pairs(&base, given, &singles);
        }
    }

    fn pairs(&mut self, base: &[u8], without: Outcome, singles: &[Single]) {
        for (i, first) in singles.iter().enumerate() {
            for second in singles[i + 1..].iter().filter(|s| s.change.field() != first.change.field()) {
                self.pair(base, without, first, second);
            }
        }
    }

    fn single(&mut self, base: &[u8], without: Outcome, single: &Single, all: bool) {
        let plain = self.seen.plain[&single.record];
        if all {
            self.take(&single.record, single.given);
        } else if (without, single.given) != (self.seen.plain[base], plain) {
            self.take_new(base, &single.record, vec![single.change.field()], vec![without, plain, single.given]);
        }
    }

    /// Two changes at once, both refused alone or with an outcome that neither has.
    fn pair(&mut self, base: &[u8], without: Outcome, first: &Single, second: &Single) {
        let record = changed(&second.record, &first.change);
        let given = self.ask(&record);
        let outcomes = [without, first.given, second.given, given];
        let plain = [base, &first.record, &second.record, &record].map(|r| self.seen.plain.get(r).copied());
        let two_causes = first.given.0 != 0 && second.given.0 != 0;
        if !self.is_plain && outcomes.map(Some) == plain {
            return;
        }
        if two_causes && first.given.0 != second.given.0 {
            self.take_new(base, &record, vec![first.change.field(), second.change.field()], outcomes.to_vec());
        } else if !two_causes {
            self.take_new(&[base[0], 0], &record, Vec::new(), outcomes.to_vec());
        }
    }
}

/// A list for each image.
pub fn lists() -> Vec<List> {
    let mut seen = Seen::default();
    let mut lists = Vec::new();
    for (n, (image, other_roles)) in start_image::all().into_iter().enumerate() {
        let start = Vault { image, journal: vec![0; 24 * (1 + ROOM)] };
        let mut vault = start.clone();
        vault.call(&Call::Begin, &mut operate);
        let mut directed = Directed { vault, is_plain: n == 0, calls: vec![Call::Begin], taken: HashSet::new(), seen: &mut seen };
        for operation in 1..=OPERATIONS {
            let base = accepted(operation);
            directed.operation(base.clone(), other_roles);
            if shared(operation) {
                directed.operation(changed(&base, &Change::Caller(OPERATOR)), other_roles);
            }
        }
        lists.push(List { start, calls: directed.calls });
    }
    lists
}
