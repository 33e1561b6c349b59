//! Mistakes that are made on purpose in the outcome of the Rust side, to see that the comparison finds them.
use crate::compare::operate;
use model::bytes::{amount, get16, put};
use model::image::{holding_at, snapshot_at};
use model::journal;
use model::vault::{Answer, Call, Vault};

#[derive(Clone, Copy, PartialEq, Eq, Debug)]
pub enum Mistake {
    SkippedTrackedKey,
    WrongEventField,
    SwappedRefusals,
    FirstPayoutOnly,
    MadeUpEventCount,
    FullWithEntriesFree,
    LimitWithMoneyToSpare,
    AlwaysRefused,
    AlwaysDone,
    NothingChanged,
    NewHoldingReturned,
    SnapshotAtMigration,
    EventsKeptAfterRefusal,
    UndoForgetsACell,
    EntryOfAnUnchangedCell,
    WrongTrap,
    PreviewAnswers31,
    PreviewAnswers34,
    PreviewKeepsEvents,
    PreviewWritesTheImage,
    PreviewWritesTheJournal,
    /// Three in the kept list, the book and what a preview says of the call after it instead.
    UndoneCallKept,
    BookWithoutToll,
    PreviewPromisesRoom,
}

pub const ALL: [Mistake; 24] = [
    Mistake::SkippedTrackedKey,
    Mistake::WrongEventField,
    Mistake::SwappedRefusals,
    Mistake::FirstPayoutOnly,
    Mistake::MadeUpEventCount,
    Mistake::FullWithEntriesFree,
    Mistake::LimitWithMoneyToSpare,
    Mistake::AlwaysRefused,
    Mistake::AlwaysDone,
    Mistake::NothingChanged,
    Mistake::NewHoldingReturned,
    Mistake::SnapshotAtMigration,
    Mistake::EventsKeptAfterRefusal,
    Mistake::UndoForgetsACell,
    Mistake::EntryOfAnUnchangedCell,
    Mistake::WrongTrap,
    Mistake::PreviewAnswers31,
    Mistake::PreviewAnswers34,
    Mistake::PreviewKeepsEvents,
    Mistake::PreviewWritesTheImage,
    Mistake::PreviewWritesTheJournal,
    Mistake::UndoneCallKept,
    Mistake::BookWithoutToll,
    Mistake::PreviewPromisesRoom,
];

impl Mistake {
    /// Changes an outcome as the mistake would; most outcomes stay as they are.
    pub fn make(self, before: &Vault, call: &Call, answer: &mut Answer, after: &mut Vault) {
        match call {
            Call::Operation { record, events } => self.operation(before, record, events, answer, after),
            Call::Preview { record, events } => self.preview(before, record, events, answer, after),
            Call::Undo if self == Mistake::UndoForgetsACell && answer.number == 0 && before.image != after.image => {
                let i = (0..before.image.len()).find(|i| before.image[*i] != after.image[*i]).expect("a changed byte");
                after.image[i] = before.image[i];
            }
            _ => {}
        }
    }

    /// Previews that see the journal, or do what the call would do.
    fn preview(self, before: &Vault, record: &[u8], events: &[u8], answer: &mut Answer, after: &mut Vault) {
        let mut called = before.clone();
        let given = called.call(&Call::Operation { record: record.to_vec(), events: events.to_vec() }, &mut operate);
        match self {
            Mistake::PreviewAnswers31 if given.number == 31 => *answer = given,
            Mistake::PreviewAnswers34 if given.number == 34 => *answer = given,
            Mistake::PreviewKeepsEvents if (1..30).contains(&answer.number) => answer.events.copy_from_slice(events),
            Mistake::PreviewWritesTheImage => after.image = called.image,
            Mistake::PreviewWritesTheJournal => after.journal = called.journal,
            _ => {}
        }
    }

    fn operation(self, before: &Vault, record: &[u8], events: &[u8], answer: &mut Answer, after: &mut Vault) {
        let done = answer.number == 0;
        let undo = |answer: &mut Answer, after: &mut Vault, number: u32| {
            *answer = Answer { number, value: 0, count: 0, events: vec![0; answer.events.len()] };
            *after = before.clone();
        };
        let operation = record.first().copied().unwrap_or(0);
        match self {
            Mistake::SkippedTrackedKey if done && get16(&before.image, 88) != get16(&after.image, 88) => {
                put(&mut after.image, 88, &before.image[88..90]);
                put(&mut after.image, 1504, &before.image[1504..3680]);
            }
            Mistake::WrongEventField if done && answer.count > 0 && answer.events[0] == 4 => answer.events.copy_within(8..24, 24),
            Mistake::SwappedRefusals if operation == 11 && answer.number == 6 => answer.number = 3,
            Mistake::SwappedRefusals if operation == 11 && answer.number == 3 => answer.number = 6,
            Mistake::FirstPayoutOnly if done && operation == 6 && record[5] > 1 => {
                let token = before.image[3] as usize;
                let to = record[88] as usize;
                let at = holding_at(token, to);
                put(&mut after.image, at, &before.image[at..at + 16]);
            }
            Mistake::MadeUpEventCount if done && operation == 12 => answer.count = 1,
            Mistake::FullWithEntriesFree
                if done && journal::is_open(&after.journal) && journal::entries(&after.journal) + 1 == journal::places(&after.journal) =>
            {
                undo(answer, after, 34)
            }
            Mistake::LimitWithMoneyToSpare if done && operation == 5 => {
                let left = amount(&after.image, holding_at(before.image[3] as usize, 1));
                if left == 0 {
                    undo(answer, after, 6)
                }
            }
            Mistake::AlwaysRefused if done => undo(answer, after, 3),
            Mistake::AlwaysDone if answer.number < 30 => answer.number = 0,
            Mistake::NothingChanged if done => after.image.copy_from_slice(&before.image),
            Mistake::NewHoldingReturned if done && operation == 22 => {
                answer.value = amount(&after.image, holding_at(before.image[3] as usize, 1))
            }
            Mistake::SnapshotAtMigration if done && operation == 22 => {
                let token = before.image[3] as usize;
                let held = after.image[holding_at(token, 1)..holding_at(token, 1) + 16].to_vec();
                put(&mut after.image, snapshot_at(token) + 8, &held);
            }
            Mistake::EventsKeptAfterRefusal if (1..30).contains(&answer.number) => answer.events.copy_from_slice(events),
            Mistake::EntryOfAnUnchangedCell if done && journal::is_open(&after.journal) => {
                let entries = journal::entries(&after.journal);
                if entries < journal::places(&after.journal) {
                    put(&mut after.journal, 4, &(entries as u16 + 1).to_le_bytes());
                }
            }
            Mistake::WrongTrap if answer.number == 22 => answer.number = 23,
            _ => {}
        }
    }
}
