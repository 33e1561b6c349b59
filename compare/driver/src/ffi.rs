//! A call of any kind at the vault, through the functions that C sees.
use model::vault::{Answer, Call, Vault};
use token_vault::exports;

/// Makes a call at the vault. Without a journal, only operations and previews.
pub fn call(vault: &mut Vault, call: &Call, with_journal: bool) -> Answer {
    let journal = with_journal.then_some(&mut vault.journal[..]);
    match call {
        Call::Operation { record, events } => {
            let mut events = events.clone();
            operation(&mut vault.image, journal, record, &mut events).answer(events)
        }
        Call::Preview { record, events } => {
            let mut events = events.clone();
            preview(&vault.image, record, &mut events).answer(events)
        }
        _ => plain(transaction(&mut vault.image, &mut vault.journal, call)),
    }
}

/// The same, with each list between fences of bytes that the vault has no business with; false if one of them,
/// or the record, was written to.
pub fn call_fenced(vault: &mut Vault, call: &Call, with_journal: bool) -> (Answer, bool) {
    let mut image = Fenced::of(&vault.image);
    let mut journal = Fenced::of(&vault.journal);
    let (answer, whole) = match call {
        Call::Operation { record, events } | Call::Preview { record, events } => {
            let mut buffer = Fenced::of(events);
            let lent = Fenced::of(record);
            let given = with_journal.then_some(journal.list());
            let numbers = match call {
                Call::Preview { .. } => preview(image.list(), lent.bytes(), buffer.list()),
                _ => operation(image.list(), given, lent.bytes(), buffer.list()),
            };
            let whole = buffer.whole() && lent.is_still(record);
            (numbers.answer(buffer.list().to_vec()), whole)
        }
        _ => (plain(transaction(image.list(), journal.list(), call)), true),
    };
    let whole = whole && image.whole() && journal.whole();
    vault.image.copy_from_slice(image.list());
    vault.journal.copy_from_slice(journal.list());
    (answer, whole)
}

const FENCE: usize = 48;

pub struct Fenced(Vec<u8>);

impl Fenced {
    pub fn of(list: &[u8]) -> Fenced {
        Fenced([&[0x5a; FENCE], list, &[0xc3; FENCE]].concat())
    }

    pub fn list(&mut self) -> &mut [u8] {
        let end = self.0.len() - FENCE;
        &mut self.0[FENCE..end]
    }

    pub fn bytes(&self) -> &[u8] {
        &self.0[FENCE..self.0.len() - FENCE]
    }

    pub fn whole(&self) -> bool {
        self.0[..FENCE] == [0x5a; FENCE] && self.0[self.0.len() - FENCE..] == [0xc3; FENCE]
    }

    /// Whether fences and bytes are as they were made of this list.
    pub fn is_still(&self, list: &[u8]) -> bool {
        self.whole() && self.bytes() == list
    }
}

struct Numbers {
    number: u32,
    value: [u8; 16],
    count: u32,
}

impl Numbers {
    fn answer(self, events: Vec<u8>) -> Answer {
        Answer { number: self.number, value: i128::from_le_bytes(self.value), count: self.count, events }
    }
}

fn plain(number: u32) -> Answer {
    Answer { number, value: 0, count: 0, events: Vec::new() }
}

/// Bytes that a call must write over.
const VALUE: [u8; 16] = [0xa5; 16];
const COUNT: u32 = 0xa5a5_a5a5;

fn operation(image: &mut [u8], journal: Option<&mut [u8]>, record: &[u8], events: &mut [u8]) -> Numbers {
    let (mut value, mut count) = (VALUE, COUNT);
    let number = match journal {
        Some(journal) => exports::call(image, journal, record, events, &mut value, &mut count),
        None => exports::call_without_journal(image, record, events, &mut value, &mut count),
    };
    Numbers { number, value, count }
}

fn preview(image: &[u8], record: &[u8], events: &mut [u8]) -> Numbers {
    let (mut value, mut count) = (VALUE, COUNT);
    let number = exports::preview(image, record, events, &mut value, &mut count);
    Numbers { number, value, count }
}

fn transaction(image: &mut [u8], journal: &mut [u8], call: &Call) -> u32 {
    match call {
        Call::Begin => exports::begin(image, journal),
        Call::Commit => exports::commit(image, journal),
        Call::Rollback => exports::rollback(image, journal),
        Call::Undo => exports::undo(image, journal),
        Call::Operation { .. } | Call::Preview { .. } => unreachable!("an operation is no transaction call"),
    }
}
