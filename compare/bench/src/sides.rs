//! The three sides that are timed. Each keeps its own image, journal and event buffer.
use model::vault::{Call, Done, Vault};
use model::{journal, moves, record};
use reference::{Changes, Loaded};
use std::mem::swap;
use token_vault::exports;

/// What a call answers: its number (0 when done), its value and how many events it wrote.
#[derive(Clone, Copy, Debug, PartialEq, Eq)]
pub struct Answer {
    pub number: u32,
    pub value: i128,
    pub events: u32,
}

/// What a side holds after a call.
#[derive(PartialEq, Eq)]
pub struct Held<'a> {
    pub image: &'a [u8],
    /// Of a case with a journal.
    pub journal: Option<&'a [u8]>,
    pub events: &'a [u8],
}

pub trait Side {
    fn call(&mut self, call: &Call) -> Answer;
    fn held(&self) -> Held<'_>;
    /// Takes another event buffer, and gives the one with the events of the last operation.
    fn exchange_events(&mut self, events: &mut Vec<u8>);
}

/// The three, from one image; with no journal, only operations and previews are called.
pub fn all(image: &[u8], journal: Option<&[u8]>) -> [Box<dyn Side>; 3] {
    let start = Vault { image: image.to_vec(), journal: journal.unwrap_or(&[0; 48]).to_vec() };
    let with_journal = journal.is_some();
    let events = vec![0; record::EVENTS];
    [
        Box::new(Library { vault: start.clone(), with_journal, events: events.clone() }),
        Box::new(KeptHost { host: Loaded::new(image), vault: start.clone(), with_journal, events: events.clone(), calls: Vec::new() }),
        Box::new(NewHost { vault: start, with_journal, events }),
    ]
}

fn held<'a>(vault: &'a Vault, with_journal: bool, events: &'a [u8]) -> Held<'a> {
    Held { image: &vault.image, journal: with_journal.then_some(&vault.journal[..]), events }
}

fn plain(number: u32) -> Answer {
    Answer { number, value: 0, events: 0 }
}

/// The vault, through the C library.
struct Library {
    vault: Vault,
    with_journal: bool,
    events: Vec<u8>,
}

impl Library {
    fn operation(&mut self, record: &[u8]) -> Answer {
        let Vault { image, journal } = &mut self.vault;
        let mut value = [0; 16];
        let mut count = 0;
        let number = if self.with_journal {
            exports::call(image, journal, record, &mut self.events, &mut value, &mut count)
        } else {
            exports::call_without_journal(image, record, &mut self.events, &mut value, &mut count)
        };
        Answer { number, value: i128::from_le_bytes(value), events: count }
    }

    fn preview(&mut self, record: &[u8]) -> Answer {
        let mut value = [0; 16];
        let mut count = 0;
        let number = exports::preview(&self.vault.image, record, &mut self.events, &mut value, &mut count);
        Answer { number, value: i128::from_le_bytes(value), events: count }
    }
}

impl Side for Library {
    fn call(&mut self, called: &Call) -> Answer {
        let Vault { image, journal } = &mut self.vault;
        match called {
            Call::Operation { record, .. } => self.operation(record),
            Call::Preview { record, .. } => self.preview(record),
            Call::Begin => plain(exports::begin(image, journal)),
            Call::Commit => plain(exports::commit(image, journal)),
            Call::Rollback => plain(exports::rollback(image, journal)),
            Call::Undo => plain(exports::undo(image, journal)),
        }
    }

    fn held(&self) -> Held<'_> {
        held(&self.vault, self.with_journal, &self.events)
    }

    fn exchange_events(&mut self, events: &mut Vec<u8>) {
        swap(&mut self.events, events);
    }
}

/// The Rust contract on a host that is loaded from the image and stored back for each operation, as the comparison runs it.
struct NewHost {
    vault: Vault,
    with_journal: bool,
    events: Vec<u8>,
}

impl Side for NewHost {
    fn call(&mut self, called: &Call) -> Answer {
        let mut operate = |image: &[u8], record: &[u8]| {
            let done = reference::operation(image, record);
            Done { number: done.number, value: done.value, events: done.events, image: done.image.unwrap_or_default() }
        };
        let answer = self.vault.call(called, &mut operate);
        if matches!(called, Call::Operation { .. } | Call::Preview { .. }) {
            self.events = answer.events;
        }
        Answer { number: answer.number, value: answer.value, events: answer.count }
    }

    fn held(&self) -> Held<'_> {
        held(&self.vault, self.with_journal, &self.events)
    }

    fn exchange_events(&mut self, events: &mut Vec<u8>) {
        swap(&mut self.events, events);
    }
}

/// The Rust contract on a host that stays loaded. The image is kept too: each call tests it, and an accepted one writes to it
/// what it changed in the host.
struct KeptHost {
    host: Loaded,
    vault: Vault,
    with_journal: bool,
    events: Vec<u8>,
    /// What each call of the open transaction changed in the host.
    calls: Vec<Changes>,
}

impl KeptHost {
    fn operation(&mut self, record: &[u8]) -> Answer {
        self.events.fill(0);
        if record[0] > 28 {
            return plain(self.outside(record));
        }
        let done = match self.host.operation(record) {
            Ok(done) => done,
            Err(number) => return plain(number),
        };
        let Vault { image, journal } = &mut self.vault;
        if journal::is_open(journal) && !record::is_view(record[0]) {
            let before = image.clone();
            self.host.store(&done.changes, image);
            if !journal::enter(journal, &before, image) {
                *image = before;
                self.host.take_back(done.changes);
                return plain(34);
            }
            self.calls.push(done.changes);
        } else {
            self.host.store(&done.changes, image);
        }
        self.done(done.value, &done.events)
    }

    /// Operations 29 and 30, which the contract does not have: by the model. No case has them in a transaction.
    fn outside(&mut self, record: &[u8]) -> u32 {
        let Vault { image, journal } = &mut self.vault;
        assert!(!journal::is_open(journal), "operation {} in a transaction", record[0]);
        let number = moves::operation(image, record);
        if number == 0 {
            self.host.load_token(image, record[2] as usize);
        }
        number
    }

    /// An operation in the host that is taken back; the image stays.
    fn preview(&mut self, record: &[u8]) -> Answer {
        self.events.fill(0);
        match self.host.operation(record) {
            Ok(done) => {
                self.host.take_back(done.changes);
                self.done(done.value, &done.events)
            }
            Err(number) => plain(number),
        }
    }

    fn done(&mut self, value: i128, events: &[[u8; 56]]) -> Answer {
        for (place, event) in self.events.chunks_mut(56).zip(events) {
            place.copy_from_slice(event);
        }
        Answer { number: 0, value, events: events.len() as u32 }
    }

    fn transaction(&mut self, called: &Call) -> u32 {
        let number = self.vault.transaction(called);
        match called {
            _ if number != 0 => {}
            Call::Undo => self.host.take_back(self.calls.pop().expect("a call to undo")),
            Call::Rollback => {
                while let Some(changes) = self.calls.pop() {
                    self.host.take_back(changes);
                }
            }
            _ => self.calls.clear(),
        }
        number
    }
}

impl Side for KeptHost {
    fn call(&mut self, called: &Call) -> Answer {
        let refusal = match called {
            Call::Preview { record, events } => self.vault.preview_refusal(record, events),
            _ => self.vault.first_refusal(called),
        };
        match (refusal, called) {
            (0, Call::Operation { record, .. }) => self.operation(record),
            (0, Call::Preview { record, .. }) => self.preview(record),
            (0, _) => plain(self.transaction(called)),
            (number, _) => plain(number),
        }
    }

    fn held(&self) -> Held<'_> {
        held(&self.vault, self.with_journal, &self.events)
    }

    fn exchange_events(&mut self, events: &mut Vec<u8>) {
        swap(&mut self.events, events);
    }
}
