//! One call of any kind: the refusals 30 to 37 around an operation, and its preview.
use crate::{image, journal, record};

pub enum Call {
    Operation { record: Vec<u8>, events: Vec<u8> },
    Preview { record: Vec<u8>, events: Vec<u8> },
    Begin,
    Commit,
    Rollback,
    Undo,
}

#[derive(Clone, PartialEq, Eq, Debug)]
pub struct Answer {
    pub number: u32,
    pub value: i128,
    pub count: u32,
    /// The event buffer afterwards.
    pub events: Vec<u8>,
}

/// What an operation gave by its own rules: image and events count only where the number is 0.
#[derive(Clone)]
pub struct Done {
    pub number: u32,
    pub value: i128,
    pub events: Vec<[u8; 56]>,
    pub image: Vec<u8>,
}

impl Done {
    /// The answer by the operation's own rules: its events and then zeros, after a refusal zeros alone.
    fn answer(&self) -> Answer {
        if self.number != 0 {
            return refused(self.number, vec![0; record::EVENTS]);
        }
        let mut events = self.events.concat();
        events.resize(record::EVENTS, 0);
        Answer { number: 0, value: self.value, count: self.events.len() as u32, events }
    }
}

#[derive(Clone)]
pub struct Vault {
    pub image: Vec<u8>,
    pub journal: Vec<u8>,
}

fn refused(number: u32, events: Vec<u8>) -> Answer {
    Answer { number, value: 0, count: 0, events }
}

/// 32, then 33; 0 where there is neither.
fn form_refusal(record: &[u8], events: &[u8]) -> u32 {
    if !record::good(record) {
        32
    } else if events.len() != record::EVENTS {
        33
    } else {
        0
    }
}

impl Vault {
    /// Makes a call; `operate` gives the operation's own outcome on a good image and a record of good form.
    pub fn call(&mut self, call: &Call, operate: &mut dyn FnMut(&[u8], &[u8]) -> Done) -> Answer {
        if let Call::Preview { record, events } = call {
            return self.preview(record, events, operate);
        }
        match (self.first_refusal(call), call) {
            (0, Call::Operation { record, .. }) => self.operation(record, operate),
            (0, _) => refused(self.transaction(call), Vec::new()),
            (number, Call::Operation { events, .. }) => refused(number, events.clone()),
            (number, _) => refused(number, Vec::new()),
        }
    }

    /// The answer that an operation would give on a copy of the image with no journal: 30, 32, 33, then the operation's own.
    pub fn preview(&self, record: &[u8], events: &[u8], operate: &mut dyn FnMut(&[u8], &[u8]) -> Done) -> Answer {
        match self.preview_refusal(record, events) {
            0 => operate(&self.image, record).answer(),
            number => refused(number, events.to_vec()),
        }
    }

    /// 30, 32 or 33 of a preview, in this order; 0 where there is none.
    pub fn preview_refusal(&self, record: &[u8], events: &[u8]) -> u32 {
        if !image::good(&self.image) {
            return 30;
        }
        form_refusal(record, events)
    }

    /// 30 to 33 of a call that is no preview, in this order; 0 where there is none.
    pub fn first_refusal(&self, call: &Call) -> u32 {
        if !image::good(&self.image) {
            return 30;
        }
        if !journal::good(&self.journal) {
            return 31;
        }
        match call {
            Call::Operation { record, events } => form_refusal(record, events),
            _ => 0,
        }
    }

    /// Begin, commit, rollback or undo on a good image and journal.
    pub fn transaction(&mut self, call: &Call) -> u32 {
        match call {
            Call::Begin => journal::begin(&mut self.journal),
            Call::Commit => journal::commit(&mut self.journal),
            Call::Rollback => journal::rollback(&mut self.image, &mut self.journal),
            Call::Undo => journal::undo(&mut self.image, &mut self.journal),
            Call::Operation { .. } | Call::Preview { .. } => unreachable!("an operation is no transaction call"),
        }
    }

    fn operation(&mut self, record: &[u8], operate: &mut dyn FnMut(&[u8], &[u8]) -> Done) -> Answer {
        let done = operate(&self.image, record);
        let answer = done.answer();
        if done.number != 0 || record::is_view(record[0]) {
            return answer;
        }
        if journal::is_open(&self.journal) && !journal::enter(&mut self.journal, &self.image, &done.image) {
            return refused(34, vec![0; record::EVENTS]);
        }
        self.image = done.image;
        answer
    }
}
