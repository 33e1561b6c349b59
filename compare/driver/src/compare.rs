//! One call or preview at the vault and at the Rust side, and what differs.
use crate::ffi;
use crate::mistake::Mistake;
use model::moves;
use model::vault::{Answer, Call, Done, Vault};

/// The outcome of an operation: of the Rust contract for 1 to 28, of the model for 29 and 30.
pub fn operate(image: &[u8], record: &[u8]) -> Done {
    if record[0] < 29 {
        let done = reference::operation(image, record);
        let after = done.image.unwrap_or_default();
        return Done { number: done.number, value: done.value, events: done.events, image: after };
    }
    let mut after = image.to_vec();
    let number = moves::operation(&mut after, record);
    Done { number, value: 0, events: Vec::new(), image: after }
}

/// The vault, and the Rust side that should always hold the same. The contract's caller sees one trap for 22 and 23; the stand-in
/// host knows which it was, so that the two are compared as different numbers.
pub struct Pair {
    pub vault: Vault,
    pub rust: Vault,
    pub with_journal: bool,
    /// Calls the vault between fences.
    pub fenced: bool,
    pub mistake: Option<Mistake>,
    /// The record that was just previewed, with the Rust side's outcome of it.
    previewed: Option<(Vec<u8>, Done)>,
}

/// The vault's call and the vault's preview differ; the latter then stands in the place of the Rust side's answer.
pub const AFTER_PREVIEW: &str = "the answer after a preview";

pub struct Difference {
    pub what: String,
    pub vault_answer: Answer,
    pub rust_answer: Answer,
    pub vault: Vault,
    pub rust: Vault,
}

impl Pair {
    pub fn new(image: Vec<u8>, journal: Option<Vec<u8>>, mistake: Option<Mistake>) -> Pair {
        let with_journal = journal.is_some();
        let start = Vault { image, journal: journal.unwrap_or(vec![0; 48]) };
        Pair { vault: start.clone(), rust: start, with_journal, fenced: false, mistake, previewed: None }
    }

    /// Makes the call at both; the answer where they agree. The Rust side's preview writes nothing, so that image and journal of the
    /// vault are held to be as they were.
    pub fn call(&mut self, call: &Call) -> Result<Answer, Difference> {
        let (vault_answer, whole) = if self.fenced {
            ffi::call_fenced(&mut self.vault, call, self.with_journal)
        } else {
            (ffi::call(&mut self.vault, call, self.with_journal), true)
        };
        let before = self.mistake.map(|_| self.rust.clone());
        let mut rust_answer = self.rust_answer(call);
        if let (Some(mistake), Some(before)) = (self.mistake, before) {
            mistake.make(&before, call, &mut rust_answer, &mut self.rust);
        }
        let what = if !whole {
            "bytes beside the lists"
        } else if vault_answer.number != rust_answer.number {
            "number"
        } else if vault_answer.value != rust_answer.value {
            "value"
        } else if vault_answer.count != rust_answer.count {
            "event count"
        } else if vault_answer.events != rust_answer.events {
            "event bytes"
        } else if self.vault.image != self.rust.image {
            "image bytes"
        } else if self.vault.journal != self.rust.journal {
            "journal bytes"
        } else {
            return Ok(vault_answer);
        };
        Err(self.difference(what, vault_answer, rust_answer))
    }

    /// The call at the Rust side. Behind its preview it meets the same image and record, so that the operation's outcome is known.
    fn rust_answer(&mut self, call: &Call) -> Answer {
        let (mut known, mut outcome) = (self.previewed.take(), None);
        let answer = self.rust.call(call, &mut |image, record| {
            let done = match known.take() {
                Some((previewed, done)) if previewed == record => done,
                _ => operate(image, record),
            };
            if matches!(call, Call::Preview { .. }) {
                outcome = Some((record.to_vec(), done.clone()));
            }
            done
        });
        self.previewed = outcome;
        answer
    }

    /// The answer of a call, which has to be the one that its preview gave: but for 31, where the journal is not good, and for 34, where
    /// the preview was done and the journal is full.
    pub fn after_preview(&self, preview: &Answer, answer: Answer) -> Result<Answer, Difference> {
        let by_journal = match answer.number {
            31 => preview.number != 30,
            34 => preview.number == 0 && self.mistake != Some(Mistake::PreviewPromisesRoom),
            _ => false,
        };
        if by_journal || answer == *preview {
            return Ok(answer);
        }
        Err(self.difference(AFTER_PREVIEW, answer, preview.clone()))
    }

    fn difference(&self, what: &str, vault_answer: Answer, rust_answer: Answer) -> Difference {
        Difference { what: what.to_string(), vault_answer, rust_answer, vault: self.vault.clone(), rust: self.rust.clone() }
    }
}

/// A smaller start and a smaller record with the same difference: zero wherever zero keeps it.
pub fn shrink(before: &Vault, call: &Call, with_journal: bool, what: &str, mistake: Option<Mistake>) -> (Vault, Call) {
    let differs = |start: &Vault, call: &Call| {
        let mut pair = Pair::new(start.image.clone(), Some(start.journal.clone()), mistake);
        pair.with_journal = with_journal;
        pair.call(call).err().is_some_and(|d| d.what == what)
    };
    let mut start = before.clone();
    let mut call = copy(call);
    if !differs(&start, &call) {
        return (start, call);
    }
    for size in [1024, 16, 1] {
        for at in (0..start.image.len()).step_by(size) {
            let mut tried = start.clone();
            let end = (at + size).min(tried.image.len());
            tried.image[at..end].fill(0);
            if tried.image != start.image && differs(&tried, &call) {
                start = tried;
            }
        }
    }
    for at in 1..record_length(&call) {
        let mut tried = copy(&call);
        if clear(&mut tried, at) && differs(&start, &tried) {
            call = tried;
        }
    }
    (start, call)
}

fn record_length(call: &Call) -> usize {
    match call {
        Call::Operation { record, .. } | Call::Preview { record, .. } => record.len(),
        _ => 0,
    }
}

/// Makes a byte of the record 0; whether it was another.
fn clear(call: &mut Call, at: usize) -> bool {
    match call {
        Call::Operation { record, .. } | Call::Preview { record, .. } => std::mem::take(&mut record[at]) != 0,
        _ => false,
    }
}

pub fn copy(call: &Call) -> Call {
    match call {
        Call::Operation { record, events } => Call::Operation { record: record.clone(), events: events.clone() },
        Call::Preview { record, events } => Call::Preview { record: record.clone(), events: events.clone() },
        Call::Begin => Call::Begin,
        Call::Commit => Call::Commit,
        Call::Rollback => Call::Rollback,
        Call::Undo => Call::Undo,
    }
}

/// The preview of an operation's record, with the same event buffer; other calls have none.
pub fn preview_of(call: &Call) -> Option<Call> {
    match call {
        Call::Operation { record, events } => Some(Call::Preview { record: record.clone(), events: events.clone() }),
        _ => None,
    }
}
