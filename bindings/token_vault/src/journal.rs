//! The journal of a transaction, and its fields.
use crate::bytes::{get, get_u16};
use crate::layout::journal as at;
use crate::layout::{JOURNAL_ENTRIES_MAX, JOURNAL_ENTRY_LENGTH};
use std::fmt;

/// The journal of a transaction: it keeps what the transaction's calls changed, so that they can be undone.
///
/// ```
/// use token_vault::{Image, Journal, Record};
///
/// let mut image = Image::new();
/// image.add_token(48, 0)?;
/// let before = image.clone();
/// let mut journal = Journal::new(100).unwrap();
/// image.begin(&mut journal)?;
/// image.call_in(&mut journal, &Record::initialize(2, 48, 1_000).signed_by(&[2]))?;
/// assert_eq!(journal.view().unwrap().calls(), 1);
/// image.rollback(&mut journal)?;
/// assert_eq!(image, before);
/// # Ok::<(), Box<dyn std::error::Error>>(())
/// ```
#[derive(Clone, PartialEq, Eq)]
pub struct Journal(Vec<u8>);

impl Journal {
    /// A closed journal with room for 1 to 2,000 entries; none for another number.
    pub fn new(entries: usize) -> Option<Journal> {
        (1..=JOURNAL_ENTRIES_MAX).contains(&entries).then(|| Journal(vec![0; JOURNAL_ENTRY_LENGTH * (1 + entries)]))
    }

    /// A journal of any bytes.
    pub fn from_bytes(bytes: Vec<u8>) -> Journal {
        Journal(bytes)
    }

    /// Its bytes.
    pub fn as_bytes(&self) -> &[u8] {
        &self.0
    }

    /// Its bytes, given away.
    pub fn into_bytes(self) -> Vec<u8> {
        self.0
    }

    /// Its fields; none where the length is not 24 times 2 to 2,001.
    pub fn view(&self) -> Option<JournalView<'_>> {
        let (places, rest) = self.0.as_chunks();
        let view = JournalView(places);
        (rest.is_empty() && (2..=1 + JOURNAL_ENTRIES_MAX).contains(&places.len())).then_some(view)
    }

    pub(crate) fn bytes_mut(&mut self) -> &mut [u8] {
        &mut self.0
    }
}

impl fmt::Debug for Journal {
    fn fmt(&self, f: &mut fmt::Formatter<'_>) -> fmt::Result {
        match self.view() {
            None => write!(f, "Journal({} bytes)", self.0.len()),
            Some(view) => f
                .debug_struct("Journal")
                .field("open", &view.is_open())
                .field("calls", &view.calls())
                .field("entries", &view.entries())
                .field("capacity", &view.capacity())
                .finish(),
        }
    }
}

/// The fields of a journal of a right length. The journal may be one that is not good: then a field holds what its bytes
/// say.
#[derive(Clone, Copy)]
pub struct JournalView<'a>(&'a [[u8; JOURNAL_ENTRY_LENGTH]]);

/// What a call changed: the bytes that stood in one cell of the image before it.
#[derive(Clone, Copy, Debug, PartialEq, Eq)]
pub struct Entry {
    /// The cell: image bytes 16 times cell to 16 times cell + 15.
    pub cell: u16,
    /// The number of the call within the transaction, from 1.
    pub call: u16,
    /// The bytes before the call.
    pub old: [u8; 16],
}

impl JournalView<'_> {
    fn head(&self) -> &[u8; JOURNAL_ENTRY_LENGTH] {
        &self.0[0]
    }

    /// Whether a transaction is open.
    pub fn is_open(&self) -> bool {
        self.head()[at::OPEN] == 1
    }

    /// The calls of the open transaction that can be undone.
    pub fn calls(&self) -> usize {
        get_u16(self.head(), at::CALLS).into()
    }

    /// The entries that are used.
    pub fn entries(&self) -> usize {
        get_u16(self.head(), at::ENTRIES).into()
    }

    /// The entries that there is room for.
    pub fn capacity(&self) -> usize {
        self.0.len() - 1
    }

    /// Entry i, from 0; none where that place is not used.
    pub fn entry(&self, i: usize) -> Option<Entry> {
        let bytes = self.0[1..].get(i).filter(|_| i < self.entries())?;
        Some(Entry { cell: get_u16(bytes, at::ENTRY_CELL), call: get_u16(bytes, at::ENTRY_CALL), old: get(bytes, at::ENTRY_OLD) })
    }
}
