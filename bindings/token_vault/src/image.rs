//! The image of a vault, and the calls on it.
use crate::bytes::put;
use crate::event::decode_events;
use crate::layout::image as at;
use crate::layout::{EVENTS_LENGTH, IMAGE_LENGTH};
use crate::refusal::result;
use crate::view::{account_place, token_place};
use crate::{exports, Address, Event, ImageView, Journal, Record, Refusal};
use std::error::Error;
use std::fmt;

/// The image of a vault: all that it keeps between calls, with the tokens that it deals in.
///
/// ```
/// use token_vault::{Image, Record, Refusal};
///
/// let mut image = Image::new();
/// image.add_token(48, 0)?;
/// image.set_holding(48, 2, 500)?;
/// image.call(&Record::initialize(2, 48, 1_000).signed_by(&[2]))?;
/// image.call(&Record::deposit(2, 300).signed_by(&[2]))?;
/// assert_eq!(image.call(&Record::balance())?.value, 300);
/// assert_eq!(image.call(&Record::withdraw(2, 4, 301).signed_by(&[2])), Err(Refusal::LimitExceeded));
/// assert_eq!(image.view().unwrap().holding(48, 2), 200);
/// # Ok::<(), Box<dyn std::error::Error>>(())
/// ```
#[derive(Clone, PartialEq, Eq)]
pub struct Image(Vec<u8>);

/// What an accepted call gives.
#[derive(Clone, Debug, PartialEq, Eq)]
pub struct Done {
    /// The value; 0 where the operation gives none, and yes is 1.
    pub value: i128,
    /// What it announces, in order.
    pub events: Vec<Event>,
}

/// The image has no place for this token or account: its length is not 36,832, the token is not one of 48 to 63, or the
/// account is above 63.
#[derive(Clone, Copy, Debug, PartialEq, Eq)]
pub struct PlaceError;

impl fmt::Display for PlaceError {
    fn fmt(&self, f: &mut fmt::Formatter<'_>) -> fmt::Result {
        f.write_str("the image has no place for this token or account")
    }
}

impl Error for PlaceError {}

impl Image {
    /// A vault before initialisation, with no token: 36,832 zeros.
    pub fn new() -> Image {
        Image(vec![0; IMAGE_LENGTH])
    }

    /// An image of any bytes.
    pub fn from_bytes(bytes: Vec<u8>) -> Image {
        Image(bytes)
    }

    /// Its bytes.
    pub fn as_bytes(&self) -> &[u8] {
        &self.0
    }

    /// Its bytes, given away.
    pub fn into_bytes(self) -> Vec<u8> {
        self.0
    }

    /// Whether the library takes it: a view of it is not refused with 30.
    pub fn is_good(&self) -> bool {
        self.preview(&Record::balance()) != Err(Refusal::InvalidImage)
    }

    /// Its fields; none where the length is not 36,832.
    pub fn view(&self) -> Option<ImageView<'_>> {
        ImageView::of(&self.0)
    }

    /// Adds a token that moves, before any call is made. The toll is what it keeps of each transfer; below 0 the image is
    /// not good.
    pub fn add_token(&mut self, token: Address, toll: i128) -> Result<(), PlaceError> {
        let place = token_place(token);
        self.put(place.map(|place| place + at::TOKEN_STATE), &[at::TOKEN_MOVING])?;
        self.put(place.map(|place| place + at::TOKEN_TOLL), &toll.to_le_bytes())
    }

    /// Sets what an account holds of a token, before any call is made. Below 0, or above 0 of a token that is absent, the
    /// image is not good.
    pub fn set_holding(&mut self, token: Address, account: Address, amount: i128) -> Result<(), PlaceError> {
        self.put(account_place(at::HOLDINGS, token, account), &amount.to_le_bytes())
    }

    fn put(&mut self, place: Option<usize>, field: &[u8]) -> Result<(), PlaceError> {
        let place = place.filter(|_| self.0.len() == IMAGE_LENGTH).ok_or(PlaceError)?;
        put(&mut self.0, place, field);
        Ok(())
    }
}

/// The calls. Each panics only where the linked archive answers what this version of the crate does not know.
impl Image {
    /// Makes a call outside transactions.
    pub fn call(&mut self, record: &Record) -> Result<Done, Refusal> {
        let mut answer = Answer::new();
        let number =
            exports::call_without_journal(&mut self.0, record.as_bytes(), &mut answer.events, &mut answer.value, &mut answer.event_count);
        answer.done(number)
    }

    /// What [`Image::call`] would give; nothing changes. A call that follows gives the same, in a transaction
    /// ([`Image::call_in`]) too, unless the journal is not good or has no room for it.
    ///
    /// ```
    /// use token_vault::{Image, Record, Refusal};
    ///
    /// let mut image = Image::new();
    /// image.add_token(48, 0)?;
    /// image.set_holding(48, 2, 500)?;
    /// image.call(&Record::initialize(2, 48, 1_000).signed_by(&[2]))?;
    /// image.call(&Record::deposit(2, 300).signed_by(&[2]))?;
    /// assert_eq!(image.preview(&Record::withdraw(2, 4, 301).signed_by(&[2])), Err(Refusal::LimitExceeded));
    /// let payout = Record::withdraw(2, 4, 40).signed_by(&[2]);
    /// let previewed = image.preview(&payout)?;
    /// assert_eq!(image.view().unwrap().holding(48, 4), 0);
    /// assert_eq!(image.call(&payout)?, previewed);
    /// assert_eq!(image.view().unwrap().holding(48, 4), 40);
    /// # Ok::<(), Box<dyn std::error::Error>>(())
    /// ```
    pub fn preview(&self, record: &Record) -> Result<Done, Refusal> {
        let mut answer = Answer::new();
        let number = exports::preview(&self.0, record.as_bytes(), &mut answer.events, &mut answer.value, &mut answer.event_count);
        answer.done(number)
    }

    /// Makes a call that can be undone while the journal's transaction is open.
    pub fn call_in(&mut self, journal: &mut Journal, record: &Record) -> Result<Done, Refusal> {
        let mut answer = Answer::new();
        let number = exports::call(
            &mut self.0,
            journal.bytes_mut(),
            record.as_bytes(),
            &mut answer.events,
            &mut answer.value,
            &mut answer.event_count,
        );
        answer.done(number)
    }

    /// Opens a transaction.
    pub fn begin(&mut self, journal: &mut Journal) -> Result<(), Refusal> {
        result(exports::begin(&mut self.0, journal.bytes_mut()))
    }

    /// Keeps what the transaction did, and closes it.
    pub fn commit(&mut self, journal: &mut Journal) -> Result<(), Refusal> {
        result(exports::commit(&mut self.0, journal.bytes_mut()))
    }

    /// Undoes all that the transaction did, and closes it.
    pub fn rollback(&mut self, journal: &mut Journal) -> Result<(), Refusal> {
        result(exports::rollback(&mut self.0, journal.bytes_mut()))
    }

    /// Undoes the last call of the transaction.
    pub fn undo(&mut self, journal: &mut Journal) -> Result<(), Refusal> {
        result(exports::undo(&mut self.0, journal.bytes_mut()))
    }
}

impl Default for Image {
    fn default() -> Image {
        Image::new()
    }
}

impl fmt::Debug for Image {
    fn fmt(&self, f: &mut fmt::Formatter<'_>) -> fmt::Result {
        match self.view() {
            None => write!(f, "Image({} bytes)", self.0.len()),
            Some(view) => f
                .debug_struct("Image")
                .field("owner", &view.owner())
                .field("default_token", &view.default_token())
                .field("paused", &view.is_paused())
                .field("tokens", &view.tokens())
                .finish_non_exhaustive(),
        }
    }
}

/// Where a call puts its value and events.
struct Answer {
    events: [u8; EVENTS_LENGTH],
    value: [u8; 16],
    event_count: u32,
}

impl Answer {
    fn new() -> Answer {
        Answer { events: [0; EVENTS_LENGTH], value: [0; 16], event_count: 0 }
    }

    fn done(&self, number: u32) -> Result<Done, Refusal> {
        result(number)?;
        let events = decode_events(&self.events, self.event_count).expect("events of the kinds that this crate knows");
        Ok(Done { value: i128::from_le_bytes(self.value), events })
    }
}
