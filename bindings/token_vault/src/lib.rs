//! The token vault for Rust: types and safe calls over its proved library.
//!
//! An [`Image`] is all that a vault keeps. A [`Record`] is one call on it, with the addresses that signed it. A call is
//! done, with a value and [`Event`]s, or refused with a [`Refusal`] and then nothing has changed. A preview gives the same
//! and never changes anything. In the transaction of a [`Journal`] calls can be undone. [`trial_records`] makes a load of
//! records that every house makes alike, and [`Image::toll_bounds`] says what the vault will hold while a toll is known
//! only within bounds. Formats and rules are in docs/FORMATS.md of the repository.
//!
//! ```
//! use token_vault::{Image, Journal, Record, Refusal};
//!
//! // Token 48, of which account 2 holds 500. Account 2 becomes the owner of a vault for at most 1,000.
//! let mut image = Image::new();
//! image.add_token(48, 0)?;
//! image.set_holding(48, 2, 500)?;
//! image.call(&Record::initialize(2, 48, 1_000).signed_by(&[2]))?;
//!
//! let done = image.call(&Record::deposit(2, 300).signed_by(&[2]))?;
//! assert_eq!(done.events[0].to_string(), "deposited: 2 paid in 300; the vault now holds 300");
//!
//! // A payout that nobody signed is refused.
//! let refusal = image.call(&Record::withdraw(2, 4, 40)).unwrap_err();
//! assert_eq!(refusal, Refusal::SignatureMissing);
//!
//! // A look at a payout before it is made.
//! let payout = Record::withdraw(2, 4, 40).signed_by(&[2]);
//! let previewed = image.preview(&payout)?;
//! assert_eq!(previewed.events[0].to_string(), "withdrawn: owner 2 paid 40 to 4; the vault now holds 260");
//! assert_eq!(image.view().unwrap().holding(48, 4), 0);
//!
//! // The payout in a transaction, undone.
//! let mut journal = Journal::new(100).unwrap();
//! image.begin(&mut journal)?;
//! assert_eq!(image.call_in(&mut journal, &payout)?, previewed);
//! assert_eq!(image.view().unwrap().holding(48, 4), 40);
//! image.undo(&mut journal)?;
//! assert_eq!(image.view().unwrap().holding(48, 4), 0);
//! image.commit(&mut journal)?;
//! # Ok::<(), Box<dyn std::error::Error>>(())
//! ```
//!
//! The build script links `libtoken_vault_abi.a` from the folder in `VAULT_LIBRARY` (absolute, or relative to the
//! repository's root), or else from `target/staticlib` of the repository. The library is for x86-64, and a call needs
//! less than 64 KiB of stack.
#![deny(unsafe_code)]
#![warn(missing_docs)]

mod bytes;
mod event;
#[allow(unsafe_code)]
pub mod exports;
mod image;
mod journal;
pub mod layout;
mod operation;
mod record;
mod refusal;
mod tolls;
mod trial;
mod view;
mod words;

pub use event::{decode_events, Event};
pub use image::{Done, Image, PlaceError};
pub use journal::{Entry, Journal, JournalView};
pub use operation::Operation;
pub use record::{Item, Record};
pub use refusal::Refusal;
pub use trial::{trial_records, TrialRecords};
pub use view::{Handover, ImageView, Migration, Snapshot, Token, TokenState, TrackedKey};

/// An account or a token: 0 to 63; above that the library answers 32, and to toll bounds 46.
pub type Address = u8;
/// The address that is none.
pub const ZERO_ADDRESS: Address = 0;
/// The vault's own address.
pub const VAULT_ADDRESS: Address = 1;
/// The first address that can be a token; the last is 63.
pub const FIRST_TOKEN: Address = 48;
/// How many addresses there are.
pub const ADDRESSES: Address = 64;
/// The version of this crate, of the C header and of the tool.
pub const VERSION: &str = env!("CARGO_PKG_VERSION");
