//! The contract's lib.rs, storage.rs and events.rs, compiled unchanged, and called with the records and images of docs/FORMATS.md.
pub mod errors;
mod image;
mod invoke;
mod loaded;

include!(concat!(env!("OUT_DIR"), "/modules.rs"));

pub use invoke::{operation, Done};
pub use loaded::{Accepted, Changes, Loaded};
