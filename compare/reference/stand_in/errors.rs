//! A stand-in for the contract's errors.rs, which cannot be had: the type stands in the crate root.
pub use crate::errors::Error;
