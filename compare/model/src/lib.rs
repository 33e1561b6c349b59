//! A plain reading of docs/FORMATS.md, for what the Rust contract does not have: good images, records and journals,
//! operations 29 and 30, previews, transactions and undo, the kept list and the book, trial records and toll bounds.
pub mod build;
pub mod bytes;
pub mod image;
pub mod journal;
pub mod kept;
pub mod moves;
pub mod random;
pub mod record;
pub mod tolls;
pub mod trial;
pub mod vault;
