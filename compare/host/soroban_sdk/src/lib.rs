//! A stand-in for soroban_sdk: what the contract uses of it, with the meanings of docs/FORMATS.md.
//! A refused or trapped call is undone by the caller of the host: it throws the host away, or takes the noted changes back.
mod host;
pub mod token;
mod value;

pub use host::{trap, Address, BytesN, Change, Deployer, Env, Event, Events, Host, Ledger, Storage, StorageArea, Token, Trap};
pub use soroban_macros::{contract, contractimpl, contracttype};
pub use value::{symbol, Leaf, Leaves, Symbol, Value, Vec};

#[macro_export]
macro_rules! symbol_short {
    ($name:literal) => {
        $crate::Symbol::short($name)
    };
}
