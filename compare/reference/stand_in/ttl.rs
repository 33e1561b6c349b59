//! A stand-in for the contract's ttl.rs: storage rent is left out.
use soroban_sdk::Env;

pub fn bump_instance(_: &Env) {}

pub fn bump_all_vault_keys(env: &Env) -> u32 {
    crate::storage::tracked_vault_keys(env).len()
}
