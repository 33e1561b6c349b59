//! A stand-in for drip_common, from docs/FORMATS.md.
use soroban_sdk::{Address, Env};

/// Storage expiry is left out; the number is never compared.
pub const TTL_EXTEND_TO: u32 = 0;

/// Address 0.
pub fn is_zero_address(_: &Env, address: &Address) -> bool {
    address.number() == 0
}

/// A flag, false at first.
pub mod pause {
    use soroban_sdk::{Env, Value};

    pub struct PausedError;

    pub fn is_paused<K: Value>(env: &Env, key: &K) -> bool {
        env.storage().instance().get(key).unwrap_or(false)
    }

    pub fn set_paused<K: Value>(env: &Env, key: &K, paused: bool) {
        env.storage().instance().set(key, &paused);
    }

    pub fn require_not_paused<K: Value>(env: &Env, key: &K) -> Result<(), PausedError> {
        if is_paused(env, key) {
            Err(PausedError)
        } else {
            Ok(())
        }
    }
}

/// Does nothing.
pub mod ttl {
    use soroban_sdk::{Env, Value};

    pub fn bump_persistent<K: Value>(_: &Env, _: &K) {}
}
