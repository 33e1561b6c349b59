//! The contract on a host that stays loaded from call to call.
use crate::{image, invoke};
use soroban_sdk::{Change, Env};

pub struct Loaded(Env);

/// What an accepted call gave, and what it changed in the host.
pub struct Accepted {
    pub value: i128,
    pub events: Vec<[u8; 56]>,
    pub changes: Changes,
}

pub struct Changes(Vec<Change>);

impl Loaded {
    pub fn new(image: &[u8]) -> Loaded {
        let env = image::load(image);
        env.with(|host| host.changes = Some(Vec::new()));
        Loaded(env)
    }

    /// One operation, 1 to 28. A refused or trapped one is taken back.
    pub fn operation(&self, record: &[u8]) -> Result<Accepted, u32> {
        let result = invoke::run(&self.0, record);
        let changes = Changes(self.0.with(|host| host.changes.replace(Vec::new())).unwrap_or_default());
        match result {
            Ok(value) => Ok(Accepted { value, events: invoke::events(&self.0), changes }),
            Err(number) => {
                self.take_back(changes);
                Err(number)
            }
        }
    }

    /// Writes an accepted call's changes to the image as it was before the call.
    pub fn store(&self, changes: &Changes, image: &mut [u8]) {
        image::store_changes(&self.0, &changes.0, image);
    }

    /// Takes a token over from the image, after an operation that the contract does not have. It cannot be taken back.
    pub fn load_token(&self, image: &[u8], token: usize) {
        self.0.with(|host| host.tokens[token - 48] = image::token(image, token - 48));
    }

    /// Undoes the last accepted call, whose changes these are.
    pub fn take_back(&self, changes: Changes) {
        self.0.with(|host| host.take_back(changes.0));
    }
}
