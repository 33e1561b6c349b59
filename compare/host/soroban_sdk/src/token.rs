//! SEP-41 balance and transfer over the host's token table.
use crate::host::{trap, Address, Env, Trap};

pub struct Client<'a> {
    env: &'a Env,
    token: u8,
}

impl<'a> Client<'a> {
    pub fn new(env: &'a Env, token: &Address) -> Client<'a> {
        Client { env, token: token.number() }
    }

    /// Traps on an absent token.
    pub fn balance(&self, account: &Address) -> i128 {
        self.env.with(|h| h.token(self.token).map(|t| t.holdings[account.number() as usize])).unwrap_or_else(|| trap(Trap::Token))
    }

    pub fn transfer(&self, from: &Address, to: &Address, amount: &i128) {
        if self.try_transfer(from, to, amount).is_err() {
            trap(Trap::Token)
        }
    }

    /// A failed transfer changes nothing.
    pub fn try_transfer(&self, from: &Address, to: &Address, amount: &i128) -> Result<(), ()> {
        self.env.with(|h| h.transfer(self.token, from.number(), to.number(), *amount))
    }
}
