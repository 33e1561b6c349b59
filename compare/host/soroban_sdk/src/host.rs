//! The host: storage, ledger, signer set, token table, events; and the handles that the contract gets.
use crate::value::{Leaf, Value};
use std::cell::RefCell;
use std::collections::HashMap;
use std::fmt;
use std::rc::Rc;

pub type Map = HashMap<Vec<Leaf>, Vec<Leaf>>;
pub type Area = fn(&mut Host) -> &mut Map;

/// docs/FORMATS.md: an address is a byte below 64; 1 is the vault; tokens stand at 48 to 63.
pub const VAULT: u8 = 1;
pub const FIRST_TOKEN: u8 = 48;

/// Kind 0 absent, 1 moving, 2 frozen.
#[derive(Clone, Copy)]
pub struct Token {
    pub kind: u8,
    pub toll: i128,
    pub holdings: [i128; 64],
}

pub struct Event {
    pub topics: Vec<Leaf>,
    pub data: Vec<Leaf>,
}

/// A place that a call wrote to, and what stood there.
pub enum Change {
    Entry { area: Area, key: Vec<Leaf>, old: Option<Vec<Leaf>> },
    Holding { token: usize, account: usize, old: i128 },
}

pub struct Host {
    pub instance: Map,
    pub persistent: Map,
    pub temporary: Map,
    pub timestamp: u64,
    pub sequence: u32,
    pub signers: u64,
    pub tokens: [Token; 16],
    pub events: Vec<Event>,
    /// What calls have changed, if the host is to note it.
    pub changes: Option<Vec<Change>>,
}

/// One host trap to the contract's caller; the cause is known here only.
#[derive(Clone, Copy, Debug, PartialEq, Eq)]
pub enum Trap {
    Authorisation,
    Token,
}

/// Leaves the call without running the panic hook.
pub fn trap(cause: Trap) -> ! {
    std::panic::resume_unwind(Box::new(cause))
}

impl Host {
    /// A transfer by docs/FORMATS.md: fails on an absent or frozen token, a sender short of the amount, a receiver passing
    /// 2^127 - 1. The sender loses the amount first; the receiver gets it less the toll, never below 0.
    pub(crate) fn transfer(&mut self, token: u8, from: u8, to: u8, amount: i128) -> Result<(), ()> {
        let slot = token.wrapping_sub(FIRST_TOKEN) as usize;
        let token = self.token(token).filter(|t| t.kind == 1).ok_or(())?;
        let (from, to) = (from as usize, to as usize);
        let old = [from, to].map(|account| Change::Holding { token: slot, account, old: token.holdings[account] });
        let left = token.holdings[from].checked_sub(amount).filter(|left| *left >= 0).ok_or(())?;
        let held = if to == from { left } else { token.holdings[to] };
        let received = amount.checked_sub(token.toll).unwrap_or(0).max(0);
        let after = held.checked_add(received).ok_or(())?;
        token.holdings[from] = left;
        token.holdings[to] = after;
        if let Some(changes) = &mut self.changes {
            changes.extend(old);
        }
        Ok(())
    }

    /// Stores a value, or removes it.
    fn put(&mut self, area: Area, key: Vec<Leaf>, value: Option<Vec<Leaf>>) {
        let noted = self.changes.is_some().then(|| key.clone());
        let old = match value {
            Some(value) => area(self).insert(key, value),
            None => area(self).remove(&key),
        };
        if let (Some(changes), Some(key)) = (&mut self.changes, noted) {
            changes.push(Change::Entry { area, key, old });
        }
    }

    /// Takes changes back, the last one first.
    pub fn take_back(&mut self, changes: Vec<Change>) {
        for change in changes.into_iter().rev() {
            match change {
                Change::Entry { area, key, old: Some(value) } => drop(area(self).insert(key, value)),
                Change::Entry { area, key, old: None } => drop(area(self).remove(&key)),
                Change::Holding { token, account, old } => self.tokens[token].holdings[account] = old,
            }
        }
    }

    /// A token that is not absent.
    pub(crate) fn token(&mut self, address: u8) -> Option<&mut Token> {
        let slot = address.checked_sub(FIRST_TOKEN)?;
        self.tokens.get_mut(slot as usize).filter(|t| t.kind != 0)
    }
}

#[derive(Clone)]
pub struct Env(pub(crate) Rc<RefCell<Host>>);

impl Env {
    pub fn of(host: Host) -> Env {
        Env(Rc::new(RefCell::new(host)))
    }

    /// Reads or changes the host.
    pub fn with<R>(&self, f: impl FnOnce(&mut Host) -> R) -> R {
        f(&mut self.0.borrow_mut())
    }

    pub fn storage(&self) -> Storage {
        Storage(self.clone())
    }

    pub fn ledger(&self) -> Ledger {
        Ledger(self.clone())
    }

    pub fn events(&self) -> Events {
        Events(self.clone())
    }

    pub fn deployer(&self) -> Deployer {
        Deployer
    }

    pub fn current_contract_address(&self) -> Address {
        Address::new(self, VAULT)
    }
}

#[derive(Clone)]
pub struct Address {
    env: Env,
    number: u8,
}

impl Address {
    pub fn new(env: &Env, number: u8) -> Address {
        Address { env: env.clone(), number }
    }

    pub fn number(&self) -> u8 {
        self.number
    }

    /// Traps unless the address is in the signer set.
    pub fn require_auth(&self) {
        let signed = self.env.with(|h| h.signers >> self.number & 1 == 1);
        if !signed {
            trap(Trap::Authorisation)
        }
    }
}

impl PartialEq for Address {
    fn eq(&self, other: &Address) -> bool {
        self.number == other.number
    }
}

impl Eq for Address {}

impl fmt::Debug for Address {
    fn fmt(&self, f: &mut fmt::Formatter<'_>) -> fmt::Result {
        write!(f, "Address({})", self.number)
    }
}

pub struct Storage(Env);

impl Storage {
    pub fn instance(&self) -> StorageArea {
        StorageArea { env: self.0.clone(), area: |h| &mut h.instance }
    }

    pub fn persistent(&self) -> StorageArea {
        StorageArea { env: self.0.clone(), area: |h| &mut h.persistent }
    }

    pub fn temporary(&self) -> StorageArea {
        StorageArea { env: self.0.clone(), area: |h| &mut h.temporary }
    }
}

pub struct StorageArea {
    env: Env,
    area: Area,
}

impl StorageArea {
    pub fn get<K: Value, V: Value>(&self, key: &K) -> Option<V> {
        let stored = self.env.with(|h| (self.area)(h).get(&key.leaves()).cloned())?;
        let mut leaves = stored.iter();
        let value = V::read(&self.env, &mut leaves);
        assert!(leaves.next().is_none(), "a stored value of another type");
        Some(value)
    }

    pub fn set<K: Value, V: Value>(&self, key: &K, value: &V) {
        self.env.with(|h| h.put(self.area, key.leaves(), Some(value.leaves())));
    }

    pub fn remove<K: Value>(&self, key: &K) {
        self.env.with(|h| h.put(self.area, key.leaves(), None));
    }
}

pub struct Ledger(Env);

impl Ledger {
    pub fn timestamp(&self) -> u64 {
        self.0.with(|h| h.timestamp)
    }

    pub fn sequence(&self) -> u32 {
        self.0.with(|h| h.sequence)
    }
}

pub struct Events(Env);

impl Events {
    pub fn publish<T: Value, D: Value>(&self, topics: T, data: D) {
        self.0.with(|h| h.events.push(Event { topics: topics.leaves(), data: data.leaves() }));
    }
}

/// Code upgrade is left out.
pub struct Deployer;

impl Deployer {
    pub fn update_current_contract_wasm(&self, _: BytesN<32>) {
        panic!("upgrade is not compared")
    }
}

#[derive(Clone, Debug, PartialEq, Eq)]
pub struct BytesN<const N: usize>([u8; N]);

impl<const N: usize> BytesN<N> {
    pub fn from_array(_: &Env, bytes: &[u8; N]) -> BytesN<N> {
        BytesN(*bytes)
    }
}
