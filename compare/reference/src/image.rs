//! The image of docs/FORMATS.md as host storage and token table, and back.
use crate::storage::{DataKey, EmergencyMigration, VaultBalanceSnapshot};
use model::bytes::{amount, get16, get32, get64, put};
use model::image::LENGTH;
use soroban_sdk::{Address, Change, Env, Host, Leaf, Token, Vec as Values};
use std::collections::HashMap;

/// A host that holds what a good image holds, before any call.
pub fn load(image: &[u8]) -> Env {
    let env = Env::of(Host {
        instance: HashMap::new(),
        persistent: HashMap::new(),
        temporary: HashMap::new(),
        timestamp: 0,
        sequence: 0,
        signers: 0,
        tokens: std::array::from_fn(|i| token(image, i)),
        events: Vec::new(),
        changes: None,
    });
    load_instance(&env, image);
    load_tables(&env, image);
    env
}

/// The token of a slot.
pub fn token(image: &[u8], i: usize) -> Token {
    let holdings = std::array::from_fn(|a| amount(image, 4064 + 1024 * i + 16 * a));
    Token { kind: image[3680 + 24 * i], toll: amount(image, 3688 + 24 * i), holdings }
}

fn load_instance(env: &Env, image: &[u8]) {
    let flag = |bit: u32| get16(image, 0) >> bit & 1 == 1;
    let address = |at: usize| Address::new(env, image[at]);
    let instance = env.storage().instance();
    if flag(0) {
        instance.set(&DataKey::Owner, &address(2));
        instance.set(&DataKey::Token, &address(3));
        instance.set(&DataKey::MaxLimit, &amount(image, 8));
        instance.set(&DataKey::OwnerProposalTtl, &get64(image, 48));
    }
    if flag(1) {
        instance.set(&DataKey::Paused, &true);
    }
    if flag(2) {
        instance.set(&DataKey::Operator, &address(4));
    }
    if flag(3) {
        instance.set(&DataKey::OperatorWithdrawLimit, &amount(image, 24));
    }
    if flag(4) {
        instance.set(&DataKey::PendingOwner, &address(5));
        instance.set(&DataKey::PendingOwnerProposer, &address(6));
        instance.set(&DataKey::PendingOwnerProposedAt, &get64(image, 40));
    }
    if flag(5) {
        let migration = EmergencyMigration { destination: address(7), proposed_at: get64(image, 56), executable_at: get64(image, 64) };
        instance.set(&DataKey::EmergencyMigration, &migration);
    }
}

fn load_tables(env: &Env, image: &[u8]) {
    let address = |a: usize| Address::new(env, a as u8);
    let instance = env.storage().instance();
    let persistent = env.storage().persistent();
    for a in 0..64 {
        if get64(image, 72) >> a & 1 == 1 {
            instance.set(&DataKey::ApprovedToken(address(a)), &true);
        }
        if get64(image, 80) >> a & 1 == 1 {
            persistent.set(&DataKey::TokenMaxLimit(address(a)), &amount(image, 96 + 16 * a));
        }
    }
    let mut keys = Values::new(env);
    for i in 0..get16(image, 88) as usize {
        let key = get16(image, 1504 + 2 * i) as usize;
        keys.push_back(if key < 1024 {
            DataKey::TokenAccountBalance(address(48 + key / 64), address(key % 64))
        } else {
            DataKey::TokenMaxLimit(address(key - 1024))
        });
    }
    if !keys.is_empty() {
        instance.set(&DataKey::TrackedVaultKeys, &keys);
    }
    for i in 0..16 {
        let at = 1120 + 24 * i;
        if get32(image, at) == 1 {
            let snapshot = VaultBalanceSnapshot { ledger: get32(image, at + 4), expected_balance: amount(image, at + 8) };
            instance.set(&DataKey::BalanceSnapshot(address(48 + i)), &snapshot);
        }
        for a in 0..64 {
            let credit = amount(image, 20448 + 1024 * i + 16 * a);
            if credit != 0 {
                persistent.set(&DataKey::TokenAccountBalance(address(48 + i), address(a)), &credit);
            }
        }
    }
}

/// The image of what a host holds after an accepted call. A value that no image can hold is a panic.
pub fn store(env: &Env) -> Vec<u8> {
    let mut image = vec![0; LENGTH];
    env.with(|host| {
        assert!(host.temporary.is_empty(), "the lock is still set");
        for (i, token) in host.tokens.iter().enumerate() {
            image[3680 + 24 * i] = token.kind;
            put(&mut image, 3688 + 24 * i, &token.toll.to_le_bytes());
            for a in 0..64 {
                put(&mut image, 4064 + 1024 * i + 16 * a, &token.holdings[a].to_le_bytes());
            }
        }
        for (key, value) in host.instance.iter().chain(host.persistent.iter()) {
            store_entry(&mut image, key, value);
        }
    });
    image
}

/// Writes to the image what the host now holds where it was changed.
pub fn store_changes(env: &Env, changes: &[Change], image: &mut [u8]) {
    env.with(|host| {
        for change in changes {
            match change {
                Change::Entry { area, key, .. } => match area(host).get(key) {
                    Some(value) => store_entry(image, key, value),
                    None => clear_entry(image, key),
                },
                Change::Holding { token, account, .. } => {
                    put(image, 4064 + 1024 * token + 16 * account, &host.tokens[*token].holdings[*account].to_le_bytes())
                }
            }
        }
    })
}

/// Sets or clears a bit of the eight bytes at a place.
fn set_bit(image: &mut [u8], at: usize, bit: u8, on: bool) {
    let bits = get64(image, at) & !(1 << bit) | (on as u64) << bit;
    put(image, at, &bits.to_le_bytes());
}

fn store_entry(image: &mut [u8], key: &[Leaf], value: &[Leaf]) {
    // The flags are the lowest bits of the first eight bytes.
    let mut flag = |bit: u8, on: bool| set_bit(image, 0, bit, on);
    use Leaf::{Address as A, Bool, I128, U32, U64};
    match (key, value) {
        ([Leaf::Symbol("Owner")], [A(a)]) => {
            flag(0, true);
            image[2] = *a;
        }
        ([Leaf::Symbol("Token")], [A(a)]) => image[3] = *a,
        ([Leaf::Symbol("MaxLimit")], [I128(v)]) => put(image, 8, &v.to_le_bytes()),
        ([Leaf::Symbol("OwnerProposalTtl")], [U64(v)]) => put(image, 48, &v.to_le_bytes()),
        ([Leaf::Symbol("Paused")], [Bool(paused)]) => flag(1, *paused),
        ([Leaf::Symbol("Operator")], [A(a)]) => {
            flag(2, true);
            image[4] = *a;
        }
        ([Leaf::Symbol("OperatorWithdrawLimit")], [I128(v)]) => {
            flag(3, true);
            put(image, 24, &v.to_le_bytes());
        }
        ([Leaf::Symbol("PendingOwner")], [A(a)]) => {
            flag(4, true);
            image[5] = *a;
        }
        ([Leaf::Symbol("PendingOwnerProposer")], [A(a)]) => image[6] = *a,
        ([Leaf::Symbol("PendingOwnerProposedAt")], [U64(v)]) => put(image, 40, &v.to_le_bytes()),
        ([Leaf::Symbol("EmergencyMigration")], [A(destination), U64(proposed), U64(executable)]) => {
            flag(5, true);
            image[7] = *destination;
            put(image, 56, &proposed.to_le_bytes());
            put(image, 64, &executable.to_le_bytes());
        }
        ([Leaf::Symbol("ApprovedToken"), A(a)], [Bool(approved)]) => set_bit(image, 72, *a, *approved),
        ([Leaf::Symbol("TokenMaxLimit"), A(a)], [I128(v)]) => {
            set_bit(image, 80, *a, true);
            put(image, 96 + 16 * *a as usize, &v.to_le_bytes());
        }
        ([Leaf::Symbol("BalanceSnapshot"), A(a)], [U32(ledger), I128(holding)]) => {
            let at = 1120 + 24 * (*a as usize - 48);
            put(image, at, &1u32.to_le_bytes());
            put(image, at + 4, &ledger.to_le_bytes());
            put(image, at + 8, &holding.to_le_bytes());
        }
        ([Leaf::Symbol("TokenAccountBalance"), A(token), A(account)], [I128(v)]) => {
            let at = 20448 + 1024 * (*token as usize - 48) + 16 * *account as usize;
            put(image, at, &v.to_le_bytes());
        }
        ([Leaf::Symbol("TrackedVaultKeys")], [Leaf::Length(n), keys @ ..]) => store_keys(image, *n, keys),
        other => panic!("no place in the image for {other:?}"),
    }
}

/// Zeroes the place of an entry that was removed.
fn clear_entry(image: &mut [u8], key: &[Leaf]) {
    let [Leaf::Symbol(name)] = key else { panic!("{key:?} is never removed") };
    match *name {
        "Operator" => {
            set_bit(image, 0, 2, false);
            image[4] = 0;
        }
        "PendingOwner" => {
            set_bit(image, 0, 4, false);
            image[5] = 0;
        }
        "PendingOwnerProposer" => image[6] = 0,
        "PendingOwnerProposedAt" => image[40..48].fill(0),
        "EmergencyMigration" => {
            set_bit(image, 0, 5, false);
            image[7] = 0;
            image[56..72].fill(0);
        }
        "ReentrancyLock" => {}
        other => panic!("{other} is never removed"),
    }
}

fn store_keys(image: &mut [u8], count: u32, mut keys: &[Leaf]) {
    put(image, 88, &(count as u16).to_le_bytes());
    for i in 0..count as usize {
        let number = match keys {
            [Leaf::Symbol("TokenAccountBalance"), Leaf::Address(token), Leaf::Address(account), rest @ ..] => {
                keys = rest;
                64 * (*token as u16 - 48) + *account as u16
            }
            [Leaf::Symbol("TokenMaxLimit"), Leaf::Address(a), rest @ ..] => {
                keys = rest;
                1024 + *a as u16
            }
            other => panic!("not a tracked key: {other:?}"),
        };
        put(image, 1504 + 2 * i, &number.to_le_bytes());
    }
    assert!(keys.is_empty());
}

/// An event's 56 bytes: kind, addresses at 1 and 2, yes or no at 3, numbers at 8, 24 and 40, in the order of the arguments.
pub fn event_bytes(topics: &[Leaf], data: &[Leaf]) -> [u8; 56] {
    let mut bytes = [0; 56];
    let (mut addresses, mut flags, mut numbers) = (0, 0, 0);
    for leaf in topics.iter().chain(data) {
        let number = match leaf {
            Leaf::Symbol(name) => {
                bytes[0] = kind(name);
                continue;
            }
            Leaf::Address(a) => {
                bytes[1 + addresses] = *a;
                addresses += 1;
                continue;
            }
            Leaf::Bool(yes) => {
                bytes[3 + flags] = *yes as u8;
                flags += 1;
                continue;
            }
            Leaf::I128(v) => *v,
            Leaf::U64(v) => *v as i128,
            Leaf::U32(v) => *v as i128,
            Leaf::Length(_) => panic!("a list in an event"),
        };
        put(&mut bytes, 8 + 16 * numbers, &number.to_le_bytes());
        numbers += 1;
    }
    assert!(addresses <= 2 && flags <= 1 && numbers <= 3);
    bytes
}

fn kind(name: &str) -> u8 {
    const NAMES: [&str; 18] = [
        "init",
        "deposited",
        "TokenDeposited",
        "withdrawn",
        "limit_set",
        "op_limit",
        "set_op",
        "rm_op",
        "paused",
        "unpaused",
        "propose",
        "accept",
        "owner_ttl",
        "em_init",
        "em_exec",
        "em_cancel",
        "VaultDepositFailed",
        "tok_allow",
    ];
    match NAMES.iter().position(|n| *n == name) {
        Some(i) => i as u8 + 1,
        None => panic!("no kind for the event {name}"),
    }
}
