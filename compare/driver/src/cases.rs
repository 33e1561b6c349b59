//! The cases A to L of docs/FORMATS.md: the numbers are that page's, and both sides have to give them.
use crate::compare::Pair;
use crate::vectors::List;
use model::bytes::{amount, put, put_amount};
use model::image::{credit_at, holding_at, token_at, LENGTH};
use model::vault::{Answer, Call, Vault};

const OWNER: u8 = 2;
const OPERATOR: u8 = 3;
const PAYEE: u8 = 4;
const TOKEN: usize = 48;

/// Owner 2 with 2000 of its own, operator 3, token 48 approved and without toll, limit 1000, vault holding 100.
fn start() -> Vec<u8> {
    let mut image = vec![0; LENGTH];
    image[0] = 0b0101;
    (image[2], image[3], image[4]) = (OWNER, TOKEN as u8, OPERATOR);
    put_amount(&mut image, 8, 1000);
    put(&mut image, 48, &604_800u64.to_le_bytes());
    put(&mut image, 72, &(1u64 << TOKEN).to_le_bytes());
    image[token_at(TOKEN)] = 1;
    put_amount(&mut image, holding_at(TOKEN, 1), 100);
    put_amount(&mut image, holding_at(TOKEN, OWNER as usize), 2000);
    image
}

/// A record signed by owner and operator, at time 0 and sequence 0.
fn record(operation: u8, caller: u8) -> Vec<u8> {
    let mut record = vec![0; 448];
    (record[0], record[1], record[2]) = (operation, caller, TOKEN as u8);
    put(&mut record, 24, &0b1100u64.to_le_bytes());
    record
}

fn of(operation: u8, caller: u8, moved: i128) -> Vec<u8> {
    let mut r = record(operation, caller);
    put_amount(&mut r, 32, moved);
    r
}

fn to(mut r: Vec<u8>, other: u8) -> Vec<u8> {
    r[3] = other;
    r
}

fn at(mut r: Vec<u8>, time: u64) -> Vec<u8> {
    put(&mut r, 8, &time.to_le_bytes());
    r
}

fn payouts(caller: u8, amounts: &[i128]) -> Vec<u8> {
    let mut r = record(6, caller);
    r[5] = amounts.len() as u8;
    for (i, a) in amounts.iter().enumerate() {
        r[64 + 24 * i] = PAYEE;
        put_amount(&mut r, 72 + 24 * i, *a);
    }
    r
}

/// The answer of both sides, which have to agree.
fn call(pair: &mut Pair, call: &Call) -> Answer {
    match pair.call(call) {
        Ok(answer) => answer,
        Err(d) => panic!("the two sides differ in {}: {} and {}", d.what, d.vault_answer.number, d.rust_answer.number),
    }
}

fn answer(pair: &mut Pair, record: Vec<u8>) -> Answer {
    call(pair, &Call::Operation { record, events: vec![7; 896] })
}

fn fresh() -> Pair {
    Pair::new(start(), None, None)
}

fn check(case: &str, pair: &mut Pair, record: Vec<u8>, number: u32) -> Answer {
    let a = answer(pair, record);
    assert_eq!(a.number, number, "case {case}");
    a
}

pub fn run() {
    check("A", &mut fresh(), payouts(OWNER, &[40, 60]), 0);
    check("A", &mut fresh(), payouts(OWNER, &[41, 60]), 6);
    for (amounts, number) in [([30, 20], 0), ([30, 21], 6)] {
        let mut pair = fresh();
        check("B", &mut pair, of(10, OWNER, 50), 0);
        check("B", &mut pair, payouts(OPERATOR, &amounts), number);
    }
    check("C", &mut fresh(), to(of(5, OWNER, 5), 1), 13);
    check("D", &mut fresh(), of(2, OWNER, 900), 0);
    check("D", &mut fresh(), of(2, OWNER, 901), 6);
    fee();
    times();
    sequence();
    for (token, number, value) in [(0, 0, 0), (48, 0, 1), (2, 23, 0)] {
        let mut r = record(28, 0);
        r[2] = token;
        assert_eq!(check("I", &mut fresh(), r, number).value, value, "case I");
    }
    credit();
    check("K", &mut fresh(), of(11, 9, 99), 6);
    check("K", &mut fresh(), of(11, 9, 100), 3);
    undone();
    println!("cases A to L: as docs/FORMATS.md has them, at both sides");
}

fn fee() {
    for (fee, paused, number) in [(9, false, 0), (10, false, 4), (10, true, 4), (9, true, 8)] {
        let mut pair = fresh();
        if paused {
            check("E", &mut pair, record(18, OWNER), 0);
        }
        let mut r = of(3, OWNER, 10);
        put_amount(&mut r, 48, fee);
        check("E", &mut pair, r, number);
    }
}

fn times() {
    for (time, number) in [(604_799, 0), (604_800, 17)] {
        let mut pair = fresh();
        check("F", &mut pair, to(record(15, OWNER), OPERATOR), 0);
        check("F", &mut pair, at(record(16, OPERATOR), time), number);
    }
    for (time, number) in [(172_799, 21), (172_800, 0)] {
        let mut pair = fresh();
        check("G", &mut pair, to(record(21, OWNER), PAYEE), 0);
        check("G", &mut pair, record(18, OWNER), 0);
        check("G", &mut pair, at(record(22, OWNER), time), number);
    }
}

fn sequence() {
    let mut pair = fresh();
    check("H", &mut pair, to(record(21, OWNER), PAYEE), 0);
    check("H", &mut pair, of(2, OWNER, 10), 0);
    check("H", &mut pair, at(record(22, OWNER), 172_800), 0);
    check("H", &mut pair, of(2, OWNER, 10), 11);
    let mut next = of(2, OWNER, 10);
    next[16] = 1;
    check("H", &mut pair, next, 0);
}

fn credit() {
    let mut image = start();
    let place = credit_at(TOKEN, OWNER as usize);
    put_amount(&mut image, place, i128::MAX);
    let mut pair = Pair::new(image.clone(), None, None);
    check("J", &mut pair, of(2, OWNER, 1), 0);
    assert_eq!(amount(&pair.vault.image, place), i128::MAX, "case J");
    check("J", &mut Pair::new(image, None, None), of(7, OWNER, 1), 7);
}

fn undone() {
    let mut pair = Pair::new(start(), Some(vec![0; 24 * 11]), None);
    assert_eq!(call(&mut pair, &Call::Begin).number, 0, "case L");
    let before = pair.vault.clone();
    check("L", &mut pair, to(of(5, OWNER, 5), PAYEE), 0);
    assert!(pair.vault.image != before.image && pair.vault.journal != before.journal, "case L");
    assert_eq!(call(&mut pair, &Call::Undo).number, 0, "case L");
    assert!(pair.vault.image == before.image && pair.vault.journal == before.journal, "case L");
}

/// The calls of each case but J, in the order of the page; each case is rolled back before the next.
fn cases() -> Vec<Vec<Vec<u8>>> {
    let paused = || record(18, OWNER);
    let limit = || of(10, OWNER, 50);
    let fee = |fee: i128| {
        let mut r = of(3, OWNER, 10);
        put_amount(&mut r, 48, fee);
        r
    };
    let propose = || to(record(15, OWNER), OPERATOR);
    let migrate = || to(record(21, OWNER), PAYEE);
    let execute = |time| at(record(22, OWNER), time);
    let mut next = of(2, OWNER, 10);
    next[16] = 8;
    let compliant = |token| {
        let mut r = record(28, 0);
        r[2] = token;
        r
    };
    vec![
        vec![payouts(OWNER, &[40, 60])],
        vec![payouts(OWNER, &[41, 60])],
        vec![limit(), payouts(OPERATOR, &[30, 20])],
        vec![limit(), payouts(OPERATOR, &[30, 21])],
        vec![to(of(5, OWNER, 5), 1)],
        vec![of(2, OWNER, 900)],
        vec![of(2, OWNER, 901)],
        vec![fee(9)],
        vec![fee(10), paused(), fee(10)],
        vec![propose(), at(record(16, OPERATOR), 604_799)],
        vec![propose(), at(record(16, OPERATOR), 604_800)],
        vec![migrate(), paused(), execute(172_799), execute(172_800)],
        vec![of(2, OWNER, 10), migrate(), execute(172_800), of(2, OWNER, 10), next],
        vec![compliant(0), compliant(48), compliant(2)],
        vec![of(11, 9, 99), of(11, 9, 100)],
    ]
}

/// As vectors: case J has an image of its own.
pub fn lists() -> Vec<List> {
    let operation = |mut record: Vec<u8>| {
        record[16] = record[16].max(7);
        Call::Operation { record, events: vec![7; 896] }
    };
    let mut calls = Vec::new();
    for case in cases() {
        calls.push(Call::Begin);
        calls.extend(case.into_iter().map(operation));
        calls.push(Call::Rollback);
    }
    calls.extend([Call::Begin, operation(to(of(5, OWNER, 5), PAYEE)), Call::Undo]);
    let credited = [of(7, OWNER, 1), of(2, OWNER, 1)].map(operation).into();
    let mut image = start();
    put_amount(&mut image, credit_at(TOKEN, OWNER as usize), i128::MAX);
    let list = |image: Vec<u8>, calls: Vec<Call>| List { start: Vault { image, journal: vec![0; 24 * 41] }, calls };
    vec![list(start(), calls), list(image, credited)]
}
