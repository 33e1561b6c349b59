//! The journal: which are good, what an accepted operation enters, and what undo and rollback put back.
use crate::bytes::{get, get16, put, zero};
use crate::image::{CELL, CELLS};

pub const ENTRY: usize = 24;
pub const MOST_CALLS: usize = 1_000;
pub const MOST_ENTRIES: usize = 2_000;

pub fn is_open(journal: &[u8]) -> bool {
    journal[0] == 1
}

pub fn calls(journal: &[u8]) -> usize {
    get16(journal, 2) as usize
}

pub fn entries(journal: &[u8]) -> usize {
    get16(journal, 4) as usize
}

/// The most entries that a journal has room for.
pub fn places(journal: &[u8]) -> usize {
    journal.len() / ENTRY - 1
}

fn entry(journal: &[u8], i: usize) -> &[u8] {
    &journal[ENTRY * (1 + i)..ENTRY * (2 + i)]
}

pub fn good(journal: &[u8]) -> bool {
    if journal.len() % ENTRY != 0 || !(2..=1 + MOST_ENTRIES).contains(&(journal.len() / ENTRY)) {
        return false;
    }
    if !is_open(journal) {
        return zero(journal);
    }
    let (calls, entries) = (calls(journal), entries(journal));
    if calls > MOST_CALLS || entries > places(journal) || journal[1] != 0 || !zero(&journal[6..ENTRY]) {
        return false;
    }
    let mut last: Option<(u16, u16)> = None;
    for i in 0..entries {
        let e = entry(journal, i);
        let (cell, call) = (get16(e, 0), get16(e, 2));
        if cell as usize >= CELLS || call == 0 || call as usize > calls || !zero(&e[4..8]) {
            return false;
        }
        if last.is_some_and(|(c, n)| call < n || (call == n && cell <= c)) {
            return false;
        }
        last = Some((cell, call));
    }
    zero(&journal[ENTRY * (1 + entries)..])
}

fn set_counts(journal: &mut [u8], calls: usize, entries: usize) {
    put(journal, 2, &(calls as u16).to_le_bytes());
    put(journal, 4, &(entries as u16).to_le_bytes());
}

/// Enters the cells in which `after` differs from `before`, as one call; false, with nothing entered, where there is no room.
pub fn enter(journal: &mut [u8], before: &[u8], after: &[u8]) -> bool {
    let (old, new) = (before.as_chunks::<CELL>().0, after.as_chunks::<CELL>().0);
    let changed: Vec<usize> = (0..CELLS).filter(|c| old[*c] != new[*c]).collect();
    let (calls, entries) = (calls(journal), entries(journal));
    if calls + 1 > MOST_CALLS || entries + changed.len() > places(journal) {
        return false;
    }
    for (i, cell) in changed.iter().enumerate() {
        let at = ENTRY * (1 + entries + i);
        put(journal, at, &(*cell as u16).to_le_bytes());
        put(journal, at + 2, &(calls as u16 + 1).to_le_bytes());
        put(journal, at + 8, &old[*cell]);
    }
    set_counts(journal, calls + 1, entries + changed.len());
    true
}

/// Puts back the last entry and zeroes it.
fn put_back_last(image: &mut [u8], journal: &mut [u8]) {
    let last = entries(journal) - 1;
    let cell = get16(entry(journal, last), 0) as usize;
    let old: [u8; CELL] = get(entry(journal, last), 8);
    put(image, CELL * cell, &old);
    journal[ENTRY * (1 + last)..ENTRY * (2 + last)].fill(0);
    set_counts(journal, calls(journal), last);
}

/// 36 already open.
pub fn begin(journal: &mut [u8]) -> u32 {
    if is_open(journal) {
        return 36;
    }
    journal[0] = 1;
    0
}

/// 35 none open.
pub fn commit(journal: &mut [u8]) -> u32 {
    if !is_open(journal) {
        return 35;
    }
    journal.fill(0);
    0
}

/// 35 none open.
pub fn rollback(image: &mut [u8], journal: &mut [u8]) -> u32 {
    if !is_open(journal) {
        return 35;
    }
    while entries(journal) > 0 {
        put_back_last(image, journal);
    }
    journal.fill(0);
    0
}

/// 35 none open, 37 no call.
pub fn undo(image: &mut [u8], journal: &mut [u8]) -> u32 {
    if !is_open(journal) {
        return 35;
    }
    let calls = calls(journal);
    if calls == 0 {
        return 37;
    }
    while entries(journal) > 0 && get16(entry(journal, entries(journal) - 1), 2) as usize == calls {
        put_back_last(image, journal);
    }
    set_counts(journal, calls - 1, entries(journal));
    0
}
