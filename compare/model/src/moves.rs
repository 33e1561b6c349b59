//! Operations 29, the outside move, and 30, freeze and thaw.
use crate::bytes::{amount, put};
use crate::image::{holding_at, kind, token_at, toll_at};

/// A transfer (docs/FORMATS.md, "Tokens and transfers"); a failed one changes nothing.
pub fn transfer(image: &mut [u8], token: usize, from: usize, to: usize, moved: i128) -> bool {
    if kind(image, token) != 1 {
        return false;
    }
    let sender = amount(image, holding_at(token, from));
    if sender < moved {
        return false;
    }
    let received = (moved - amount(image, toll_at(token))).max(0);
    let held = if to == from { sender - moved } else { amount(image, holding_at(token, to)) };
    let Some(after) = held.checked_add(received) else {
        return false;
    };
    put(image, holding_at(token, from), &(sender - moved).to_le_bytes());
    put(image, holding_at(token, to), &after.to_le_bytes());
    true
}

/// Operation 29 or 30; a refused one changes nothing.
pub fn operation(image: &mut [u8], record: &[u8]) -> u32 {
    if record[0] == 29 {
        outside_move(image, record)
    } else {
        freeze(image, record)
    }
}

/// 14 sender is 1; 4; 23.
fn outside_move(image: &mut [u8], record: &[u8]) -> u32 {
    let moved = amount(record, 32);
    if record[1] == 1 {
        14
    } else if moved <= 0 {
        4
    } else if !transfer(image, record[2] as usize, record[1] as usize, record[3] as usize, moved) {
        23
    } else {
        0
    }
}

/// 14 token absent.
fn freeze(image: &mut [u8], record: &[u8]) -> u32 {
    let token = record[2] as usize;
    if kind(image, token) == 0 {
        return 14;
    }
    image[token_at(token)] = 1 + record[4];
    0
}
