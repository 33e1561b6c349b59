//! The image of 36,832 bytes: its places, and which images are good.
use crate::bytes::{amount, get16, get32, get64, zero};

pub const LENGTH: usize = 36_832;
pub const CELL: usize = 16;
pub const CELLS: usize = LENGTH / CELL;
pub const TRACKED: usize = 1_088;

pub fn cap_at(address: usize) -> usize {
    96 + 16 * address
}

pub fn snapshot_at(token: usize) -> usize {
    1120 + 24 * (token - 48)
}

pub fn token_at(token: usize) -> usize {
    3680 + 24 * (token - 48)
}

pub fn toll_at(token: usize) -> usize {
    token_at(token) + 8
}

pub fn holding_at(token: usize, account: usize) -> usize {
    4064 + 1024 * (token - 48) + 16 * account
}

pub fn credit_at(token: usize, account: usize) -> usize {
    20448 + 1024 * (token - 48) + 16 * account
}

pub fn flag(image: &[u8], bit: u32) -> bool {
    get16(image, 0) >> bit & 1 == 1
}

pub fn kind(image: &[u8], token: usize) -> u8 {
    if (48..64).contains(&token) {
        image[token_at(token)]
    } else {
        0
    }
}

pub fn good(image: &[u8]) -> bool {
    image.len() == LENGTH && good_head(image) && good_caps(image) && good_keys(image) && (48..64).all(|t| good_token(image, t))
}

fn good_head(image: &[u8]) -> bool {
    if get16(image, 0) >= 64 {
        return false;
    }
    if !flag(image, 0) {
        return zero(&image[..3680]);
    }
    let missing = |bit: u32, fields: &[(usize, usize)]| flag(image, bit) || fields.iter().all(|(from, to)| zero(&image[*from..*to]));
    image[2..8].iter().all(|a| *a < 64)
        && amount(image, 8) > 0
        && get64(image, 48) > 0
        && kind(image, image[3] as usize) != 0
        && missing(2, &[(4, 5)])
        && missing(3, &[(24, 40)])
        && (!flag(image, 3) || amount(image, 24) > 0)
        && missing(4, &[(5, 7), (40, 48)])
        && missing(5, &[(7, 8), (56, 72)])
}

fn good_caps(image: &[u8]) -> bool {
    (0..64).all(|a| {
        let cap = amount(image, cap_at(a));
        if get64(image, 80) >> a & 1 == 1 {
            cap > 0
        } else {
            cap == 0
        }
    })
}

fn good_keys(image: &[u8]) -> bool {
    let count = get16(image, 88) as usize;
    if !zero(&image[90..96]) || count > TRACKED || !zero(&image[1504 + 2 * count..3680]) {
        return false;
    }
    let mut seen = [false; TRACKED];
    (0..count).all(|i| {
        let key = get16(image, 1504 + 2 * i) as usize;
        key < TRACKED && !std::mem::replace(&mut seen[key], true)
    })
}

fn good_token(image: &[u8], token: usize) -> bool {
    let at = snapshot_at(token);
    let present = get32(image, at);
    if present > 1 || (present == 0 && !zero(&image[at + 4..at + 24])) {
        return false;
    }
    let at = token_at(token);
    if image[at] > 2 || !zero(&image[at + 1..at + 8]) {
        return false;
    }
    let holdings = &image[holding_at(token, 0)..holding_at(token, 0) + 1024];
    let credits = &image[credit_at(token, 0)..credit_at(token, 0) + 1024];
    if image[at] == 0 {
        return present == 0 && amount(image, toll_at(token)) == 0 && zero(holdings) && zero(credits);
    }
    let not_negative = |amounts: &[u8]| amounts.chunks(16).all(|a| a[15] < 128);
    amount(image, toll_at(token)) >= 0 && not_negative(holdings) && not_negative(credits)
}
