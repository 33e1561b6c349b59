//! What a cell of the image holds, in words.
use token_vault::layout::image as at;
use token_vault::layout::CELL_LENGTH;
use token_vault::{ADDRESSES, FIRST_TOKEN};

const HEAD: [&str; 6] = [
    "flags, owner, default token, operator, new owner, proposer, destination; vault limit, low half",
    "vault limit, high half; operator limit, low half",
    "operator limit, high half; time of the proposal",
    "time to live of proposals; time of the migration's proposal",
    "time from which the migration can be executed; approved addresses",
    "capped addresses; number of tracked keys",
];

/// The name of what stands in a cell.
pub fn name(cell: u16) -> String {
    let place = CELL_LENGTH * usize::from(cell);
    match place {
        0..at::CAPS => HEAD[usize::from(cell)].to_string(),
        at::CAPS..at::SNAPSHOTS => format!("cap of address {}", (place - at::CAPS) / at::CAP_STRIDE),
        at::SNAPSHOTS..at::TRACKED_KEYS => of_tokens("snapshot", place - at::SNAPSHOTS, at::SNAPSHOT_STRIDE),
        at::TRACKED_KEYS..at::TOKENS => tracked_keys(place - at::TRACKED_KEYS),
        at::TOKENS..at::HOLDINGS => of_tokens("state and toll", place - at::TOKENS, at::TOKEN_STRIDE),
        at::HOLDINGS..at::CREDITS => of_account("holding", place - at::HOLDINGS),
        _ => of_account("credit", place - at::CREDITS),
    }
}

/// Whether a cell is one amount.
pub fn is_amount(cell: u16) -> bool {
    let place = CELL_LENGTH * usize::from(cell);
    (at::CAPS..at::SNAPSHOTS).contains(&place) || place >= at::HOLDINGS
}

/// A cell may hold the end of one token's entry and the start of the next.
fn of_tokens(what: &str, place: usize, stride: usize) -> String {
    let first = usize::from(FIRST_TOKEN) + place / stride;
    let last = usize::from(FIRST_TOKEN) + (place + CELL_LENGTH - 1) / stride;
    match first == last {
        true => format!("{what} of token {first}"),
        false => format!("{what} of tokens {first} and {last}"),
    }
}

fn tracked_keys(place: usize) -> String {
    let first = place / at::TRACKED_KEY_STRIDE + 1;
    format!("tracked keys {first} to {}", first + CELL_LENGTH / at::TRACKED_KEY_STRIDE - 1)
}

fn of_account(what: &str, place: usize) -> String {
    let (row, rest) = (place / at::ACCOUNTS_STRIDE, place % at::ACCOUNTS_STRIDE);
    let token = usize::from(FIRST_TOKEN) + row;
    if token >= usize::from(ADDRESSES) {
        return "outside the image".to_string();
    }
    format!("{what} of token {token}, account {}", rest / at::ACCOUNT_STRIDE)
}

#[cfg(test)]
mod tests {
    use super::*;
    use token_vault::layout::CELLS;

    #[test]
    fn ends_of_regions() {
        assert_eq!(name(5), HEAD[5]);
        assert_eq!(name(6), "cap of address 0");
        assert_eq!(name(69), "cap of address 63");
        assert_eq!(name(70), "snapshot of token 48");
        assert_eq!(name(71), "snapshot of tokens 48 and 49");
        assert_eq!(name(93), "snapshot of token 63");
        assert_eq!(name(94), "tracked keys 1 to 8");
        assert_eq!(name(229), "tracked keys 1081 to 1088");
        assert_eq!(name(230), "state and toll of token 48");
        assert_eq!(name(253), "state and toll of token 63");
        assert_eq!(name(255), "holding of token 48, account 1");
        assert_eq!(name(1277), "holding of token 63, account 63");
        assert_eq!(name(1278), "credit of token 48, account 0");
        assert_eq!(name(CELLS as u16 - 1), "credit of token 63, account 63");
        assert_eq!(name(u16::MAX), "outside the image");
        assert!(is_amount(6) && !is_amount(70) && !is_amount(253) && is_amount(254));
    }
}
