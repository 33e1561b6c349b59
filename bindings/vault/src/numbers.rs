//! Numbers as a person writes them: decimal digits, a sign, single underscores between digits.
use std::str::FromStr;
use token_vault::{Address, Item};

/// The sign and the digits alone.
fn plain(text: &str) -> Result<String, String> {
    let digits = text.strip_prefix(['-', '+']).unwrap_or(text);
    let groups_are_digits = digits.split('_').all(|group| !group.is_empty() && group.bytes().all(|b| b.is_ascii_digit()));
    if groups_are_digits {
        Ok(text.replace('_', ""))
    } else {
        Err(format!("'{text}' is not a whole number"))
    }
}

fn number<T: FromStr>(text: &str, range: &str) -> Result<T, String> {
    plain(text)?.parse().map_err(|_| format!("'{text}' is out of range: {range}"))
}

pub fn amount(text: &str) -> Result<i128, String> {
    number(text, "an amount is from -2^127 to 2^127 - 1")
}

pub fn seconds(text: &str) -> Result<u64, String> {
    number(text, "a time is from 0 to 2^64 - 1 seconds")
}

pub fn sequence(text: &str) -> Result<u32, String> {
    number(text, "a ledger sequence is from 0 to 2^32 - 1")
}

pub fn entries(text: &str) -> Result<usize, String> {
    let range = "a journal has from 1 to 2,000 entries";
    number(text, range).and_then(|n| if (1..=2000).contains(&n) { Ok(n) } else { Err(format!("'{text}' is out of range: {range}")) })
}

pub fn address(text: &str) -> Result<Address, String> {
    let range = "an address is from 0 to 63";
    number(text, range).and_then(|n| if n < token_vault::ADDRESSES { Ok(n) } else { Err(format!("'{text}' is out of range: {range}")) })
}

/// Addresses with commas between them, or `none`.
pub fn addresses(text: &str) -> Result<Vec<Address>, String> {
    match text {
        "none" => Ok(Vec::new()),
        _ => text.split(',').map(address).collect(),
    }
}

pub fn yes_or_no(text: &str) -> Result<bool, String> {
    match text {
        "yes" => Ok(true),
        "no" => Ok(false),
        _ => Err(format!("'{text}' is neither yes nor no")),
    }
}

/// `ADDRESS:AMOUNT`.
pub fn item(text: &str) -> Result<Item, String> {
    let (to, n) = text.split_once(':').ok_or(format!("'{text}' is not ADDRESS:AMOUNT"))?;
    Ok(Item { address: address(to)?, amount: amount(n)? })
}

/// `1 call`, `2 calls`.
pub fn counted(n: usize, what: &str) -> String {
    format!("{n} {what}{}", if n == 1 { "" } else { "s" })
}

#[cfg(test)]
mod tests {
    use super::*;

    #[test]
    fn amounts() {
        assert_eq!(amount("-1_000"), Ok(-1000));
        assert_eq!(amount("+7"), Ok(7));
        assert_eq!(amount("170141183460469231731687303715884105727"), Ok(i128::MAX));
        assert_eq!(amount("-170_141183460469231731687303715884105728"), Ok(i128::MIN));
        for text in ["", "-", "_1", "1_", "1__0", "1e3", "0x10", "1.5", " 1", "--1", "+-1", "١"] {
            assert_eq!(amount(text), Err(format!("'{text}' is not a whole number")));
        }
        for text in ["170141183460469231731687303715884105728", "-170141183460469231731687303715884105729"] {
            assert!(amount(text).unwrap_err().contains("out of range"));
        }
    }

    #[test]
    fn addresses_and_items() {
        assert_eq!(address("63"), Ok(63));
        assert!(address("64").is_err() && address("-1").is_err() && address("256").is_err());
        assert_eq!(addresses("none"), Ok(vec![]));
        assert_eq!(addresses("2,3"), Ok(vec![2, 3]));
        assert!(addresses("2,").is_err() && addresses("").is_err());
        assert_eq!(item("4:-40"), Ok(Item { address: 4, amount: -40 }));
        assert!(item("4").is_err() && item("4:").is_err());
    }
}
