//! `vault new`: an image before initialisation, with its tokens and opening holdings.
use crate::arguments::{Arguments, Given};
use crate::failure::{End, Failure};
use crate::files;
use crate::numbers::{self, counted};
use std::io::Write;
use std::path::Path;
use token_vault::{Address, Image, FIRST_TOKEN};

pub fn command(mut arguments: Arguments, out: &mut dyn Write) -> Result<End, Failure> {
    let tokens = arguments.take_all(&["token"]);
    let holdings = arguments.take_all(&["holding"]);
    let is_forced = arguments.take_switch("force");
    arguments.nothing_left("new")?;
    let words = arguments.words("new", &["IMAGE"], 1)?;
    let image = image(&tokens, &holdings)?;
    if !is_forced && Path::new(&words[0]).exists() {
        return Err(Failure::Usage(format!("{} is there already (--force replaces it)", words[0])));
    }
    files::write(&words[0], image.as_bytes())?;
    writeln!(out, "new image: {}, {}", counted(tokens.len(), "token"), counted(holdings.len(), "opening holding"))?;
    Ok(End::Done)
}

fn image(tokens: &[Given], holdings: &[Given]) -> Result<Image, String> {
    if tokens.is_empty() {
        return Err("new needs --token (vault new --help)".to_string());
    }
    let mut image = Image::new();
    for given in tokens {
        given.read(|text| add_token(&mut image, text))?;
    }
    for given in holdings {
        given.read(|text| add_holding(&mut image, text))?;
    }
    match image.is_good() {
        true => Ok(image),
        false => Err("the image would not be good (30 InvalidImage)".to_string()),
    }
}

/// `TOKEN` or `TOKEN:toll=AMOUNT`.
fn add_token(image: &mut Image, text: &str) -> Result<(), String> {
    let (token, toll) = match text.split_once(':') {
        None => (token(text)?, 0),
        Some((before, after)) => (token(before)?, toll(text, after)?),
    };
    if is_present(image, token) {
        return Err(format!("token {token} is given twice"));
    }
    image.add_token(token, toll).map_err(|error| error.to_string())
}

fn token(text: &str) -> Result<Address, String> {
    match numbers::address(text)? {
        token if token >= FIRST_TOKEN => Ok(token),
        _ => Err(format!("'{text}' is out of range: a token is from 48 to 63")),
    }
}

fn toll(text: &str, after: &str) -> Result<i128, String> {
    let digits = after.strip_prefix("toll=").ok_or(format!("'{text}' is not TOKEN or TOKEN:toll=AMOUNT"))?;
    not_below_0(digits, "a toll")
}

fn not_below_0(text: &str, what: &str) -> Result<i128, String> {
    match numbers::amount(text)? {
        n if n >= 0 => Ok(n),
        _ => Err(format!("'{text}' is out of range: {what} is not below 0")),
    }
}

fn is_present(image: &Image, token: Address) -> bool {
    image.view().is_some_and(|view| view.token(token).is_some())
}

/// `TOKEN:ACCOUNT=AMOUNT`.
fn add_holding(image: &mut Image, text: &str) -> Result<(), String> {
    let parts = text.split_once(':').and_then(|(token, rest)| Some((token, rest.split_once('=')?)));
    let (before, (account, amount)) = parts.ok_or(format!("'{text}' is not TOKEN:ACCOUNT=AMOUNT"))?;
    let (token, account, amount) = (token(before)?, numbers::address(account)?, not_below_0(amount, "a holding")?);
    if !is_present(image, token) {
        return Err(format!("there is no --token {token}"));
    }
    if image.view().is_some_and(|view| view.holding(token, account) != 0) {
        return Err(format!("the holding of token {token}, account {account} is given twice"));
    }
    image.set_holding(token, account, amount).map_err(|error| error.to_string())
}
