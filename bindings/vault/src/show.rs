//! `vault show`: an image and a journal as tables.
use crate::arguments::Arguments;
use crate::calls::Vault;
use crate::failure::{End, Failure};
use crate::files::{Files, Missing};
use crate::places;
use crate::table::{Side, Table};
use crate::times::{moment, span};
use std::io::Write;
use token_vault::layout::IMAGE_LENGTH;
use token_vault::{Address, ImageView, JournalView, Record, Refusal, TokenState, TrackedKey, ADDRESSES, VAULT_ADDRESS};

pub fn command(mut arguments: Arguments, out: &mut dyn Write) -> Result<End, Failure> {
    let journal = arguments.take_value("journal")?;
    arguments.nothing_left("show")?;
    let words = arguments.words("show", &["IMAGE"], 1)?;
    let (_, vault) = Files::open(&words[0], journal.as_deref(), Missing::Fails)?;
    if let Some(refusal) = refusal(&vault) {
        writeln!(out, "refused: {refusal}{}", wrong_length(&vault, refusal))?;
        return Ok(End::Refused);
    }
    if let Some(view) = vault.image.view() {
        image(&view, out)?;
    }
    if let Some(view) = vault.journal.as_ref().and_then(|journal| journal.view()) {
        show_journal(&view, out)?;
    }
    Ok(End::Done)
}

/// 30 or 31, where image or journal is not good: asked by a view on a copy.
fn refusal(vault: &Vault) -> Option<Refusal> {
    let mut copy = vault.clone();
    let answer = match &mut copy.journal {
        Some(journal) => copy.image.call_in(journal, &Record::balance()),
        None => copy.image.call(&Record::balance()),
    };
    answer.err().filter(|refusal| [Refusal::InvalidImage, Refusal::InvalidJournal].contains(refusal))
}

fn wrong_length(vault: &Vault, refusal: Refusal) -> String {
    let bytes = vault.image.as_bytes().len();
    match refusal {
        Refusal::InvalidImage if bytes != IMAGE_LENGTH => format!(" It has {bytes} bytes, not {IMAGE_LENGTH}."),
        Refusal::InvalidJournal => match &vault.journal {
            Some(journal) if journal.view().is_none() => {
                format!(" It has {} bytes, not 24 + 24 k for k entries, k from 1 to 2,000.", journal.as_bytes().len())
            }
            _ => String::new(),
        },
        _ => String::new(),
    }
}

fn image(view: &ImageView, out: &mut dyn Write) -> Result<(), Failure> {
    section("settings", &settings(view), out)?;
    section("handover", &handover(view), out)?;
    section("migration", &migration(view), out)?;
    section("tokens", &tokens(view), out)?;
    let others = other_addresses(view);
    if !others.is_empty() {
        section("approvals and caps of addresses that are no token here", &others, out)?;
    }
    section("balances", &balances(view), out)?;
    section("tracked keys", &tracked_keys(view), out)
}

/// A heading with its table, or with the word `none`.
fn section(heading: &str, table: &Table, out: &mut dyn Write) -> Result<(), Failure> {
    if table.is_empty() {
        writeln!(out, "{heading}: none")?;
        return Ok(());
    }
    writeln!(out, "{heading}")?;
    for line in table.lines() {
        writeln!(out, "{line}")?;
    }
    Ok(())
}

fn yes(is_so: bool) -> String {
    if is_so { "yes" } else { "no" }.to_string()
}

fn or_none(value: Option<impl ToString>) -> String {
    value.map_or("none".to_string(), |value| value.to_string())
}

fn settings(view: &ImageView) -> Table {
    let mut table = Table::pairs();
    table.pair("initialised", yes(view.is_initialized()));
    table.pair("paused", yes(view.is_paused()));
    table.pair("owner", or_none(view.owner()));
    table.pair("operator", or_none(view.operator()));
    table.pair("default token", or_none(view.default_token()));
    table.pair("vault limit", or_none(view.vault_limit()));
    table.pair("operator limit", or_none(view.operator_limit()));
    table.pair("time to live of proposals", or_none(view.is_initialized().then(|| span(view.proposal_ttl()))));
    table
}

/// A proposal lapses once the time to live that is stored now has passed since it was made.
fn handover(view: &ImageView) -> Table {
    let mut table = Table::pairs();
    if let Some(handover) = view.handover() {
        table.pair("new owner", handover.new_owner);
        table.pair("proposed by", handover.proposer);
        table.pair("proposed at", moment(handover.proposed_at));
        let lapses = handover.proposed_at.checked_add(view.proposal_ttl());
        table.pair("lapses at", lapses.map_or("a time above 2^64 - 1".to_string(), moment));
    }
    table
}

fn migration(view: &ImageView) -> Table {
    let mut table = Table::pairs();
    if let Some(migration) = view.migration() {
        table.pair("destination", migration.destination);
        table.pair("proposed at", moment(migration.proposed_at));
        table.pair("executable at", moment(migration.executable_at));
    }
    table
}

fn tokens(view: &ImageView) -> Table {
    let right = ["token", "toll", "cap", "vault's holding"];
    let names = ["token", "state", "toll", "approved", "cap", "vault's holding", "snapshot"];
    let mut table = Table::new(&names.map(|name| (name, if right.contains(&name) { Side::Right } else { Side::Left })));
    for (address, token) in view.tokens() {
        let state = if token.state == TokenState::Moving { "moving" } else { "frozen" };
        let snapshot = view.snapshot(address).map(|snapshot| format!("{} at sequence {}", snapshot.holding, snapshot.ledger_sequence));
        table.row(vec![
            address.to_string(),
            state.to_string(),
            token.toll.to_string(),
            yes(view.is_approved(address)),
            or_none(view.cap(address)),
            view.holding(address, VAULT_ADDRESS).to_string(),
            or_none(snapshot),
        ]);
    }
    table
}

/// A cap can be set, and an approval stand, for an address that is no token.
fn other_addresses(view: &ImageView) -> Table {
    let mut table = Table::new(&[("address", Side::Right), ("approved", Side::Left), ("cap", Side::Right)]);
    let is_shown = |address: Address| view.token(address).is_none() && (view.is_approved(address) || view.cap(address).is_some());
    for address in (0..ADDRESSES).filter(|address| is_shown(*address)) {
        table.row(vec![address.to_string(), yes(view.is_approved(address)), or_none(view.cap(address))]);
    }
    table
}

fn balances(view: &ImageView) -> Table {
    let mut table = Table::new(&["token", "account", "holding", "credit"].map(|name| (name, Side::Right)));
    for (token, _) in view.tokens() {
        for account in 0..ADDRESSES {
            let (holding, credit) = (view.holding(token, account), view.credit(token, account));
            if holding != 0 || credit != 0 {
                table.row([token.into(), account.into(), holding, credit].iter().map(i128::to_string).collect());
            }
        }
    }
    table
}

fn tracked_keys(view: &ImageView) -> Table {
    let mut table = Table::new(&[("", Side::Left)]);
    for key in view.tracked_keys() {
        table.row(vec![match key {
            TrackedKey::Credit { token, account } => format!("credit of token {token}, account {account}"),
            TrackedKey::Cap { address } => format!("cap of address {address}"),
        }]);
    }
    table
}

fn show_journal(view: &JournalView, out: &mut dyn Write) -> Result<(), Failure> {
    let mut head = Table::pairs();
    head.pair("state", if view.is_open() { "open" } else { "closed" });
    head.pair("calls", view.calls());
    head.pair("entries", format!("{} of {}", view.entries(), view.capacity()));
    section("journal", &head, out)?;
    section("entries", &entries(view), out)
}

fn entries(view: &JournalView) -> Table {
    let mut table = Table::new(&[("call", Side::Right), ("cell", Side::Right), ("before", Side::Right), ("place", Side::Left)]);
    for entry in (0..view.entries()).filter_map(|i| view.entry(i)) {
        let before = match places::is_amount(entry.cell) {
            true => i128::from_le_bytes(entry.old).to_string(),
            false => entry.old.iter().map(|byte| format!("{byte:02x}")).collect(),
        };
        table.row(vec![entry.call.to_string(), entry.cell.to_string(), before, places::name(entry.cell)]);
    }
    table
}
