//! The names and numbers of the C header and of docs/FORMATS.md are those of the crate, and so are the header's functions.
use std::collections::BTreeMap;
use std::fs;
use token_vault::layout::{self, event, image, journal, record};
use token_vault::{Event, Operation, Refusal, ADDRESSES, FIRST_TOKEN, VAULT_ADDRESS, VERSION, ZERO_ADDRESS};

fn read(path: &str) -> String {
    let path = format!("{}/{path}", env!("CARGO_MANIFEST_DIR"));
    fs::read_to_string(&path).unwrap_or_else(|error| panic!("{path}: {error}"))
}

fn header() -> String {
    read("../include/token_vault.h")
}

fn formats() -> String {
    read("../../docs/FORMATS.md")
}

/// LimitExceeded as LIMIT_EXCEEDED.
fn screaming(name: &str) -> String {
    let separate = |(i, c): (usize, char)| if i > 0 && c.is_uppercase() { format!("_{c}") } else { c.to_string() };
    name.char_indices().map(separate).collect::<String>().to_uppercase()
}

fn lengths() -> Vec<(&'static str, usize)> {
    vec![
        ("IMAGE_LENGTH", layout::IMAGE_LENGTH),
        ("RECORD_LENGTH", layout::RECORD_LENGTH),
        ("EVENTS_LENGTH", layout::EVENTS_LENGTH),
        ("EVENT_LENGTH", layout::EVENT_LENGTH),
        ("EVENTS_MAX", layout::EVENTS_MAX),
        ("ITEMS_MAX", layout::ITEMS_MAX),
        ("JOURNAL_LENGTH_MIN", layout::JOURNAL_LENGTH_MIN),
        ("JOURNAL_LENGTH_MAX", layout::JOURNAL_LENGTH_MAX),
        ("JOURNAL_ENTRY_LENGTH", layout::JOURNAL_ENTRY_LENGTH),
        ("JOURNAL_ENTRIES_MAX", layout::JOURNAL_ENTRIES_MAX),
        ("JOURNAL_CALLS_MAX", layout::JOURNAL_CALLS_MAX),
        ("CELL_LENGTH", layout::CELL_LENGTH),
        ("CELLS", layout::CELLS),
        ("TRACKED_KEYS_MAX", layout::TRACKED_KEYS_MAX),
        ("TRACKED_KEY_CAPS", layout::TRACKED_KEY_CAPS),
        ("ADDRESSES", ADDRESSES.into()),
        ("ZERO_ADDRESS", ZERO_ADDRESS.into()),
        ("VAULT_ADDRESS", VAULT_ADDRESS.into()),
        ("FIRST_TOKEN", FIRST_TOKEN.into()),
        ("DONE", 0),
    ]
}

fn places_of_records_and_events() -> Vec<(&'static str, usize)> {
    vec![
        ("RECORD_AT_OPERATION", record::OPERATION),
        ("RECORD_AT_CALLER", record::CALLER),
        ("RECORD_AT_TOKEN", record::TOKEN),
        ("RECORD_AT_OTHER", record::OTHER),
        ("RECORD_AT_FLAG", record::FLAG),
        ("RECORD_AT_ITEM_COUNT", record::ITEM_COUNT),
        ("RECORD_AT_TIMESTAMP", record::TIMESTAMP),
        ("RECORD_AT_LEDGER_SEQUENCE", record::LEDGER_SEQUENCE),
        ("RECORD_AT_SIGNERS", record::SIGNERS),
        ("RECORD_AT_AMOUNT", record::AMOUNT),
        ("RECORD_AT_SECONDS", record::SECONDS),
        ("RECORD_AT_FEE", record::FEE),
        ("RECORD_AT_ITEMS", record::ITEMS),
        ("ITEM_STRIDE", record::ITEM_STRIDE),
        ("ITEM_AT_ADDRESS", record::ITEM_ADDRESS),
        ("ITEM_AT_AMOUNT", record::ITEM_AMOUNT),
        ("EVENT_AT_KIND", event::KIND),
        ("EVENT_AT_FIRST", event::FIRST),
        ("EVENT_AT_SECOND", event::SECOND),
        ("EVENT_AT_YES", event::YES),
        ("EVENT_AT_NUMBER0", event::NUMBER0),
        ("EVENT_AT_NUMBER1", event::NUMBER1),
        ("EVENT_AT_NUMBER2", event::NUMBER2),
    ]
}

fn places_of_the_image_head() -> Vec<(&'static str, usize)> {
    vec![
        ("IMAGE_AT_FLAGS", image::FLAGS),
        ("FLAG_INITIALIZED", image::FLAG_INITIALIZED.into()),
        ("FLAG_PAUSED", image::FLAG_PAUSED.into()),
        ("FLAG_OPERATOR", image::FLAG_OPERATOR.into()),
        ("FLAG_OPERATOR_LIMIT", image::FLAG_OPERATOR_LIMIT.into()),
        ("FLAG_PENDING_OWNER", image::FLAG_PENDING_OWNER.into()),
        ("FLAG_MIGRATION", image::FLAG_MIGRATION.into()),
        ("IMAGE_AT_OWNER", image::OWNER),
        ("IMAGE_AT_TOKEN", image::TOKEN),
        ("IMAGE_AT_OPERATOR", image::OPERATOR),
        ("IMAGE_AT_PENDING_OWNER", image::PENDING_OWNER),
        ("IMAGE_AT_PROPOSER", image::PROPOSER),
        ("IMAGE_AT_DESTINATION", image::DESTINATION),
        ("IMAGE_AT_VAULT_LIMIT", image::VAULT_LIMIT),
        ("IMAGE_AT_OPERATOR_LIMIT", image::OPERATOR_LIMIT),
        ("IMAGE_AT_PROPOSED_AT", image::PROPOSED_AT),
        ("IMAGE_AT_PROPOSAL_TTL", image::PROPOSAL_TTL),
        ("IMAGE_AT_MIGRATION_PROPOSED_AT", image::MIGRATION_PROPOSED_AT),
        ("IMAGE_AT_EXECUTABLE_AT", image::EXECUTABLE_AT),
        ("IMAGE_AT_APPROVED", image::APPROVED),
        ("IMAGE_AT_CAPPED", image::CAPPED),
        ("IMAGE_AT_TRACKED_COUNT", image::TRACKED_COUNT),
    ]
}

fn places_of_the_image_tables() -> Vec<(&'static str, usize)> {
    vec![
        ("IMAGE_AT_CAPS", image::CAPS),
        ("CAP_STRIDE", image::CAP_STRIDE),
        ("IMAGE_AT_SNAPSHOTS", image::SNAPSHOTS),
        ("SNAPSHOT_STRIDE", image::SNAPSHOT_STRIDE),
        ("SNAPSHOT_AT_PRESENT", image::SNAPSHOT_PRESENT),
        ("SNAPSHOT_AT_LEDGER_SEQUENCE", image::SNAPSHOT_LEDGER_SEQUENCE),
        ("SNAPSHOT_AT_HOLDING", image::SNAPSHOT_HOLDING),
        ("IMAGE_AT_TRACKED_KEYS", image::TRACKED_KEYS),
        ("TRACKED_KEY_STRIDE", image::TRACKED_KEY_STRIDE),
        ("IMAGE_AT_TOKENS", image::TOKENS),
        ("TOKEN_STRIDE", image::TOKEN_STRIDE),
        ("TOKEN_AT_STATE", image::TOKEN_STATE),
        ("TOKEN_ABSENT", image::TOKEN_ABSENT.into()),
        ("TOKEN_MOVING", image::TOKEN_MOVING.into()),
        ("TOKEN_FROZEN", image::TOKEN_FROZEN.into()),
        ("TOKEN_AT_TOLL", image::TOKEN_TOLL),
        ("IMAGE_AT_HOLDINGS", image::HOLDINGS),
        ("IMAGE_AT_CREDITS", image::CREDITS),
        ("ACCOUNTS_STRIDE", image::ACCOUNTS_STRIDE),
        ("ACCOUNT_STRIDE", image::ACCOUNT_STRIDE),
    ]
}

fn places_of_the_journal() -> Vec<(&'static str, usize)> {
    vec![
        ("JOURNAL_AT_OPEN", journal::OPEN),
        ("JOURNAL_AT_CALLS", journal::CALLS),
        ("JOURNAL_AT_ENTRIES", journal::ENTRIES),
        ("JOURNAL_AT_FIRST_ENTRY", journal::FIRST_ENTRY),
        ("ENTRY_AT_CELL", journal::ENTRY_CELL),
        ("ENTRY_AT_CALL", journal::ENTRY_CALL),
        ("ENTRY_AT_OLD", journal::ENTRY_OLD),
    ]
}

fn numbers_with_names() -> Vec<(String, usize)> {
    let operations = Operation::ALL.iter().map(|o| (format!("OP_{}", o.name().to_uppercase()), o.number().into()));
    let refusals = Refusal::ALL.iter().map(|r| (format!("REFUSAL_{}", screaming(r.name())), r.number() as usize));
    let kinds = Event::NAMES.iter().zip(1..).map(|(name, kind)| (format!("EVENT_{}", name.to_uppercase()), kind));
    operations.chain(refusals).chain(kinds).collect()
}

/// Every name of the crate with its number, as the header has to define it.
fn expected() -> BTreeMap<String, String> {
    let places =
        [lengths(), places_of_records_and_events(), places_of_the_image_head(), places_of_the_image_tables(), places_of_the_journal()];
    let named = places.concat().into_iter().map(|(name, number)| (name.to_string(), number));
    let numbers = named.chain(numbers_with_names());
    let mut expected: BTreeMap<_, _> = numbers.map(|(name, number)| (format!("TOKEN_VAULT_{name}"), number.to_string())).collect();
    expected.insert("TOKEN_VAULT_VERSION".to_string(), format!("\"{VERSION}\""));
    expected
}

#[test]
fn defines_of_the_header() {
    let mut found = BTreeMap::new();
    for line in header().lines() {
        let words: Vec<&str> = line.split_whitespace().collect();
        if let ["#define", name, value, ..] = words[..] {
            assert_eq!(found.insert(name.to_string(), value.to_string()), None, "{name} is defined twice");
        }
    }
    let expected = expected();
    let names = found.keys().chain(expected.keys()).filter(|name| found.get(*name) != expected.get(*name));
    let differing: Vec<_> = names.map(|name| (name, found.get(name), expected.get(name))).collect();
    assert!(differing.is_empty(), "name, found, expected: {differing:?}");
}

#[test]
fn refusals_of_the_header() {
    let header: Vec<String> = header().lines().map(|line| line.split_whitespace().collect::<Vec<_>>().join(" ")).collect();
    let has = |line: String| assert!(header.contains(&line), "the header has no line: {line}");
    for refusal in Refusal::ALL {
        let constant = format!("TOKEN_VAULT_REFUSAL_{}", screaming(refusal.name()));
        has(format!("#define {constant} {} /* {} */", refusal.number(), refusal.sentence()));
        has(format!("case {constant}: return \"{}\";", refusal.name()));
        has(format!("return \"{}\";", refusal.sentence()));
    }
}

/// A parameter of the header as the crate declares it.
fn declared(parameter: &str) -> String {
    // What stands before the name, and what behind it.
    let types = [
        ("const uint8_t ", "[16]", "*const [u8; 16]"),
        ("uint8_t ", "[16]", "*mut [u8; 16]"),
        ("const uint8_t *", "", "*const u8"),
        ("uint8_t *", "", "*mut u8"),
        ("uint32_t *", "", "*mut u32"),
        ("uint64_t *", "", "*mut u64"),
        ("uint8_t ", "", "u8"),
        ("uint64_t ", "", "u64"),
        ("size_t ", "", "usize"),
    ];
    let name = |before: &str, behind: &str| parameter.strip_prefix(before)?.strip_suffix(behind);
    let found = types.iter().find_map(|(before, behind, in_rust)| Some(format!("{}: {in_rust}", name(before, behind)?)));
    found.unwrap_or_else(|| panic!("a parameter of another type: {parameter}"))
}

/// The functions that stand behind a mark, each with its parameters.
fn functions(text: &str, mark: &str) -> BTreeMap<String, Vec<String>> {
    let signatures = text.split(mark).skip(1).filter_map(|rest| rest.split_once(')')?.0.split_once('('));
    let parameters = |list: &str| list.split(',').map(|parameter| parameter.trim().to_string()).filter(|p| !p.is_empty()).collect();
    signatures.map(|(name, list)| (name.to_string(), parameters(list))).collect()
}

#[test]
fn functions_of_the_header() {
    let in_c = functions(&header(), "\nuint32_t token_vault_");
    let in_rust = functions(&read("src/exports.rs"), "pub fn token_vault_");
    assert_eq!(in_c.len(), 9);
    let in_c = in_c.into_iter().map(|(name, parameters)| (name, parameters.iter().map(|p| declared(p)).collect()));
    assert_eq!(in_c.collect::<BTreeMap<_, _>>(), in_rust);
}

/// A text in which each link, `[words](place)`, is its words.
fn without_links(text: &str) -> String {
    let parts = text.split("](").enumerate();
    let words = parts.map(|(i, part)| if i > 0 { part.split_once(')').expect("the end of a link").1 } else { part });
    words.collect::<String>().replace('[', "")
}

#[test]
fn rows_of_the_formats() {
    let formats = without_links(&formats());
    let has = |row: String| assert!(formats.lines().any(|line| line.starts_with(&row)), "FORMATS.md has no row: {row}");
    for refusal in Refusal::ALL {
        has(format!("| {} | `{}` | {} |", refusal.number(), refusal.name(), refusal.sentence()));
    }
    for operation in Operation::ALL {
        has(format!("| {} | `{}` |", operation.number(), operation.name()));
    }
    for (name, kind) in Event::NAMES.iter().zip(1..) {
        has(format!("| {kind} | `{name}` |"));
    }
}

#[test]
fn operations_by_number_and_name() {
    for (operation, number) in Operation::ALL.into_iter().zip(1..) {
        assert_eq!(operation.number(), number);
        assert_eq!(Operation::from_number(number), Some(operation));
        assert_eq!(Operation::from_name(operation.name()), Some(operation));
        assert_eq!(operation.is_view(), (24..=28).contains(&number));
        assert_eq!(operation.to_string(), operation.name());
    }
    assert_eq!((Operation::from_number(0), Operation::from_number(31)), (None, None));
    assert_eq!(Operation::from_name("upgrade"), None);
}
