//! Lengths and places of the fields of image, journal, record and events, as docs/FORMATS.md gives them.

/// Length of a good image.
pub const IMAGE_LENGTH: usize = 36_832;
/// Length of a record.
pub const RECORD_LENGTH: usize = 448;
/// Length of the event buffer.
pub const EVENTS_LENGTH: usize = 896;
/// Length of one event in the buffer.
pub const EVENT_LENGTH: usize = 56;
/// Most events that the buffer holds.
pub const EVENTS_MAX: usize = 16;
/// Most items of a record.
pub const ITEMS_MAX: usize = 16;
/// Length of the shortest journal: a head and one entry.
pub const JOURNAL_LENGTH_MIN: usize = 48;
/// Length of the longest journal: a head and 2,000 entries.
pub const JOURNAL_LENGTH_MAX: usize = 48_024;
/// Length of the journal's head and of each of its entries.
pub const JOURNAL_ENTRY_LENGTH: usize = 24;
/// Most entries that a journal has room for.
pub const JOURNAL_ENTRIES_MAX: usize = 2_000;
/// Most calls of one transaction.
pub const JOURNAL_CALLS_MAX: usize = 1_000;
/// Length of a cell: the image is a row of cells, and a journal entry keeps one.
pub const CELL_LENGTH: usize = 16;
/// How many cells an image has.
pub const CELLS: usize = 2_302;
/// Most tracked keys of an image.
pub const TRACKED_KEYS_MAX: usize = 1_088;
/// First tracked key that stands for a cap; those below stand for credits.
pub const TRACKED_KEY_CAPS: usize = 1_024;

/// Places in a record.
pub mod record {
    /// Number of the operation, 1 byte.
    pub const OPERATION: usize = 0;
    /// Address that calls, owns or deposits.
    pub const CALLER: usize = 1;
    /// Token.
    pub const TOKEN: usize = 2;
    /// Address that is paid, set as operator, proposed as owner or migrated to.
    pub const OTHER: usize = 3;
    /// Yes (1) or no (0).
    pub const FLAG: usize = 4;
    /// Number of items, 1 byte.
    pub const ITEM_COUNT: usize = 5;
    /// Time in seconds, 8 bytes.
    pub const TIMESTAMP: usize = 8;
    /// Ledger sequence, 4 bytes.
    pub const LEDGER_SEQUENCE: usize = 16;
    /// Signer set, 8 bytes: bit a is address a.
    pub const SIGNERS: usize = 24;
    /// Amount, 16 bytes.
    pub const AMOUNT: usize = 32;
    /// Time to live in seconds, 8 bytes, where the amount stands.
    pub const SECONDS: usize = 32;
    /// Fee, 16 bytes.
    pub const FEE: usize = 48;
    /// First item.
    pub const ITEMS: usize = 64;
    /// Bytes from one item to the next.
    pub const ITEM_STRIDE: usize = 24;
    /// Address within an item.
    pub const ITEM_ADDRESS: usize = 0;
    /// Amount within an item, 16 bytes.
    pub const ITEM_AMOUNT: usize = 8;
}

/// Places in an event.
pub mod event {
    /// Number of the kind, 1 byte.
    pub const KIND: usize = 0;
    /// First address.
    pub const FIRST: usize = 1;
    /// Second address.
    pub const SECOND: usize = 2;
    /// Yes (1) or no (0).
    pub const YES: usize = 3;
    /// First number, 16 bytes.
    pub const NUMBER0: usize = 8;
    /// Second number, 16 bytes.
    pub const NUMBER1: usize = 24;
    /// Third number, 16 bytes.
    pub const NUMBER2: usize = 40;
}

/// Places in an image.
pub mod image {
    /// Flags, 2 bytes.
    pub const FLAGS: usize = 0;
    /// Flag: the vault is initialised.
    pub const FLAG_INITIALIZED: u16 = 1;
    /// Flag: the vault is paused.
    pub const FLAG_PAUSED: u16 = 2;
    /// Flag: there is an operator.
    pub const FLAG_OPERATOR: u16 = 4;
    /// Flag: there is an operator limit.
    pub const FLAG_OPERATOR_LIMIT: u16 = 8;
    /// Flag: a new owner is proposed.
    pub const FLAG_PENDING_OWNER: u16 = 16;
    /// Flag: an emergency migration is under way.
    pub const FLAG_MIGRATION: u16 = 32;
    /// Owner.
    pub const OWNER: usize = 2;
    /// Default token.
    pub const TOKEN: usize = 3;
    /// Operator.
    pub const OPERATOR: usize = 4;
    /// Proposed owner.
    pub const PENDING_OWNER: usize = 5;
    /// Address that proposed the new owner.
    pub const PROPOSER: usize = 6;
    /// Destination of the emergency migration.
    pub const DESTINATION: usize = 7;
    /// Vault limit, 16 bytes.
    pub const VAULT_LIMIT: usize = 8;
    /// Operator limit, 16 bytes.
    pub const OPERATOR_LIMIT: usize = 24;
    /// Time of the proposal of a new owner, 8 bytes.
    pub const PROPOSED_AT: usize = 40;
    /// Time to live of a proposal, 8 bytes.
    pub const PROPOSAL_TTL: usize = 48;
    /// Time of the proposal of the emergency migration, 8 bytes.
    pub const MIGRATION_PROPOSED_AT: usize = 56;
    /// Time from which the emergency migration can be executed, 8 bytes.
    pub const EXECUTABLE_AT: usize = 64;
    /// Set of approved addresses, 8 bytes: bit a is address a.
    pub const APPROVED: usize = 72;
    /// Set of capped addresses, 8 bytes.
    pub const CAPPED: usize = 80;
    /// Number of tracked keys, 2 bytes.
    pub const TRACKED_COUNT: usize = 88;
    /// Caps, 64 by address, 16 bytes each.
    pub const CAPS: usize = 96;
    /// Bytes from one cap to the next.
    pub const CAP_STRIDE: usize = 16;
    /// Snapshots, 16 by token.
    pub const SNAPSHOTS: usize = 1_120;
    /// Bytes from one snapshot to the next.
    pub const SNAPSHOT_STRIDE: usize = 24;
    /// Present (1) or not (0), 4 bytes, within a snapshot.
    pub const SNAPSHOT_PRESENT: usize = 0;
    /// Ledger sequence, 4 bytes, within a snapshot.
    pub const SNAPSHOT_LEDGER_SEQUENCE: usize = 4;
    /// Holding, 16 bytes, within a snapshot.
    pub const SNAPSHOT_HOLDING: usize = 8;
    /// Tracked keys, 1,088 of 2 bytes.
    pub const TRACKED_KEYS: usize = 1_504;
    /// Bytes from one tracked key to the next.
    pub const TRACKED_KEY_STRIDE: usize = 2;
    /// Tokens, 16 from address 48.
    pub const TOKENS: usize = 3_680;
    /// Bytes from one token to the next.
    pub const TOKEN_STRIDE: usize = 24;
    /// State of a token, 1 byte.
    pub const TOKEN_STATE: usize = 0;
    /// State: there is no such token.
    pub const TOKEN_ABSENT: u8 = 0;
    /// State: transfers are made.
    pub const TOKEN_MOVING: u8 = 1;
    /// State: every transfer fails.
    pub const TOKEN_FROZEN: u8 = 2;
    /// Toll of a token, 16 bytes.
    pub const TOKEN_TOLL: usize = 8;
    /// Holdings, token by token, 64 accounts each, 16 bytes an account.
    pub const HOLDINGS: usize = 4_064;
    /// Credits, laid out as the holdings.
    pub const CREDITS: usize = 20_448;
    /// Bytes from one token's holdings or credits to the next.
    pub const ACCOUNTS_STRIDE: usize = 1_024;
    /// Bytes from one account to the next.
    pub const ACCOUNT_STRIDE: usize = 16;
}

/// Places in a journal.
pub mod journal {
    /// Open (1) or closed (0), 1 byte.
    pub const OPEN: usize = 0;
    /// Number of calls, 2 bytes.
    pub const CALLS: usize = 2;
    /// Number of entries, 2 bytes.
    pub const ENTRIES: usize = 4;
    /// First entry.
    pub const FIRST_ENTRY: usize = 24;
    /// Cell within an entry, 2 bytes.
    pub const ENTRY_CELL: usize = 0;
    /// Number of the call within an entry, 2 bytes.
    pub const ENTRY_CALL: usize = 2;
    /// The cell's old 16 bytes within an entry.
    pub const ENTRY_OLD: usize = 8;
}
