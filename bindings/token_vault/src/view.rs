//! The fields of an image, read by name.
use crate::bytes::{get_amount, get_u16, get_u32, get_u64};
use crate::layout::image as at;
use crate::layout::{IMAGE_LENGTH, TRACKED_KEYS_MAX, TRACKED_KEY_CAPS};
use crate::{Address, ADDRESSES, FIRST_TOKEN};

/// The fields of an image of the right length. The image may be one that is not good: then a field holds what its bytes
/// say.
#[derive(Clone, Copy)]
pub struct ImageView<'a>(&'a [u8; IMAGE_LENGTH]);

/// The proposal of a new owner.
#[derive(Clone, Copy, Debug, PartialEq, Eq)]
pub struct Handover {
    /// Who was proposed.
    pub new_owner: Address,
    /// Who proposed.
    pub proposer: Address,
    /// When, in seconds.
    pub proposed_at: u64,
}

/// An emergency migration that was started.
#[derive(Clone, Copy, Debug, PartialEq, Eq)]
pub struct Migration {
    /// Where the money is to go.
    pub destination: Address,
    /// When it was started, in seconds.
    pub proposed_at: u64,
    /// From when it can be executed, in seconds.
    pub executable_at: u64,
}

/// The vault's holding of a token as a deposit left it.
#[derive(Clone, Copy, Debug, PartialEq, Eq)]
pub struct Snapshot {
    /// The ledger sequence of the deposit.
    pub ledger_sequence: u32,
    /// The holding after it.
    pub holding: i128,
}

/// A token that is present.
#[derive(Clone, Copy, Debug, PartialEq, Eq)]
pub struct Token {
    /// Whether it moves.
    pub state: TokenState,
    /// What it keeps of each transfer.
    pub toll: i128,
}

/// Whether a token moves.
#[derive(Clone, Copy, Debug, PartialEq, Eq)]
pub enum TokenState {
    /// Transfers are made.
    Moving,
    /// Every transfer fails.
    Frozen,
}

/// A credit or a cap that was written once.
#[derive(Clone, Copy, Debug, PartialEq, Eq)]
pub enum TrackedKey {
    /// The credit of an account.
    Credit {
        /// The token.
        token: Address,
        /// The account.
        account: Address,
    },
    /// The cap of an address.
    Cap {
        /// The address.
        address: Address,
    },
}

impl TrackedKey {
    fn from_number(number: u16) -> Option<TrackedKey> {
        let low = (number % u16::from(ADDRESSES)) as u8;
        let high = number / u16::from(ADDRESSES);
        match usize::from(number) {
            0..TRACKED_KEY_CAPS => Some(TrackedKey::Credit { token: FIRST_TOKEN + high as u8, account: low }),
            TRACKED_KEY_CAPS..TRACKED_KEYS_MAX => Some(TrackedKey::Cap { address: low }),
            _ => None,
        }
    }
}

/// The head.
impl<'a> ImageView<'a> {
    pub(crate) fn of(bytes: &'a [u8]) -> Option<ImageView<'a>> {
        bytes.try_into().ok().map(ImageView)
    }

    fn has(&self, flag: u16) -> bool {
        get_u16(self.0, at::FLAGS) & flag != 0
    }

    /// Whether the vault is initialised.
    pub fn is_initialized(&self) -> bool {
        self.has(at::FLAG_INITIALIZED)
    }

    /// Whether the vault is paused.
    pub fn is_paused(&self) -> bool {
        self.has(at::FLAG_PAUSED)
    }

    /// The owner; none before initialisation.
    pub fn owner(&self) -> Option<Address> {
        self.is_initialized().then(|| self.0[at::OWNER])
    }

    /// The default token; none before initialisation.
    pub fn default_token(&self) -> Option<Address> {
        self.is_initialized().then(|| self.0[at::TOKEN])
    }

    /// The operator, where there is one.
    pub fn operator(&self) -> Option<Address> {
        self.has(at::FLAG_OPERATOR).then(|| self.0[at::OPERATOR])
    }

    /// The most that the vault may hold of the default token; none before initialisation.
    pub fn vault_limit(&self) -> Option<i128> {
        self.is_initialized().then(|| get_amount(self.0, at::VAULT_LIMIT))
    }

    /// The most that the operator may pay out in one call, where it is set.
    pub fn operator_limit(&self) -> Option<i128> {
        self.has(at::FLAG_OPERATOR_LIMIT).then(|| get_amount(self.0, at::OPERATOR_LIMIT))
    }

    /// The proposal of a new owner, where there is one.
    pub fn handover(&self) -> Option<Handover> {
        self.has(at::FLAG_PENDING_OWNER).then(|| Handover {
            new_owner: self.0[at::PENDING_OWNER],
            proposer: self.0[at::PROPOSER],
            proposed_at: get_u64(self.0, at::PROPOSED_AT),
        })
    }

    /// How long a proposal of a new owner lasts, in seconds; 0 before initialisation.
    pub fn proposal_ttl(&self) -> u64 {
        get_u64(self.0, at::PROPOSAL_TTL)
    }

    /// The emergency migration, where one is under way.
    pub fn migration(&self) -> Option<Migration> {
        self.has(at::FLAG_MIGRATION).then(|| Migration {
            destination: self.0[at::DESTINATION],
            proposed_at: get_u64(self.0, at::MIGRATION_PROPOSED_AT),
            executable_at: get_u64(self.0, at::EXECUTABLE_AT),
        })
    }
}

/// The tables.
impl ImageView<'_> {
    fn is_member(&self, set: usize, address: Address) -> bool {
        address < ADDRESSES && get_u64(self.0, set) >> address & 1 == 1
    }

    /// Whether an address is approved as a token.
    pub fn is_approved(&self, address: Address) -> bool {
        self.is_member(at::APPROVED, address)
    }

    /// The cap of an address, where it is set.
    pub fn cap(&self, address: Address) -> Option<i128> {
        self.is_member(at::CAPPED, address).then(|| get_amount(self.0, at::CAPS + at::CAP_STRIDE * usize::from(address)))
    }

    /// The credits and caps that were written, in the order of their first write. Numbers that stand for none are left out.
    pub fn tracked_keys(&self) -> Vec<TrackedKey> {
        let count = TRACKED_KEYS_MAX.min(get_u16(self.0, at::TRACKED_COUNT).into());
        let number = |i: usize| get_u16(self.0, at::TRACKED_KEYS + at::TRACKED_KEY_STRIDE * i);
        (0..count).filter_map(|i| TrackedKey::from_number(number(i))).collect()
    }

    /// The snapshot of a token, where there is one.
    pub fn snapshot(&self, token: Address) -> Option<Snapshot> {
        let place = at::SNAPSHOTS + at::SNAPSHOT_STRIDE * token_index(token)?;
        (get_u32(self.0, place + at::SNAPSHOT_PRESENT) == 1).then(|| Snapshot {
            ledger_sequence: get_u32(self.0, place + at::SNAPSHOT_LEDGER_SEQUENCE),
            holding: get_amount(self.0, place + at::SNAPSHOT_HOLDING),
        })
    }

    /// A token, where it is present.
    pub fn token(&self, token: Address) -> Option<Token> {
        let place = token_place(token)?;
        let state = match self.0[place + at::TOKEN_STATE] {
            at::TOKEN_MOVING => TokenState::Moving,
            at::TOKEN_FROZEN => TokenState::Frozen,
            _ => return None,
        };
        Some(Token { state, toll: get_amount(self.0, place + at::TOKEN_TOLL) })
    }

    /// The tokens that are present, by address.
    pub fn tokens(&self) -> Vec<(Address, Token)> {
        (FIRST_TOKEN..ADDRESSES).filter_map(|address| Some((address, self.token(address)?))).collect()
    }

    /// What an account holds of a token; 0 where the token is not one of 48 to 63 or the account not below 64.
    pub fn holding(&self, token: Address, account: Address) -> i128 {
        account_place(at::HOLDINGS, token, account).map_or(0, |place| get_amount(self.0, place))
    }

    /// What an account is credited with of a token; 0 where the token is not one of 48 to 63 or the account not below 64.
    pub fn credit(&self, token: Address, account: Address) -> i128 {
        account_place(at::CREDITS, token, account).map_or(0, |place| get_amount(self.0, place))
    }
}

fn token_index(token: Address) -> Option<usize> {
    (FIRST_TOKEN..ADDRESSES).contains(&token).then(|| usize::from(token - FIRST_TOKEN))
}

/// Where a token stands in the image; none where it is not one of 48 to 63.
pub(crate) fn token_place(token: Address) -> Option<usize> {
    Some(at::TOKENS + at::TOKEN_STRIDE * token_index(token)?)
}

/// Where an account's amount of a token stands in the table of holdings or of credits.
pub(crate) fn account_place(table: usize, token: Address, account: Address) -> Option<usize> {
    let row = table + at::ACCOUNTS_STRIDE * token_index(token)?;
    (account < ADDRESSES).then(|| row + at::ACCOUNT_STRIDE * usize::from(account))
}
