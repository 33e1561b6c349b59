//! The 18 kinds of event and their bytes.
use crate::bytes::{get_amount, put};
use crate::layout::event as at;
use crate::layout::EVENT_LENGTH;
use crate::{Address, ADDRESSES};

/// What a call announces.
///
/// ```
/// use token_vault::{Event, Image, Record};
///
/// let mut image = Image::new();
/// image.add_token(48, 0)?;
/// let done = image.call(&Record::initialize(2, 48, 1_000).signed_by(&[2]))?;
/// assert_eq!(done.events, [Event::Initialized { owner: 2, token: 48, max_limit: 1_000 }]);
/// assert_eq!(done.events[0].to_string(), "initialized: owner 2, default token 48, limit 1000");
/// # Ok::<(), Box<dyn std::error::Error>>(())
/// ```
#[derive(Clone, Copy, Debug, PartialEq, Eq)]
pub enum Event {
    /// The vault was initialised.
    Initialized {
        /// Its owner.
        owner: Address,
        /// Its default token.
        token: Address,
        /// Its limit.
        max_limit: i128,
    },
    /// A deposit was made.
    Deposited {
        /// Who paid in.
        from: Address,
        /// How much.
        amount: i128,
        /// The vault's holding afterwards.
        new_balance: i128,
    },
    /// A deposit with a fee was made.
    TokenDeposited {
        /// Who paid in.
        from: Address,
        /// The amount before the fee.
        gross_amount: i128,
        /// The fee.
        fee_amount: i128,
        /// What was paid in.
        net_amount: i128,
    },
    /// A payout was made.
    Withdrawn {
        /// Who ordered it.
        caller: Address,
        /// Who was paid.
        to: Address,
        /// Whether the operator ordered it.
        by_operator: bool,
        /// How much.
        amount: i128,
        /// The vault's holding afterwards.
        new_balance: i128,
    },
    /// The vault limit was set.
    LimitSet {
        /// Who set it.
        caller: Address,
        /// The limit before.
        old_limit: i128,
        /// The limit now.
        new_limit: i128,
    },
    /// The operator limit was set.
    OperatorWithdrawLimitSet {
        /// Who set it.
        caller: Address,
        /// The limit before, 0 where there was none.
        old_limit: i128,
        /// The limit now.
        new_limit: i128,
    },
    /// The operator was named.
    OperatorSet {
        /// Who named it.
        caller: Address,
        /// The operator.
        operator: Address,
    },
    /// The operator was removed.
    OperatorRevoked {
        /// Who removed it.
        caller: Address,
    },
    /// The vault was paused.
    Paused {
        /// Who paused it.
        caller: Address,
        /// When, in seconds.
        paused_at: u64,
    },
    /// The pause ended.
    Unpaused {
        /// Who ended it.
        caller: Address,
        /// When, in seconds.
        resumed_at: u64,
    },
    /// A new owner was proposed.
    OwnerProposed {
        /// Who proposed it.
        caller: Address,
        /// Who was proposed.
        new_owner: Address,
    },
    /// The proposed owner became the owner.
    OwnerAccepted {
        /// The owner now.
        caller: Address,
        /// The proposer that was stored: the owner before, in an image that only this vault changed.
        old_owner: Address,
    },
    /// The time to live of a proposal was set.
    OwnerProposalTtlSet {
        /// Who set it.
        caller: Address,
        /// The seconds before.
        old_ttl: u64,
        /// The seconds now.
        new_ttl: u64,
    },
    /// An emergency migration was started.
    EmergencyMigrationInitiated {
        /// Who started it.
        caller: Address,
        /// Where the money is to go.
        destination: Address,
        /// From when it can be executed, in seconds.
        executable_at: u64,
    },
    /// An emergency migration was executed.
    EmergencyMigrationExecuted {
        /// Who executed it.
        caller: Address,
        /// Where the money went.
        destination: Address,
        /// How much.
        amount: i128,
    },
    /// An emergency migration was cancelled.
    EmergencyMigrationCancelled {
        /// Who cancelled it.
        caller: Address,
    },
    /// A deposit failed because the token refused the transfer.
    VaultDepositFailed {
        /// Who was to pay in.
        from: Address,
        /// The token.
        token: Address,
        /// How much was to be paid in.
        amount: i128,
        /// Why: always 1.
        reason_code: u32,
    },
    /// The approval of a token was given or taken back.
    TokenApprovalChanged {
        /// The token.
        token: Address,
        /// Whether it is approved now.
        approved: bool,
    },
}

impl Event {
    /// The names of the kinds; kind k stands at place k - 1.
    pub const NAMES: [&'static str; 18] = [
        "initialized",
        "deposited",
        "token_deposited",
        "withdrawn",
        "limit_set",
        "operator_withdraw_limit_set",
        "operator_set",
        "operator_revoked",
        "paused",
        "unpaused",
        "owner_proposed",
        "owner_accepted",
        "owner_proposal_ttl_set",
        "emergency_migration_initiated",
        "emergency_migration_executed",
        "emergency_migration_cancelled",
        "vault_deposit_failed",
        "token_approval_changed",
    ];

    /// The event of these bytes; none where no call announces them.
    pub fn decode(bytes: &[u8; EVENT_LENGTH]) -> Option<Event> {
        let event = Fields::read(bytes).event()?;
        // Bytes that the kind does not use have to be zero.
        (event.encode() == *bytes).then_some(event)
    }

    /// The 56 bytes.
    pub fn encode(&self) -> [u8; EVENT_LENGTH] {
        self.fields().bytes()
    }

    /// The number of the kind, 1 to 18.
    pub fn kind(&self) -> u8 {
        self.fields().kind
    }

    /// The name of the kind.
    pub fn name(&self) -> &'static str {
        Event::NAMES[usize::from(self.kind()) - 1]
    }

    fn fields(&self) -> Fields {
        match *self {
            Event::Initialized { owner, token, max_limit } => Fields::of(1, owner).second(token).numbers(&[max_limit]),
            Event::Deposited { from, amount, new_balance } => Fields::of(2, from).numbers(&[amount, new_balance]),
            Event::TokenDeposited { from, gross_amount, fee_amount, net_amount } => {
                Fields::of(3, from).numbers(&[gross_amount, fee_amount, net_amount])
            }
            Event::Withdrawn { caller, to, by_operator, amount, new_balance } => {
                Fields::of(4, caller).second(to).yes(by_operator).numbers(&[amount, new_balance])
            }
            Event::LimitSet { caller, old_limit, new_limit } => Fields::of(5, caller).numbers(&[old_limit, new_limit]),
            Event::OperatorWithdrawLimitSet { caller, old_limit, new_limit } => Fields::of(6, caller).numbers(&[old_limit, new_limit]),
            Event::OperatorSet { caller, operator } => Fields::of(7, caller).second(operator),
            Event::OperatorRevoked { caller } => Fields::of(8, caller),
            Event::Paused { caller, paused_at } => Fields::of(9, caller).numbers(&[paused_at.into()]),
            Event::Unpaused { caller, resumed_at } => Fields::of(10, caller).numbers(&[resumed_at.into()]),
            Event::OwnerProposed { caller, new_owner } => Fields::of(11, caller).second(new_owner),
            Event::OwnerAccepted { caller, old_owner } => Fields::of(12, caller).second(old_owner),
            Event::OwnerProposalTtlSet { caller, old_ttl, new_ttl } => Fields::of(13, caller).numbers(&[old_ttl.into(), new_ttl.into()]),
            Event::EmergencyMigrationInitiated { caller, destination, executable_at } => {
                Fields::of(14, caller).second(destination).numbers(&[executable_at.into()])
            }
            Event::EmergencyMigrationExecuted { caller, destination, amount } => {
                Fields::of(15, caller).second(destination).numbers(&[amount])
            }
            Event::EmergencyMigrationCancelled { caller } => Fields::of(16, caller),
            Event::VaultDepositFailed { from, token, amount, reason_code } => {
                Fields::of(17, from).second(token).numbers(&[amount, reason_code.into()])
            }
            Event::TokenApprovalChanged { token, approved } => Fields::of(18, token).yes(approved),
        }
    }
}

/// The events of a buffer, as many as were counted; none where the buffer is too short or a place holds no event.
pub fn decode_events(buffer: &[u8], count: u32) -> Option<Vec<Event>> {
    let (places, _) = buffer.as_chunks::<EVENT_LENGTH>();
    places.get(..usize::try_from(count).ok()?)?.iter().map(Event::decode).collect()
}

/// The fields of 56 bytes.
struct Fields {
    kind: u8,
    first: Address,
    second: Address,
    yes: bool,
    numbers: [i128; 3],
}

impl Fields {
    fn of(kind: u8, first: Address) -> Fields {
        Fields { kind, first, second: 0, yes: false, numbers: [0; 3] }
    }

    fn second(self, second: Address) -> Fields {
        Fields { second, ..self }
    }

    fn yes(self, yes: bool) -> Fields {
        Fields { yes, ..self }
    }

    fn numbers(mut self, numbers: &[i128]) -> Fields {
        self.numbers[..numbers.len()].copy_from_slice(numbers);
        self
    }

    fn read(bytes: &[u8; EVENT_LENGTH]) -> Fields {
        Fields {
            kind: bytes[at::KIND],
            first: bytes[at::FIRST],
            second: bytes[at::SECOND],
            yes: bytes[at::YES] != 0,
            numbers: [at::NUMBER0, at::NUMBER1, at::NUMBER2].map(|place| get_amount(bytes, place)),
        }
    }

    fn bytes(&self) -> [u8; EVENT_LENGTH] {
        let mut bytes = [0; EVENT_LENGTH];
        put(&mut bytes, at::KIND, &[self.kind, self.first, self.second, self.yes.into()]);
        for (place, number) in [at::NUMBER0, at::NUMBER1, at::NUMBER2].into_iter().zip(self.numbers) {
            put(&mut bytes, place, &number.to_le_bytes());
        }
        bytes
    }

    fn event(&self) -> Option<Event> {
        let Fields { kind, first, second, yes, numbers } = *self;
        if first.max(second) >= ADDRESSES {
            return None;
        }
        let seconds = |i: usize| u64::try_from(numbers[i]).ok();
        Some(match kind {
            1 => Event::Initialized { owner: first, token: second, max_limit: numbers[0] },
            2 => Event::Deposited { from: first, amount: numbers[0], new_balance: numbers[1] },
            3 => Event::TokenDeposited { from: first, gross_amount: numbers[0], fee_amount: numbers[1], net_amount: numbers[2] },
            4 => Event::Withdrawn { caller: first, to: second, by_operator: yes, amount: numbers[0], new_balance: numbers[1] },
            5 => Event::LimitSet { caller: first, old_limit: numbers[0], new_limit: numbers[1] },
            6 => Event::OperatorWithdrawLimitSet { caller: first, old_limit: numbers[0], new_limit: numbers[1] },
            7 => Event::OperatorSet { caller: first, operator: second },
            8 => Event::OperatorRevoked { caller: first },
            9 => Event::Paused { caller: first, paused_at: seconds(0)? },
            10 => Event::Unpaused { caller: first, resumed_at: seconds(0)? },
            11 => Event::OwnerProposed { caller: first, new_owner: second },
            12 => Event::OwnerAccepted { caller: first, old_owner: second },
            13 => Event::OwnerProposalTtlSet { caller: first, old_ttl: seconds(0)?, new_ttl: seconds(1)? },
            14 => Event::EmergencyMigrationInitiated { caller: first, destination: second, executable_at: seconds(0)? },
            15 => Event::EmergencyMigrationExecuted { caller: first, destination: second, amount: numbers[0] },
            16 => Event::EmergencyMigrationCancelled { caller: first },
            17 => {
                Event::VaultDepositFailed { from: first, token: second, amount: numbers[0], reason_code: u32::try_from(numbers[1]).ok()? }
            }
            18 => Event::TokenApprovalChanged { token: first, approved: yes },
            _ => return None,
        })
    }
}
