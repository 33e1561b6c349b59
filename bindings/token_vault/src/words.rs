//! Events in words.
use crate::Event;
use std::fmt;

impl fmt::Display for Event {
    fn fmt(&self, f: &mut fmt::Formatter<'_>) -> fmt::Result {
        write!(f, "{}: ", self.name())?;
        match *self {
            Event::Initialized { owner, token, max_limit } => {
                write!(f, "owner {owner}, default token {token}, limit {max_limit}")
            }
            Event::Deposited { from, amount, new_balance } => {
                write!(f, "{from} paid in {amount}; the vault now holds {new_balance}")
            }
            Event::TokenDeposited { from, gross_amount, fee_amount, net_amount } => {
                write!(f, "{from} paid in {gross_amount} less a fee of {fee_amount}, which makes {net_amount}")
            }
            Event::Withdrawn { caller, to, by_operator, amount, new_balance } => {
                let role = if by_operator { "operator" } else { "owner" };
                write!(f, "{role} {caller} paid {amount} to {to}; the vault now holds {new_balance}")
            }
            Event::LimitSet { caller, old_limit, new_limit } => {
                write!(f, "{caller} changed the vault limit from {old_limit} to {new_limit}")
            }
            Event::OperatorWithdrawLimitSet { caller, old_limit, new_limit } => {
                write!(f, "{caller} changed the operator limit from {old_limit} to {new_limit}")
            }
            Event::OperatorSet { caller, operator } => {
                write!(f, "{caller} made {operator} the operator")
            }
            Event::OperatorRevoked { caller } => {
                write!(f, "{caller} removed the operator")
            }
            Event::Paused { caller, paused_at } => {
                write!(f, "{caller} paused the vault at {paused_at} s")
            }
            Event::Unpaused { caller, resumed_at } => {
                write!(f, "{caller} ended the pause at {resumed_at} s")
            }
            Event::OwnerProposed { caller, new_owner } => {
                write!(f, "{caller} proposed {new_owner} as owner")
            }
            Event::OwnerAccepted { caller, old_owner } => {
                write!(f, "{caller} is the owner now, as {old_owner} proposed")
            }
            Event::OwnerProposalTtlSet { caller, old_ttl, new_ttl } => {
                write!(f, "{caller} changed the time to live of a proposal from {old_ttl} s to {new_ttl} s")
            }
            Event::EmergencyMigrationInitiated { caller, destination, executable_at } => {
                write!(f, "{caller} started a migration to {destination}, which can be executed from {executable_at} s on")
            }
            Event::EmergencyMigrationExecuted { caller, destination, amount } => {
                write!(f, "{caller} moved {amount} to {destination}")
            }
            Event::EmergencyMigrationCancelled { caller } => {
                write!(f, "{caller} cancelled the migration")
            }
            Event::VaultDepositFailed { from, token, amount, reason_code } => {
                write!(f, "{from} could not pay in {amount} of token {token}, reason {reason_code}")
            }
            Event::TokenApprovalChanged { token, approved: true } => write!(f, "token {token} is approved"),
            Event::TokenApprovalChanged { token, approved: false } => write!(f, "token {token} is no longer approved"),
        }
    }
}
