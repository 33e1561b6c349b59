/* The token vault for C: link target/staticlib/libtoken_vault_abi.a (made by `bindings/library.sh`).
 *
 * Every function answers for any bytes of any length: nothing is asked of what stands in a buffer or of how long it is, and no call traps or
 * keeps anything between calls. Each buffer is a pointer and its length in bytes; the caller owns it before, during and after the call.
 * What the compiler cannot see and the caller must keep to: each pointer is good for its length (a length of 0 allows any pointer that is not
 * null); a buffer that is not const overlaps no other of the same call, value, event_count, reached and the two holdings being five more of
 * them; and during the call no other thread touches such a buffer or writes to one that is const. A call needs less than 64 KiB of stack. The
 * library is for x86-64.
 *
 * Buffers: the image (36,832 bytes when good), the journal (24 times 1 + k bytes, k from 1 to 2,000; all zero is a closed one), the record
 * (448 bytes), the events (896 bytes), the trial records (448 bytes each, of any contents), the amounts of toll bounds (16 bytes each, at most
 * sixteen). A buffer of another length or with other contents is refused by its number and left as it was.
 *
 * The result is TOKEN_VAULT_DONE or one of the refusals below; token_vault_refusal_name and token_vault_refusal_sentence say what it means.
 * docs/FORMATS.md has every format and rule. */
#ifndef TOKEN_VAULT_H
#define TOKEN_VAULT_H

#include <stddef.h>
#include <stdint.h>

#define TOKEN_VAULT_VERSION "0.4.0"

/* Lengths in bytes, and how many there are at most. */
#define TOKEN_VAULT_IMAGE_LENGTH 36832
#define TOKEN_VAULT_RECORD_LENGTH 448
#define TOKEN_VAULT_EVENTS_LENGTH 896
#define TOKEN_VAULT_EVENT_LENGTH 56
#define TOKEN_VAULT_EVENTS_MAX 16
#define TOKEN_VAULT_ITEMS_MAX 16
#define TOKEN_VAULT_JOURNAL_LENGTH_MIN 48
#define TOKEN_VAULT_JOURNAL_LENGTH_MAX 48024
#define TOKEN_VAULT_JOURNAL_ENTRY_LENGTH 24
#define TOKEN_VAULT_JOURNAL_ENTRIES_MAX 2000
#define TOKEN_VAULT_JOURNAL_CALLS_MAX 1000
#define TOKEN_VAULT_CELL_LENGTH 16
#define TOKEN_VAULT_CELLS 2302
#define TOKEN_VAULT_TRACKED_KEYS_MAX 1088

/* Addresses are 0 to 63; 48 to 63 can be tokens. */
#define TOKEN_VAULT_ADDRESSES 64
#define TOKEN_VAULT_ZERO_ADDRESS 0
#define TOKEN_VAULT_VAULT_ADDRESS 1
#define TOKEN_VAULT_FIRST_TOKEN 48

/* Operations; 24 to 28 are views, which change nothing. */
#define TOKEN_VAULT_OP_INITIALIZE 1
#define TOKEN_VAULT_OP_DEPOSIT 2
#define TOKEN_VAULT_OP_DEPOSIT_WITH_FEE 3
#define TOKEN_VAULT_OP_BATCH_DEPOSIT 4
#define TOKEN_VAULT_OP_WITHDRAW 5
#define TOKEN_VAULT_OP_WITHDRAW_BATCH 6
#define TOKEN_VAULT_OP_DEPOSIT_TOKEN 7
#define TOKEN_VAULT_OP_WITHDRAW_TOKEN 8
#define TOKEN_VAULT_OP_DEPOSIT_WITH_FAILURE_REPORT 9
#define TOKEN_VAULT_OP_SET_OPERATOR_WITHDRAW_LIMIT 10
#define TOKEN_VAULT_OP_SET_LIMIT 11
#define TOKEN_VAULT_OP_SET_TOKEN_MAX_LIMIT 12
#define TOKEN_VAULT_OP_SET_OPERATOR 13
#define TOKEN_VAULT_OP_REVOKE_OPERATOR 14
#define TOKEN_VAULT_OP_PROPOSE_OWNER 15
#define TOKEN_VAULT_OP_ACCEPT_OWNER 16
#define TOKEN_VAULT_OP_SET_OWNER_PROPOSAL_TTL 17
#define TOKEN_VAULT_OP_PAUSE 18
#define TOKEN_VAULT_OP_UNPAUSE 19
#define TOKEN_VAULT_OP_APPROVE_TOKEN 20
#define TOKEN_VAULT_OP_INITIATE_EMERGENCY_MIGRATION 21
#define TOKEN_VAULT_OP_EXECUTE_EMERGENCY_MIGRATION 22
#define TOKEN_VAULT_OP_CANCEL_EMERGENCY_MIGRATION 23
#define TOKEN_VAULT_OP_BALANCE 24
#define TOKEN_VAULT_OP_EFFECTIVE_WITHDRAW_LIMIT 25
#define TOKEN_VAULT_OP_GET_TOKEN_ACCOUNT_BALANCE 26
#define TOKEN_VAULT_OP_IS_TOKEN_APPROVED 27
#define TOKEN_VAULT_OP_IS_TOKEN_COMPLIANT 28
#define TOKEN_VAULT_OP_OUTSIDE_MOVE 29
#define TOKEN_VAULT_OP_FREEZE 30

#define TOKEN_VAULT_DONE 0

/* Refusals. */
#define TOKEN_VAULT_REFUSAL_NOT_INITIALIZED 1        /* The vault is not initialised. */
#define TOKEN_VAULT_REFUSAL_ALREADY_INITIALIZED 2    /* The vault was initialised before. */
#define TOKEN_VAULT_REFUSAL_NOT_AUTHORIZED 3         /* The caller is not the owner, nor the operator where an operator is let in. */
#define TOKEN_VAULT_REFUSAL_INVALID_AMOUNT 4         /* An amount, fee, limit or time is out of range, or there is no item. */
#define TOKEN_VAULT_REFUSAL_DEPOSIT_EXCEEDS_MAX 5    /* A deposit is above 10^30. */
#define TOKEN_VAULT_REFUSAL_LIMIT_EXCEEDED 6         /* A limit, a cap, a holding or a credit is passed. */
#define TOKEN_VAULT_REFUSAL_ARITHMETIC_OVERFLOW 7    /* A sum passes the greatest number that its field holds. */
#define TOKEN_VAULT_REFUSAL_CONTRACT_PAUSED 8        /* The vault is paused. */
#define TOKEN_VAULT_REFUSAL_INVALID_TOKEN 9          /* The token is the zero address. */
#define TOKEN_VAULT_REFUSAL_TOKEN_NOT_APPROVED 10    /* The token is not approved. */
#define TOKEN_VAULT_REFUSAL_VAULT_BALANCE_CHANGED 11 /* The vault's holding differs from the snapshot taken at this ledger sequence. */
#define TOKEN_VAULT_REFUSAL_DEPOSIT_TRANSFER_FAILED 12 /* After the deposit the vault's holding is not what it should be, as when the token takes a toll. */
#define TOKEN_VAULT_REFUSAL_WITHDRAW_TRANSFER_FAILED 13 /* After the payout the vault's holding is not what it should be, as when the vault pays itself. */
#define TOKEN_VAULT_REFUSAL_INVALID_PARAM 14         /* The address or the token is not allowed here. */
#define TOKEN_VAULT_REFUSAL_NO_PENDING_OWNER 15      /* No new owner is proposed. */
#define TOKEN_VAULT_REFUSAL_NOT_PENDING_OWNER 16     /* The caller is not the proposed owner. */
#define TOKEN_VAULT_REFUSAL_PENDING_OWNER_EXPIRED 17 /* The proposal of a new owner has expired. */
#define TOKEN_VAULT_REFUSAL_ALREADY_PAUSED 18        /* The vault is paused already. */
#define TOKEN_VAULT_REFUSAL_NOT_PAUSED 19            /* The vault is not paused. */
#define TOKEN_VAULT_REFUSAL_NO_MIGRATION_PROPOSED 20 /* No emergency migration is under way. */
#define TOKEN_VAULT_REFUSAL_TIMELOCK_NOT_EXPIRED 21  /* The waiting time of the emergency migration is not over. */
#define TOKEN_VAULT_REFUSAL_SIGNATURE_MISSING 22     /* The address that has to sign is not in the signer set. */
#define TOKEN_VAULT_REFUSAL_TOKEN_CALL_FAILED 23     /* The token is absent or frozen, or a transfer of it failed. */
#define TOKEN_VAULT_REFUSAL_INVALID_IMAGE 30         /* The image is not good. */
#define TOKEN_VAULT_REFUSAL_INVALID_JOURNAL 31       /* The journal is not good. */
#define TOKEN_VAULT_REFUSAL_INVALID_RECORD 32        /* The record's length, its operation or a field that the operation reads is not allowed. */
#define TOKEN_VAULT_REFUSAL_INVALID_EVENT_BUFFER 33  /* The event buffer has not 896 bytes. */
#define TOKEN_VAULT_REFUSAL_JOURNAL_FULL 34          /* The journal has no room for the call: all entries or all 1,000 calls are used. */
#define TOKEN_VAULT_REFUSAL_NO_TRANSACTION 35        /* No transaction is open. */
#define TOKEN_VAULT_REFUSAL_TRANSACTION_OPEN 36      /* A transaction is open already. */
#define TOKEN_VAULT_REFUSAL_NOTHING_TO_UNDO 37       /* The transaction has no call to undo. */
#define TOKEN_VAULT_REFUSAL_INVALID_TOLL_BOUNDS 46   /* The amounts, the tolls or the token that toll bounds are asked for are not allowed. */

/* Kinds of event. */
#define TOKEN_VAULT_EVENT_INITIALIZED 1
#define TOKEN_VAULT_EVENT_DEPOSITED 2
#define TOKEN_VAULT_EVENT_TOKEN_DEPOSITED 3
#define TOKEN_VAULT_EVENT_WITHDRAWN 4
#define TOKEN_VAULT_EVENT_LIMIT_SET 5
#define TOKEN_VAULT_EVENT_OPERATOR_WITHDRAW_LIMIT_SET 6
#define TOKEN_VAULT_EVENT_OPERATOR_SET 7
#define TOKEN_VAULT_EVENT_OPERATOR_REVOKED 8
#define TOKEN_VAULT_EVENT_PAUSED 9
#define TOKEN_VAULT_EVENT_UNPAUSED 10
#define TOKEN_VAULT_EVENT_OWNER_PROPOSED 11
#define TOKEN_VAULT_EVENT_OWNER_ACCEPTED 12
#define TOKEN_VAULT_EVENT_OWNER_PROPOSAL_TTL_SET 13
#define TOKEN_VAULT_EVENT_EMERGENCY_MIGRATION_INITIATED 14
#define TOKEN_VAULT_EVENT_EMERGENCY_MIGRATION_EXECUTED 15
#define TOKEN_VAULT_EVENT_EMERGENCY_MIGRATION_CANCELLED 16
#define TOKEN_VAULT_EVENT_VAULT_DEPOSIT_FAILED 17
#define TOKEN_VAULT_EVENT_TOKEN_APPROVAL_CHANGED 18

/* Places in a record. */
#define TOKEN_VAULT_RECORD_AT_OPERATION 0                /* 1 byte */
#define TOKEN_VAULT_RECORD_AT_CALLER 1                   /* the address that calls, owns or deposits */
#define TOKEN_VAULT_RECORD_AT_TOKEN 2                    /* address */
#define TOKEN_VAULT_RECORD_AT_OTHER 3                    /* the address that is paid, set as operator, proposed as owner or migrated to */
#define TOKEN_VAULT_RECORD_AT_FLAG 4                     /* 1 yes, 0 no */
#define TOKEN_VAULT_RECORD_AT_ITEM_COUNT 5               /* 1 byte */
#define TOKEN_VAULT_RECORD_AT_TIMESTAMP 8                /* 8 bytes, seconds */
#define TOKEN_VAULT_RECORD_AT_LEDGER_SEQUENCE 16         /* 4 bytes */
#define TOKEN_VAULT_RECORD_AT_SIGNERS 24                 /* 8 bytes, bit a is address a */
#define TOKEN_VAULT_RECORD_AT_AMOUNT 32                  /* 16 bytes */
#define TOKEN_VAULT_RECORD_AT_SECONDS 32                 /* 8 bytes, a time to live in place of the amount */
#define TOKEN_VAULT_RECORD_AT_FEE 48                     /* 16 bytes */
#define TOKEN_VAULT_RECORD_AT_ITEMS 64                   /* up to 16 items */
#define TOKEN_VAULT_ITEM_STRIDE 24                       /* bytes from one item to the next */
#define TOKEN_VAULT_ITEM_AT_ADDRESS 0                    /* within an item */
#define TOKEN_VAULT_ITEM_AT_AMOUNT 8                     /* 16 bytes, within an item */

/* Places in an event. */
#define TOKEN_VAULT_EVENT_AT_KIND 0                      /* 1 byte */
#define TOKEN_VAULT_EVENT_AT_FIRST 1                     /* address */
#define TOKEN_VAULT_EVENT_AT_SECOND 2                    /* address */
#define TOKEN_VAULT_EVENT_AT_YES 3                       /* 1 yes, 0 no */
#define TOKEN_VAULT_EVENT_AT_NUMBER0 8                   /* 16 bytes */
#define TOKEN_VAULT_EVENT_AT_NUMBER1 24                  /* 16 bytes */
#define TOKEN_VAULT_EVENT_AT_NUMBER2 40                  /* 16 bytes */

/* Places in an image: the head. */
#define TOKEN_VAULT_IMAGE_AT_FLAGS 0                     /* 2 bytes */
#define TOKEN_VAULT_FLAG_INITIALIZED 1
#define TOKEN_VAULT_FLAG_PAUSED 2
#define TOKEN_VAULT_FLAG_OPERATOR 4
#define TOKEN_VAULT_FLAG_OPERATOR_LIMIT 8
#define TOKEN_VAULT_FLAG_PENDING_OWNER 16
#define TOKEN_VAULT_FLAG_MIGRATION 32
#define TOKEN_VAULT_IMAGE_AT_OWNER 2                     /* address */
#define TOKEN_VAULT_IMAGE_AT_TOKEN 3                     /* address of the default token */
#define TOKEN_VAULT_IMAGE_AT_OPERATOR 4                  /* address */
#define TOKEN_VAULT_IMAGE_AT_PENDING_OWNER 5             /* address */
#define TOKEN_VAULT_IMAGE_AT_PROPOSER 6                  /* address */
#define TOKEN_VAULT_IMAGE_AT_DESTINATION 7               /* address of the emergency migration */
#define TOKEN_VAULT_IMAGE_AT_VAULT_LIMIT 8               /* 16 bytes */
#define TOKEN_VAULT_IMAGE_AT_OPERATOR_LIMIT 24           /* 16 bytes */
#define TOKEN_VAULT_IMAGE_AT_PROPOSED_AT 40              /* 8 bytes, time of the proposal of a new owner */
#define TOKEN_VAULT_IMAGE_AT_PROPOSAL_TTL 48             /* 8 bytes, how long a proposal lasts */
#define TOKEN_VAULT_IMAGE_AT_MIGRATION_PROPOSED_AT 56    /* 8 bytes */
#define TOKEN_VAULT_IMAGE_AT_EXECUTABLE_AT 64            /* 8 bytes, when the emergency migration can be executed */
#define TOKEN_VAULT_IMAGE_AT_APPROVED 72                 /* 8 bytes, bit a is address a */
#define TOKEN_VAULT_IMAGE_AT_CAPPED 80                   /* 8 bytes, bit a is address a */
#define TOKEN_VAULT_IMAGE_AT_TRACKED_COUNT 88            /* 2 bytes */

/* Places in an image: the tables. Tables by token begin with token 48. */
#define TOKEN_VAULT_IMAGE_AT_CAPS 96                     /* by address, 16 bytes each */
#define TOKEN_VAULT_CAP_STRIDE 16
#define TOKEN_VAULT_IMAGE_AT_SNAPSHOTS 1120              /* by token */
#define TOKEN_VAULT_SNAPSHOT_STRIDE 24
#define TOKEN_VAULT_SNAPSHOT_AT_PRESENT 0                /* 4 bytes, 1 yes, 0 no */
#define TOKEN_VAULT_SNAPSHOT_AT_LEDGER_SEQUENCE 4        /* 4 bytes */
#define TOKEN_VAULT_SNAPSHOT_AT_HOLDING 8                /* 16 bytes */
#define TOKEN_VAULT_IMAGE_AT_TRACKED_KEYS 1504           /* 2 bytes each */
#define TOKEN_VAULT_TRACKED_KEY_STRIDE 2
#define TOKEN_VAULT_TRACKED_KEY_CAPS 1024                /* key of a cap: this + address; of a credit: 64 (token - 48) + account */
#define TOKEN_VAULT_IMAGE_AT_TOKENS 3680                 /* by token */
#define TOKEN_VAULT_TOKEN_STRIDE 24
#define TOKEN_VAULT_TOKEN_AT_STATE 0                     /* 1 byte */
#define TOKEN_VAULT_TOKEN_ABSENT 0
#define TOKEN_VAULT_TOKEN_MOVING 1
#define TOKEN_VAULT_TOKEN_FROZEN 2
#define TOKEN_VAULT_TOKEN_AT_TOLL 8                      /* 16 bytes */
#define TOKEN_VAULT_IMAGE_AT_HOLDINGS 4064               /* by token, then by account, 16 bytes each */
#define TOKEN_VAULT_IMAGE_AT_CREDITS 20448               /* by token, then by account, 16 bytes each */
#define TOKEN_VAULT_ACCOUNTS_STRIDE 1024                 /* from one token's accounts to the next */
#define TOKEN_VAULT_ACCOUNT_STRIDE 16                    /* from one account to the next */

/* Places in a journal. */
#define TOKEN_VAULT_JOURNAL_AT_OPEN 0                    /* 1 open, 0 closed */
#define TOKEN_VAULT_JOURNAL_AT_CALLS 2                   /* 2 bytes */
#define TOKEN_VAULT_JOURNAL_AT_ENTRIES 4                 /* 2 bytes, how many entries are used */
#define TOKEN_VAULT_JOURNAL_AT_FIRST_ENTRY 24            /* entries of 24 bytes */
#define TOKEN_VAULT_ENTRY_AT_CELL 0                      /* 2 bytes, the cell's place in the image divided by 16 */
#define TOKEN_VAULT_ENTRY_AT_CALL 2                      /* 2 bytes, the number of the call, from 1 */
#define TOKEN_VAULT_ENTRY_AT_OLD 8                       /* 16 bytes, the cell before the call */

#ifdef __cplusplus
extern "C" {
#endif

/* One operation. value (16 bytes, two's complement, least significant byte first) and *event_count are written for every answer, and are 0 on a
 * refusal. On 0 the image is the one after the operation, and in an open transaction the journal has its changed cells; on any other number both
 * are unchanged. The event buffer is filled with the events and zeros, and on 30 to 33 left as it was. */
uint32_t token_vault_call(uint8_t *image, size_t image_length, uint8_t *journal, size_t journal_length, const uint8_t *record,
                          size_t record_length, uint8_t *events, size_t events_length, uint8_t value[16], uint32_t *event_count);

/* The same with a closed journal of its own. */
uint32_t token_vault_call_without_journal(uint8_t *image, size_t image_length, const uint8_t *record, size_t record_length,
                                          uint8_t *events, size_t events_length, uint8_t value[16], uint32_t *event_count);

/* What the call without a journal would give on a copy of the image: its number, value, event count and event buffer. The image stays as it is.
 * There is no journal, so never 31 or 34. A call of the same bytes that follows gives the same, unless its journal is not good or has no room. */
uint32_t token_vault_preview(const uint8_t *image, size_t image_length, const uint8_t *record, size_t record_length, uint8_t *events,
                             size_t events_length, uint8_t value[16], uint32_t *event_count);

/* Opens a transaction. */
uint32_t token_vault_begin(uint8_t *image, size_t image_length, uint8_t *journal, size_t journal_length);

/* Keeps what the transaction did, and closes it. */
uint32_t token_vault_commit(uint8_t *image, size_t image_length, uint8_t *journal, size_t journal_length);

/* Undoes all that the transaction did, and closes it. */
uint32_t token_vault_rollback(uint8_t *image, size_t image_length, uint8_t *journal, size_t journal_length);

/* Undoes the last call of the transaction. */
uint32_t token_vault_undo(uint8_t *image, size_t image_length, uint8_t *journal, size_t journal_length);

/* Trial records, a load that any house makes from the same two numbers (docs/FORMATS.md, "Trial records"). On 0 the buffer holds
 * records_length / 448 records, whose numbers are first, first + 1 and so on, drawn by the generator from start on; *reached is the generator's
 * number after the last draw, which is the start of the records that follow. It is 32 where records_length is no multiple of 448, first is 0 or
 * the last record's number would be above 2^32 - 1 (no record at all: where first is above 2^32); then the buffer is left as it was. *reached is
 * written for every answer, and is start on 32 and where there is no record. */
uint32_t token_vault_trial_records(uint64_t start, uint64_t first, uint8_t *records, size_t records_length, uint64_t *reached);

/* What address 1 will hold of a token, at least and at most, once these amounts are moved to it at a toll from least_toll to greatest_toll
 * (docs/FORMATS.md, "Toll bounds"). Of each amount there arrives what is left after the toll, never below 0: the least holding is that at the
 * greatest toll, the greatest that at the least toll. The amounts stand one after another; each of them, toll and holding has 16 bytes, two's
 * complement, least significant byte first. The image is only read, and the toll in it plays no part. The refusals, in this order: 30; 46 where
 * amounts_length is no multiple of 16 or above 256, a toll is below 0, the least is above the greatest, or the token is above 63, absent or
 * frozen; 4 where an amount is not above 0; 7 where the greatest holding would pass 2^127 - 1. Both holdings are written for every answer, and
 * are 0 on a refusal. */
uint32_t token_vault_toll_bounds(const uint8_t *image, size_t image_length, uint8_t token, const uint8_t *amounts, size_t amounts_length,
                                 const uint8_t least_toll[16], const uint8_t greatest_toll[16], uint8_t least_holding[16],
                                 uint8_t greatest_holding[16]);

#ifdef __cplusplus
}
#endif

/* What a refusal is called; NULL for a number that is no refusal. */
static inline const char *token_vault_refusal_name(uint32_t number) {
    switch (number) {
    case TOKEN_VAULT_REFUSAL_NOT_INITIALIZED: return "NotInitialized";
    case TOKEN_VAULT_REFUSAL_ALREADY_INITIALIZED: return "AlreadyInitialized";
    case TOKEN_VAULT_REFUSAL_NOT_AUTHORIZED: return "NotAuthorized";
    case TOKEN_VAULT_REFUSAL_INVALID_AMOUNT: return "InvalidAmount";
    case TOKEN_VAULT_REFUSAL_DEPOSIT_EXCEEDS_MAX: return "DepositExceedsMax";
    case TOKEN_VAULT_REFUSAL_LIMIT_EXCEEDED: return "LimitExceeded";
    case TOKEN_VAULT_REFUSAL_ARITHMETIC_OVERFLOW: return "ArithmeticOverflow";
    case TOKEN_VAULT_REFUSAL_CONTRACT_PAUSED: return "ContractPaused";
    case TOKEN_VAULT_REFUSAL_INVALID_TOKEN: return "InvalidToken";
    case TOKEN_VAULT_REFUSAL_TOKEN_NOT_APPROVED: return "TokenNotApproved";
    case TOKEN_VAULT_REFUSAL_VAULT_BALANCE_CHANGED: return "VaultBalanceChanged";
    case TOKEN_VAULT_REFUSAL_DEPOSIT_TRANSFER_FAILED: return "DepositTransferFailed";
    case TOKEN_VAULT_REFUSAL_WITHDRAW_TRANSFER_FAILED: return "WithdrawTransferFailed";
    case TOKEN_VAULT_REFUSAL_INVALID_PARAM: return "InvalidParam";
    case TOKEN_VAULT_REFUSAL_NO_PENDING_OWNER: return "NoPendingOwner";
    case TOKEN_VAULT_REFUSAL_NOT_PENDING_OWNER: return "NotPendingOwner";
    case TOKEN_VAULT_REFUSAL_PENDING_OWNER_EXPIRED: return "PendingOwnerExpired";
    case TOKEN_VAULT_REFUSAL_ALREADY_PAUSED: return "AlreadyPaused";
    case TOKEN_VAULT_REFUSAL_NOT_PAUSED: return "NotPaused";
    case TOKEN_VAULT_REFUSAL_NO_MIGRATION_PROPOSED: return "NoMigrationProposed";
    case TOKEN_VAULT_REFUSAL_TIMELOCK_NOT_EXPIRED: return "TimelockNotExpired";
    case TOKEN_VAULT_REFUSAL_SIGNATURE_MISSING: return "SignatureMissing";
    case TOKEN_VAULT_REFUSAL_TOKEN_CALL_FAILED: return "TokenCallFailed";
    case TOKEN_VAULT_REFUSAL_INVALID_IMAGE: return "InvalidImage";
    case TOKEN_VAULT_REFUSAL_INVALID_JOURNAL: return "InvalidJournal";
    case TOKEN_VAULT_REFUSAL_INVALID_RECORD: return "InvalidRecord";
    case TOKEN_VAULT_REFUSAL_INVALID_EVENT_BUFFER: return "InvalidEventBuffer";
    case TOKEN_VAULT_REFUSAL_JOURNAL_FULL: return "JournalFull";
    case TOKEN_VAULT_REFUSAL_NO_TRANSACTION: return "NoTransaction";
    case TOKEN_VAULT_REFUSAL_TRANSACTION_OPEN: return "TransactionOpen";
    case TOKEN_VAULT_REFUSAL_NOTHING_TO_UNDO: return "NothingToUndo";
    case TOKEN_VAULT_REFUSAL_INVALID_TOLL_BOUNDS: return "InvalidTollBounds";
    default: return NULL;
    }
}

/* What a refusal says, in one sentence; NULL for a number that is no refusal. */
static inline const char *token_vault_refusal_sentence(uint32_t number) {
    switch (number) {
    case TOKEN_VAULT_REFUSAL_NOT_INITIALIZED:
        return "The vault is not initialised.";
    case TOKEN_VAULT_REFUSAL_ALREADY_INITIALIZED:
        return "The vault was initialised before.";
    case TOKEN_VAULT_REFUSAL_NOT_AUTHORIZED:
        return "The caller is not the owner, nor the operator where an operator is let in.";
    case TOKEN_VAULT_REFUSAL_INVALID_AMOUNT:
        return "An amount, fee, limit or time is out of range, or there is no item.";
    case TOKEN_VAULT_REFUSAL_DEPOSIT_EXCEEDS_MAX:
        return "A deposit is above 10^30.";
    case TOKEN_VAULT_REFUSAL_LIMIT_EXCEEDED:
        return "A limit, a cap, a holding or a credit is passed.";
    case TOKEN_VAULT_REFUSAL_ARITHMETIC_OVERFLOW:
        return "A sum passes the greatest number that its field holds.";
    case TOKEN_VAULT_REFUSAL_CONTRACT_PAUSED:
        return "The vault is paused.";
    case TOKEN_VAULT_REFUSAL_INVALID_TOKEN:
        return "The token is the zero address.";
    case TOKEN_VAULT_REFUSAL_TOKEN_NOT_APPROVED:
        return "The token is not approved.";
    case TOKEN_VAULT_REFUSAL_VAULT_BALANCE_CHANGED:
        return "The vault's holding differs from the snapshot taken at this ledger sequence.";
    case TOKEN_VAULT_REFUSAL_DEPOSIT_TRANSFER_FAILED:
        return "After the deposit the vault's holding is not what it should be, as when the token takes a toll.";
    case TOKEN_VAULT_REFUSAL_WITHDRAW_TRANSFER_FAILED:
        return "After the payout the vault's holding is not what it should be, as when the vault pays itself.";
    case TOKEN_VAULT_REFUSAL_INVALID_PARAM:
        return "The address or the token is not allowed here.";
    case TOKEN_VAULT_REFUSAL_NO_PENDING_OWNER:
        return "No new owner is proposed.";
    case TOKEN_VAULT_REFUSAL_NOT_PENDING_OWNER:
        return "The caller is not the proposed owner.";
    case TOKEN_VAULT_REFUSAL_PENDING_OWNER_EXPIRED:
        return "The proposal of a new owner has expired.";
    case TOKEN_VAULT_REFUSAL_ALREADY_PAUSED:
        return "The vault is paused already.";
    case TOKEN_VAULT_REFUSAL_NOT_PAUSED:
        return "The vault is not paused.";
    case TOKEN_VAULT_REFUSAL_NO_MIGRATION_PROPOSED:
        return "No emergency migration is under way.";
    case TOKEN_VAULT_REFUSAL_TIMELOCK_NOT_EXPIRED:
        return "The waiting time of the emergency migration is not over.";
    case TOKEN_VAULT_REFUSAL_SIGNATURE_MISSING:
        return "The address that has to sign is not in the signer set.";
    case TOKEN_VAULT_REFUSAL_TOKEN_CALL_FAILED:
        return "The token is absent or frozen, or a transfer of it failed.";
    case TOKEN_VAULT_REFUSAL_INVALID_IMAGE:
        return "The image is not good.";
    case TOKEN_VAULT_REFUSAL_INVALID_JOURNAL:
        return "The journal is not good.";
    case TOKEN_VAULT_REFUSAL_INVALID_RECORD:
        return "The record's length, its operation or a field that the operation reads is not allowed.";
    case TOKEN_VAULT_REFUSAL_INVALID_EVENT_BUFFER:
        return "The event buffer has not 896 bytes.";
    case TOKEN_VAULT_REFUSAL_JOURNAL_FULL:
        return "The journal has no room for the call: all entries or all 1,000 calls are used.";
    case TOKEN_VAULT_REFUSAL_NO_TRANSACTION:
        return "No transaction is open.";
    case TOKEN_VAULT_REFUSAL_TRANSACTION_OPEN:
        return "A transaction is open already.";
    case TOKEN_VAULT_REFUSAL_NOTHING_TO_UNDO:
        return "The transaction has no call to undo.";
    case TOKEN_VAULT_REFUSAL_INVALID_TOLL_BOUNDS:
        return "The amounts, the tolls or the token that toll bounds are asked for are not allowed.";
    default: return NULL;
    }
}

/* A signed number of 128 bits: 2^64 times high plus low. */
struct token_vault_amount {
    uint64_t low;
    int64_t high;
};

static inline struct token_vault_amount token_vault_amount_from_int64(int64_t value) {
    struct token_vault_amount amount;
    amount.low = (uint64_t)value;
    amount.high = value < 0 ? -1 : 0;
    return amount;
}

/* Whether the amount is one of 64 bits; then it is put into *value. */
static inline int token_vault_amount_to_int64(struct token_vault_amount amount, int64_t *value) {
    if (amount.high == 0 && amount.low <= (uint64_t)INT64_MAX) {
        *value = (int64_t)amount.low;
        return 1;
    }
    if (amount.high == -1 && amount.low > (uint64_t)INT64_MAX) {
        *value = -1 - (int64_t)(UINT64_MAX - amount.low);
        return 1;
    }
    return 0;
}

/* Numbers of 2, 4, 8 and 16 bytes, least significant byte first, at any place. */
static inline uint64_t token_vault_get_u64(const uint8_t *bytes) {
    uint64_t number = 0;
    int i;
    for (i = 7; i >= 0; i--) number = number << 8 | bytes[i];
    return number;
}

static inline uint32_t token_vault_get_u32(const uint8_t *bytes) {
    return (uint32_t)bytes[0] | (uint32_t)bytes[1] << 8 | (uint32_t)bytes[2] << 16 | (uint32_t)bytes[3] << 24;
}

static inline uint16_t token_vault_get_u16(const uint8_t *bytes) {
    return (uint16_t)(bytes[0] | bytes[1] << 8);
}

static inline struct token_vault_amount token_vault_get_amount(const uint8_t *bytes) {
    struct token_vault_amount amount;
    uint64_t high = token_vault_get_u64(bytes + 8);
    amount.low = token_vault_get_u64(bytes);
    amount.high = high <= (uint64_t)INT64_MAX ? (int64_t)high : -1 - (int64_t)(UINT64_MAX - high);
    return amount;
}

static inline void token_vault_put_u64(uint8_t *bytes, uint64_t number) {
    int i;
    for (i = 0; i < 8; i++) bytes[i] = (uint8_t)(number >> 8 * i);
}

static inline void token_vault_put_u32(uint8_t *bytes, uint32_t number) {
    int i;
    for (i = 0; i < 4; i++) bytes[i] = (uint8_t)(number >> 8 * i);
}

static inline void token_vault_put_u16(uint8_t *bytes, uint16_t number) {
    bytes[0] = (uint8_t)number;
    bytes[1] = (uint8_t)(number >> 8);
}

static inline void token_vault_put_amount(uint8_t *bytes, struct token_vault_amount amount) {
    token_vault_put_u64(bytes, amount.low);
    token_vault_put_u64(bytes + 8, (uint64_t)amount.high);
}

/* A record is begun with its operation, all else zero; then the fields that the operation reads are set. */
static inline void token_vault_record_begin(uint8_t *record, uint8_t operation) {
    size_t i;
    for (i = 0; i < TOKEN_VAULT_RECORD_LENGTH; i++) record[i] = 0;
    record[TOKEN_VAULT_RECORD_AT_OPERATION] = operation;
}

static inline void token_vault_record_set_caller(uint8_t *record, uint8_t address) {
    record[TOKEN_VAULT_RECORD_AT_CALLER] = address;
}

static inline void token_vault_record_set_token(uint8_t *record, uint8_t address) {
    record[TOKEN_VAULT_RECORD_AT_TOKEN] = address;
}

static inline void token_vault_record_set_other(uint8_t *record, uint8_t address) {
    record[TOKEN_VAULT_RECORD_AT_OTHER] = address;
}

static inline void token_vault_record_set_flag(uint8_t *record, int flag) {
    record[TOKEN_VAULT_RECORD_AT_FLAG] = flag ? 1 : 0;
}

static inline void token_vault_record_set_timestamp(uint8_t *record, uint64_t timestamp) {
    token_vault_put_u64(record + TOKEN_VAULT_RECORD_AT_TIMESTAMP, timestamp);
}

static inline void token_vault_record_set_ledger_sequence(uint8_t *record, uint32_t sequence) {
    token_vault_put_u32(record + TOKEN_VAULT_RECORD_AT_LEDGER_SEQUENCE, sequence);
}

static inline void token_vault_record_set_amount(uint8_t *record, struct token_vault_amount amount) {
    token_vault_put_amount(record + TOKEN_VAULT_RECORD_AT_AMOUNT, amount);
}

static inline void token_vault_record_set_seconds(uint8_t *record, uint64_t seconds) {
    token_vault_put_u64(record + TOKEN_VAULT_RECORD_AT_SECONDS, seconds);
}

static inline void token_vault_record_set_fee(uint8_t *record, struct token_vault_amount fee) {
    token_vault_put_amount(record + TOKEN_VAULT_RECORD_AT_FEE, fee);
}

/* An address above 63 has no place in the signer set and is passed over. */
static inline void token_vault_record_add_signer(uint8_t *record, uint8_t address) {
    if (address < TOKEN_VAULT_ADDRESSES) {
        record[TOKEN_VAULT_RECORD_AT_SIGNERS + address / 8] |= (uint8_t)(1 << address % 8);
    }
}

/* Adds an item; 0 where there are 16 already. */
static inline int token_vault_record_add_item(uint8_t *record, uint8_t address, struct token_vault_amount amount) {
    uint8_t count = record[TOKEN_VAULT_RECORD_AT_ITEM_COUNT];
    uint8_t *item;
    if (count >= TOKEN_VAULT_ITEMS_MAX) return 0;
    item = record + TOKEN_VAULT_RECORD_AT_ITEMS + TOKEN_VAULT_ITEM_STRIDE * count;
    item[TOKEN_VAULT_ITEM_AT_ADDRESS] = address;
    token_vault_put_amount(item + TOKEN_VAULT_ITEM_AT_AMOUNT, amount);
    record[TOKEN_VAULT_RECORD_AT_ITEM_COUNT] = (uint8_t)(count + 1);
    return 1;
}

static inline uint8_t token_vault_record_operation(const uint8_t *record) {
    return record[TOKEN_VAULT_RECORD_AT_OPERATION];
}

static inline uint8_t token_vault_record_caller(const uint8_t *record) {
    return record[TOKEN_VAULT_RECORD_AT_CALLER];
}

static inline uint8_t token_vault_record_token(const uint8_t *record) {
    return record[TOKEN_VAULT_RECORD_AT_TOKEN];
}

static inline uint8_t token_vault_record_other(const uint8_t *record) {
    return record[TOKEN_VAULT_RECORD_AT_OTHER];
}

static inline uint8_t token_vault_record_flag(const uint8_t *record) {
    return record[TOKEN_VAULT_RECORD_AT_FLAG];
}

static inline uint8_t token_vault_record_item_count(const uint8_t *record) {
    return record[TOKEN_VAULT_RECORD_AT_ITEM_COUNT];
}

static inline uint64_t token_vault_record_timestamp(const uint8_t *record) {
    return token_vault_get_u64(record + TOKEN_VAULT_RECORD_AT_TIMESTAMP);
}

static inline uint32_t token_vault_record_ledger_sequence(const uint8_t *record) {
    return token_vault_get_u32(record + TOKEN_VAULT_RECORD_AT_LEDGER_SEQUENCE);
}

static inline uint64_t token_vault_record_signers(const uint8_t *record) {
    return token_vault_get_u64(record + TOKEN_VAULT_RECORD_AT_SIGNERS);
}

static inline struct token_vault_amount token_vault_record_amount(const uint8_t *record) {
    return token_vault_get_amount(record + TOKEN_VAULT_RECORD_AT_AMOUNT);
}

static inline uint64_t token_vault_record_seconds(const uint8_t *record) {
    return token_vault_get_u64(record + TOKEN_VAULT_RECORD_AT_SECONDS);
}

static inline struct token_vault_amount token_vault_record_fee(const uint8_t *record) {
    return token_vault_get_amount(record + TOKEN_VAULT_RECORD_AT_FEE);
}

/* Item i, below 16. */
static inline uint8_t token_vault_record_item_address(const uint8_t *record, unsigned i) {
    return record[TOKEN_VAULT_RECORD_AT_ITEMS + TOKEN_VAULT_ITEM_STRIDE * i + TOKEN_VAULT_ITEM_AT_ADDRESS];
}

static inline struct token_vault_amount token_vault_record_item_amount(const uint8_t *record, unsigned i) {
    return token_vault_get_amount(record + TOKEN_VAULT_RECORD_AT_ITEMS + TOKEN_VAULT_ITEM_STRIDE * i + TOKEN_VAULT_ITEM_AT_AMOUNT);
}

/* Event i of the event buffer, below the event count. */
static inline const uint8_t *token_vault_event(const uint8_t *events, uint32_t i) {
    return events + TOKEN_VAULT_EVENT_LENGTH * (size_t)i;
}

static inline uint8_t token_vault_event_kind(const uint8_t *event) {
    return event[TOKEN_VAULT_EVENT_AT_KIND];
}

static inline uint8_t token_vault_event_first(const uint8_t *event) {
    return event[TOKEN_VAULT_EVENT_AT_FIRST];
}

static inline uint8_t token_vault_event_second(const uint8_t *event) {
    return event[TOKEN_VAULT_EVENT_AT_SECOND];
}

static inline uint8_t token_vault_event_yes(const uint8_t *event) {
    return event[TOKEN_VAULT_EVENT_AT_YES];
}

/* Number i, 0 to 2. */
static inline struct token_vault_amount token_vault_event_number(const uint8_t *event, unsigned i) {
    return token_vault_get_amount(event + TOKEN_VAULT_EVENT_AT_NUMBER0 + 16 * (size_t)i);
}

/* The same fields written, for an engine that announces the same events: an event is begun with its kind, all else zero. */
static inline void token_vault_event_begin(uint8_t *event, uint8_t kind) {
    size_t i;
    for (i = 0; i < TOKEN_VAULT_EVENT_LENGTH; i++) event[i] = 0;
    event[TOKEN_VAULT_EVENT_AT_KIND] = kind;
}

static inline void token_vault_event_set_first(uint8_t *event, uint8_t address) {
    event[TOKEN_VAULT_EVENT_AT_FIRST] = address;
}

static inline void token_vault_event_set_second(uint8_t *event, uint8_t address) {
    event[TOKEN_VAULT_EVENT_AT_SECOND] = address;
}

static inline void token_vault_event_set_yes(uint8_t *event, int yes) {
    event[TOKEN_VAULT_EVENT_AT_YES] = yes ? 1 : 0;
}

static inline void token_vault_event_set_number(uint8_t *event, unsigned i, struct token_vault_amount number) {
    token_vault_put_amount(event + TOKEN_VAULT_EVENT_AT_NUMBER0 + 16 * (size_t)i, number);
}

/* Where a token, 48 to 63, and an account's holding and credit of it stand in an image; the account is below 64. */
static inline size_t token_vault_token_place(uint8_t token) {
    return TOKEN_VAULT_IMAGE_AT_TOKENS + TOKEN_VAULT_TOKEN_STRIDE * (size_t)(token - TOKEN_VAULT_FIRST_TOKEN);
}

static inline size_t token_vault_holding_place(uint8_t token, uint8_t account) {
    return TOKEN_VAULT_IMAGE_AT_HOLDINGS + TOKEN_VAULT_ACCOUNTS_STRIDE * (size_t)(token - TOKEN_VAULT_FIRST_TOKEN) +
           TOKEN_VAULT_ACCOUNT_STRIDE * (size_t)account;
}

static inline size_t token_vault_credit_place(uint8_t token, uint8_t account) {
    return token_vault_holding_place(token, account) + (TOKEN_VAULT_IMAGE_AT_CREDITS - TOKEN_VAULT_IMAGE_AT_HOLDINGS);
}

#endif
