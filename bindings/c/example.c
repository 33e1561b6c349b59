/* A small story of a vault, to start from: it is initialised, paid into, refuses a payout, previews one and makes it, and takes another back.
 *
 *   gcc -Ibindings/include bindings/c/example.c target/staticlib/libtoken_vault_abi.a -o example */
#include "token_vault.h"
#include <inttypes.h>
#include <stdio.h>

#define OWNER 2
#define PAYEE 4
#define TOKEN 48

/* All that the vault keeps, and the journal of a transaction with room for 100 entries. */
static uint8_t image[TOKEN_VAULT_IMAGE_LENGTH];
static uint8_t journal[TOKEN_VAULT_JOURNAL_ENTRY_LENGTH * (1 + 100)];

static void show(const char *what, uint32_t number) {
    if (number == TOKEN_VAULT_DONE) {
        printf("%s: done\n", what);
    } else {
        printf("%s: refused with %" PRIu32 ", %s: %s\n", what, number, token_vault_refusal_name(number), token_vault_refusal_sentence(number));
    }
}

/* Begins a record of the owner, who signs it. */
static void begin_record(uint8_t *record, uint8_t operation, int64_t amount) {
    token_vault_record_begin(record, operation);
    token_vault_record_set_caller(record, OWNER);
    token_vault_record_add_signer(record, OWNER);
    token_vault_record_set_amount(record, token_vault_amount_from_int64(amount));
}

static void call(const char *what, const uint8_t *record) {
    uint8_t events[TOKEN_VAULT_EVENTS_LENGTH];
    uint8_t value[16];
    uint32_t event_count;
    show(what, token_vault_call(image, sizeof image, journal, sizeof journal, record, TOKEN_VAULT_RECORD_LENGTH, events, sizeof events,
                                value, &event_count));
}

static void initialize(int64_t limit) {
    uint8_t record[TOKEN_VAULT_RECORD_LENGTH];
    begin_record(record, TOKEN_VAULT_OP_INITIALIZE, limit);
    token_vault_record_set_token(record, TOKEN);
    call("initialize", record);
}

static void deposit(int64_t amount) {
    uint8_t record[TOKEN_VAULT_RECORD_LENGTH];
    begin_record(record, TOKEN_VAULT_OP_DEPOSIT, amount);
    call("deposit", record);
}

static void begin_payout(uint8_t *record, int64_t amount) {
    begin_record(record, TOKEN_VAULT_OP_WITHDRAW, amount);
    token_vault_record_set_other(record, PAYEE);
}

/* What a payout would be answered, and what the vault would hold after it. Nothing changes. */
static void preview_payout(int64_t amount) {
    uint8_t record[TOKEN_VAULT_RECORD_LENGTH];
    uint8_t events[TOKEN_VAULT_EVENTS_LENGTH];
    uint8_t value[16];
    uint32_t event_count;
    int64_t left;
    begin_payout(record, amount);
    show("preview of withdraw", token_vault_preview(image, sizeof image, record, sizeof record, events, sizeof events, value, &event_count));
    if (event_count == 1 && token_vault_amount_to_int64(token_vault_event_number(token_vault_event(events, 0), 1), &left)) {
        printf("  the vault would hold %" PRId64 "\n", left);
    }
}

static void pay_out(int64_t amount) {
    uint8_t record[TOKEN_VAULT_RECORD_LENGTH];
    begin_payout(record, amount);
    call("withdraw", record);
}

static void show_holding(const char *who, uint8_t account) {
    int64_t held;
    if (token_vault_amount_to_int64(token_vault_get_amount(image + token_vault_holding_place(TOKEN, account)), &held)) {
        printf("  %s holds %" PRId64 "\n", who, held);
    }
}

static void show_holdings(void) {
    show_holding("the owner", OWNER);
    show_holding("the vault", TOKEN_VAULT_VAULT_ADDRESS);
    show_holding("the payee", PAYEE);
}

int main(void) {
    /* A token that moves, of which the owner to be holds 500. */
    image[token_vault_token_place(TOKEN)] = TOKEN_VAULT_TOKEN_MOVING;
    token_vault_put_amount(image + token_vault_holding_place(TOKEN, OWNER), token_vault_amount_from_int64(500));

    initialize(1000);
    deposit(300);
    show_holdings();
    pay_out(301);
    preview_payout(40);
    pay_out(40);
    show_holdings();

    show("begin", token_vault_begin(image, sizeof image, journal, sizeof journal));
    pay_out(100);
    show_holdings();
    show("undo", token_vault_undo(image, sizeof image, journal, sizeof journal));
    show_holdings();
    show("commit", token_vault_commit(image, sizeof image, journal, sizeof journal));
    return 0;
}
