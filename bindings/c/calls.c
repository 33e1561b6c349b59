/* Calls all nine functions of the token vault, and the readers and writers of its header, and checks their answers. Prints one line; its
 * status is 1 if an answer was wrong. */
#include "token_vault.h"
#include <stdio.h>
#include <string.h>

#define OWNER 2
#define PAYEE 4
#define TOKEN 48

static uint8_t image[TOKEN_VAULT_IMAGE_LENGTH], before[TOKEN_VAULT_IMAGE_LENGTH];
static uint8_t journal[TOKEN_VAULT_JOURNAL_LENGTH_MAX];
static uint8_t events[TOKEN_VAULT_EVENTS_LENGTH];
static uint8_t record[TOKEN_VAULT_RECORD_LENGTH];
static uint8_t value[16];
static uint32_t count;
static uint64_t reached;
static int checked, wrong;

static void check(const char *what, uint64_t found, uint64_t wanted) {
    checked++;
    if (found != wanted) {
        wrong++;
        printf("%s: %llu, wanted %llu\n", what, (unsigned long long)found, (unsigned long long)wanted);
    }
}

static void check_amount(const char *what, struct token_vault_amount amount, int64_t wanted) {
    int64_t found = 0;
    check(what, (uint64_t)token_vault_amount_to_int64(amount, &found), 1);
    check(what, (uint64_t)found, (uint64_t)wanted);
}

/* A record of the owner, signed. */
static void begin_record(uint8_t operation, int64_t amount) {
    token_vault_record_begin(record, operation);
    token_vault_record_set_caller(record, OWNER);
    token_vault_record_add_signer(record, OWNER);
    token_vault_record_set_amount(record, token_vault_amount_from_int64(amount));
}

static void begin_payout(int64_t amount) {
    begin_record(TOKEN_VAULT_OP_WITHDRAW, amount);
    token_vault_record_set_other(record, PAYEE);
}

static uint32_t call(void) {
    return token_vault_call(image, sizeof image, journal, sizeof journal, record, sizeof record, events, sizeof events, value, &count);
}

static uint32_t call_without_journal(void) {
    return token_vault_call_without_journal(image, sizeof image, record, sizeof record, events, sizeof events, value, &count);
}

/* The image is lent as const. */
static uint32_t preview(void) {
    const uint8_t *lent = image;
    return token_vault_preview(lent, sizeof image, record, sizeof record, events, sizeof events, value, &count);
}

static struct token_vault_amount holding(uint8_t account) {
    return token_vault_get_amount(image + token_vault_holding_place(TOKEN, account));
}

/* Token 48 moves, account 2 holds 200 of it and becomes the owner, and the vault holds 100. */
static void calls_without_journal(void) {
    token_vault_record_begin(record, TOKEN_VAULT_OP_BALANCE);
    check("balance of a zero image", call_without_journal(), TOKEN_VAULT_REFUSAL_NOT_INITIALIZED);
    image[token_vault_token_place(TOKEN)] = TOKEN_VAULT_TOKEN_MOVING;
    token_vault_put_amount(image + token_vault_holding_place(TOKEN, OWNER), token_vault_amount_from_int64(200));
    begin_record(TOKEN_VAULT_OP_INITIALIZE, 100);
    token_vault_record_set_token(record, TOKEN);
    check("initialize", call_without_journal(), TOKEN_VAULT_DONE);
    check("event count", count, 1);
    check("event kind", token_vault_event_kind(token_vault_event(events, 0)), TOKEN_VAULT_EVENT_INITIALIZED);
    check("event token", token_vault_event_second(token_vault_event(events, 0)), TOKEN);
    begin_record(TOKEN_VAULT_OP_DEPOSIT, 101);
    check("deposit above the limit", call_without_journal(), TOKEN_VAULT_REFUSAL_LIMIT_EXCEEDED);
    begin_record(TOKEN_VAULT_OP_DEPOSIT, -1);
    check("deposit below 0", call_without_journal(), TOKEN_VAULT_REFUSAL_INVALID_AMOUNT);
    begin_record(TOKEN_VAULT_OP_DEPOSIT, 100);
    check("deposit", call_without_journal(), TOKEN_VAULT_DONE);
    check("event kind", token_vault_event_kind(events), TOKEN_VAULT_EVENT_DEPOSITED);
    check("event depositor", token_vault_event_first(events), OWNER);
    check_amount("event amount", token_vault_event_number(events, 0), 100);
    check_amount("event balance", token_vault_event_number(events, 1), 100);
    check_amount("credit", token_vault_get_amount(image + token_vault_credit_place(TOKEN, OWNER)), 100);
    token_vault_record_begin(record, TOKEN_VAULT_OP_BALANCE);
    check("balance", call_without_journal(), TOKEN_VAULT_DONE);
    check_amount("value", token_vault_get_amount(value), 100);
}

static void transactions(void) {
    memcpy(before, image, sizeof image);
    check("undo of none", token_vault_undo(image, sizeof image, journal, sizeof journal), TOKEN_VAULT_REFUSAL_NO_TRANSACTION);
    check("begin", token_vault_begin(image, sizeof image, journal, sizeof journal), TOKEN_VAULT_DONE);
    check("begin again", token_vault_begin(image, sizeof image, journal, sizeof journal), TOKEN_VAULT_REFUSAL_TRANSACTION_OPEN);
    begin_payout(40);
    check("withdraw", call(), TOKEN_VAULT_DONE);
    check("changed", memcmp(before, image, sizeof image) != 0, 1);
    check("open", journal[TOKEN_VAULT_JOURNAL_AT_OPEN], 1);
    check("calls", token_vault_get_u16(journal + TOKEN_VAULT_JOURNAL_AT_CALLS), 1);
    check("undo", token_vault_undo(image, sizeof image, journal, sizeof journal), TOKEN_VAULT_DONE);
    check("undone", memcmp(before, image, sizeof image) == 0, 1);
    check("undo", token_vault_undo(image, sizeof image, journal, sizeof journal), TOKEN_VAULT_REFUSAL_NOTHING_TO_UNDO);
    check("withdraw", call(), TOKEN_VAULT_DONE);
    check("rollback", token_vault_rollback(image, sizeof image, journal, sizeof journal), TOKEN_VAULT_DONE);
    check("rolled back", memcmp(before, image, sizeof image) == 0, 1);
    check("begin", token_vault_begin(image, sizeof image, journal, sizeof journal), TOKEN_VAULT_DONE);
    check("withdraw", call(), TOKEN_VAULT_DONE);
    check("commit", token_vault_commit(image, sizeof image, journal, sizeof journal), TOKEN_VAULT_DONE);
    check_amount("kept", holding(PAYEE), 40);
    check("closed", journal[TOKEN_VAULT_JOURNAL_AT_OPEN], 0);
}

static void buffers_that_are_refused(void) {
    check("short record", token_vault_call_without_journal(image, sizeof image, record, 447, events, sizeof events, value, &count),
          TOKEN_VAULT_REFUSAL_INVALID_RECORD);
    check("short events", token_vault_call_without_journal(image, sizeof image, record, sizeof record, events, 895, value, &count),
          TOKEN_VAULT_REFUSAL_INVALID_EVENT_BUFFER);
    check("short image", token_vault_begin(image, 100, journal, sizeof journal), TOKEN_VAULT_REFUSAL_INVALID_IMAGE);
    check("short journal", token_vault_begin(image, sizeof image, journal, 47), TOKEN_VAULT_REFUSAL_INVALID_JOURNAL);
    begin_record(31, 0);
    check("operation 31", call_without_journal(), TOKEN_VAULT_REFUSAL_INVALID_RECORD);
}

/* Event i, a payout of the owner, written by its fields: byte for byte the one that the library announced. */
static void check_written(uint32_t i, uint8_t to, int64_t amount, int64_t balance) {
    uint8_t written[TOKEN_VAULT_EVENT_LENGTH];
    memset(written, 0xff, sizeof written);
    token_vault_event_begin(written, TOKEN_VAULT_EVENT_WITHDRAWN);
    token_vault_event_set_first(written, OWNER);
    token_vault_event_set_second(written, to);
    token_vault_event_set_yes(written, 0);
    token_vault_event_set_number(written, 0, token_vault_amount_from_int64(amount));
    token_vault_event_set_number(written, 1, token_vault_amount_from_int64(balance));
    check("event written", memcmp(written, token_vault_event(events, i), sizeof written) == 0, 1);
}

/* Two payouts by items, of which the first is to address 10 and the second to address 63. */
static void items(void) {
    begin_record(TOKEN_VAULT_OP_WITHDRAW_BATCH, 0);
    check("item", (uint64_t)token_vault_record_add_item(record, 10, token_vault_amount_from_int64(25)), 1);
    check("item", (uint64_t)token_vault_record_add_item(record, 63, token_vault_amount_from_int64(35)), 1);
    check("withdraw_batch", call_without_journal(), TOKEN_VAULT_DONE);
    check("event count", count, 2);
    check("second event", token_vault_event_second(token_vault_event(events, 1)), 63);
    check("by operator", token_vault_event_yes(token_vault_event(events, 1)), 0);
    check_written(0, 10, 25, 35);
    check_written(1, 63, 35, 0);
    check_amount("first is paid", holding(10), 25);
    check_amount("second is paid", holding(63), 35);
    while (token_vault_record_add_item(record, 10, token_vault_amount_from_int64(1))) continue;
    check("items", token_vault_record_item_count(record), TOKEN_VAULT_ITEMS_MAX);
    check("item address", token_vault_record_item_address(record, 1), 63);
    check_amount("item amount", token_vault_record_item_amount(record, 1), 35);
}

/* Bytes that an answer has to write over. */
static void fill_answer(void) {
    memset(events, 0xa5, sizeof events);
    memset(value, 0xa5, sizeof value);
    count = 0xa5a5a5a5u;
}

static int are_all(const uint8_t *bytes, size_t length, uint8_t byte) {
    size_t i;
    for (i = 0; i < length; i++) {
        if (bytes[i] != byte) return 0;
    }
    return 1;
}

/* Previews the record, which leaves the image as it is; then makes the call, which gives the same number, value, count and event bytes. */
static void check_previewed(const char *what, uint32_t (*make)(void), uint32_t wanted) {
    uint8_t previewed[TOKEN_VAULT_EVENTS_LENGTH], previewed_value[16];
    uint32_t previewed_count;
    memcpy(before, image, sizeof image);
    fill_answer();
    check(what, preview(), wanted);
    check("image after a preview", memcmp(before, image, sizeof image) == 0, 1);
    memcpy(previewed, events, sizeof events);
    memcpy(previewed_value, value, sizeof value);
    previewed_count = count;
    fill_answer();
    check(what, make(), wanted);
    check("events as previewed", memcmp(previewed, events, sizeof events) == 0, 1);
    check("value as previewed", memcmp(previewed_value, value, sizeof value) == 0, 1);
    check("count as previewed", count, previewed_count);
}

/* With 50 in the vault: a payout, a refused one and a view. */
static void previews(void) {
    begin_record(TOKEN_VAULT_OP_DEPOSIT, 50);
    check("deposit", call_without_journal(), TOKEN_VAULT_DONE);
    begin_payout(40);
    check_previewed("payout", call_without_journal, TOKEN_VAULT_DONE);
    check("image after the call", memcmp(before, image, sizeof image) != 0, 1);
    check("event count", count, 1);
    check_written(0, PAYEE, 40, 10);
    begin_payout(11);
    check_previewed("payout above the holding", call_without_journal, TOKEN_VAULT_REFUSAL_LIMIT_EXCEEDED);
    check("event count", count, 0);
    check("blank events", (uint64_t)are_all(events, sizeof events, 0), 1);
    check_amount("value", token_vault_get_amount(value), 0);
    token_vault_record_begin(record, TOKEN_VAULT_OP_BALANCE);
    check_previewed("balance", call_without_journal, TOKEN_VAULT_DONE);
    check_amount("value", token_vault_get_amount(value), 10);
    check("blank events", (uint64_t)are_all(events, sizeof events, 0), 1);
}

/* A preview refused with 30, 32 or 33: the event buffer as it was lent, value and count 0. */
static void check_as_lent(const char *what, size_t image_length, size_t record_length, size_t events_length, uint32_t wanted) {
    fill_answer();
    check(what, token_vault_preview(image, image_length, record, record_length, events, events_length, value, &count), wanted);
    check("events as lent", (uint64_t)are_all(events, sizeof events, 0xa5), 1);
    check_amount("value", token_vault_get_amount(value), 0);
    check("event count", count, 0);
}

static void previews_that_are_refused(void) {
    begin_payout(1);
    check_as_lent("short image", sizeof image - 1, 447, 895, TOKEN_VAULT_REFUSAL_INVALID_IMAGE);
    check_as_lent("short record", sizeof image, 447, 895, TOKEN_VAULT_REFUSAL_INVALID_RECORD);
    check_as_lent("short events", sizeof image, sizeof record, 895, TOKEN_VAULT_REFUSAL_INVALID_EVENT_BUFFER);
    begin_record(31, 0);
    check_as_lent("operation 31", sizeof image, sizeof record, sizeof events, TOKEN_VAULT_REFUSAL_INVALID_RECORD);
}

/* A journal with room for one entry. */
static uint8_t small_journal[TOKEN_VAULT_JOURNAL_LENGTH_MIN];

static uint32_t call_in_small_journal(void) {
    return token_vault_call(image, sizeof image, small_journal, sizeof small_journal, record, sizeof record, events, sizeof events, value,
                            &count);
}

static void previews_in_transactions(void) {
    uint8_t opened[TOKEN_VAULT_JOURNAL_LENGTH_MIN];
    begin_payout(5);
    check("begin", token_vault_begin(image, sizeof image, journal, sizeof journal), TOKEN_VAULT_DONE);
    check_previewed("payout in a transaction", call, TOKEN_VAULT_DONE);
    check("calls", token_vault_get_u16(journal + TOKEN_VAULT_JOURNAL_AT_CALLS), 1);
    check("rollback", token_vault_rollback(image, sizeof image, journal, sizeof journal), TOKEN_VAULT_DONE);
    check("begin", token_vault_begin(image, sizeof image, small_journal, sizeof small_journal), TOKEN_VAULT_DONE);
    check("no room", call_in_small_journal(), TOKEN_VAULT_REFUSAL_JOURNAL_FULL);
    memcpy(opened, small_journal, sizeof opened);
    check("preview without room", preview(), TOKEN_VAULT_DONE);
    check("journal after a preview", memcmp(opened, small_journal, sizeof opened) == 0, 1);
    check_written(0, PAYEE, 5, 5);
    check("no room", call_in_small_journal(), TOKEN_VAULT_REFUSAL_JOURNAL_FULL);
    begin_payout(11);
    check_previewed("refused without room", call_in_small_journal, TOKEN_VAULT_REFUSAL_LIMIT_EXCEEDED);
    token_vault_record_begin(record, TOKEN_VAULT_OP_BALANCE);
    check_previewed("view without room", call_in_small_journal, TOKEN_VAULT_DONE);
    check("commit", token_vault_commit(image, sizeof image, small_journal, sizeof small_journal), TOKEN_VAULT_DONE);
}

/* Five trial records, and the same in parts. */
static uint8_t records[5 * TOKEN_VAULT_RECORD_LENGTH], parts[5 * TOKEN_VAULT_RECORD_LENGTH];

/* The trial record that is fifth from 1, written by its fields. */
static void begin_fifth(void) {
    uint8_t address;
    token_vault_record_begin(record, TOKEN_VAULT_OP_UNPAUSE);
    token_vault_record_set_caller(record, 33);
    token_vault_record_set_token(record, 9);
    token_vault_record_set_other(record, 1);
    token_vault_record_set_flag(record, 1);
    token_vault_record_set_timestamp(record, 5);
    token_vault_record_set_ledger_sequence(record, 5);
    for (address = 0; address < TOKEN_VAULT_ADDRESSES; address++) token_vault_record_add_signer(record, address);
    token_vault_record_set_amount(record, token_vault_amount_from_int64(195));
    token_vault_record_add_item(record, 1, token_vault_amount_from_int64(195));
}

static void trial_records(void) {
    memset(records, 0xa5, sizeof records);
    check("trial records", token_vault_trial_records(1, 1, records, sizeof records, &reached), TOKEN_VAULT_DONE);
    check("reached", reached, 16379080853662959639u);
    check("operation", token_vault_record_operation(records), TOKEN_VAULT_OP_OUTSIDE_MOVE);
    check("caller", token_vault_record_caller(records), 51);
    check("token", token_vault_record_token(records), 25);
    check("other", token_vault_record_other(records), 13);
    check("flag", token_vault_record_flag(records), 0);
    check("item count", token_vault_record_item_count(records), 1);
    check("timestamp", token_vault_record_timestamp(records), 1);
    check("ledger sequence", token_vault_record_ledger_sequence(records), 1);
    check("signers", token_vault_record_signers(records), UINT64_MAX);
    check_amount("amount", token_vault_record_amount(records), 58);
    check_amount("fee", token_vault_record_fee(records), 0);
    check("item address", token_vault_record_item_address(records, 0), 13);
    check_amount("item amount", token_vault_record_item_amount(records, 0), 58);
    check("other items", (uint64_t)are_all(records + 88, TOKEN_VAULT_RECORD_LENGTH - 88, 0), 1);
    begin_fifth();
    check("fifth record", memcmp(record, records + 4 * TOKEN_VAULT_RECORD_LENGTH, sizeof record) == 0, 1);
}

/* Two records and then three are the five of before; and only what is lent is written. */
static void trial_records_in_parts(void) {
    size_t two = 2 * TOKEN_VAULT_RECORD_LENGTH;
    memset(parts, 0xa5, sizeof parts);
    check("two records", token_vault_trial_records(1, 1, parts, two, &reached), TOKEN_VAULT_DONE);
    check("reached by two", reached, 9882984339513518093u);
    check("not lent", (uint64_t)are_all(parts + two, sizeof parts - two, 0xa5), 1);
    check("no record", token_vault_trial_records(reached, 3, parts + two, 0, &reached), TOKEN_VAULT_DONE);
    check("reached by none", reached, 9882984339513518093u);
    check("not lent", (uint64_t)are_all(parts + two, sizeof parts - two, 0xa5), 1);
    check("three records", token_vault_trial_records(reached, 3, parts + two, sizeof parts - two, &reached), TOKEN_VAULT_DONE);
    check("reached by five", reached, 16379080853662959639u);
    check("parts", memcmp(parts, records, sizeof parts) == 0, 1);
    check("last number", token_vault_trial_records(1, 0xffffffffu, parts, sizeof record, &reached), TOKEN_VAULT_DONE);
    check("reached by one", reached, 9232803539723513983u);
    check("last timestamp", token_vault_record_timestamp(parts), 0xffffffffu);
    check("last ledger sequence", token_vault_record_ledger_sequence(parts), 0xffffffffu);
    check("behind the last number", token_vault_trial_records(7, 0x100000000u, parts, 0, &reached), TOKEN_VAULT_DONE);
    check("reached by none", reached, 7);
}

/* Refused with 32: the buffer as it was lent, and the start in *reached. */
static void check_no_records(const char *what, uint64_t first, size_t length) {
    memset(records, 0xa5, sizeof records);
    reached = 0xa5a5a5a5a5a5a5a5u;
    check(what, token_vault_trial_records(7, first, records, length, &reached), TOKEN_VAULT_REFUSAL_INVALID_RECORD);
    check("records as lent", (uint64_t)are_all(records, sizeof records, 0xa5), 1);
    check("reached", reached, 7);
}

static void trial_records_that_are_refused(void) {
    check_no_records("one byte", 1, 1);
    check_no_records("a byte too few", 1, 447);
    check_no_records("a byte too many", 1, 449);
    check_no_records("first number 0", 0, sizeof records);
    check_no_records("first number 0 of none", 0, 0);
    check_no_records("second number 2^32", 0xffffffffu, 2 * sizeof record);
    check_no_records("first number 2^32", 0x100000000u, sizeof record);
    check_no_records("first number 2^32 + 1 of none", 0x100000001u, 0);
    check_no_records("a sum of 2^64", UINT64_MAX, sizeof record);
}

/* An image of its own, of a vault that is not initialised: tokens 48 and 63 move, token 50 is frozen, all others are absent. */
#define FROZEN 50
#define LAST_TOKEN 63
static uint8_t season[TOKEN_VAULT_IMAGE_LENGTH];

/* A list of amounts, with room for one more than is allowed, and what is written. */
static uint8_t list[17 * 16], least[16], greatest[16];
static size_t list_length;

static struct token_vault_amount small(int64_t number) {
    return token_vault_amount_from_int64(number);
}

/* 2^127 - 1, less a number. */
static struct token_vault_amount below_most(uint64_t number) {
    struct token_vault_amount amount;
    amount.low = UINT64_MAX - number;
    amount.high = INT64_MAX;
    return amount;
}

static void put_token(uint8_t token, uint8_t state, struct token_vault_amount held) {
    season[token_vault_token_place(token)] = state;
    token_vault_put_amount(season + token_vault_holding_place(token, TOKEN_VAULT_VAULT_ADDRESS), held);
}

/* The vault holds so much of token 48, and its neighbours other numbers: the 1 of address 0 stands where a token 64 would have its kind. */
static void begin_season(struct token_vault_amount held) {
    memset(season, 0, sizeof season);
    put_token(TOKEN, TOKEN_VAULT_TOKEN_MOVING, held);
    put_token(FROZEN, TOKEN_VAULT_TOKEN_FROZEN, small(50));
    put_token(LAST_TOKEN, TOKEN_VAULT_TOKEN_MOVING, small(7));
    token_vault_put_amount(season + token_vault_holding_place(TOKEN, 0), small(1));
    token_vault_put_amount(season + token_vault_holding_place(TOKEN, 2), small(13));
    list_length = 0;
}

static void add_amount(struct token_vault_amount amount) {
    token_vault_put_amount(list + list_length, amount);
    list_length += 16;
}

/* 10, 5 and 1. */
static void add_example(void) {
    add_amount(small(10));
    add_amount(small(5));
    add_amount(small(1));
}

/* Asks for a token and two tolls. Holdings that are not written keep their 0xff; the image, lent as const, stays as it is. */
static uint32_t ask(uint8_t token, struct token_vault_amount low, struct token_vault_amount high) {
    const uint8_t *lent = season;
    uint8_t least_toll[16], greatest_toll[16];
    uint32_t number;
    token_vault_put_amount(least_toll, low);
    token_vault_put_amount(greatest_toll, high);
    memset(least, 0xff, sizeof least);
    memset(greatest, 0xff, sizeof greatest);
    memcpy(before, season, sizeof season);
    number = token_vault_toll_bounds(lent, sizeof season, token, list, list_length, least_toll, greatest_toll, least, greatest);
    check("image after toll bounds", memcmp(before, season, sizeof season) == 0, 1);
    return number;
}

static void check_holding(const char *what, const uint8_t *found, struct token_vault_amount wanted) {
    check(what, token_vault_get_amount(found).low, wanted.low);
    check(what, token_vault_get_amount(found).high == wanted.high, 1);
}

static void check_bounds(const char *what, int64_t low, int64_t high, struct token_vault_amount at_least,
                         struct token_vault_amount at_most) {
    check(what, ask(TOKEN, small(low), small(high)), TOKEN_VAULT_DONE);
    check_holding(what, least, at_least);
    check_holding(what, greatest, at_most);
}

static void check_no_bounds(const char *what, uint32_t found, uint32_t wanted) {
    check(what, found, wanted);
    check(what, (uint64_t)are_all(least, sizeof least, 0), 1);
    check(what, (uint64_t)are_all(greatest, sizeof greatest, 0), 1);
}

/* What is left of an amount after a toll. */
static int64_t arrives(int64_t amount, int64_t toll) {
    return amount > toll ? amount - toll : 0;
}

static int64_t example_at(int64_t toll) {
    return 100 + arrives(10, toll) + arrives(5, toll) + arrives(1, toll);
}

static void toll_bounds(void) {
    int64_t low, high;
    begin_season(small(100));
    check_bounds("no amount", 2, 6, small(100), small(100));
    add_example();
    check_bounds("example", 2, 6, small(104), small(111));
    for (low = 0; low <= 11; low++) {
        for (high = low; high <= 11; high++) check_bounds("tolls", low, high, small(example_at(high)), small(example_at(low)));
    }
    token_vault_put_amount(season + token_vault_token_place(TOKEN) + TOKEN_VAULT_TOKEN_AT_TOLL, small(9));
    check_bounds("toll in the image", 2, 6, small(104), small(111));
    begin_season(small(100));
    while (list_length < 256) add_amount(small(10));
    check_bounds("sixteen amounts", 2, 6, small(100 + 16 * arrives(10, 6)), small(100 + 16 * arrives(10, 2)));
    add_amount(small(10));
    check_no_bounds("seventeen amounts", ask(TOKEN, small(2), small(6)), TOKEN_VAULT_REFUSAL_INVALID_TOLL_BOUNDS);
}

static void toll_bounds_at_the_ends(void) {
    struct token_vault_amount large = {0, 1};
    uint8_t toll[16];
    begin_season(below_most(0));
    check_bounds("nothing to add", 0, 9, below_most(0), below_most(0));
    add_amount(small(5));
    check_bounds("all of it is toll", 5, 9, below_most(0), below_most(0));
    check_no_bounds("1 arrives", ask(TOKEN, small(4), small(9)), TOKEN_VAULT_REFUSAL_ARITHMETIC_OVERFLOW);
    begin_season(below_most(10));
    add_amount(small(8));
    add_amount(small(8));
    check_bounds("a sum of 2^127 - 1", 3, 6, below_most(6), below_most(0));
    check_no_bounds("at the least toll alone", ask(TOKEN, small(2), small(6)), TOKEN_VAULT_REFUSAL_ARITHMETIC_OVERFLOW);
    check_no_bounds("at both tolls", ask(TOKEN, small(1), small(2)), TOKEN_VAULT_REFUSAL_ARITHMETIC_OVERFLOW);
    begin_season(small(100));
    add_amount(below_most(100));
    check_bounds("an amount up to 2^127 - 1", 0, 100, below_most(100), below_most(0));
    add_amount(small(1));
    check_no_bounds("one past it", ask(TOKEN, small(0), small(100)), TOKEN_VAULT_REFUSAL_ARITHMETIC_OVERFLOW);
    begin_season(small(100));
    add_amount(below_most(0));
    check("tolls of 2^127 - 2 and 2^127 - 1", ask(TOKEN, below_most(1), below_most(0)), TOKEN_VAULT_DONE);
    check_holding("nothing arrives", least, small(100));
    check_holding("1 arrives", greatest, small(101));
    check_no_bounds("2^64 above 1", ask(TOKEN, large, small(1)), TOKEN_VAULT_REFUSAL_INVALID_TOLL_BOUNDS);
    check("101 to 2^64", ask(TOKEN, small(101), large), TOKEN_VAULT_DONE);
    check_holding("at 101", greatest, below_most(1));
    token_vault_put_amount(toll, below_most(0));
    check("one toll lent as both", token_vault_toll_bounds(season, sizeof season, TOKEN, list, list_length, toll, toll, least, greatest),
          TOKEN_VAULT_DONE);
    check_holding("nothing arrives", least, small(100));
    check_holding("nothing arrives", greatest, small(100));
}

static void toll_bounds_that_are_refused(void) {
    static const size_t lengths[] = {1, 15, 17, 255, 257, 272};
    static const int64_t tolls[][2] = {{-1, 6}, {-6, -2}, {-1, -1}, {0, -1}, {6, 2}, {1, 0}, {INT64_MIN, INT64_MAX}};
    static const int64_t not_above_0[] = {0, -1, INT64_MIN};
    size_t i;
    begin_season(small(100));
    memset(list, 1, sizeof list);
    for (i = 0; i < sizeof lengths / sizeof *lengths; i++) {
        list_length = lengths[i];
        check_no_bounds("length of the list", ask(TOKEN, small(2), small(6)), TOKEN_VAULT_REFUSAL_INVALID_TOLL_BOUNDS);
    }
    begin_season(small(100));
    add_example();
    for (i = 0; i < sizeof tolls / sizeof *tolls; i++) {
        check_no_bounds("tolls", ask(TOKEN, small(tolls[i][0]), small(tolls[i][1])), TOKEN_VAULT_REFUSAL_INVALID_TOLL_BOUNDS);
    }
    for (i = 0; i < sizeof not_above_0 / sizeof *not_above_0; i++) {
        begin_season(small(100));
        add_example();
        add_amount(small(not_above_0[i]));
        check_no_bounds("amount", ask(TOKEN, small(2), small(6)), TOKEN_VAULT_REFUSAL_INVALID_AMOUNT);
    }
    season[95] = 1;
    check_no_bounds("damaged image", ask(TOKEN, small(2), small(6)), TOKEN_VAULT_REFUSAL_INVALID_IMAGE);
}

/* Of the refusals of one call the first is answered: 30, 46, 4, 7. What is wrong is put right one by one. */
static void toll_bounds_in_order(void) {
    begin_season(small(1));
    add_amount(below_most(0));
    add_amount(below_most(0));
    add_amount(small(0));
    season[95] = 1;
    check_no_bounds("30 before 46", ask(255, small(6), small(-2)), TOKEN_VAULT_REFUSAL_INVALID_IMAGE);
    season[95] = 0;
    check_no_bounds("46 by the token", ask(255, small(0), small(0)), TOKEN_VAULT_REFUSAL_INVALID_TOLL_BOUNDS);
    check_no_bounds("46 by the tolls", ask(TOKEN, small(6), small(-2)), TOKEN_VAULT_REFUSAL_INVALID_TOLL_BOUNDS);
    list_length++;
    check_no_bounds("46 by the length", ask(TOKEN, small(0), small(0)), TOKEN_VAULT_REFUSAL_INVALID_TOLL_BOUNDS);
    list_length--;
    check_no_bounds("4 before 7", ask(TOKEN, small(0), small(0)), TOKEN_VAULT_REFUSAL_INVALID_AMOUNT);
    list_length -= 16;
    check_no_bounds("7", ask(TOKEN, small(0), small(0)), TOKEN_VAULT_REFUSAL_ARITHMETIC_OVERFLOW);
    list_length -= 16;
    check_bounds("none", 1, 1, below_most(0), below_most(0));
}

static void toll_bounds_of_tokens(void) {
    unsigned token;
    begin_season(small(100));
    add_example();
    for (token = 0; token < 256; token++) {
        if (token == TOKEN || token == LAST_TOKEN) continue;
        check_no_bounds("token", ask((uint8_t)token, small(2), small(6)), TOKEN_VAULT_REFUSAL_INVALID_TOLL_BOUNDS);
    }
    check("last token", ask(LAST_TOKEN, small(2), small(6)), TOKEN_VAULT_DONE);
    check_holding("last token", least, small(11));
    check_holding("last token", greatest, small(18));
    put_token(FROZEN, TOKEN_VAULT_TOKEN_MOVING, small(50));
    check("token that moves again", ask(FROZEN, small(2), small(6)), TOKEN_VAULT_DONE);
    check_holding("token that moves again", least, small(54));
}

/* Moves an amount of token 48 from an address that holds as much to the vault. */
static void move_in(uint8_t from, int64_t amount) {
    token_vault_put_amount(season + token_vault_holding_place(TOKEN, from), small(amount));
    token_vault_record_begin(record, TOKEN_VAULT_OP_OUTSIDE_MOVE);
    token_vault_record_set_token(record, TOKEN);
    token_vault_record_set_caller(record, from);
    token_vault_record_set_other(record, TOKEN_VAULT_VAULT_ADDRESS);
    token_vault_record_set_amount(record, small(amount));
    check("outside_move",
          token_vault_call_without_journal(season, sizeof season, record, sizeof record, events, sizeof events, value, &count),
          TOKEN_VAULT_DONE);
}

/* At each toll the token itself leaves the vault the holding at that toll, from the least to the greatest of the bounds. */
static void toll_bounds_and_the_token(void) {
    const uint8_t *held = season + token_vault_holding_place(TOKEN, TOKEN_VAULT_VAULT_ADDRESS);
    int64_t toll, low = 0, high = 0, left = 0;
    begin_season(small(100));
    add_example();
    check("bounds", ask(TOKEN, small(0), small(11)), TOKEN_VAULT_DONE);
    check("least", (uint64_t)token_vault_amount_to_int64(token_vault_get_amount(least), &low), 1);
    check("greatest", (uint64_t)token_vault_amount_to_int64(token_vault_get_amount(greatest), &high), 1);
    for (toll = 0; toll <= 11; toll++) {
        begin_season(small(100));
        add_example();
        check("one toll", ask(TOKEN, small(toll), small(toll)), TOKEN_VAULT_DONE);
        token_vault_put_amount(season + token_vault_token_place(TOKEN) + TOKEN_VAULT_TOKEN_AT_TOLL, small(toll));
        move_in(0, 10);
        move_in(OWNER, 5);
        move_in(63, 1);
        check("least is left", memcmp(held, least, sizeof least) == 0, 1);
        check("greatest is left", memcmp(held, greatest, sizeof greatest) == 0, 1);
        check("left", (uint64_t)token_vault_amount_to_int64(token_vault_get_amount(held), &left), 1);
        check("between the two", low <= left && left <= high, 1);
    }
}

static void fields(void) {
    token_vault_record_begin(record, TOKEN_VAULT_OP_APPROVE_TOKEN);
    token_vault_record_set_caller(record, 7);
    token_vault_record_set_token(record, 49);
    token_vault_record_set_other(record, 8);
    token_vault_record_set_flag(record, 5);
    token_vault_record_set_timestamp(record, 0x0102030405060708u);
    token_vault_record_set_ledger_sequence(record, 0xfffefdfcu);
    token_vault_record_add_signer(record, 0);
    token_vault_record_add_signer(record, 63);
    token_vault_record_add_signer(record, 64);
    token_vault_record_set_amount(record, token_vault_amount_from_int64(INT64_MIN));
    token_vault_record_set_fee(record, token_vault_amount_from_int64(-2));
    check("operation", token_vault_record_operation(record), 20);
    check("caller", token_vault_record_caller(record), 7);
    check("token", token_vault_record_token(record), 49);
    check("other", token_vault_record_other(record), 8);
    check("flag", token_vault_record_flag(record), 1);
    check("timestamp", token_vault_record_timestamp(record), 0x0102030405060708u);
    check("first byte of the timestamp", record[8], 8);
    check("ledger sequence", token_vault_record_ledger_sequence(record), 0xfffefdfcu);
    check("signers", token_vault_record_signers(record), 0x8000000000000001u);
    check_amount("amount", token_vault_record_amount(record), INT64_MIN);
    check_amount("fee", token_vault_record_fee(record), -2);
    check("last byte of the fee", record[63], 0xff);
    token_vault_record_set_seconds(record, 60);
    check("seconds", token_vault_record_seconds(record), 60);
    check("first byte of the seconds", record[32], 60);
    token_vault_put_u16(record, 0x1234);
    check("two bytes", token_vault_get_u16(record), 0x1234);
}

static void amounts(void) {
    struct token_vault_amount large = {0, 1}, low = {(uint64_t)INT64_MAX, -1}, greatest = {UINT64_MAX, INT64_MAX}, least = {0, INT64_MIN};
    uint8_t bytes[16];
    int64_t found = 5;
    check("2^64", (uint64_t)token_vault_amount_to_int64(large, &found), 0);
    check("-2^64 + 2^63 - 1", (uint64_t)token_vault_amount_to_int64(low, &found), 0);
    check("2^127 - 1", (uint64_t)token_vault_amount_to_int64(greatest, &found), 0);
    check("left as it was", (uint64_t)found, 5);
    check_amount("greatest of 64 bits", token_vault_amount_from_int64(INT64_MAX), INT64_MAX);
    token_vault_put_amount(bytes, least);
    check("last byte of -2^127", bytes[15], 0x80);
    check("high half of -2^127", token_vault_get_amount(bytes).high == INT64_MIN, 1);
    token_vault_put_amount(bytes, greatest);
    check("high half of 2^127 - 1", token_vault_get_amount(bytes).high == INT64_MAX, 1);
    check("low half of 2^127 - 1", token_vault_get_amount(bytes).low, UINT64_MAX);
}

static int is_refusal(uint32_t number) {
    return (number >= 1 && number <= 23) || (number >= 30 && number <= 37) || number == 46;
}

static void refusals(void) {
    uint32_t number, names = 0, sentences = 0;
    for (number = 0; number < 100; number++) {
        names += (token_vault_refusal_name(number) != NULL) == is_refusal(number);
        sentences += (token_vault_refusal_sentence(number) != NULL) == is_refusal(number);
    }
    check("names", names, 100);
    check("sentences", sentences, 100);
    check("name", strcmp(token_vault_refusal_name(TOKEN_VAULT_REFUSAL_LIMIT_EXCEEDED), "LimitExceeded") == 0, 1);
    check("sentence", strcmp(token_vault_refusal_sentence(TOKEN_VAULT_REFUSAL_CONTRACT_PAUSED), "The vault is paused.") == 0, 1);
}

int main(void) {
    calls_without_journal();
    transactions();
    buffers_that_are_refused();
    items();
    previews();
    previews_that_are_refused();
    previews_in_transactions();
    trial_records();
    trial_records_in_parts();
    trial_records_that_are_refused();
    toll_bounds();
    toll_bounds_at_the_ends();
    toll_bounds_that_are_refused();
    toll_bounds_in_order();
    toll_bounds_of_tokens();
    toll_bounds_and_the_token();
    fields();
    amounts();
    refusals();
    printf("calls: %d checks, %d wrong\n", checked, wrong);
    return wrong != 0;
}
