/* The registry, and replies that wait. */
#include "calls.h"

/* Calls of version 2 of the registry, and what they are answered (RFC 1833 section 3): NULL, SET of program 300 in
 * version 7 over tcp at port 2049, GETPORT of it, and of one that is not there. */
#define ASKS(procedure) "\0\0\0\7\0\0\0\0\0\0\0\2\0\1\x86\xa0\0\0\0\2\0\0\0" procedure \
    "\0\0\0\0\0\0\0\0\0\0\0\0\0\0\0\0"
#define TELLS "\0\0\0\7\0\0\0\1\0\0\0\0\0\0\0\0\0\0\0\0\0\0\0\0"
#define MAPPING(version) "\0\0\1\x2c\0\0\0" version "\0\0\0\6\0\0\x08\1"
static const struct { const char *call; size_t count; const char *reply; size_t size; } asks[] = {
    {ASKS("\0"), 40, TELLS, 24},
    {ASKS("\1") MAPPING("\7"), 56, TELLS "\0\0\0\1", 28},
    {ASKS("\3") MAPPING("\7"), 56, TELLS "\0\0\x08\1", 28},
    {ASKS("\3") "\0\0\1\x2d\0\0\0\7\0\0\0\6\0\0\0\0", 56, TELLS "\0\0\0\0", 28},
};

/* Asks with too little room, and takes the reply that waits. Where a growth was refused the reply may be SYSTEM_ERR.
 * Says whether it was not. */
static int check_ask(oncrpc_registry *held, size_t i) {
    uint8_t room[64], before[64];
    oncrpc_outcome outcome = {9, 9, 9, 9, 9}, taken = {9, 9, 9, 9, 9};
    memset(room, '.', sizeof room);
    memset(before, '.', sizeof before);
    const uint8_t *call = bytes(asks[i].call);
    uint32_t status = oncrpc_registry_answer(held, bytes("tcp"), 3, call, asks[i].count, room, 23, &outcome);
    judge(status == ONCRPC_NO_ROOM && tells(&outcome, outcome.at, 0) && !memcmp(room, before, 64), status);
    status = oncrpc_registry_reply(held, room, sizeof room, &taken);
    int is_refused = refused_growth() && taken.at == 24 && room[23] == 5;
    int is_told = is_refused || (taken.at == asks[i].size && !memcmp(room, asks[i].reply, taken.at));
    int is_kept = tells(&taken, outcome.at, 0) && !memcmp(room + taken.at, before, 32);
    judge(status == ONCRPC_OK && is_told && is_kept, status);
    status = oncrpc_registry_reply(held, room, sizeof room, &taken);
    judge(status == ONCRPC_SILENCE && tells(&taken, 0, 0), status);
    if (is_refused) {
        count_wanting();
    }
    return !is_refused;
}

/* The rows of a registry that was started at port 111 (RFC 1833 sections 2 and 3), and the one that was set. */
static const struct { uint32_t program, version; const char *netid, *address, *owner; } listed[] = {
    {100000, 2, "tcp", "0.0.0.0.0.111", "superuser"},
    {100000, 2, "udp", "0.0.0.0.0.111", "superuser"},
    {100000, 3, "tcp", "0.0.0.0.0.111", "superuser"},
    {100000, 3, "udp", "0.0.0.0.0.111", "superuser"},
    {100000, 4, "tcp", "0.0.0.0.0.111", "superuser"},
    {100000, 4, "udp", "0.0.0.0.0.111", "superuser"},
    {300, 7, "tcp", "0.0.0.0.8.1", "unknown"},
};
enum { LISTED = sizeof listed / sizeof *listed, TEXTS = 6 * 25 + 21 };

/* The row that was set, whose three texts are "tcp0.0.0.0.8.1unknown", behind the six rows of 3, 13 and 9 bytes. */
static const oncrpc_registry_row set_row = {300, 7, {150, 3}, {153, 11}, {164, 7}};

/* The text is that of the part, which begins at this place. */
static int has_text(const uint8_t *texts, oncrpc_part part, size_t at, const char *text) {
    return part.at == at && part.count == strlen(text) && at + part.count <= TEXTS
        && !memcmp(texts + at, text, part.count);
}

/* The rows are those that are listed, each text directly behind the one before it. */
static void judge_rows(const oncrpc_registry_row *rows, const uint8_t *texts) {
    size_t at = 0;
    for (size_t k = 0; k < LISTED; k++) {
        size_t address = at + strlen(listed[k].netid), owner = address + strlen(listed[k].address);
        judge(rows[k].program == listed[k].program && rows[k].version == listed[k].version
            && has_text(texts, rows[k].netid, at, listed[k].netid)
            && has_text(texts, rows[k].address, address, listed[k].address)
            && has_text(texts, rows[k].owner, owner, listed[k].owner), (uint32_t)k);
        at = owner + strlen(listed[k].owner);
    }
    judge(!memcmp(rows + LISTED - 1, &set_row, sizeof set_row), LISTED);
    judge(!memcmp(texts + 150, "tcp0.0.0.0.8.1unknown", 21), LISTED);
}

/* All rows in their order; one row or one byte too few, and nothing is written. A reply that waits, waits on. */
static void list_rows(oncrpc_registry *held) {
    oncrpc_registry_row rows[LISTED + 1], untouched[LISTED + 1];
    uint8_t texts[TEXTS + 1], before[TEXTS + 1];
    oncrpc_rows_outcome found = {9, 9};
    oncrpc_outcome outcome = {9, 9, 9, 9, 9};
    memset(rows, '.', sizeof rows);
    memset(untouched, '.', sizeof untouched);
    memset(texts, '.', sizeof texts);
    memset(before, '.', sizeof before);
    uint32_t waits = oncrpc_registry_answer(held, "tcp", 3, asks[0].call, asks[0].count, NULL, 0, &outcome);
    judge(waits == ONCRPC_NO_ROOM, waits);
    for (int i = 0; i < 3; i++) {
        uint32_t status = oncrpc_registry_rows(held, rows, LISTED - (i == 0), texts, TEXTS - (i == 1), &found);
        int is_refused = status == ONCRPC_NO_MEMORY && !found.rows && !found.bytes;
        int is_told = found.rows == LISTED && found.bytes == TEXTS;
        judge(is_refused || (status == (i < 2 ? ONCRPC_NO_ROOM : ONCRPC_OK) && is_told), status);
        int are_kept = !memcmp(rows, untouched, sizeof rows) && !memcmp(texts, before, sizeof texts);
        judge(status == ONCRPC_OK || are_kept, 0);
        if (status == ONCRPC_OK) {
            judge_rows(rows, texts);
        }
    }
    judge(!memcmp(rows + LISTED, untouched, sizeof *rows) && texts[TEXTS] == '.', 0);
    waits = oncrpc_registry_reply(held, texts, sizeof texts, &outcome);
    judge(waits == ONCRPC_OK && outcome.at == 24, waits);
}

static void check_rows(oncrpc_registry *held) {
    oncrpc_outcome outcome = {9, 9, 9, 9, 9};
    const uint8_t *at = bytes("0.0.0.0.8.1"), *me = bytes("1000 and more");
    uint32_t status = oncrpc_registry_set(held, 301, 7, bytes("udp"), 3, at, 11, me, 4, &outcome);
    judge(status == ONCRPC_OK && tells(&outcome, 0, 0), status);
    int is_set = status == ONCRPC_OK;
    status = oncrpc_registry_set(held, 301, 7, bytes("udp"), 3, at, 11, me, 11, &outcome);
    judge(status == ONCRPC_UNCHANGED && tells(&outcome, 0, 0), status);
    status = oncrpc_registry_unset(held, 301, 7, bytes("udp"), 3, me, 3, &outcome);
    judge(status == ONCRPC_UNCHANGED && tells(&outcome, 0, 0), status);
    status = oncrpc_registry_unset(held, 301, 7, bytes(""), 0, me, 4, &outcome);
    judge(status == (is_set ? ONCRPC_OK : ONCRPC_UNCHANGED) && tells(&outcome, 0, 0), status);
}

void check_registry(void) {
    uint8_t room[64];
    oncrpc_registry held = ONCRPC_NONE;
    oncrpc_outcome outcome = {9, 9, 9, 9, 9};
    uint32_t status = oncrpc_registry_start(&held, 111, bytes("0123456789abcdef"), 16, &outcome);
    judge(status == ONCRPC_OK && tells(&outcome, 0, 0), status);
    uint32_t none = status == ONCRPC_OK ? 0 : ONCRPC_NO_REGISTRY;
    int is_set = 1;
    for (size_t i = 0; !none && is_set && i < sizeof asks / sizeof *asks; i++) {
        is_set = check_ask(&held, i);
    }
    if (!none && is_set) {
        list_rows(&held);
    }
    if (!none) {
        check_rows(&held);
    }
    status = oncrpc_registry_answer(&held, bytes("tcp6"), 4, asking, 76, room, sizeof room, &outcome);
    judge(status == (none ? none : ONCRPC_NO_TRANSPORT) && tells(&outcome, 0, 0), status);
    status = oncrpc_registry_answer(&held, bytes("udp"), 3, telling, 28, room, sizeof room, &outcome);
    judge(status == (none ? none : ONCRPC_SILENCE) && tells(&outcome, 0, 0), status);
    oncrpc_registry_free(&held);
    oncrpc_registry_free(&held);
    status = oncrpc_registry_unset(&held, 301, 7, bytes("udp"), 3, bytes("me"), 2, &outcome);
    judge(status == ONCRPC_NO_REGISTRY && tells(&outcome, 0, 0), status);
    oncrpc_rows_outcome found = {9, 9};
    status = oncrpc_registry_rows(&held, NULL, 0, room, sizeof room, &found);
    judge(status == ONCRPC_NO_REGISTRY && !found.rows && !found.bytes, status);
}

