/* NULL with a count of 0, at each pointer that has a count. */
#include "calls.h"

static void no_cursors(oncrpc_declarations *held) {
    oncrpc_outcome outcome = {9, 9, 9, 9, 9};
    oncrpc_value_part part = {9, 9, 9, 9, 9, 9, 9, 9};
    oncrpc_parts cursor = ONCRPC_NONE;
    uint32_t status = oncrpc_declarations_parts_start(held, NULL, 0, 1, 4, NULL, 0, &cursor, &outcome);
    judge(status == ONCRPC_NO_KIND && tells(&outcome, 0, 0), status);
    status = oncrpc_declarations_parts_start(held, "int", 3, 1, 4, NULL, 0, &cursor, &outcome);
    judge(status == ONCRPC_REFUSED && tells(&outcome, 0, ONCRPC_TRUNCATED), status);
    status = oncrpc_declarations_parts_next(held, &cursor, NULL, 0, &part, NULL, 0);
    judge(status == ONCRPC_NO_CURSOR && part.at == 9, status);
    status = oncrpc_declarations_parts_start(held, "int", 3, 1, 4, "\0\0\0\7", 4, &cursor, &outcome);
    judge(status == ONCRPC_OK && tells(&outcome, 4, 0), status);
    status = oncrpc_declarations_parts_next(held, &cursor, "\0\0\0\7", 4, &part, NULL, 0);
    judge(status == ONCRPC_OK && !part.at && part.count == 4, status);
    status = oncrpc_declarations_parts_next(held, &cursor, NULL, 0, &part, NULL, 0);
    judge(status == ONCRPC_ASTRAY && !part.at, status);
    oncrpc_parts_free(&cursor);
}

static void no_paths(oncrpc_declarations *held) {
    oncrpc_outcome outcome = {9, 9, 9, 9, 9};
    oncrpc_value_part part = {9, 9, 9, 9, 9, 9, 9, 9};
    oncrpc_number number = {9, 9};
    oncrpc_member member = {9, 9, 9};
    uint32_t kind = 9;
    uint32_t status = oncrpc_declarations_find(held, NULL, 0, 1, 4, NULL, 0, NULL, 0, &part, &outcome);
    judge(status == ONCRPC_NO_KIND && tells(&outcome, 0, 0) && part.at == 9, status);
    status = oncrpc_declarations_find(held, bytes("int"), 3, 1, 4, NULL, 0, NULL, 0, &part, &outcome);
    judge(status == ONCRPC_REFUSED && tells(&outcome, 0, ONCRPC_TRUNCATED) && part.at == 9, status);
    status = oncrpc_declarations_find(held, bytes("int"), 3, 1, 4, bytes("\0\0\0\7"), 4, NULL, 0, &part, &outcome);
    judge(status == ONCRPC_OK && tells(&outcome, 0, 0) && !part.at && part.count == 4, status);
    status = oncrpc_part_number(held, NULL, 0, &part, &number);
    judge(status == ONCRPC_NO_NUMBER && number.number == 9, status);
    no_cursors(held);
    status = oncrpc_declarations_named(held, NULL, 0, &kind);
    judge(status == ONCRPC_NO_KIND && kind == 9, status);
    status = oncrpc_declarations_member(held, 0, 0, NULL, 0, &member);
    judge(status == ONCRPC_NO_MEMBER && member.name_count == 9, status);
    status = oncrpc_declarations_picked(held, 0, 0, NULL, 0, &member);
    judge(status == ONCRPC_NO_MEMBER && member.name_count == 9, status);
    status = oncrpc_declarations_type(held, 0, NULL, 0, &member);
    judge(status == ONCRPC_NO_MEMBER && member.name_count == 9, status);
}

static void no_values(void) {
    oncrpc_declarations held = ONCRPC_NONE;
    oncrpc_outcome outcome = {9, 9, 9, 9, 9};
    oncrpc_parts_outcome found = {9, 9, 9, 9};
    static const oncrpc_item empty = {ONCRPC_ITEM_CONTENT, 0, 0, 0, 0};
    size_t written = 9;
    uint32_t status = oncrpc_check(NULL, 0, NULL, 0, 1, 4, NULL, 0, &outcome);
    judge(status == ONCRPC_NO_KIND && tells(&outcome, 0, 0), status);
    status = oncrpc_check(NULL, 0, bytes("int"), 3, 1, 4, NULL, 0, &outcome);
    judge(status == ONCRPC_REFUSED && tells(&outcome, 0, ONCRPC_TRUNCATED), status);
    status = oncrpc_declarations_read(NULL, 0, &held, &outcome);
    judge(status == ONCRPC_OK && tells(&outcome, 0, 0), status);
    status = oncrpc_declarations_check(&held, NULL, 0, 1, 4, NULL, 0, &outcome);
    judge(status == ONCRPC_NO_KIND && tells(&outcome, 0, 0), status);
    status = oncrpc_declarations_check(&held, bytes("opaque"), 6, 1, 4, NULL, 0, &outcome);
    judge(status == ONCRPC_REFUSED && tells(&outcome, 0, ONCRPC_TRUNCATED), status);
    status = oncrpc_declarations_show(&held, NULL, 0, 1, 4, NULL, 0, NULL, 0, &written, &outcome);
    judge(status == ONCRPC_NO_KIND && !written, status);
    status = oncrpc_declarations_show(&held, bytes("int"), 3, 1, 4, bytes("\0\0\0\7"), 4, NULL, 0, &written, &outcome);
    judge(status == ONCRPC_NO_ROOM && tells(&outcome, 2, 0) && !written, status);
    written = 9;
    status = oncrpc_declarations_to_json(&held, NULL, 0, 1, 4, NULL, 0, true, NULL, 0, &written, &outcome);
    judge(status == ONCRPC_NO_KIND && !written, status);
    status = oncrpc_declarations_to_json(&held, bytes("int"), 3, 1, 4, bytes("\0\0\0\7"), 4, true, NULL, 0, &written,
        &outcome);
    judge(status == ONCRPC_NO_ROOM && tells(&outcome, 1, 0) && !written, status);
    written = 9;
    status = oncrpc_declarations_from_json(&held, NULL, 0, 1, 4, NULL, 0, NULL, 0, &written, &outcome);
    judge(status == ONCRPC_NO_KIND && tells(&outcome, 0, 0) && !written, status);
    status = oncrpc_declarations_from_json(&held, bytes("int"), 3, 1, 4, NULL, 0, NULL, 0, &written, &outcome);
    judge(status == ONCRPC_BAD_JSON && outcome.why == ONCRPC_JSON_NOT_JSON && !outcome.at && outcome.line == 1
        && outcome.column == 1 && !written, status);
    status = oncrpc_declarations_from_json(&held, bytes("int"), 3, 1, 4, bytes("7"), 1, NULL, 0, &written, &outcome);
    judge(status == ONCRPC_NO_ROOM && tells(&outcome, 4, 0) && !written, status);
    status = oncrpc_declarations_parts(&held, NULL, 0, 1, 4, NULL, 0, NULL, 0, NULL, 0, &found);
    judge(status == ONCRPC_NO_KIND && !found.parts, status);
    status = oncrpc_declarations_parts(&held, bytes("int"), 3, 1, 4, bytes("\0\0\0\7"), 4, NULL, 0, NULL, 0, &found);
    judge(status == ONCRPC_NO_ROOM && found.at == 4 && found.parts == 1 && !found.names, status);
    written = 9;
    status = oncrpc_declarations_write(&held, NULL, 0, 1, 4, NULL, 0, NULL, 0, NULL, 0, &written, &outcome);
    judge(status == ONCRPC_NO_KIND && tells(&outcome, 0, 0) && !written, status);
    status = oncrpc_declarations_write(&held, bytes("int"), 3, 1, 4, NULL, 0, NULL, 0, NULL, 0, &written, &outcome);
    judge(status == ONCRPC_BAD_ITEM && tells(&outcome, 0, ONCRPC_UNFINISHED) && !written, status);
    status = oncrpc_declarations_write(&held, bytes("opaque"), 6, 1, 4, &empty, 1, NULL, 0, NULL, 0, &written,
        &outcome);
    judge(status == ONCRPC_NO_ROOM && tells(&outcome, 4, 0) && !written, status);
    no_paths(&held);
    oncrpc_declarations_free(&held);
    status = oncrpc_normalise(NULL, 0, 0, NULL, 0, &written, &outcome);
    judge(status == ONCRPC_OK && tells(&outcome, 0, 0) && !written, status);
}

static void no_messages(void) {
    oncrpc_call call = {0};
    oncrpc_reply reply = {0};
    oncrpc_auth_sys auth = {0};
    uint8_t buffer[40];
    size_t count = 9;
    uint32_t status = oncrpc_call_read(NULL, 0, &call);
    judge(status == ONCRPC_NOT_A_CALL, status);
    status = oncrpc_call_write(&call, NULL, 0, NULL, 0, NULL, 0, NULL, 0, &count);
    judge(status == ONCRPC_NO_ROOM && count == 40, status);
    status = oncrpc_call_write(&call, NULL, 0, NULL, 0, NULL, 0, buffer, 40, &count);
    judge(status == ONCRPC_OK && count == 40 && !memcmp(buffer + 24, "\0\0\0\0\0\0\0\0\0\0\0\0\0\0\0", 16), status);
    status = oncrpc_reply_read(NULL, 0, &reply);
    judge(status == ONCRPC_CUT, status);
    status = oncrpc_reply_write(&reply, NULL, 0, NULL, 0, NULL, 0, &count);
    judge(status == ONCRPC_NO_ROOM && count == 24, status);
    status = oncrpc_reply_write(&reply, NULL, 0, NULL, 0, buffer, 40, &count);
    judge(status == ONCRPC_OK && count == 24, status);
    status = oncrpc_auth_sys_read(NULL, 0, &auth);
    judge(status == ONCRPC_NOT_AUTH_SYS, status);
    status = oncrpc_auth_sys_write(&auth, NULL, 0, NULL, 0, &count);
    judge(status == ONCRPC_NO_ROOM && count == 20, status);
    status = oncrpc_auth_sys_write(&auth, NULL, 0, buffer, 40, &count);
    judge(status == ONCRPC_OK && count == 20, status);
}

static void no_records(void) {
    oncrpc_records held = ONCRPC_NONE;
    oncrpc_outcome outcome = {9, 9, 9, 9, 9};
    uint32_t status = oncrpc_records_start(&held, 4, &outcome);
    judge(status == ONCRPC_OK, status);
    status = oncrpc_records_feed(&held, NULL, 0, &outcome);
    judge(status == ONCRPC_MORE_WANTED && tells(&outcome, 0, 0), status);
    status = oncrpc_records_take(&held, NULL, 0, &outcome);
    judge(status == ONCRPC_NO_RECORD && tells(&outcome, 0, 0), status);
    status = oncrpc_records_feed(&held, bytes("\x80\0\0\0\x80\0\0\1a"), 9, &outcome);
    judge(status == ONCRPC_OK && tells(&outcome, 4, 0), status);
    status = oncrpc_records_take(&held, NULL, 0, &outcome);
    judge(status == ONCRPC_OK && tells(&outcome, 0, 0), status);
    status = oncrpc_records_feed(&held, bytes("\x80\0\0\1a"), 5, &outcome);
    judge(status == ONCRPC_OK && tells(&outcome, 5, 0), status);
    status = oncrpc_records_take(&held, NULL, 0, &outcome);
    judge(status == ONCRPC_NO_ROOM && tells(&outcome, 1, 0), status);
    oncrpc_records_free(&held);
}

static void no_rows(void) {
    oncrpc_registry held = ONCRPC_NONE;
    oncrpc_outcome outcome = {9, 9, 9, 9, 9};
    uint32_t status = oncrpc_registry_start(&held, 111, NULL, 0, &outcome);
    judge(status == ONCRPC_OK, status);
    status = oncrpc_registry_answer(&held, NULL, 0, NULL, 0, NULL, 0, &outcome);
    judge(status == ONCRPC_NO_TRANSPORT, status);
    status = oncrpc_registry_answer(&held, bytes("udp"), 3, NULL, 0, NULL, 0, &outcome);
    judge(status == ONCRPC_SILENCE, status);
    status = oncrpc_registry_answer(&held, bytes("tcp"), 3, asking, 76, NULL, 0, &outcome);
    judge(status == ONCRPC_NO_ROOM && outcome.at, status);
    status = oncrpc_registry_reply(&held, NULL, 0, &outcome);
    judge(status == ONCRPC_NO_ROOM && outcome.at, status);
    status = oncrpc_registry_set(&held, 300, 1, NULL, 0, NULL, 0, NULL, 0, &outcome);
    judge(status == ONCRPC_UNCHANGED, status);
    status = oncrpc_registry_set(&held, 300, 1, bytes("tcp"), 3, bytes("0.0.0.0.8.1"), 11, NULL, 0, &outcome);
    judge(status == ONCRPC_OK, status);
    status = oncrpc_registry_unset(&held, 300, 1, NULL, 0, NULL, 0, &outcome);
    judge(status == ONCRPC_OK, status);
    oncrpc_rows_outcome found = {9, 9};
    status = oncrpc_registry_rows(&held, NULL, 0, NULL, 0, &found);
    judge(status == ONCRPC_NO_ROOM && found.rows == 6 && found.bytes == 150, status);
    oncrpc_registry_free(&held);
}

static void no_address(void) {
    uint8_t host[4] = {9, 9, 9, 9};
    uint16_t port = 9;
    size_t count = 9;
    uint32_t status = oncrpc_uaddr_read(NULL, 0, host, &port);
    judge(status == ONCRPC_NOT_AN_ADDRESS && !port && !memcmp(host, "\0\0\0\0", 4), status);
    status = oncrpc_uaddr_write(host, port, NULL, 0, &count);
    judge(status == ONCRPC_NO_ROOM && count == 11, status);
}

void check_nothing(void) {
    no_values();
    no_messages();
    no_records();
    no_rows();
    no_address();
}
