/* Each call at size, with all the memory that it asks for: 1 MiB of bytes where its input may have so many, and what it
 * takes at most where it may not. An allocation failure is wrong here. */
#include <stdio.h>

#include "calls.h"

enum { MIB = 1 << 20, ITEMS = MIB / 4, TEXT = 262144, ROWS = 1024, OWN_ROWS = 6, ADDRESS = 256, FRAMES = 1024,
    NAMES = 100000 };

/* What the calls read, and a buffer of more than what they write. */
static uint8_t input[2 * MIB], buffer[4 * MIB];
static oncrpc_value_part parts[ITEMS + 2];

static void put_number(uint8_t *at, uint32_t number) {
    at[0] = (uint8_t)(number >> 24), at[1] = (uint8_t)(number >> 16), at[2] = (uint8_t)(number >> 8);
    at[3] = (uint8_t)number;
}

/* Bytes that differ from place to place. */
static void fill_input(size_t count) {
    for (size_t i = 0; i < count; i++) {
        input[i] = (uint8_t)(i * 7 + i / 251);
    }
}

/* How many types the greatest text has: typedefs of one length behind the first. */
static size_t type_count;

/* The greatest text: behind its front as many typedefs of one length as go into it, and spaces. Answers how many. */
static size_t fill_text(char *longest, const char *front) {
    size_t types = 0, count = strlen(front);
    memcpy(longest, front, count);
    for (; count <= TEXT - 20; types++) {
        count += (size_t)snprintf(longest + count, 21, "typedef int t%05d;\n", (int)types);
    }
    memset(longest + count, ' ', TEXT - count);
    return types;
}

static void read_text(oncrpc_declarations *held) {
    static char longest[TEXT + 32];
    oncrpc_outcome outcome = {9, 9, 9, 9, 9};
    type_count = fill_text(longest, "typedef int list<>;\n") + 1;
    uint32_t status = oncrpc_declarations_read(bytes(longest), TEXT, held, &outcome);
    judge(status == ONCRPC_OK && tells(&outcome, 0, 0), status);
    put_number(input, 7);
    status = oncrpc_check(bytes(longest), TEXT, bytes("t00009"), 6, 1, 4, input, 4, &outcome);
    judge(status == ONCRPC_OK && tells(&outcome, 4, 0), status);
}

/* The same in rpcgen's dialect, which asks for the last of many names. */
static void read_dialect_text(void) {
    static char longest[TEXT + 32];
    oncrpc_declarations held = ONCRPC_NONE;
    oncrpc_outcome outcome = {9, 9, 9, 9, 9};
    size_t count = 0;
    fill_text(longest, "#ifdef n99999\ntypedef int here;\n#endif\n");
    for (int i = 0; i < NAMES; i++) {
        count += (size_t)snprintf((char *)input + count, 8, "n%05d ", i);
    }
    uint32_t status = oncrpc_declarations_read_dialect(bytes(longest), TEXT, input, count, &held, &outcome);
    judge(status == ONCRPC_OK && tells(&outcome, 0, 0), status);
    status = oncrpc_declarations_check(&held, bytes("here"), 4, 1, 4, bytes("\0\0\0\7"), 4, &outcome);
    judge(status == ONCRPC_OK && tells(&outcome, 4, 0), status);
    oncrpc_declarations_free(&held);
}

/* An opaque and a list of 1 MiB. */
static void check_value(oncrpc_declarations *held) {
    oncrpc_outcome outcome = {9, 9, 9, 9, 9};
    fill_input(MIB + 4);
    put_number(input, MIB);
    uint32_t status = oncrpc_check(NULL, 0, bytes("opaque"), 6, 1, ONCRPC_MOST_BYTES, input, MIB + 4, &outcome);
    judge(status == ONCRPC_OK && tells(&outcome, MIB + 4, 0), status);
    status = oncrpc_declarations_check(held, bytes("opaque"), 6, 1, ONCRPC_MOST_BYTES, input, MIB + 4, &outcome);
    judge(status == ONCRPC_OK && tells(&outcome, MIB + 4, 0), status);
    put_number(input, ITEMS);
    status = oncrpc_declarations_check(held, bytes("list"), 4, 2, ONCRPC_MOST_BYTES, input, MIB + 4, &outcome);
    judge(status == ONCRPC_OK && tells(&outcome, MIB + 4, 0), status);
}

/* The line of the opaque is 0x, two digits for each byte, and a newline. */
static void show_value(oncrpc_declarations *held) {
    static const char digits[] = "0123456789abcdef";
    oncrpc_outcome outcome = {9, 9, 9, 9, 9};
    size_t written = 9;
    fill_input(MIB + 4);
    put_number(input, MIB);
    uint32_t status = oncrpc_declarations_show(held, bytes("opaque"), 6, 1, ONCRPC_MOST_BYTES, input, MIB + 4, buffer,
        sizeof buffer, &written, &outcome);
    int is_line = written == 2 * MIB + 3 && !memcmp(buffer, "0x", 2) && buffer[2 * MIB + 2] == '\n';
    for (size_t i = 0; is_line && i < MIB; i++) {
        is_line = buffer[2 + 2 * i] == digits[input[4 + i] >> 4] && buffer[3 + 2 * i] == digits[input[4 + i] & 15];
    }
    judge(status == ONCRPC_OK && tells(&outcome, MIB + 4, 0) && is_line, status);
}

/* The opaque as a string of two digits for each byte, there and back. */
static void tell_value(oncrpc_declarations *held) {
    static const char digits[] = "0123456789abcdef";
    static uint8_t back[MIB + 8];
    oncrpc_outcome outcome = {9, 9, 9, 9, 9};
    size_t written = 9, count = 9;
    fill_input(MIB + 4);
    put_number(input, MIB);
    uint32_t status = oncrpc_declarations_to_json(held, bytes("opaque"), 6, 1, ONCRPC_MOST_BYTES, input, MIB + 4, false,
        buffer, sizeof buffer, &written, &outcome);
    int is_text = written == 2 * MIB + 2 && buffer[0] == '"' && buffer[2 * MIB + 1] == '"';
    for (size_t i = 0; is_text && i < MIB; i++) {
        is_text = buffer[1 + 2 * i] == digits[input[4 + i] >> 4] && buffer[2 + 2 * i] == digits[input[4 + i] & 15];
    }
    judge(status == ONCRPC_OK && tells(&outcome, MIB + 4, 0) && is_text, status);
    status = oncrpc_declarations_from_json(held, bytes("opaque"), 6, 1, ONCRPC_MOST_BYTES, buffer, written, back,
        MIB + 3, &count, &outcome);
    judge(status == ONCRPC_NO_ROOM && tells(&outcome, MIB + 4, 0) && !count && !back[0], status);
    status = oncrpc_declarations_from_json(held, bytes("opaque"), 6, 1, ONCRPC_MOST_BYTES, buffer, written, back,
        sizeof back, &count, &outcome);
    judge(status == ONCRPC_OK && tells(&outcome, MIB + 4, 0) && count == MIB + 4 && !memcmp(back, input, MIB + 4),
        status);
}

/* The list of 1 MiB in both layouts, there and back. */
static void tell_list(oncrpc_declarations *held) {
    static uint8_t back[MIB + 4];
    memset(input, 0, MIB + 4);
    put_number(input, ITEMS);
    for (int is_indented = 0; is_indented < 2; is_indented++) {
        const char *front = is_indented ? "[\n  0,\n  0" : "[0,0", *end = is_indented ? "0\n]" : "0]";
        size_t wanted = is_indented ? 5 * ITEMS + 2 : 2 * ITEMS + 1, written = 9, count = 9;
        oncrpc_outcome outcome = {9, 9, 9, 9, 9};
        uint32_t status = oncrpc_declarations_to_json(held, bytes("list"), 4, 2, ONCRPC_MOST_BYTES, input, MIB + 4,
            is_indented, buffer, sizeof buffer, &written, &outcome);
        int is_text = written == wanted && !memcmp(buffer, front, strlen(front))
            && !memcmp(buffer + wanted - strlen(end), end, strlen(end));
        judge(status == ONCRPC_OK && tells(&outcome, MIB + 4, 0) && is_text, status);
        memset(back, '.', sizeof back);
        status = oncrpc_declarations_from_json(held, bytes("list"), 4, 2, ONCRPC_MOST_BYTES, buffer, wanted, back,
            sizeof back, &count, &outcome);
        judge(status == ONCRPC_OK && tells(&outcome, MIB + 4, 0) && count == MIB + 4 && !memcmp(back, input, MIB + 4),
            status);
    }
}

/* Each type of the greatest text, and no memory for any. */
static void list_types(oncrpc_declarations *held) {
    char wanted[8];
    size_t before = growth_bytes();
    for (size_t i = 0; i <= type_count; i++) {
        oncrpc_member member = {9, 9, 9};
        uint32_t status = oncrpc_declarations_type(held, i, buffer, sizeof buffer, &member);
        snprintf(wanted, sizeof wanted, "t%05u", (unsigned)(i - 1) % 100000);
        judge(i == type_count ? status == ONCRPC_NO_MEMBER && member.name_count == 9
            : status == ONCRPC_OK && !memcmp(buffer, i ? wanted : "list", member.name_count)
            && member.name_count == (i ? 6 : 4) && !member.number, status);
    }
    judge(growth_bytes() == before, 0);
}

/* The parts of the list: itself, and each item at its place. Where there is no array they are counted, with or
 * without a buffer for names, and no list of them is made: what is asked for is a few frames. */
static void list_value(oncrpc_declarations *held) {
    oncrpc_parts_outcome found = {9, 9, 9, 9};
    put_number(input, ITEMS);
    size_t before = growth_bytes();
    uint32_t status = oncrpc_declarations_parts(held, bytes("list"), 4, 2, ONCRPC_MOST_BYTES, input, MIB + 4, NULL, 0,
        NULL, 0, &found);
    judge(status == ONCRPC_NO_ROOM && found.at == MIB + 4 && found.parts == ITEMS + 1 && !found.names
        && growth_bytes() - before < FRAMES, status);
    before = growth_bytes();
    status = oncrpc_declarations_parts(held, bytes("list"), 4, 2, ONCRPC_MOST_BYTES, input, MIB + 4, NULL, 0,
        buffer, 1, &found);
    judge(status == ONCRPC_NO_ROOM && found.parts == ITEMS + 1 && growth_bytes() - before < FRAMES, status);
    status = oncrpc_declarations_parts(held, bytes("list"), 4, 2, ONCRPC_MOST_BYTES, input, MIB + 4, parts, ITEMS,
        NULL, 0, &found);
    judge(status == ONCRPC_NO_ROOM && found.parts == ITEMS + 1, status);
    status = oncrpc_declarations_parts(held, bytes("list"), 4, 2, ONCRPC_MOST_BYTES, input, MIB + 4, parts, ITEMS + 2,
        NULL, 0, &found);
    int are_right = found.parts == ITEMS + 1 && parts[0].xdr_type == ONCRPC_TYPE_ARRAY && parts[0].depth == 1;
    for (size_t i = 1; are_right && i <= ITEMS; i++) {
        are_right = parts[i].at == 4 * i && parts[i].count == 4 && parts[i].xdr_type == ONCRPC_TYPE_INT
            && parts[i].depth == 2;
    }
    judge(status == ONCRPC_OK && found.at == MIB + 4 && are_right, status);
}

/* The last item of the list by its path, and the one behind it, which is none. What is asked for is a few frames. */
static void find_item(oncrpc_declarations *held) {
    char path[16];
    oncrpc_value_part part;
    oncrpc_outcome outcome = {9, 9, 9, 9, 9};
    oncrpc_number number = {9, 9};
    put_number(input, ITEMS);
    put_number(input + MIB, 0x80000000u);
    for (int behind = 0; behind < 2; behind++) {
        int count = snprintf(path, sizeof path, "[%d]", ITEMS - 1 + behind);
        size_t before = growth_bytes();
        uint32_t status = oncrpc_declarations_find(held, bytes("list"), 4, 2, ONCRPC_MOST_BYTES, input, MIB + 4, path,
            (size_t)count, &part, &outcome);
        judge(status == (uint32_t)(behind ? ONCRPC_NO_SUCH_PART : ONCRPC_OK) && tells(&outcome, 0, 0) && part.at == MIB
            && part.count == 4 && growth_bytes() - before < FRAMES, status);
    }
    uint32_t status = oncrpc_part_number(held, input, MIB + 4, &part, &number);
    judge(status == ONCRPC_OK && number.signed_number == -2147483648 && !number.number, status);
}

/* The list by a cursor, each item and all at once. What is asked for is a few frames. */
static void go_over_items(oncrpc_declarations *held) {
    oncrpc_parts cursor = ONCRPC_NONE;
    oncrpc_value_part part;
    oncrpc_outcome outcome = {9, 9, 9, 9, 9};
    put_number(input, ITEMS);
    size_t before = growth_bytes(), count = 0;
    uint32_t status = oncrpc_declarations_parts_start(held, bytes("list"), 4, 2, ONCRPC_MOST_BYTES, input, MIB + 4,
        &cursor, &outcome);
    judge(status == ONCRPC_OK && tells(&outcome, MIB + 4, 0), status);
    while ((status = oncrpc_declarations_parts_next(held, &cursor, input, MIB + 4, &part, NULL, 0)) == ONCRPC_OK) {
        count += part.at == (count ? 4 * count : 0) && part.count == 4 && part.depth == (count ? 2 : 1);
    }
    judge(status == ONCRPC_NO_PART && count == ITEMS + 1, status);
    status = oncrpc_declarations_parts_start(held, bytes("list"), 4, 2, ONCRPC_MOST_BYTES, input, MIB + 4, &cursor,
        &outcome);
    judge(status == ONCRPC_OK, status);
    status = oncrpc_declarations_parts_next(held, &cursor, input, MIB + 4, &part, NULL, 0);
    judge(status == ONCRPC_OK && part.xdr_type == ONCRPC_TYPE_ARRAY, status);
    status = oncrpc_declarations_parts_skip(held, &cursor, input, MIB + 4, 1);
    judge(status == ONCRPC_OK, status);
    status = oncrpc_declarations_parts_next(held, &cursor, input, MIB + 4, &part, NULL, 0);
    judge(status == ONCRPC_NO_PART && growth_bytes() - before < FRAMES, status);
    oncrpc_parts_free(&cursor);
}

/* The opaque of 1 MiB as one item, and the list of as many bytes, an item for each number. */
static void write_value(oncrpc_declarations *held) {
    static oncrpc_item items[ITEMS + 1];
    oncrpc_outcome outcome = {9, 9, 9, 9, 9};
    size_t written = 9;
    fill_input(MIB);
    items[0] = (oncrpc_item){ONCRPC_ITEM_CONTENT, 0, 0, 0, MIB};
    uint32_t status = oncrpc_declarations_write(held, bytes("opaque"), 6, 1, ONCRPC_MOST_BYTES, items, 1, input, MIB,
        buffer, sizeof buffer, &written, &outcome);
    judge(status == ONCRPC_OK && tells(&outcome, MIB + 4, 0) && written == MIB + 4 && !memcmp(buffer, "\0\20\0\0", 4)
        && !memcmp(buffer + 4, input, MIB), status);
    items[0] = (oncrpc_item){ONCRPC_ITEM_COUNT, 0, 0, 0, ITEMS};
    put_number(input, ITEMS);
    for (uint32_t i = 1; i <= ITEMS; i++) {
        items[i] = (oncrpc_item){ONCRPC_ITEM_SIGNED, (int32_t)(i * 40503u), 0, 0, 0};
        put_number(input + 4 * i, i * 40503u);
    }
    status = oncrpc_declarations_write(held, bytes("list"), 4, 2, ONCRPC_MOST_BYTES, items, ITEMS + 1, NULL, 0,
        buffer, sizeof buffer, &written, &outcome);
    judge(status == ONCRPC_OK && tells(&outcome, MIB + 4, 0) && written == MIB + 4 && !memcmp(buffer, input, MIB + 4),
        status);
    status = oncrpc_declarations_write(held, bytes("list"), 4, 2, ONCRPC_MOST_BYTES, items, ITEMS, NULL, 0, buffer,
        sizeof buffer, &written, &outcome);
    judge(status == ONCRPC_BAD_ITEM && tells(&outcome, ITEMS, ONCRPC_UNFINISHED) && !written, status);
}

/* Records of 1000 bytes in two fragments each, some 2 MiB of them, whose fragments are joined. */
static void normalise_records(void) {
    enum { RECORDS = 2 * MIB / 1008 };
    oncrpc_outcome outcome = {9, 9, 9, 9, 9};
    size_t written = 9;
    fill_input(sizeof input);
    for (size_t i = 0; i < RECORDS; i++) {
        put_number(input + 1008 * i, 400);
        put_number(input + 1008 * i + 404, 0x80000000u | 600);
    }
    uint32_t status = oncrpc_normalise(input, 1008 * RECORDS, 1000, buffer, sizeof buffer, &written, &outcome);
    int is_right = written == 1004 * (size_t)RECORDS;
    for (size_t i = 0; is_right && i < RECORDS; i++) {
        const uint8_t *from = input + 1008 * i, *to = buffer + 1004 * i;
        is_right = !memcmp(to, "\x80\0\3\xe8", 4) && !memcmp(to + 4, from + 4, 400)
            && !memcmp(to + 404, from + 408, 600);
    }
    judge(status == ONCRPC_OK && tells(&outcome, 1004 * (size_t)RECORDS, 0) && is_right, status);
}

/* A call and a reply with 1 MiB behind them, and 400 bytes of credential and verifier. */
static void write_messages(void) {
    oncrpc_call call = {7, 0, 8, 9, 10, 11, 12, {0, 0}, {0, 0}, {0, 0}}, read = {0};
    oncrpc_reply reply = {0}, answered = {0};
    size_t count = 9;
    fill_input(MIB);
    uint32_t status = oncrpc_call_write(&call, input, 400, input, 400, input, MIB, buffer, sizeof buffer, &count);
    judge(status == ONCRPC_OK && count == 40 + 800 + MIB && !memcmp(buffer + 840, input, MIB), status);
    status = oncrpc_call_read(buffer, count, &read);
    judge(status == ONCRPC_OK && read.xid == 7 && read.arguments.at == 840 && read.arguments.count == MIB
        && read.verifier.count == 400 && read.credential.count == 400, status);
    reply.xid = 7;
    status = oncrpc_reply_write(&reply, input, 400, input, MIB, buffer, sizeof buffer, &count);
    judge(status == ONCRPC_OK && count == 24 + 400 + MIB && !memcmp(buffer + 424, input, MIB), status);
    status = oncrpc_reply_read(buffer, count, &answered);
    judge(status == ONCRPC_OK && answered.xid == 7 && answered.results.at == 424
        && answered.results.count == MIB, status);
}

/* The greatest body of AUTH_SYS: 16 gids and 255 bytes of name. */
static void write_credential(void) {
    oncrpc_auth_sys auth = {1, 2, 3, 16, {4, 5, 6, 7, 8, 9, 10, 11, 12, 13, 14, 15, 16, 17, 18, 19}, {0, 0}};
    oncrpc_auth_sys read = {0};
    size_t count = 9;
    uint32_t status = oncrpc_auth_sys_write(&auth, input, 255, buffer, sizeof buffer, &count);
    judge(status == ONCRPC_OK && count == 8 + 256 + 12 + 64, status);
    status = oncrpc_auth_sys_read(buffer, count, &read);
    judge(status == ONCRPC_OK && read.machine.count == 255 && read.gid_count == 16 && read.gids[15] == 19
        && read.uid == 2 && read.gid == 3, status);
}

/* A record of 1 MiB in fragments of 4096 bytes, in pieces of 5000, and at once. */
static void read_record(size_t piece) {
    enum { FRAGMENTS = MIB / 4096, COUNT = MIB + 4 * FRAGMENTS };
    oncrpc_records held = ONCRPC_NONE;
    oncrpc_outcome outcome = {9, 9, 9, 9, 9};
    fill_input(COUNT);
    for (size_t i = 0; i < FRAGMENTS; i++) {
        put_number(input + 4100 * i, (i + 1 == FRAGMENTS ? 0x80000000u : 0) | 4096);
    }
    uint32_t status = oncrpc_records_start(&held, MIB, &outcome);
    judge(status == ONCRPC_OK, status);
    for (size_t at = 0; at < COUNT; at += piece) {
        size_t size = COUNT - at < piece ? COUNT - at : piece;
        status = oncrpc_records_feed(&held, input + at, size, &outcome);
        int is_last = at + size == COUNT;
        uint32_t wanted = is_last ? ONCRPC_OK : ONCRPC_MORE_WANTED;
        judge(status == wanted && outcome.at == (is_last ? size : 0), status);
    }
    status = oncrpc_records_end(&held, &outcome);
    judge(status == ONCRPC_OK, status);
    status = oncrpc_records_take(&held, buffer, sizeof buffer, &outcome);
    int is_right = outcome.at == MIB;
    for (size_t i = 0; is_right && i < FRAGMENTS; i++) {
        is_right = !memcmp(buffer + 4096 * i, input + 4100 * i + 4, 4096);
    }
    judge(status == ONCRPC_OK && is_right, status);
    oncrpc_records_free(&held);
}

/* The greatest registry: 1024 rows, all but its own with 64 bytes of netid, 256 of address and 10 of owner. */
static void fill_rows(oncrpc_registry *held) {
    oncrpc_outcome outcome = {9, 9, 9, 9, 9};
    fill_input(MIB);
    uint32_t status = oncrpc_registry_start(held, 111, input, MIB, &outcome);
    judge(status == ONCRPC_OK, status);
    memset(input, 'a', ADDRESS);
    for (uint32_t i = OWN_ROWS; i < ROWS; i++) {
        status = oncrpc_registry_set(held, i, 1, input, 64, input, ADDRESS, input, 10, &outcome);
        judge(status == ONCRPC_OK, status);
    }
    status = oncrpc_registry_set(held, ROWS, 1, input, 64, input, ADDRESS, input, 10, &outcome);
    judge(status == ONCRPC_UNCHANGED, status);
}

/* DUMP of version 3 (RFC 1833 section 2.2.1) of the greatest registry. Each of its own rows has 56 bytes of results: a
 * flag, two numbers, a netid of 8 bytes, an address of 20 and an owner of 16, each with its length. */
enum { ROW = 4 + 8 + 4 + 64 + 4 + ADDRESS + 4 + 12, OWN_ROW = 4 + 8 + 8 + 20 + 16 };
static const size_t wanted = 24 + OWN_ROWS * OWN_ROW + (ROWS - OWN_ROWS) * ROW + 4;

static void list_rows(oncrpc_registry *held) {
    oncrpc_call call = {7, 0, 100000, 3, 4, 0, 0, {0, 0}, {0, 0}, {0, 0}};
    oncrpc_outcome outcome = {9, 9, 9, 9, 9};
    size_t count = 9;
    uint32_t status = oncrpc_call_write(&call, NULL, 0, NULL, 0, NULL, 0, input, sizeof input, &count);
    judge(status == ONCRPC_OK && count == 40, status);
    status = oncrpc_registry_answer(held, bytes("tcp"), 3, input, count, NULL, 0, &outcome);
    judge(status == ONCRPC_NO_ROOM && outcome.at == wanted, status);
    status = oncrpc_registry_reply(held, buffer, sizeof buffer, &outcome);
    judge(status == ONCRPC_OK && outcome.at == wanted
        && !memcmp(buffer + wanted - 16, "aaaaaaaaaa\0\0\0\0\0", 16), status);
    status = oncrpc_registry_answer(held, bytes("tcp"), 3, input, count, buffer, sizeof buffer, &outcome);
    judge(status == ONCRPC_OK && outcome.at == wanted, status);
    memset(input, 0, MIB);
    status = oncrpc_registry_answer(held, bytes("tcp"), 3, input, MIB, buffer, sizeof buffer, &outcome);
    judge(status == ONCRPC_OK && outcome.at == 24
        && !memcmp(buffer, "\0\0\0\0\0\0\0\1\0\0\0\1\0\0\0\0\0\0\0\2\0\0\0\2", 24), status);
}

/* The same rows in process: each by its place. */
static void list_in_process(oncrpc_registry *held) {
    static oncrpc_registry_row rows[ROWS];
    enum { TEXTS = OWN_ROWS * (3 + 13 + 9) + (ROWS - OWN_ROWS) * (64 + ADDRESS + 10) };
    oncrpc_rows_outcome found = {9, 9};
    uint32_t status = oncrpc_registry_rows(held, NULL, 0, NULL, 0, &found);
    judge(status == ONCRPC_NO_ROOM && found.rows == ROWS && found.bytes == TEXTS, status);
    status = oncrpc_registry_rows(held, rows, ROWS, buffer, TEXTS, &found);
    int are_right = found.rows == ROWS && found.bytes == TEXTS;
    for (size_t i = OWN_ROWS; are_right && i < ROWS; i++) {
        are_right = rows[i].program == i && rows[i].version == 1 && rows[i].netid.count == 64
            && rows[i].address.count == ADDRESS && rows[i].owner.count == 10 && buffer[rows[i].owner.at] == 'a'
            && rows[i].owner.at + 10 <= TEXTS;
    }
    judge(status == ONCRPC_OK && are_right, status);
}

/* The same DUMP in a record of 65536 bytes, the greatest, over a connection with the greatest bound. */
static void dump_over_session(oncrpc_registry *held) {
    static const oncrpc_caller user = {ONCRPC_PEER_LOCAL_USER, 1000, {0}, false, false};
    oncrpc_call call = {7, 0, 100000, 3, 4, 0, 0, {0, 0}, {0, 0}, {0, 0}};
    oncrpc_session session = ONCRPC_NONE;
    oncrpc_outcome outcome = {9, 9, 9, 9, 9};
    size_t count = 9;
    uint32_t status = oncrpc_session_start(&session, "local", 5, &user, UINT32_MAX, &outcome);
    judge(status == ONCRPC_OK && tells(&outcome, 0, 0), status);
    memset(input, 0, 65540);
    put_number(input, 0x80010000u);
    status = oncrpc_call_write(&call, NULL, 0, NULL, 0, NULL, 0, input + 4, 65536, &count);
    judge(status == ONCRPC_OK && count == 40, status);
    status = oncrpc_session_feed(&session, held, input, 65000, &outcome);
    judge(status == ONCRPC_MORE_WANTED && tells(&outcome, 0, 0), status);
    status = oncrpc_session_feed(&session, held, input + 65000, 1000, &outcome);
    judge(status == ONCRPC_OK && tells(&outcome, 540, 0), status);
    status = oncrpc_session_output(&session, buffer, sizeof buffer, &outcome);
    judge(status == ONCRPC_OK && tells(&outcome, 4 + wanted, 0)
        && !memcmp(buffer + 4 + wanted - 16, "aaaaaaaaaa\0\0\0\0\0", 16), status);
    status = oncrpc_session_took(&session, 4 + wanted, &outcome);
    judge(status == ONCRPC_OK && tells(&outcome, 0, 0), status);
    oncrpc_session_free(&session);
}

/* SET of version 3 of the greatest row, and again, by a user whom the kernel names, with 400 bytes of credential and of
 * verifier. It takes the place of the last row for a while. */
static void set_by_user(oncrpc_registry *held) {
    static const oncrpc_caller user = {ONCRPC_PEER_LOCAL_USER, 1000, {0}, false, false};
    static uint8_t row[8 + 4 + 64 + 4 + ADDRESS + 4], texts[400];
    oncrpc_call call = {7, 0, 100000, 3, 1, 0, 0, {0, 0}, {0, 0}, {0, 0}};
    oncrpc_outcome outcome = {9, 9, 9, 9, 9};
    size_t count = 9;
    memset(texts, 'a', sizeof texts);
    memset(row, 'a', sizeof row);
    put_number(row, ROWS - 1), put_number(row + 4, 1), put_number(row + 8, 64), put_number(row + 76, ADDRESS);
    put_number(row + sizeof row - 4, 0);
    uint32_t status = oncrpc_registry_unset(held, ROWS - 1, 1, texts, 64, texts, 10, &outcome);
    judge(status == ONCRPC_OK, status);
    status = oncrpc_call_write(&call, texts, 400, texts, 400, row, sizeof row, input, MIB, &count);
    judge(status == ONCRPC_OK && count == 840 + sizeof row, status);
    for (int turn = 0; turn < 2; turn++) {
        status = oncrpc_registry_answer_from(held, &user, "tcp", 3, input, count, buffer, sizeof buffer, &outcome);
        judge(status == ONCRPC_OK && tells(&outcome, 28, 0)
            && !memcmp(buffer, "\0\0\0\7\0\0\0\1\0\0\0\0\0\0\0\0\0\0\0\0\0\0\0\0\0\0\0\1", 28), status);
    }
    status = oncrpc_registry_unset(held, ROWS - 1, 1, texts, 64, "1000", 4, &outcome);
    judge(status == ONCRPC_OK, status);
    status = oncrpc_registry_set(held, ROWS - 1, 1, texts, 64, texts, ADDRESS, texts, 10, &outcome);
    judge(status == ONCRPC_OK, status);
}

/* A text of 1 MiB is no address. */
static void read_long_address(void) {
    uint8_t host[4];
    uint16_t port = 9;
    memset(input, '1', MIB);
    uint32_t status = oncrpc_uaddr_read(input, MIB, host, &port);
    judge(status == ONCRPC_NOT_AN_ADDRESS && !port, status);
    memset(input, '.', MIB);
    status = oncrpc_uaddr_read(input, MIB, host, &port);
    judge(status == ONCRPC_NOT_AN_ADDRESS && !port, status);
}

static void drop_rows(oncrpc_registry *held) {
    oncrpc_outcome outcome = {9, 9, 9, 9, 9};
    memset(input, 'a', ADDRESS);
    for (uint32_t i = OWN_ROWS; i < ROWS; i++) {
        uint32_t status = oncrpc_registry_unset(held, i, 1, input, 64, input, 10, &outcome);
        judge(status == ONCRPC_OK, status);
    }
    oncrpc_registry_free(held);
}

void check_sizes(void) {
    oncrpc_declarations declarations = ONCRPC_NONE;
    oncrpc_registry registry = ONCRPC_NONE;
    read_text(&declarations);
    read_dialect_text();
    check_value(&declarations);
    show_value(&declarations);
    tell_value(&declarations);
    tell_list(&declarations);
    list_types(&declarations);
    list_value(&declarations);
    find_item(&declarations);
    go_over_items(&declarations);
    write_value(&declarations);
    oncrpc_declarations_free(&declarations);
    normalise_records();
    write_messages();
    write_credential();
    read_record(5000);
    read_record(2 * MIB);
    fill_rows(&registry);
    list_rows(&registry);
    list_in_process(&registry);
    dump_over_session(&registry);
    set_by_user(&registry);
    drop_rows(&registry);
    read_long_address();
}
