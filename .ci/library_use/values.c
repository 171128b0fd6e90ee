/* Declarations and values: checks, lines and parts, each with what it is promised. */
#include "calls.h"

/* After RFC 1813: what a READDIR answers, as one list. */
const char text[] =
    "const NAMES = 255;\n"
    "typedef string filename<NAMES>;\n"
    "struct entry { unsigned hyper fileid; filename name; unsigned hyper cookie; entry *next; };\n"
    "struct dirlist { entry *entries; bool eof; };\n"
    "union reply switch (int status) { case 0: dirlist list; default: void; };\n"
    "program NFS { version V3 { reply READDIR(filename, hyper) = 16; void NULL(void) = 0; } = 3; } = 100003;\n";
const size_t text_count = sizeof text - 1;

#define ENTRY "\0\0\0\1\0\0\0\0\0\0\0\2\0\0\0\3abc\0\0\0\0\0\0\0\0\3"
const struct row rows[] = {
    {"reply", "\0\0\0\0" ENTRY ENTRY "\0\0\0\0\0\0\0\1", 68, ONCRPC_OK, 0, 68},
    {"reply", "\0\0\0\5" ENTRY, 32, ONCRPC_MORE_FOLLOWS, 0, 4},
    {"reply", "\0\0\0\0" ENTRY "\0\0\0\2", 36, ONCRPC_REFUSED, ONCRPC_BAD_BOOL, 32},
    {"reply", "\0\0\0\0\0\0\0\1\0\0\0\0\0\0\0\2\0\0\1\0", 20, ONCRPC_REFUSED, ONCRPC_TOO_LONG, 16},
    {"filename", "\0\0\0\1ab\0\0", 8, ONCRPC_REFUSED, ONCRPC_BAD_PADDING, 4},
    {"filename", "\0\0\0\377", 4, ONCRPC_REFUSED, ONCRPC_TRUNCATED, 4},
    {"opaque", "\377\377\377\377", 4, ONCRPC_REFUSED, ONCRPC_TRUNCATED, 4},
    {"100003.3.16.result", "\0\0\0\0\0\0\0\0\0\0\0\1", 12, ONCRPC_OK, 0, 12},
    {"100003.3.16.1", "\0\0\0\1ab\0\0", 8, ONCRPC_REFUSED, ONCRPC_BAD_PADDING, 4},
    {"100003.3.16.2", "\0\0\0\0\0\0\0\1", 8, ONCRPC_OK, 0, 8},
    {"100003.3.16.3", "", 0, ONCRPC_NO_KIND, 0, 0},
    {"100003.3.16.0", "", 0, ONCRPC_NO_KIND, 0, 0},
    {"100003.3.0.result", "", 0, ONCRPC_NO_KIND, 0, 0},
    {"100003.3.016.1", "", 0, ONCRPC_NO_KIND, 0, 0},
    {"folder", "", 0, ONCRPC_NO_KIND, 0, 0},
    {"\377", "", 0, ONCRPC_NO_KIND, 0, 0},
};
const size_t row_count = sizeof rows / sizeof *rows;

static void check_held(oncrpc_declarations *held, const struct row *row) {
    oncrpc_outcome outcome = {9, 9, 9, 9, 9};
    uint32_t status = oncrpc_declarations_check(held, bytes(row->name), strlen(row->name), ONCRPC_MOST_DEPTH,
        ONCRPC_MOST_BYTES, bytes(row->input), row->count, &outcome);
    judge(status == row->status && tells(&outcome, row->at, row->why), status);
}

/* The parts of a value tile its bytes, and their names the names. */
static int are_parts(const oncrpc_value_part *parts, size_t count, size_t used, size_t names) {
    size_t at = 0, name_at = 0;
    for (size_t i = 0; i < count; i++) {
        const oncrpc_value_part *part = parts + i;
        int is_told = part->role >= ONCRPC_ROLE_NUMBER && part->role <= ONCRPC_ROLE_GROUP && part->xdr_type
            && part->xdr_type <= ONCRPC_TYPE_VOID && part->depth && part->depth <= ONCRPC_MOST_DEPTH;
        if (!is_told || part->at != at || part->name_at != name_at) {
            return 0;
        }
        at += (part->count + 3) / 4 * 4;
        name_at += part->name_count;
    }
    return at == used && name_at == names;
}

/* The parts tell of the bytes what a check tells, in room that is just enough and not in less. */
void list_held(oncrpc_declarations *held, const struct row *row, size_t count) {
    oncrpc_value_part parts[40], kept[40];
    uint8_t names[256], unwritten[256];
    oncrpc_outcome check;
    oncrpc_parts_outcome found = {9, 9, 9, 9}, again;
    const uint8_t *name = bytes(row->name), *input = bytes(row->input);
    size_t name_count = strlen(row->name);
    memset(parts, '.', sizeof parts), memset(kept, '.', sizeof kept);
    memset(names, '.', sizeof names), memset(unwritten, '.', sizeof unwritten);
    uint32_t wanted = oncrpc_declarations_check(held, name, name_count, ONCRPC_MOST_DEPTH, ONCRPC_MOST_BYTES, input,
        count, &check);
    uint32_t status = oncrpc_declarations_parts(held, name, name_count, ONCRPC_MOST_DEPTH, ONCRPC_MOST_BYTES, input,
        count, parts, 0, names, 0, &found);
    int is_kept = !memcmp(parts, kept, sizeof parts) && !memcmp(names, unwritten, sizeof names);
    int has_value = wanted <= ONCRPC_MORE_FOLLOWS;
    if (wanted == ONCRPC_NO_MEMORY) {
        judge(0, wanted);
        return;
    }
    judge(is_kept && status == (has_value ? (uint32_t)ONCRPC_NO_ROOM : wanted) && found.at == check.at
        && found.why == check.why && !found.parts == !has_value && (has_value || !found.names), status);
    if (status != ONCRPC_NO_ROOM || found.parts > 40 || found.names > 256) {
        return;
    }
    status = oncrpc_declarations_parts(held, name, name_count, ONCRPC_MOST_DEPTH, ONCRPC_MOST_BYTES, input, count,
        parts, found.parts - 1, names, found.names, &again);
    is_kept = !memcmp(parts, kept, sizeof parts) && !memcmp(names, unwritten, sizeof names);
    judge(is_kept && status == ONCRPC_NO_ROOM && again.parts == found.parts && again.names == found.names, status);
    status = oncrpc_declarations_parts(held, name, name_count, ONCRPC_MOST_DEPTH, ONCRPC_MOST_BYTES, input, count,
        parts, found.parts, names, found.names, &again);
    int rest_is_kept = !memcmp(parts + found.parts, kept, (40 - found.parts) * sizeof *parts)
        && !memcmp(names + found.names, unwritten, 256 - found.names);
    judge(rest_is_kept && status == wanted && !memcmp(&again, &found, sizeof again)
        && are_parts(parts, again.parts, again.at, again.names), status);
}

/* A value is listed: the first part of content is the name that it spells. */
static void check_listed(oncrpc_declarations *held) {
    oncrpc_value_part parts[4];
    uint8_t names[4];
    oncrpc_parts_outcome found = {9, 9, 9, 9};
    uint32_t status = oncrpc_declarations_parts(held, bytes("filename"), 8, 1, 8,
        bytes("\0\0\0\3abc"), 8, parts, 4, names, 4, &found);
    judge(status == ONCRPC_OK && found.at == 8 && found.parts == 2 && !found.names && !found.why
        && parts[0].role == ONCRPC_ROLE_LENGTH && parts[0].count == 4 && parts[1].role == ONCRPC_ROLE_CONTENT
        && parts[1].at == 4 && parts[1].count == 3 && parts[1].xdr_type == ONCRPC_TYPE_STRING
        && parts[1].kind == parts[0].kind && parts[1].depth == 1, status);
}

/* Lines tell of the bytes what a check tells, and stand at the front of the room, where it has enough. */
static void show_held(oncrpc_declarations *held, const struct row *row) {
    uint8_t room[512], unwritten[512];
    size_t written = 9;
    oncrpc_outcome outcome = {9, 9, 9, 9, 9};
    const uint8_t *name = bytes(row->name), *input = bytes(row->input);
    int has_value = row->status <= ONCRPC_MORE_FOLLOWS;
    memset(room, '.', sizeof room), memset(unwritten, '.', sizeof unwritten);
    uint32_t status = oncrpc_declarations_show(held, name, strlen(row->name), ONCRPC_MOST_DEPTH, ONCRPC_MOST_BYTES,
        input, row->count, room, 0, &written, &outcome);
    int is_told = has_value ? status == ONCRPC_NO_ROOM && tells(&outcome, outcome.at, 0) && outcome.at
        : status == row->status && tells(&outcome, row->at, row->why);
    judge(is_told && !written && !memcmp(room, unwritten, sizeof room), status);
    status = oncrpc_declarations_show(held, name, strlen(row->name), ONCRPC_MOST_DEPTH, ONCRPC_MOST_BYTES, input,
        row->count, room, sizeof room, &written, &outcome);
    int is_put = has_value ? written && room[written - 1] == '\n' : !written;
    judge(status == row->status && tells(&outcome, row->at, row->why) && is_put
        && !memcmp(room + written, unwritten, sizeof room - written), status);
}

static void check_shown(oncrpc_declarations *held) {
    uint8_t room[8] = "........";
    size_t written = 9;
    oncrpc_outcome outcome;
    uint32_t status = oncrpc_declarations_show(held, bytes("filename"), 8, 1, 8,
        bytes("\0\0\0\3abc"), 8, room, sizeof room, &written, &outcome);
    judge(status == ONCRPC_OK && tells(&outcome, 8, 0) && written == 6 && !memcmp(room, "\"abc\"\n..", 8), status);
}

static void check_by_text(const struct row *row) {
    oncrpc_outcome outcome = {9, 9, 9, 9, 9};
    uint32_t status = oncrpc_check(bytes(text), text_count, bytes(row->name),
        strlen(row->name), ONCRPC_MOST_DEPTH, ONCRPC_MOST_BYTES, bytes(row->input), row->count, &outcome);
    judge(status == row->status && tells(&outcome, row->at, row->why), status);
}

static void check_text(void) {
    static const char *texts[] = {"struct", "struct a { a b; };", "const A = 1; const A = 2;", "\377", "/*"};
    static const uint32_t faults[] = {ONCRPC_UNEXPECTED, ONCRPC_BAD_SCHEMA, ONCRPC_NAME_TWICE, ONCRPC_BAD_CHARACTER,
        ONCRPC_BAD_CHARACTER};
    for (size_t i = 0; i < sizeof texts / sizeof *texts; i++) {
        oncrpc_declarations held = ONCRPC_NONE;
        oncrpc_outcome outcome;
        uint32_t status = oncrpc_declarations_read(bytes(texts[i]), strlen(texts[i]), &held, &outcome);
        int is_told = outcome.why == faults[i] && !outcome.at && outcome.line && outcome.column;
        judge(status == ONCRPC_UNDECLARED && is_told, status);
        oncrpc_declarations_free(&held);
    }
}

/* The handle holds no declarations: each call says so. */
static void check_none(oncrpc_declarations *held) {
    oncrpc_outcome outcome = {9, 9, 9, 9, 9};
    oncrpc_parts_outcome found = {9, 9, 9, 9};
    oncrpc_value_part part;
    uint8_t byte;
    uint32_t status = oncrpc_declarations_check(held, bytes("int"), 3, 1, 4, NULL, 0, &outcome);
    judge(status == ONCRPC_NO_DECLARATIONS && tells(&outcome, 0, 0), status);
    status = oncrpc_declarations_parts(held, bytes("int"), 3, 1, 4, NULL, 0, &part, 1, &byte, 1, &found);
    judge(status == ONCRPC_NO_DECLARATIONS && !found.at && !found.parts && !found.names && !found.why, status);
}

/* Reads, checks, shows, lists and frees, each twice over. */
void check_values(void) {
    oncrpc_declarations held = ONCRPC_NONE;
    oncrpc_outcome outcome;
    for (int again = 0; again < 2; again++) {
        uint32_t status = oncrpc_declarations_read(bytes(text), text_count, &held, &outcome);
        judge(status == ONCRPC_OK && tells(&outcome, 0, 0), status);
        for (size_t i = 0; status == ONCRPC_OK && i < row_count; i++) {
            check_held(&held, rows + i);
            show_held(&held, rows + i);
            list_held(&held, rows + i, rows[i].count);
        }
        if (status == ONCRPC_OK) {
            check_listed(&held);
            check_shown(&held);
        }
    }
    check_by_text(rows);
    check_by_text(rows + 3);
    check_text();
    oncrpc_declarations_free(&held);
    oncrpc_declarations_free(&held);
    check_none(&held);
}
