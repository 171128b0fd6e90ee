/* The parts of a value one by one, and those that are passed over. The file is that of RFC 4506 section 7. */
#include "calls.h"

static const char declared[] =
    "enum filekind { TEXT = 0, DATA = 1, EXEC = 2 };\n"
    "union filetype switch (filekind kind) {\n"
    "case TEXT: void; case DATA: string creator<255>; case EXEC: string interpretor<255>; };\n"
    "struct file { string filename<255>; filetype type; string owner<32>; opaque data<65535>; };\n"
    "struct node { int number; node *next; };\n"
    "struct all { int pair[2]; node list<2>; hyper h; };\n";

/* RFC 4506 section 7: the places and the bytes of its table, from 0. A byte follows the value. */
static const char file[] =
    "\0\0\0\11sillyprog\0\0\0" "\0\0\0\2" "\0\0\0\4lisp" "\0\0\0\4john" "\0\0\0\6(quit)\0\0";

/* RFC 4506 sections 4.1, 4.5, 4.12, 4.13, 4.19: 36 bytes. */
static const char all[] =
    "\0\0\0\1\0\0\0\2" "\0\0\0\2" "\0\0\0\3\0\0\0\0" "\0\0\0\4\0\0\0\0" "\0\0\0\0\0\0\0\5";

struct wanted { size_t at, count; uint32_t depth, type, role; const char *name; };

/* The parts of the file, as RFC 4506 section 7 has its bytes. */
static const struct wanted of_file[] = {
    {0, 0, 1, ONCRPC_TYPE_STRUCT, ONCRPC_ROLE_GROUP, ""},
    {0, 4, 2, ONCRPC_TYPE_STRING, ONCRPC_ROLE_LENGTH, "filename"},
    {4, 9, 2, ONCRPC_TYPE_STRING, ONCRPC_ROLE_CONTENT, "filename"},
    {16, 4, 2, ONCRPC_TYPE_UNION, ONCRPC_ROLE_NUMBER, "type"},
    {20, 4, 3, ONCRPC_TYPE_STRING, ONCRPC_ROLE_LENGTH, "interpretor"},
    {24, 4, 3, ONCRPC_TYPE_STRING, ONCRPC_ROLE_CONTENT, "interpretor"},
    {28, 4, 2, ONCRPC_TYPE_STRING, ONCRPC_ROLE_LENGTH, "owner"},
    {32, 4, 2, ONCRPC_TYPE_STRING, ONCRPC_ROLE_CONTENT, "owner"},
    {36, 4, 2, ONCRPC_TYPE_OPAQUE, ONCRPC_ROLE_LENGTH, "data"},
    {40, 6, 2, ONCRPC_TYPE_OPAQUE, ONCRPC_ROLE_CONTENT, "data"},
};

static const struct wanted of_all[] = {
    {0, 0, 1, ONCRPC_TYPE_STRUCT, ONCRPC_ROLE_GROUP, ""},
    {0, 0, 2, ONCRPC_TYPE_FIXED_ARRAY, ONCRPC_ROLE_GROUP, "pair"},
    {0, 4, 3, ONCRPC_TYPE_INT, ONCRPC_ROLE_NUMBER, ""},
    {4, 4, 3, ONCRPC_TYPE_INT, ONCRPC_ROLE_NUMBER, ""},
    {8, 4, 2, ONCRPC_TYPE_ARRAY, ONCRPC_ROLE_LENGTH, "list"},
    {12, 0, 3, ONCRPC_TYPE_STRUCT, ONCRPC_ROLE_GROUP, ""},
    {12, 4, 4, ONCRPC_TYPE_INT, ONCRPC_ROLE_NUMBER, "number"},
    {16, 4, 4, ONCRPC_TYPE_OPTIONAL, ONCRPC_ROLE_FLAG, "next"},
    {20, 0, 3, ONCRPC_TYPE_STRUCT, ONCRPC_ROLE_GROUP, ""},
    {20, 4, 4, ONCRPC_TYPE_INT, ONCRPC_ROLE_NUMBER, "number"},
    {24, 4, 4, ONCRPC_TYPE_OPTIONAL, ONCRPC_ROLE_FLAG, "next"},
    {28, 8, 2, ONCRPC_TYPE_HYPER, ONCRPC_ROLE_NUMBER, "h"},
};

struct value { const char *name, *input; size_t count; const struct wanted *parts; size_t part_count; };
static const struct value values[] = {
    {"file", file, sizeof file - 1, of_file, sizeof of_file / sizeof *of_file},
    {"all", all, sizeof all - 1, of_all, sizeof of_all / sizeof *of_all},
};

static const oncrpc_value_part unset = {9, 9, 9, 9, 9, 9, 9, 9};

static int start(oncrpc_declarations *held, const struct value *value, size_t more, oncrpc_parts *cursor) {
    oncrpc_outcome outcome = {9, 9, 9, 9, 9};
    uint32_t status = oncrpc_declarations_parts_start(held, value->name, strlen(value->name), 9, 96, value->input,
        value->count + more, cursor, &outcome);
    uint32_t whole = more ? ONCRPC_MORE_FOLLOWS : ONCRPC_OK;
    judge(status == whole && tells(&outcome, value->count, 0), status);
    return status == whole;
}

/* The part of this index, with its name in a buffer, or without one. */
static uint32_t next(oncrpc_declarations *held, const struct value *value, size_t more, oncrpc_parts *cursor,
                     size_t index, int is_named) {
    char name[16];
    oncrpc_value_part part = unset;
    memset(name, '?', sizeof name);
    uint32_t status = oncrpc_declarations_parts_next(held, cursor, value->input, value->count + more, &part,
        is_named ? (uint8_t *)name : NULL, is_named ? sizeof name : 0);
    if (index == value->part_count) {
        judge(status == ONCRPC_NO_PART && !memcmp(&part, &unset, sizeof part), status);
        return status;
    }
    const struct wanted *wanted = &value->parts[index];
    size_t length = strlen(wanted->name);
    int is_right = part.at == wanted->at && part.count == wanted->count && part.depth == wanted->depth
        && part.xdr_type == wanted->type && part.role == wanted->role && !part.name_at && part.name_count == length;
    int is_put = is_named ? !memcmp(name, wanted->name, length) && name[length] == '?' : *name == '?';
    judge(status == ONCRPC_OK && is_right && is_put, status);
    return status;
}

/* The same, once more where memory was refused: the part still comes next. */
static int next_at_last(oncrpc_declarations *held, const struct value *value, size_t more, oncrpc_parts *cursor,
                        size_t index, int is_named) {
    uint32_t status = next(held, value, more, cursor, index, is_named);
    return (status == ONCRPC_NO_MEMORY ? next(held, value, more, cursor, index, is_named) : status) == ONCRPC_OK;
}

/* All parts, and none behind the last, which is told again. */
static void go_over(oncrpc_declarations *held, const struct value *value, size_t more, int is_named) {
    oncrpc_parts cursor = ONCRPC_NONE;
    if (start(held, value, more, &cursor)) {
        size_t index = 0;
        while (index < value->part_count && next_at_last(held, value, more, &cursor, index, is_named)) index++;
        if (index == value->part_count) {
            next(held, value, more, &cursor, index, is_named);
            next(held, value, more, &cursor, index, is_named);
        }
    }
    oncrpc_parts_free(&cursor);
    oncrpc_parts_free(&cursor);
}

/* Behind each part all that is deeper than each depth is passed over. */
static void pass_over(oncrpc_declarations *held, const struct value *value) {
    oncrpc_parts cursor = ONCRPC_NONE;
    for (size_t from = 0; from <= value->part_count; from++) {
        for (uint32_t depth = 0; depth < 6; depth++) {
            size_t index = 0, wanted = from;
            if (!start(held, value, 0, &cursor)) break;
            while (index < from && next_at_last(held, value, 0, &cursor, index, 0)) index++;
            if (index < from) break;
            while (wanted < value->part_count && value->parts[wanted].depth > depth) wanted++;
            uint32_t status = oncrpc_declarations_parts_skip(held, &cursor, value->input, value->count, depth);
            judge(status == ONCRPC_OK, status);
            if (status == ONCRPC_NO_MEMORY) {
                status = oncrpc_declarations_parts_skip(held, &cursor, value->input, value->count, depth);
                judge(status == ONCRPC_OK, status);
            }
            if (status == ONCRPC_OK) next(held, value, 0, &cursor, wanted, 1);
        }
    }
    oncrpc_parts_free(&cursor);
}

/* A buffer that is too small for a name: its count is told, and the part still comes next. */
static void name_in_pieces(oncrpc_declarations *held) {
    uint8_t name[9] = "?????????";
    oncrpc_parts cursor = ONCRPC_NONE;
    oncrpc_value_part part = unset;
    if (start(held, &values[0], 0, &cursor) && next(held, &values[0], 0, &cursor, 0, 1) == ONCRPC_OK) {
        uint32_t status = oncrpc_declarations_parts_next(held, &cursor, file, 48, &part, name, 7);
        judge(status == ONCRPC_NO_ROOM && part.name_count == 8 && part.at == 9 && *name == '?', status);
        status = oncrpc_declarations_parts_next(held, &cursor, file, 48, &part, name, 8);
        judge(status == ONCRPC_OK && part.name_count == 8 && !part.at && !memcmp(name, "filename?", 9), status);
    }
    oncrpc_parts_free(&cursor);
}

/* Another input: a shorter one is astray for ever, and whatever else is told a part lies in the input. */
static void go_astray(oncrpc_declarations *held) {
    oncrpc_parts cursor = ONCRPC_NONE;
    oncrpc_value_part part = unset;
    if (start(held, &values[0], 0, &cursor)) {
        uint32_t status = oncrpc_declarations_parts_next(held, &cursor, file, 47, &part, NULL, 0);
        judge(status == ONCRPC_ASTRAY && part.at == 9, status);
        status = oncrpc_declarations_parts_next(held, &cursor, file, 48, &part, NULL, 0);
        judge(status == ONCRPC_ASTRAY && part.at == 9, status);
        status = oncrpc_declarations_parts_skip(held, &cursor, file, 48, 0);
        judge(status == ONCRPC_ASTRAY, status);
    }
    if (start(held, &values[0], 0, &cursor)) {
        static const uint8_t other[48] = {255, 255, 255, 255};
        for (uint32_t status = ONCRPC_OK, count = 0; status == ONCRPC_OK && count < 99; count++) {
            status = oncrpc_declarations_parts_next(held, &cursor, other, 48, &part, NULL, 0);
            judge(status == ONCRPC_OK ? part.at <= 48 && part.count <= 48 - part.at
                : status == ONCRPC_ASTRAY || status == ONCRPC_NO_PART, status);
        }
    }
    oncrpc_parts_free(&cursor);
}

/* Each other status of a start, after which the cursor is as it was. The name comes first, then the limits. */
static void refuse_starts(oncrpc_declarations *held) {
    static const struct { const char *name; uint32_t depth, bytes; size_t count; uint32_t status, why; size_t at; }
    refused[] = {
        {"folder", 0, 48, 48, ONCRPC_NO_KIND, 0, 0},
        {"file", 0, 48, 3, ONCRPC_BAD_LIMITS, 0, 0},
        {"file", 3, 48, 47, ONCRPC_REFUSED, ONCRPC_TRUNCATED, 47},
        {"file", 2, 48, 48, ONCRPC_REFUSED, ONCRPC_TOO_DEEP, 20},
        {"file", 3, 44, 48, ONCRPC_REFUSED, ONCRPC_TOO_LARGE, 44},
        {"bool", 1, 4, 48, ONCRPC_REFUSED, ONCRPC_BAD_BOOL, 0},
    };
    oncrpc_parts cursor = ONCRPC_NONE;
    int is_started = start(held, &values[0], 0, &cursor);
    for (size_t i = 0; i < sizeof refused / sizeof *refused; i++) {
        oncrpc_outcome outcome = {9, 9, 9, 9, 9};
        uint32_t status = oncrpc_declarations_parts_start(held, refused[i].name, strlen(refused[i].name),
            refused[i].depth, refused[i].bytes, file, refused[i].count, &cursor, &outcome);
        judge(status == refused[i].status && tells(&outcome, refused[i].at, refused[i].why), status);
    }
    if (is_started) next(held, &values[0], 0, &cursor, 0, 1);
    oncrpc_parts_free(&cursor);
}

void check_cursors(void) {
    oncrpc_declarations held = ONCRPC_NONE;
    oncrpc_parts cursor = ONCRPC_NONE;
    oncrpc_outcome outcome = {9, 9, 9, 9, 9};
    oncrpc_value_part part = unset;
    uint32_t status = oncrpc_declarations_parts_start(&held, "int", 3, 1, 4, NULL, 0, &cursor, &outcome);
    judge(status == ONCRPC_NO_DECLARATIONS && tells(&outcome, 0, 0), status);
    status = oncrpc_declarations_parts_next(&held, &cursor, NULL, 0, &part, NULL, 0);
    judge(status == ONCRPC_NO_DECLARATIONS && part.at == 9, status);
    status = oncrpc_declarations_parts_skip(&held, &cursor, NULL, 0, 0);
    judge(status == ONCRPC_NO_DECLARATIONS, status);
    status = oncrpc_declarations_read(bytes(declared), sizeof declared - 1, &held, &outcome);
    judge(status == ONCRPC_OK, status);
    if (status == ONCRPC_OK) {
        status = oncrpc_declarations_parts_next(&held, &cursor, NULL, 0, &part, NULL, 0);
        judge(status == ONCRPC_NO_CURSOR && part.at == 9, status);
        status = oncrpc_declarations_parts_skip(&held, &cursor, NULL, 0, 0);
        judge(status == ONCRPC_NO_CURSOR, status);
        for (size_t i = 0; i < sizeof values / sizeof *values; i++) {
            go_over(&held, &values[i], 0, 1);
            go_over(&held, &values[i], 1, 0);
            pass_over(&held, &values[i]);
        }
        name_in_pieces(&held);
        go_astray(&held);
        refuse_starts(&held);
    }
    oncrpc_parts_free(&cursor);
    oncrpc_declarations_free(&held);
}
