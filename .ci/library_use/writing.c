/* Values written by their items: what the RFC says of the bytes, and why items are refused. */
#include "calls.h"

static const char shapes[] =
    "enum colour { RED = 2 };\n"
    "union shape switch (colour c) { case RED: int side; };\n"
    "union counted switch (unsigned int n) { case 1: void; };\n"
    "typedef opaque three[3];\n"
    "typedef string name<3>;\n"
    "typedef int list<2>;\n"
    "typedef int pair[2];\n"
    "struct node { node *next; };\n"
    "struct held { opaque first<>; opaque second<>; };\n"
    "typedef unsigned int counts<>;\n"
    "struct all { unsigned int u; hyper h; unsigned hyper v; bool b; shape s; three f; opaque o<3>; name n; pair p;\n"
    "    list l; int *m; colour e; };\n";

#define SIGNED(z) {ONCRPC_ITEM_SIGNED, z, 9, 9, 9}
#define UNSIGNED(n) {ONCRPC_ITEM_UNSIGNED, -9, n, 9, 9}
#define FLAG(n) {ONCRPC_ITEM_FLAG, -9, n, 9, 9}
#define COUNT(n) {ONCRPC_ITEM_COUNT, -9, 9, 9, n}
#define CONTENT(at, count) {ONCRPC_ITEM_CONTENT, -9, 9, at, count}

/* What content is taken from. */
static const char letters[] = "abcdefgh";

/* A row: the items, the bytes of the value (RFC 4506 sections 3 and 4), or the reason and the place of the bad item. */
enum { MOST_ITEMS = 16 };
struct written_row {
    const char *name;
    oncrpc_item items[MOST_ITEMS];
    size_t count;
    const char *wanted;
    size_t size;
    uint32_t why;
    size_t at;
};
static const struct written_row written_rows[] = {
    {"all", {UNSIGNED(4294967295), SIGNED(-2), UNSIGNED(18446744073709551615u), SIGNED(1), SIGNED(2), SIGNED(-7),
         CONTENT(0, 3), CONTENT(3, 2), CONTENT(8, 0), SIGNED(1), SIGNED(2147483647), COUNT(1), SIGNED(5), FLAG(1),
         UNSIGNED(6), UNSIGNED(2)}, 16,
        "\377\377\377\377" "\377\377\377\377\377\377\377\376" "\377\377\377\377\377\377\377\377" "\0\0\0\1"
        "\0\0\0\2\377\377\377\371" "abc\0" "\0\0\0\2de\0\0" "\0\0\0\0" "\0\0\0\1\177\377\377\377" "\0\0\0\1\0\0\0\5"
        "\0\0\0\1\0\0\0\6" "\0\0\0\2", 76, 0, 0},
    {"node", {FLAG(1), FLAG(0)}, 2, "\0\0\0\1\0\0\0\0", 8, 0, 0},
    {"list", {COUNT(0)}, 1, "\0\0\0\0", 4, 0, 0},
    {"counts", {COUNT(3), UNSIGNED(1), SIGNED(2), UNSIGNED(4294967295)}, 4,
        "\0\0\0\3" "\0\0\0\1" "\0\0\0\2" "\377\377\377\377", 16, 0, 0},
    {"int", {SIGNED(-2147483647 - 1)}, 1, "\200\0\0\0", 4, 0, 0},
    {"opaque", {CONTENT(1, 4)}, 1, "\0\0\0\4bcde", 8, 0, 0},
    /* Content at the end, and before other content, with each count of zeros behind it. */
    {"opaque", {CONTENT(0, 1)}, 1, "\0\0\0\1" "a\0\0\0", 8, 0, 0},
    {"name", {CONTENT(0, 2)}, 1, "\0\0\0\2" "ab\0\0", 8, 0, 0},
    {"name", {CONTENT(5, 3)}, 1, "\0\0\0\3" "fgh\0", 8, 0, 0},
    {"three", {CONTENT(0, 3)}, 1, "abc\0", 4, 0, 0},
    {"held", {CONTENT(0, 1), CONTENT(1, 4)}, 2, "\0\0\0\1" "a\0\0\0" "\0\0\0\4" "bcde", 16, 0, 0},
    {"held", {CONTENT(3, 5), CONTENT(0, 0)}, 2, "\0\0\0\5" "defgh\0\0\0" "\0\0\0\0", 16, 0, 0},
    /* Too few, and too many. */
    {"list", {COUNT(2), SIGNED(1)}, 2, NULL, 0, ONCRPC_UNFINISHED, 2},
    {"list", {{0, 0, 0, 0, 0}}, 0, NULL, 0, ONCRPC_UNFINISHED, 0},
    {"list", {COUNT(1), SIGNED(1), SIGNED(2)}, 3, NULL, 0, ONCRPC_PAST_END, 2},
    {"pair", {SIGNED(1), SIGNED(2), SIGNED(3)}, 3, NULL, 0, ONCRPC_PAST_END, 2},
    {"held", {CONTENT(0, 5)}, 1, NULL, 0, ONCRPC_UNFINISHED, 1},
    {"int", {SIGNED(1), FLAG(1), SIGNED(2)}, 3, NULL, 0, ONCRPC_PAST_END, 1},
    /* Another item is due. */
    {"list", {SIGNED(1)}, 1, NULL, 0, ONCRPC_WRONG_ITEM, 0},
    {"bool", {FLAG(1)}, 1, NULL, 0, ONCRPC_WRONG_ITEM, 0},
    {"node", {SIGNED(1)}, 1, NULL, 0, ONCRPC_WRONG_ITEM, 0},
    {"name", {COUNT(1)}, 1, NULL, 0, ONCRPC_WRONG_ITEM, 0},
    {"pair", {SIGNED(1), CONTENT(0, 4)}, 2, NULL, 0, ONCRPC_WRONG_ITEM, 1},
    {"three", {CONTENT(0, 2)}, 1, NULL, 0, ONCRPC_WRONG_ITEM, 0},
    {"three", {CONTENT(0, 4)}, 1, NULL, 0, ONCRPC_WRONG_ITEM, 0},
    {"int", {{0, 1, 1, 0, 1}}, 1, NULL, 0, ONCRPC_WRONG_ITEM, 0},
    {"pair", {SIGNED(1), {6, 1, 1, 0, 1}}, 2, NULL, 0, ONCRPC_WRONG_ITEM, 1},
    /* Out of range. */
    {"int", {SIGNED(2147483648)}, 1, NULL, 0, ONCRPC_NOT_IN_RANGE, 0},
    {"int", {SIGNED(-2147483649)}, 1, NULL, 0, ONCRPC_NOT_IN_RANGE, 0},
    {"unsigned", {SIGNED(-1)}, 1, NULL, 0, ONCRPC_NOT_IN_RANGE, 0},
    {"unsigned", {UNSIGNED(4294967296)}, 1, NULL, 0, ONCRPC_NOT_IN_RANGE, 0},
    {"hyper", {UNSIGNED(9223372036854775808u)}, 1, NULL, 0, ONCRPC_NOT_IN_RANGE, 0},
    {"unsigned-hyper", {SIGNED(-1)}, 1, NULL, 0, ONCRPC_NOT_IN_RANGE, 0},
    {"list", {COUNT(2), SIGNED(1), SIGNED(2147483648)}, 3, NULL, 0, ONCRPC_NOT_IN_RANGE, 2},
    {"counts", {COUNT(2), SIGNED(-1), SIGNED(1)}, 3, NULL, 0, ONCRPC_NOT_IN_RANGE, 1},
    {"node", {FLAG(1), FLAG(2)}, 2, NULL, 0, ONCRPC_NOT_IN_RANGE, 1},
    {"list", {COUNT(4294967296)}, 1, NULL, 0, ONCRPC_NOT_IN_RANGE, 0},
    /* Content outside of the data. */
    {"name", {CONTENT(8, 1)}, 1, NULL, 0, ONCRPC_OUTSIDE, 0},
    {"name", {CONTENT(9, 0)}, 1, NULL, 0, ONCRPC_OUTSIDE, 0},
    {"name", {CONTENT(SIZE_MAX, 2)}, 1, NULL, 0, ONCRPC_OUTSIDE, 0},
    {"name", {CONTENT(2, SIZE_MAX)}, 1, NULL, 0, ONCRPC_OUTSIDE, 0},
    /* What decoding refuses. */
    {"bool", {SIGNED(2)}, 1, NULL, 0, ONCRPC_BAD_BOOL, 0},
    {"colour", {SIGNED(3)}, 1, NULL, 0, ONCRPC_BAD_NUMBERED, 0},
    {"shape", {SIGNED(3)}, 1, NULL, 0, ONCRPC_BAD_NUMBERED, 0},
    {"counted", {SIGNED(2)}, 1, NULL, 0, ONCRPC_BAD_CASE, 0},
    {"list", {COUNT(3)}, 1, NULL, 0, ONCRPC_TOO_LONG, 0},
    {"list", {COUNT(4294967295)}, 1, NULL, 0, ONCRPC_TOO_LONG, 0},
    {"name", {CONTENT(0, 4)}, 1, NULL, 0, ONCRPC_TOO_LONG, 0},
    /* Two faults. Of an item that no value has that is told, behind a value and where another is due too. */
    {"int", {FLAG(2)}, 1, NULL, 0, ONCRPC_NOT_IN_RANGE, 0},
    {"int", {COUNT(4294967296)}, 1, NULL, 0, ONCRPC_NOT_IN_RANGE, 0},
    {"int", {CONTENT(9, 0)}, 1, NULL, 0, ONCRPC_OUTSIDE, 0},
    {"three", {CONTENT(6, 4)}, 1, NULL, 0, ONCRPC_OUTSIDE, 0},
    {"name", {CONTENT(5, 4)}, 1, NULL, 0, ONCRPC_OUTSIDE, 0},
    {"int", {SIGNED(1), {6, 1, 1, 0, 1}}, 2, NULL, 0, ONCRPC_WRONG_ITEM, 1},
    {"int", {SIGNED(1), FLAG(2)}, 2, NULL, 0, ONCRPC_NOT_IN_RANGE, 1},
    {"int", {SIGNED(1), COUNT(4294967296)}, 2, NULL, 0, ONCRPC_NOT_IN_RANGE, 1},
    {"int", {SIGNED(1), CONTENT(9, 0)}, 2, NULL, 0, ONCRPC_OUTSIDE, 1},
    /* Behind a value nothing else is told of an item, also where it is another than stands there or out of range. */
    {"int", {SIGNED(1), SIGNED(2147483648)}, 2, NULL, 0, ONCRPC_PAST_END, 1},
    {"name", {CONTENT(0, 3), CONTENT(0, 4)}, 2, NULL, 0, ONCRPC_PAST_END, 1},
    /* Another item than is due, and too few, or above the maximum. */
    {"pair", {FLAG(1)}, 1, NULL, 0, ONCRPC_WRONG_ITEM, 0},
    {"list", {CONTENT(0, 8)}, 1, NULL, 0, ONCRPC_WRONG_ITEM, 0},
    {"name", {COUNT(4)}, 1, NULL, 0, ONCRPC_WRONG_ITEM, 0},
    /* Out of range, and no boolean, no member and without an arm. */
    {"bool", {UNSIGNED(4294967296)}, 1, NULL, 0, ONCRPC_NOT_IN_RANGE, 0},
    {"bool", {SIGNED(-1)}, 1, NULL, 0, ONCRPC_NOT_IN_RANGE, 0},
    {"colour", {SIGNED(2147483648)}, 1, NULL, 0, ONCRPC_NOT_IN_RANGE, 0},
    {"counted", {SIGNED(-1)}, 1, NULL, 0, ONCRPC_NOT_IN_RANGE, 0},
    /* Above the maximum, and too many. */
    {"name", {CONTENT(0, 4), SIGNED(1)}, 2, NULL, 0, ONCRPC_TOO_LONG, 0},
};

/* The value stands at the front of room that is just enough, and nothing in less; nothing of items that are refused. */
static void write_row(oncrpc_declarations *held, const struct written_row *row) {
    uint8_t room[96], unwritten[96];
    size_t written = 9, name_count = strlen(row->name);
    oncrpc_outcome outcome = {9, 9, 9, 9, 9};
    memset(room, '.', sizeof room), memset(unwritten, '.', sizeof unwritten);
    uint32_t status = oncrpc_declarations_write(held, bytes(row->name), name_count, ONCRPC_MOST_DEPTH,
        ONCRPC_MOST_BYTES, row->items, row->count, bytes(letters), 8, room, row->wanted ? row->size - 1 : sizeof room,
        &written, &outcome);
    int is_told = row->wanted ? status == ONCRPC_NO_ROOM && tells(&outcome, row->size, 0)
        : status == ONCRPC_BAD_ITEM && tells(&outcome, row->at, row->why);
    judge(is_told && !written && !memcmp(room, unwritten, sizeof room), status);
    if (!row->wanted) {
        return;
    }
    status = oncrpc_declarations_write(held, bytes(row->name), name_count, ONCRPC_MOST_DEPTH, ONCRPC_MOST_BYTES,
        row->items, row->count, bytes(letters), 8, room, row->size, &written, &outcome);
    judge(status == ONCRPC_OK && tells(&outcome, row->size, 0) && written == row->size
        && !memcmp(room, row->wanted, row->size) && !memcmp(room + row->size, unwritten, sizeof room - row->size),
        status);
}

/* The limits are those of a check: of the deepest item, of all bytes, and in their ranges. A row: the items, the limits
 * on depth and bytes, and the answer. */
static const struct {
    const char *name;
    oncrpc_item items[3];
    size_t count;
    uint32_t depth, bytes, status, why;
    size_t at;
} limited[] = {
    {"node", {FLAG(1), FLAG(1), FLAG(0)}, 3, 6, 12, ONCRPC_OK, 0, 12},
    {"node", {FLAG(1), FLAG(1), FLAG(0)}, 3, 5, 12, ONCRPC_BAD_ITEM, ONCRPC_TOO_DEEP, 1},
    {"node", {FLAG(1), FLAG(1), FLAG(0)}, 3, 4, 12, ONCRPC_BAD_ITEM, ONCRPC_TOO_DEEP, 1},
    {"node", {FLAG(0)}, 0, 1, 12, ONCRPC_BAD_ITEM, ONCRPC_UNFINISHED, 0},
    {"pair", {SIGNED(1), SIGNED(2)}, 2, 2, 8, ONCRPC_OK, 0, 8},
    {"pair", {SIGNED(1), SIGNED(2)}, 2, 1, 8, ONCRPC_BAD_ITEM, ONCRPC_TOO_DEEP, 0},
    {"pair", {SIGNED(1), SIGNED(2)}, 2, 2, 4, ONCRPC_BAD_ITEM, ONCRPC_TOO_LARGE, 0},
    {"pair", {SIGNED(1), SIGNED(2)}, 2, 0, 8, ONCRPC_BAD_LIMITS, 0, 0},
    {"pair", {SIGNED(1), SIGNED(2)}, 2, 2, 6, ONCRPC_BAD_LIMITS, 0, 0},
    {"folder", {SIGNED(1), SIGNED(2)}, 2, 0, 8, ONCRPC_NO_KIND, 0, 0},
    /* Too deep before the first item, which is another than is due, or out of range; one that no value has is told. */
    {"pair", {FLAG(1)}, 1, 1, 8, ONCRPC_BAD_ITEM, ONCRPC_TOO_DEEP, 0},
    {"pair", {SIGNED(2147483648)}, 1, 1, 8, ONCRPC_BAD_ITEM, ONCRPC_TOO_DEEP, 0},
    {"pair", {FLAG(2)}, 1, 1, 8, ONCRPC_BAD_ITEM, ONCRPC_NOT_IN_RANGE, 0},
    {"pair", {CONTENT(9, 0)}, 1, 1, 8, ONCRPC_BAD_ITEM, ONCRPC_OUTSIDE, 0},
    /* Past the limit on bytes, and above the maximum; but another item than is due, or out of range, comes first. */
    {"hyper", {SIGNED(1)}, 1, 1, 4, ONCRPC_BAD_ITEM, ONCRPC_TOO_LARGE, 0},
    {"name", {CONTENT(0, 4)}, 1, 1, 4, ONCRPC_BAD_ITEM, ONCRPC_TOO_LARGE, 0},
    {"name", {CONTENT(0, 4)}, 1, 1, 8, ONCRPC_BAD_ITEM, ONCRPC_TOO_LONG, 0},
    {"three", {CONTENT(0, 8)}, 1, 1, 4, ONCRPC_BAD_ITEM, ONCRPC_WRONG_ITEM, 0},
    {"hyper", {FLAG(1)}, 1, 1, 4, ONCRPC_BAD_ITEM, ONCRPC_WRONG_ITEM, 0},
    {"unsigned-hyper", {SIGNED(-1)}, 1, 1, 4, ONCRPC_BAD_ITEM, ONCRPC_NOT_IN_RANGE, 0},
    {"opaque", {CONTENT(7, 2)}, 1, 1, 4, ONCRPC_BAD_ITEM, ONCRPC_OUTSIDE, 0},
    /* The limit is reached where more is due: that is too deep, or there is no more. */
    {"node", {FLAG(1), FLAG(1)}, 2, 4, 8, ONCRPC_BAD_ITEM, ONCRPC_TOO_DEEP, 1},
    {"node", {FLAG(1), FLAG(1)}, 2, 6, 8, ONCRPC_BAD_ITEM, ONCRPC_TOO_LARGE, 1},
    /* A count is taken where there are no bytes for all that it counts. */
    {"list", {COUNT(2)}, 1, 2, 8, ONCRPC_BAD_ITEM, ONCRPC_UNFINISHED, 1},
    {"list", {COUNT(2), SIGNED(1), SIGNED(2)}, 3, 2, 8, ONCRPC_BAD_ITEM, ONCRPC_TOO_LARGE, 1},
    {"list", {COUNT(2), SIGNED(1), SIGNED(2)}, 3, 2, 4, ONCRPC_BAD_ITEM, ONCRPC_TOO_LARGE, 0},
};

static void write_limited(oncrpc_declarations *held) {
    for (size_t i = 0; i < sizeof limited / sizeof *limited; i++) {
        uint8_t room[16];
        size_t written = 9;
        oncrpc_outcome outcome = {9, 9, 9, 9, 9};
        uint32_t status = oncrpc_declarations_write(held, bytes(limited[i].name), strlen(limited[i].name),
            limited[i].depth, limited[i].bytes, limited[i].items, limited[i].count, bytes(letters), 8, room,
            sizeof room, &written, &outcome);
        judge(status == limited[i].status && tells(&outcome, limited[i].at, limited[i].why)
            && written == (status == ONCRPC_OK ? limited[i].at : 0), status);
    }
}

/* A count reserves nothing: the greatest asks for no more growths, and no more bytes, than 1. */
static void write_counts(oncrpc_declarations *held) {
    static const oncrpc_item counted[] = {COUNT(1), COUNT(4294967295)};
    size_t asked[2];
    for (size_t i = 0; i < 2; i++) {
        uint8_t room[16];
        size_t written = 9, before = growth_bytes();
        oncrpc_outcome outcome = {9, 9, 9, 9, 9};
        uint32_t status = oncrpc_declarations_write(held, bytes("counts"), 6, ONCRPC_MOST_DEPTH, ONCRPC_MOST_BYTES,
            counted + i, 1, bytes(letters), 8, room, sizeof room, &written, &outcome);
        asked[i] = growth_bytes() - before;
        judge(status == ONCRPC_BAD_ITEM && tells(&outcome, 1, ONCRPC_UNFINISHED) && !written, status);
    }
    judge(refused_growth() || asked[1] <= asked[0], ONCRPC_OK);
}

void check_written(void) {
    oncrpc_declarations held = ONCRPC_NONE;
    oncrpc_outcome outcome = {9, 9, 9, 9, 9};
    uint8_t room[4];
    size_t written = 9;
    uint32_t status = oncrpc_declarations_write(&held, bytes("int"), 3, 1, 4, written_rows[3].items, 1, NULL, 0, room,
        4, &written, &outcome);
    judge(status == ONCRPC_NO_DECLARATIONS && tells(&outcome, 0, 0) && !written, status);
    status = oncrpc_declarations_read(bytes(shapes), sizeof shapes - 1, &held, &outcome);
    judge(status == ONCRPC_OK, status);
    if (status == ONCRPC_OK) {
        for (size_t i = 0; i < sizeof written_rows / sizeof *written_rows; i++) {
            write_row(&held, written_rows + i);
        }
        write_limited(&held);
        write_counts(&held);
    }
    oncrpc_declarations_free(&held);
}
