/* Inputs that nobody promised: each row cut and changed, the deepest value and the deepest text. */
#include "calls.h"

/* Each beginning of each row, and each of its bytes changed, by parts and by a check. */
static void list_hostile(void) {
    oncrpc_declarations held = ONCRPC_NONE;
    oncrpc_outcome outcome;
    char changed[128];
    uint32_t status = oncrpc_declarations_read(bytes(text), text_count, &held, &outcome);
    judge(status == ONCRPC_OK, status);
    for (const struct row *row = rows; row < rows + row_count; row++) {
        struct row other = *row;
        other.input = changed;
        for (size_t i = 0; i < row->count; i++) {
            list_held(&held, row, i);
            for (int bit = 0; bit < 8; bit++) {
                memcpy(changed, row->input, row->count);
                changed[i] ^= (char)(1 << bit);
                list_held(&held, &other, row->count);
            }
        }
    }
    oncrpc_parts_outcome found = {9, 9, 9, 9};
    oncrpc_value_part part;
    uint8_t byte = 0;
    status = oncrpc_declarations_parts(&held, bytes("int"), 3, 0, 4, &byte, 0, &part, 1, &byte, 1, &found);
    judge(status == ONCRPC_BAD_LIMITS && !found.at && !found.parts && !found.names && !found.why, status);
    oncrpc_declarations_free(&held);
}

/* The deepest value that a limit allows, the deepest text, and a round of all calls, on a stack of 64 KiB. */
static uint8_t deepest[4096 * 4];

static void check_nested(void) {
    char nested[512] = "struct a {";
    oncrpc_declarations held = ONCRPC_NONE;
    oncrpc_outcome outcome;
    for (int i = 0; i < 31; i++) {
        strcat(nested, "struct {");
    }
    strcat(nested, "int x;");
    for (int i = 0; i < 31; i++) {
        strcat(nested, "} x;");
    }
    strcat(nested, "};");
    uint32_t status = oncrpc_declarations_read(bytes(nested), strlen(nested), &held, &outcome);
    judge(status == ONCRPC_OK && tells(&outcome, 0, 0), status);
    oncrpc_declarations_free(&held);
}

/* The same by a cursor: each part is one level deeper than the one before. */
static void go_over_deepest(oncrpc_declarations *held) {
    oncrpc_parts cursor = ONCRPC_NONE;
    oncrpc_outcome outcome;
    oncrpc_value_part part;
    uint32_t count = 0;
    uint32_t status = oncrpc_declarations_parts_start(held, bytes("o"), 1, ONCRPC_MOST_DEPTH, ONCRPC_MOST_BYTES, deepest,
        sizeof deepest, &cursor, &outcome);
    judge(status == ONCRPC_MORE_FOLLOWS && tells(&outcome, 8192, 0), status);
    while ((status = oncrpc_declarations_parts_next(held, &cursor, deepest, sizeof deepest, &part, NULL, 0)) == ONCRPC_OK) {
        count += part.depth == count + 1;
    }
    judge(status == ONCRPC_NO_PART && count == ONCRPC_MOST_DEPTH, status);
    oncrpc_parts_free(&cursor);
}

/* The deepest value that the limit allows ends where a flag is 0: 2048 structures, and an optional in each. */
static void list_deepest(const char *deep) {
    oncrpc_declarations held = ONCRPC_NONE;
    oncrpc_outcome outcome;
    oncrpc_parts_outcome found = {9, 9, 9, 9};
    oncrpc_value_part part;
    uint8_t byte;
    uint32_t status = oncrpc_declarations_read(bytes(deep), strlen(deep), &held, &outcome);
    judge(status == ONCRPC_OK, status);
    deepest[2048 * 4 - 1] = 0;
    status = oncrpc_declarations_parts(&held, bytes("o"), 1, ONCRPC_MOST_DEPTH, ONCRPC_MOST_BYTES, deepest,
        sizeof deepest, &part, 1, &byte, 1, &found);
    judge(status == ONCRPC_NO_ROOM && found.at == 8192 && found.parts == 4096 && found.names == 2048, status);
    go_over_deepest(&held);
    oncrpc_declarations_free(&held);
}

void check_hostile(void) {
    static const char *deep = "struct o { o *x; };";
    oncrpc_outcome outcome;
    for (size_t i = 3; i < sizeof deepest; i += 4) {
        deepest[i] = 1;
    }
    check_nested();
    list_hostile();
    uint32_t status = oncrpc_check(bytes(deep), strlen(deep), bytes("o"), 1, ONCRPC_MOST_DEPTH, ONCRPC_MOST_BYTES,
        deepest, sizeof deepest, &outcome);
    judge(status == ONCRPC_REFUSED && tells(&outcome, 8192, ONCRPC_TOO_DEEP), status);
    list_deepest(deep);
}
