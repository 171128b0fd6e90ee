/* Goes over the parts of a directory one by one: it prints the name and the size of each file, and passes over what it
 * does not ask for. No list of the parts is made.
 *
 *   ./build-library library && cc -Ilibrary/include examples/cursor.c library/liboncrpc.a -o cursor && ./cursor */
#include <stdio.h>
#include <string.h>

#include "oncrpc.h"

static const char text[] = "struct file { string name<255>; unsigned int size; opaque attributes<64>; };\n"
                           "struct directory { file files<>; bool eof; };\n";

/* Two files, after RFC 4506 sections 4.2, 4.10, 4.11 and 4.13. */
static const uint8_t input[60] = "\0\0\0\2"
                                 "\0\0\0\5a.txt\0\0\0" "\0\0\0\5" "\0\0\0\4\1\2\3\4"
                                 "\0\0\0\5notes\0\0\0" "\0\0\2\274" "\0\0\0\6\1\2\3\4\5\6\0\0"
                                 "\0\0\0\1";

/* The part that comes next, with its name as a text. */
static uint32_t next(oncrpc_declarations *declarations, oncrpc_parts *cursor, oncrpc_value_part *part, char name[16]) {
    memset(name, 0, 16);
    return oncrpc_declarations_parts_next(declarations, cursor, input, sizeof input, part, (uint8_t *)name, 15);
}

/* Each file. Behind its size all that is left of it is passed over: its attributes. */
static uint32_t list(oncrpc_declarations *declarations, oncrpc_parts *cursor) {
    oncrpc_value_part part;
    oncrpc_number number;
    char name[16];
    uint32_t status;
    while ((status = next(declarations, cursor, &part, name)) == ONCRPC_OK) {
        if (!strcmp(name, "name") && part.role == ONCRPC_ROLE_CONTENT) {
            printf("%.*s", (int)part.count, (const char *)input + part.at);
        } else if (!strcmp(name, "size")) {
            oncrpc_part_number(declarations, input, sizeof input, &part, &number);
            printf(": %llu bytes\n", (unsigned long long)number.number);
            oncrpc_declarations_parts_skip(declarations, cursor, input, sizeof input, part.depth - 1);
        }
    }
    return status;
}

/* The end alone: behind the count of files, with its depth, they are passed over, all at once. */
static uint32_t find_end(oncrpc_declarations *declarations, oncrpc_parts *cursor) {
    oncrpc_value_part part = {0};
    char name[16];
    next(declarations, cursor, &part, name);
    next(declarations, cursor, &part, name);
    oncrpc_declarations_parts_skip(declarations, cursor, input, sizeof input, part.depth);
    uint32_t status = next(declarations, cursor, &part, name);
    printf("%s at %zu\n", name, part.at);
    return status;
}

static int start(oncrpc_declarations *declarations, oncrpc_parts *cursor) {
    oncrpc_outcome outcome;
    return oncrpc_declarations_parts_start(declarations, "directory", 9, ONCRPC_MOST_DEPTH, ONCRPC_MOST_BYTES, input,
                                           sizeof input, cursor, &outcome) == ONCRPC_OK;
}

int main(void) {
    oncrpc_declarations declarations = ONCRPC_NONE;
    oncrpc_parts cursor = ONCRPC_NONE;
    oncrpc_outcome fault;
    if (oncrpc_declarations_read(text, sizeof text - 1, &declarations, &fault) != ONCRPC_OK)
        return 1;
    if (start(&declarations, &cursor)) {
        printf("%s\n", oncrpc_status_text(list(&declarations, &cursor)));
    }
    if (start(&declarations, &cursor)) {
        printf("%s\n", oncrpc_status_text(find_end(&declarations, &cursor)));
    }
    oncrpc_parts_free(&cursor);
    oncrpc_declarations_free(&declarations);
    return 0;
}
