/* Reads declarations once, and tells of some inputs whether they are values of a kind that they declare.
 *
 *   ./build-library library && cc -Ilibrary/include examples/check.c library/liboncrpc.a -o check && ./check */
#include <stdio.h>
#include <string.h>

#include "oncrpc.h"

/* After RFC 4506 section 7. */
static const char text[] =
    "const MAXUSERNAME = 32;\n"
    "const MAXFILELEN = 65535;\n"
    "const MAXNAMELEN = 255;\n"
    "enum filekind { TEXT = 0, DATA = 1, EXEC = 2 };\n"
    "union filetype switch (filekind kind) {\n"
    "case TEXT: void;\n"
    "case DATA: string creator<MAXNAMELEN>;\n"
    "case EXEC: string interpretor<MAXNAMELEN>;\n"
    "};\n"
    "struct file {\n"
    "   string filename<MAXNAMELEN>;\n"
    "   filetype type;\n"
    "   string owner<MAXUSERNAME>;\n"
    "   opaque data<MAXFILELEN>;\n"
    "};\n";

/* The value that the RFC gives: the file sillyprog of john, and then a byte that is no part of it. */
static const uint8_t input[49] =
    "\0\0\0\11sillyprog\0\0\0"
    "\0\0\0\2\0\0\0\4lisp"
    "\0\0\0\4john"
    "\0\0\0\6(quit)\0\0";

static uint32_t check(oncrpc_declarations *declarations, const char *name, size_t count, oncrpc_outcome *outcome) {
    return oncrpc_declarations_check(
        declarations, name, strlen(name), ONCRPC_MOST_DEPTH, ONCRPC_MOST_BYTES, input, count, outcome);
}

static void show(oncrpc_declarations *declarations, const char *name, size_t count) {
    oncrpc_outcome outcome;
    switch (check(declarations, name, count, &outcome)) {
    case ONCRPC_OK:
        printf("%s, %zu bytes: a value\n", name, count);
        break;
    case ONCRPC_MORE_FOLLOWS:
        printf("%s, %zu bytes: a value of %zu bytes, and more\n", name, count, outcome.at);
        break;
    case ONCRPC_REFUSED:
        printf("%s, %zu bytes: refused for reason %u at %zu\n", name, count, outcome.why, outcome.at);
        break;
    case ONCRPC_NO_KIND:
        printf("%s: no kind\n", name);
        break;
    default:
        printf("%s: not checked\n", name);
    }
}

int main(void) {
    oncrpc_declarations declarations = ONCRPC_NONE;
    oncrpc_outcome outcome;
    if (oncrpc_declarations_read(text, sizeof text - 1, &declarations, &outcome) != ONCRPC_OK) {
        printf("fault %u (%u) at %zu:%zu\n", outcome.why, outcome.inner, outcome.line, outcome.column);
        return 1;
    }
    show(&declarations, "file", 48);
    show(&declarations, "file", 49);
    show(&declarations, "file", 47);
    show(&declarations, "bool", 4);
    show(&declarations, "folder", 48);
    if (oncrpc_declarations_read("struct a { int b; int b; };", 27, &declarations, &outcome)) {
        printf("fault %u (%u) at %zu:%zu\n", outcome.why, outcome.inner, outcome.line, outcome.column);
    }
    oncrpc_declarations_free(&declarations);
    return 0;
}
