/* Writes the value that the RFC gives by its items, and compares it with the bytes that the RFC gives.
 *
 *   ./build-library library && cc -Ilibrary/include examples/write.c library/liboncrpc.a -o write && ./write */
#include <stdio.h>
#include <string.h>

#include "oncrpc.h"

/* After RFC 4506 section 7. */
static const char text[] = "const MAXUSERNAME = 32;\n"
                           "const MAXFILELEN = 65535;\n"
                           "const MAXNAMELEN = 255;\n"
                           "enum filekind { TEXT = 0, DATA = 1, EXEC = 2 };\n"
                           "union filetype switch (filekind kind) {\n"
                           "case TEXT: void;\n"
                           "case DATA: string creator<MAXNAMELEN>;\n"
                           "case EXEC: string interpretor<MAXNAMELEN>;\n"
                           "};\n"
                           "struct file {\n"
                           "   string filename<MAXNAMELEN>;\n"
                           "   filetype type;\n"
                           "   string owner<MAXUSERNAME>;\n"
                           "   opaque data<MAXFILELEN>;\n"
                           "};\n";

/* The file sillyprog of john, a program that lisp runs. */
static const char data[] = "sillyproglispjohn(quit)";
static const oncrpc_item items[] = {
    {.form = ONCRPC_ITEM_CONTENT, .at = 0, .count = 9},     /* filename */
    {.form = ONCRPC_ITEM_SIGNED, .signed_number = 2},       /* type: EXEC */
    {.form = ONCRPC_ITEM_CONTENT, .at = 9, .count = 4},     /* interpretor */
    {.form = ONCRPC_ITEM_CONTENT, .at = 13, .count = 4},    /* owner */
    {.form = ONCRPC_ITEM_CONTENT, .at = 17, .count = 6},    /* data */
};

/* Its bytes, as in examples/file.hex. */
static const uint8_t wanted[48] = "\0\0\0\11sillyprog\0\0\0"
                                  "\0\0\0\2\0\0\0\4lisp"
                                  "\0\0\0\4john"
                                  "\0\0\0\6(quit)\0\0";

static uint32_t write_file(oncrpc_declarations *declarations, size_t items_count, uint8_t *buffer, size_t buffer_count,
                           size_t *written, oncrpc_outcome *outcome) {
    return oncrpc_declarations_write(declarations, "file", 4, ONCRPC_MOST_DEPTH, ONCRPC_MOST_BYTES,
                                     items, items_count, data, sizeof data - 1, buffer, buffer_count,
                                     written, outcome);
}

int main(void) {
    oncrpc_declarations declarations = ONCRPC_NONE;
    oncrpc_outcome outcome;
    uint8_t buffer[64];
    size_t written;
    if (oncrpc_declarations_read(text, sizeof text - 1, &declarations, &outcome) != ONCRPC_OK)
        return 1;
    uint32_t status = write_file(&declarations, 5, buffer, 0, &written, &outcome);
    printf("without a buffer: status %u, %zu bytes are needed\n", status, outcome.at);
    status = write_file(&declarations, 5, buffer, sizeof buffer, &written, &outcome);
    int is_same = written == sizeof wanted && !memcmp(buffer, wanted, sizeof wanted);
    printf("status %u, %zu bytes, %s\n", status, written, is_same ? "as in the RFC" : "not as in the RFC");
    status = write_file(&declarations, 4, buffer, sizeof buffer, &written, &outcome);
    printf("4 items: status %u for reason %u at %zu, %zu written\n", status, outcome.why, outcome.at, written);
    oncrpc_declarations_free(&declarations);
    return 0;
}
