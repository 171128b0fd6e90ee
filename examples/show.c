/* Prints the value that the RFC gives, by declarations that are read once: as lines, and as JSON that is read back.
 *
 *   ./build-library library && cc -Ilibrary/include examples/show.c library/liboncrpc.a -o show && ./show */
#include <stdio.h>
#include <string.h>

#include "oncrpc.h"

/* After RFC 4506 section 7. */
static const char text[] = "const MAXUSERNAME = 32;\n"
                           "const MAXFILELEN = 65535;\n"
                           "const MAXNAMELEN = 255;\n"
                           "enum filekind { TEXT = 0, DATA = 1, EXEC = 2 };\n"
                           "union filetype switch (filekind kind) {\n"
                           "case TEXT: void;\n"
                           "case DATA: string creator<MAXNAMELEN>;\n"
                           "case EXEC: string interpretor<MAXNAMELEN>;\n"
                           "};\n"
                           "struct file {\n"
                           "   string filename<MAXNAMELEN>;\n"
                           "   filetype type;\n"
                           "   string owner<MAXUSERNAME>;\n"
                           "   opaque data<MAXFILELEN>;\n"
                           "};\n";

/* The value that the RFC gives: the file sillyprog of john. */
static const uint8_t input[48] = "\0\0\0\11sillyprog\0\0\0"
                                 "\0\0\0\2\0\0\0\4lisp"
                                 "\0\0\0\4john"
                                 "\0\0\0\6(quit)\0\0";

/* A file in JSON whose owner is a number. */
static const char wrong[] = "{\"filename\": \"a\", \"type\": {\"case\": \"TEXT\"},\n"
                            " \"owner\": 7, \"data\": \"\"}\n";

/* In rpcgen's dialect, for the name RPC_HDR. */
static const char dialect[] = "%#include <rpc/rpc.h>\n"
                              "#ifdef RPC_HDR\n"
                              "const MOST = 255;\n"
                              "#endif\n"
                              "typedef string name<MOST>;\n";

static uint32_t show(oncrpc_declarations *declarations, size_t count, uint8_t *buffer, size_t buffer_count,
                     size_t *written, oncrpc_outcome *outcome) {
    return oncrpc_declarations_show(declarations, "file", 4, ONCRPC_MOST_DEPTH, ONCRPC_MOST_BYTES,
                                    input, count, buffer, buffer_count, written, outcome);
}

int main(void) {
    oncrpc_declarations declarations = ONCRPC_NONE;
    oncrpc_outcome outcome;
    uint8_t buffer[256];
    size_t written;
    if (oncrpc_declarations_read(text, sizeof text - 1, &declarations, &outcome) != ONCRPC_OK)
        return 1;
    uint32_t status = show(&declarations, sizeof input, buffer, sizeof buffer, &written, &outcome);
    fwrite(buffer, 1, written, stdout);
    printf("status %u, %zu bytes of input\n", status, outcome.at);
    status = show(&declarations, sizeof input, buffer, 10, &written, &outcome);
    printf("a buffer of 10 bytes: status %u, %zu are needed\n", status, outcome.at);
    status = show(&declarations, sizeof input - 1, buffer, sizeof buffer, &written, &outcome);
    printf("47 bytes: status %u, %zu written\n", status, written);
    status = oncrpc_declarations_to_json(&declarations, "file", 4, ONCRPC_MOST_DEPTH, ONCRPC_MOST_BYTES, input,
                                         sizeof input, false, buffer, sizeof buffer, &written, &outcome);
    printf("status %u, %.*s\n", status, (int)written, (const char *)buffer);
    uint8_t again[sizeof input];
    status = oncrpc_declarations_from_json(&declarations, "file", 4, ONCRPC_MOST_DEPTH, ONCRPC_MOST_BYTES, buffer,
                                           written, again, sizeof again, &written, &outcome);
    printf("read back: status %u, %s\n", status,
           written == sizeof input && !memcmp(again, input, sizeof input) ? "the same bytes" : "others");
    status = oncrpc_declarations_from_json(&declarations, "file", 4, ONCRPC_MOST_DEPTH, ONCRPC_MOST_BYTES, wrong,
                                           sizeof wrong - 1, again, sizeof again, &written, &outcome);
    printf("status %u, %s at %zu:%zu\n", status, oncrpc_json_text(outcome.why), outcome.line, outcome.column);
    status = oncrpc_declarations_read_dialect(dialect, sizeof dialect - 1, "RPC_HDR", 7, &declarations, &outcome);
    printf("rpcgen's dialect: status %u\n", status);
    oncrpc_declarations_free(&declarations);
    return 0;
}
