/* Tells where the parts of the value that the RFC gives lie in its bytes, by declarations that are read once.
 *
 *   ./build-library library && cc -Ilibrary/include examples/parts.c library/liboncrpc.a -o parts && ./parts */
#include <stdio.h>
#include <string.h>

#include "oncrpc.h"

/* After RFC 4506 section 7. */
static const char text[] = "const MAXUSERNAME = 32;\n"
                           "const MAXFILELEN = 65535;\n"
                           "const MAXNAMELEN = 255;\n"
                           "enum filekind { TEXT = 0, DATA = 1, EXEC = 2 };\n"
                           "union filetype switch (filekind kind) {\n"
                           "case TEXT: void;\n"
                           "case DATA: string creator<MAXNAMELEN>;\n"
                           "case EXEC: string interpretor<MAXNAMELEN>;\n"
                           "};\n"
                           "struct file {\n"
                           "   string filename<MAXNAMELEN>;\n"
                           "   filetype type;\n"
                           "   string owner<MAXUSERNAME>;\n"
                           "   opaque data<MAXFILELEN>;\n"
                           "};\n";

/* The value that the RFC gives: the file sillyprog of john. */
static const uint8_t input[48] = "\0\0\0\11sillyprog\0\0\0"
                                 "\0\0\0\2\0\0\0\4lisp"
                                 "\0\0\0\4john"
                                 "\0\0\0\6(quit)\0\0";

static oncrpc_value_part parts[16];
static uint8_t names[256];

static uint32_t list(oncrpc_declarations *declarations, size_t count, size_t parts_count, size_t names_count,
                     oncrpc_parts_outcome *outcome) {
    return oncrpc_declarations_parts(declarations, "file", 4, ONCRPC_MOST_DEPTH, ONCRPC_MOST_BYTES,
                                     input, count, parts, parts_count, names, names_count, outcome);
}

static void print(const oncrpc_value_part *part) {
    int indent = 2 * (int)(part->depth - 1);
    printf("%2zu %zu%*s %.*s: type %u, role %u", part->at, part->count, indent, "", (int)part->name_count,
           (const char *)names + part->name_at, part->xdr_type, part->role);
    if (part->role == ONCRPC_ROLE_CONTENT) {
        printf(", %.*s", (int)part->count, (const char *)input + part->at);
    }
    printf("\n");
}

/* One part by its path, and its number or its bytes. Of a discriminant the name of the enum's member, too. */
static void find(oncrpc_declarations *declarations, const char *path) {
    oncrpc_value_part part;
    oncrpc_outcome outcome;
    oncrpc_number number;
    uint32_t status = oncrpc_declarations_find(declarations, "file", 4, ONCRPC_MOST_DEPTH, ONCRPC_MOST_BYTES, input,
                                               sizeof input, path, strlen(path), &part, &outcome);
    if (status != ONCRPC_OK) {
        printf("%s: %s\n", path, oncrpc_status_text(status));
    } else if (oncrpc_part_number(declarations, input, sizeof input, &part, &number) == ONCRPC_OK) {
        oncrpc_kind kind = {0};
        oncrpc_member member = {0};
        uint8_t name[16];
        oncrpc_declarations_kind(declarations, part.kind, &kind);
        oncrpc_declarations_picked(declarations, kind.item, number.signed_number, name, sizeof name, &member);
        printf("%s: number %lld, %.*s\n", path, (long long)number.signed_number, (int)member.name_count, (char *)name);
    } else {
        printf("%s: %.*s\n", path, (int)part.count, (const char *)input + part.at);
    }
}

/* The types that the text declares, in its order. */
static void list_types(oncrpc_declarations *declarations) {
    oncrpc_member type;
    uint8_t name[16];
    for (size_t i = 0; oncrpc_declarations_type(declarations, i, name, sizeof name, &type) == ONCRPC_OK; i++) {
        printf("%s%.*s", i ? ", " : "types: ", (int)type.name_count, (char *)name);
    }
    printf("\n");
}

int main(void) {
    oncrpc_declarations declarations = ONCRPC_NONE;
    oncrpc_outcome fault;
    oncrpc_parts_outcome outcome;
    if (oncrpc_declarations_read(text, sizeof text - 1, &declarations, &fault) != ONCRPC_OK)
        return 1;
    uint32_t status = list(&declarations, sizeof input, 0, 0, &outcome);
    printf("without buffers: status %u, %zu parts and %zu bytes of names are needed\n", status, outcome.parts,
        outcome.names);
    status = list(&declarations, sizeof input, 16, sizeof names, &outcome);
    for (size_t i = 0; i < outcome.parts; i++) {
        print(parts + i);
    }
    printf("status %u, %zu bytes of input\n", status, outcome.at);
    status = list(&declarations, sizeof input - 1, 16, sizeof names, &outcome);
    printf("47 bytes: status %u for reason %u at %zu\n", status, outcome.why, outcome.at);
    find(&declarations, "type");
    find(&declarations, "type.interpretor");
    find(&declarations, "type.creator");
    list_types(&declarations);
    oncrpc_declarations_free(&declarations);
    return 0;
}
