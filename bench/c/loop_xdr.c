/* The nearest to our codec_bench with rpcgen and libtirpc: one value, encoded or decoded (and freed) COUNT times.
 * usage: loop_xdr uint1M|list2000|file1M|opaque1M|opaque16M encode|decode COUNT
 * With -DLIBRARY, on liboncrpc too: check in place of decode, by the declarations on standard input, which are read
 * once; find, which finds the three fields of file1M that are strings, each by its path; cursor, which goes over its
 * parts up to the last of the three; parts, which puts the value's parts into an array that is large enough; asked,
 * which asks first how large;
 * write, which writes the value by its items, as its parts tell them, and compares its bytes; or read, which reads and
 * frees the declarations COUNT times. */
#include <stdio.h>
#include <stdlib.h>
#include <string.h>
#include <rpc/rpc.h>
#include "../gen/bench.h"
#ifdef LIBRARY
#include "oncrpc.h"
/* Reads the declarations on standard input so many times, and gives them back but for the last. */
static oncrpc_declarations declared(long count) {
    static uint8_t text[4096];
    oncrpc_declarations held = ONCRPC_NONE;
    oncrpc_outcome outcome;
    size_t length = fread(text, 1, sizeof text, stdin);
    for (long i = 0; i < count; i++) {
        oncrpc_declarations_free(&held);
        if (oncrpc_declarations_read(text, length, &held, &outcome)) exit(1);
    }
    return held;
}
static void check(const char *name, const char *wire, size_t length, long count) {
    oncrpc_declarations held = declared(1);
    oncrpc_outcome outcome;
    for (long i = 0; i < count; i++)
        if (oncrpc_declarations_check(&held, (const uint8_t *)name, strlen(name), ONCRPC_MOST_DEPTH, ONCRPC_MOST_BYTES,
                                      (const uint8_t *)wire, length, &outcome))
            exit(1);
    oncrpc_declarations_free(&held);
}
static void find(const char *wire, size_t length, long count) {
    static const char *const paths[] = {"filename", "type.interpretor", "owner"};
    oncrpc_declarations held = declared(1);
    oncrpc_value_part part;
    oncrpc_outcome outcome;
    for (long i = 0; i < count; i++)
        for (size_t k = 0; k < 3; k++)
            if (oncrpc_declarations_find(&held, "file", 4, ONCRPC_MOST_DEPTH, ONCRPC_MOST_BYTES, wire, length,
                                         paths[k], strlen(paths[k]), &part, &outcome))
                exit(1);
    oncrpc_declarations_free(&held);
}
/* Of the ten parts the three are the third, the sixth and the eighth. The last two are not asked for. */
static void go_over(const char *wire, size_t length, long count) {
    static const size_t places[] = {4, 24, 32};
    oncrpc_declarations held = declared(1);
    oncrpc_parts cursor = ONCRPC_NONE;
    oncrpc_value_part part;
    oncrpc_outcome outcome;
    for (long i = 0; i < count; i++) {
        size_t found = 0;
        if (oncrpc_declarations_parts_start(&held, "file", 4, ONCRPC_MOST_DEPTH, ONCRPC_MOST_BYTES, wire, length, &cursor,
                                            &outcome))
            exit(1);
        while (found < 3) {
            if (oncrpc_declarations_parts_next(&held, &cursor, wire, length, &part, NULL, 0)) exit(2);
            if (part.role == ONCRPC_ROLE_CONTENT && part.at != places[found++]) exit(3);
        }
    }
    oncrpc_parts_free(&cursor);
    oncrpc_declarations_free(&held);
}
static uint32_t put_into(oncrpc_declarations *held, const char *name, const char *wire, size_t length,
                     oncrpc_value_part *parts, size_t part_count, uint8_t *names, size_t name_count,
                     oncrpc_parts_outcome *found) {
    return oncrpc_declarations_parts(held, (const uint8_t *)name, strlen(name), ONCRPC_MOST_DEPTH, ONCRPC_MOST_BYTES,
                                     (const uint8_t *)wire, length, parts, part_count, names, name_count, found);
}
static void put_parts(const char *name, const char *wire, size_t length, long count, int asked) {
    oncrpc_declarations held = declared(1);
    oncrpc_parts_outcome need, found;
    if (put_into(&held, name, wire, length, NULL, 0, NULL, 0, &need) != ONCRPC_NO_ROOM) exit(1);
    oncrpc_value_part *parts = malloc(need.parts * sizeof *parts);
    uint8_t *names = malloc(need.names + 1);
    for (long i = 0; i < count; i++) {
        if (asked && put_into(&held, name, wire, length, NULL, 0, NULL, 0, &found) != ONCRPC_NO_ROOM) exit(2);
        if (put_into(&held, name, wire, length, parts, need.parts, names, need.names, &found)) exit(3);
    }
    oncrpc_declarations_free(&held);
}
/* The number of a part, most significant byte first. */
static uint64_t number_of(const uint8_t *bytes, size_t count) {
    uint64_t number = 0;
    for (size_t i = 0; i < count; i++) number = number << 8 | bytes[i];
    return number;
}
/* The items of the value with these parts (RFC 4506 section 4). Their content goes to memory of its own, as a value of
 * rpcgen's has it. A source that stands in a page as far as the target does is copied by another loop of the C library,
 * by a quarter more instructions. */
static size_t items_of(const oncrpc_value_part *parts, size_t part_count, const char *wire, oncrpc_item *items,
                       char *content, size_t *used) {
    size_t made = 0;
    for (size_t i = 0; i < part_count; i++) {
        const oncrpc_value_part *part = &parts[i];
        oncrpc_item item = {0};
        uint64_t number = part->count <= 8 ? number_of((const uint8_t *)wire + part->at, part->count) : 0;
        if (part->role == ONCRPC_ROLE_NUMBER && part->count == 4 && part->xdr_type != ONCRPC_TYPE_UNSIGNED) {
            item.form = ONCRPC_ITEM_SIGNED;
            item.signed_number = (int32_t)number;
        } else if (part->role == ONCRPC_ROLE_NUMBER) {
            item.form = ONCRPC_ITEM_UNSIGNED;
            item.number = number;
        } else if (part->role == ONCRPC_ROLE_FLAG) {
            item.form = ONCRPC_ITEM_FLAG;
            item.number = number;
        } else if (part->role == ONCRPC_ROLE_LENGTH && part->xdr_type == ONCRPC_TYPE_ARRAY) {
            item.form = ONCRPC_ITEM_COUNT;
            item.count = number;
        } else if (part->role == ONCRPC_ROLE_CONTENT) {
            item.form = ONCRPC_ITEM_CONTENT;
            item.at = *used;
            item.count = part->count;
            memcpy(content + *used, wire + part->at, part->count);
            *used += part->count;
        } else {
            continue;
        }
        items[made++] = item;
    }
    return made;
}
static void write_items(const char *name, const char *wire, size_t length, long count) {
    oncrpc_declarations held = declared(1);
    oncrpc_parts_outcome need, found;
    if (put_into(&held, name, wire, length, NULL, 0, NULL, 0, &need) != ONCRPC_NO_ROOM) exit(1);
    oncrpc_value_part *parts = malloc(need.parts * sizeof *parts);
    uint8_t *names = malloc(need.names + 1), *bytes = malloc(length);
    if (put_into(&held, name, wire, length, parts, need.parts, names, need.names, &found)) exit(2);
    oncrpc_item *items = malloc(need.parts * sizeof *items);
    char *content = malloc(length);
    size_t used = 0, item_count = items_of(parts, need.parts, wire, items, content, &used), written;
    oncrpc_outcome outcome;
    for (long i = 0; i < count; i++)
        if (oncrpc_declarations_write(&held, name, strlen(name), ONCRPC_MOST_DEPTH, ONCRPC_MOST_BYTES, items,
                                      item_count, content, used, bytes, length, &written, &outcome))
            exit(3);
    if (written != length || memcmp(bytes, wire, length)) exit(4);
    oncrpc_declarations_free(&held);
}
#endif
static char *wire;
static void loop(const char *name, xdrproc_t f, void *value, size_t size, const char *work, long count) {
    XDR x;
    u_int length;
    int decode = !strcmp(work, "decode");
    char *into = calloc(1, size);
    xdrmem_create(&x, wire, 40u << 20, XDR_ENCODE);
    if (!f(&x, value)) exit(1);
    length = xdr_getpos(&x);
#ifdef LIBRARY
    if (!strcmp(work, "check")) {
        check(name, wire, length, count);
        return;
    }
    if (!strcmp(work, "parts") || !strcmp(work, "asked")) {
        put_parts(name, wire, length, count, *work == 'a');
        return;
    }
    if (!strcmp(work, "find")) {
        find(wire, length, count);
        return;
    }
    if (!strcmp(work, "cursor")) {
        go_over(wire, length, count);
        return;
    }
    if (!strcmp(work, "write")) {
        write_items(name, wire, length, count);
        return;
    }
#endif
    for (long i = 0; i < count; i++) {
        xdrmem_create(&x, wire, decode ? length : 40u << 20, decode ? XDR_DECODE : XDR_ENCODE);
        if (decode) memset(into, 0, size);
        if (!f(&x, decode ? into : value)) exit(1);
        if (decode) xdr_free(f, into);
    }
}
int main(int c, char **v) {
    long count = atol(v[3]);
    wire = malloc(40u << 20);
#ifdef LIBRARY
    if (!strcmp(v[2], "read")) {
        oncrpc_declarations held = declared(count);
        oncrpc_declarations_free(&held);
        return 0;
    }
#endif
    if (!strncmp(v[1], "opaque", 6)) {
        u_int size = !strcmp(v[1], "opaque1M") ? 1048572 : 16777212;
        blob b = {size, malloc(size)};
        for (u_int i = 0; i < b.blob_len; i++) b.blob_val[i] = i * 31;
        loop("blob", (xdrproc_t)xdr_blob, &b, sizeof b, v[2], count);
    } else if (!strcmp(v[1], "uint1M")) {
        nums a = {1000000, malloc(4000000)};
        for (u_int i = 0; i < a.nums_len; i++) a.nums_val[i] = i * 2654435761u;
        loop("nums", (xdrproc_t)xdr_nums, &a, sizeof a, v[2], count);
    } else if (!strcmp(v[1], "list2000")) {
        list l = 0;
        for (int i = 0; i < 2000; i++) {
            entry *e = malloc(sizeof *e);
            e->item = malloc(16);
            sprintf(e->item, "item %06d", i);
            e->next = l;
            l = e;
        }
        loop("list", (xdrproc_t)xdr_list, &l, sizeof l, v[2], count);
    } else {
        file f;
        f.filename = "sillyprog";
        f.type.kind = EXEC;
        f.type.filetype_u.interpretor = "lisp";
        f.owner = "john";
        f.data.data_len = 6;
        f.data.data_val = "(quit)";
        loop("file", (xdrproc_t)xdr_file, &f, sizeof f, v[2], count);
    }
    return 0;
}
