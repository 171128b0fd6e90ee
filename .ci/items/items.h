/* What the programs of this folder share: kinds, lists of items, and what is to be answered of them. */
#ifndef ITEMS_H
#define ITEMS_H

#include <stdlib.h>
#include <string.h>

#include "oncrpc.h"

/* The kinds of the text, by their numbers here. */
enum {
    INT, UNSIGNED, HYPER, LONG_UNSIGNED, BOOL, COLOUR, NOTHING, THREE, SOME, NAME, OPAQUE, PAIR, LIST, WORDS, SHAPE,
    COUNTED, EITHER, ANY, MAYBE, NODE, NEXT, TREE, KIDS, ALL, KINDS
};

/* A kind: its name, or NULL; its type; its size, or its maximum; its parts, of which it has so many. Of a union `arms`
 * are the numbers that lead to the parts. The last part is for all others, where there is one more of them. */
struct kind {
    const char *name;
    uint32_t type, size;
    size_t parts_count;
    int parts[20];
    size_t arms_count;
    int64_t arms[3];
    int tag;
};
#define MOST 4294967295u

/* kinds.c: declarations, and their kinds. */
extern const char text[];
extern const size_t text_count;
extern const struct kind kinds[KINDS];

/* Whether the numbers of a type have signs. */
int is_signed(uint32_t type);

/* Which part of a union its number leads to, or -1. */
int arm_of(const struct kind *kind, uint64_t bits);

/* A list of items, what their content is taken from, and how it is asked for. */
enum { MOST_ITEMS = 1024, MOST_PARTS = 4096, MOST_NAMES = 32768, MOST_BYTES = 65536, MOST_DATA = 24 };
struct list {
    oncrpc_item items[MOST_ITEMS];
    size_t count;
    uint8_t data[MOST_DATA];
    size_t data_count;
    int kind, is_named;
    uint32_t depth, bytes;
};

/* What is to be answered: the bytes, or a status with a reason and a place. */
struct answer {
    uint8_t bytes[MOST_BYTES];
    size_t count, at;
    uint32_t status, why;
};

/* values.c: what is drawn. A seed begins, numbers below a count and near the ends of ranges, and the next item, which
 * is of this form. */
void draw_from(uint64_t seed);
uint64_t draw(void);
uint64_t below(uint64_t count);
uint64_t edge(void);
oncrpc_item *push(struct list *to, uint32_t form);

/* The items of some value of a kind; where there are many already it ends soon. */
void push_value(struct list *to, int kind);

/* writer.c: what is to be answered of a list. */
void expect(const struct list *list, struct answer *to);

#endif
