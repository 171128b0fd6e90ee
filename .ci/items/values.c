/* What is drawn: numbers, and the items of values. */
#include "items.h"

static uint64_t state;

void draw_from(uint64_t seed) {
    state = seed;
}

/* The next of numbers that look drawn: splitmix64. */
uint64_t draw(void) {
    uint64_t z = state += 0x9e3779b97f4a7c15;
    z = (z ^ z >> 30) * 0xbf58476d1ce4e5b9;
    z = (z ^ z >> 27) * 0x94d049bb133111eb;
    return z ^ z >> 31;
}

uint64_t below(uint64_t count) {
    return draw() % count;
}

/* A number near an end of a range, a small one, or any. */
uint64_t edge(void) {
    static const uint64_t ends[] = {0, 0x7fffffff, 0x80000000, 0xffffffff, 0x100000000, INT64_MAX, 1ull << 63,
        UINT64_MAX, 0xffffffff80000000, 0xffffffff7fffffff, 0xfffffffffffffff9};
    uint64_t which = below(4);
    return which == 0 ? draw() : which == 1 ? below(4) : ends[below(sizeof ends / sizeof *ends)] + below(3) - 1;
}

oncrpc_item *push(struct list *to, uint32_t form) {
    oncrpc_item *item = to->items + to->count++;
    *item = (oncrpc_item){form, (int64_t)draw(), draw(), (size_t)draw(), (size_t)draw()};
    return item;
}

/* The bits of a number of a kind, as one of either form, where both may have it. */
static void push_number(struct list *to, uint64_t bits, int is_signed) {
    int both = !(bits >> 63), is_first = is_signed ? !both || below(2) : both && below(2);
    oncrpc_item *item = push(to, is_first ? ONCRPC_ITEM_SIGNED : ONCRPC_ITEM_UNSIGNED);
    if (is_first) {
        item->signed_number = (int64_t)bits;
    } else {
        item->number = bits;
    }
}

/* A number of a kind, sign and all in 64 bits. */
static uint64_t some_number(const struct kind *kind) {
    switch (kind->type) {
    case ONCRPC_TYPE_INT: return (uint64_t)(int64_t)(int32_t)edge();
    case ONCRPC_TYPE_UNSIGNED: return (uint32_t)edge();
    case ONCRPC_TYPE_BOOL:
    case ONCRPC_TYPE_ENUM: return (uint64_t)kind->arms[below(kind->arms_count)];
    default: return edge();
    }
}

static void push_content(struct list *to, const struct kind *kind) {
    oncrpc_item *item = push(to, ONCRPC_ITEM_CONTENT);
    size_t most = kind->size < to->data_count ? kind->size : to->data_count;
    item->count = kind->type == ONCRPC_TYPE_FIXED_OPAQUE ? kind->size : below(most + 1);
    item->at = below(to->data_count - item->count + 1);
}

void push_value(struct list *to, int number) {
    const struct kind *kind = kinds + number;
    uint64_t bits, count = kind->size;
    switch (kind->type) {
    case ONCRPC_TYPE_VOID: return;
    case ONCRPC_TYPE_FIXED_OPAQUE:
    case ONCRPC_TYPE_OPAQUE:
    case ONCRPC_TYPE_STRING: push_content(to, kind); return;
    case ONCRPC_TYPE_STRUCT:
        for (size_t i = 0; i < kind->parts_count; i++) {
            push_value(to, kind->parts[i]);
        }
        return;
    case ONCRPC_TYPE_UNION:
        do {
            bits = below(2) ? some_number(kinds + kind->tag) : (uint64_t)kind->arms[below(kind->arms_count)];
        } while (arm_of(kind, bits) < 0);
        push_number(to, bits, is_signed(kinds[kind->tag].type));
        push_value(to, arm_of(kind, bits));
        return;
    case ONCRPC_TYPE_OPTIONAL:
        count = to->count < 200 && below(3);
        push(to, ONCRPC_ITEM_FLAG)->number = count;
        break;
    case ONCRPC_TYPE_ARRAY:
        count = to->count < 200 ? below(count < 4 ? count + 1 : 5) : 0;
        push(to, ONCRPC_ITEM_COUNT)->count = count;
        break;
    case ONCRPC_TYPE_FIXED_ARRAY: break;
    default: push_number(to, some_number(kind), is_signed(kind->type)); return;
    }
    while (count--) {
        push_value(to, kind->parts[0]);
    }
}
