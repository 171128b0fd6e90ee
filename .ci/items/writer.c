/* A writer of values by their items: which item is refused for which reason, or the bytes. It follows include/oncrpc.h
 * and docs/FORMATS.md, and has nothing of the library. */
#include "items.h"

/* A list that is written: so many of its items were taken. */
struct walk {
    const struct list *list;
    struct answer *to;
    size_t at;
};

static int stop(struct walk *walk, uint32_t why, size_t at) {
    walk->to->status = ONCRPC_BAD_ITEM;
    walk->to->why = why;
    walk->to->at = at;
    return 0;
}

/* Why an item is none of any value, or 0. */
static uint32_t untold(const struct list *list, const oncrpc_item *item) {
    switch (item->form) {
    case ONCRPC_ITEM_SIGNED:
    case ONCRPC_ITEM_UNSIGNED: return 0;
    case ONCRPC_ITEM_FLAG: return item->number > 1 ? ONCRPC_NOT_IN_RANGE : 0;
    case ONCRPC_ITEM_COUNT: return item->count > MOST ? ONCRPC_NOT_IN_RANGE : 0;
    case ONCRPC_ITEM_CONTENT:
        return item->at > list->data_count || item->count > list->data_count - item->at ? ONCRPC_OUTSIDE : 0;
    default: return ONCRPC_WRONG_ITEM;
    }
}

/* Begins a node. The item that makes it due is refused where it is too deep: at the front the first, if it is one. */
static int open(struct walk *walk, uint32_t depth) {
    if (depth <= walk->list->depth) {
        return 1;
    }
    if (walk->at || !walk->list->count) {
        return walk->at ? stop(walk, ONCRPC_TOO_DEEP, walk->at - 1) : stop(walk, ONCRPC_UNFINISHED, 0);
    }
    uint32_t why = untold(walk->list, walk->list->items);
    return stop(walk, why ? why : ONCRPC_TOO_DEEP, 0);
}

/* The next item, which is to be of one of two forms; the last filled the limit where there are no bytes for another. */
static const oncrpc_item *next(struct walk *walk, uint32_t form, uint32_t other) {
    const oncrpc_item *item = walk->list->items + walk->at;
    if (walk->to->count == walk->list->bytes) {
        stop(walk, ONCRPC_TOO_LARGE, walk->at - 1);
    } else if (walk->at == walk->list->count) {
        stop(walk, ONCRPC_UNFINISHED, walk->at);
    } else if (untold(walk->list, item)) {
        stop(walk, untold(walk->list, item), walk->at);
    } else if (item->form != form && item->form != other) {
        stop(walk, ONCRPC_WRONG_ITEM, walk->at);
    } else {
        return item;
    }
    return NULL;
}

/* Takes the next item, whose bytes are these and these, unless they pass the limit or are refused for a reason. */
static int take(struct walk *walk, uint64_t number, size_t wide, const uint8_t *bytes, size_t count, uint32_t why) {
    size_t padded = (count + 3) / 4 * 4;
    struct answer *to = walk->to;
    if (walk->list->bytes - to->count < wide + padded) {
        return stop(walk, ONCRPC_TOO_LARGE, walk->at);
    }
    if (why) {
        return stop(walk, why, walk->at);
    }
    for (size_t i = wide; i--;) {
        to->bytes[to->count++] = (uint8_t)(number >> 8 * i);
    }
    for (size_t i = 0; i < padded; i++) {
        to->bytes[to->count++] = i < count ? bytes[i] : 0;
    }
    walk->at++;
    return 1;
}

static int is_in_range(const oncrpc_item *item, int has_sign, int is_wide) {
    int64_t z = item->signed_number;
    if (item->form == ONCRPC_ITEM_SIGNED) {
        return has_sign ? is_wide || (z >= INT32_MIN && z <= INT32_MAX) : z >= 0 && (is_wide || z <= MOST);
    }
    return is_wide ? !has_sign || item->number <= INT64_MAX : item->number <= (has_sign ? INT32_MAX : MOST);
}

/* Why the bytes of a number are refused, or 0. */
static uint32_t illegal(const struct kind *kind, uint64_t bits) {
    if (kind->type == ONCRPC_TYPE_UNION) {
        uint32_t why = illegal(kinds + kind->tag, bits);
        return why ? why : arm_of(kind, bits) < 0 ? ONCRPC_BAD_CASE : 0;
    }
    for (size_t i = 0; i < kind->arms_count; i++) {
        if ((uint64_t)kind->arms[i] == bits) {
            return 0;
        }
    }
    return !kind->arms_count ? 0 : kind->type == ONCRPC_TYPE_BOOL ? ONCRPC_BAD_BOOL : ONCRPC_BAD_NUMBERED;
}

/* Takes a number, and tells its bits. */
static int take_number(struct walk *walk, const struct kind *kind, uint64_t *bits) {
    uint32_t type = kind->type == ONCRPC_TYPE_UNION ? kinds[kind->tag].type : kind->type;
    int is_wide = type == ONCRPC_TYPE_HYPER || type == ONCRPC_TYPE_UNSIGNED_HYPER;
    const oncrpc_item *item = next(walk, ONCRPC_ITEM_SIGNED, ONCRPC_ITEM_UNSIGNED);
    if (!item) {
        return 0;
    }
    if (!is_in_range(item, is_signed(type), is_wide)) {
        return stop(walk, ONCRPC_NOT_IN_RANGE, walk->at);
    }
    *bits = item->form == ONCRPC_ITEM_SIGNED ? (uint64_t)item->signed_number : item->number;
    return take(walk, *bits, is_wide ? 8 : 4, NULL, 0, illegal(kind, *bits));
}

static int take_content(struct walk *walk, const struct kind *kind) {
    int is_fixed = kind->type == ONCRPC_TYPE_FIXED_OPAQUE;
    const oncrpc_item *item = next(walk, ONCRPC_ITEM_CONTENT, ONCRPC_ITEM_CONTENT);
    if (!item || (is_fixed && item->count != kind->size)) {
        return item ? stop(walk, ONCRPC_WRONG_ITEM, walk->at) : 0;
    }
    return take(walk, item->count, is_fixed ? 0 : 4, walk->list->data + item->at, item->count,
        item->count > kind->size ? ONCRPC_TOO_LONG : 0);
}

/* Takes a flag or a count, and tells how many items follow. */
static int take_count(struct walk *walk, const struct kind *kind, uint64_t *count) {
    int is_flag = kind->type == ONCRPC_TYPE_OPTIONAL;
    uint32_t form = is_flag ? ONCRPC_ITEM_FLAG : ONCRPC_ITEM_COUNT;
    const oncrpc_item *item = next(walk, form, form);
    if (!item) {
        return 0;
    }
    *count = is_flag ? item->number : item->count;
    return take(walk, *count, 4, NULL, 0, !is_flag && *count > kind->size ? ONCRPC_TOO_LONG : 0);
}

static int write_node(struct walk *walk, int number, uint32_t depth) {
    const struct kind *kind = kinds + number;
    uint64_t count = kind->type == ONCRPC_TYPE_STRUCT ? kind->parts_count : kind->size, bits;
    if (!open(walk, depth)) {
        return 0;
    }
    switch (kind->type) {
    case ONCRPC_TYPE_VOID: return 1;
    case ONCRPC_TYPE_FIXED_OPAQUE:
    case ONCRPC_TYPE_OPAQUE:
    case ONCRPC_TYPE_STRING: return take_content(walk, kind);
    case ONCRPC_TYPE_UNION:
        return take_number(walk, kind, &bits) && write_node(walk, arm_of(kind, bits), depth + 1);
    case ONCRPC_TYPE_OPTIONAL:
    case ONCRPC_TYPE_ARRAY:
        if (!take_count(walk, kind, &count)) {
            return 0;
        }
        break;
    case ONCRPC_TYPE_STRUCT:
    case ONCRPC_TYPE_FIXED_ARRAY: break;
    default: return take_number(walk, kind, &bits);
    }
    for (uint64_t i = 0; i < count; i++) {
        if (!write_node(walk, kind->parts[kind->type == ONCRPC_TYPE_STRUCT ? i : 0], depth + 1)) {
            return 0;
        }
    }
    return 1;
}

void expect(const struct list *list, struct answer *to) {
    struct walk walk = {list, to, 0};
    to->count = to->at = 0;
    to->status = ONCRPC_OK;
    to->why = 0;
    if (!list->is_named) {
        to->status = ONCRPC_NO_KIND;
    } else if (!list->depth || list->depth > ONCRPC_MOST_DEPTH || list->bytes < 4 || list->bytes % 4
        || list->bytes > ONCRPC_MOST_BYTES) {
        to->status = ONCRPC_BAD_LIMITS;
    } else if (write_node(&walk, list->kind, 1)) {
        const oncrpc_item *more = list->items + walk.at;
        if (walk.at < list->count) {
            stop(&walk, untold(list, more) ? untold(list, more) : ONCRPC_PAST_END, walk.at);
        }
    }
}
