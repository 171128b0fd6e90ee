/* Lists of items, those of values and changed ones, are given to oncrpc_declarations_write. A writer of its own stands
 * here: what it says of a list, the bytes or the reason and the place, the library has to answer. What is written is
 * checked, and its parts give the items back.
 *
 *   items SEED COUNT    The last line is how many answers were wrong; a line before each says which list that was.
 *
 * Where many lists are made, each reason that there is for items has to come. */
#include <stdio.h>

#include "items.h"

static oncrpc_declarations held = ONCRPC_NONE;
static long wrong, told[ONCRPC_OUTSIDE + 1], statuses[ONCRPC_BAD_ITEM + 1];

/* ---- the library */

static void judge(int is_well, const char *what, long number) {
    if (!is_well && ++wrong <= 10) {
        printf("list %ld: %s\n", number, what);
    }
}

/* The answer of the library where the buffer has so much room, and its bytes beyond those that were written. */
static void compare(const struct list *list, const struct answer *to, size_t room, long number) {
    const char *name = list->is_named ? kinds[list->kind].name : "folder";
    uint32_t wanted = to->status == ONCRPC_OK && room < to->count ? ONCRPC_NO_ROOM : to->status;
    size_t at = to->status == ONCRPC_OK ? to->count : to->at, written = 9, behind = wanted ? 0 : to->count;
    oncrpc_outcome outcome = {9, 9, 9, 9, 9};
    uint8_t *buffer = malloc(room + 16), *data = malloc(list->data_count + 1);
    oncrpc_item *items = malloc(list->count * sizeof *items + 1);
    if (!buffer || !data || !items) {
        exit(2);
    }
    memset(buffer, '.', room + 16);
    memcpy(data, list->data, list->data_count);
    memcpy(items, list->items, list->count * sizeof *items);
    uint32_t status = oncrpc_declarations_write(&held, name, strlen(name), list->depth, list->bytes,
        list->count ? items : NULL, list->count, list->data_count ? data : NULL, list->data_count,
        room ? buffer : NULL, room, &written, &outcome);
    judge(status == wanted && outcome.at == at && outcome.why == to->why && written == behind && !outcome.line
        && !outcome.column && !outcome.inner, "the status or the outcome", number);
    judge(!memcmp(buffer, to->bytes, behind), "the bytes", number);
    while (behind < room + 16 && buffer[behind] == '.') {
        behind++;
    }
    judge(behind == room + 16, "the rest of the buffer", number);
    statuses[status <= ONCRPC_BAD_ITEM ? status : ONCRPC_BAD_ITEM]++;
    told[to->why]++;
    free(items), free(data), free(buffer);
}

/* Whether a part has what stands in the item. */
static int is_of(const oncrpc_value_part *part, const uint8_t *bytes, const oncrpc_item *item, const uint8_t *data) {
    uint64_t bits = 0, number = item->form == ONCRPC_ITEM_SIGNED ? (uint64_t)item->signed_number : item->number;
    for (size_t i = 0; i < part->count && part->count <= 8; i++) {
        bits = bits << 8 | bytes[part->at + i];
    }
    switch (part->role) {
    case ONCRPC_ROLE_NUMBER:
        return (item->form == ONCRPC_ITEM_SIGNED || item->form == ONCRPC_ITEM_UNSIGNED)
            && bits == (part->count == 8 ? number : (uint32_t)number);
    case ONCRPC_ROLE_FLAG: return item->form == ONCRPC_ITEM_FLAG && bits == item->number;
    case ONCRPC_ROLE_LENGTH: return item->form == ONCRPC_ITEM_COUNT && bits == item->count;
    case ONCRPC_ROLE_CONTENT:
        return item->form == ONCRPC_ITEM_CONTENT && part->count == item->count
            && !memcmp(bytes + part->at, data + item->at, item->count);
    default: return 0;
    }
}

/* What was written is a value, all of it, whose parts give the items back. */
static void read_back(const struct list *list, const struct answer *to, long number) {
    static oncrpc_value_part parts[MOST_PARTS];
    static uint8_t names[MOST_NAMES];
    const char *name = kinds[list->kind].name;
    oncrpc_outcome outcome;
    oncrpc_parts_outcome found;
    size_t at = 0;
    uint32_t status = oncrpc_declarations_check(&held, name, strlen(name), list->depth, list->bytes, to->bytes,
        to->count, &outcome);
    judge(status == ONCRPC_OK && outcome.at == to->count, "no value", number);
    status = oncrpc_declarations_parts(&held, name, strlen(name), list->depth, list->bytes, to->bytes, to->count,
        parts, MOST_PARTS, names, MOST_NAMES, &found);
    judge(status == ONCRPC_OK, "no parts", number);
    for (const oncrpc_value_part *part = parts; status == ONCRPC_OK && part < parts + found.parts; part++) {
        int is_length = part->role == ONCRPC_ROLE_LENGTH && part->xdr_type != ONCRPC_TYPE_ARRAY;
        if (part->role != ONCRPC_ROLE_GROUP && !is_length) {
            judge(at < list->count && is_of(part, to->bytes, list->items + at, list->data), "a part", number);
            at++;
        }
    }
    judge(at == list->count, "the count of parts", number);
}

/* ---- the changes */

/* Draws one of the kinds that have a name. */
static int named_kind(void) {
    int kind;
    do {
        kind = (int)below(KINDS);
    } while (!kinds[kind].name);
    return kind;
}

static void change_item(struct list *list, oncrpc_item *item) {
    switch (below(5)) {
    case 0: item->form = below(9) ? (uint32_t)below(7) : (uint32_t)draw(); return;
    case 1: item->signed_number = (int64_t)edge(); return;
    case 2: item->number = edge(); return;
    case 3:
        item->count = below(2) ? item->count + (size_t)below(3) - 1 : (size_t)(below(2) ? below(12) : edge());
        item->at = below(2) ? item->at : 0;
        return;
    default: item->at = below(2) ? list->data_count + (size_t)below(3) - 1 : (size_t)edge();
    }
}

static void change_limits(struct list *list, size_t count) {
    static const uint32_t bad[] = {0, 1, 2, 3, 6, ONCRPC_MOST_BYTES - 2, ONCRPC_MOST_BYTES + 4, UINT32_MAX};
    switch (below(8)) {
    case 0: list->depth = below(2) ? 0 : ONCRPC_MOST_DEPTH + 1; return;
    case 1: list->bytes = bad[below(sizeof bad / sizeof *bad)]; return;
    case 2: list->is_named = 0; return;
    case 3:
    case 4: list->depth = 1 + (uint32_t)below(8); return;
    case 5: list->bytes = (uint32_t)count; return;
    default: list->bytes = 4 + 4 * (uint32_t)below(count / 4 + 1);
    }
}

/* Changes a list; before, the value had so many bytes. */
static void change(struct list *list, size_t count) {
    size_t at = list->count ? below(list->count) : 0, other = list->count ? below(list->count) : 0;
    oncrpc_item *items = list->items, kept = items[other];
    switch (below(10)) {
    case 0:
        if (list->count) {
            memmove(items + at, items + at + 1, (--list->count - at) * sizeof *items);
        }
        return;
    case 1:
        memmove(items + at + 1, items + at, (list->count++ - at) * sizeof *items);
        return;
    case 2:
        items[other] = items[at];
        items[at] = kept;
        return;
    case 3: list->data_count = below(2) ? 0 : list->data_count / 2; return;
    case 4: list->count = below(4) ? list->count - (list->count > 0) : below(list->count + 1); return;
    case 5: change_item(list, push(list, 1 + (uint32_t)below(5))); return;
    case 6: list->kind = below(4) ? list->kind : named_kind(); return;
    case 7: change_limits(list, count); return;
    default: change_item(list, items + at);
    }
}

/* A value and its items, and then the same changed a few times. */
static void try_list(long number) {
    static struct list list;
    static struct answer to;
    list.count = 0;
    list.data_count = MOST_DATA;
    for (size_t i = 0; i < MOST_DATA; i++) {
        list.data[i] = (uint8_t)draw();
    }
    list.kind = below(2) ? ALL : named_kind();
    list.is_named = 1;
    list.depth = ONCRPC_MOST_DEPTH;
    list.bytes = ONCRPC_MOST_BYTES;
    push_value(&list, list.kind);
    expect(&list, &to);
    judge(to.status == ONCRPC_OK, "made here as no value", number);
    size_t count = to.count;
    for (uint64_t changes = below(4) + 1; changes--;) {
        compare(&list, &to, to.count + below(16), number);
        if (to.status == ONCRPC_OK) {
            compare(&list, &to, below(2) ? to.count - 1 : 0, number);
            read_back(&list, &to, number);
        }
        change(&list, count);
        expect(&list, &to);
    }
    compare(&list, &to, to.count, number);
}

/* Each reason for items, and each status, has to have come. */
static void count_answers(void) {
    static const uint32_t never[] = {ONCRPC_BAD_PADDING, ONCRPC_TRUNCATED};
    static const uint32_t once[] = {ONCRPC_OK, ONCRPC_NO_KIND, ONCRPC_BAD_LIMITS, ONCRPC_NO_ROOM, ONCRPC_BAD_ITEM};
    for (uint32_t why = 1; why <= ONCRPC_OUTSIDE; why++) {
        int is_never = why == never[0] || why == never[1];
        printf("%s: %ld\n", oncrpc_reason_text(why), told[why]);
        wrong += is_never != !told[why];
    }
    for (size_t i = 0; i < sizeof once / sizeof *once; i++) {
        printf("%s: %ld\n", oncrpc_status_text(once[i]), statuses[once[i]]);
        wrong += !statuses[once[i]];
    }
}

int main(int words_count, char **words) {
    oncrpc_outcome outcome;
    if (words_count != 3
        || oncrpc_declarations_read(text, text_count, &held, &outcome) != ONCRPC_OK) {
        return 2;
    }
    uint64_t seed = strtoull(words[1], NULL, 10);
    long count = strtol(words[2], NULL, 10);
    for (long i = 0; i < count; i++) {
        draw_from(seed * 1000000007 + (uint64_t)i);
        draw_from(draw());
        try_list(i);
    }
    oncrpc_declarations_free(&held);
    if (count >= 10000) {
        count_answers();
    }
    printf("wrong %ld\n", wrong);
    return wrong != 0;
}
