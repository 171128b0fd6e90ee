/* Kinds of declarations and their members: what the text says of them (RFC 4506 sections 4 and 6). */
#include "calls.h"

static const char declared[] =
    "enum level { LOW = -1, HIGH = 7, TOP = 7 };\n"
    "typedef string name<3>;\n"
    "typedef opaque three[3];\n"
    "typedef opaque some<4294967295>;\n"
    "typedef unsigned hyper pair[2];\n"
    "typedef level levels<9>;\n"
    "struct node { int number; node *next; };\n"
    "typedef node *chain;\n"
    "union held switch (level z) { case LOW: node there; case HIGH: void; };\n"
    "union other switch (unsigned int n) { case 0: case 4294967295: bool flag; default: name rest; };\n";

struct kind_row { const char *name; uint32_t type; size_t members; uint32_t size; const char *item; };
static const struct kind_row kind_rows[] = {
    {"int", ONCRPC_TYPE_INT, 0, 0, NULL},
    {"unsigned", ONCRPC_TYPE_UNSIGNED, 0, 0, NULL},
    {"hyper", ONCRPC_TYPE_HYPER, 0, 0, NULL},
    {"unsigned-hyper", ONCRPC_TYPE_UNSIGNED_HYPER, 0, 0, NULL},
    {"bool", ONCRPC_TYPE_BOOL, 0, 0, NULL},
    {"opaque", ONCRPC_TYPE_OPAQUE, 0, UINT32_MAX, NULL},
    {"string", ONCRPC_TYPE_STRING, 0, UINT32_MAX, NULL},
    {"level", ONCRPC_TYPE_ENUM, 3, 0, NULL},
    {"name", ONCRPC_TYPE_STRING, 0, 3, NULL},
    {"three", ONCRPC_TYPE_FIXED_OPAQUE, 0, 3, NULL},
    {"some", ONCRPC_TYPE_OPAQUE, 0, UINT32_MAX, NULL},
    {"pair", ONCRPC_TYPE_FIXED_ARRAY, 0, 2, "unsigned-hyper"},
    {"levels", ONCRPC_TYPE_ARRAY, 0, 9, "level"},
    {"node", ONCRPC_TYPE_STRUCT, 2, 0, NULL},
    {"chain", ONCRPC_TYPE_OPTIONAL, 0, 0, "node"},
    {"held", ONCRPC_TYPE_UNION, 0, 0, "level"},
    {"other", ONCRPC_TYPE_UNION, 0, 0, "unsigned"},
};

static uint32_t named(oncrpc_declarations *held, const char *name) {
    uint32_t kind = 9999;
    uint32_t status = oncrpc_declarations_named(held, bytes(name), strlen(name), &kind);
    judge(status == ONCRPC_OK && kind != 9999, status);
    return kind;
}

static void tell_kind(oncrpc_declarations *held, const struct kind_row *row) {
    oncrpc_kind told = {9, 9, 9, 9};
    uint32_t status = oncrpc_declarations_kind(held, named(held, row->name), &told);
    judge(status == ONCRPC_OK && told.xdr_type == row->type && told.members == row->members && told.size == row->size
        && told.item == (row->item ? named(held, row->item) : 0), status);
}

/* A member by its place, or under a number where that is looked for. The kind is that of the name `of`, of a void one
 * any. */
struct member_row { const char *kind; int is_number; int64_t key; const char *name; int64_t number; const char *of; };
static const struct member_row member_rows[] = {
    {"level", 0, 0, "LOW", -1, "level"},
    {"level", 0, 1, "HIGH", 7, "level"},
    {"level", 0, 2, "TOP", 7, "level"},
    {"node", 0, 0, "number", 0, "int"},
    {"level", 1, -1, "LOW", -1, "level"},
    {"level", 1, 7, "HIGH", 7, "level"},
    {"held", 1, -1, "there", -1, "node"},
    {"held", 1, 7, "", 7, NULL},
    {"other", 1, 0, "flag", 0, "bool"},
    {"other", 1, 4294967295, "flag", 4294967295, "bool"},
    {"other", 1, 1, "rest", 1, "name"},
    {"other", 1, -1, "rest", -1, "name"},
    {"level", 0, 3, NULL, 0, NULL},
    {"level", 0, -1, NULL, 0, NULL},
    {"node", 0, 2, NULL, 0, NULL},
    {"held", 0, 0, NULL, 0, NULL},
    {"int", 0, 0, NULL, 0, NULL},
    {"bool", 0, 0, NULL, 0, NULL},
    {"level", 1, 8, NULL, 0, NULL},
    {"level", 1, 4294967303, NULL, 0, NULL},
    {"level", 1, INT64_MIN, NULL, 0, NULL},
    {"held", 1, 0, NULL, 0, NULL},
    {"node", 1, 0, NULL, 0, NULL},
    {"bool", 1, 1, NULL, 0, NULL},
};

static uint32_t picked(oncrpc_declarations *held, const struct member_row *row, uint8_t *buffer, size_t count,
    oncrpc_member *member) {
    uint32_t kind = named(held, row->kind);
    return row->is_number ? oncrpc_declarations_picked(held, kind, row->key, buffer, count, member)
        : oncrpc_declarations_member(held, kind, (size_t)row->key, buffer, count, member);
}

/* The name stands at the front of the buffer, where that is just enough, and not in less. */
static void tell_member(oncrpc_declarations *held, const struct member_row *row) {
    uint8_t buffer[12] = "............";
    oncrpc_member member = {9, 9, 9};
    size_t count = row->name ? strlen(row->name) : 0;
    uint32_t status = picked(held, row, buffer, count, &member);
    if (!row->name) {
        judge(status == ONCRPC_NO_MEMBER && member.name_count == 9 && member.number == 9 && member.kind == 9
            && !memcmp(buffer, "............", 12), status);
        return;
    }
    judge(status == ONCRPC_OK && member.name_count == count && member.number == row->number
        && (!row->of || member.kind == named(held, row->of)) && !memcmp(buffer, row->name, count)
        && !memcmp(buffer + count, "............", 12 - count), status);
    if (count) {
        memset(buffer, '.', 12), memset(&member, 0, sizeof member);
        status = picked(held, row, buffer, count - 1, &member);
        judge(status == ONCRPC_NO_ROOM && member.name_count == count && member.number == row->number
            && !memcmp(buffer, "............", 12), status);
    }
}

/* The field of a list that leads on is optional, and its item the list again. */
static void follow_list(oncrpc_declarations *held) {
    oncrpc_member member = {9, 9, 9};
    oncrpc_kind told = {9, 9, 9, 9};
    uint8_t buffer[4];
    uint32_t status = oncrpc_declarations_member(held, named(held, "node"), 1, buffer, 4, &member);
    judge(status == ONCRPC_OK && !memcmp(buffer, "next", 4), status);
    status = oncrpc_declarations_kind(held, member.kind, &told);
    judge(status == ONCRPC_OK && told.xdr_type == ONCRPC_TYPE_OPTIONAL && told.item == named(held, "node"), status);
}

/* The types of the text in its order, which are those behind the seven basic ones of the rows, and then none. */
static void list_types(oncrpc_declarations *held) {
    enum { BASIC = 7, OWN = sizeof kind_rows / sizeof *kind_rows - BASIC };
    for (size_t i = 0; i < OWN; i++) {
        const char *name = kind_rows[BASIC + i].name;
        size_t count = strlen(name);
        uint8_t buffer[12] = "............";
        oncrpc_member member = {9, 9, 9};
        uint32_t status = oncrpc_declarations_type(held, i, buffer, count - 1, &member);
        judge(status == ONCRPC_NO_ROOM && member.name_count == count && !memcmp(buffer, "............", 12), status);
        member = (oncrpc_member){9, 9, 9};
        status = oncrpc_declarations_type(held, i, buffer, count, &member);
        judge(status == ONCRPC_OK && member.name_count == count && !member.number && member.kind == named(held, name)
            && !memcmp(buffer, name, count) && !memcmp(buffer + count, "............", 12 - count), status);
    }
    static const size_t behind[] = {OWN, OWN + BASIC, SIZE_MAX - BASIC, SIZE_MAX};
    for (size_t i = 0; i < sizeof behind / sizeof *behind; i++) {
        uint8_t buffer[12] = "............";
        oncrpc_member member = {9, 9, 9};
        uint32_t status = oncrpc_declarations_type(held, behind[i], buffer, 12, &member);
        judge(status == ONCRPC_NO_MEMBER && member.name_count == 9 && member.number == 9 && member.kind == 9
            && !memcmp(buffer, "............", 12), status);
    }
}

/* No such name, and no such kind: nothing is filled. */
static void ask_in_vain(oncrpc_declarations *held) {
    static const char *names[] = {"folder", "", "Int", "\377", "100003.3.16.1"};
    static const uint32_t kinds[] = {1024, 4294967295};
    for (size_t i = 0; i < sizeof names / sizeof *names; i++) {
        uint32_t kind = 9;
        uint32_t status = oncrpc_declarations_named(held, bytes(names[i]), strlen(names[i]), &kind);
        judge(status == ONCRPC_NO_KIND && kind == 9, status);
    }
    for (size_t i = 0; i < sizeof kinds / sizeof *kinds; i++) {
        oncrpc_kind told = {9, 9, 9, 9};
        oncrpc_member member = {9, 9, 9};
        uint32_t status = oncrpc_declarations_kind(held, kinds[i], &told);
        judge(status == ONCRPC_NO_KIND && told.members == 9 && told.xdr_type == 9, status);
        status = oncrpc_declarations_member(held, kinds[i], 0, NULL, 0, &member);
        judge(status == ONCRPC_NO_MEMBER && member.name_count == 9, status);
        status = oncrpc_declarations_picked(held, kinds[i], 0, NULL, 0, &member);
        judge(status == ONCRPC_NO_MEMBER && member.name_count == 9, status);
    }
}

static void ask_none(oncrpc_declarations *none) {
    oncrpc_kind told = {9, 9, 9, 9};
    oncrpc_member member = {9, 9, 9};
    uint32_t kind = 9;
    uint32_t status = oncrpc_declarations_named(none, bytes("int"), 3, &kind);
    judge(status == ONCRPC_NO_DECLARATIONS && kind == 9, status);
    status = oncrpc_declarations_kind(none, 0, &told);
    judge(status == ONCRPC_NO_DECLARATIONS && told.xdr_type == 9, status);
    status = oncrpc_declarations_member(none, 0, 0, NULL, 0, &member);
    judge(status == ONCRPC_NO_DECLARATIONS && member.name_count == 9, status);
    status = oncrpc_declarations_picked(none, 0, 0, NULL, 0, &member);
    judge(status == ONCRPC_NO_DECLARATIONS && member.name_count == 9, status);
    status = oncrpc_declarations_type(none, 0, NULL, 0, &member);
    judge(status == ONCRPC_NO_DECLARATIONS && member.name_count == 9, status);
}

void check_kinds(void) {
    oncrpc_declarations held = ONCRPC_NONE;
    oncrpc_outcome outcome = {9, 9, 9, 9, 9};
    ask_none(&held);
    uint32_t status = oncrpc_declarations_read(bytes(declared), sizeof declared - 1, &held, &outcome);
    judge(status == ONCRPC_OK, status);
    if (status == ONCRPC_OK) {
        for (size_t i = 0; i < sizeof kind_rows / sizeof *kind_rows; i++) {
            tell_kind(&held, kind_rows + i);
        }
        for (size_t i = 0; i < sizeof member_rows / sizeof *member_rows; i++) {
            tell_member(&held, member_rows + i);
        }
        follow_list(&held);
        list_types(&held);
        ask_in_vain(&held);
    }
    oncrpc_declarations_free(&held);
}
