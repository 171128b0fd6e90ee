/* One part of a value by its path, and the number of a part. The file is that of RFC 4506 section 7. */
#include "calls.h"

static const char declared[] =
    "enum filekind { TEXT = 0, DATA = 1, EXEC = 2 };\n"
    "union filetype switch (filekind kind) {\n"
    "case TEXT: void; case DATA: string creator<255>; case EXEC: string interpretor<255>; };\n"
    "struct file { string filename<255>; filetype type; string owner<32>; opaque data<65535>; };\n"
    "enum level { LOW = -1, HIGH = 7 };\n"
    "struct node { int number; node *next; };\n"
    "union held switch (int z) { case -1: int there; default: void; };\n"
    "typedef int *perhaps;\n"
    "struct all { unsigned int u; hyper h; unsigned hyper v; bool b; level e; held s; opaque f[3]; node list<2>;\n"
    "    int pair[2]; perhaps *m; node *n; };\n";

/* RFC 4506 section 7: the places and the bytes of its table, from 0. */
static const char file[] =
    "\0\0\0\11sillyprog\0\0\0" "\0\0\0\2" "\0\0\0\4lisp" "\0\0\0\4john" "\0\0\0\6(quit)\0\0";

/* RFC 4506 sections 4.1 to 4.19: 92 bytes. */
static const char all[] =
    "\377\377\377\377" "\200\0\0\0\0\0\0\0" "\200\0\0\0\0\0\0\0" "\0\0\0\1" "\377\377\377\377"
    "\377\377\377\377\0\0\0\5" "abc\0"
    "\0\0\0\2" "\0\0\0\3\0\0\0\1\0\0\0\4\0\0\0\0" "\0\0\0\6\0\0\0\0"
    "\0\0\0\10\377\377\377\370" "\0\0\0\1\0\0\0\1\0\0\0\11" "\0\0\0\0";

struct found { size_t at, count; uint32_t depth, type, role; };
struct path_row { const char *name, *path; uint32_t status; struct found part; };

#define NOWHERE ONCRPC_NO_SUCH_PART, {0, 0, 0, 0, 0}
static const struct path_row path_rows[] = {
    {"file", "", ONCRPC_OK, {0, 0, 1, ONCRPC_TYPE_STRUCT, ONCRPC_ROLE_GROUP}},
    {"file", "filename", ONCRPC_OK, {4, 9, 2, ONCRPC_TYPE_STRING, ONCRPC_ROLE_CONTENT}},
    {"file", "type", ONCRPC_OK, {16, 4, 2, ONCRPC_TYPE_UNION, ONCRPC_ROLE_NUMBER}},
    {"file", "type.interpretor", ONCRPC_OK, {24, 4, 3, ONCRPC_TYPE_STRING, ONCRPC_ROLE_CONTENT}},
    {"file", "owner", ONCRPC_OK, {32, 4, 2, ONCRPC_TYPE_STRING, ONCRPC_ROLE_CONTENT}},
    {"file", "data", ONCRPC_OK, {40, 6, 2, ONCRPC_TYPE_OPAQUE, ONCRPC_ROLE_CONTENT}},
    {"file", "type.creator", NOWHERE},
    {"file", "type.interpretor.x", NOWHERE},
    {"file", "type.interpretor[0]", NOWHERE},
    {"file", "type.kind", NOWHERE},
    {"file", "type[0]", NOWHERE},
    {"file", "[0]", NOWHERE},
    {"file", "file", NOWHERE},
    {"file", "Type", NOWHERE},
    {"file", ".type", NOWHERE},
    {"file", "type.", NOWHERE},
    {"file", "type..interpretor", NOWHERE},
    {"file", "type ", NOWHERE},
    {"file", ".", NOWHERE},
    {"file", "]", NOWHERE},
    {"file", "\377", NOWHERE},
    {"all", "u", ONCRPC_OK, {0, 4, 2, ONCRPC_TYPE_UNSIGNED, ONCRPC_ROLE_NUMBER}},
    {"all", "h", ONCRPC_OK, {4, 8, 2, ONCRPC_TYPE_HYPER, ONCRPC_ROLE_NUMBER}},
    {"all", "v", ONCRPC_OK, {12, 8, 2, ONCRPC_TYPE_UNSIGNED_HYPER, ONCRPC_ROLE_NUMBER}},
    {"all", "b", ONCRPC_OK, {20, 4, 2, ONCRPC_TYPE_BOOL, ONCRPC_ROLE_NUMBER}},
    {"all", "e", ONCRPC_OK, {24, 4, 2, ONCRPC_TYPE_ENUM, ONCRPC_ROLE_NUMBER}},
    {"all", "s", ONCRPC_OK, {28, 4, 2, ONCRPC_TYPE_UNION, ONCRPC_ROLE_NUMBER}},
    {"all", "s.there", ONCRPC_OK, {32, 4, 3, ONCRPC_TYPE_INT, ONCRPC_ROLE_NUMBER}},
    {"all", "f", ONCRPC_OK, {36, 3, 2, ONCRPC_TYPE_FIXED_OPAQUE, ONCRPC_ROLE_CONTENT}},
    {"all", "list", ONCRPC_OK, {40, 4, 2, ONCRPC_TYPE_ARRAY, ONCRPC_ROLE_LENGTH}},
    {"all", "list[0]", ONCRPC_OK, {44, 0, 3, ONCRPC_TYPE_STRUCT, ONCRPC_ROLE_GROUP}},
    {"all", "list[0].next", ONCRPC_OK, {52, 0, 5, ONCRPC_TYPE_STRUCT, ONCRPC_ROLE_GROUP}},
    {"all", "list[0].next.number", ONCRPC_OK, {52, 4, 6, ONCRPC_TYPE_INT, ONCRPC_ROLE_NUMBER}},
    {"all", "list[0].next.next", ONCRPC_OK, {56, 4, 6, ONCRPC_TYPE_OPTIONAL, ONCRPC_ROLE_FLAG}},
    {"all", "list[0].next.next.next", NOWHERE},
    {"all", "list[1].number", ONCRPC_OK, {60, 4, 4, ONCRPC_TYPE_INT, ONCRPC_ROLE_NUMBER}},
    {"all", "list[2]", NOWHERE},
    {"all", "list[01]", NOWHERE},
    {"all", "list[+1]", NOWHERE},
    {"all", "list[ 1]", NOWHERE},
    {"all", "list[]", NOWHERE},
    {"all", "list[1", NOWHERE},
    {"all", "list[1]]", NOWHERE},
    {"all", "list[1]number", NOWHERE},
    {"all", "list.[1]", NOWHERE},
    {"all", "list[4294967295]", NOWHERE},
    {"all", "list[4294967296]", NOWHERE},
    {"all", "list[18446744073709551616]", NOWHERE},
    {"all", "pair", ONCRPC_OK, {68, 0, 2, ONCRPC_TYPE_FIXED_ARRAY, ONCRPC_ROLE_GROUP}},
    {"all", "pair[1]", ONCRPC_OK, {72, 4, 3, ONCRPC_TYPE_INT, ONCRPC_ROLE_NUMBER}},
    {"all", "m", ONCRPC_OK, {84, 4, 4, ONCRPC_TYPE_INT, ONCRPC_ROLE_NUMBER}},
    {"all", "n", ONCRPC_OK, {88, 4, 2, ONCRPC_TYPE_OPTIONAL, ONCRPC_ROLE_FLAG}},
    {"all", "n.number", NOWHERE},
};

static const oncrpc_value_part unset = {9, 9, 9, 9, 9, 9, 9, 9};

static int is_found(const oncrpc_value_part *part, const struct found *wanted) {
    return part->at == wanted->at && part->count == wanted->count && part->depth == wanted->depth
        && part->xdr_type == wanted->type && part->role == wanted->role && !part->name_at && !part->name_count;
}

/* More bytes may follow the value. */
static void find_row(oncrpc_declarations *held, const struct path_row *row) {
    int is_file = !strcmp(row->name, "file");
    for (size_t more = 0; more < 2; more++) {
        oncrpc_value_part part = unset;
        oncrpc_outcome outcome = {9, 9, 9, 9, 9};
        uint32_t status = oncrpc_declarations_find(held, bytes(row->name), strlen(row->name), 9, 96,
            bytes(is_file ? file : all), (is_file ? sizeof file : sizeof all) - 1 + more, bytes(row->path),
            strlen(row->path), &part, &outcome);
        int is_right = row->status ? !memcmp(&part, &unset, sizeof part) : is_found(&part, &row->part);
        judge(status == row->status && tells(&outcome, 0, 0) && is_right, status);
    }
}

/* Each other status: the name comes first, then the limits, the input and the path. */
static void refuse_paths(oncrpc_declarations *held) {
    static const struct { const char *name; uint32_t depth, bytes; size_t count; uint32_t status, why; size_t at; }
    refused[] = {
        {"folder", 0, 48, 48, ONCRPC_NO_KIND, 0, 0},
        {"file", 0, 48, 3, ONCRPC_BAD_LIMITS, 0, 0},
        {"file", 3, 50, 3, ONCRPC_BAD_LIMITS, 0, 0},
        {"file", 3, 48, 47, ONCRPC_REFUSED, ONCRPC_TRUNCATED, 47},
        {"file", 2, 48, 48, ONCRPC_REFUSED, ONCRPC_TOO_DEEP, 20},
        {"file", 3, 44, 48, ONCRPC_REFUSED, ONCRPC_TOO_LARGE, 44},
        {"bool", 1, 4, 48, ONCRPC_REFUSED, ONCRPC_BAD_BOOL, 0},
    };
    for (size_t i = 0; i < sizeof refused / sizeof *refused; i++) {
        oncrpc_value_part part = unset;
        oncrpc_outcome outcome = {9, 9, 9, 9, 9};
        uint32_t status = oncrpc_declarations_find(held, bytes(refused[i].name), strlen(refused[i].name),
            refused[i].depth, refused[i].bytes, bytes(file), refused[i].count, bytes("["), 1, &part, &outcome);
        judge(status == refused[i].status && tells(&outcome, refused[i].at, refused[i].why)
            && !memcmp(&part, &unset, sizeof part), status);
    }
}

/* The numbers that stand at paths of `all`. */
static void number_paths(oncrpc_declarations *held) {
    static const struct { const char *path; uint32_t status; oncrpc_number number; } numbers[] = {
        {"u", ONCRPC_OK, {4294967295, 4294967295}},
        {"h", ONCRPC_OK, {INT64_MIN, 0}},
        {"v", ONCRPC_OK, {0, 9223372036854775808u}},
        {"b", ONCRPC_OK, {1, 1}},
        {"e", ONCRPC_OK, {-1, 0}},
        {"s", ONCRPC_OK, {-1, 0}},
        {"s.there", ONCRPC_OK, {5, 5}},
        {"list", ONCRPC_OK, {2, 2}},
        {"pair[1]", ONCRPC_OK, {-8, 0}},
        {"n", ONCRPC_OK, {0, 0}},
        {"f", ONCRPC_NO_NUMBER, {9, 9}},
        {"pair", ONCRPC_NO_NUMBER, {9, 9}},
        {"list[0]", ONCRPC_NO_NUMBER, {9, 9}},
    };
    for (size_t i = 0; i < sizeof numbers / sizeof *numbers; i++) {
        oncrpc_value_part part;
        oncrpc_outcome outcome;
        oncrpc_number number = {9, 9};
        uint32_t status = oncrpc_declarations_find(held, bytes("all"), 3, 9, 96, bytes(all), sizeof all - 1,
            bytes(numbers[i].path), strlen(numbers[i].path), &part, &outcome);
        judge(status == ONCRPC_OK, status);
        if (status == ONCRPC_OK) {
            status = oncrpc_part_number(held, bytes(all), sizeof all - 1, &part, &number);
            judge(status == numbers[i].status && number.number == numbers[i].number.number
                && number.signed_number == numbers[i].number.signed_number, status);
        }
    }
}

/* Parts that nobody found: outside of the input, of no role, of another size, of no kind. What has no kind and four
 * bytes is taken as an unsigned number. */
static void number_others(oncrpc_declarations *held) {
    static const struct { oncrpc_value_part part; uint32_t status; } others[] = {
        {{0, 4, 0, 0, 0, 0, 0, 1}, ONCRPC_OK},
        {{4, 4, 9, 9, 9, 0, 9, 3}, ONCRPC_OK},
        {{4, 4, 0, 0, 0, UINT32_MAX, 0, 2}, ONCRPC_OK},
        {{5, 4, 0, 0, 0, 0, 0, 1}, ONCRPC_NO_NUMBER},
        {{8, 0, 0, 0, 0, 0, 0, 1}, ONCRPC_NO_NUMBER},
        {{9, 0, 0, 0, 0, 0, 0, 1}, ONCRPC_NO_NUMBER},
        {{SIZE_MAX, 4, 0, 0, 0, 0, 0, 1}, ONCRPC_NO_NUMBER},
        {{4, SIZE_MAX, 0, 0, 0, 0, 0, 1}, ONCRPC_NO_NUMBER},
        {{0, 8, 0, 0, 0, 0, 0, 1}, ONCRPC_NO_NUMBER},
        {{0, 3, 0, 0, 0, 0, 0, 1}, ONCRPC_NO_NUMBER},
        {{0, 4, 0, 0, 0, 2, 0, 1}, ONCRPC_NO_NUMBER},
        {{0, 4, 0, 0, 0, 0, 0, 0}, ONCRPC_NO_NUMBER},
        {{0, 4, 0, 0, 0, 0, 0, 4}, ONCRPC_NO_NUMBER},
        {{0, 4, 0, 0, 0, 0, 0, 5}, ONCRPC_NO_NUMBER},
        {{0, 4, 0, 0, 0, 0, 0, UINT32_MAX}, ONCRPC_NO_NUMBER},
    };
    for (size_t i = 0; i < sizeof others / sizeof *others; i++) {
        oncrpc_number number = {9, 9};
        uint32_t status = oncrpc_part_number(held, bytes("\0\0\0\7\0\0\0\7"), 8, &others[i].part, &number);
        uint64_t wanted = others[i].status ? 9 : 7;
        judge(status == others[i].status && number.number == wanted && number.signed_number == (int64_t)wanted, status);
    }
}

void check_paths(void) {
    oncrpc_declarations held = ONCRPC_NONE;
    oncrpc_outcome outcome = {9, 9, 9, 9, 9};
    oncrpc_value_part part = unset;
    oncrpc_number number = {9, 9};
    uint32_t status = oncrpc_declarations_find(&held, bytes("int"), 3, 1, 4, NULL, 0, NULL, 0, &part, &outcome);
    judge(status == ONCRPC_NO_DECLARATIONS && tells(&outcome, 0, 0) && part.at == 9, status);
    status = oncrpc_part_number(&held, bytes("\0\0\0\7"), 4, &part, &number);
    judge(status == ONCRPC_NO_DECLARATIONS && number.number == 9 && number.signed_number == 9, status);
    status = oncrpc_declarations_read(bytes(declared), sizeof declared - 1, &held, &outcome);
    judge(status == ONCRPC_OK, status);
    if (status == ONCRPC_OK) {
        for (size_t i = 0; i < sizeof path_rows / sizeof *path_rows; i++) {
            find_row(&held, path_rows + i);
        }
        refuse_paths(&held);
        number_paths(&held);
        number_others(&held);
    }
    oncrpc_declarations_free(&held);
}
