/* Each reason, error of a text, type, role and state of a reply by its name: what the bytes have to be for it. Each
 * status, reason and error as a text, and the version. */
#include <stdio.h>

#include "calls.h"

static const char shapes[] =
    "enum colour { RED = 2 };\n"
    "union shape switch (colour c) { case RED: int side; };\n"
    "union numbered switch (int d) { case 1: void; };\n"
    "typedef string name<3>;\n"
    "typedef int pair[2];\n"
    "struct node { node *next; };\n"
    "struct all { unsigned int u; hyper h; unsigned hyper v; bool b; shape s; opaque f[3]; opaque o<3>;\n"
    "    name n; pair p; int l<2>; int *m; colour e; numbered z; };\n";

/* RFC 4506 sections 3 and 4. */
static void check_reasons(oncrpc_declarations *held) {
    static const struct { const char *name, *input; size_t count; uint32_t depth, bytes, why; size_t at; } reasons[] = {
        {"bool", "\0\0\0\2", 4, 1, 4, ONCRPC_BAD_BOOL, 0},
        {"node", "\0\0\0\2", 4, 9, 4, ONCRPC_BAD_BOOL, 0},
        {"colour", "\0\0\0\3", 4, 1, 4, ONCRPC_BAD_NUMBERED, 0},
        {"shape", "\0\0\0\3", 4, 9, 8, ONCRPC_BAD_NUMBERED, 0},
        {"numbered", "\0\0\0\2", 4, 9, 8, ONCRPC_BAD_CASE, 0},
        {"name", "\0\0\0\4", 4, 9, 8, ONCRPC_TOO_LONG, 0},
        {"name", "\0\0\0\1a\0\0\1", 8, 9, 8, ONCRPC_BAD_PADDING, 4},
        {"node", "\0\0\0\1\0\0\0\1\0\0\0\1\0\0\0\0", 16, 3, 16, ONCRPC_TOO_DEEP, 4},
        {"pair", "\0\0\0\1\0\0\0\1", 8, 9, 4, ONCRPC_TOO_LARGE, 4},
        {"pair", "\0\0\0\1\0\0\0", 7, 9, 8, ONCRPC_TRUNCATED, 7},
    };
    for (size_t i = 0; i < sizeof reasons / sizeof *reasons; i++) {
        oncrpc_outcome outcome = {9, 9, 9, 9, 9};
        uint32_t status = oncrpc_declarations_check(held, bytes(reasons[i].name), strlen(reasons[i].name),
            reasons[i].depth, reasons[i].bytes, bytes(reasons[i].input), reasons[i].count, &outcome);
        judge(status == ONCRPC_REFUSED && tells(&outcome, reasons[i].at, reasons[i].why), status);
    }
}

/* RFC 4506 section 4: a value that has all types but a void within a struct, and all roles. */
static void check_types(oncrpc_declarations *held) {
    static const uint8_t input[] =
        "\0\0\0\7" "\0\0\0\0\0\0\0\7" "\0\0\0\0\0\0\0\7" "\0\0\0\1" "\0\0\0\2\0\0\0\7" "abc\0" "\0\0\0\1d\0\0\0"
        "\0\0\0\2ef\0\0" "\0\0\0\7\0\0\0\7" "\0\0\0\1\0\0\0\7" "\0\0\0\1\0\0\0\7" "\0\0\0\2" "\0\0\0\1";
    static const struct { size_t at, count, name_count; uint32_t depth, type, role; } wanted[] = {
        {0, 0, 0, 1, ONCRPC_TYPE_STRUCT, ONCRPC_ROLE_GROUP},
        {0, 4, 1, 2, ONCRPC_TYPE_UNSIGNED, ONCRPC_ROLE_NUMBER},
        {4, 8, 1, 2, ONCRPC_TYPE_HYPER, ONCRPC_ROLE_NUMBER},
        {12, 8, 1, 2, ONCRPC_TYPE_UNSIGNED_HYPER, ONCRPC_ROLE_NUMBER},
        {20, 4, 1, 2, ONCRPC_TYPE_BOOL, ONCRPC_ROLE_NUMBER},
        {24, 4, 1, 2, ONCRPC_TYPE_UNION, ONCRPC_ROLE_NUMBER},
        {28, 4, 4, 3, ONCRPC_TYPE_INT, ONCRPC_ROLE_NUMBER},
        {32, 3, 1, 2, ONCRPC_TYPE_FIXED_OPAQUE, ONCRPC_ROLE_CONTENT},
        {36, 4, 1, 2, ONCRPC_TYPE_OPAQUE, ONCRPC_ROLE_LENGTH},
        {40, 1, 1, 2, ONCRPC_TYPE_OPAQUE, ONCRPC_ROLE_CONTENT},
        {44, 4, 1, 2, ONCRPC_TYPE_STRING, ONCRPC_ROLE_LENGTH},
        {48, 2, 1, 2, ONCRPC_TYPE_STRING, ONCRPC_ROLE_CONTENT},
        {52, 0, 1, 2, ONCRPC_TYPE_FIXED_ARRAY, ONCRPC_ROLE_GROUP},
        {52, 4, 0, 3, ONCRPC_TYPE_INT, ONCRPC_ROLE_NUMBER},
        {56, 4, 0, 3, ONCRPC_TYPE_INT, ONCRPC_ROLE_NUMBER},
        {60, 4, 1, 2, ONCRPC_TYPE_ARRAY, ONCRPC_ROLE_LENGTH},
        {64, 4, 0, 3, ONCRPC_TYPE_INT, ONCRPC_ROLE_NUMBER},
        {68, 4, 1, 2, ONCRPC_TYPE_OPTIONAL, ONCRPC_ROLE_FLAG},
        {72, 4, 0, 3, ONCRPC_TYPE_INT, ONCRPC_ROLE_NUMBER},
        {76, 4, 1, 2, ONCRPC_TYPE_ENUM, ONCRPC_ROLE_NUMBER},
        {80, 4, 1, 2, ONCRPC_TYPE_UNION, ONCRPC_ROLE_NUMBER},
        {84, 0, 0, 3, ONCRPC_TYPE_VOID, ONCRPC_ROLE_GROUP},
    };
    enum { COUNT = sizeof wanted / sizeof *wanted };
    static const char joined[] = "uhvbssidefoonnplmez";
    oncrpc_value_part parts[COUNT + 1];
    uint8_t names[sizeof joined];
    oncrpc_parts_outcome found = {9, 9, 9, 9};
    uint32_t status = oncrpc_declarations_parts(held, bytes("all"), 3, 9, 84, input, sizeof input, parts, COUNT + 1,
        names, sizeof names, &found);
    judge(status == ONCRPC_MORE_FOLLOWS && found.at == 84 && found.parts == COUNT && found.names == sizeof joined - 1
        && !found.why && !memcmp(names, joined, sizeof joined - 1), status);
    size_t name_at = 0;
    for (size_t i = 0; i < COUNT && found.parts == COUNT; i++) {
        const oncrpc_value_part *part = parts + i;
        judge(part->at == wanted[i].at && part->count == wanted[i].count && part->name_at == name_at
            && part->name_count == wanted[i].name_count && part->depth == wanted[i].depth
            && part->xdr_type == wanted[i].type && part->role == wanted[i].role, (uint32_t)i);
        name_at += part->name_count;
    }
    judge(parts[6].kind == parts[13].kind && parts[6].kind != parts[7].kind && parts[8].kind == parts[9].kind, 0);
}

/* docs/LANGUAGE.md, "Refusals". Of a schema: no finite value, 7, and a size of 0, 2. */
static void check_faults(void) {
    static char nested[1024], longest[262145];
    static const struct { const char *text; uint32_t why; size_t line, column; uint32_t inner; } faults[] = {
        {"\n $", ONCRPC_BAD_CHARACTER, 2, 2, 0},
        {"\n\nconst a = 08;", ONCRPC_BAD_NUMBER, 3, 11, 0},
        {"const = 1;", ONCRPC_UNEXPECTED, 1, 7, 0},
        {"struct a { float x; };", ONCRPC_FLOATING_KIND, 1, 12, 0},
        {"struct a { int b; int b; };", ONCRPC_NAME_TWICE, 1, 23, 0},
        {"typedef b a;", ONCRPC_NAME_UNKNOWN, 1, 9, 0},
        {"enum e { A = 1 }; typedef int a[A];", ONCRPC_NOT_A_SIZE, 1, 33, 0},
        {"typedef int a[4294967296];", ONCRPC_OUT_OF_RANGE, 1, 15, 0},
        {"typedef a a;", ONCRPC_TYPEDEF_LOOP, 1, 11, 0},
        {"\n struct a { a b; };", ONCRPC_BAD_SCHEMA, 2, 2, 7},
        {"typedef opaque none[0];", ONCRPC_BAD_SCHEMA, 1, 9, 2},
        {longest, ONCRPC_TEXT_TOO_LONG, 1, 1, 0},
        {nested, ONCRPC_NESTED_TOO_DEEP, 33, 8, 0},
    };
    memset(longest, ' ', sizeof longest);
    strcpy(nested, "struct a {\n");
    for (int i = 0; i < 32; i++) {
        strcat(nested, "struct {\n");
    }
    for (size_t i = 0; i < sizeof faults / sizeof *faults; i++) {
        oncrpc_declarations held = ONCRPC_NONE;
        oncrpc_outcome outcome = {9, 9, 9, 9, 9};
        size_t count = faults[i].text == longest ? sizeof longest : strlen(faults[i].text);
        uint32_t status = oncrpc_declarations_read(bytes(faults[i].text), count, &held, &outcome);
        judge(status == ONCRPC_UNDECLARED && outcome.why == faults[i].why && outcome.line == faults[i].line
            && outcome.column == faults[i].column && outcome.inner == faults[i].inner && !outcome.at, status);
        oncrpc_declarations_free(&held);
    }
}

/* RFC 5531 section 9: the words behind xid and REPLY, and what they are. */
static void check_states(void) {
    static const struct { const char *words; size_t count; uint32_t state, low, high, auth_stat; } states[] = {
        {"\0\0\0\0\0\0\0\0\0\0\0\0\0\0\0\0\0\0\0\5", 20, ONCRPC_SUCCESS, 0, 0, 0},
        {"\0\0\0\0\0\0\0\0\0\0\0\0\0\0\0\1", 16, ONCRPC_PROG_UNAVAIL, 0, 0, 0},
        {"\0\0\0\0\0\0\0\0\0\0\0\0\0\0\0\2\0\0\0\3\0\0\0\4", 24, ONCRPC_PROG_MISMATCH, 3, 4, 0},
        {"\0\0\0\0\0\0\0\0\0\0\0\0\0\0\0\3", 16, ONCRPC_PROC_UNAVAIL, 0, 0, 0},
        {"\0\0\0\0\0\0\0\0\0\0\0\0\0\0\0\4", 16, ONCRPC_GARBAGE_ARGS, 0, 0, 0},
        {"\0\0\0\0\0\0\0\0\0\0\0\0\0\0\0\5", 16, ONCRPC_SYSTEM_ERR, 0, 0, 0},
        {"\0\0\0\1\0\0\0\0\0\0\0\3\0\0\0\4", 16, ONCRPC_RPC_MISMATCH, 3, 4, 0},
        {"\0\0\0\1\0\0\0\1\0\0\0\5", 12, ONCRPC_AUTH_ERROR, 0, 0, 5},
    };
    for (size_t i = 0; i < sizeof states / sizeof *states; i++) {
        uint8_t input[64] = {0, 0, 0, 7, 0, 0, 0, 1}, written[64];
        size_t count = 9, size = 8 + states[i].count;
        oncrpc_reply reply;
        memcpy(input + 8, states[i].words, states[i].count);
        uint32_t status = oncrpc_reply_read(input, size, &reply);
        judge(status == ONCRPC_OK && reply.xid == 7 && reply.state == states[i].state && reply.low == states[i].low
            && reply.high == states[i].high && reply.auth_stat == states[i].auth_stat, status);
        status = oncrpc_reply_write(&reply, NULL, 0, input + reply.results.at, reply.results.count, written,
            sizeof written, &count);
        judge(status == ONCRPC_OK && count == size && !memcmp(written, input, size), status);
    }
}

/* RFC 5531 section 9: what is no call and no reply, and what is told of it. */
static void check_messages_refused(void) {
    static const struct {
        const char *input;
        size_t count;
        uint32_t status;
        int is_call;
        uint32_t xid, rpc;
    } refused[] = {
        {"\0\0\0\7\0\0\0\0\0\0\0", 11, ONCRPC_NOT_A_CALL, 1, 0, 0},
        {"\0\0\0\7\0\0\0\0\0\0\0\3", 12, ONCRPC_OTHER_VERSION, 1, 7, 3},
        {"\0\0\0\7\0\0\0\0\0\0\0\2\0\0\0\1\0\0\0\1\0\0\0\1\0\0\0\1\0\0\1\x94", 32, ONCRPC_BAD_CREDENTIAL, 1, 7, 2},
        {"\0\0\0\7\0\0\0\0\0\0\0\2\0\0\0\1\0\0\0\1\0\0\0\1\0\0\0\1\0\0\0\0\0\0\0\1\0\0\1\x94", 40, ONCRPC_BAD_VERIFIER,
            1, 7, 2},
        {"\0\0\0\7\0\0\0\1\0\0\0\0\0\0\0\0\0\0\0\0\0\0\0", 23, ONCRPC_CUT, 0, 0, 0},
        {"\0\0\0\7\0\0\0\2\0\0\0\0\0\0\0\0\0\0\0\0\0\0\0\0", 24, ONCRPC_NOT_A_REPLY, 0, 0, 0},
        {"\0\0\0\7\0\0\0\1\0\0\0\0\0\0\0\0\0\0\0\0\0\0\0\6", 24, ONCRPC_BAD_STATE, 0, 0, 0},
        {"\0\0\0\7\0\0\0\1\0\0\0\0\0\0\0\0\0\0\0\1a\0\0\1\0\0\0\0", 28, ONCRPC_BAD_VERIFIER, 0, 0, 0},
        {"\0\0\0\7\0\0\0\1\0\0\0\0\0\0\0\0\0\0\0\0\0\0\0\1\0", 25, ONCRPC_BYTES_FOLLOW, 0, 0, 0},
    };
    for (size_t i = 0; i < sizeof refused / sizeof *refused; i++) {
        oncrpc_call call;
        oncrpc_reply reply;
        uint32_t status = refused[i].is_call ? oncrpc_call_read(bytes(refused[i].input), refused[i].count, &call)
            : oncrpc_reply_read(bytes(refused[i].input), refused[i].count, &reply);
        int is_told = refused[i].is_call
            ? call.xid == refused[i].xid && call.rpc_version == refused[i].rpc && !call.program
            : !reply.xid && !reply.state && !reply.low && !reply.high && !reply.auth_stat;
        judge(status == refused[i].status && is_told, status);
    }
}

/* Each of these numbers has a text of its own, and the others one for all. */
static void check_texts(const char *(*text_of)(uint32_t), uint32_t first, uint32_t last) {
    const char *none = text_of(last + 1);
    judge(*none && !strcmp(none, text_of(UINT32_MAX)) && (!first || !strcmp(none, text_of(0))), last);
    for (uint32_t i = first; i <= last; i++) {
        int is_own = *text_of(i) && strcmp(text_of(i), none);
        for (uint32_t k = first; k < i; k++) {
            is_own = is_own && strcmp(text_of(i), text_of(k));
        }
        judge(is_own, i);
    }
}

/* The version of the library is that of the header, as a number and as a text. */
static void check_version(void) {
    char told[32];
    uint32_t version = oncrpc_version();
    snprintf(told, sizeof told, "%u.%u.%u", version >> 16, version >> 8 & 255, version & 255);
    judge(version == ONCRPC_VERSION_NUMBER && !strcmp(told, ONCRPC_VERSION), version);
}

void check_names(void) {
    oncrpc_declarations held = ONCRPC_NONE;
    oncrpc_outcome outcome;
    uint32_t status = oncrpc_declarations_read(bytes(shapes), strlen(shapes), &held, &outcome);
    judge(status == ONCRPC_OK, status);
    check_reasons(&held);
    check_types(&held);
    oncrpc_declarations_free(&held);
    check_faults();
    check_states();
    check_messages_refused();
    check_texts(oncrpc_status_text, ONCRPC_OK, ONCRPC_ASTRAY);
    check_texts(oncrpc_reason_text, ONCRPC_BAD_BOOL, ONCRPC_OUTSIDE);
    check_texts(oncrpc_json_text, ONCRPC_JSON_NOT_JSON, ONCRPC_JSON_TOO_LARGE);
    check_texts(oncrpc_fault_text, ONCRPC_BAD_CHARACTER, ONCRPC_NESTED_TOO_DEEP);
    check_version();
}
