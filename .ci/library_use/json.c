/* Values as JSON, both ways, by the tables of docs/FORMATS.md, and declarations in rpcgen's dialect. */
#include "calls.h"

static const char declared[] =
    "enum level { LOW = -1, HIGH = 7 };\n"
    "typedef string name<>;\n"
    "typedef hyper wide;\n"
    "typedef opaque some<>;\n"
    "typedef int *perhaps;\n"
    "typedef perhaps *twice;\n"
    "typedef level levels<9>;\n"
    "struct node { int number; node *next; };\n"
    "union held switch (level z) { case LOW: node there; case HIGH: void; };\n"
    "union picked switch (int d) { case 1: int there; case 5: void; };\n"
    "typedef opaque block[16777216];\n"
    "typedef int row[4194304];\n";

/* How many bytes all growths ask for at most where a JSON text of so many is read: no type's size reserves any. */
#define MOST_ASKED(count) (2048 + 128 * (count))

struct json_row { const char *name, *input; size_t count; const char *compact, *indented; };
static const struct json_row json_rows[] = {
    {"int", "\377\377\377\376", 4, "-2", "-2"},
    {"bool", "\0\0\0\1", 4, "true", "true"},
    {"wide", "\200\0\0\0\0\0\0\0", 8, "\"-9223372036854775808\"", "\"-9223372036854775808\""},
    {"level", "\0\0\0\7", 4, "\"HIGH\"", "\"HIGH\""},
    {"some", "\0\0\0\2\17\360\0\0", 8, "\"0ff0\"", "\"0ff0\""},
    {"name", "\0\0\0\4a\"\\\n", 8, "\"a\\\"\\\\\\n\"", "\"a\\\"\\\\\\n\""},
    {"name", "\0\0\0\1\377\0\0\0", 8, "{\"hex\":\"ff\"}", "{\n  \"hex\": \"ff\"\n}"},
    {"perhaps", "\0\0\0\0", 4, "null", "null"},
    {"twice", "\0\0\0\1\0\0\0\1\0\0\0\5", 12, "[5]", "[\n  5\n]"},
    {"levels", "\0\0\0\0", 4, "[]", "[]"},
    {"levels", "\0\0\0\2\377\377\377\377\0\0\0\7", 12, "[\"LOW\",\"HIGH\"]", "[\n  \"LOW\",\n  \"HIGH\"\n]"},
    {"held", "\0\0\0\7", 4, "{\"case\":\"HIGH\"}", "{\n  \"case\": \"HIGH\"\n}"},
    {"held", "\377\377\377\377\0\0\0\3\0\0\0\0", 12, "{\"case\":\"LOW\",\"there\":{\"number\":3,\"next\":null}}",
        "{\n  \"case\": \"LOW\",\n  \"there\": {\n    \"number\": 3,\n    \"next\": null\n  }\n}"},
};

/* The text stands at the front of the buffer, where that is just enough, and not in less; more bytes may follow. */
static void tell_row(oncrpc_declarations *held, const struct json_row *row, bool is_indented) {
    const char *wanted = is_indented ? row->indented : row->compact;
    size_t count = strlen(wanted);
    for (size_t more = 0; more < 2; more++) {
        uint8_t room[160], unwritten[160];
        size_t written = 9;
        oncrpc_outcome outcome = {9, 9, 9, 9, 9};
        memset(room, '.', sizeof room), memset(unwritten, '.', sizeof unwritten);
        uint32_t status = oncrpc_declarations_to_json(held, bytes(row->name), strlen(row->name), 9, 96,
            bytes(row->input), row->count + more, is_indented, room, count - 1, &written, &outcome);
        judge(status == ONCRPC_NO_ROOM && tells(&outcome, count, 0) && !written
            && !memcmp(room, unwritten, sizeof room), status);
        status = oncrpc_declarations_to_json(held, bytes(row->name), strlen(row->name), 9, 96, bytes(row->input),
            row->count + more, is_indented, room, count, &written, &outcome);
        judge(status == more && tells(&outcome, row->count, 0) && written == count && !memcmp(room, wanted, count)
            && !memcmp(room + count, unwritten, sizeof room - count), status);
    }
}

/* The text is read as the bytes, where the buffer is just enough for them, and not in less. */
static void read_back(oncrpc_declarations *held, const char *name, const char *told, const char *input, size_t count) {
    uint8_t room[64], unwritten[64];
    size_t written = 9;
    oncrpc_outcome outcome = {9, 9, 9, 9, 9};
    memset(room, '.', sizeof room), memset(unwritten, '.', sizeof unwritten);
    size_t before = growth_bytes();
    uint32_t status = oncrpc_declarations_from_json(held, bytes(name), strlen(name), 9, 96, bytes(told), strlen(told),
        room, count - 1, &written, &outcome);
    judge(status == ONCRPC_NO_ROOM && tells(&outcome, count, 0) && !written && !memcmp(room, unwritten, sizeof room)
        && growth_bytes() - before <= MOST_ASKED(strlen(told)), status);
    status = oncrpc_declarations_from_json(held, bytes(name), strlen(name), 9, 96, bytes(told), strlen(told), room,
        count, &written, &outcome);
    judge(status == ONCRPC_OK && tells(&outcome, count, 0) && written == count && !memcmp(room, input, count)
        && !memcmp(room + count, unwritten, sizeof room - count), status);
}

/* Other texts that say the same. */
static const struct { const char *name, *told, *input; size_t count; } other_texts[] = {
    {"int", "\n -2\t", "\377\377\377\376", 4},
    {"int", "\"-2\"", "\377\377\377\376", 4},
    {"wide", "-1", "\377\377\377\377\377\377\377\377", 8},
    {"level", "7", "\0\0\0\7", 4},
    {"some", "\"0FF0\"", "\0\0\0\2\17\360\0\0", 8},
    {"name", "\"\\u0061\\/\"", "\0\0\0\2a/\0\0", 8},
    {"name", "{\"hex\":\"61\"}", "\0\0\0\1a\0\0\0", 8},
    {"held", "{\"there\": {\"next\": null, \"number\": 3}, \"case\": -1}", "\377\377\377\377\0\0\0\3\0\0\0\0", 12},
};

static char brackets[5000];

/* Each reason, with its place, and words of its text: no text of these spells a value. */
static void refuse_texts(oncrpc_declarations *held) {
    static const struct {
        const char *name, *told;
        uint32_t depth, bytes, why;
        size_t at, line, column;
        const char *word;
    } refused[] = {
        {"int", "", 9, 96, ONCRPC_JSON_NOT_JSON, 0, 1, 1, "no JSON"},
        {"levels", "[7,\n x]", 9, 96, ONCRPC_JSON_NOT_JSON, 5, 2, 2, "no JSON"},
        {"name", "\"a\377\"", 9, 96, ONCRPC_JSON_NOT_JSON, 2, 1, 3, "no JSON"},
        {"node", "{\"next\":null,\n \"numbe\":3}", 9, 96, ONCRPC_JSON_UNKNOWN_MEMBER, 15, 2, 2, "does not have"},
        {"node", " {\"next\":null}", 9, 96, ONCRPC_JSON_MISSING_MEMBER, 1, 1, 2, "missing"},
        {"node", "{\"next\":null,\"next\":null}", 9, 96, ONCRPC_JSON_MEMBER_TWICE, 13, 1, 14, "twice"},
        {"node", "{\"next\":null,\n\n\"number\":[]}", 9, 96, ONCRPC_JSON_WRONG_TYPE, 24, 3, 10, "another form"},
        {"int", "\n\n 2147483648", 9, 96, ONCRPC_JSON_OUT_OF_RANGE, 3, 3, 2, "range"},
        {"level", "5", 9, 96, ONCRPC_JSON_OUT_OF_RANGE, 0, 1, 1, "range"},
        {"int", "\"salut\"", 9, 96, ONCRPC_JSON_OUT_OF_RANGE, 0, 1, 1, "or no number"},
        {"int", "1.5", 9, 96, ONCRPC_JSON_NOT_WHOLE, 0, 1, 1, "no whole number"},
        {"int", "\"hello\"", 9, 96, ONCRPC_JSON_NOT_WHOLE, 0, 1, 1, "an e"},
        {"level", "\"MIDDLE\"", 9, 96, ONCRPC_JSON_UNKNOWN_NAME, 0, 1, 1, "a name"},
        {"some", "\"0fz0\"", 9, 96, ONCRPC_JSON_BAD_HEX, 0, 1, 1, "hexadecimal"},
        {"levels", "[7,7,7,7,7,7,7,7,7,7]", 9, 96, ONCRPC_JSON_WRONG_LENGTH, 0, 1, 1, "more or fewer"},
        {"block", "\"00\"", 9, ONCRPC_MOST_BYTES, ONCRPC_JSON_WRONG_LENGTH, 0, 1, 1, "more or fewer"},
        {"row", "[7]", 9, ONCRPC_MOST_BYTES, ONCRPC_JSON_WRONG_LENGTH, 0, 1, 1, "more or fewer"},
        {"picked", "{\"case\":2}", 9, 96, ONCRPC_JSON_NO_ARM, 8, 1, 9, "arm"},
        {"node", "{\"number\":3,\n\"next\":{\"number\":3,\"next\":null}}", 3, 96, ONCRPC_JSON_TOO_DEEP, 45, 2, 33,
            "deeper"},
        {"int", brackets, 9, 96, ONCRPC_JSON_TOO_DEEP, 4096, 1, 4097, "deeper"},
        {"levels", "[7,7]\n", 9, 8, ONCRPC_JSON_TOO_LARGE, 6, 2, 1, "more bytes than"},
    };
    memset(brackets, '[', sizeof brackets - 1);
    for (size_t i = 0; i < sizeof refused / sizeof *refused; i++) {
        uint8_t room[64], unwritten[64];
        size_t written = 9, before = growth_bytes();
        oncrpc_outcome outcome = {9, 9, 9, 9, 9};
        memset(room, '.', sizeof room), memset(unwritten, '.', sizeof unwritten);
        uint32_t status = oncrpc_declarations_from_json(held, bytes(refused[i].name), strlen(refused[i].name),
            refused[i].depth, refused[i].bytes, bytes(refused[i].told), strlen(refused[i].told), room, sizeof room,
            &written, &outcome);
        judge(status == ONCRPC_BAD_JSON && outcome.why == refused[i].why && outcome.at == refused[i].at
            && outcome.line == refused[i].line && outcome.column == refused[i].column && !outcome.inner && !written
            && !memcmp(room, unwritten, sizeof room) && strstr(oncrpc_json_text(outcome.why), refused[i].word)
            && growth_bytes() - before <= MOST_ASKED(strlen(refused[i].told)), status);
    }
}

/* What is looked at before the text. */
static void refuse_names(oncrpc_declarations *held) {
    static const struct { const char *name; uint32_t depth, bytes, status; } refused[] = {
        {"folder", 0, 48, ONCRPC_NO_KIND},
        {"level", 0, 48, ONCRPC_BAD_LIMITS},
        {"level", 1, 6, ONCRPC_BAD_LIMITS},
    };
    for (size_t i = 0; i < sizeof refused / sizeof *refused; i++) {
        uint8_t room[4] = "....";
        size_t written = 9;
        oncrpc_outcome outcome = {9, 9, 9, 9, 9};
        uint32_t status = oncrpc_declarations_from_json(held, bytes(refused[i].name), strlen(refused[i].name),
            refused[i].depth, refused[i].bytes, bytes("{"), 1, room, 4, &written, &outcome);
        judge(status == refused[i].status && tells(&outcome, 0, 0) && !written && !memcmp(room, "....", 4), status);
    }
}

static void read_texts(oncrpc_declarations *held) {
    for (const struct json_row *row = json_rows; row < json_rows + sizeof json_rows / sizeof *json_rows; row++) {
        read_back(held, row->name, row->compact, row->input, row->count);
        read_back(held, row->name, row->indented, row->input, row->count);
    }
    for (size_t i = 0; i < sizeof other_texts / sizeof *other_texts; i++) {
        read_back(held, other_texts[i].name, other_texts[i].told, other_texts[i].input, other_texts[i].count);
    }
    refuse_texts(held);
    refuse_names(held);
}

static void refuse_json(oncrpc_declarations *held) {
    static const struct { const char *name; uint32_t depth, bytes; size_t count; uint32_t status, why; size_t at; }
    refused[] = {
        {"folder", 0, 48, 4, ONCRPC_NO_KIND, 0, 0},
        {"level", 0, 48, 4, ONCRPC_BAD_LIMITS, 0, 0},
        {"level", 1, 48, 3, ONCRPC_REFUSED, ONCRPC_TRUNCATED, 3},
        {"level", 1, 48, 4, ONCRPC_REFUSED, ONCRPC_BAD_NUMBERED, 0},
    };
    for (size_t i = 0; i < sizeof refused / sizeof *refused; i++) {
        uint8_t room[4] = "....";
        size_t written = 9;
        oncrpc_outcome outcome = {9, 9, 9, 9, 9};
        uint32_t status = oncrpc_declarations_to_json(held, bytes(refused[i].name), strlen(refused[i].name),
            refused[i].depth, refused[i].bytes, bytes("\0\0\0\3"), refused[i].count, false, room, 4, &written,
            &outcome);
        judge(status == refused[i].status && tells(&outcome, refused[i].at, refused[i].why) && !written
            && !memcmp(room, "....", 4), status);
    }
}

void check_json(void) {
    oncrpc_declarations held = ONCRPC_NONE;
    oncrpc_outcome outcome = {9, 9, 9, 9, 9};
    size_t written = 9;
    uint32_t status = oncrpc_declarations_to_json(&held, bytes("int"), 3, 1, 4, NULL, 0, true, NULL, 0, &written,
        &outcome);
    judge(status == ONCRPC_NO_DECLARATIONS && tells(&outcome, 0, 0) && !written, status);
    written = 9;
    status = oncrpc_declarations_from_json(&held, bytes("int"), 3, 1, 4, bytes("7"), 1, NULL, 0, &written, &outcome);
    judge(status == ONCRPC_NO_DECLARATIONS && tells(&outcome, 0, 0) && !written, status);
    status = oncrpc_declarations_read(bytes(declared), sizeof declared - 1, &held, &outcome);
    judge(status == ONCRPC_OK, status);
    if (status == ONCRPC_OK) {
        for (size_t i = 0; i < sizeof json_rows / sizeof *json_rows; i++) {
            tell_row(&held, json_rows + i, false);
            tell_row(&held, json_rows + i, true);
        }
        refuse_json(&held);
        read_texts(&held);
    }
    oncrpc_declarations_free(&held);
}

/* Names that the text has and does not declare are types before its own. */
static void list_dialect(oncrpc_declarations *held) {
    static const char dialect[] = "typedef u_int own;\nstruct pair { bool_t is; u_int number; };\n";
    static const char *listed[] = {"u_int", "bool_t", "own", "pair"};
    oncrpc_outcome outcome = {9, 9, 9, 9, 9};
    uint32_t status = oncrpc_declarations_read_dialect(bytes(dialect), sizeof dialect - 1, NULL, 0, held, &outcome);
    judge(status == ONCRPC_OK, status);
    for (size_t i = 0; status == ONCRPC_OK && i < 5; i++) {
        uint8_t room[8] = "........";
        oncrpc_member member = {9, 9, 9};
        uint32_t told = oncrpc_declarations_type(held, i, room, sizeof room, &member);
        judge(i == 4 ? told == ONCRPC_NO_MEMBER && member.name_count == 9
            : told == ONCRPC_OK && member.name_count == strlen(listed[i]) && !memcmp(room, listed[i], member.name_count),
            told);
    }
}

/* What the text declares by the names that are defined (docs/LANGUAGE.md, "rpcgen's dialect"). */
void check_dialect(void) {
    static const char dialect[] = "%#include <x.h>\n#ifdef RPC_HDR\ntypedef int here;\n#endif\ntypedef string name<>;\n";
    static const struct { const char *names; uint32_t status; } defined[] = {
        {"", ONCRPC_NO_KIND}, {"RPC_HDR", ONCRPC_OK}, {"RPC_XDR RPC_HDR", ONCRPC_OK}, {"RPC_HDR RPC_XDR", ONCRPC_OK},
        {"RPC_XDR", ONCRPC_NO_KIND}, {"RPC_HDRS", ONCRPC_NO_KIND}, {"  ", ONCRPC_NO_KIND}, {" _  RPC_HDR ", ONCRPC_OK},
    };
    static const char *no_names[] = {"BIG=1", "RPC_HDR 1BIG", "RPC-HDR", "RPC_HDR\tRPC_XDR", "RPC_HDR\n", "\303\251"};
    oncrpc_declarations held = ONCRPC_NONE;
    for (size_t i = 0; i < sizeof defined / sizeof *defined; i++) {
        oncrpc_outcome outcome = {9, 9, 9, 9, 9};
        uint32_t status = oncrpc_declarations_read_dialect(bytes(dialect), sizeof dialect - 1, bytes(defined[i].names),
            strlen(defined[i].names), &held, &outcome);
        judge(status == ONCRPC_OK && tells(&outcome, 0, 0), status);
        if (status == ONCRPC_OK) {
            status = oncrpc_declarations_check(&held, bytes("here"), 4, 1, 4, bytes("\0\0\0\7"), 4, &outcome);
            judge(status == defined[i].status, status);
        }
    }
    oncrpc_outcome outcome = {9, 9, 9, 9, 9};
    uint32_t status = oncrpc_declarations_read_dialect(bytes("\n#endif\n"), 8, NULL, 0, &held, &outcome);
    judge(status == ONCRPC_UNDECLARED && outcome.why == ONCRPC_BAD_CHARACTER && outcome.line == 2
        && outcome.column == 1 && !held.live, status);
    status = oncrpc_declarations_read_dialect(NULL, 0, NULL, 0, &held, &outcome);
    judge(status == ONCRPC_OK && tells(&outcome, 0, 0) && held.live, status);
    status = oncrpc_declarations_read_dialect(NULL, 0, bytes("\377"), 1, &held, &outcome);
    judge(status == ONCRPC_NO_KIND && tells(&outcome, 0, 0) && !held.live, status);
    for (size_t i = 0; i < sizeof no_names / sizeof *no_names; i++) {
        status = oncrpc_declarations_read_dialect(NULL, 0, NULL, 0, &held, &outcome);
        judge(status == ONCRPC_OK && held.live, status);
        status = oncrpc_declarations_read_dialect(bytes("\n#endif\n"), 8, bytes(no_names[i]), strlen(no_names[i]), &held,
            &outcome);
        judge(status == ONCRPC_NO_KIND && tells(&outcome, 0, 0) && !held.live, status);
    }
    list_dialect(&held);
    oncrpc_declarations_free(&held);
}
