/* Sessions: connections to a registry, in pieces. And answers by who calls. */
#include "calls.h"

/* Calls of version 2 of the registry as records, and what they are answered (RFC 5531 sections 9 and 11, RFC 1833
 * section 3): NULL, SET of program 300 in version 7 over tcp at port 2049, and GETPORT of it. */
#define HEADER(size) "\x80\0\0" size
#define ASKS(procedure) "\0\0\0\7\0\0\0\0\0\0\0\2\0\1\x86\xa0\0\0\0\2\0\0\0" procedure \
    "\0\0\0\0\0\0\0\0\0\0\0\0\0\0\0\0"
#define MAPPING "\0\0\1\x2c\0\0\0\7\0\0\0\6\0\0\x08\1"
#define TELLS "\0\0\0\7\0\0\0\1\0\0\0\0\0\0\0\0\0\0\0\0\0\0\0"
#define TOO_WEAK "\0\0\0\7\0\0\0\1\0\0\0\1\0\0\0\1\0\0\0\5"
static const char stream[] =
    HEADER("\x28") ASKS("\0") HEADER("\x38") ASKS("\1") MAPPING HEADER("\x38") ASKS("\3") MAPPING;
static const char to_local[] =
    HEADER("\x18") TELLS "\0" HEADER("\x1c") TELLS "\0\0\0\0\1" HEADER("\x1c") TELLS "\0\0\0\x08\1";
static const char to_remote[] =
    HEADER("\x18") TELLS "\0" HEADER("\x14") TOO_WEAK HEADER("\x1c") TELLS "\0\0\0\0\0";
static const char failed[] = HEADER("\x18") TELLS "\5";
enum { STREAM = sizeof stream - 1 };

static const oncrpc_caller remote = {ONCRPC_PEER_REMOTE, 0, {0}, false, false};
static const oncrpc_caller local = {ONCRPC_PEER_LOCAL, 0, {0}, false, false};
static const oncrpc_caller user = {ONCRPC_PEER_LOCAL_USER, 1000, {0}, false, false};

/* Whether one of the replies says that memory was refused. */
static int has_failed(const uint8_t *got, size_t count) {
    for (size_t at = 0; at + sizeof failed - 1 <= count; at += 4) {
        if (!memcmp(got + at, failed, sizeof failed - 1)) {
            return 1;
        }
    }
    return 0;
}

/* Takes all output, so many bytes at a time. */
static size_t drain(oncrpc_session *held, size_t room, uint8_t *to) {
    size_t count = 0;
    for (;;) {
        uint8_t part[256];
        oncrpc_outcome outcome = {9, 9, 9, 9, 9}, taken = {9, 9, 9, 9, 9};
        memset(part, '.', sizeof part);
        uint32_t status = oncrpc_session_output(held, part, room, &outcome);
        judge((status == ONCRPC_OK || (status == ONCRPC_MORE_FOLLOWS && outcome.at == room))
            && tells(&outcome, outcome.at, 0) && outcome.at <= room && part[outcome.at] == '.', status);
        if (!outcome.at) {
            return count;
        }
        memcpy(to + count, part, outcome.at);
        count += outcome.at;
        uint32_t took = oncrpc_session_took(held, outcome.at, &taken);
        judge(took == ONCRPC_OK && tells(&taken, taken.at, 0) && !taken.at == (status == ONCRPC_OK), took);
    }
}

/* Feeds the stream in pieces of so many bytes, drains the output where it is to be, and says how many bytes it had; 0
 * where memory was refused for a record. */
static size_t converse(oncrpc_session *held, oncrpc_registry *registry, size_t piece, size_t room, uint8_t *got) {
    size_t at = 0, count = 0;
    while (at < STREAM) {
        size_t part = STREAM - at < piece ? STREAM - at : piece;
        oncrpc_outcome outcome = {9, 9, 9, 9, 9};
        uint32_t status = oncrpc_session_feed(held, registry, stream + at, part, &outcome);
        if (status == ONCRPC_OK) {
            judge(outcome.at && outcome.at <= part && tells(&outcome, outcome.at, 0), status);
            at += outcome.at;
        } else if (status == ONCRPC_OUTPUT_WAITS) {
            size_t drained = drain(held, room, got + count);
            judge(tells(&outcome, 0, 0) && drained, status);
            count += drained;
        } else {
            judge(status == ONCRPC_MORE_WANTED && tells(&outcome, 0, 0), status);
            at += part;
        }
        if (status == ONCRPC_NO_MEMORY) {
            uint32_t again = oncrpc_session_feed(held, registry, stream, STREAM, &outcome);
            judge(again == status && tells(&outcome, 0, 0), again == status ? 0 : again);
            return 0;
        }
    }
    return count + drain(held, room, got + count);
}

/* A connection of this caller, in pieces and with a bound. */
static void check_connection(oncrpc_registry *registry, const oncrpc_caller *who, const char *wanted, size_t size,
    size_t piece, uint32_t bound) {
    uint8_t got[256];
    oncrpc_session held = ONCRPC_NONE;
    oncrpc_outcome outcome = {9, 9, 9, 9, 9};
    const char *netid = who == &user ? "local" : "tcp";
    uint32_t status = oncrpc_session_start(&held, netid, strlen(netid), who, bound, &outcome);
    judge(status == ONCRPC_OK && tells(&outcome, 0, 0), status);
    if (status == ONCRPC_OK) {
        size_t count = converse(&held, registry, piece, piece < sizeof got ? piece : sizeof got - 1, got);
        if (refused_growth() && (!count || has_failed(got, count))) {
            count_wanting();
        } else {
            judge(count == size && !memcmp(got, wanted, size), (uint32_t)count);
        }
    }
    oncrpc_session_free(&held);
    oncrpc_session_free(&held);
    status = oncrpc_session_feed(&held, registry, stream, STREAM, &outcome);
    judge(status == ONCRPC_NO_SESSION && tells(&outcome, 0, 0), status);
}

static void check_connections(void) {
    static const struct { size_t piece; uint32_t bound; } ways[] = {{1, 10}, {59, 65536}, {1000, 0}};
    for (size_t i = 0; i < sizeof ways / sizeof *ways; i++) {
        oncrpc_registry registry = ONCRPC_NONE;
        oncrpc_outcome outcome;
        uint32_t status = oncrpc_registry_start(&registry, 111, NULL, 0, &outcome);
        judge(status == ONCRPC_OK, status);
        if (status == ONCRPC_OK) {
            check_connection(&registry, &remote, to_remote, sizeof to_remote - 1, ways[i].piece, ways[i].bound);
            check_connection(&registry, &user, to_local, sizeof to_local - 1, ways[i].piece, ways[i].bound);
            check_connection(&registry, &user, to_local, sizeof to_local - 1, ways[i].piece, ways[i].bound);
        }
        oncrpc_registry_free(&registry);
    }
}

/* Half of a reply is written, then too much is said to be, and then the rest. */
static void check_output(oncrpc_registry *registry) {
    uint8_t part[64] = "";
    oncrpc_session held = ONCRPC_NONE;
    oncrpc_outcome outcome = {9, 9, 9, 9, 9};
    uint32_t status = oncrpc_session_start(&held, "tcp", 3, &local, 0, &outcome);
    judge(status == ONCRPC_OK, status);
    if (status == ONCRPC_OK) {
        status = oncrpc_session_feed(&held, registry, stream, 44, &outcome);
        judge(status == ONCRPC_OK && tells(&outcome, 44, 0), status);
    }
    if (status == ONCRPC_OK) {
        status = oncrpc_session_output(&held, NULL, 0, &outcome);
        judge(status == ONCRPC_MORE_FOLLOWS && tells(&outcome, 0, 0), status);
        status = oncrpc_session_took(&held, 10, &outcome);
        judge(status == ONCRPC_OK && tells(&outcome, 18, 0), status);
        status = oncrpc_session_took(&held, 19, &outcome);
        judge(status == ONCRPC_BAD_LIMITS && tells(&outcome, 0, 0), status);
        status = oncrpc_session_feed(&held, registry, stream, STREAM, &outcome);
        judge(status == ONCRPC_OUTPUT_WAITS && tells(&outcome, 0, 0), status);
        status = oncrpc_session_output(&held, part, sizeof part, &outcome);
        judge(status == ONCRPC_OK && tells(&outcome, 18, 0) && !memcmp(part, to_local + 10, 14), status);
        status = oncrpc_session_took(&held, SIZE_MAX, &outcome);
        judge(status == ONCRPC_BAD_LIMITS, status);
        status = oncrpc_session_took(&held, 18, &outcome);
        judge(status == ONCRPC_OK && tells(&outcome, 0, 0), status);
        status = oncrpc_session_output(&held, part, sizeof part, &outcome);
        judge(status == ONCRPC_OK && tells(&outcome, 0, 0), status);
    }
    oncrpc_session_free(&held);
}

/* A record above 65536 bytes is refused at its header, again and again, and what waits is written still. */
static void check_refused(oncrpc_registry *registry) {
    static const uint8_t large[] = {0, 1, 0, 0, 'a'}, larger[] = {0x80, 1, 0, 1};
    oncrpc_session held = ONCRPC_NONE;
    oncrpc_outcome outcome = {9, 9, 9, 9, 9};
    uint32_t status = oncrpc_session_start(&held, "tcp", 3, &local, 65536, &outcome);
    judge(status == ONCRPC_OK, status);
    if (status == ONCRPC_OK) {
        status = oncrpc_session_feed(&held, registry, stream, 44, &outcome);
        judge(status == ONCRPC_OK, status);
    }
    if (status == ONCRPC_OK) {
        status = oncrpc_session_feed(&held, registry, larger, sizeof larger, &outcome);
        judge(status == ONCRPC_REFUSED && tells(&outcome, 44, ONCRPC_TOO_LONG), status);
        status = oncrpc_session_feed(&held, registry, stream, STREAM, &outcome);
        judge(status == ONCRPC_REFUSED && tells(&outcome, 44, ONCRPC_TOO_LONG), status);
        status = oncrpc_session_took(&held, 28, &outcome);
        judge(status == ONCRPC_OK && tells(&outcome, 0, 0), status);
    }
    status = oncrpc_session_start(&held, "tcp", 3, &local, 65536, &outcome);
    judge(status == ONCRPC_OK, status);
    if (status == ONCRPC_OK) {
        status = oncrpc_session_feed(&held, registry, large, sizeof large, &outcome);
        judge(status == ONCRPC_MORE_WANTED && tells(&outcome, 0, 0), status);
    }
    oncrpc_session_free(&held);
}

/* The reply of the registry to a call of a caller is this one, or says that memory was refused. */
static void check_told(oncrpc_registry *registry, const oncrpc_caller *who, const char *call, size_t count,
    const char *reply, size_t size) {
    uint8_t got[64];
    oncrpc_outcome outcome = {9, 9, 9, 9, 9};
    uint32_t status = oncrpc_registry_answer_from(registry, who, "tcp", 3, call, count, got, sizeof got, &outcome);
    if (refused_growth() && outcome.at == 24 && size != 24 && got[23] == 5) {
        count_wanting();
    } else {
        judge(status == ONCRPC_OK && tells(&outcome, size, 0) && !memcmp(got, reply, size), status);
    }
}

/* GETADDR of version 3 of the row that was set (RFC 1833 section 2.2.1), whose address is 0.0.0.0.8.1. */
#define GETS "\0\0\0\7\0\0\0\0\0\0\0\2\0\1\x86\xa0\0\0\0\3\0\0\0\3\0\0\0\0\0\0\0\0\0\0\0\0\0\0\0\0" \
    "\0\0\1\x2c\0\0\0\7\0\0\0\0\0\0\0\0\0\0\0\0"

/* Who calls decides: a change from afar is refused but where it is trusted, the kernel's user is the owner, and an
 * address is told at the host that was called. */
static void check_callers(oncrpc_registry *registry) {
    static const oncrpc_caller trusted = {ONCRPC_PEER_REMOTE, 0, {0}, false, true};
    static const oncrpc_caller at_host = {ONCRPC_PEER_REMOTE, 0, {10, 9, 8, 7}, true, false};
    static const oncrpc_caller root = {ONCRPC_PEER_LOCAL_USER, 0, {0}, false, false};
    static const oncrpc_caller another = {ONCRPC_PEER_LOCAL_USER, 1001, {0}, false, false};
    check_told(registry, &remote, ASKS("\1") MAPPING, 56, TOO_WEAK, 20);
    check_told(registry, &user, ASKS("\1") MAPPING, 56, TELLS "\0\0\0\0\1", 28);
    if (refused_growth()) {
        return;
    }
    check_told(registry, &remote, ASKS("\2") MAPPING, 56, TOO_WEAK, 20);
    check_told(registry, &another, ASKS("\2") MAPPING, 56, TELLS "\0\0\0\0\0", 28);
    check_told(registry, &remote, GETS, 60, TELLS "\0\0\0\0\xb" "0.0.0.0.8.1", 40);
    check_told(registry, &at_host, GETS, 60, TELLS "\0\0\0\0\xc" "10.9.8.7.8.1", 40);
    check_told(registry, &root, ASKS("\2") MAPPING, 56, TELLS "\0\0\0\0\1", 28);
    check_told(registry, &trusted, ASKS("\1") MAPPING, 56, TELLS "\0\0\0\0\1", 28);
}

/* Which of several statuses is told, and that nothing is changed then. */
static void check_none(oncrpc_registry *registry) {
    static const oncrpc_caller none = {3, 0, {0}, false, false};
    oncrpc_registry empty = ONCRPC_NONE;
    oncrpc_session held = ONCRPC_NONE;
    uint8_t room[4] = "...";
    oncrpc_outcome outcome = {9, 9, 9, 9, 9};
    uint32_t status = oncrpc_registry_answer_from(&empty, &none, "udp6", 4, stream + 4, 40, room, 4, &outcome);
    judge(status == ONCRPC_NO_REGISTRY && tells(&outcome, 0, 0), status);
    status = oncrpc_registry_answer_from(registry, &none, "udp6", 4, stream + 4, 40, room, 4, &outcome);
    judge(status == ONCRPC_NO_TRANSPORT && tells(&outcome, 0, 0), status);
    status = oncrpc_registry_answer_from(registry, &none, "udp", 3, stream + 4, 40, room, 4, &outcome);
    judge(status == ONCRPC_NO_CALLER && tells(&outcome, 0, 0), status);
    status = oncrpc_registry_answer_from(registry, &local, "udp", 3, NULL, 0, NULL, 0, &outcome);
    judge(status == ONCRPC_SILENCE && tells(&outcome, 0, 0), status);
    status = oncrpc_registry_answer_from(registry, &local, "local", 5, NULL, 0, NULL, 0, &outcome);
    judge(status == ONCRPC_SILENCE && tells(&outcome, 0, 0), status);
    status = oncrpc_registry_answer(registry, "local", 5, NULL, 0, NULL, 0, &outcome);
    judge(status == ONCRPC_NO_TRANSPORT && tells(&outcome, 0, 0), status);
    status = oncrpc_session_feed(&held, &empty, NULL, 0, &outcome);
    judge(status == ONCRPC_NO_SESSION && tells(&outcome, 0, 0), status);
    status = oncrpc_session_output(&held, room, 4, &outcome);
    judge(status == ONCRPC_NO_SESSION && tells(&outcome, 0, 0) && !memcmp(room, "...", 4), status);
    status = oncrpc_session_took(&held, 0, &outcome);
    judge(status == ONCRPC_NO_SESSION && tells(&outcome, 0, 0), status);
    status = oncrpc_session_start(&held, "tcp", 3, &local, 0, &outcome);
    judge(status == ONCRPC_OK, status);
    if (status == ONCRPC_OK) {
        status = oncrpc_session_feed(&held, &empty, stream, STREAM, &outcome);
        judge(status == ONCRPC_NO_REGISTRY && tells(&outcome, 0, 0), status);
        status = oncrpc_session_feed(&held, registry, NULL, 0, &outcome);
        judge(status == ONCRPC_MORE_WANTED && tells(&outcome, 0, 0), status);
        status = oncrpc_session_took(&held, 0, &outcome);
        judge(status == ONCRPC_OK && tells(&outcome, 0, 0), status);
    }
    status = oncrpc_session_start(&held, "udp", 3, &none, 0, &outcome);
    judge(status == ONCRPC_NO_TRANSPORT && tells(&outcome, 0, 0), status);
    status = oncrpc_session_start(&held, NULL, 0, &local, 0, &outcome);
    judge(status == ONCRPC_NO_TRANSPORT && tells(&outcome, 0, 0), status);
    status = oncrpc_session_start(&held, "local", 5, &none, 0, &outcome);
    judge(status == ONCRPC_NO_CALLER && tells(&outcome, 0, 0), status);
    status = oncrpc_session_took(&held, 0, &outcome);
    judge(status == ONCRPC_NO_SESSION, status);
    oncrpc_session_free(&held);
}

void check_sessions(void) {
    oncrpc_registry registry = ONCRPC_NONE;
    oncrpc_outcome outcome;
    check_connections();
    uint32_t status = oncrpc_registry_start(&registry, 111, NULL, 0, &outcome);
    judge(status == ONCRPC_OK, status);
    if (status == ONCRPC_OK) {
        check_output(&registry);
        check_refused(&registry);
        check_callers(&registry);
        check_none(&registry);
    }
    oncrpc_registry_free(&registry);
}
