/* A registry in process, which is asked for the port of a program, and lists its rows. The call and the reply are those
 * that rpcbind was sent and answered, as they were captured.
 *
 *   ./build-library library && cc -Ilibrary/include examples/port.c library/liboncrpc.a -o port && ./port */
#include <stdio.h>
#include <string.h>

#include "oncrpc.h"

enum { PROGRAM = 536870912, MOST_ROWS = 16, MOST_TEXTS = 1024 };

static const uint8_t sent[56] =
    "\x87\xf9\xb7\x2a\0\0\0\0\0\0\0\2\0\1\x86\xa0\0\0\0\2\0\0\0\3"
    "\0\0\0\0\0\0\0\0\0\0\0\0\0\0\0\0"
    "\x20\0\0\0\0\0\0\1\0\0\0\6\0\0\0\0";

static const uint8_t answered[28] =
    "\x87\xf9\xb7\x2a\0\0\0\1\0\0\0\0"
    "\0\0\0\0\0\0\0\0"
    "\0\0\0\0\0\0\x08\1";

/* The arguments of GETPORT: a program, its version, the protocol TCP, and a port that is not looked at. */
static const oncrpc_item items[] = {
    {.form = ONCRPC_ITEM_UNSIGNED, .number = PROGRAM},
    {.form = ONCRPC_ITEM_UNSIGNED, .number = 1},
    {.form = ONCRPC_ITEM_UNSIGNED, .number = 6},
    {.form = ONCRPC_ITEM_UNSIGNED, .number = 0},
};

/* Says what a status is, where it is not the one that was wanted. */
static int fails(const char *call, uint32_t status) {
    if (status != ONCRPC_OK) {
        printf("%s: %s\n", call, oncrpc_status_text(status));
    }
    return status != ONCRPC_OK;
}

/* Whether all bytes are one value of this kind. */
static int is_value(oncrpc_declarations *held, const char *kind, const uint8_t *input, size_t count) {
    oncrpc_outcome outcome;
    return !fails(kind, oncrpc_declarations_check(held, kind, strlen(kind), ONCRPC_MOST_DEPTH,
        ONCRPC_MOST_BYTES, input, count, &outcome));
}

/* A registry in which the program has the port 2049 of 127.0.0.1. */
static int start(oncrpc_registry *registry) {
    static const uint8_t host[4] = {127, 0, 0, 1};
    uint8_t address[23];
    size_t count;
    oncrpc_outcome outcome;
    return !fails("start", oncrpc_registry_start(registry, 111, NULL, 0, &outcome))
        && !fails("address", oncrpc_uaddr_write(host, 2049, address, sizeof address, &count))
        && !fails("set", oncrpc_registry_set(registry, PROGRAM, 1, "tcp", 3, address, count, "port.c", 6, &outcome));
}

/* Writes the call behind the header of its one fragment, and tells how many bytes both have. */
static size_t ask(oncrpc_declarations *held, uint8_t *buffer, size_t buffer_count) {
    oncrpc_call call = {0};
    uint8_t arguments[16];
    size_t written, count;
    oncrpc_outcome outcome;
    call.xid = 0x87f9b72a;
    call.program = 100000;
    call.version = 2;
    call.procedure = 3;
    if (fails("arguments",
            oncrpc_declarations_write(held, "100000.2.3.1", 12, ONCRPC_MOST_DEPTH, ONCRPC_MOST_BYTES, items,
                sizeof items / sizeof *items, NULL, 0, arguments, sizeof arguments, &written, &outcome))
        || fails("call", oncrpc_call_write(&call, NULL, 0, NULL, 0, arguments, written, buffer + 4,
            buffer_count - 4, &count))
        || fails("header", oncrpc_record_header(count, true, buffer))) {
        return 0;
    }
    printf("header %02x%02x%02x%02x, call of %zu bytes, %s\n", buffer[0], buffer[1], buffer[2], buffer[3], count,
        count == sizeof sent && !memcmp(buffer + 4, sent, count) ? "as captured" : "another than was captured");
    return count + 4;
}

/* Answers the call, and reads the port in the reply: the one number that its results are. */
static int answer(oncrpc_registry *registry, oncrpc_declarations *held, const uint8_t *call, size_t count) {
    uint8_t buffer[64];
    oncrpc_outcome outcome;
    oncrpc_reply reply;
    if (fails("answer",
            oncrpc_registry_answer(registry, "tcp", 3, call, count, buffer, sizeof buffer, &outcome))) {
        return 0;
    }
    printf("reply of %zu bytes, %s\n", outcome.at,
        outcome.at == sizeof answered && !memcmp(buffer, answered, outcome.at) ? "as captured"
                                                                               : "another than was captured");
    if (fails("reply", oncrpc_reply_read(buffer, outcome.at, &reply)) || reply.state != ONCRPC_SUCCESS
        || !is_value(held, "100000.2.3.result", buffer + reply.results.at, reply.results.count)) {
        return 0;
    }
    const uint8_t *port = buffer + reply.results.at;
    printf("port %u\n", (unsigned)(port[2] << 8 | port[3]));
    return 1;
}

/* Prints each row, with the port of its address. */
static int list(oncrpc_registry *registry) {
    oncrpc_registry_row rows[MOST_ROWS];
    uint8_t texts[MOST_TEXTS], host[4];
    uint16_t port;
    oncrpc_rows_outcome found;
    if (fails("rows", oncrpc_registry_rows(registry, rows, MOST_ROWS, texts, MOST_TEXTS, &found))) {
        return 0;
    }
    for (size_t i = 0; i < found.rows; i++) {
        if (fails("address", oncrpc_uaddr_read(texts + rows[i].address.at, rows[i].address.count, host, &port))) {
            return 0;
        }
        printf("%u %u %.*s %u %.*s\n", rows[i].program, rows[i].version, (int)rows[i].netid.count,
            (const char *)texts + rows[i].netid.at, port, (int)rows[i].owner.count,
            (const char *)texts + rows[i].owner.at);
    }
    return 1;
}

int main(void) {
    static const char text[] = ONCRPC_REGISTRY_DECLARATIONS;
    oncrpc_declarations held = ONCRPC_NONE;
    oncrpc_registry registry = ONCRPC_NONE;
    oncrpc_outcome outcome;
    uint8_t buffer[64];
    size_t count = 0;
    int is_well = !fails("declarations",
                      oncrpc_declarations_read(text, sizeof text - 1, &held, &outcome))
        && start(&registry) && (count = ask(&held, buffer, sizeof buffer))
        && answer(&registry, &held, buffer + 4, count - 4) && list(&registry);
    oncrpc_registry_free(&registry);
    oncrpc_declarations_free(&held);
    return !is_well;
}
