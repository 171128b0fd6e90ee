/* Tells what some messages are: a call of the port mapper with AUTH_SYS and its replies to other calls, as they were
 * captured, and bytes that are none. The headers of their fragments are taken off.
 *
 *   ./build-library library && cc -Ilibrary/include examples/messages.c library/liboncrpc.a -o tell && ./tell */
#include <stdio.h>
#include <string.h>

#include "oncrpc.h"

static const uint8_t call_with_sys[68] =
    "\xc1\x17\xf9\xbe\0\0\0\0\0\0\0\2\0\1\x86\xa0\0\0\0\4\0\0\0\0"
    "\0\0\0\1\0\0\0\x1c\x6b\2\x9a\x3a\0\0\0\3box\0\0\0\3\xe8\0\0\0\x64\0\0\0\1\0\0\0\x64"
    "\0\0\0\0\0\0\0";

static const uint8_t other_versions[32] =
    "\x78\x57\xf3\x69\0\0\0\1\0\0\0\0\0\0\0\0\0\0\0\0\0\0\0\2\0\0\0\2\0\0\0\4";

static const uint8_t no_procedure[24] = "\x93\x32\x7c\xab\0\0\0\1\0\0\0\0\0\0\0\0\0\0\0\0\0\0\0\3";

static void tell_sys(const uint8_t *body, size_t count) {
    oncrpc_auth_sys auth;
    uint32_t status = oncrpc_auth_sys_read(body, count, &auth);
    if (status != ONCRPC_OK) {
        printf("  no AUTH_SYS: status %u\n", status);
        return;
    }
    printf("  uid %u, gid %u of %.*s, gids", auth.uid, auth.gid, (int)auth.machine.count,
        (const char *)body + auth.machine.at);
    for (uint32_t i = 0; i < auth.gid_count; i++) {
        printf(" %u", auth.gids[i]);
    }
    /* Written again it is the same. */
    uint8_t buffer[ONCRPC_MOST_BODY];
    size_t written;
    status = oncrpc_auth_sys_write(&auth, body + auth.machine.at, auth.machine.count, buffer, sizeof buffer, &written);
    int is_same = status == ONCRPC_OK && written == count && !memcmp(buffer, body, count);
    printf("%s\n", is_same ? "" : ", written otherwise");
}

static void tell_call(const uint8_t *input, size_t count) {
    oncrpc_call call;
    uint32_t status = oncrpc_call_read(input, count, &call);
    if (status != ONCRPC_OK) {
        printf("call: status %u, xid %08x, RPC %u\n", status, call.xid, call.rpc_version);
        return;
    }
    printf("call %08x of %u.%u.%u, %zu bytes of arguments at %zu\n", call.xid, call.program, call.version,
        call.procedure, call.arguments.count, call.arguments.at);
    if (call.credential_flavor == 1) {
        tell_sys(input + call.credential.at, call.credential.count);
    }
}

static void tell_reply(const uint8_t *input, size_t count) {
    oncrpc_reply reply;
    uint32_t status = oncrpc_reply_read(input, count, &reply);
    if (status != ONCRPC_OK) {
        printf("reply: status %u\n", status);
        return;
    }
    printf("reply %08x: state %u", reply.xid, reply.state);
    if (reply.state == ONCRPC_PROG_MISMATCH || reply.state == ONCRPC_RPC_MISMATCH) {
        printf(", versions %u to %u", reply.low, reply.high);
    }
    /* Written again it is the same. */
    uint8_t buffer[64];
    size_t written;
    status = oncrpc_reply_write(&reply, input + reply.verifier.at, reply.verifier.count, input + reply.results.at,
        reply.results.count, buffer, sizeof buffer, &written);
    int is_same = status == ONCRPC_OK && written == count && !memcmp(buffer, input, count);
    printf("%s\n", is_same ? "" : ", written otherwise");
}

int main(void) {
    tell_call(call_with_sys, sizeof call_with_sys);
    tell_call(call_with_sys, 50);
    tell_call(call_with_sys, 66);
    tell_call(other_versions, sizeof other_versions);
    tell_reply(other_versions, sizeof other_versions);
    tell_reply(no_procedure, sizeof no_procedure);
    tell_reply(no_procedure, 22);
    tell_reply(call_with_sys, sizeof call_with_sys);
    return 0;
}
