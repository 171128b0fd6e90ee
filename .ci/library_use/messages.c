/* Calls, replies and credentials. */
#include "calls.h"

/* After the call and the reply of RFC 1833 section 3, procedure GETPORT, with a body of AUTH_SYS. */
#define HEAD "\0\0\0\7\0\0\0\0\0\0\0\2\0\1\x86\xa0\0\0\0\2\0\0\0\3"
#define SYS "\0\0\0\5\0\0\0\3box\0\0\0\0\1\0\0\0\2\0\0\0\2\0\0\0\3\0\0\0\4"
const uint8_t asking[] = HEAD "\0\0\0\1\0\0\0\x20" SYS "\0\0\0\0\0\0\0\0" "\0\0\0\x64";
const uint8_t telling[] = "\0\0\0\7\0\0\0\1\0\0\0\0\0\0\0\0\0\0\0\0\0\0\0\0\0\0\0\x6f";

static void check_calls(void) {
    uint8_t room[80], before[401];
    size_t count = 9;
    oncrpc_call call;
    memset(room, '.', sizeof room);
    memset(before, '.', sizeof before);
    uint32_t status = oncrpc_call_read(asking, sizeof asking - 1, &call);
    judge(status == ONCRPC_OK && call.xid == 7 && call.rpc_version == 2 && call.program == 100000 && call.version == 2
        && call.procedure == 3 && call.credential_flavor == 1 && !call.verifier_flavor && call.credential.at == 32
        && call.credential.count == 32 && call.verifier.at == 72 && !call.verifier.count && call.arguments.at == 72
        && call.arguments.count == 4, status);
    const uint8_t *body = asking + call.credential.at, *rest = asking + call.arguments.at;
    status = oncrpc_call_write(&call, body, 32, body, 0, rest, 4, room, 75, &count);
    judge(status == ONCRPC_NO_ROOM && count == 76 && !memcmp(room, before, 80), status);
    status = oncrpc_call_write(&call, body, 32, body, 0, rest, 4, room, 80, &count);
    judge(status == ONCRPC_OK && count == 76 && !memcmp(room, asking, 76) && !memcmp(room + 76, before, 4), status);
    memset(room, '.', sizeof room);
    status = oncrpc_call_write(&call, before, 401, body, 0, rest, 4, room, 80, &count);
    judge(status == ONCRPC_BAD_CREDENTIAL && !count && !memcmp(room, before, 80), status);
    status = oncrpc_call_read(asking, 11, &call);
    judge(status == ONCRPC_NOT_A_CALL && !call.xid && !call.rpc_version && !call.arguments.at, status);
}

static void check_replies(void) {
    uint8_t room[32] = {0};
    size_t count = 9;
    oncrpc_reply reply;
    uint32_t status = oncrpc_reply_read(telling, sizeof telling - 1, &reply);
    int is_told = reply.xid == 7 && !reply.state && !reply.verifier_flavor && reply.verifier.at == 20
        && reply.results.at == 24 && reply.results.count == 4;
    judge(status == ONCRPC_OK && is_told, status);
    oncrpc_reply asked = {0};
    asked.xid = 7;
    status = oncrpc_reply_write(&asked, telling, 0, telling + 24, 4, room, sizeof room, &count);
    judge(status == ONCRPC_OK && count == 28 && !memcmp(room, telling, 28), status);
    asked.state = ONCRPC_AUTH_ERROR + 1;
    status = oncrpc_reply_write(&asked, telling, 0, telling + 24, 4, room, sizeof room, &count);
    judge(status == ONCRPC_BAD_STATE && !count, status);
    status = oncrpc_reply_read(telling, 21, &reply);
    judge(status == ONCRPC_CUT && !reply.xid && !reply.verifier.at, status);
}

static void check_credentials(void) {
    uint8_t room[32] = {0};
    size_t count = 9;
    oncrpc_auth_sys auth;
    uint32_t status = oncrpc_auth_sys_read(asking + 32, 32, &auth);
    int is_told = auth.stamp == 5 && auth.uid == 1 && auth.gid == 2 && auth.gid_count == 2 && auth.gids[0] == 3
        && auth.gids[1] == 4 && !auth.gids[2] && !auth.gids[15] && auth.machine.at == 8 && auth.machine.count == 3;
    judge(status == ONCRPC_OK && is_told, status);
    oncrpc_auth_sys asked = {5, 1, 2, 2, {3, 4}, {0, 0}};
    status = oncrpc_auth_sys_write(&asked, bytes("box"), 3, room, 31, &count);
    judge(status == ONCRPC_NO_ROOM && count == 32 && !room[3], status);
    status = oncrpc_auth_sys_write(&asked, bytes("box"), 3, room, 32, &count);
    judge(status == ONCRPC_OK && count == 32 && !memcmp(room, asking + 32, 32), status);
    asked.gid_count = 17;
    status = oncrpc_auth_sys_write(&asked, bytes("box"), 3, room, 32, &count);
    judge(status == ONCRPC_NOT_AUTH_SYS && !count, status);
    status = oncrpc_auth_sys_read(asking + 32, 31, &auth);
    judge(status == ONCRPC_NOT_AUTH_SYS && !auth.stamp && !auth.machine.at, status);
}

void check_messages(void) {
    check_calls();
    check_replies();
    check_credentials();
}
