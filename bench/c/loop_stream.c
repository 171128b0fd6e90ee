/* Records of 40 bytes that lie in memory, read by the library's handle or by xdrrec, in pieces of 4000 bytes as
 * libtirpc reads them. usage: loop_stream ours|theirs COUNT */
#include <stdio.h>
#include <stdlib.h>
#include <string.h>
#include <rpc/rpc.h>
#include "oncrpc.h"
#define PIECE 4000
#define SIZE 40
/* The stream is one piece, whole records of it, over and over. */
static uint8_t stream[PIECE / (SIZE + 4) * (SIZE + 4)];
static int rd(void *h, void *b, int n) {
    (void)h;
    if (n > (int)sizeof stream) n = sizeof stream;
    memcpy(b, stream, n);
    return n;
}
static void ours(long count) {
    oncrpc_records held = ONCRPC_NONE;
    oncrpc_outcome outcome;
    uint8_t room[SIZE];
    size_t at = sizeof stream;
    if (oncrpc_records_start(&held, 1 << 20, &outcome)) exit(1);
    while (count > 0) {
        if (at == sizeof stream) at = 0;
        uint32_t status = oncrpc_records_feed(&held, stream + at, sizeof stream - at, &outcome);
        if (status) exit(2);
        at += outcome.at;
        if (oncrpc_records_take(&held, room, sizeof room, &outcome) || outcome.at != SIZE) exit(3);
        count--;
    }
    oncrpc_records_free(&held);
}
static void theirs(long count) {
    char room[SIZE];
    XDR x;
    memset(&x, 0, sizeof x);
    xdrrec_create(&x, 4096, sizeof stream, 0, rd, rd);
    x.x_op = XDR_DECODE;
    for (; count > 0; count--)
        if (!xdrrec_skiprecord(&x) || !XDR_GETBYTES(&x, room, SIZE)) exit(4);
    xdr_destroy(&x);
}
int main(int c, char **v) {
    if (c != 3) return 2;
    for (size_t at = 0; at < sizeof stream; at += SIZE + 4) {
        stream[at] = 0x80;
        stream[at + 3] = SIZE;
    }
    (!strcmp(v[1], "ours") ? ours : theirs)(atol(v[2]));
    return 0;
}
