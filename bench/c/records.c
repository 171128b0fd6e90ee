/* The nearest to `oncrpc records` with libtirpc: reads records of SIZE bytes from standard input by xdrrec, and writes
 * each to standard output as one final fragment. usage: records SIZE [COUNT] (COUNT: that many records; none: to the
 * end) */
#include <stdio.h>
#include <stdlib.h>
#include <string.h>
#include <unistd.h>
#include <rpc/rpc.h>
static int rd(void *h, void *b, int n) {
    (void)h;
    n = read(0, b, n);
    return n > 0 ? n : -1;
}
static int wr(void *h, void *b, int n) {
    (void)h;
    (void)b;
    return n;
}
int main(int c, char **v) {
    unsigned long size = atol(v[1]), count = c > 2 ? atol(v[2]) : ~0ul, n;
    char *body = malloc(size + 4);
    XDR x;
    memset(&x, 0, sizeof x);
    xdrrec_create(&x, 4096, 4096, 0, rd, wr);
    x.x_op = XDR_DECODE;
    for (n = 0; n < count && xdrrec_skiprecord(&x); n++) {
        unsigned char head[4] = {0x80 | size >> 24, size >> 16, size >> 8, size};
        if (!XDR_GETBYTES(&x, body, size)) break;
        fwrite(head, 1, 4, stdout);
        fwrite(body, 1, size, stdout);
    }
    fflush(stdout);
    fprintf(stderr, "%lu records\n", n);
    return 0;
}
