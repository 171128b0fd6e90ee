/* The nearest to `oncrpc show` with rpcgen + libtirpc: reads unsigned numbers from standard input (xdrstdio), prints
 * the same lines, and frees the numbers. */
#include <stdio.h>
#include <rpc/rpc.h>
#include "../gen/bench.h"
int main(void) {
    XDR x;
    nums a = {0};
    xdrstdio_create(&x, stdin, XDR_DECODE);
    if (!xdr_nums(&x, &a)) {
        printf("refused\n");
        return 1;
    }
    printf("list of %u\n", a.nums_len);
    for (u_int i = 0; i < a.nums_len; i++) printf("  %u\n", a.nums_val[i]);
    printf("ok %ld\n", (long)ftell(stdin));
    xdr_free((xdrproc_t)xdr_nums, (char *)&a);
    return 0;
}
