/* Writes a stream of records in its normal form: each record as one final fragment (RFC 5531 section 11).
 *
 *   ./build-library library && cc -Ilibrary/include examples/records.c library/liboncrpc.a -o records && ./records */
#include <stdio.h>
#include <stdlib.h>

#include "oncrpc.h"

static void show(const uint8_t *input, size_t count, uint32_t limit) {
    /* The normal form has no more bytes than its input. */
    uint8_t *buffer = malloc(count + 1);
    size_t written;
    oncrpc_outcome outcome;
    uint32_t status = ONCRPC_NO_MEMORY;
    if (buffer) {
        status = oncrpc_normalise(input, count, limit, buffer, count, &written, &outcome);
    }
    if (status == ONCRPC_OK || status == ONCRPC_REFUSED) {
        for (size_t i = 0; i < written; i++) {
            printf("%02x", buffer[i]);
        }
        printf("%s", written ? " " : "");
    }
    if (status == ONCRPC_REFUSED) {
        printf("refused for reason %u at %zu\n", outcome.why, outcome.at);
    } else {
        printf("status %u\n", status);
    }
    free(buffer);
}

int main(void) {
    /* a record of two fragments, "a" and "bc", and one of none */
    static const uint8_t input[] = {0, 0, 0, 1, 'a', 0x80, 0, 0, 2, 'b', 'c', 0x80, 0, 0, 0};
    show(input, sizeof input, ONCRPC_MOST_RECORD);
    show(input, sizeof input - 1, ONCRPC_MOST_RECORD);
    show(input, 10, ONCRPC_MOST_RECORD);
    show(input, sizeof input, 2);
    show(input, sizeof input, ONCRPC_MOST_RECORD + 1);
    return 0;
}
