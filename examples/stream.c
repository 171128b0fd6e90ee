/* Reads a stream of records from standard input, as it comes, as a server reads a connection, and prints how many bytes
 * each record has without the headers of its fragments (RFC 5531 section 11).
 *
 *   ./build-library library && cc -Ilibrary/include examples/stream.c library/liboncrpc.a -o stream
 *   printf '\0\0\0\2ab\200\0\0\1c' | ./stream 1000       prints 'record of 3 bytes' and 'status 0' */
#define _DEFAULT_SOURCE
#include <stdio.h>
#include <stdlib.h>
#include <unistd.h>

#include "oncrpc.h"

static oncrpc_records records = ONCRPC_NONE;
static uint8_t *buffer;
static size_t buffer_count = 64;

/* Takes the record that waits, which stands in the buffer until the next one. */
static uint32_t take(size_t *count) {
    oncrpc_outcome outcome;
    uint32_t status = oncrpc_records_take(&records, buffer, buffer_count, &outcome);
    if (status == ONCRPC_NO_ROOM) {
        uint8_t *larger = realloc(buffer, outcome.at);
        if (!larger) {
            return ONCRPC_NO_MEMORY;
        }
        buffer = larger;
        buffer_count = outcome.at;
        status = oncrpc_records_take(&records, buffer, buffer_count, &outcome);
    }
    *count = outcome.at;
    return status;
}

/* Takes each record that is whole with a piece. */
static uint32_t read_piece(const uint8_t *piece, size_t count, oncrpc_outcome *outcome) {
    uint32_t status;
    while ((status = oncrpc_records_feed(&records, piece, count, outcome)) == ONCRPC_OK) {
        piece += outcome->at;
        count -= outcome->at;
        size_t size;
        status = take(&size);
        if (status != ONCRPC_OK) {
            break;
        }
        printf("record of %zu bytes\n", size);
    }
    return status;
}

int main(int count, char **words) {
    static uint8_t piece[4096];
    oncrpc_outcome outcome;
    uint32_t limit = count > 1 ? (uint32_t)strtoul(words[1], NULL, 10) : 65536;
    uint32_t status = oncrpc_records_start(&records, limit, &outcome);
    buffer = malloc(buffer_count);
    ssize_t got = -1;
    while (buffer && (status == ONCRPC_OK || status == ONCRPC_MORE_WANTED)
        && (got = read(STDIN_FILENO, piece, sizeof piece)) > 0) {
        status = read_piece(piece, (size_t)got, &outcome);
    }
    if (!got) {
        status = oncrpc_records_end(&records, &outcome);
    }
    if (status == ONCRPC_REFUSED) {
        printf("refused for reason %u at %zu\n", outcome.why, outcome.at);
    } else {
        printf("status %u\n", status);
    }
    oncrpc_records_free(&records);
    free(buffer);
    return status != ONCRPC_OK;
}
