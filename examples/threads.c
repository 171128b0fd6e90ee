/* Four threads at once, each with a handle of its own.
 *
 *   ./build-library library && cc -Ilibrary/include examples/threads.c -pthread library/liboncrpc.a -o threads
 *   ./threads */
#include <pthread.h>
#include <stdint.h>
#include <stdio.h>
#include <string.h>

#include "oncrpc.h"

static const char text[] = "struct file { string name<255>; bool open; };";
static const uint8_t input[13] = "\0\0\0\3abc\0\0\0\0\1\7";

/* Reads and checks again and again, and counts the answers that are not as they should be. */
static void *run(void *count) {
    size_t *wrong = count;
    oncrpc_declarations declarations = ONCRPC_NONE;
    oncrpc_outcome outcome;
    for (int i = 0; i < 100; i++) {
        if (oncrpc_declarations_read(text, sizeof text - 1, &declarations, &outcome) != ONCRPC_OK) {
            ++*wrong;
        }
        for (int j = 0; j < 10; j++) {
            uint32_t status = oncrpc_declarations_check(
                &declarations, "file", 4, 2, 1024, input, sizeof input, &outcome);
            if (status != ONCRPC_MORE_FOLLOWS || outcome.at != 12) {
                ++*wrong;
            }
        }
    }
    oncrpc_declarations_free(&declarations);
    return NULL;
}

int main(void) {
    pthread_t threads[4];
    size_t wrong[4] = {0};
    for (int i = 0; i < 4; i++) {
        if (pthread_create(&threads[i], NULL, run, &wrong[i])) {
            return 1;
        }
    }
    for (int i = 0; i < 4; i++) {
        pthread_join(threads[i], NULL);
        printf("thread %d: %zu wrong\n", i, wrong[i]);
    }
    return 0;
}
