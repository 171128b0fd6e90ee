/* Handles that go from thread to thread: each is made on one, used on three under one lock, and given back on another.
 * It prints how many answers were wrong. */
#include <pthread.h>
#include <stdint.h>
#include <stdio.h>
#include <string.h>

#include "oncrpc.h"

enum { ROUNDS = 200, THREADS = 3 };

static const char text[] = "struct file { string name<255>; bool open; };";
static const uint8_t file[12] = "\0\0\0\3abc\0\0\0\0\1";
static const uint8_t record[7] = "\200\0\0\3xyz";
static const oncrpc_caller nobody = {ONCRPC_PEER_REMOTE, 0, {0}, false, false};

/* What the threads share, under the lock. */
static struct {
    pthread_mutex_t lock;
    oncrpc_declarations declarations;
    oncrpc_parts cursor;
    oncrpc_registry registry;
    oncrpc_records records;
    oncrpc_session session;
    uint32_t rows, steps;
    size_t wrong;
} shared = {PTHREAD_MUTEX_INITIALIZER, ONCRPC_NONE, ONCRPC_NONE, ONCRPC_NONE, ONCRPC_NONE, ONCRPC_NONE, 0, 0, 0};

static void want(int is_right) {
    shared.wrong += !is_right;
}

static int begin(void) {
    oncrpc_outcome outcome;
    return oncrpc_declarations_parts_start(&shared.declarations, "file", 4, 2, 1024, file, sizeof file, &shared.cursor,
        &outcome) == ONCRPC_OK;
}

static void *make(void *nothing) {
    oncrpc_outcome outcome;
    pthread_mutex_lock(&shared.lock);
    want(oncrpc_declarations_read(text, sizeof text - 1, &shared.declarations, &outcome) == ONCRPC_OK);
    want(begin());
    want(oncrpc_registry_start(&shared.registry, 111, "no peer knows it", 16, &outcome) == ONCRPC_OK);
    want(oncrpc_records_start(&shared.records, 65536, &outcome) == ONCRPC_OK);
    want(oncrpc_session_start(&shared.session, "tcp", 3, &nobody, 65536, &outcome) == ONCRPC_OK);
    pthread_mutex_unlock(&shared.lock);
    return nothing;
}

/* The next part, of four; behind the last the cursor begins again. */
static void go_on(void) {
    oncrpc_value_part part;
    uint32_t status = oncrpc_declarations_parts_next(
        &shared.declarations, &shared.cursor, file, sizeof file, &part, NULL, 0);
    want(status == (shared.steps++ % 5 < 4 ? ONCRPC_OK : ONCRPC_NO_PART));
    if (status == ONCRPC_NO_PART) {
        want(begin());
    }
}

/* One use of each handle. */
static void use(void) {
    oncrpc_outcome outcome;
    uint8_t taken[3];
    uint32_t program = 400000 + shared.rows;
    want(oncrpc_declarations_check(&shared.declarations, "file", 4, 2, 1024, file, sizeof file, &outcome) == ONCRPC_OK);
    go_on();
    want(oncrpc_registry_set(&shared.registry, program, 1, "tcp", 3, "1.2.3.4.8.1", 11, "1", 1, &outcome) == ONCRPC_OK);
    shared.rows++;
    want(oncrpc_records_feed(&shared.records, record, sizeof record, &outcome) == ONCRPC_OK);
    want(oncrpc_records_take(&shared.records, taken, sizeof taken, &outcome) == ONCRPC_OK);
    want(!memcmp(taken, "xyz", 3));
    want(oncrpc_session_feed(&shared.session, &shared.registry, record, sizeof record, &outcome) == ONCRPC_OK);
    want(oncrpc_session_output(&shared.session, taken, sizeof taken, &outcome) == ONCRPC_OK && !outcome.at);
}

static void *use_again(void *nothing) {
    for (int i = 0; i < ROUNDS; i++) {
        pthread_mutex_lock(&shared.lock);
        use();
        pthread_mutex_unlock(&shared.lock);
    }
    return nothing;
}

static void *give_back(void *nothing) {
    oncrpc_outcome outcome;
    pthread_mutex_lock(&shared.lock);
    want(oncrpc_records_end(&shared.records, &outcome) == ONCRPC_OK);
    want(shared.rows == ROUNDS * THREADS);
    oncrpc_parts_free(&shared.cursor);
    oncrpc_declarations_free(&shared.declarations);
    oncrpc_registry_free(&shared.registry);
    oncrpc_records_free(&shared.records);
    oncrpc_session_free(&shared.session);
    pthread_mutex_unlock(&shared.lock);
    return nothing;
}

/* Runs a function on so many threads, and waits for them. */
static void on(int count, void *(*run)(void *)) {
    pthread_t threads[THREADS];
    for (int i = 0; i < count; i++) {
        if (pthread_create(&threads[i], NULL, run, NULL)) {
            count = i;
            want(0);
        }
    }
    for (int i = 0; i < count; i++) {
        pthread_join(threads[i], NULL);
    }
}

int main(void) {
    on(1, make);
    on(THREADS, use_again);
    on(1, give_back);
    printf("wrong %zu\n", shared.wrong);
    return shared.wrong != 0;
}
