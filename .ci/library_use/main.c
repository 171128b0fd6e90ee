/* Calls of the C library on inputs that nobody promised, with each growth of memory refused in turn.
 *
 * The last line is what came: whole answers, wants of memory, and answers that are wrong, of which there may be none.
 * A block that is not given back at the end of a round is one. */
#include <pthread.h>

#include "calls.h"

/* All calls but those at size. Says whether no growth was left to refuse. */
static int round_of(long at, int all_later) {
    refuse_growth(at, all_later);
    check_values();
    check_written();
    check_paths();
    check_cursors();
    check_kinds();
    check_json();
    check_dialect();
    check_messages();
    check_streams();
    check_registry();
    check_sessions();
    check_addresses();
    long asked = growths();
    refuse_growth(0, 0);
    judge(!live_blocks(), 0);
    return asked < at;
}

/* On a stack of 64 KiB. */
static void *check_once(void *unused) {
    round_of(0, 0);
    check_hostile();
    check_names();
    check_nothing();
    check_sizes();
    judge(!live_blocks(), 0);
    return unused;
}

int main(void) {
    pthread_t thread;
    pthread_attr_t small;
    if (pthread_attr_init(&small) || pthread_attr_setstacksize(&small, 65536)
        || pthread_create(&thread, &small, check_once, NULL) || pthread_join(thread, NULL)) {
        return 2;
    }
    for (int all_later = 0; all_later < 2; all_later++) {
        for (long at = 1; !round_of(at, all_later); at++) {
        }
    }
    return tell_counts();
}
