#include "growths.h"

#include <stdio.h>
#include <stdlib.h>

extern void *__real_malloc(size_t);
extern void *__real_realloc(void *, size_t);
extern void __real_free(void *);

static long asked, refused_at, onward, live;
static size_t asked_bytes;
static unsigned long whole, wanting, wrong;

static int refuses(size_t count) {
    asked++, asked_bytes += count;
    return refused_at && (asked == refused_at || (onward && asked > refused_at));
}

void *__wrap_malloc(size_t count) {
    void *made = refuses(count) ? NULL : __real_malloc(count);
    live += made != NULL;
    return made;
}

void *__wrap_realloc(void *at, size_t count) {
    void *made = refuses(count) ? NULL : __real_realloc(at, count);
    live += made && !at;
    return made;
}

void __wrap_free(void *at) {
    live -= at != NULL;
    __real_free(at);
}

void refuse_growth(long number, int all_later) { asked = 0, refused_at = number, onward = all_later; }
long refused_growth(void) { return refused_at; }
long growths(void) { return asked; }
size_t growth_bytes(void) { return asked_bytes; }
long live_blocks(void) { return live; }
void count_wanting(void) { wanting++; }

void judge_at(int is_right, uint32_t status, const char *file, int line) {
    if (status == ONCRPC_NO_MEMORY && refused_at) {
        wanting++;
    } else if (is_right) {
        whole++;
    } else {
        wrong++;
        printf("%s:%d: wrong: status %u with growth %ld refused\n", file, line, status, refused_at);
    }
}

int tell_counts(void) {
    printf("whole %lu, wanting %lu, wrong %lu\n", whole, wanting, wrong);
    return wrong != 0;
}
