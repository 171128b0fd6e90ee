/* What the programs of this folder count: growths of memory, which can be refused, blocks that were not given back, and
 * answers. Linked with -Wl,--wrap=malloc,--wrap=realloc,--wrap=free. */
#ifndef GROWTHS_H
#define GROWTHS_H

#include <string.h>

#include "oncrpc.h"

/* Refuses the growth of this number, counted from 1, and all later ones where `all_later` is set. 0: none. */
void refuse_growth(long number, int all_later);

/* The number of the growth that is refused, 0 for none, and how many were asked for since that was said. */
long refused_growth(void);
long growths(void);

/* How many bytes all growths asked for. */
size_t growth_bytes(void);

/* How many blocks are not given back. */
long live_blocks(void);

/* An answer that is right, that is NoMemory where a growth is refused, or that is wrong, which is printed. */
#define judge(is_right, status) judge_at(is_right, status, __FILE__, __LINE__)
void judge_at(int is_right, uint32_t status, const char *file, int line);

/* Counts a reply that says that memory was refused. */
void count_wanting(void);

/* Prints the counts, and says whether an answer was wrong. */
int tell_counts(void);

static inline const uint8_t *bytes(const char *text) { return (const uint8_t *)text; }

/* Whether an outcome tells this place and this reason, and nothing else. */
static inline int tells(const oncrpc_outcome *outcome, size_t at, uint32_t why) {
    return outcome->at == at && outcome->why == why && !outcome->line && !outcome->column && !outcome->inner;
}

#endif
