/* What main.c calls: one function for each file. Each leaves no block that is not given back. */
#ifndef CALLS_H
#define CALLS_H

#include "growths.h"

void check_values(void);    /* values.c, with each growth refused in turn, and so the next ten */
void check_written(void);   /* writing.c: values by their items, each reason against them by its name */
void check_paths(void);     /* paths.c: one part by its path, and its number */
void check_cursors(void);   /* cursors.c: the parts one by one, and those that are passed over */
void check_kinds(void);     /* kinds.c: kinds and their members */
void check_json(void);      /* json.c: values as JSON, both ways */
void check_dialect(void);   /* json.c: texts in rpcgen's dialect */
void check_messages(void);  /* messages.c */
void check_streams(void);   /* streams.c */
void check_registry(void);  /* registry.c */
void check_sessions(void);  /* sessions.c: connections to a registry, and answers by who calls */
void check_addresses(void); /* addresses.c */
void check_hostile(void);   /* hostile.c: each row cut and changed, the deepest value and text */
void check_names(void);     /* names.c: each reason, fault, type, role and state by its name, and as a text */
void check_nothing(void);   /* nothing.c: NULL with a count of 0 */
void check_sizes(void);     /* sizes.c: a row of 1 MiB for each call */

/* Declarations and rows of values that values.c and hostile.c share. */
struct row { const char *name; const char *input; size_t count; uint32_t status, why; size_t at; };
extern const char text[];
extern const size_t text_count;
extern const struct row rows[];
extern const size_t row_count;

/* A call of GETPORT with a body of AUTH_SYS, of 76 bytes, and a reply of 28 bytes. */
extern const uint8_t asking[], telling[];

/* The parts of the first bytes of a row's input tell what a check tells. */
void list_held(oncrpc_declarations *held, const struct row *row, size_t count);

#endif
