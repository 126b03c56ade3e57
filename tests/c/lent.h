/* What the C tests share: areas to lend that lie against pages which may not be touched, and checks.
 *
 * Everything here is C99 and C++, as the header under test is.
 */
#ifndef LENT_H
#define LENT_H

#include "terkinoha.h"

#include <stddef.h>
#include <stdint.h>

/* ---- checks: the first that fails ends the test, and says what was tried ---- */

#define CHECK(fact) ((fact) ? (void)0 : lent_failed(__FILE__, __LINE__, #fact))

/* To be called first: an access to a page that may not be touched is a failed check too. */
void lent_start(void);
/* What is being tried, for the line that a failed check prints. */
void lent_trying(const char *what, const void *source, size_t size);
void lent_failed(const char *file, int line, const char *fact);
/* To be called last: a test's status, which is 2 where what it printed could not be written. */
int lent_done(void);

/* ---- areas ---- */

/* Where in its open pages an area lies: its first byte after a shut page, or its last byte before one. */
enum { AT_START, AT_END, SIDES };

struct area {
    unsigned char *map; /* a shut page, open pages, a shut page */
    size_t open;        /* how many bytes are open */
    unsigned char *at;  /* what is lent */
    size_t size;
};

/* An area of so many bytes, full of garbage, as are the open bytes round it. */
struct area area_new(size_t size, int side);
/* A source: nobody may write to it. */
struct area area_of(const void *bytes, size_t size, int side);
void area_free(struct area area);

/* The open bytes round an area are as they were made. */
int area_kept(struct area area);
/* How many bytes from an area's first on are as they were made. */
size_t area_unused(struct area area);
/* From byte `from` on an area is zero. */
int area_zero(struct area area, size_t from);

/* What an area is lent as: NULL where it has no bytes. */
void *area_lend(struct area area);

/* ---- random numbers, the same in every run ---- */

uint64_t random_below(uint64_t bound);

#endif
