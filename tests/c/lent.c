#define _DEFAULT_SOURCE /* mmap's MAP_ANONYMOUS */
#include "lent.h"

#include <signal.h>
#include <stdio.h>
#include <stdlib.h>
#include <string.h>
#include <sys/mman.h>

/* How far apart protection is kept. A machine with larger pages says so when this is compiled. */
#ifndef PAGE
#define PAGE 4096
#endif

#define GARBAGE 0xA5

static const char *tried = "nothing yet";
static const unsigned char *tried_source;
static size_t tried_size;

void lent_trying(const char *what, const void *source, size_t size)
{
    tried = what;
    tried_source = (const unsigned char *)source;
    tried_size = size;
}

void lent_failed(const char *file, int line, const char *fact)
{
    fprintf(stderr, "%s:%d: not so: %s\n  trying %s on %zu bytes:", file, line, fact, tried, tried_size);
    for (size_t i = 0; i < tried_size && i < 400; i++)
        fprintf(stderr, " %02x", tried_source[i]);
    fputc('\n', stderr);
    exit(1);
}

/* Not a thing to do in a program that goes on; this one ends. */
static void touched(int signal_number)
{
    (void)signal_number;
    lent_failed(__FILE__, __LINE__, "only what was lent is touched");
}

void lent_start(void)
{
    signal(SIGSEGV, touched);
    signal(SIGBUS, touched);
    signal(SIGILL, touched);
}

int lent_done(void)
{
    if (fflush(stdout) == 0 && !ferror(stdout))
        return 0;
    perror("standard output");
    return 2;
}

struct area area_new(size_t size, int side)
{
    struct area area;
    CHECK(size < SIZE_MAX / 2); /* a test's own slip: a size below 0 */
    area.size = size;
    area.open = (size / PAGE + 1) * PAGE;
    void *map = mmap(NULL, area.open + 2 * PAGE, PROT_NONE, MAP_PRIVATE | MAP_ANONYMOUS, -1, 0);
    if (map == MAP_FAILED || mprotect((unsigned char *)map + PAGE, area.open, PROT_READ | PROT_WRITE) != 0) {
        perror("mmap");
        exit(2);
    }
    area.map = (unsigned char *)map;
    memset(area.map + PAGE, GARBAGE, area.open);
    area.at = area.map + PAGE + (side == AT_END ? area.open - size : 0);
    return area;
}

struct area area_of(const void *bytes, size_t size, int side)
{
    struct area area = area_new(size, side);
    if (size != 0)
        memcpy(area.at, bytes, size);
    if (mprotect(area.map + PAGE, area.open, PROT_READ) != 0) {
        perror("mprotect");
        exit(2);
    }
    return area;
}

void area_free(struct area area)
{
    if (munmap(area.map, area.open + 2 * PAGE) != 0) {
        perror("munmap");
        exit(2);
    }
}

/* Whether some bytes are all the same one: the first is, and each is as the one before it. */
static int all(const unsigned char *bytes, size_t size, unsigned char byte)
{
    return size == 0 || (bytes[0] == byte && memcmp(bytes, bytes + 1, size - 1) == 0);
}

int area_kept(struct area area)
{
    size_t before = (size_t)(area.at - area.map) - PAGE;
    return all(area.map + PAGE, before, GARBAGE) &&
           all(area.at + area.size, area.open - before - area.size, GARBAGE);
}

size_t area_unused(struct area area)
{
    size_t count = 0;
    while (count < area.size && area.at[count] == GARBAGE)
        count++;
    return count;
}

int area_zero(struct area area, size_t from)
{
    return area.size <= from || all(area.at + from, area.size - from, 0);
}

void *area_lend(struct area area)
{
    return area.size == 0 ? NULL : area.at;
}

/* xorshift64* */
uint64_t random_below(uint64_t bound)
{
    static uint64_t state = 0x9E3779B97F4A7C15u;
    state ^= state >> 12;
    state ^= state << 25;
    state ^= state >> 27;
    return (state * 0x2545F4914F6CDD1Du >> 32) % bound;
}
