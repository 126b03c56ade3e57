/* The areas that the other tests lend: a touch outside one stops a test, or is seen afterwards. Were it not so, the
 * other tests would pass whatever a call touches.
 */
#define _POSIX_C_SOURCE 200112L /* fork */
#include "lent.h"

#include <stdio.h>
#include <stdlib.h>
#include <string.h>
#include <sys/types.h>
#include <sys/wait.h>
#include <unistd.h>

enum { READ, WRITE, TOUCHES };

/* Whether a test that touches a byte is stopped. A child does it: it ends by a failed check, or unharmed. */
static int stops(unsigned char *byte, int how)
{
    int status = 0;
    volatile unsigned char *at = byte;
    fflush(NULL);
    pid_t child = fork();
    if (child == 0) {
        if (freopen("/dev/null", "w", stderr) == NULL) /* what a failed check says */
            _exit(2);
        if (how == WRITE)
            *at = 1;
        else
            (void)*at;
        _exit(0);
    }
    CHECK(child > 0 && waitpid(child, &status, 0) == child);
    CHECK(WIFEXITED(status) && WEXITSTATUS(status) <= 1);
    return WEXITSTATUS(status) == 1;
}

/* Its first and last byte may be read, and written unless it is a source; the byte past its shut side may not. */
static void try_touches(struct area area, int side, int writable)
{
    unsigned char *outside = side == AT_START ? area.at - 1 : area.at + area.size;
    for (int how = READ; how < TOUCHES; how++) {
        int wanted = how == READ || writable;
        CHECK(stops(outside, how));
        CHECK(area.size == 0 || stops(area.at, how) == !wanted);
        CHECK(area.size == 0 || stops(area.at + area.size - 1, how) == !wanted);
    }
}

/* A byte past its other side is open: that it was written is seen, and what is written inside is not taken for that. */
static void try_kept(struct area area, int side)
{
    unsigned char *outside = side == AT_START ? area.at + area.size : area.at - 1;
    CHECK(area_unused(area) == area.size && area_kept(area));
    memset(area.at, 0, area.size);
    CHECK(area_kept(area) && area_zero(area, 0));
    *outside = 0;
    CHECK(!area_kept(area));
}

static void try_size(const void *bytes, size_t size)
{
    for (int side = AT_START; side < SIDES; side++) {
        struct area source = area_of(bytes, size, side), room = area_new(size, side);
        lent_trying(side == AT_START ? "an area after a shut page" : "an area before a shut page", bytes, size);
        CHECK(memcmp(source.at, bytes, size) == 0 && area_kept(source));
        try_touches(source, side, 0);
        try_touches(room, side, 1);
        try_kept(room, side);
        area_free(source);
        area_free(room);
    }
}

int main(void)
{
    static const size_t sizes[] = {0, 1, 8, 4095, 4096, 4097, 65535, 65536, 65537, 1000000};
    static char bytes[1000000];
    lent_start();
    for (size_t i = 0; i < sizeof sizes / sizeof *sizes; i++)
        try_size(bytes, sizes[i]);
    printf("areas: a touch outside what is lent stops a test, or is seen\n");
    return lent_done();
}
