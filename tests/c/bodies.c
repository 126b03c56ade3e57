/* Where the bodies of strings lie: walked over, asked by number, and asked for what is not there. */
#include "lent.h"

#include <stdio.h>
#include <stdlib.h>
#include <string.h>

static int is(terkinoha_body body, uint64_t found, uint64_t start, uint64_t end, uint64_t next)
{
    return body.found == found && body.start == start && body.end == end && body.next == next;
}

/* A source that nobody may write to or read past. */
static void with_source(const char *source, size_t size, void (*try_it)(const void *, size_t))
{
    for (int side = AT_START; side < SIDES; side++) {
        struct area area = area_of(source, size, side);
        lent_trying("bodies", area.at, size);
        try_it(area_lend(area), size);
        CHECK(area_kept(area));
        area_free(area);
    }
}

/* Bodies between which stand blanks, comments with quotes in them, and ends of lines. */
static const char joined[] = "x \"ab\"# \"no\"\n// \"\n\"\" \t\"\xc3\xa9//\";";

static void try_joined(const void *source, size_t size)
{
    static const uint64_t spans[][3] = {{3, 5, 6}, {19, 19, 20}, {23, 27, 28}};
    uint64_t at = 2, end = 28;
    for (uint64_t i = 0; i < 3; i++) {
        terkinoha_body body = terkinoha_next_body(source, size, at, end);
        CHECK(is(body, 1, spans[i][0], spans[i][1], spans[i][2]));
        CHECK(is(terkinoha_body_at(source, size, 2, end, i), 1, spans[i][0], spans[i][1], spans[i][2]));
        at = body.next;
    }
    CHECK(is(terkinoha_next_body(source, size, at, end), 0, 0, 0, 0));
    CHECK(is(terkinoha_body_at(source, size, 2, end, 3), 0, 0, 0, 0));
    CHECK(is(terkinoha_body_at(source, size, 2, end, UINT64_MAX), 0, 0, 0, 0));
}

/* Offsets that are none of the source, and parts that hold no literal. */
static void try_nowhere(const void *source, size_t size)
{
    static const uint64_t offsets[] = {0,  1,  2,     3,                 27,             28,
                                       29, 30, 65536, (uint64_t)1 << 32, UINT64_MAX - 1, UINT64_MAX};
    const size_t count = sizeof offsets / sizeof *offsets;
    for (size_t i = 0; i < count; i++)
        for (size_t j = 0; j < count; j++) {
            terkinoha_body body = terkinoha_next_body(source, size, offsets[i], offsets[j]);
            int some = offsets[j] <= size && offsets[i] < offsets[j];
            CHECK(some || is(body, 0, 0, 0, 0));
            CHECK(!body.found || (offsets[i] < body.start && body.start <= body.end && body.end < body.next &&
                                  body.next <= offsets[j]));
            terkinoha_body first = terkinoha_body_at(source, size, offsets[i], offsets[j], 0);
            CHECK(is(first, body.found, body.start, body.end, body.next));
        }
}

static void try_empty(const void *source, size_t size)
{
    CHECK(is(terkinoha_next_body(source, size, 0, 0), 0, 0, 0, 0));
    CHECK(is(terkinoha_next_body(source, size, 0, 1), 0, 0, 0, 0));
    CHECK(is(terkinoha_body_at(source, size, 0, 0, 0), 0, 0, 0, 0));
}

/* 32,768 literals are one token. A walk reads them once: were it to start over for each, this would take minutes. */
static void try_many(const void *source, size_t size)
{
    terkinoha_token tokens[2];
    terkinoha_lexed lexed = terkinoha_lex(source, size, tokens, 2);
    CHECK(lexed.verdict.number == TERKINOHA_DONE && lexed.tokens == 2);
    CHECK(tokens[0].kind == TERKINOHA_TOKEN_STRING_LITERAL);
    uint64_t count = 0, at = tokens[0].start;
    for (int round = 0; round < 20; round++) {
        terkinoha_body body = terkinoha_next_body(source, size, tokens[0].start, tokens[0].end);
        for (count = 0, at = 0; body.found; count++) {
            CHECK(body.start == at + 1 && body.end == at + 1 && body.next == at + 2);
            at = body.next;
            body = terkinoha_next_body(source, size, at, tokens[0].end);
        }
    }
    CHECK(count == tokens[0].low && count == size / 2 && at == tokens[0].end);
    CHECK(is(terkinoha_body_at(source, size, 0, size, count - 1), 1, size - 1, size - 1, size));
    CHECK(is(terkinoha_body_at(source, size, 0, size, count), 0, 0, 0, 0));
}

int main(void)
{
    static char many[TERKINOHA_MOST_BYTES];
    lent_start();
    with_source(joined, sizeof joined - 1, try_joined);
    with_source(joined, sizeof joined - 1, try_nowhere);
    with_source("", 0, try_empty);
    memset(many, '"', sizeof many);
    with_source(many, sizeof many, try_many);
    printf("bodies: found, and not found where there are none\n");
    return lent_done();
}
