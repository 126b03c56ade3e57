/* A host was told "nothing found" by mistake: a call was refused, its number was not looked at, a
 * table was full, and the next call answered with what was left over. Here a call's answer is that
 * of a first call, whatever was called before it and whatever runs beside it.
 */
#define _POSIX_C_SOURCE 200112L /* barriers */
#include "lent.h"

#include <pthread.h>
#include <stdio.h>
#include <stdlib.h>
#include <string.h>

#define ROOM 64
#define TEXT_ROOM 256

/* All that one call leaves. */
struct left {
    terkinoha_verdict verdict;
    uint64_t counts[6];
    terkinoha_lexeme lexemes[ROOM];
    terkinoha_token tokens[ROOM];
    terkinoha_node nodes[ROOM];
    terkinoha_diagnostic found[ROOM];
    terkinoha_statement statements[ROOM];
    char text[TEXT_ROOM];
};

enum { SCAN, LEX, PARSE, CANONICALISE, CHECK_SOURCE, ENTRIES };

static void kept(struct left *left, terkinoha_verdict verdict, uint64_t count, uint64_t second_count)
{
    left->verdict = verdict;
    left->counts[0] = count;
    left->counts[1] = second_count;
}

static void check(const char *source, size_t room, struct left *left)
{
    terkinoha_checked a = terkinoha_check(source, strlen(source), left->tokens, room, left->nodes, room, left->found,
                                          room, left->statements, room);
    kept(left, a.verdict, a.tokens, a.nodes);
    left->counts[2] = a.errors;
    left->counts[3] = a.warnings;
    left->counts[4] = a.statements;
    left->counts[5] = a.comparisons;
}

/* One call. What it lends is full of garbage at first. */
static void call(int entry, const char *source, size_t room, struct left *left)
{
    size_t size = strlen(source);
    memset(left, 0xA5, sizeof *left);
    if (entry == SCAN) {
        terkinoha_scanned a = terkinoha_scan(source, size, left->lexemes, room);
        kept(left, a.verdict, a.lexemes, 0);
    } else if (entry == LEX) {
        terkinoha_lexed a = terkinoha_lex(source, size, left->tokens, room);
        kept(left, a.verdict, a.tokens, 0);
    } else if (entry == PARSE) {
        terkinoha_parsed a = terkinoha_parse(source, size, left->tokens, room, left->nodes, room);
        kept(left, a.verdict, a.tokens, a.nodes);
    } else if (entry == CANONICALISE) {
        terkinoha_canonised a = terkinoha_canonicalise(source, size, left->tokens, room, left->text, TEXT_ROOM);
        kept(left, a.verdict, a.tokens, a.bytes);
    } else {
        check(source, room, left);
    }
}

static int same(const struct left *a, const struct left *b)
{
    return memcmp(a, b, sizeof *a) == 0;
}

/* ---- one after the other ---- */

static const char script[] = "import bench;\nlet a = 1.2.3.4/80;\nf(a, \"x\" \"y\");\n";
static const char nothing[] = "# nothing to find\n";
static const char findings[] = "let a = 1.2.3.4/70000;\na;\nb;\nlet c = b;\nc.d;\nbench::HTTP;\n";

static const char *const sources[] = {script, nothing, findings, "let a = 1.2.3.4;\na/80;\n"};
enum { SOURCES = sizeof sources / sizeof *sources };

/* What may have happened before: sources that each number refuses, ignored, and tables that are full. */
static const char *const before[] = {script,  nothing,          findings,     "@",       "\xff",  "\"",
                                     "f(,);", "1.2.3.4:65536;", "a.b.c.d.e;", "1 2 3 4", "1;2;3;"};

static void spoil(int entry, size_t room)
{
    static struct left ignored;
    for (size_t i = 0; i < sizeof before / sizeof *before; i++)
        call(entry, before[i], room, &ignored);
}

static void try_after(void)
{
    static struct left first[ENTRIES][SOURCES], now;
    lent_trying("first calls", script, sizeof script - 1);
    for (int entry = SCAN; entry < ENTRIES; entry++)
        for (int i = 0; i < SOURCES; i++)
            call(entry, sources[i], ROOM, &first[entry][i]);

    for (int entry = SCAN; entry < ENTRIES; entry++)
        for (int spoiler = SCAN; spoiler < ENTRIES; spoiler++)
            for (size_t room = 0; room < 8; room++)
                for (int i = 0; i < SOURCES; i++) {
                    lent_trying("a call after others", sources[i], strlen(sources[i]));
                    spoil(spoiler, room);
                    call(entry, sources[i], ROOM, &now);
                    CHECK(same(&now, &first[entry][i]));
                }
}

/* The story itself, in the host's own table: no findings are left of the first script, and none are made up. */
static void try_story(void)
{
    static terkinoha_token tokens[ROOM];
    lent_trying("the story", script, sizeof script - 1);
    terkinoha_lexed lexed = terkinoha_lex(script, sizeof script - 1, tokens, ROOM);
    CHECK(lexed.verdict.number == TERKINOHA_DONE && lexed.tokens == 18);
    CHECK(tokens[0].kind == TERKINOHA_TOKEN_IMPORT_KEYWORD);

    terkinoha_lexed ignored = terkinoha_lex("let @", 5, tokens, ROOM); /* refused; its number is not looked at */
    (void)ignored;
    for (int i = 0; i < ROOM; i++)
        CHECK(tokens[i].kind == 0); /* a host that reads on finds no token */

    ignored = terkinoha_lex(script, sizeof script - 1, tokens, 3); /* the table is full; not looked at either */
    (void)ignored;

    lexed = terkinoha_lex("a;", 2, tokens, ROOM);
    CHECK(lexed.verdict.number == TERKINOHA_DONE && lexed.tokens == 3);
    CHECK(tokens[0].kind == TERKINOHA_TOKEN_IDENTIFIER && tokens[1].kind == TERKINOHA_TOKEN_SEMI_COLON);
    CHECK(tokens[2].kind == TERKINOHA_TOKEN_EOF);
    CHECK(tokens[3].kind == 0 && tokens[17].kind == 0);
}

/* The same with what checking finds: a call that fails must never read as "nothing found". */
static void try_findings_story(void)
{
    static struct left left;
    static terkinoha_diagnostic two[2];
    lent_trying("the story of a check", findings, sizeof findings - 1);
    call(CHECK_SOURCE, findings, ROOM, &left);
    CHECK(left.verdict.number == TERKINOHA_DONE && left.counts[2] == 3 && left.counts[3] == 2);

    check("a; import bench; bench::ping(b: 1);", ROOM, &left); /* refused; its number is not looked at */
    for (int i = 0; i < ROOM; i++)
        CHECK(left.found[i].kind == 0 && left.found[i].statement == 0 && left.statements[i].kind == 0);
    CHECK(left.counts[2] == 0 && left.counts[3] == 0); /* of an answer that says so */

    /* the table is full: rows are lost, and no counts */
    terkinoha_checked full = terkinoha_check(findings, sizeof findings - 1, left.tokens, ROOM, left.nodes, ROOM, two, 2,
                                             left.statements, ROOM);
    CHECK(full.verdict.number == TERKINOHA_DONE && full.errors == 3 && full.warnings == 2);
    CHECK(two[0].kind == TERKINOHA_FINDING_TRUNCATED && two[1].kind == TERKINOHA_FINDING_DISCARDED_VALUE);
    CHECK(two[0].statement == 1 && two[1].statement == 2);

    /* then a script with one finding, and one with none, each in the tables that the last left; statements are numbered anew */
    check("let a = b;", ROOM, &left);
    CHECK(left.verdict.number == TERKINOHA_DONE && left.counts[2] == 1 && left.counts[3] == 0);
    CHECK(left.found[0].kind == TERKINOHA_FINDING_UNKNOWN_NAME && left.found[1].kind == 0);
    CHECK(left.found[0].statement == 1 && left.found[1].statement == 0);
    check("let b = 1;", ROOM, &left);
    CHECK(left.verdict.number == TERKINOHA_DONE && left.counts[2] == 0 && left.counts[3] == 0);
    CHECK(left.found[0].kind == 0);
}

/* ---- at the same time ---- */

static int rounds = 30000;
static pthread_barrier_t both; /* so that neither has ended before the other begins */

struct job {
    const char *source;
    struct left alone[ENTRIES]; /* what a call answers with no other beside it */
    struct left now;
    int wrong;
};

static void *work(void *given)
{
    struct job *job = (struct job *)given;
    pthread_barrier_wait(&both);
    for (int round = 0; round < rounds; round++)
        for (int entry = SCAN; entry < ENTRIES; entry++) {
            call(entry, job->source, ROOM, &job->now);
            job->wrong += !same(&job->now, &job->alone[entry]);
        }
    return NULL;
}

static void try_threads(const char *one, const char *other)
{
    static struct job jobs[2];
    pthread_t threads[2];
    jobs[0].source = one;
    jobs[1].source = other;
    for (int i = 0; i < 2; i++)
        for (int entry = SCAN; entry < ENTRIES; entry++)
            call(entry, jobs[i].source, ROOM, &jobs[i].alone[entry]);
    lent_trying("two threads", one, strlen(one));
    CHECK(pthread_barrier_init(&both, NULL, 2) == 0);
    for (int i = 0; i < 2; i++)
        CHECK(pthread_create(&threads[i], NULL, work, &jobs[i]) == 0);
    for (int i = 0; i < 2; i++)
        CHECK(pthread_join(threads[i], NULL) == 0);
    pthread_barrier_destroy(&both);
    CHECK(jobs[0].wrong == 0 && jobs[1].wrong == 0);
}

/* ---- on a stack of its own ---- */

static terkinoha_lexeme lexemes[4096];
static char text[65536];
static terkinoha_token tokens[4096];
static terkinoha_node nodes[4096];
static terkinoha_diagnostic found[4096];
static terkinoha_statement statements[4096];

static void *parse_all(void *given)
{
    const char *source = (const char *)given;
    terkinoha_parsed parsed = terkinoha_parse(source, strlen(source), tokens, 4096, nodes, 4096);
    return parsed.verdict.number == TERKINOHA_DONE ? NULL : given;
}

static void *scan_all(void *given)
{
    const char *source = (const char *)given;
    terkinoha_scanned scanned = terkinoha_scan(source, strlen(source), lexemes, 4096);
    return scanned.verdict.number == TERKINOHA_DONE ? NULL : given;
}

static void *lex_all(void *given)
{
    const char *source = (const char *)given;
    terkinoha_lexed lexed = terkinoha_lex(source, strlen(source), tokens, 4096);
    return lexed.verdict.number == TERKINOHA_DONE ? NULL : given;
}

static void *canonicalise_all(void *given)
{
    const char *source = (const char *)given;
    terkinoha_canonised canonised =
        terkinoha_canonicalise(source, strlen(source), tokens, 4096, text, sizeof text);
    return canonised.verdict.number == TERKINOHA_DONE ? NULL : given;
}

/* The source is one string token. */
static void *bodies_all(void *given)
{
    const char *source = (const char *)given;
    size_t size = strlen(source);
    terkinoha_body first = terkinoha_next_body(source, size, 0, size);
    terkinoha_body last = terkinoha_body_at(source, size, 0, size, 99);
    return first.found && last.found ? NULL : given;
}

static void *check_all(void *given)
{
    const char *source = (const char *)given;
    terkinoha_checked checked =
        terkinoha_check(source, strlen(source), tokens, 4096, nodes, 4096, found, 4096, statements, 4096);
    return checked.verdict.number == TERKINOHA_DONE ? NULL : given;
}

/* In tables that the longest source does not fill. */
static void *check_longest(void *given)
{
    enum { MOST = TERKINOHA_MOST_BYTES + 1 };
    static terkinoha_token all_tokens[MOST];
    static terkinoha_node all_nodes[MOST];
    static terkinoha_statement all_statements[MOST];
    const char *source = (const char *)given;
    terkinoha_checked checked = terkinoha_check(source, strlen(source), all_tokens, MOST, all_nodes, MOST, found, 4096,
                                                all_statements, MOST);
    return checked.verdict.number == TERKINOHA_DONE ? NULL : given;
}

/* How much a call takes of a stack that was garbage, with what the thread itself takes: how small a stack may be made
 * differs between machines. The header says how much a call needs.
 */
static size_t stack_of(void *(*run)(void *), char *source)
{
    struct area stack = area_new((size_t)1 << 20, AT_START);
    pthread_attr_t own;
    pthread_t thread;
    void *wrong = NULL;
    lent_trying("a stack of one's own", source, strlen(source));
    CHECK(pthread_attr_init(&own) == 0 && pthread_attr_setstack(&own, stack.at, stack.size) == 0);
    CHECK(pthread_create(&thread, &own, run, source) == 0);
    CHECK(pthread_join(thread, &wrong) == 0 && wrong == NULL);
    size_t taken = stack.size - area_unused(stack);
    CHECK(area_kept(stack));
    pthread_attr_destroy(&own);
    area_free(stack);
    return taken;
}

/* As many lists as may be open at once, each in an expression with other steps. */
static void try_stack_of_lists(void)
{
    static char source[2048];
    for (int i = 0; i < TERKINOHA_MOST_LISTS; i++)
        strcat(source, "a.b/c::d(e, f: ");
    strcat(source, "1");
    for (int i = 0; i < TERKINOHA_MOST_LISTS; i++)
        strcat(source, ",)");
    strcat(source, ";");
    CHECK(stack_of(parse_all, source) < 32 * 1024);
}

/* What a line, tokens and their text can have: numbers of every kind, comments, strings in many literals. */
static void try_stack_of_tokens(void)
{
    static char source[4096];
    static char bodies[512];
    for (int i = 0; i < 100; i++)
        strcat(bodies, "\"b\" ");
    for (int i = 0; i < 16; i++)
        strcat(source, "let a = 0x7fffffffffffffffffffffffffffffff/1.2.3.4:65535; # c\n");
    strcat(source, bodies);
    strcat(source, "170141183460469231731687303715884105727 255.255.255.255 true import ::");
    CHECK(stack_of(scan_all, source) < 32 * 1024);
    CHECK(stack_of(lex_all, source) < 32 * 1024);
    CHECK(stack_of(canonicalise_all, source) < 32 * 1024);
    CHECK(stack_of(bodies_all, bodies) < 32 * 1024);
}

/* Calls in calls, as deep as lists may be, each right of a `/`, with many steps after it. */
static void try_stack_of_calls(void)
{
    static char source[32768];
    char *at = source + sprintf(source, "import bench;\n");
    for (int i = 0; i < TERKINOHA_MOST_LISTS; i++)
        at += sprintf(at, "1.2.3.4/bench::pick(1, ");
    at += sprintf(at, "1");
    for (int i = 0; i < TERKINOHA_MOST_LISTS; i++) {
        at += sprintf(at, ")");
        for (int j = 0; j < 40; j++)
            at += sprintf(at, ".m");
    }
    strcpy(at, ";\n");
    CHECK(stack_of(check_all, source) < 256 * 1024);
}

/* Arguments are judged one after the other: however many there are, they take no more than two. */
static void try_stack_of_arguments(void)
{
    static char many[TERKINOHA_MOST_BYTES + 1];
    char two[] = "import bench;\nbench::ping(1,1);\n";
    char *at = many + sprintf(many, "import bench;\nbench::ping(1");
    for (int i = 1; i < 30000; i++)
        at += sprintf(at, ",1");
    strcpy(at, ");\n");
    CHECK(stack_of(check_longest, many) <= stack_of(check_longest, two));
}

/* As many names as may be bound and imported, and as many steps as an expression may have, each inside the next. */
static void try_stack_of_steps(void)
{
    static char source[32768];
    char *at = source;
    for (int i = 0; i < TERKINOHA_MOST_IMPORTS; i++)
        at += sprintf(at, "import i%d;\n", i);
    for (int i = 0; i < TERKINOHA_MOST_NAMES; i++)
        at += sprintf(at, "let a%d = 1.2.3.4;\n", i);
    at += sprintf(at, "a%d", TERKINOHA_MOST_NAMES - 1);
    for (int i = 0; i < TERKINOHA_MOST_STEPS; i++)
        at += sprintf(at, "/70000");
    strcpy(at, ";\nnope::x;\n1;\nimport i0;\n");
    CHECK(stack_of(check_all, source) < 256 * 1024);
}

int main(int argc, char **argv)
{
    if (argc > 1)
        rounds = atoi(argv[1]);
    lent_start();
    try_after();
    try_story();
    try_findings_story();
    try_threads(script, script);
    try_threads(script, "f(,);");
    try_threads(nothing, "let b = g(0x1F, c: \"z\").m;");
    try_threads(findings, "let a = 1.2.3.4;\na/80;\n");
    try_stack_of_tokens();
    try_stack_of_lists();
    try_stack_of_steps();
    try_stack_of_calls();
    try_stack_of_arguments();
    printf("story: each answer is that of a first call, alone and beside another thread\n");
    return lent_done();
}
