/* A fuzzer's target: the first eight bytes choose rooms, the rest is a source for every call. What a call may not do
 * stops the program: touch what lies beside an area, leave words after what it counted, leave anything where it
 * refuses, number a finding otherwise than its statement, or answer what another call or a second one denies. tests/c/fuzz
 * builds and runs it.
 */
#include "terkinoha.h"

#include <stdio.h>
#include <stdlib.h>
#include <string.h>

#define ROWS 512
#define BESIDE 8
#define GARBAGE 0xA5

enum { TOKENS, NODES, DIAGNOSTICS, STATEMENTS, AREAS };

/* Room for the widest row, with words beside it on both sides. */
static uint64_t areas[AREAS][ROWS * TERKINOHA_WORDS_DIAGNOSTIC + 2 * BESIDE];

static void must(int holds, const char *what)
{
    if (!holds) {
        fprintf(stderr, "fuzz: %s\n", what);
        abort();
    }
}

/* Some bytes, which the words beside them end. */
static void *lend(int area, size_t size)
{
    memset(areas[area], GARBAGE, size + 2 * BESIDE * sizeof(uint64_t));
    return areas[area] + BESIDE;
}

static int all(const void *bytes, size_t size, unsigned char value)
{
    const unsigned char *b = (const unsigned char *)bytes;
    for (size_t i = 0; i < size; i++)
        if (b[i] != value)
            return 0;
    return 1;
}

/* The area has `size` bytes lent, of which the first `used` say something. */
static void left(int area, size_t size, size_t used, uint64_t number)
{
    const unsigned char *start = (const unsigned char *)(areas[area] + BESIDE);
    must(number == TERKINOHA_DONE || used == 0, "a refusal counts");
    must(used <= size, "more is counted than there is room for");
    must(all(start + used, size - used, 0), "words after what was counted");
    must(all(areas[area], BESIDE * sizeof(uint64_t), GARBAGE), "bytes before an area");
    must(all(start + size, BESIDE * sizeof(uint64_t), GARBAGE), "bytes after an area");
}

/* The same of rows. */
#define LEND(area, type, rows) ((type *)lend(area, (rows) * sizeof(type)))
#define LEFT(area, type, rows, count, number) left(area, (rows) * sizeof(type), (count) * sizeof(type), number)

static size_t room(const uint8_t *byte)
{
    return (byte[0] | (size_t)byte[1] << 8) % (ROWS + 1);
}

static terkinoha_parsed parse(const uint8_t *source, size_t size, size_t t, size_t n)
{
    terkinoha_parsed parsed =
        terkinoha_parse(source, size, LEND(TOKENS, terkinoha_token, t), t, LEND(NODES, terkinoha_node, n), n);
    LEFT(TOKENS, terkinoha_token, t, parsed.tokens, parsed.verdict.number);
    LEFT(NODES, terkinoha_node, n, parsed.nodes, parsed.verdict.number);
    return parsed;
}

static const terkinoha_diagnostic *findings(void)
{
    return (const terkinoha_diagnostic *)(areas[DIAGNOSTICS] + BESIDE);
}

/* The number of the statement that holds the token at a place: each ends with its `;`. 0 where there is no such token. */
static uint64_t statement_at(uint64_t tokens, uint64_t line, uint64_t column)
{
    const terkinoha_token *rows = (const terkinoha_token *)(areas[TOKENS] + BESIDE);
    uint64_t number = 1;
    for (uint64_t i = 0; i < tokens; i++) {
        if (rows[i].line == line && rows[i].column == column)
            return number;
        number += rows[i].kind == TERKINOHA_TOKEN_SEMI_COLON;
    }
    return 0;
}

/* Each finding has the number of its statement. It is 1 at least and never falls, and no statement has two errors. */
static void numbered(uint64_t tokens, size_t rows)
{
    const terkinoha_diagnostic *found = findings();
    uint64_t last = 1, wrong = 0; /* the statement before, and the last that has an error */
    for (size_t i = 0; i < rows; i++) {
        must(found[i].statement >= last, "a statement's number falls, or is 0");
        last = found[i].statement;
        must(last == statement_at(tokens, found[i].line, found[i].column), "the number of another statement");
        if (found[i].severity == TERKINOHA_SEVERITY_ERROR) {
            must(wrong < last, "two errors of a statement");
            wrong = last;
        }
    }
}

/* Each statement has all of its parts, and slots are made in their order before they are read. */
static void parted(uint64_t count)
{
    const terkinoha_statement *rows = (const terkinoha_statement *)(areas[STATEMENTS] + BESIDE);
    uint64_t waiting = 0, slots = 0;
    for (uint64_t i = 0; i < count; i++) {
        const terkinoha_statement *s = &rows[i];
        uint64_t part = s->kind > TERKINOHA_STATEMENT_DISCARD;
        must((waiting > 0) == (part == 1), "a part that is of no expression, or one that is missing");
        waiting += (s->form == TERKINOHA_FORM_CALL ? 1 + s->high : s->form == TERKINOHA_FORM_SLASH ? 2 : 0) - part;
        must(s->form != TERKINOHA_FORM_SLOT || s->low < slots, "a slot that is read before it is made");
        if (s->kind == TERKINOHA_STATEMENT_LET)
            must(s->slot == slots++, "a slot out of its order");
    }
    must(waiting == 0, "a statement that lacks a part");
}

static terkinoha_checked check(const uint8_t *source, size_t size, size_t t, size_t n, size_t d, size_t k)
{
    terkinoha_checked checked =
        terkinoha_check(source, size, LEND(TOKENS, terkinoha_token, t), t, LEND(NODES, terkinoha_node, n), n,
                        LEND(DIAGNOSTICS, terkinoha_diagnostic, d), d, LEND(STATEMENTS, terkinoha_statement, k), k);
    size_t found = checked.errors + checked.warnings;
    LEFT(TOKENS, terkinoha_token, t, checked.tokens, checked.verdict.number);
    LEFT(NODES, terkinoha_node, n, checked.nodes, checked.verdict.number);
    LEFT(DIAGNOSTICS, terkinoha_diagnostic, d, (found < d ? found : d), checked.verdict.number);
    LEFT(STATEMENTS, terkinoha_statement, k, checked.statements, checked.verdict.number);
    must(checked.errors == 0 || checked.statements == 0, "statements beside an error");
    must(checked.verdict.number == TERKINOHA_DONE || checked.comparisons == 0, "comparisons of a refusal");
    must(checked.statements <= checked.nodes, "more rows of statements than nodes");
    numbered(checked.tokens, found < d ? found : d);
    parted(checked.statements);
    return checked;
}

/* The canonical text of a source: lexed and canonicalised again it is itself. Each statement has a line of its own there, and what
 * is found has the same kinds and the same statements.
 */
static void text_stays(const uint8_t *source, size_t size, size_t t)
{
    static char text[4 * ROWS], again[4 * ROWS];
    static terkinoha_diagnostic of_source[ROWS];
    terkinoha_canonised one =
        terkinoha_canonicalise(source, size, LEND(TOKENS, terkinoha_token, t), t, text, sizeof text);
    LEFT(TOKENS, terkinoha_token, t, one.tokens, one.verdict.number);
    must(all(text + one.bytes, sizeof text - one.bytes, 0), "bytes after a text");
    if (one.verdict.number != TERKINOHA_DONE)
        return;
    terkinoha_canonised two =
        terkinoha_canonicalise(text, one.bytes, LEND(TOKENS, terkinoha_token, t), t, again, sizeof again);
    must(memcmp(&one, &two, sizeof one) == 0 && memcmp(text, again, sizeof text) == 0, "a text that does not stay");
    terkinoha_checked a = check(source, size, t, t, ROWS, t);
    memcpy(of_source, findings(), sizeof of_source);
    terkinoha_checked b = check((const uint8_t *)text, one.bytes, t, t, ROWS, t);
    must(a.verdict.number == b.verdict.number && a.verdict.kind == b.verdict.kind && a.nodes == b.nodes &&
             a.errors == b.errors && a.warnings == b.warnings && a.statements == b.statements &&
             a.comparisons == b.comparisons,
         "a text that is checked otherwise");
    for (size_t i = 0; i < ROWS; i++) {
        const terkinoha_diagnostic *of_text = &findings()[i];
        must(of_source[i].kind == of_text->kind && of_source[i].statement == of_text->statement,
             "a text whose findings are of other statements");
        must(of_text->statement == of_text->line, "a text with another line for a statement");
    }
}

int LLVMFuzzerTestOneInput(const uint8_t *data, size_t size)
{
    if (size < 8)
        return 0;
    size_t t = room(data), n = room(data + 2), d = room(data + 4), k = room(data + 6);
    const uint8_t *source = data + 8;
    size -= 8;

    terkinoha_scanned scanned = terkinoha_scan(source, size, LEND(TOKENS, terkinoha_lexeme, t), t);
    LEFT(TOKENS, terkinoha_lexeme, t, scanned.lexemes, scanned.verdict.number);
    terkinoha_lexed lexed = terkinoha_lex(source, size, LEND(TOKENS, terkinoha_token, t), t);
    LEFT(TOKENS, terkinoha_token, t, lexed.tokens, lexed.verdict.number);
    terkinoha_parsed parsed = parse(source, size, t, n);
    must(lexed.verdict.number == TERKINOHA_DONE || memcmp(&lexed.verdict, &parsed.verdict, sizeof lexed.verdict) == 0,
         "parse and lex refuse otherwise");
    terkinoha_checked checked = check(source, size, t, n, d, k);
    must(parsed.verdict.number == TERKINOHA_DONE || memcmp(&parsed.verdict, &checked.verdict, sizeof parsed.verdict) == 0,
         "check and parse refuse otherwise");
    terkinoha_checked again = check(source, size, t, n, 0, k);
    must(memcmp(&checked, &again, sizeof checked) == 0, "the room for diagnostics changes an answer");
    text_stays(source, size, ROWS);
    return 0;
}
