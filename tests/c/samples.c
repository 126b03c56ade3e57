/* Answers and rows that were written down by hand, from document 01 and docs/TABLES.md. */
#include "lent.h"

#include <stdio.h>
#include <string.h>

#define MOST 4096

static terkinoha_lexeme lexemes[MOST];
static terkinoha_token tokens[MOST];
static terkinoha_node nodes[MOST];
static terkinoha_diagnostic found[MOST];
static terkinoha_statement statements[MOST];
static char text[MOST];

static int same(terkinoha_verdict v, uint64_t number, uint64_t kind, uint64_t line, uint64_t column)
{
    return v.number == number && v.kind == kind && v.line == line && v.column == column;
}

/* ---- lex ---- */

struct lexing {
    const char *source;
    size_t size;
    uint64_t number, kind, line, column, character, tokens;
};

#define S(literal) literal, sizeof(literal) - 1

static const struct lexing lexings[] = {
    {S(""), 0, 0, 0, 0, 0, 1},
    {S("1.2.3.4abc"), 3, TERKINOHA_ERROR_IPV4_LITERAL, 1, 1, 0, 0},
    {S("1.2"), 0, 0, 0, 0, 0, 4},
    {S("1.2.3.4.5"), 0, 0, 0, 0, 0, 4},
    {S("255.0.0.0"), 0, 0, 0, 0, 0, 2},
    {S("256.0.0.0"), 3, TERKINOHA_ERROR_IPV4_LITERAL, 1, 1, 0, 0},
    {S("01.2.3.4"), 3, TERKINOHA_ERROR_IPV4_LITERAL, 1, 1, 0, 0},
    {S("0"), 0, 0, 0, 0, 0, 2},
    {S("0x0"), 0, 0, 0, 0, 0, 2},
    {S("a 00"), 3, TERKINOHA_ERROR_INT_LEADING_ZERO, 1, 3, 0, 0},
    {S("0x"), 3, TERKINOHA_ERROR_INT_INVALID_SUFFIX, 1, 1, 0, 0},
    {S("0X1"), 3, TERKINOHA_ERROR_INT_INVALID_SUFFIX, 1, 1, 0, 0},
    {S("1_0"), 3, TERKINOHA_ERROR_INT_INVALID_SUFFIX, 1, 1, 0, 0},
    {S("170141183460469231731687303715884105727"), 0, 0, 0, 0, 0, 2},
    {S("170141183460469231731687303715884105728"), 3, TERKINOHA_ERROR_INT_OUT_OF_RANGE, 1, 1, 0, 0},
    {S("170141183460469231731687303715884105727z"), 3, TERKINOHA_ERROR_INT_INVALID_SUFFIX, 1, 1, 0, 0},
    {S("a\n\n  \"b"), 3, TERKINOHA_ERROR_UNTERMINATED_STRING, 3, 3, 0, 0},
    {S("\"\xc3\xa9\" @"), 3, TERKINOHA_ERROR_UNEXPECTED_CHAR, 1, 6, '@', 0}, /* a column counts bytes */
    {S("\xe2\x82\xac"), 3, TERKINOHA_ERROR_UNEXPECTED_CHAR, 1, 1, 0x20AC, 0},
    {S("a\0b"), 3, TERKINOHA_ERROR_UNEXPECTED_CHAR, 1, 2, 0, 0},
    {S("\xff"), 2, 0, 1, 1, 0, 0},
    {S("@\n b\xc3"), 2, 0, 2, 3, 0, 0}, /* before any lexical error */
    {S("\xed\xa0\x80"), 2, 0, 1, 1, 0, 0},
    {S("1.2.3.4//80"), 0, 0, 0, 0, 0, 2}, /* a comment, and no port */
    {S("a # b\n// c\nd"), 0, 0, 0, 0, 0, 3},
    {S(": :"), 0, 0, 0, 0, 0, 3},
    {S("::"), 0, 0, 0, 0, 0, 2},
    {S("\"a\" # b\n\n\"c\""), 0, 0, 0, 0, 0, 2},
    {S("\xc2\xa0x\xe3\x80\x80"), 0, 0, 0, 0, 0, 2},
};

static void try_lexings(void)
{
    for (size_t i = 0; i < sizeof lexings / sizeof *lexings; i++) {
        const struct lexing *l = &lexings[i];
        lent_trying("lex", l->source, l->size);
        terkinoha_lexed a = terkinoha_lex(l->source, l->size, tokens, MOST);
        CHECK(same(a.verdict, l->number, l->kind, l->line, l->column));
        CHECK(a.verdict.character == l->character && a.tokens == l->tokens);
    }
}

static void try_token_rows(void)
{
    static const char source[] = "let a = 1.2.3.4/80; # web\n \"b\"\n\"c\" true "
                                 "170141183460469231731687303715884105727 0xfF";
    static const uint64_t rows[][TERKINOHA_WORDS_TOKEN] = {
        {TERKINOHA_TOKEN_LET_KEYWORD, 1, 1, 0, 3, 0, 0},
        {TERKINOHA_TOKEN_IDENTIFIER, 1, 5, 4, 5, 0, 0},
        {TERKINOHA_TOKEN_EQUALS, 1, 7, 6, 7, 0, 0},
        {TERKINOHA_TOKEN_IPV4_LITERAL, 1, 9, 8, 15, 0x01020304, 0},
        {TERKINOHA_TOKEN_SLASH, 1, 16, 15, 16, 0, 0},
        {TERKINOHA_TOKEN_DEC_LITERAL, 1, 17, 16, 18, 80, 0},
        {TERKINOHA_TOKEN_SEMI_COLON, 1, 19, 18, 19, 0, 0},
        {TERKINOHA_TOKEN_STRING_LITERAL, 2, 2, 27, 34, 2, 0},
        {TERKINOHA_TOKEN_BOOLEAN_LITERAL, 3, 5, 35, 39, 1, 0},
        {TERKINOHA_TOKEN_DEC_LITERAL, 3, 10, 40, 79, UINT64_MAX, UINT64_MAX >> 1},
        {TERKINOHA_TOKEN_HEX_LITERAL, 3, 50, 80, 84, 255, 0},
        {TERKINOHA_TOKEN_EOF, 4, 1, 84, 84, 0, 0},
    };
    lent_trying("lex, row by row", source, sizeof source - 1);
    terkinoha_lexed a = terkinoha_lex(source, sizeof source - 1, tokens, MOST);
    CHECK(same(a.verdict, 0, 0, 0, 0) && a.tokens == sizeof rows / sizeof *rows);
    CHECK(memcmp(tokens, rows, sizeof rows) == 0);
}

/* A string covers what stands between its literals, in its first line; `Eof` and blanks cover nothing. */
static void try_token_places(void)
{
    static const char source[] = "let a = \"\xc3\xa9\" # b\n \"c\"\n\n\t\"d\"; ef(0x1F)";
    enum { LET, A, EQUALS, STRING, END, EF, OPEN, HEX, CLOSE, EOF_TOKEN, COUNT };
    static const uint64_t places[][3] = {
        {0, 1, COUNT}, {1, 0, COUNT}, {1, 1, LET}, {1, 3, LET}, {1, 4, COUNT}, {1, 5, A}, {1, 6, COUNT},
        {1, 7, EQUALS}, {1, 8, COUNT}, {1, 9, STRING}, {1, 12, STRING}, {1, 13, STRING}, {1, 16, STRING},
        {2, 1, COUNT}, {2, 2, COUNT}, {2, 9, COUNT}, {3, 1, COUNT}, {4, 2, COUNT}, {4, 4, COUNT}, {4, 5, END},
        {4, 6, COUNT}, {4, 7, EF}, {4, 8, EF}, {4, 9, OPEN}, {4, 10, HEX}, {4, 13, HEX}, {4, 14, CLOSE},
        {4, 15, COUNT}, {5, 1, COUNT}, {6, 1, COUNT}, {UINT64_MAX, UINT64_MAX, COUNT},
    };
    lent_trying("the token at a place", source, sizeof source - 1);
    terkinoha_lexed a = terkinoha_lex(source, sizeof source - 1, tokens, MOST);
    CHECK(same(a.verdict, 0, 0, 0, 0) && a.tokens == COUNT);
    for (size_t i = 0; i < sizeof places / sizeof *places; i++)
        CHECK(terkinoha_token_at(tokens, a.tokens, places[i][0], places[i][1]) == places[i][2]);
    CHECK(terkinoha_token_at(NULL, 0, 1, 1) == 0);
}

/* ---- scan ---- */

static void try_lexeme_rows(void)
{
    static const char line[] = "a \"b\"@\n;# c";
    static const uint64_t rows[][TERKINOHA_WORDS_LEXEME] = {
        {0, 1, TERKINOHA_LEXEME_TOKEN, TERKINOHA_TOKEN_IDENTIFIER, 0, 0},
        {1, 2, TERKINOHA_LEXEME_TRIVIA, 0, 0, 0},
        {2, 5, TERKINOHA_LEXEME_STRING, 0, 0, 0},
        {5, 6, TERKINOHA_LEXEME_ERROR, TERKINOHA_ERROR_UNEXPECTED_CHAR, '@', 0},
        {6, 7, TERKINOHA_LEXEME_ERROR, TERKINOHA_ERROR_UNEXPECTED_CHAR, '\n', 0},
        {7, 8, TERKINOHA_LEXEME_TOKEN, TERKINOHA_TOKEN_SEMI_COLON, 0, 0},
        {8, 11, TERKINOHA_LEXEME_TRIVIA, 0, 0, 0},
    };
    lent_trying("scan, row by row", line, sizeof line - 1);
    terkinoha_scanned a = terkinoha_scan(line, sizeof line - 1, lexemes, MOST);
    CHECK(same(a.verdict, 0, 0, 0, 0) && a.lexemes == sizeof rows / sizeof *rows);
    CHECK(memcmp(lexemes, rows, sizeof rows) == 0);

    /* its line is line 1, whatever it holds */
    lent_trying("scan", "a\nb\xff", 4);
    a = terkinoha_scan("a\nb\xff", 4, lexemes, MOST);
    CHECK(same(a.verdict, TERKINOHA_REFUSED_NOT_UTF8, 0, 1, 4) && a.lexemes == 0);
}

/* ---- parse ---- */

struct parsing {
    const char *source;
    uint64_t number, kind, line, column, tokens, nodes;
};

static const struct parsing parsings[] = {
    {"", 0, 0, 0, 0, 1, 0},
    {"f(a,);", 0, 0, 0, 0, 7, 5},
    {"f(,);", 5, TERKINOHA_SYNTAX_UNEXPECTED_TOKEN, 1, 3, 0, 0},
    {"f(a,,b);", 5, TERKINOHA_SYNTAX_UNEXPECTED_TOKEN, 1, 5, 0, 0},
    {"1.2.3.4:65535;", 0, 0, 0, 0, 5, 2},
    {"1.2.3.4:65536;", 5, TERKINOHA_SYNTAX_INT_OUT_OF_RANGE, 1, 9, 0, 0},
    {"1.2.3.4:0x50;", 5, TERKINOHA_SYNTAX_UNEXPECTED_TOKEN, 1, 9, 0, 0},
    {"1.2.3.4//80", 5, TERKINOHA_SYNTAX_UNEXPECTED_TOKEN, 2, 1, 0, 0}, /* no `;`: the end of the script */
    {"let x = 1;\nlet = 2;", 5, TERKINOHA_SYNTAX_UNEXPECTED_TOKEN, 2, 5, 0, 0},
    {"import a::b;", 5, TERKINOHA_SYNTAX_UNEXPECTED_TOKEN, 1, 9, 0, 0},
    {"a::b::c;", 0, 0, 0, 0, 7, 4},
    {"(a);", 5, TERKINOHA_SYNTAX_UNEXPECTED_TOKEN, 1, 1, 0, 0},
    {"let a = @;", 3, TERKINOHA_ERROR_UNEXPECTED_CHAR, 1, 9, 0, 0},
};

static void try_parsings(void)
{
    for (size_t i = 0; i < sizeof parsings / sizeof *parsings; i++) {
        const struct parsing *p = &parsings[i];
        lent_trying("parse", p->source, strlen(p->source));
        terkinoha_parsed a = terkinoha_parse(p->source, strlen(p->source), tokens, MOST, nodes, MOST);
        CHECK(same(a.verdict, p->number, p->kind, p->line, p->column) && a.tokens == p->tokens && a.nodes == p->nodes);
    }
}

static void try_node_rows(void)
{
    /* tokens:  0 f  1 (  2 a  3 ,  4 b  5 :  6 2  7 )  8 .  9 m  10 /  11 c  12 ::  13 d  14 ;  15 let  16 x .. */
    static const char source[] = "f(a, b: 2).m / c::d; let x = 1.2.3.4:80; import y;";
    static const uint64_t rows[][TERKINOHA_WORDS_NODE] = {
        {TERKINOHA_NODE_LOCAL, 0, 0, 0, 0},
        {TERKINOHA_NODE_LOCAL, 2, 0, 0, 0},
        {TERKINOHA_NODE_ARGUMENT, 2, 1, 5, 0},
        {TERKINOHA_NODE_LITERAL, 6, 0, 0, 0},
        {TERKINOHA_NODE_NAMED_ARGUMENT, 4, 3, 0, 0},
        {TERKINOHA_NODE_CALL, 0, 0, 3, 1},
        {TERKINOHA_NODE_MEMBER, 0, 5, 9, 0},
        {TERKINOHA_NODE_NAME, 13, 0, 0, 0},
        {TERKINOHA_NODE_PATH, 11, 1, 0, 0},
        {TERKINOHA_NODE_SLASH, 0, 6, 8, 0},
        {TERKINOHA_NODE_EXPRESSION, 0, 9, 0, 0},
        {TERKINOHA_NODE_SOCK4, 18, 0, 0, 0},
        {TERKINOHA_NODE_LET, 16, 11, 0, 0},
        {TERKINOHA_NODE_IMPORT, 23, 0, 0, 0},
    };
    lent_trying("parse, row by row", source, sizeof source - 1);
    terkinoha_parsed a = terkinoha_parse(source, sizeof source - 1, tokens, MOST, nodes, MOST);
    CHECK(same(a.verdict, 0, 0, 0, 0) && a.nodes == sizeof rows / sizeof *rows);
    CHECK(memcmp(nodes, rows, sizeof rows) == 0);
}

/* As many pieces in a row: lists that are opened, or steps; the first that is too many is refused at its token. */
static void try_depth(const char *start, const char *piece, uint64_t most)
{
    char source[MOST];
    for (uint64_t count = most - 1; count <= most + 1; count++) {
        strcpy(source, start);
        for (uint64_t i = 0; i < count; i++)
            strcat(source, piece);
        lent_trying("parse, deep", source, strlen(source));
        terkinoha_parsed a = terkinoha_parse(source, strlen(source), tokens, MOST, nodes, MOST);
        if (count > most)
            CHECK(same(a.verdict, TERKINOHA_REFUSED_TOO_DEEP, 0, 1, strlen(start) + strlen(piece) * most + 1));
        else
            CHECK(same(a.verdict, TERKINOHA_REFUSED_SYNTAX, TERKINOHA_SYNTAX_UNEXPECTED_TOKEN, 2, 1)); /* no `;` */
    }
}

/* ---- canonicalise ---- */

static const char *const canonisings[][2] = {
    {"", ""},
    {" # nothing\n", ""},
    {"let  x=1 ;#c\ny;", "let x = 1 ;\ny ;\n"},
    {"0x00FF;", "0xff ;\n"},
    {"0x0", "0x0"},
    {"a::b: :c", "a :: b : : c"},
    {"\"a\"\n\"b\" // c\n\"\"", "\"a\" \"b\" \"\""},
    {"f(1.2.3.4,true)", "f ( 1.2.3.4 , true )"},
};

static void try_canonisings(void)
{
    for (size_t i = 0; i < sizeof canonisings / sizeof *canonisings; i++) {
        const char *source = canonisings[i][0], *want = canonisings[i][1];
        lent_trying("canonicalise", source, strlen(source));
        terkinoha_canonised a = terkinoha_canonicalise(source, strlen(source), tokens, MOST, text, MOST);
        CHECK(same(a.verdict, 0, 0, 0, 0) && a.bytes == strlen(want) && strcmp(text, want) == 0);
        if (*want != '\0') {
            a = terkinoha_canonicalise(source, strlen(source), tokens, MOST, text, strlen(want) - 1);
            CHECK(same(a.verdict, TERKINOHA_REFUSED_TEXT_ROOM, 0, 0, 0) && a.tokens == 0 && a.bytes == 0);
        }
    }
}

/* ---- check ---- */

struct rooms {
    size_t tokens, nodes, found, statements;
};

#define ENOUGH {MOST, MOST, MOST, MOST}

static const struct rooms enough = ENOUGH;

static terkinoha_checked check(const char *source, struct rooms rooms)
{
    lent_trying("check", source, strlen(source));
    return terkinoha_check(source, strlen(source), tokens, rooms.tokens, nodes, rooms.nodes, found, rooms.found,
                           statements, rooms.statements);
}

static int counts(terkinoha_checked a, uint64_t errors, uint64_t warnings, uint64_t held)
{
    return a.errors == errors && a.warnings == warnings && a.statements == held;
}

static int done(terkinoha_checked a, uint64_t errors, uint64_t warnings, uint64_t held)
{
    return same(a.verdict, TERKINOHA_DONE, 0, 0, 0) && counts(a, errors, warnings, held);
}

static int refused(terkinoha_checked a, uint64_t number, uint64_t line, uint64_t column)
{
    return same(a.verdict, number, 0, line, column) && a.tokens == 0 && a.nodes == 0 && counts(a, 0, 0, 0) &&
           a.comparisons == 0 &&
           tokens[0].kind == 0 && nodes[0].kind == 0 && found[0].kind == 0 && statements[0].kind == 0;
}

struct checking {
    const char *source;
    uint64_t errors, warnings;
    uint64_t rows[2][5]; /* of each finding its line, column, kind, type and statement */
    uint64_t value[3];   /* of the only statement, which is a constant, its type and value */
};

#define NONE {0, 0, 0, 0, 0}
#define DISCARDED TERKINOHA_FINDING_DISCARDED_VALUE
#define QUAD 0x01020304 /* 1.2.3.4 */

static const struct checking checkings[] = {
    {"", 0, 0, {NONE, NONE}, {0, 0, 0}},
    {"255;", 0, 1, {{1, 1, DISCARDED, TERKINOHA_TYPE_U8, 1}, NONE}, {TERKINOHA_TYPE_U8, 255, 0}},
    {"256;", 0, 1, {{1, 1, DISCARDED, TERKINOHA_TYPE_U16, 1}, NONE}, {TERKINOHA_TYPE_U16, 256, 0}},
    {"65535;", 0, 1, {{1, 1, DISCARDED, TERKINOHA_TYPE_U16, 1}, NONE}, {TERKINOHA_TYPE_U16, 65535, 0}},
    {"65536;", 0, 1, {{1, 1, DISCARDED, TERKINOHA_TYPE_U32, 1}, NONE}, {TERKINOHA_TYPE_U32, 65536, 0}},
    {"18446744073709551615;",
     0,
     1,
     {{1, 1, DISCARDED, TERKINOHA_TYPE_U64, 1}, NONE},
     {TERKINOHA_TYPE_U64, UINT64_MAX, 0}},
    {"18446744073709551616;", 1, 0, {{1, 1, TERKINOHA_FINDING_INTEGRAL_TOO_LARGE, 0, 1}, NONE}, {0, 0, 0}},
    {"let x = 18446744073709551616;", 0, 0, {NONE, NONE}, {0, 0, 0}}, /* a let keeps it */
    {"let x = 18446744073709551616;\nx;", 1, 0, {{2, 1, TERKINOHA_FINDING_INTEGRAL_TOO_LARGE, 0, 2}, NONE}, {0, 0, 0}},
    {"1.2.3.4/18446744073709551696;",
     0,
     2,
     {{1, 9, TERKINOHA_FINDING_TRUNCATED, TERKINOHA_TYPE_U16, 1}, {1, 1, DISCARDED, TERKINOHA_TYPE_SOCK4, 1}},
     {TERKINOHA_TYPE_SOCK4, QUAD, 80}},
    {"import bench;\n1.2.3.4/bench::BIG;",
     0,
     2,
     {{2, 9, TERKINOHA_FINDING_TRUNCATED, TERKINOHA_TYPE_U16, 2}, {2, 1, DISCARDED, TERKINOHA_TYPE_SOCK4, 2}},
     {TERKINOHA_TYPE_SOCK4, QUAD, 4464}},
    {"1.2.3.4/65535;", 0, 1, {{1, 1, DISCARDED, TERKINOHA_TYPE_SOCK4, 1}, NONE}, {TERKINOHA_TYPE_SOCK4, QUAD, 65535}},
    {"1.2.3.4/true;", 0, 1, {{1, 1, DISCARDED, TERKINOHA_TYPE_SOCK4, 1}, NONE}, {TERKINOHA_TYPE_SOCK4, QUAD, 1}},
    {"1.2.3.4//80\n;", 0, 1, {{1, 1, DISCARDED, TERKINOHA_TYPE_IP4, 1}, NONE}, {TERKINOHA_TYPE_IP4, QUAD, 0}},
    {"let x = x;", 1, 0, {{1, 9, TERKINOHA_FINDING_UNKNOWN_NAME, 0, 1}, NONE}, {0, 0, 0}},
    {"let x = x;\nx;\nlet y = x/1;\ny;", 1, 0, {{1, 9, TERKINOHA_FINDING_UNKNOWN_NAME, 0, 1}, NONE}, {0, 0, 0}},
    {"let a = 1;\nlet a = b;", 1, 0, {{2, 5, TERKINOHA_FINDING_ALREADY_BOUND, 0, 2}, NONE}, {0, 0, 0}},
    {"b/c;", 1, 0, {{1, 1, TERKINOHA_FINDING_UNKNOWN_NAME, 0, 1}, NONE}, {0, 0, 0}}, /* the left is judged first */
    {"1.2.3.4/65536/c;",
     1,
     1,
     {{1, 9, TERKINOHA_FINDING_TRUNCATED, TERKINOHA_TYPE_U16, 1},
      {1, 1, TERKINOHA_FINDING_OPERAND_TYPE, TERKINOHA_TYPE_SOCK4, 1}},
     {0, 0, 0}},
    {"\"\xc3\xa9\"; x;", /* a column counts bytes */
     1,
     1,
     {{1, 1, DISCARDED, TERKINOHA_TYPE_BYTES, 1}, {1, 7, TERKINOHA_FINDING_UNKNOWN_NAME, 0, 2}},
     {0, 0, 0}},
    {"import nope;\nimport nope;\nnope::x;", /* a failed import is silent later */
     1,
     1,
     {{1, 8, TERKINOHA_FINDING_UNKNOWN_MODULE, 0, 1}, {2, 8, TERKINOHA_FINDING_MULTIPLE_IMPORTS, 0, 2}},
     {0, 0, 0}},
};

static void try_checkings(void)
{
    for (size_t i = 0; i < sizeof checkings / sizeof *checkings; i++) {
        const struct checking *c = &checkings[i];
        uint64_t held = c->value[0] != 0;
        CHECK(done(check(c->source, enough), c->errors, c->warnings, held));
        for (size_t j = 0; j < 2; j++) {
            const uint64_t *row = c->rows[j];
            CHECK(found[j].line == row[0] && found[j].column == row[1]);
            CHECK(found[j].kind == row[2] && found[j].type == row[3] && found[j].statement == row[4]);
        }
        CHECK(statements[0].kind == held * TERKINOHA_STATEMENT_DISCARD && statements[0].type == c->value[0]);
        CHECK(statements[0].form == held * TERKINOHA_FORM_CONSTANT);
        CHECK(statements[0].low == c->value[1] && statements[0].high == c->value[2]);
    }
}

/* The check program's sample. */
static void try_finding_rows(void)
{
    static const char source[] = "let p = 65536;\nlet a = 1.2.3.4/p;\na;\nb;\nlet c = b;\nc;\n";
    static const uint64_t rows[][TERKINOHA_WORDS_DIAGNOSTIC] = {
        {2, 17, 2, TERKINOHA_FINDING_TRUNCATED, 0, 0, 0, TERKINOHA_TYPE_U16, 65536, 0, 0, 2},
        {3, 1, 2, TERKINOHA_FINDING_DISCARDED_VALUE, 0, 0, 0, TERKINOHA_TYPE_SOCK4, 0, 0, 0, 3},
        {4, 1, 1, TERKINOHA_FINDING_UNKNOWN_NAME, 1, 37, 38, 0, 0, 0, 0, 4},
        {5, 9, 1, TERKINOHA_FINDING_UNKNOWN_NAME, 1, 48, 49, 0, 0, 0, 0, 5},
        {0, 0, 0, 0, 0, 0, 0, 0, 0, 0, 0, 0},
    };
    struct rooms rooms = {2048, 2048, 128, 512};
    terkinoha_checked a = check(source, rooms);
    CHECK(done(a, 2, 2, 0) && a.tokens == 24 && a.nodes == 14);
    CHECK(memcmp(found, rows, sizeof rows) == 0);
}

/* All kinds of findings. */
static void try_kinds(void)
{
    static const char source[] = "import bench;\n"
                                 "import bench;\n"
                                 "import nope;\n"
                                 "let a = b;\n"
                                 "let a = 1;\n"
                                 "other::x;\n"
                                 "bench::x;\n"
                                 "bench::deep::x;\n"
                                 "bench::HTTP::x;\n"
                                 "bench::deep;\n"
                                 "bench::ping.m;\n"
                                 "bench::ping/1;\n"
                                 "1.2.3.4/\"x\";\n"
                                 "18446744073709551616;\n"
                                 "1.2.3.4/170141183460469231731687303715884105727;\n"
                                 "bench::ping;\n";
    static const uint64_t rows[][TERKINOHA_WORDS_DIAGNOSTIC] = {
        {2, 8, 2, TERKINOHA_FINDING_MULTIPLE_IMPORTS, 1, 21, 26, 0, 0, 0, 0, 2},
        {3, 8, 1, TERKINOHA_FINDING_UNKNOWN_MODULE, 1, 35, 39, 0, 0, 0, 0, 3},
        {4, 9, 1, TERKINOHA_FINDING_UNKNOWN_NAME, 1, 49, 50, 0, 0, 0, 0, 4},
        {5, 5, 1, TERKINOHA_FINDING_ALREADY_BOUND, 1, 56, 57, 0, 4, 5, 0, 5},
        {6, 1, 1, TERKINOHA_FINDING_NOT_IMPORTED, 1, 63, 68, 0, 0, 0, 0, 6},
        {7, 8, 1, TERKINOHA_FINDING_UNKNOWN_ITEM, 1, 80, 81, 0, 1, 0, 0, 7},
        {8, 14, 1, TERKINOHA_FINDING_UNKNOWN_ITEM, 1, 96, 97, 0, 8, 0, 0, 8},
        {9, 8, 1, TERKINOHA_FINDING_NOT_A_MODULE, 1, 106, 110, 0, 0, 0, 0, 9},
        {10, 8, 1, TERKINOHA_FINDING_NOT_A_VALUE, 1, 122, 126, 0, 0, 0, 0, 10},
        {11, 13, 1, TERKINOHA_FINDING_NO_MEMBERS, 2, 26, 30, TERKINOHA_TYPE_FUNCTION, 0, 0, 0, 11},
        {12, 1, 1, TERKINOHA_FINDING_OPERAND_TYPE, 2, 26, 30, TERKINOHA_TYPE_FUNCTION, 1, TERKINOHA_TYPE_IP4, 1, 12},
        {13, 9, 1, TERKINOHA_FINDING_OPERAND_TYPE, 0, 0, 0, TERKINOHA_TYPE_BYTES, 2, TERKINOHA_TYPE_U16, 1, 13},
        {14, 1, 1, TERKINOHA_FINDING_INTEGRAL_TOO_LARGE, 0, 0, 0, 0, 0, 0, 0, 14},
        {15, 9, 2, TERKINOHA_FINDING_TRUNCATED, 0, 0, 0, TERKINOHA_TYPE_U16, UINT64_MAX, UINT64_MAX >> 1, 0, 15},
        {15, 1, 2, TERKINOHA_FINDING_DISCARDED_VALUE, 0, 0, 0, TERKINOHA_TYPE_SOCK4, 0, 0, 0, 15},
        {16, 1, 2, TERKINOHA_FINDING_DISCARDED_VALUE, 2, 26, 30, TERKINOHA_TYPE_FUNCTION, 0, 0, 0, 16},
        {0, 0, 0, 0, 0, 0, 0, 0, 0, 0, 0, 0},
    };
    CHECK(done(check(source, enough), 12, 4, 0));
    CHECK(memcmp(found, rows, sizeof rows) == 0);
}

/* How many names are compared, counted by hand: of each let and each use that is judged, in their order. */
static void try_comparisons(void)
{
    static const struct {
        const char *source;
        uint64_t comparisons;
    } cases[] = {
        {"", 0},
        {"let a=1;", 0},
        {"let a=1; let b=a; b;", 0 + 1 + 1 + 2},
        /* bound already: it stops at the match, and the value is not judged */
        {"let a=1; let b=2; let a=b;", 0 + 1 + 1},
        /* a miss looks at all; the right of `/` is not judged where the left errs */
        {"let a=1; let b=2; x; x/a; 1.2.3.4/b;", 0 + 1 + 2 + 2 + 2},
        /* a failed name is bound, and found; imports take no search */
        {"import bench; let a=x; a; bench::HTTP; import q;", 0 + 0 + 1},
        /* callees and arguments, left to right, and none after one that errs */
        {"import bench; let a=1; let f=bench::pick; f(f(a)); f(x, a); a(f);", 0 + 1 + (2 + 2 + 1) + (2 + 2) + 1},
    };
    static const struct rooms small = {MOST, MOST, 0, MOST};
    for (size_t i = 0; i < sizeof cases / sizeof *cases; i++) {
        terkinoha_checked a = check(cases[i].source, enough);
        CHECK(a.verdict.number == TERKINOHA_DONE && a.comparisons == cases[i].comparisons);
        CHECK(check(cases[i].source, small).comparisons == a.comparisons);
    }
}

/* Statements are numbered, and not lines: of six the second and the third have no finding, and the fifth has two. In canonical
 * text each has a line of its own, and the same number.
 */
static void try_numbers(void)
{
    static const char source[] = "x; let a = 1; # none\nimport bench;\n\nimport m; bench::LOOP\n/70000; y;";
    static const uint64_t numbers[] = {1, 4, 5, 5, 6, 0}, lines[] = {1, 4, 5, 4, 5, 0};
    CHECK(done(check(source, enough), 3, 2, 0));
    for (size_t i = 0; i < sizeof numbers / sizeof *numbers; i++)
        CHECK(found[i].statement == numbers[i] && found[i].line == lines[i]);

    terkinoha_canonised a = terkinoha_canonicalise(source, sizeof source - 1, tokens, MOST, text, MOST);
    CHECK(same(a.verdict, TERKINOHA_DONE, 0, 0, 0) && done(check(text, enough), 3, 2, 0));
    for (size_t i = 0; i < sizeof numbers / sizeof *numbers; i++)
        CHECK(found[i].statement == numbers[i] && found[i].line == numbers[i]);
}

/* All types of values. */
static void try_statement_rows(void)
{
    static const char source[] = "import bench;\nbench::HTTP;\nbench::LOOP;\nbench::BIG;\nbench::ON;\nbench::BANNER;\n"
                                 "bench::ping;\nbench::deep::ZERO;\n\"a\"\n\"b\";\n1.2.3.4:80;\n5000000000;\n";
#define DISCARD(line, type, text, low, high) \
    {line, 1, TERKINOHA_STATEMENT_DISCARD, 0, TERKINOHA_FORM_CONSTANT, line, 1, TERKINOHA_TYPE_##type, text, low, high}
    static const uint64_t rows[][TERKINOHA_WORDS_STATEMENT] = {
        DISCARD(2, U16, 0, 80, 0),
        DISCARD(3, IP4, 0, 0x7F000001, 0),
        DISCARD(4, U32, 0, 70000, 0),
        DISCARD(5, BOOL, 0, 1, 0),
        DISCARD(6, BYTES, 2, 24, 26),
        DISCARD(7, FUNCTION, 2, 26, 30),
        DISCARD(8, U8, 0, 0, 0),
        DISCARD(9, BYTES, 1, 33, 0),
        DISCARD(11, SOCK4, 0, 0x01020304, 80),
        DISCARD(12, U64, 0, 5000000000, 0),
        {0, 0, 0, 0, 0, 0, 0, 0, 0, 0, 0},
    };
    CHECK(done(check(source, enough), 0, 10, 10));
    CHECK(memcmp(statements, rows, sizeof rows) == 0);
    CHECK(tokens[33].kind == TERKINOHA_TOKEN_STRING_LITERAL && tokens[33].low == 2);
    CHECK(memcmp(&TERKINOHA_TABLE_TEXT[24], "ok", 2) == 0 && memcmp(&TERKINOHA_TABLE_TEXT[26], "ping", 4) == 0);
}

/* ---- calls ---- */

/* What is found of calls, each after an import: the rows of one statement. */
static void try_call_findings(void)
{
    static const struct {
        const char *call;
        uint64_t row[TERKINOHA_WORDS_DIAGNOSTIC];
    } cases[] = {
        {"bench::ping(bench::ping);", {2, 13, 1, TERKINOHA_FINDING_ARG_TYPE, 2, 26, 30, TERKINOHA_TYPE_FUNCTION, 7, 0, TERKINOHA_TYPE_IP4, 2}},
        {"bench::burst(1.2.3.4:5, f);", {2, 25, 1, TERKINOHA_FINDING_UNKNOWN_NAME, 1, 38, 39, 0, 0, 0, 0, 2}},
        {"bench::burst(1.2.3.4:5, bench::burst);", {2, 25, 1, TERKINOHA_FINDING_ARG_TYPE, 2, 47, 52, TERKINOHA_TYPE_FUNCTION, 11, 1, TERKINOHA_TYPE_BYTES, 2}},
        {"bench::ping(1.2.3.4, 5);", {2, 22, 1, TERKINOHA_FINDING_TOO_MANY_ARGS, 2, 26, 30, TERKINOHA_TYPE_FUNCTION, 2, 1, 0, 2}},
        {"bench::burst(1.2.3.4:80);", {2, 8, 1, TERKINOHA_FINDING_TOO_FEW_ARGS, 2, 47, 52, TERKINOHA_TYPE_FUNCTION, 1, 2, 0, 2}},
        {"bench::ping(1.2.3.4)(2);", {2, 1, 1, TERKINOHA_FINDING_NOT_CALLABLE, 0, 0, 0, TERKINOHA_TYPE_PKT, 0, 0, 0, 2}},
        {"let v = bench::mark(1);", {2, 16, 1, TERKINOHA_FINDING_VOID_VALUE, 0, 0, 0, 0, 0, 0, 0, 2}},
        {"bench::pick(bench::pick(1));", {2, 13, 2, TERKINOHA_FINDING_OVERFLOW, 0, 0, 0, TERKINOHA_TYPE_U32, TERKINOHA_TYPE_U16, 0, 0, 2}},
        {"bench::host(300);", {2, 13, 2, TERKINOHA_FINDING_TRUNCATED, 0, 0, 0, TERKINOHA_TYPE_U8, 300, 0, 0, 2}},
        {"bench::pause(bench::ping(1.2.3.4));", {2, 14, 1, TERKINOHA_FINDING_ARG_TYPE, 0, 0, 0, TERKINOHA_TYPE_PKT, 10, 0, TERKINOHA_TYPE_U32, 2}},
    };
    char source[256];
    for (size_t i = 0; i < sizeof cases / sizeof *cases; i++) {
        snprintf(source, sizeof source, "import bench;\n%s", cases[i].call);
        CHECK(check(source, enough).verdict.number == TERKINOHA_DONE);
        CHECK(memcmp(found, cases[i].row, sizeof cases[i].row) == 0);
    }
}

/* Statements of each kind, with the rows of their parts. */
static void try_parts(void)
{
    static const char source[] = "import bench;\nlet h = bench::host(7);\nlet k = h;\nbench::burst(k/bench::pick(8), \"a\");\n"
                                 "bench::pause(1);\nbench::mark(0);\nk;\n";
    static const uint64_t rows[][TERKINOHA_WORDS_STATEMENT] = {
        {2, 5, TERKINOHA_STATEMENT_LET, 0, TERKINOHA_FORM_CALL, 2, 16, TERKINOHA_TYPE_IP4, 0, 14, 1},
        {2, 9, TERKINOHA_PART_CALLEE, 0, TERKINOHA_FORM_CONSTANT, 2, 9, TERKINOHA_TYPE_FUNCTION, 2, 72, 76},
        {2, 21, TERKINOHA_PART_ARGUMENT, 0, TERKINOHA_FORM_CONSTANT, 2, 21, TERKINOHA_TYPE_U8, 0, 7, 0},
        {4, 1, TERKINOHA_STATEMENT_EMIT, 0, TERKINOHA_FORM_CALL, 4, 8, TERKINOHA_TYPE_PKT_GEN, 0, 11, 2},
        {4, 1, TERKINOHA_PART_CALLEE, 0, TERKINOHA_FORM_CONSTANT, 4, 1, TERKINOHA_TYPE_FUNCTION, 2, 47, 52},
        {4, 14, TERKINOHA_PART_ARGUMENT, 0, TERKINOHA_FORM_SLASH, 4, 14, TERKINOHA_TYPE_SOCK4, 0, 0, 0},
        {4, 14, TERKINOHA_PART_LEFT, 0, TERKINOHA_FORM_SLOT, 4, 14, TERKINOHA_TYPE_IP4, 0, 0, 0},
        {4, 23, TERKINOHA_PART_RIGHT, 0, TERKINOHA_FORM_CALL, 4, 23, TERKINOHA_TYPE_U32, 0, 13, 1},
        {4, 16, TERKINOHA_PART_CALLEE, 0, TERKINOHA_FORM_CONSTANT, 4, 16, TERKINOHA_TYPE_FUNCTION, 2, 64, 68},
        {4, 28, TERKINOHA_PART_ARGUMENT, 0, TERKINOHA_FORM_CONSTANT, 4, 28, TERKINOHA_TYPE_U16, 0, 8, 0},
        {4, 32, TERKINOHA_PART_ARGUMENT, 1, TERKINOHA_FORM_CONSTANT, 4, 32, TERKINOHA_TYPE_BYTES, 1, 31, 0},
        {5, 1, TERKINOHA_STATEMENT_WAIT, 0, TERKINOHA_FORM_CALL, 5, 8, TERKINOHA_TYPE_TIME_JUMP, 0, 10, 1},
        {5, 1, TERKINOHA_PART_CALLEE, 0, TERKINOHA_FORM_CONSTANT, 5, 1, TERKINOHA_TYPE_FUNCTION, 2, 38, 43},
        {5, 14, TERKINOHA_PART_ARGUMENT, 0, TERKINOHA_FORM_CONSTANT, 5, 14, TERKINOHA_TYPE_U32, 0, 1, 0},
        {6, 1, TERKINOHA_STATEMENT_EVAL, 0, TERKINOHA_FORM_CALL, 6, 8, TERKINOHA_TYPE_VOID, 0, 12, 1},
        {6, 1, TERKINOHA_PART_CALLEE, 0, TERKINOHA_FORM_CONSTANT, 6, 1, TERKINOHA_TYPE_FUNCTION, 2, 58, 62},
        {6, 13, TERKINOHA_PART_ARGUMENT, 0, TERKINOHA_FORM_CONSTANT, 6, 13, TERKINOHA_TYPE_BOOL, 0, 0, 0},
        {7, 1, TERKINOHA_STATEMENT_DISCARD, 0, TERKINOHA_FORM_SLOT, 7, 1, TERKINOHA_TYPE_IP4, 0, 0, 0},
        {0, 0, 0, 0, 0, 0, 0, 0, 0, 0, 0},
    };
    struct rooms just = {MOST, MOST, 0, sizeof rows / sizeof *rows - 1}, less = just;
    less.statements--;
    less.found = MOST;
    CHECK(done(check(source, just), 0, 2, just.statements)); /* `pick` is wider than a port; `k` is discarded */
    CHECK(memcmp(statements, rows, sizeof rows - sizeof *rows) == 0);
    CHECK(done(check(source, enough), 0, 2, just.statements) && memcmp(statements, rows, sizeof rows) == 0);
    CHECK(refused(check(source, less), TERKINOHA_REFUSED_STATEMENT_ROOM, 0, 0));
}

/* Smaller numbers go first, and findings are none. */
static void try_refusals(void)
{
    static const struct {
        const char *source;
        struct rooms rooms;
        uint64_t number, line, column;
    } refusals[] = {
        /* met when the callee is judged, before any argument is */
        {"import bench;\nbench::ping(zz, a: 1);", ENOUGH, TERKINOHA_REFUSED_CALLS, 2, 12},
        {"import bench;\nx;\nlet v = bench::pick(bench::host(1, b: z), y);", ENOUGH, TERKINOHA_REFUSED_CALLS, 3, 32},
        {"import bench;bench::ping(a: bench::ping(b: 1));", ENOUGH, TERKINOHA_REFUSED_CALLS, 1, 25}, /* the outer one */
        {"import bench;bench::ping(a:1);", {13, 7, 0, 0}, TERKINOHA_REFUSED_CALLS, 1, 25},
        {"f(a:1);", {8, 4, MOST, MOST}, TERKINOHA_REFUSED_NODE_ROOM, 0, 0},
        {"f(a:1);", {7, 5, MOST, MOST}, TERKINOHA_REFUSED_TOKEN_ROOM, 0, 0},
        {"1; 2;", {5, 4, 0, 1}, TERKINOHA_REFUSED_STATEMENT_ROOM, 0, 0},
        {"1; 2;", {5, 3, MOST, 0}, TERKINOHA_REFUSED_NODE_ROOM, 0, 0},
        {"1;", {3, 2, MOST, 0}, TERKINOHA_REFUSED_STATEMENT_ROOM, 0, 0},
    };
    for (size_t i = 0; i < sizeof refusals / sizeof *refusals; i++)
        CHECK(refused(check(refusals[i].source, refusals[i].rooms), refusals[i].number, refusals[i].line,
                      refusals[i].column));
    /* no 8 where the callee is never judged, or is no function */
    CHECK(done(check("import bench;\"x\"/bench::ping(a: 1);let a = 1;let a = bench::ping(b: 2);bench::ping(zz, bench::ping(c: 3));"
                     "5(d: 4);",
                     enough),
               4, 0, 0));
    CHECK(same(check("1.2.3.4:65536;", enough).verdict, TERKINOHA_REFUSED_SYNTAX, TERKINOHA_SYNTAX_INT_OUT_OF_RANGE, 1,
               9));
    CHECK(same(check("1.2.3.4:0x50;", enough).verdict, TERKINOHA_REFUSED_SYNTAX, TERKINOHA_SYNTAX_UNEXPECTED_TOKEN, 1,
               9));
}

/* Just enough room; statements want none where there is an error, and findings never want any. */
static void try_just_enough(void)
{
    struct rooms both = {5, 4, 0, 2}, none = {5, 4, 1, 0};
    CHECK(done(check("1; 2;", both), 0, 2, 2) && statements[1].low == 2);
    CHECK(done(check("a; 2;", none), 1, 1, 0) && found[0].kind == TERKINOHA_FINDING_UNKNOWN_NAME);
    none.found = 0;
    CHECK(done(check("a; 2;", none), 1, 1, 0));
}

/* ---- names, as many as may be ---- */

static char many[65536];

/* Adds `count` lines, each a format with its number. */
static void add(const char *format, unsigned from, unsigned count)
{
    char *at = many + strlen(many);
    for (unsigned i = from; i < from + count; i++)
        at += snprintf(at, 64, format, i);
}

static terkinoha_checked check_many(void)
{
    return check(many, enough);
}

/* `most` names are good, however often one is bound again; one more is refused at its place. */
static void try_names(const char *format, unsigned most, uint64_t column, uint64_t errors, uint64_t warnings_of_again)
{
    many[0] = '\0';
    add(format, 0, most);
    CHECK(done(check_many(), errors, 0, 0));
    add(format, 0, 1);
    CHECK(done(check_many(), errors + 1 - warnings_of_again, warnings_of_again, 0));
    add(format, most, 2);
    CHECK(refused(check_many(), TERKINOHA_REFUSED_NAMES, most + 2, column));
}

static void try_all_names(void)
{
    struct rooms no_statements = {MOST, MOST, MOST, 0};
    try_names("let a%u = 1;\n", TERKINOHA_MOST_NAMES, 5, 0, 0);
    try_names("let a%u = b;\n", TERKINOHA_MOST_NAMES, 5, TERKINOHA_MOST_NAMES, 0); /* failed ones count */
    try_names("import a%u;\n", TERKINOHA_MOST_IMPORTS, 8, TERKINOHA_MOST_IMPORTS, 1);

    /* the earlier of the two, and before the room for statements */
    many[0] = '\0';
    add("1; let a%u = 1;\n", 0, TERKINOHA_MOST_NAMES);
    add("import a%u;\n", 0, TERKINOHA_MOST_IMPORTS + 1);
    add("let a%u = 1;\n", TERKINOHA_MOST_NAMES, 1);
    CHECK(refused(check(many, no_statements), TERKINOHA_REFUSED_NAMES,
                  TERKINOHA_MOST_NAMES + TERKINOHA_MOST_IMPORTS + 1, 8));
    /* between 8 and 9 the earlier token decides */
    add("import bench; bench::ping(a: %u);\n", 0, 1);
    CHECK(refused(check_many(), TERKINOHA_REFUSED_NAMES, TERKINOHA_MOST_NAMES + TERKINOHA_MOST_IMPORTS + 1, 8));
    many[0] = '\0';
    add("import bench; bench::ping(a: %u);\n", 0, 1);
    add("let a%u = 1;\n", 0, TERKINOHA_MOST_NAMES + 1);
    CHECK(refused(check_many(), TERKINOHA_REFUSED_CALLS, 1, 26));
}

/* ---- texts ---- */

static terkinoha_verdict verdict_of(uint64_t number, uint64_t kind)
{
    terkinoha_verdict v = {number, kind, 0, 0, 0};
    return v;
}

static void try_texts(void)
{
    lent_trying("texts", "", 0);
    CHECK(strcmp(terkinoha_verdict_text(verdict_of(0, 0)), "done") == 0);
    CHECK(strcmp(terkinoha_verdict_text(verdict_of(2, 0)), "not well-formed UTF-8") == 0);
    CHECK(strcmp(terkinoha_verdict_text(verdict_of(3, 2)), terkinoha_error_text(2)) == 0);
    CHECK(strcmp(terkinoha_verdict_text(verdict_of(5, 1)), "unexpected token") == 0);
    CHECK(strcmp(terkinoha_verdict_text(verdict_of(5, 2)), "integer literal out of range") == 0);
    CHECK(strcmp(terkinoha_verdict_text(verdict_of(8, 0)), "a named argument, which cannot be checked") == 0);
    CHECK(strcmp(terkinoha_verdict_text(verdict_of(UINT64_MAX, 0)), "unknown refusal") == 0);
    CHECK(strcmp(terkinoha_error_text(0), "unknown error") == 0);
    CHECK(strcmp(terkinoha_kind_text(19), "unknown token") == 0);
    CHECK(strcmp(terkinoha_node_text(14), "unknown node") == 0);
    CHECK(strcmp(terkinoha_finding_text(3), "unknown finding") == 0);
    CHECK(strcmp(terkinoha_finding_text(25), "integer is cut to fit") == 0);
    CHECK(strcmp(terkinoha_entry_name(0), "unknown entry") == 0);
    CHECK(strcmp(terkinoha_entry_name(8), "deep") == 0);
    CHECK(strcmp(terkinoha_entry_name(14), "host") == 0);
    CHECK(strcmp(terkinoha_entry_name(15), "unknown entry") == 0);
    CHECK(strcmp(terkinoha_param_name(11, 1), "body") == 0);
    CHECK(strcmp(terkinoha_param_name(7, 1), "unknown parameter") == 0);
    CHECK(strcmp(terkinoha_param_name(8, 0), "unknown parameter") == 0);
    CHECK(strcmp(terkinoha_param_name(10, 2), "unknown parameter") == 0);
    CHECK(strcmp(terkinoha_type_text(15), "unknown type") == 0);
    CHECK(strcmp(terkinoha_type_text(16), "integer") == 0);
}

int main(void)
{
    lent_start();
    CHECK(terkinoha_version() == TERKINOHA_VERSION);
    try_lexings();
    try_token_rows();
    try_token_places();
    try_lexeme_rows();
    try_parsings();
    try_node_rows();
    try_depth("f", "(f", TERKINOHA_MOST_LISTS);
    try_depth("a", ".b", TERKINOHA_MOST_STEPS);
    try_depth("a", "/b", TERKINOHA_MOST_STEPS);
    try_canonisings();
    try_checkings();
    try_finding_rows();
    try_kinds();
    try_comparisons();
    try_numbers();
    try_statement_rows();
    try_call_findings();
    try_parts();
    try_refusals();
    try_just_enough();
    try_all_names();
    try_texts();
    printf("samples: as written down\n");
    return lent_done();
}
