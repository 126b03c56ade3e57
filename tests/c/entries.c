/* Every entry, with areas that lie against shut pages and start out as garbage: all sizes of rooms
 * and sources, random and damaged sources. What a call leaves is held to what the header promises.
 */
#include "lent.h"

#include <stdio.h>
#include <stdlib.h>
#include <string.h>

/* ---- one shape for the five calls ---- */

enum { SCAN, LEX, PARSE, CANONICALISE, CHECK_SOURCE, ENTRIES };

/* What a call fills: lexemes or tokens, nodes or canonical text, findings, statements. */
enum { ROWS, SECOND, FINDINGS, STATEMENTS, AREAS };

static const char *const names[ENTRIES] = {"scan", "lex", "parse", "canonicalise", "check"};

/* How many areas each call fills, and how many bytes a row there has, or a byte of text. */
static const int areas[ENTRIES] = {1, 1, 2, 2, 4};
static const size_t units[ENTRIES][AREAS] = {
    {sizeof(terkinoha_lexeme), 1, 1, 1},
    {sizeof(terkinoha_token), 1, 1, 1},
    {sizeof(terkinoha_token), sizeof(terkinoha_node), 1, 1},
    {sizeof(terkinoha_token), 1, 1, 1},
    {sizeof(terkinoha_token), sizeof(terkinoha_node), sizeof(terkinoha_diagnostic), sizeof(terkinoha_statement)},
};

struct outcome {
    terkinoha_verdict verdict;
    uint64_t counts[AREAS]; /* 0 for an area that the call does not have */
    uint64_t errors;        /* of the findings */
};

struct lent {
    struct area source, filled[AREAS];
};

static struct outcome outcome_of(terkinoha_verdict verdict, uint64_t rows, uint64_t second)
{
    struct outcome outcome = {verdict, {rows, second, 0, 0}, 0};
    return outcome;
}

static size_t words(struct area area)
{
    return area.size / sizeof(uint64_t);
}

static struct outcome check_words(struct lent lent)
{
    const struct area *to = lent.filled;
    uint64_t *tokens = (uint64_t *)area_lend(to[ROWS]), *nodes = (uint64_t *)area_lend(to[SECOND]);
    uint64_t *found = (uint64_t *)area_lend(to[FINDINGS]), *statements = (uint64_t *)area_lend(to[STATEMENTS]);
    terkinoha_checked a = terkinoha_check_words(area_lend(lent.source), lent.source.size, tokens, words(to[ROWS]),
                                                nodes, words(to[SECOND]), found, words(to[FINDINGS]), statements,
                                                words(to[STATEMENTS]));
    struct outcome outcome = {a.verdict, {a.tokens, a.nodes, a.errors + a.warnings, a.statements}, a.errors};
    return outcome;
}

static struct outcome call(int entry, struct lent lent)
{
    const void *source = area_lend(lent.source);
    size_t size = lent.source.size, row_words = words(lent.filled[ROWS]);
    uint64_t *rows = (uint64_t *)area_lend(lent.filled[ROWS]);
    if (entry == SCAN) {
        terkinoha_scanned a = terkinoha_scan_words(source, size, rows, row_words);
        return outcome_of(a.verdict, a.lexemes, 0);
    }
    if (entry == LEX) {
        terkinoha_lexed a = terkinoha_lex_words(source, size, rows, row_words);
        return outcome_of(a.verdict, a.tokens, 0);
    }
    if (entry == PARSE) {
        uint64_t *nodes = (uint64_t *)area_lend(lent.filled[SECOND]);
        terkinoha_parsed a = terkinoha_parse_words(source, size, rows, row_words, nodes, words(lent.filled[SECOND]));
        return outcome_of(a.verdict, a.tokens, a.nodes);
    }
    if (entry == CANONICALISE) {
        char *text = (char *)area_lend(lent.filled[SECOND]);
        size_t room = lent.filled[SECOND].size;
        terkinoha_canonised a = terkinoha_canonicalise_words(source, size, rows, row_words, text, room);
        return outcome_of(a.verdict, a.tokens, a.bytes);
    }
    return check_words(lent);
}

/* ---- what every answer is held to ---- */

static int same_verdict(terkinoha_verdict v, uint64_t number, uint64_t kind, uint64_t line, uint64_t column,
                        uint64_t character)
{
    return v.number == number && v.kind == kind && v.line == line && v.column == column && v.character == character;
}

/* Which numbers an entry gives, and which have a place, as bits. */
static const unsigned gives[ENTRIES] = {0x17, 0x1F, 0xFF, 0x41F, 0xBFF};
static const unsigned placed = 0x3AC;

/* A place where the number has one, a kind where it has kinds, and nothing else. */
static void check_verdict(int entry, terkinoha_verdict v)
{
    uint64_t kinds = v.number == TERKINOHA_REFUSED_LEXICAL ? 6 : v.number == TERKINOHA_REFUSED_SYNTAX ? 2 : 0;
    CHECK(v.number < 16 && (gives[entry] >> v.number & 1));
    CHECK(placed >> v.number & 1 ? v.line >= 1 && v.column >= 1 : v.line == 0 && v.column == 0);
    CHECK(kinds == 0 ? v.kind == 0 : 1 <= v.kind && v.kind <= kinds);
    CHECK(v.character == 0 || (v.number == TERKINOHA_REFUSED_LEXICAL && v.kind == TERKINOHA_ERROR_UNEXPECTED_CHAR &&
                               v.character <= 0x10FFFF));
}

/* How many rows, or bytes of text, are there to read: of findings as many as fit, of all else as many as counted. */
static uint64_t kept(int entry, struct lent lent, struct outcome outcome, int i)
{
    uint64_t room = lent.filled[i].size / units[entry][i];
    return i == FINDINGS && room < outcome.counts[i] ? room : outcome.counts[i];
}

/* Zero past what is there to read, so from end to end on a refusal; nothing else touched. */
static void check_areas(int entry, struct lent lent, struct outcome outcome)
{
    for (int i = 0; i < areas[entry]; i++) {
        uint64_t count = kept(entry, lent, outcome, i);
        CHECK(outcome.verdict.number == 0 || outcome.counts[i] == 0);
        CHECK(count <= lent.filled[i].size / units[entry][i]);
        CHECK(area_zero(lent.filled[i], count * units[entry][i]));
        CHECK(area_kept(lent.filled[i]));
    }
    CHECK(area_kept(lent.source));
    CHECK(outcome.errors <= outcome.counts[FINDINGS] && (outcome.errors == 0 || outcome.counts[STATEMENTS] == 0));
}

/* Spans that are not empty join to the line. */
static void check_lexemes(struct lent lent, uint64_t count)
{
    const terkinoha_lexeme *rows = (const terkinoha_lexeme *)(const void *)lent.filled[ROWS].at;
    uint64_t at = 0;
    for (uint64_t i = 0; i < count; i++) {
        CHECK(rows[i].start == at && rows[i].start < rows[i].end);
        CHECK(rows[i].class_ >= TERKINOHA_LEXEME_TRIVIA && rows[i].class_ <= TERKINOHA_LEXEME_ERROR);
        CHECK((rows[i].kind != 0) == (rows[i].class_ >= TERKINOHA_LEXEME_TOKEN));
        at = rows[i].end;
    }
    CHECK(at == lent.source.size);
}

/* Tokens stand in order, each where its place says; the last and no other is `Eof`. */
static void check_tokens(struct lent lent, uint64_t count)
{
    const terkinoha_token *rows = (const terkinoha_token *)(const void *)lent.filled[ROWS].at;
    uint64_t at = 0, line = 1, line_start = 0;
    for (uint64_t i = 0; i < count; i++) {
        CHECK(rows[i].kind >= TERKINOHA_TOKEN_EOF && rows[i].kind <= TERKINOHA_TOKEN_DEC_LITERAL);
        CHECK((rows[i].kind == TERKINOHA_TOKEN_EOF) == (i == count - 1));
        CHECK(at <= rows[i].start && rows[i].end <= lent.source.size);
        if (rows[i].kind == TERKINOHA_TOKEN_EOF)
            continue;
        CHECK(rows[i].start < rows[i].end);
        for (; at < rows[i].start; at++)
            if (lent.source.at[at] == '\n') {
                line++;
                line_start = at + 1;
            }
        CHECK(rows[i].line == line && rows[i].column == rows[i].start - line_start + 1);
    }
    CHECK(count >= 1 && rows[count - 1].start == lent.source.size && rows[count - 1].column == 1);
}

/* How many arguments the call in a row has. They are chained in source order, each before the next and all before the call. */
static uint64_t arguments(const terkinoha_node *rows, uint64_t call)
{
    uint64_t count = 0, last = 0;
    for (uint64_t next = rows[call].second; next != 0; next = rows[next - 1].second) {
        CHECK(last < next && next <= call);
        const terkinoha_node *row = &rows[next - 1];
        CHECK(row->kind == TERKINOHA_NODE_ARGUMENT || row->kind == TERKINOHA_NODE_NAMED_ARGUMENT);
        CHECK(last == 0 || rows[last - 1].token < row->token);
        last = next;
        count++;
    }
    return count;
}

/* How many children a node takes, of those that stand before it. */
static uint64_t children(const terkinoha_node *rows, uint64_t at)
{
    const terkinoha_node *node = &rows[at];
    switch (node->kind) {
    case TERKINOHA_NODE_PATH: return node->first;
    case TERKINOHA_NODE_SLASH: return 2;
    case TERKINOHA_NODE_CALL: return 1 + arguments(rows, at);
    case TERKINOHA_NODE_ARGUMENT:
    case TERKINOHA_NODE_NAMED_ARGUMENT:
    case TERKINOHA_NODE_MEMBER:
    case TERKINOHA_NODE_LET:
    case TERKINOHA_NODE_EXPRESSION: return 1;
    default: return 0;
    }
}

/* The rows of the children that a node names are smaller than its own. */
static int names_smaller(const terkinoha_node *node, uint64_t row)
{
    int by_first = node->kind >= TERKINOHA_NODE_MEMBER && node->kind != TERKINOHA_NODE_IMPORT;
    int by_second = node->kind == TERKINOHA_NODE_SLASH;
    return (!by_first || node->first < row) && (!by_second || node->second < row);
}

/* How many tokens are `;`: each statement ends with one. */
static uint64_t ends(struct lent lent, uint64_t tokens)
{
    const terkinoha_token *rows = (const terkinoha_token *)(const void *)lent.filled[ROWS].at;
    uint64_t count = 0;
    for (uint64_t i = 0; i < tokens; i++)
        count += rows[i].kind == TERKINOHA_TOKEN_SEMI_COLON;
    return count;
}

/* Children stand before their parents, and every node but a statement has one parent. */
static void check_nodes(struct lent lent, uint64_t tokens, uint64_t count)
{
    const terkinoha_node *rows = (const terkinoha_node *)(const void *)lent.filled[SECOND].at;
    uint64_t waiting = 0, statements = 0; /* nodes that a parent must still take, and nodes of statements */
    for (uint64_t i = 0; i < count; i++) {
        int statement = rows[i].kind >= TERKINOHA_NODE_IMPORT;
        CHECK(rows[i].kind >= TERKINOHA_NODE_NAME && rows[i].kind <= TERKINOHA_NODE_EXPRESSION);
        CHECK(rows[i].token < tokens && names_smaller(&rows[i], i));
        uint64_t taken = children(rows, i);
        CHECK(taken <= waiting);
        waiting -= taken;
        waiting += !statement;
        statements += (uint64_t)statement;
        CHECK(!statement || waiting == 0);
    }
    CHECK(waiting == 0 && count <= tokens && statements == ends(lent, tokens));
}

/* ---- findings and statements ---- */

/* The token at a place. */
static const terkinoha_token *token_at(struct lent lent, uint64_t count, uint64_t line, uint64_t column)
{
    const terkinoha_token *rows = (const terkinoha_token *)(const void *)lent.filled[ROWS].at;
    uint64_t low = 0, high = count; /* they stand in order */
    while (low < high) {
        uint64_t middle = low + (high - low) / 2;
        int before = rows[middle].line < line || (rows[middle].line == line && rows[middle].column < column);
        low = before ? middle + 1 : low;
        high = before ? high : middle;
    }
    return low < count && rows[low].line == line && rows[low].column == column ? &rows[low] : NULL;
}

static int is_module(uint64_t entry)
{
    return strcmp(terkinoha_entry_name(entry), "bench") == 0 || strcmp(terkinoha_entry_name(entry), "deep") == 0;
}

static int is_part_of_table(uint64_t start, uint64_t end)
{
    return start < end && end <= sizeof TERKINOHA_TABLE_TEXT - 1;
}

/* A finding shows a name of the source, a type, which is a function's with its name, or neither. */
static int shows_name(const terkinoha_diagnostic *d, const terkinoha_token *token)
{
    return d->text == TERKINOHA_TEXT_SOURCE && token->kind == TERKINOHA_TOKEN_IDENTIFIER && d->start == token->start &&
           d->end == token->end && d->type == 0 && d->third == 0;
}

static int shows_type(const terkinoha_diagnostic *d)
{
    if (d->type == TERKINOHA_TYPE_FUNCTION)
        return d->text == TERKINOHA_TEXT_TABLE && is_part_of_table(d->start, d->end);
    return d->text == TERKINOHA_TEXT_NONE && d->start == 0 && d->end == 0 &&
           ((TERKINOHA_TYPE_BOOL <= d->type && d->type <= TERKINOHA_TYPE_TIME_JUMP) || d->type == TERKINOHA_TYPE_INTEGER);
}

/* The functions of the constant table: the entry, what it gives, and how many parameters of which types it has. */
struct function {
    uint64_t entry, gives, params, types[2];
};

static const struct function *function_of(uint64_t entry)
{
    static const struct function functions[] = {
        {7, TERKINOHA_TYPE_PKT, 1, {TERKINOHA_TYPE_IP4, 0}},
        {10, TERKINOHA_TYPE_TIME_JUMP, 1, {TERKINOHA_TYPE_U32, 0}},
        {11, TERKINOHA_TYPE_PKT_GEN, 2, {TERKINOHA_TYPE_SOCK4, TERKINOHA_TYPE_BYTES}},
        {12, TERKINOHA_TYPE_VOID, 1, {TERKINOHA_TYPE_BOOL, 0}},
        {13, TERKINOHA_TYPE_U32, 1, {TERKINOHA_TYPE_U16, 0}},
        {14, TERKINOHA_TYPE_IP4, 1, {TERKINOHA_TYPE_U8, 0}},
    };
    for (size_t i = 0; i < sizeof functions / sizeof *functions; i++)
        if (functions[i].entry == entry)
            return &functions[i];
    return NULL;
}

/* The function whose name a finding shows, and that its counts are those of a call that has too many arguments or too few. */
static int counts_arguments(const terkinoha_diagnostic *d, int many)
{
    for (uint64_t entry = 7; entry <= 14; entry++) {
        const struct function *f = function_of(entry);
        const char *name = terkinoha_entry_name(entry);
        if (f != NULL && d->end - d->start == strlen(name) &&
            memcmp(&TERKINOHA_TABLE_TEXT[d->start], name, strlen(name)) == 0)
            return d->second == f->params && (many ? d->first > d->second : d->first < d->second) && d->third == 0;
    }
    return 0;
}

/* An argument of another type than its parameter has. */
static int is_wrong_argument(const terkinoha_diagnostic *d)
{
    const struct function *f = function_of(d->first);
    return f != NULL && d->second < f->params && d->third == f->types[d->second] && d->type != d->third;
}

static int shows_nothing(const terkinoha_diagnostic *d)
{
    return d->text == TERKINOHA_TEXT_NONE && d->start == 0 && d->end == 0 && d->type == 0;
}

static int is_integral(uint64_t type)
{
    return (TERKINOHA_TYPE_BOOL <= type && type <= TERKINOHA_TYPE_U64) || type == TERKINOHA_TYPE_INTEGER;
}

/* The largest number of an integer type. */
static uint64_t most_of(uint64_t type)
{
    return type == TERKINOHA_TYPE_U8 ? UINT8_MAX : type == TERKINOHA_TYPE_U16 ? UINT16_MAX : UINT32_MAX;
}

static int fields(const terkinoha_diagnostic *d, uint64_t first, uint64_t second, uint64_t third)
{
    return d->first == first && d->second == second && d->third == third;
}

/* What the header says of a kind. */
static int is_finding(const terkinoha_diagnostic *d, const terkinoha_token *token)
{
    switch (d->kind) {
    case TERKINOHA_FINDING_UNKNOWN_NAME:
    case TERKINOHA_FINDING_UNKNOWN_MODULE:
    case TERKINOHA_FINDING_NOT_IMPORTED:
    case TERKINOHA_FINDING_NOT_A_MODULE:
    case TERKINOHA_FINDING_NOT_A_VALUE:
    case TERKINOHA_FINDING_MULTIPLE_IMPORTS: return shows_name(d, token) && fields(d, 0, 0, 0);
    case TERKINOHA_FINDING_UNKNOWN_ITEM: return shows_name(d, token) && is_module(d->first) && fields(d, d->first, 0, 0);
    case TERKINOHA_FINDING_ALREADY_BOUND:
        return shows_name(d, token) && d->first >= 1 && d->second >= 1 &&
               (d->first < d->line || (d->first == d->line && d->second < d->column));
    case TERKINOHA_FINDING_NO_MEMBERS: return shows_type(d) && fields(d, 0, 0, 0);
    case TERKINOHA_FINDING_OPERAND_TYPE:
        return shows_type(d) && (d->first == 1 ? fields(d, 1, TERKINOHA_TYPE_IP4, 1) && d->type != TERKINOHA_TYPE_IP4
                                               : fields(d, 2, TERKINOHA_TYPE_U16, 1) && !is_integral(d->type));
    case TERKINOHA_FINDING_NOT_CALLABLE:
        return shows_type(d) && d->type != TERKINOHA_TYPE_FUNCTION && fields(d, 0, 0, 0);
    case TERKINOHA_FINDING_TOO_MANY_ARGS:
    case TERKINOHA_FINDING_TOO_FEW_ARGS:
        return shows_type(d) && d->type == TERKINOHA_TYPE_FUNCTION &&
               counts_arguments(d, d->kind == TERKINOHA_FINDING_TOO_MANY_ARGS);
    case TERKINOHA_FINDING_ARG_TYPE: return shows_type(d) && is_wrong_argument(d);
    case TERKINOHA_FINDING_VOID_VALUE:
    case TERKINOHA_FINDING_INTEGRAL_TOO_LARGE: return shows_nothing(d) && fields(d, 0, 0, 0);
    case TERKINOHA_FINDING_DISCARDED_VALUE:
        return shows_type(d) && d->type != TERKINOHA_TYPE_INTEGER && fields(d, 0, 0, 0);
    case TERKINOHA_FINDING_TRUNCATED:
        return shows_type(d) && TERKINOHA_TYPE_U8 <= d->type && d->type <= TERKINOHA_TYPE_U32 &&
               (d->first > most_of(d->type) || d->second != 0) && d->third == 0;
    case TERKINOHA_FINDING_OVERFLOW:
        return shows_type(d) && d->type == TERKINOHA_TYPE_U32 && d->first < d->type && fields(d, d->first, 0, 0);
    default: return 0;
    }
}

/* A statement of the source: its number, 0 before the first; its tokens from `start` up to `end`, of which the last is `;`; and
 * its node's row plus 1.
 */
struct numbered {
    uint64_t number, start, end, node;
};

/* The statement after one. There is one. */
static struct numbered next_statement(struct lent lent, struct outcome outcome, struct numbered last)
{
    const terkinoha_token *tokens = (const terkinoha_token *)(const void *)lent.filled[ROWS].at;
    const terkinoha_node *nodes = (const terkinoha_node *)(const void *)lent.filled[SECOND].at;
    struct numbered next = {last.number + 1, last.end, last.end, last.node};
    do {
        CHECK(next.end < outcome.counts[ROWS]);
    } while (tokens[next.end++].kind != TERKINOHA_TOKEN_SEMI_COLON);
    do {
        CHECK(next.node < outcome.counts[SECOND]);
    } while (nodes[next.node++].kind < TERKINOHA_NODE_IMPORT);
    CHECK(next.start <= nodes[next.node - 1].token && nodes[next.node - 1].token < next.end);
    return next;
}

/* The number of each is that of the statement that holds its token, so at least 1, and at most the last one's. It never falls,
 * and no statement has two errors.
 */
static void check_numbers(struct lent lent, struct outcome outcome, uint64_t count)
{
    const terkinoha_token *tokens = (const terkinoha_token *)(const void *)lent.filled[ROWS].at;
    const terkinoha_diagnostic *rows = (const terkinoha_diagnostic *)(const void *)lent.filled[FINDINGS].at;
    struct numbered in = {0, 0, 0, 0};
    uint64_t wrong = 0; /* the last statement that has an error */
    for (uint64_t i = 0; i < count; i++) {
        const terkinoha_token *token = token_at(lent, outcome.counts[ROWS], rows[i].line, rows[i].column);
        CHECK(rows[i].statement >= 1 && rows[i].statement >= in.number);
        while (in.number < rows[i].statement)
            in = next_statement(lent, outcome, in);
        CHECK(tokens + in.start <= token && token < tokens + in.end);
        if (rows[i].severity == TERKINOHA_SEVERITY_ERROR) {
            CHECK(wrong < rows[i].statement);
            wrong = rows[i].statement;
        }
    }
}

/* Each stands at a token and is what its kind says; where all are kept, so many are errors. */
static void check_findings(struct lent lent, struct outcome outcome)
{
    const terkinoha_diagnostic *rows = (const terkinoha_diagnostic *)(const void *)lent.filled[FINDINGS].at;
    uint64_t errors = 0, count = kept(CHECK_SOURCE, lent, outcome, FINDINGS);
    for (uint64_t i = 0; i < count; i++) {
        const terkinoha_token *token = token_at(lent, outcome.counts[ROWS], rows[i].line, rows[i].column);
        CHECK(token != NULL && is_finding(&rows[i], token));
        int error = rows[i].kind <= TERKINOHA_FINDING_INTEGRAL_TOO_LARGE;
        CHECK(rows[i].severity == (uint64_t)(error ? TERKINOHA_SEVERITY_ERROR : TERKINOHA_SEVERITY_WARNING));
        errors += (uint64_t)error;
    }
    check_numbers(lent, outcome, count);
    CHECK(count < outcome.counts[FINDINGS] ? errors <= outcome.errors : errors == outcome.errors);
    CHECK(outcome.counts[FINDINGS] <= outcome.counts[ROWS]); /* the room that the header says keeps them all */
}

/* A value that its type has. */
static int is_value(struct lent lent, uint64_t tokens, const terkinoha_statement *s)
{
    const terkinoha_token *rows = (const terkinoha_token *)(const void *)lent.filled[ROWS].at;
    int in_table = s->text == TERKINOHA_TEXT_TABLE && is_part_of_table(s->low, s->high);
    switch (s->type) {
    case TERKINOHA_TYPE_BOOL: return s->text == 0 && s->low <= 1 && s->high == 0;
    case TERKINOHA_TYPE_U8: return s->text == 0 && s->low <= UINT8_MAX && s->high == 0;
    case TERKINOHA_TYPE_U16: return s->text == 0 && s->low <= UINT16_MAX && s->high == 0;
    case TERKINOHA_TYPE_U32:
    case TERKINOHA_TYPE_IP4: return s->text == 0 && s->low <= UINT32_MAX && s->high == 0;
    case TERKINOHA_TYPE_U64: return s->text == 0 && s->high == 0;
    case TERKINOHA_TYPE_SOCK4: return s->text == 0 && s->low <= UINT32_MAX && s->high <= UINT16_MAX;
    case TERKINOHA_TYPE_BYTES:
        return in_table || (s->text == TERKINOHA_TEXT_SOURCE && s->low < tokens && s->high == 0 &&
                            rows[s->low].kind == TERKINOHA_TOKEN_STRING_LITERAL);
    case TERKINOHA_TYPE_FUNCTION: return in_table;
    default: return 0;
    }
}

/* How many parts follow the row of an expression. */
static uint64_t parts_of(const terkinoha_statement *s)
{
    return s->form == TERKINOHA_FORM_CALL ? 1 + s->high : s->form == TERKINOHA_FORM_SLASH ? 2 : 0;
}

/* What the header says of a form, where so many slots were made before. */
static int is_expression(struct lent lent, uint64_t tokens, const terkinoha_statement *s, uint64_t slots)
{
    const struct function *f = s->form == TERKINOHA_FORM_CALL ? function_of(s->low) : NULL;
    switch (s->form) {
    case TERKINOHA_FORM_CONSTANT: return is_value(lent, tokens, s);
    case TERKINOHA_FORM_SLOT: return s->text == 0 && s->low < slots && s->high == 0;
    case TERKINOHA_FORM_CALL: return s->text == 0 && f != NULL && s->type == f->gives && s->high == f->params;
    case TERKINOHA_FORM_SLASH: return s->text == 0 && s->type == TERKINOHA_TYPE_SOCK4 && s->low == 0 && s->high == 0;
    default: return 0;
    }
}

/* The kind of a statement by the type of its value. */
static int is_deed(const terkinoha_statement *s)
{
    switch (s->type) {
    case TERKINOHA_TYPE_PKT:
    case TERKINOHA_TYPE_PKT_GEN: return s->kind == TERKINOHA_STATEMENT_EMIT;
    case TERKINOHA_TYPE_TIME_JUMP: return s->kind == TERKINOHA_STATEMENT_WAIT;
    case TERKINOHA_TYPE_VOID: return s->kind == TERKINOHA_STATEMENT_EVAL;
    default: return s->kind == TERKINOHA_STATEMENT_DISCARD;
    }
}

/* A part: it has its expression's place in its first words, and stands after what it is a part of. */
static int is_part(const terkinoha_statement *s)
{
    if (s->line != s->expression_line || s->column != s->expression_column)
        return 0;
    switch (s->kind) {
    case TERKINOHA_PART_CALLEE: return s[-1].form == TERKINOHA_FORM_CALL && s->type == TERKINOHA_TYPE_FUNCTION && s->slot == 0;
    case TERKINOHA_PART_ARGUMENT: return s->slot < 2 && s->type != TERKINOHA_TYPE_VOID;
    case TERKINOHA_PART_LEFT: return s[-1].form == TERKINOHA_FORM_SLASH && s->type == TERKINOHA_TYPE_IP4 && s->slot == 0;
    case TERKINOHA_PART_RIGHT: return s->slot == 0 && is_integral(s->type);
    default: return 0;
    }
}

/* Slots are numbered from 0, each statement has all of its parts, and each place is a token's. Where all findings are kept, there is
 * one for each value that is discarded, with its place and type.
 */
static void check_statements(struct lent lent, struct outcome outcome)
{
    const terkinoha_statement *rows = (const terkinoha_statement *)(const void *)lent.filled[STATEMENTS].at;
    const terkinoha_diagnostic *found = (const terkinoha_diagnostic *)(const void *)lent.filled[FINDINGS].at;
    uint64_t at = 0, all = kept(CHECK_SOURCE, lent, outcome, FINDINGS), slots = 0, waiting = 0;
    for (uint64_t i = 0; i < outcome.counts[STATEMENTS]; i++) {
        const terkinoha_statement *s = &rows[i];
        int part = s->kind > TERKINOHA_STATEMENT_DISCARD;
        CHECK(token_at(lent, outcome.counts[ROWS], s->line, s->column) != NULL);
        CHECK(token_at(lent, outcome.counts[ROWS], s->expression_line, s->expression_column) != NULL);
        CHECK(is_expression(lent, outcome.counts[ROWS], s, slots));
        CHECK(part ? waiting > 0 && is_part(s) : waiting == 0);
        waiting += parts_of(s) - (uint64_t)part;
        if (s->kind == TERKINOHA_STATEMENT_LET)
            CHECK(s->slot == slots++ && parts_of(s) > 0 && s->type != TERKINOHA_TYPE_VOID);
        else
            CHECK(part || (is_deed(s) && s->slot == 0));
        if (s->kind != TERKINOHA_STATEMENT_DISCARD)
            continue;
        while (at < all && found[at].kind != TERKINOHA_FINDING_DISCARDED_VALUE)
            at++;
        CHECK(at < all ? found[at].line == s->line && found[at].column == s->column && found[at].type == s->type
                       : all < outcome.counts[FINDINGS]);
        at++;
    }
    CHECK(waiting == 0 && outcome.counts[STATEMENTS] <= outcome.counts[SECOND]); /* no more rows than nodes */
}

static void check_found(int entry, struct lent lent, struct outcome outcome)
{
    if (outcome.verdict.number != TERKINOHA_DONE)
        return;
    CHECK(same_verdict(outcome.verdict, 0, 0, 0, 0, 0));
    if (entry == SCAN)
        check_lexemes(lent, outcome.counts[ROWS]);
    else
        check_tokens(lent, outcome.counts[ROWS]);
    if (entry == PARSE || entry == CHECK_SOURCE)
        check_nodes(lent, outcome.counts[ROWS], outcome.counts[SECOND]);
    if (entry == CHECK_SOURCE) {
        check_findings(lent, outcome);
        check_statements(lent, outcome);
    }
}

/* ---- one call with rooms of so many bytes ---- */

struct rooms {
    size_t bytes[AREAS];
};

static struct lent lend(int entry, const void *source, size_t size, struct rooms rooms, int side)
{
    struct lent lent;
    memset(&lent, 0, sizeof lent);
    lent.source = area_of(source, size, side);
    for (int i = 0; i < areas[entry]; i++)
        lent.filled[i] = area_new(rooms.bytes[i], side);
    return lent;
}

static void give_back(int entry, struct lent lent)
{
    area_free(lent.source);
    for (int i = 0; i < areas[entry]; i++)
        area_free(lent.filled[i]);
}

static struct outcome tried(int entry, struct lent lent)
{
    lent_trying(names[entry], lent.source.at, lent.source.size);
    struct outcome outcome = call(entry, lent);
    check_verdict(entry, outcome.verdict);
    check_areas(entry, lent, outcome);
    check_found(entry, lent, outcome);
    return outcome;
}

/* ---- all rooms ---- */

/* The first call, with rooms that are always enough, and what it left. */
struct first {
    struct outcome outcome;
    struct lent lent;
    struct rooms wanted; /* how many bytes its rows take; of tokens and nodes also where it is refused after them */
};

/* As many bytes as always suffice for a source: of statements and findings as many rows as of tokens. */
static struct rooms enough(int entry, size_t size)
{
    struct rooms rooms = {{0, 0, 0, 0}};
    for (int i = 0; i < areas[entry]; i++)
        rooms.bytes[i] = units[entry][i] * (size + 1);
    if (entry == CANONICALISE)
        rooms.bytes[SECOND] = TERKINOHA_MOST_BYTES;
    return rooms;
}

/* What a refused source would want of the rooms that go before: the tokens and nodes that other calls find. */
static struct rooms wanted_before(int entry, const void *source, size_t size)
{
    struct rooms wanted = {{0, 0, 0, 0}}, rooms = enough(PARSE, size);
    if (entry == SCAN || size > TERKINOHA_MOST_BYTES)
        return wanted;
    terkinoha_token *tokens = (terkinoha_token *)malloc(rooms.bytes[ROWS]);
    terkinoha_node *nodes = (terkinoha_node *)malloc(rooms.bytes[SECOND]);
    CHECK(tokens != NULL && nodes != NULL);
    wanted.bytes[ROWS] = terkinoha_lex(source, size, tokens, size + 1).tokens * sizeof *tokens;
    wanted.bytes[SECOND] = terkinoha_parse(source, size, tokens, size + 1, nodes, size + 1).nodes * sizeof *nodes;
    free(nodes);
    free(tokens);
    return wanted;
}

/* Whatever a call with enough room says of a source, it is not that there is none. */
static struct first first_call(int entry, const void *source, size_t size, int side)
{
    struct first first;
    first.lent = lend(entry, source, size, enough(entry, size), side);
    first.outcome = tried(entry, first.lent);
    CHECK(first.outcome.verdict.number != TERKINOHA_REFUSED_TOKEN_ROOM);
    CHECK(first.outcome.verdict.number != TERKINOHA_REFUSED_NODE_ROOM);
    CHECK(first.outcome.verdict.number != TERKINOHA_REFUSED_STATEMENT_ROOM);
    if (first.outcome.verdict.number != TERKINOHA_DONE)
        first.wanted = wanted_before(entry, source, size);
    else
        for (int i = 0; i < AREAS; i++)
            first.wanted.bytes[i] = first.outcome.counts[i] * units[entry][i];
    return first;
}

/* The number that a source with some rooms has, if with enough room it has another: each in its turn. */
static uint64_t expected(int entry, struct first first, struct rooms rooms)
{
    const size_t *wanted = first.wanted.bytes;
    uint64_t number = first.outcome.verdict.number;
    int trees = entry == PARSE || entry == CHECK_SOURCE;
    if (number != TERKINOHA_DONE && number <= TERKINOHA_REFUSED_LEXICAL)
        return number;
    if (rooms.bytes[ROWS] < wanted[ROWS])
        return TERKINOHA_REFUSED_TOKEN_ROOM;
    if (number == TERKINOHA_REFUSED_SYNTAX || number == TERKINOHA_REFUSED_TOO_DEEP)
        return number;
    if (trees && rooms.bytes[SECOND] < wanted[SECOND])
        return TERKINOHA_REFUSED_NODE_ROOM;
    if (number != TERKINOHA_DONE)
        return number;
    if (entry == CANONICALISE && rooms.bytes[SECOND] < wanted[SECOND])
        return TERKINOHA_REFUSED_TEXT_ROOM;
    return rooms.bytes[STATEMENTS] < wanted[STATEMENTS] ? TERKINOHA_REFUSED_STATEMENT_ROOM : TERKINOHA_DONE;
}

/* The counts are the first call's in full; what is there to read is what it found. */
static void check_same(int entry, struct first first, struct lent lent, struct outcome outcome)
{
    CHECK(memcmp(&outcome, &first.outcome, sizeof outcome) == 0);
    for (int i = 0; i < areas[entry]; i++) {
        size_t size = kept(entry, lent, outcome, i) * units[entry][i];
        CHECK(memcmp(lent.filled[i].at, first.lent.filled[i].at, size) == 0);
    }
}

static void try_room(int entry, struct first first, struct rooms rooms, int side)
{
    struct lent lent = lend(entry, first.lent.source.at, first.lent.source.size, rooms, side);
    struct outcome outcome = tried(entry, lent);
    uint64_t number = expected(entry, first, rooms);
    if (number == first.outcome.verdict.number)
        check_same(entry, first, lent, outcome);
    else
        CHECK(same_verdict(outcome.verdict, number, 0, 0, 0, 0));
    give_back(entry, lent);
}

static size_t less(size_t size, size_t by)
{
    return size < by ? 0 : size - by;
}

/* One area with no room, room for one row, for one row or one word less than is found, and for some words over; the
 * others just as large as what is found there.
 */
static void try_area(int entry, struct first first, int i, int side)
{
    size_t unit = units[entry][i], word = unit == 1 ? 1 : sizeof(uint64_t), exact = first.wanted.bytes[i];
    const size_t sizes[] = {0, unit, less(exact, unit), less(exact, word), exact + unit - word};
    for (size_t j = 0; j < sizeof sizes / sizeof *sizes; j++) {
        struct rooms rooms = first.wanted;
        rooms.bytes[i] = sizes[j];
        if (sizes[j] != exact)
            try_room(entry, first, rooms, side);
    }
}

static void try_rooms(int entry, const void *source, size_t size, int side)
{
    struct first first = first_call(entry, source, size, side);
    struct rooms none = {{0, 0, 0, 0}}, one;
    memcpy(one.bytes, units[entry], sizeof one.bytes);
    try_room(entry, first, none, side);
    try_room(entry, first, one, side);
    try_room(entry, first, first.wanted, side);
    for (int i = 0; i < areas[entry]; i++)
        try_area(entry, first, i, side);
    give_back(entry, first.lent);
}

/* Two scripts, the second of which is the first one's canonical text, are checked alike: the same answer, the same findings, and
 * those of the same statements. In the text each statement has a line of its own.
 */
static void check_alike(struct lent one, struct lent text)
{
    struct outcome a = tried(CHECK_SOURCE, one), b = tried(CHECK_SOURCE, text);
    const terkinoha_diagnostic *of_one = (const terkinoha_diagnostic *)(const void *)one.filled[FINDINGS].at;
    const terkinoha_diagnostic *of_text = (const terkinoha_diagnostic *)(const void *)text.filled[FINDINGS].at;
    CHECK(a.verdict.number == b.verdict.number && a.verdict.kind == b.verdict.kind);
    CHECK(a.errors == b.errors && memcmp(a.counts, b.counts, sizeof a.counts) == 0);
    for (uint64_t i = 0; i < a.counts[FINDINGS]; i++) {
        CHECK(of_one[i].kind == of_text[i].kind && of_one[i].statement == of_text[i].statement);
        CHECK(of_text[i].statement == of_text[i].line);
    }
}

static void try_text(const void *source, size_t size)
{
    struct rooms rooms = enough(CHECK_SOURCE, size);
    struct lent lent = lend(CANONICALISE, source, size, enough(CANONICALISE, size), AT_END);
    struct outcome outcome = tried(CANONICALISE, lent);
    if (outcome.verdict.number == TERKINOHA_DONE) {
        struct lent one = lend(CHECK_SOURCE, source, size, rooms, AT_END);
        struct lent text = lend(CHECK_SOURCE, lent.filled[SECOND].at, outcome.counts[SECOND], rooms, AT_END);
        check_alike(one, text);
        give_back(CHECK_SOURCE, text);
        give_back(CHECK_SOURCE, one);
    }
    give_back(CANONICALISE, lent);
}

/* The token that covers a place, as the header says it, among all of them. */
static uint64_t covering(const terkinoha_token *rows, uint64_t count, uint64_t line, uint64_t column)
{
    for (uint64_t i = 0; i < count; i++)
        if (rows[i].line == line && rows[i].column <= column && column - rows[i].column < rows[i].end - rows[i].start)
            return i;
    return count;
}

static uint64_t covers(const terkinoha_token *rows, uint64_t count, uint64_t line, uint64_t column)
{
    uint64_t found = terkinoha_token_at(rows, count, line, column);
    CHECK(found == covering(rows, count, line, column));
    return found;
}

/* Each byte of a source, and places that it does not have: a token that covers a byte has it in its span. */
static void check_places(struct lent lent, uint64_t count)
{
    const terkinoha_token *rows = (const terkinoha_token *)(const void *)lent.filled[ROWS].at;
    uint64_t line = 1, column = 1;
    for (size_t at = 0; at < lent.source.size; at++) {
        uint64_t i = covers(rows, count, line, column);
        CHECK(i == count || (rows[i].start <= at && at < rows[i].end));
        column++;
        if (lent.source.at[at] != '\n')
            continue;
        for (uint64_t past = 0; past < 4; past++)
            covers(rows, count, line, column + past);
        line++;
        column = 1;
        covers(rows, count, line, 0);
    }
    static const uint64_t columns[] = {0, 1, 2, UINT64_MAX};
    for (size_t i = 0; i < sizeof columns / sizeof *columns; i++) {
        covers(rows, count, 0, columns[i]);
        covers(rows, count, 1, columns[i]);
        covers(rows, count, line, column + columns[i]);
        covers(rows, count, line + 1, columns[i]);
        covers(rows, count, UINT64_MAX, columns[i]);
    }
}

/* In a table of just as many rows as there are tokens: none before or after them is read. */
static void try_places(const void *source, size_t size)
{
    for (int side = AT_START; side < SIDES; side++) {
        struct first first = first_call(LEX, source, size, side);
        struct lent lent = lend(LEX, source, size, first.wanted, side);
        struct outcome outcome = tried(LEX, lent);
        check_places(lent, outcome.counts[ROWS]);
        give_back(LEX, lent);
        give_back(LEX, first.lent);
    }
}

static void try_source(const void *source, size_t size)
{
    for (int entry = SCAN; entry < ENTRIES; entry++)
        for (int side = AT_START; side < SIDES; side++)
            try_rooms(entry, source, size, side);
    try_text(source, size);
    try_places(source, size);
}

/* An empty area by a pointer that may not be followed is as good as NULL. */
static void try_empty(void)
{
    struct rooms none = {{0, 0, 0, 0}};
    struct lent lent = lend(CHECK_SOURCE, "", 0, none, AT_END);
    lent_trying("empty areas", lent.source.at, 0);
    terkinoha_token *rows = (terkinoha_token *)(void *)lent.filled[ROWS].at;
    terkinoha_lexed lexed = terkinoha_lex(lent.source.at, 0, rows, 0);
    CHECK(same_verdict(lexed.verdict, TERKINOHA_REFUSED_TOKEN_ROOM, 0, 0, 0, 0) && lexed.tokens == 0);
    terkinoha_scanned scanned = terkinoha_scan(lent.source.at, 0, NULL, 0);
    CHECK(same_verdict(scanned.verdict, TERKINOHA_DONE, 0, 0, 0, 0) && scanned.lexemes == 0);
    terkinoha_token eof;
    terkinoha_checked checked =
        terkinoha_check(lent.source.at, 0, &eof, 1, (terkinoha_node *)(void *)lent.filled[SECOND].at, 0,
                        (terkinoha_diagnostic *)(void *)lent.filled[FINDINGS].at, 0,
                        (terkinoha_statement *)(void *)lent.filled[STATEMENTS].at, 0);
    CHECK(same_verdict(checked.verdict, TERKINOHA_DONE, 0, 0, 0, 0) && checked.tokens == 1);
    CHECK(checked.nodes + checked.errors + checked.warnings + checked.statements + checked.comparisons == 0);
    checked = terkinoha_check(NULL, 0, NULL, 0, NULL, 0, NULL, 0, NULL, 0);
    CHECK(same_verdict(checked.verdict, TERKINOHA_REFUSED_TOKEN_ROOM, 0, 0, 0, 0) && checked.tokens == 0);
    give_back(CHECK_SOURCE, lent);
}

/* ---- sources ---- */

static unsigned char bytes[TERKINOHA_MOST_BYTES + 2];

/* 0, 1, 65,535, 65,536 and 65,537 bytes, of little and of much to find */
static void try_sizes(void)
{
    static const size_t sizes[] = {0, 1, 65535, 65536, 65537};
    static const char fills[] = {' ', '.', 'a', '"', '#', '\n', '0', '\xff', '\0'};
    for (size_t i = 0; i < sizeof sizes / sizeof *sizes; i++)
        for (size_t j = 0; j < sizeof fills; j++) {
            memset(bytes, fills[j], sizeof bytes);
            for (int entry = SCAN; entry < ENTRIES; entry++)
                try_rooms(entry, bytes, sizes[i], (int)j % SIDES);
        }
}

/* As many statements as the largest source has: all of them warnings, or all of them errors. */
static void try_most_statements(void)
{
    for (size_t i = 0; i < TERKINOHA_MOST_BYTES; i++)
        bytes[i] = i % 2 == 0 ? '1' : ';';
    try_rooms(CHECK_SOURCE, bytes, TERKINOHA_MOST_BYTES, AT_END);
    bytes[0] = 'a';
    try_rooms(CHECK_SOURCE, bytes, TERKINOHA_MOST_BYTES, AT_START);
}

#define PICK(from) from[random_below(sizeof(from) / sizeof *(from))]

static size_t put(size_t at, const char *piece)
{
    memcpy(bytes + at, piece, strlen(piece));
    return at + strlen(piece);
}

/* A script of `size` bytes at most: pieces of the language, some of them damaged. */
static size_t script(size_t size)
{
    static const char *const pieces[] = {
        "let x = ", "import bench;\n", "f(", ")", ",", ";\n", ".m", "/", ":", "::", "1.2.3.4", "80",
        "0x1F", "\"ab\"", "\"c\" ", "# note\n", "// note\n", "true", "name", " ", "\t", "\n", "a: ",
        "bench::deep::ZERO", "let y = 1.2.3.4/80;\n", "f(a, b: 2,);\n", "\xc2\xa0", "\xe2\x82\xac",
        "170141183460469231731687303715884105727", "00", "@", "\"\n", "1.2.3.4:80"};
    size_t at = 0;
    while (at + 40 < size)
        at = put(at, PICK(pieces));
    return at;
}

/* A script that parses: statements of which checking finds something to say; calls in many. */
static size_t statements(size_t size)
{
    static const char *const starts[] = {"let a = ", "let b = ", "let c = ", "let dd = ", "let e=", "", "", " ", "\n"};
    static const char *const values[] = {
        "a", "b", "c", "dd", "e", "f", "1", "0x100", "65536", "18446744073709551616", "true", "\"x\"", "\"x\"\n\"y\"",
        "1.2.3.4", "1.2.3.4:80", "bench", "nope::x", "bench::HTTP", "bench::LOOP", "bench::BIG", "bench::ON",
        "bench::BANNER", "bench::ping", "bench::deep", "bench::deep::ZERO", "bench::deep::ONE", "bench::HTTP::x",
        "bench::none::x", "1.2.3.4/80", "bench::LOOP/bench::BIG", "bench::pick(a)", "bench::host(bench::pick(7))",
        "bench::ping(bench::host(300))", "bench::burst(b, \"x\")", "bench::pause(c)", "bench::mark(dd)", "bench::host(1)/e",
        "bench::burst(bench::host(1)/a, bench::ping(b))", "bench::ping(a, b)", "bench::burst()", "bench::pick(a: 1)"};
    static const char *const steps[] = {".m", "/80", "/70000", "/a", "/b/c", "/true", "/bench::ping", "/\"x\""};
    static const char *const imports[] = {"import bench;\n", "import bench;", "import nope;\n", "import a;\n"};
    int calls = random_below(2) == 0;
    size_t at = random_below(4) == 0 ? 0 : put(0, "import bench;\n");
    while (at + 60 < size) {
        if (random_below(6) == 0) {
            at = put(at, PICK(imports));
            continue;
        }
        at = put(put(at, PICK(starts)), PICK(values));
        if (random_below(3) == 0)
            at = put(at, PICK(steps));
        if (calls && random_below(20) == 0)
            at = put(at, "(1)");
        at = put(at, random_below(3) == 0 ? "; # note\n" : ";");
    }
    return at;
}

/* Three that are good: one parses, two check with no error, of which one has calls. */
static const char *const good_scripts[] = {
    "import bench;\nlet a = 1.2.3.4/80; # web\nf(a, b: \"x\" \"y\",).m(g(1, 0x1f));\n"
    "let p = bench::deep::ZERO;\n1.2.3.4:80;\n\"\xc3\xa9\"\n\"z\";\n",
    "import bench;\nlet a = 1.2.3.4;\nlet p = 70000; # cut\na/p; a/bench::HTTP;\nbench::ping;\n\"x\" \"y\";\n"
    "let q = bench::deep::ZERO;\n1.2.3.4:80;\nq;\ntrue;\nbench::BANNER;\n65536;\n",
    "import bench;\nlet h = bench::host(300);\nlet k = h/bench::pick(70000);\nbench::burst(k, bench::ping(h));\n"
    "bench::pause(bench::pick(1)); bench::mark(h); let g = k; g;\nbench::burst(h/80, \"x\" \"y\");\n"};

/* One of them with a byte changed, left out or put in. */
static size_t damaged(void)
{
    const char *good = PICK(good_scripts);
    size_t size = strlen(good), at = random_below(size);
    unsigned char byte = (unsigned char)random_below(256);
    memcpy(bytes, good, size);
    switch (random_below(3)) {
    case 0:
        bytes[at] = byte;
        return size;
    case 1:
        memmove(bytes + at, bytes + at + 1, size - at - 1);
        return size - 1;
    default:
        memmove(bytes + at + 1, bytes + at, size - at);
        bytes[at] = byte;
        return size + 1;
    }
}

static size_t noise(size_t size)
{
    for (size_t i = 0; i < size; i++)
        bytes[i] = (unsigned char)random_below(256);
    return size;
}

static size_t ascii_noise(size_t size)
{
    for (size_t i = 0; i < size; i++)
        bytes[i] = (unsigned char)(random_below(20) ? 0x20 + random_below(95) : '\n');
    return size;
}

int main(int argc, char **argv)
{
    int count = argc > 1 ? atoi(argv[1]) : 500;
    lent_start();
    try_empty();
    try_sizes();
    try_most_statements();
    for (size_t i = 0; i < sizeof good_scripts / sizeof *good_scripts; i++)
        try_source(good_scripts[i], strlen(good_scripts[i]));
    for (int i = 0; i < count; i++) {
        try_source(bytes, script(random_below(400)));
        try_source(bytes, statements(random_below(600)));
        try_source(bytes, damaged());
        try_source(bytes, noise(random_below(40)));
        try_source(bytes, ascii_noise(random_below(120)));
    }
    printf("entries: %d sources of each kind, in all rooms and on both sides\n", count);
    return lent_done();
}
