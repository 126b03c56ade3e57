/* corpus: puts the cases of tests/corpus to the library, and compares what it answers with what is written there.
 *
 *     corpus FILE..            tells each answer that differs, and counts the cases
 *     corpus --write FILE..    prints the files with the library's answers in the place of those that are written
 *
 * tests/corpus/README.md has the form of a file. Exit status: 0 as written; 1 an answer differs, or a file has no case; 2 a file
 * cannot be read or has another form, or not all of the output was written.
 */
#include "terkinoha.h"

#include <errno.h>
#include <inttypes.h>
#include <stdarg.h>
#include <stdio.h>
#include <stdlib.h>
#include <string.h>

static void fail(const char *what, const char *why)
{
    fprintf(stderr, "corpus: %s: %s\n", what, why);
    exit(2);
}

/* Room for just so many rows, so that a tool that watches memory sees each step past them. It is not cleared: a call writes
 * every word of what it is lent.
 */
static void *lend(size_t rows, size_t row_size)
{
    if (rows == 0)
        return NULL;
    void *area = malloc(rows * row_size);
    if (area == NULL)
        fail("memory", "there is not enough");
    return area;
}

/* ---- texts that grow ---- */

struct text {
    char *bytes;
    size_t size, room;
};

static struct text no_text(void)
{
    struct text text = {NULL, 0, 0};
    return text;
}

static void put(struct text *out, const void *bytes, size_t size)
{
    if (out->room - out->size < size) {
        out->room = 2 * out->room + size;
        out->bytes = (char *)realloc(out->bytes, out->room);
        if (out->bytes == NULL)
            fail("memory", "there is not enough");
    }
    if (size != 0)
        memcpy(out->bytes + out->size, bytes, size);
    out->size += size;
}

static void put_string(struct text *out, const char *string)
{
    put(out, string, strlen(string));
}

#if defined(__GNUC__)
static void put_format(struct text *out, const char *format, ...) __attribute__((format(printf, 2, 3)));
#endif

/* As printf writes it. Formats are for a few numbers and for texts of the header, which are short. */
static void put_format(struct text *out, const char *format, ...)
{
    char made[256];
    va_list list;
    va_start(list, format);
    int size = vsnprintf(made, sizeof made, format, list);
    va_end(list);
    if (size < 0 || (size_t)size >= sizeof made)
        fail("an answer", "a piece of it is too long");
    put(out, made, (size_t)size);
}

static int same_text(const struct text *one, const struct text *other)
{
    return one->size == other->size && (one->size == 0 || memcmp(one->bytes, other->bytes, one->size) == 0);
}

/* ---- a file, and its lines ---- */

struct line {
    const char *start;
    size_t size; /* without its line end */
};

struct file {
    const char *name;
    struct text bytes;
    struct line *lines;
    size_t count;
};

/* Ends the program: cases of a file that is not understood would be missed by nobody. */
static void bad_form(const struct file *file, size_t line, const char *why)
{
    fprintf(stderr, "%s:%zu: %s\n", file->name, line + 1, why);
    exit(2);
}

static struct text read_bytes(const char *name)
{
    struct text bytes = no_text();
    char piece[4096];
    size_t size;
    FILE *from = fopen(name, "rb");
    if (from == NULL)
        fail(name, strerror(errno));
    while ((size = fread(piece, 1, sizeof piece, from)) != 0)
        put(&bytes, piece, size);
    if (ferror(from))
        fail(name, strerror(errno));
    fclose(from);
    return bytes;
}

static struct file read_file(const char *name)
{
    struct file file = {name, read_bytes(name), NULL, 0};
    const size_t size = file.bytes.size;
    file.lines = (struct line *)lend(size, sizeof *file.lines); /* a line has a byte at least */
    for (size_t at = 0; at < size;) {
        const char *start = file.bytes.bytes + at, *end = (const char *)memchr(start, '\n', size - at);
        struct line line = {start, end == NULL ? size - at : (size_t)(end - start)};
        file.lines[file.count++] = line;
        at += line.size + 1;
    }
    return file;
}

static void free_file(struct file *file)
{
    free(file->lines);
    free(file->bytes.bytes);
}

/* How many bytes of a line are a rule, which is one byte ten times or more; 0 where it does not begin with one. */
static size_t rule_size(const struct file *file, size_t number, char byte)
{
    struct line line = file->lines[number];
    size_t size = 0;
    while (size < line.size && line.start[size] == byte)
        size++;
    return size < 10 ? 0 : size;
}

static int begins_case(const struct file *file, size_t number)
{
    return rule_size(file, number, '=') != 0;
}

static int begins_part(const struct file *file, size_t number)
{
    return rule_size(file, number, '-') != 0;
}

/* The next line that begins a case or a part, from a line on; else the line after the last. */
static size_t next_rule(const struct file *file, size_t number)
{
    while (number < file->count && !begins_part(file, number) && !begins_case(file, number))
        number++;
    return number;
}

/* What a rule's line says after the rule, as a string that is cut to its room: no more than that is understood. */
static void after_rule(const struct file *file, size_t number, char byte, char *words, size_t room)
{
    struct line line = file->lines[number];
    size_t rule = rule_size(file, number, byte), size = line.size - rule;
    if (size >= room)
        size = room - 1;
    memcpy(words, line.start + rule, size);
    words[size] = '\0';
}

/* ---- a case ---- */

struct one_case {
    size_t first;         /* the line of its first rule; its title is the next line */
    size_t source, parts; /* the lines of its source: from the first of these up to the second */
    int escaped;
};

/* Whether a title stands after a rule, and another rule after it. */
static int has_title(const struct file *file, size_t first)
{
    return first + 2 < file->count && file->lines[first + 1].size != 0 && !begins_case(file, first + 1) &&
           rule_size(file, first + 2, '=') != 0 && rule_size(file, first + 2, '=') == file->lines[first + 2].size;
}

/* Reads the case whose first rule stands at a line. */
static struct one_case read_case(const struct file *file, size_t first)
{
    struct one_case one = {first, first + 3, 0, 0};
    char words[16];
    after_rule(file, first, '=', words, sizeof words);
    one.escaped = strcmp(words, " escaped") == 0;
    if (!one.escaped && words[0] != '\0')
        bad_form(file, first, "after this rule nothing may stand but ` escaped`");
    if (!has_title(file, first))
        bad_form(file, first, "a title does not stand between two rules");
    one.parts = next_rule(file, one.source);
    if (one.parts == file->count || begins_case(file, one.parts))
        bad_form(file, first, "a case has no part");
    return one;
}

/* What is written as the answer of a part. Empty lines at its end only part it from what comes next. */
static struct text written_answer(const struct file *file, size_t rule)
{
    struct text written = no_text();
    size_t past = next_rule(file, rule + 1);
    while (past > rule + 1 && file->lines[past - 1].size == 0)
        past--;
    for (size_t i = rule + 1; i < past; i++) {
        put(&written, file->lines[i].start, file->lines[i].size);
        put_string(&written, "\n");
    }
    return written;
}

/* ---- the source of a case ---- */

/* What is left to read of an escaped line, and where that stands. */
struct escaped {
    const struct file *file;
    size_t line;
    const char *at, *past;
    unsigned turn; /* of a piece that is repeated, from 1; else 0 */
};

static void bad_escape(const struct escaped *from)
{
    bad_form(from->file, from->line, "an escape is \\n \\t \\r \\\\ \\xHH \\{COUNT PIECE}, and in such a piece \\#");
}

static char next_byte(struct escaped *from)
{
    if (from->at == from->past)
        bad_escape(from);
    return *from->at++;
}

static unsigned next_hex_digit(struct escaped *from)
{
    static const char digits[] = "0123456789abcdef";
    const char *digit = (const char *)memchr(digits, next_byte(from), 16);
    if (digit == NULL)
        bad_escape(from);
    return (unsigned)(digit - digits);
}

static void put_unescaped(struct text *source, struct escaped from);

/* A count of no more than five digits, and the blank after it. */
static unsigned next_count(struct escaped *from)
{
    unsigned count = 0;
    char byte = next_byte(from);
    for (int digits = 0; digits < 5 && byte >= '0' && byte <= '9'; digits++, byte = next_byte(from))
        count = 10 * count + (unsigned)(byte - '0');
    if (byte != ' ')
        bad_escape(from);
    return count;
}

/* \{COUNT PIECE}, from after its brace on. A piece that is repeated has no other in it. */
static void put_repeated(struct text *source, struct escaped *from)
{
    unsigned count = next_count(from);
    const char *end = (const char *)memchr(from->at, '}', (size_t)(from->past - from->at));
    if (end == NULL || from->turn != 0)
        bad_escape(from);
    struct escaped piece = {from->file, from->line, from->at, end, 0};
    for (piece.turn = 1; piece.turn <= count; piece.turn++)
        put_unescaped(source, piece);
    from->at = end + 1;
}

static void put_byte(struct text *source, unsigned value)
{
    unsigned char byte = (unsigned char)value;
    put(source, &byte, 1);
}

/* What an escape stands for, from after its backslash on. */
static void put_escape(struct text *source, struct escaped *from)
{
    unsigned high;
    switch (next_byte(from)) {
    case 'n': put_byte(source, '\n'); break;
    case 't': put_byte(source, '\t'); break;
    case 'r': put_byte(source, '\r'); break;
    case '\\': put_byte(source, '\\'); break;
    case 'x':
        high = next_hex_digit(from);
        put_byte(source, 16 * high + next_hex_digit(from));
        break;
    case '{': put_repeated(source, from); break;
    case '#':
        if (from->turn == 0)
            bad_escape(from);
        put_format(source, "%u", from->turn);
        break;
    default: bad_escape(from);
    }
}

static void put_unescaped(struct text *source, struct escaped from)
{
    while (from.at != from.past) {
        char byte = next_byte(&from);
        if (byte == '\\')
            put_escape(source, &from);
        else
            put(source, &byte, 1);
    }
}

/* Byte 10 stands between the lines of a source, and none after the last. */
static struct text source_of(const struct file *file, const struct one_case *one)
{
    struct text source = no_text();
    for (size_t i = one->source; i < one->parts; i++) {
        struct line line = file->lines[i];
        struct escaped from = {file, i, line.start, line.start + line.size, 0};
        if (i > one->source)
            put_string(&source, "\n");
        if (one->escaped)
            put_unescaped(&source, from);
        else
            put(&source, line.start, line.size);
    }
    return source;
}

/* ---- bytes and values of a source ---- */

struct script {
    const unsigned char *bytes;
    size_t size;
    int escaped; /* its bytes are shown with escapes */
};

static void put_shown_byte(struct text *out, unsigned char byte)
{
    switch (byte) {
    case '\n': put_string(out, "\\n"); break;
    case '\t': put_string(out, "\\t"); break;
    case '\r': put_string(out, "\\r"); break;
    case '\\': put_string(out, "\\\\"); break;
    default: put_format(out, byte >= 0x20 && byte < 0x7F ? "%c" : "\\x%02x", byte);
    }
}

/* Bytes of the source, or made of them, as the source is written: as they are, or with escapes. */
static void put_shown(struct text *out, const struct script *script, const void *bytes, size_t size)
{
    const unsigned char *shown = (const unsigned char *)bytes;
    for (size_t i = 0; i < size; i++) {
        if (script->escaped)
            put_shown_byte(out, shown[i]);
        else
            put(out, &shown[i], 1);
    }
}

static void put_span(struct text *out, const struct script *script, uint64_t start, uint64_t end)
{
    put_shown(out, script, script->bytes + start, end - start);
}

/* An integer of two words: its decimal digits come from the last to the first. */
static void put_integer(struct text *out, uint64_t high, uint64_t low)
{
    char digits[40];
    size_t at = sizeof digits;
    uint32_t parts[4] = {(uint32_t)(high >> 32), (uint32_t)high, (uint32_t)(low >> 32), (uint32_t)low};
    do {
        uint64_t rest = 0;
        for (int i = 0; i < 4; i++) {
            uint64_t part = rest << 32 | parts[i];
            parts[i] = (uint32_t)(part / 10);
            rest = part % 10;
        }
        digits[--at] = (char)('0' + rest);
    } while ((parts[0] | parts[1] | parts[2] | parts[3]) != 0);
    put(out, digits + at, sizeof digits - at);
}

static void put_address(struct text *out, uint64_t address)
{
    put_format(out, "%" PRIu64 ".%" PRIu64 ".%" PRIu64 ".%" PRIu64, address >> 24, address >> 16 & 255,
               address >> 8 & 255, address & 255);
}

static void put_bool(struct text *out, uint64_t value)
{
    put_string(out, value == 0 ? "false" : value == 1 ? "true" : "neither true nor false");
}

/* As many bodies as the token says that it has, each in quotes. */
static void put_bodies(struct text *out, const struct script *script, const terkinoha_token *token)
{
    terkinoha_body body = {1, 0, 0, 0};
    for (uint64_t i = 0; i < token->low && body.found; i++) {
        body = terkinoha_body_at(script->bytes, script->size, token->start, token->end, i);
        put_string(out, i == 0 ? "\"" : " \"");
        put_span(out, script, body.start, body.end);
        put_string(out, body.found ? "\"" : "\" which is not there");
    }
}

/* The value of a token; nothing where its kind has none. */
static void put_value(struct text *out, const struct script *script, const terkinoha_token *token)
{
    switch (token->kind) {
    case TERKINOHA_TOKEN_IDENTIFIER: put_span(out, script, token->start, token->end); break;
    case TERKINOHA_TOKEN_BOOLEAN_LITERAL: put_bool(out, token->low); break;
    case TERKINOHA_TOKEN_IPV4_LITERAL: put_address(out, token->low); break;
    case TERKINOHA_TOKEN_STRING_LITERAL: put_bodies(out, script, token); break;
    case TERKINOHA_TOKEN_HEX_LITERAL:
    case TERKINOHA_TOKEN_DEC_LITERAL: put_integer(out, token->high, token->low); break;
    }
}

/* ---- what all answers have ---- */

static void put_place(struct text *out, uint64_t line, uint64_t column)
{
    put_format(out, "%" PRIu64 ":%" PRIu64, line, column);
}

static void put_indent(struct text *out, unsigned depth)
{
    for (unsigned i = 0; i < depth; i++)
        put_string(out, "  ");
}

static void put_character(struct text *out, uint64_t character)
{
    put_format(out, " U+%04" PRIX64, character);
}

static void put_refusal(struct text *out, terkinoha_verdict verdict)
{
    put_format(out, "refused %" PRIu64, verdict.number);
    if (verdict.line != 0) {
        put_string(out, " at ");
        put_place(out, verdict.line, verdict.column);
    }
    put_format(out, ": %s", terkinoha_verdict_text(verdict));
    if (verdict.number == TERKINOHA_REFUSED_LEXICAL && verdict.kind == TERKINOHA_ERROR_UNEXPECTED_CHAR)
        put_character(out, verdict.character);
    put_string(out, "\n");
}

/* Rows of the tables that are lent, and bytes of the text. */
struct rooms {
    size_t lexemes, tokens, nodes, findings, statements, bytes;
};

/* The rooms that are always enough, in the two steps of the header: first a row for each byte and one for `Eof`, then as many
 * rows as there are tokens. A source that does not lex is put to the call with the larger rooms, to be refused by it too.
 */
static struct rooms enough_for(const struct script *script)
{
    size_t most = script->size + 1;
    terkinoha_token *tokens = (terkinoha_token *)lend(most, sizeof *tokens);
    terkinoha_lexed lexed = terkinoha_lex(script->bytes, script->size, tokens, most);
    size_t rows = lexed.verdict.number == TERKINOHA_DONE ? lexed.tokens : most;
    struct rooms rooms = {script->size, rows, rows, rows, rows, TERKINOHA_MOST_BYTES};
    free(tokens);
    return rooms;
}

/* ---- lexemes ---- */

/* A string literal is shown as a token of one literal, which a lexeme never is. */
static terkinoha_token as_token(const terkinoha_lexeme *lexeme)
{
    terkinoha_token token = {lexeme->kind, 0, 0, lexeme->start, lexeme->end, lexeme->low, lexeme->high};
    if (lexeme->class_ == TERKINOHA_LEXEME_STRING) {
        token.kind = TERKINOHA_TOKEN_STRING_LITERAL;
        token.low = 1;
    }
    return token;
}

static void put_token(struct text *out, const struct script *script, const terkinoha_token *token)
{
    put_string(out, terkinoha_kind_text(token->kind));
    if (token->kind >= TERKINOHA_TOKEN_IDENTIFIER)
        put_string(out, " ");
    put_value(out, script, token);
    put_string(out, "\n");
}

static void put_lexeme(struct text *out, const struct script *script, const terkinoha_lexeme *lexeme)
{
    terkinoha_token token = as_token(lexeme);
    put_format(out, "%" PRIu64 "..%" PRIu64 " ", lexeme->start, lexeme->end);
    if (lexeme->class_ == TERKINOHA_LEXEME_TRIVIA) {
        put_string(out, "trivia\n");
    } else if (lexeme->class_ == TERKINOHA_LEXEME_ERROR) {
        put_format(out, "error: %s", terkinoha_error_text(lexeme->kind));
        if (lexeme->kind == TERKINOHA_ERROR_UNEXPECTED_CHAR)
            put_character(out, lexeme->low);
        put_string(out, "\n");
    } else {
        put_token(out, script, &token);
    }
}

static void answer_lexemes(struct text *out, const struct script *script, const struct rooms *rooms)
{
    terkinoha_lexeme *lexemes = (terkinoha_lexeme *)lend(rooms->lexemes, sizeof *lexemes);
    terkinoha_scanned scanned = terkinoha_scan(script->bytes, script->size, lexemes, rooms->lexemes);
    if (scanned.verdict.number != TERKINOHA_DONE)
        put_refusal(out, scanned.verdict);
    for (uint64_t i = 0; i < scanned.lexemes; i++)
        put_lexeme(out, script, &lexemes[i]);
    free(lexemes);
}

/* ---- tokens ---- */

static void answer_tokens(struct text *out, const struct script *script, const struct rooms *rooms)
{
    terkinoha_token *tokens = (terkinoha_token *)lend(rooms->tokens, sizeof *tokens);
    terkinoha_lexed lexed = terkinoha_lex(script->bytes, script->size, tokens, rooms->tokens);
    if (lexed.verdict.number != TERKINOHA_DONE)
        put_refusal(out, lexed.verdict);
    for (uint64_t i = 0; i < lexed.tokens; i++) {
        put_place(out, tokens[i].line, tokens[i].column);
        put_string(out, " ");
        put_token(out, script, &tokens[i]);
    }
    free(tokens);
}

/* ---- a tree ---- */

struct tree {
    const struct script *script;
    const terkinoha_token *tokens;
    const terkinoha_node *nodes;
};

static void put_token_of(struct text *out, const struct tree *tree, uint64_t token)
{
    put_value(out, tree->script, &tree->tokens[token]);
}

static void put_place_of(struct text *out, const struct tree *tree, uint64_t token)
{
    put_place(out, tree->tokens[token].line, tree->tokens[token].column);
}

/* What a node's line says after its kind. */
static void put_own(struct text *out, const struct tree *tree, const terkinoha_node *node)
{
    switch (node->kind) {
    case TERKINOHA_NODE_NAME:
    case TERKINOHA_NODE_LITERAL:
    case TERKINOHA_NODE_LOCAL:
    case TERKINOHA_NODE_PATH:
    case TERKINOHA_NODE_NAMED_ARGUMENT:
    case TERKINOHA_NODE_IMPORT:
    case TERKINOHA_NODE_LET:
        put_string(out, " ");
        put_token_of(out, tree, node->token);
        break;
    case TERKINOHA_NODE_SOCK4:
        put_string(out, " ");
        put_token_of(out, tree, node->token);
        put_string(out, ":");
        put_token_of(out, tree, node->token + 2);
        break;
    case TERKINOHA_NODE_MEMBER:
        put_string(out, " ");
        put_token_of(out, tree, node->second);
        put_string(out, ", at ");
        put_place_of(out, tree, node->second);
        break;
    case TERKINOHA_NODE_CALL:
        put_string(out, ", `(` at ");
        put_place_of(out, tree, node->third);
        break;
    }
}

static void put_node(struct text *out, const struct tree *tree, uint64_t row, unsigned depth);

/* The nodes below a node, in the order of the source. */
static void put_children(struct text *out, const struct tree *tree, uint64_t row, unsigned depth)
{
    const terkinoha_node *node = &tree->nodes[row];
    switch (node->kind) {
    case TERKINOHA_NODE_PATH: /* its further names stand just before it */
        for (uint64_t name = row - node->first; name < row; name++)
            put_node(out, tree, name, depth);
        break;
    case TERKINOHA_NODE_SLASH:
        put_node(out, tree, node->first, depth);
        put_node(out, tree, node->second, depth);
        break;
    case TERKINOHA_NODE_CALL:
        put_node(out, tree, node->first, depth);
        for (uint64_t next = node->second; next != 0; next = tree->nodes[next - 1].second)
            put_node(out, tree, next - 1, depth);
        break;
    case TERKINOHA_NODE_MEMBER:
    case TERKINOHA_NODE_ARGUMENT:
    case TERKINOHA_NODE_NAMED_ARGUMENT:
    case TERKINOHA_NODE_LET:
    case TERKINOHA_NODE_EXPRESSION: put_node(out, tree, node->first, depth); break;
    }
}

/* A node to a line, and those below it indented. They are at most some thousand deep: lists and steps are bounded. */
static void put_node(struct text *out, const struct tree *tree, uint64_t row, unsigned depth)
{
    const terkinoha_node *node = &tree->nodes[row];
    put_indent(out, depth);
    put_place_of(out, tree, node->token);
    put_format(out, " %s", terkinoha_node_text(node->kind));
    put_own(out, tree, node);
    put_string(out, "\n");
    put_children(out, tree, row, depth + 1);
}

static void answer_tree(struct text *out, const struct script *script, const struct rooms *rooms)
{
    terkinoha_token *tokens = (terkinoha_token *)lend(rooms->tokens, sizeof *tokens);
    terkinoha_node *nodes = (terkinoha_node *)lend(rooms->nodes, sizeof *nodes);
    terkinoha_parsed parsed =
        terkinoha_parse(script->bytes, script->size, tokens, rooms->tokens, nodes, rooms->nodes);
    struct tree tree = {script, tokens, nodes};
    if (parsed.verdict.number != TERKINOHA_DONE)
        put_refusal(out, parsed.verdict);
    for (uint64_t row = 0; row < parsed.nodes; row++)
        if (nodes[row].kind >= TERKINOHA_NODE_IMPORT) /* a statement; other nodes are below one */
            put_node(out, &tree, row, 0);
    free(nodes);
    free(tokens);
}

/* ---- findings ---- */

/* A part of the constant table's text. */
static void put_item(struct text *out, uint64_t start, uint64_t end)
{
    put(out, &TERKINOHA_TABLE_TEXT[start], end - start);
}

/* The text that a finding has: a name of the source, or the name of a function of the table. */
static void put_named(struct text *out, const struct script *script, const terkinoha_diagnostic *found)
{
    switch (found->text) {
    case TERKINOHA_TEXT_SOURCE: put_span(out, script, found->start, found->end); break;
    case TERKINOHA_TEXT_TABLE: put_item(out, found->start, found->end); break;
    default: put_string(out, "no text");
    }
}

static void put_type(struct text *out, const struct script *script, const terkinoha_diagnostic *found)
{
    put_string(out, terkinoha_type_text(found->type));
    if (found->type == TERKINOHA_TYPE_FUNCTION) {
        put_string(out, " ");
        put_named(out, script, found);
    }
}

/* The type found, and the one that is wanted in its place. */
static void put_types(struct text *out, const struct script *script, const terkinoha_diagnostic *found, uint64_t wanted)
{
    put_type(out, script, found);
    put_format(out, " for %s", terkinoha_type_text(wanted));
}

static const char *side_name(uint64_t side)
{
    return side == 1 ? "left" : side == 2 ? "right" : "unknown side";
}

static const char *operator_name(uint64_t operator_number)
{
    return operator_number == 1 ? "`/`" : "unknown operator";
}

/* What a finding's line says after its kind. */
static void put_fields(struct text *out, const struct script *script, const terkinoha_diagnostic *found)
{
    switch (found->kind) {
    case TERKINOHA_FINDING_UNKNOWN_NAME:
    case TERKINOHA_FINDING_UNKNOWN_MODULE:
    case TERKINOHA_FINDING_NOT_IMPORTED:
    case TERKINOHA_FINDING_NOT_A_MODULE:
    case TERKINOHA_FINDING_NOT_A_VALUE:
    case TERKINOHA_FINDING_MULTIPLE_IMPORTS: put_named(out, script, found); break;
    case TERKINOHA_FINDING_UNKNOWN_ITEM:
        put_named(out, script, found);
        put_format(out, " of %s", terkinoha_entry_name(found->first));
        break;
    case TERKINOHA_FINDING_ALREADY_BOUND:
        put_named(out, script, found);
        put_string(out, ", at ");
        put_place(out, found->first, found->second);
        break;
    case TERKINOHA_FINDING_NO_MEMBERS:
    case TERKINOHA_FINDING_NOT_CALLABLE:
    case TERKINOHA_FINDING_DISCARDED_VALUE: put_type(out, script, found); break;
    case TERKINOHA_FINDING_OPERAND_TYPE:
        put_format(out, "%s of %s, ", side_name(found->first), operator_name(found->third));
        put_types(out, script, found, found->second);
        break;
    case TERKINOHA_FINDING_TOO_MANY_ARGS:
    case TERKINOHA_FINDING_TOO_FEW_ARGS:
        put_named(out, script, found);
        put_format(out, ", %" PRIu64 " for %" PRIu64, found->first, found->second);
        break;
    case TERKINOHA_FINDING_ARG_TYPE:
        put_format(out, "%s of %s, ", terkinoha_param_name(found->first, found->second),
                   terkinoha_entry_name(found->first));
        put_types(out, script, found, found->third);
        break;
    case TERKINOHA_FINDING_TRUNCATED:
        put_integer(out, found->second, found->first);
        put_format(out, " for %s", terkinoha_type_text(found->type));
        break;
    case TERKINOHA_FINDING_OVERFLOW: put_types(out, script, found, found->first); break;
    }
}

static int has_fields(uint64_t kind)
{
    return kind != TERKINOHA_FINDING_VOID_VALUE && kind != TERKINOHA_FINDING_INTEGRAL_TOO_LARGE;
}

static const char *severity_name(uint64_t severity)
{
    switch (severity) {
    case TERKINOHA_SEVERITY_ERROR: return "error";
    case TERKINOHA_SEVERITY_WARNING: return "warning";
    default: return "unknown severity";
    }
}

static void put_finding(struct text *out, const struct script *script, const terkinoha_diagnostic *found)
{
    put_place(out, found->line, found->column);
    put_format(out, " %s: %s", severity_name(found->severity), terkinoha_finding_text(found->kind));
    if (has_fields(found->kind))
        put_string(out, ": ");
    put_fields(out, script, found);
    put_string(out, "\n");
}

/* ---- statements ---- */

static const char *row_name(uint64_t kind)
{
    switch (kind) {
    case TERKINOHA_STATEMENT_LET: return "Let";
    case TERKINOHA_STATEMENT_EMIT: return "Emit";
    case TERKINOHA_STATEMENT_WAIT: return "Wait";
    case TERKINOHA_STATEMENT_EVAL: return "Eval";
    case TERKINOHA_STATEMENT_DISCARD: return "Discard";
    case TERKINOHA_PART_CALLEE: return "callee";
    case TERKINOHA_PART_ARGUMENT: return "argument";
    case TERKINOHA_PART_LEFT: return "left";
    case TERKINOHA_PART_RIGHT: return "right";
    default: return "unknown row";
    }
}

/* The rows of a check's statements, and what they point into. */
struct held {
    const struct script *script;
    const terkinoha_token *tokens;
    const terkinoha_statement *rows;
    uint64_t count;
};

static void put_constant(struct text *out, const struct held *held, const terkinoha_statement *row)
{
    put_format(out, "constant %s ", terkinoha_type_text(row->type));
    switch (row->type) {
    case TERKINOHA_TYPE_BOOL: put_bool(out, row->low); break;
    case TERKINOHA_TYPE_IP4: put_address(out, row->low); break;
    case TERKINOHA_TYPE_SOCK4:
        put_address(out, row->low);
        put_format(out, ":%" PRIu64, row->high);
        break;
    case TERKINOHA_TYPE_BYTES:
        if (row->text == TERKINOHA_TEXT_SOURCE) {
            put_bodies(out, held->script, &held->tokens[row->low]);
        } else {
            put_string(out, "\"");
            put_item(out, row->low, row->high);
            put_string(out, "\"");
        }
        break;
    case TERKINOHA_TYPE_FUNCTION: put_item(out, row->low, row->high); break;
    default: put_format(out, "%" PRIu64, row->low);
    }
}

/* What an expression is, and its type. */
static void put_expression(struct text *out, const struct held *held, const terkinoha_statement *row)
{
    const char *type = terkinoha_type_text(row->type);
    switch (row->form) {
    case TERKINOHA_FORM_CONSTANT: put_constant(out, held, row); break;
    case TERKINOHA_FORM_SLOT: put_format(out, "slot %" PRIu64 ", %s", row->low, type); break;
    case TERKINOHA_FORM_CALL:
        put_format(out, "call of %s, %" PRIu64 " argument%s, %s", terkinoha_entry_name(row->low), row->high,
                   row->high == 1 ? "" : "s", type);
        break;
    case TERKINOHA_FORM_SLASH: put_format(out, "`/`, %s", type); break;
    default: put_string(out, "unknown form");
    }
    if (row->expression_line != row->line || row->expression_column != row->column) {
        put_string(out, ", at ");
        put_place(out, row->expression_line, row->expression_column);
    }
}

static uint64_t parts_of(const terkinoha_statement *row)
{
    return row->form == TERKINOHA_FORM_CALL ? 1 + row->high : row->form == TERKINOHA_FORM_SLASH ? 2 : 0;
}

/* A row to a line, and its parts indented below it. `entry` is the function whose argument it may be. Answers the next row. */
static uint64_t put_row(struct text *out, const struct held *held, uint64_t at, uint64_t entry, unsigned depth)
{
    const terkinoha_statement *row = &held->rows[at];
    put_indent(out, depth);
    put_place(out, row->line, row->column);
    put_format(out, " %s", row_name(row->kind));
    if (row->kind == TERKINOHA_STATEMENT_LET)
        put_format(out, " slot %" PRIu64, row->slot);
    if (row->kind == TERKINOHA_PART_ARGUMENT)
        put_format(out, " `%s`", terkinoha_param_name(entry, row->slot));
    put_string(out, ": ");
    put_expression(out, held, row);
    put_string(out, "\n");
    at++;
    for (uint64_t i = 0; i < parts_of(row) && at < held->count; i++)
        at = put_row(out, held, at, row->low, depth + 1);
    return at;
}

/* ---- a check ---- */

/* What a check answered, with the tables that it was lent. */
struct checking {
    terkinoha_token *tokens;
    terkinoha_node *nodes;
    terkinoha_diagnostic *found;
    terkinoha_statement *statements;
    terkinoha_checked checked;
    uint64_t kept; /* how many of the findings the table has */
};

static struct checking check(const struct script *script, const struct rooms *rooms)
{
    struct checking one;
    one.tokens = (terkinoha_token *)lend(rooms->tokens, sizeof *one.tokens);
    one.nodes = (terkinoha_node *)lend(rooms->nodes, sizeof *one.nodes);
    one.found = (terkinoha_diagnostic *)lend(rooms->findings, sizeof *one.found);
    one.statements = (terkinoha_statement *)lend(rooms->statements, sizeof *one.statements);
    one.checked = terkinoha_check(script->bytes, script->size, one.tokens, rooms->tokens, one.nodes, rooms->nodes,
                                  one.found, rooms->findings, one.statements, rooms->statements);
    one.kept = one.checked.errors + one.checked.warnings;
    if (one.kept > rooms->findings)
        one.kept = rooms->findings;
    return one;
}

static void free_checking(struct checking *one)
{
    free(one->statements);
    free(one->found);
    free(one->nodes);
    free(one->tokens);
}

static void put_counts(struct text *out, const terkinoha_checked *checked)
{
    put_format(out, "errors %" PRIu64 " warnings %" PRIu64, checked->errors, checked->warnings);
}

static void answer_check(struct text *out, const struct script *script, const struct rooms *rooms)
{
    struct checking one = check(script, rooms);
    struct held held = {script, one.tokens, one.statements, one.checked.statements};
    uint64_t at = 0;
    if (one.checked.verdict.number != TERKINOHA_DONE) {
        put_refusal(out, one.checked.verdict);
    } else {
        for (uint64_t i = 0; i < one.kept; i++)
            put_finding(out, script, &one.found[i]);
        put_counts(out, &one.checked);
        put_string(out, "\n");
    }
    while (at < held.count)
        at = put_row(out, &held, at, 0, 0);
    free_checking(&one);
}

static void answer_grouped(struct text *out, const struct script *script, const struct rooms *rooms)
{
    struct checking one = check(script, rooms);
    if (one.checked.verdict.number != TERKINOHA_DONE) {
        put_refusal(out, one.checked.verdict);
    } else {
        for (uint64_t i = 0; i < one.kept; i++) {
            put_format(out, "statement %" PRIu64 ": ", one.found[i].statement);
            put_finding(out, script, &one.found[i]);
        }
        put_counts(out, &one.checked);
        put_format(out, " comparisons %" PRIu64 "\n", one.checked.comparisons);
    }
    free_checking(&one);
}

/* ---- canonical text ---- */

/* Lines as they are; a last one that no byte 10 ends has a backslash after it, which no token ends with. */
static void put_lines(struct text *out, const struct script *script, const char *text, size_t size)
{
    while (size != 0) {
        const char *end = (const char *)memchr(text, '\n', size);
        size_t line = end == NULL ? size : (size_t)(end - text);
        put_shown(out, script, text, line);
        put_string(out, end == NULL ? "\\\n" : "\n");
        line += end != NULL;
        text += line;
        size -= line;
    }
}

static void answer_text(struct text *out, const struct script *script, const struct rooms *rooms)
{
    terkinoha_token *tokens = (terkinoha_token *)lend(rooms->tokens, sizeof *tokens);
    char *text = (char *)lend(rooms->bytes, 1);
    terkinoha_canonised canonised =
        terkinoha_canonicalise(script->bytes, script->size, tokens, rooms->tokens, text, rooms->bytes);
    if (canonised.verdict.number != TERKINOHA_DONE)
        put_refusal(out, canonised.verdict);
    put_lines(out, script, text, canonised.bytes);
    free(text);
    free(tokens);
}

/* ---- the parts of a case ---- */

struct part {
    const char *name;
    void (*answer)(struct text *out, const struct script *script, const struct rooms *rooms);
};

static const struct part parts[] = {
    {"lexemes", answer_lexemes}, {"tokens", answer_tokens},   {"tree", answer_tree},
    {"check", answer_check},     {"grouped", answer_grouped}, {"text", answer_text},
};

static const struct part *part_named(const char *name)
{
    for (size_t i = 0; i < sizeof parts / sizeof *parts; i++)
        if (strcmp(parts[i].name, name) == 0)
            return &parts[i];
    return NULL;
}

static size_t *room_named(struct rooms *rooms, const char *name)
{
    if (strcmp(name, "lexemes") == 0)
        return &rooms->lexemes;
    if (strcmp(name, "tokens") == 0)
        return &rooms->tokens;
    if (strcmp(name, "nodes") == 0)
        return &rooms->nodes;
    if (strcmp(name, "findings") == 0)
        return &rooms->findings;
    if (strcmp(name, "statements") == 0)
        return &rooms->statements;
    return strcmp(name, "bytes") == 0 ? &rooms->bytes : NULL;
}

/* The part that a rule names, as ` NAME` or ` NAME with room for COUNT ROWS`; sets that room. What was read is written again and
 * compared, as nothing else may stand in the line.
 */
static const struct part *read_part(const struct file *file, size_t rule, struct rooms *rooms)
{
    char words[64], again[64], name[16] = "", rows[16] = "";
    unsigned count = 0;
    after_rule(file, rule, '-', words, sizeof words);
    int read = sscanf(words, " %15s with room for %u %15s", name, &count, rows);
    const struct part *part = part_named(name);
    size_t *room = read == 3 ? room_named(rooms, rows) : NULL;
    if (room != NULL) {
        snprintf(again, sizeof again, " %s with room for %u %s", name, count, rows);
        *room = count;
    } else {
        snprintf(again, sizeof again, " %s", name);
    }
    if (part == NULL || strcmp(words, again) != 0)
        bad_form(file, rule, "a part is lexemes, tokens, tree, check, grouped or text, and may say `with room for COUNT ROWS`");
    return part;
}

static struct text answer_part(const struct file *file, size_t rule, const struct script *script)
{
    struct text answer = no_text();
    struct rooms rooms = enough_for(script);
    read_part(file, rule, &rooms)->answer(&answer, script, &rooms);
    return answer;
}

/* ---- a file of cases ---- */

struct counts {
    size_t cases, different, empty_files;
};

static void print_text(const struct text *text)
{
    if (text->size != 0)
        fwrite(text->bytes, 1, text->size, stdout);
}

static void print_lines(const struct file *file, size_t from, size_t past)
{
    for (size_t i = from; i < past; i++) {
        fwrite(file->lines[i].start, 1, file->lines[i].size, stdout);
        putchar('\n');
    }
}

static void tell_difference(const struct file *file, const struct one_case *one, size_t rule, const struct text *written,
                            const struct text *answer)
{
    printf("%s:%zu: ", file->name, rule + 1);
    print_lines(file, one->first + 1, one->first + 2);
    printf("-- is written:\n");
    print_text(written);
    printf("-- is answered:\n");
    print_text(answer);
}

/* Compares the answer of a part, or prints it with its rule. Answers whether it is as written. */
static int do_part(const struct file *file, const struct one_case *one, size_t rule, const struct script *script, int writing)
{
    struct text written = written_answer(file, rule), answer = answer_part(file, rule, script);
    int same = same_text(&written, &answer);
    if (writing) {
        print_lines(file, rule, rule + 1);
        print_text(&answer);
    } else if (!same) {
        tell_difference(file, one, rule, &written, &answer);
    }
    free(answer.bytes);
    free(written.bytes);
    return same;
}

/* Answers the line after the case. */
static size_t do_case(const struct file *file, size_t first, int writing, struct counts *counts)
{
    struct one_case one = read_case(file, first);
    struct text source = source_of(file, &one);
    unsigned char *bytes = (unsigned char *)lend(source.size, 1);
    if (source.size != 0)
        memcpy(bytes, source.bytes, source.size);
    struct script script = {bytes, source.size, one.escaped};
    size_t at = one.parts;
    int same = 1;
    if (writing)
        print_lines(file, first, one.parts);
    for (; at < file->count && begins_part(file, at); at = next_rule(file, at + 1))
        same &= do_part(file, &one, at, &script, writing);
    if (writing && at < file->count)
        putchar('\n');
    counts->cases++;
    counts->different += !same;
    free(bytes);
    free(source.bytes);
    return at;
}

/* What stands before the first case of a file is a note. */
static size_t past_note(const struct file *file)
{
    size_t at = next_rule(file, 0);
    if (at < file->count && begins_part(file, at))
        bad_form(file, at, "a part of no case");
    return at;
}

static void do_file(const char *name, int writing, struct counts *counts)
{
    struct file file = read_file(name);
    size_t at = past_note(&file);
    if (at == file.count) {
        fprintf(stderr, "%s: no case\n", name);
        counts->empty_files++;
    }
    if (writing)
        print_lines(&file, 0, at);
    while (at < file.count)
        at = do_case(&file, at, writing, counts);
    free_file(&file);
}

int main(int argc, char **argv)
{
    struct counts counts = {0, 0, 0};
    int writing = argc > 1 && strcmp(argv[1], "--write") == 0;
    if (argc < 2 + writing) {
        fprintf(stderr, "usage: corpus [--write] FILE..\n");
        return 2;
    }
    for (int i = 1 + writing; i < argc; i++)
        do_file(argv[i], writing, &counts);
    if (!writing)
        printf("corpus: %zu cases, %zu of them not as written\n", counts.cases, counts.different);
    if (fflush(stdout) != 0 || ferror(stdout))
        fail("standard output", strerror(errno));
    return counts.empty_files != 0 || (!writing && counts.different != 0);
}
