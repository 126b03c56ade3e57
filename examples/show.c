/* show: prints what Terkinoha finds in a script.
 *
 *     show check|stats|tokens|tree|text FILE    FILE may be `-` for standard input
 *
 * check: what is wrong with the script, and how many errors and warnings that are. stats: the same, and how many names
 * were compared with one that was wanted. tokens: a token to a line, with its
 * place. tree: a statement to a line, operator first. text: the canonical text.
 * A finding or a refusal is printed as FILE:LINE:COLUMN: error: TEXT, with the script's line and a caret below the place; of
 * a finding the whole token there is underlined. The findings of one statement stand together, and an empty line between
 * those of two.
 * Exit status: 0 shown, with no errors; 1 refused, or errors found; 2 not read, or not all of it written.
 */
#define _POSIX_C_SOURCE 200112L /* fileno, isatty */
#include "terkinoha.h"

#include <errno.h>
#include <inttypes.h>
#include <stdio.h>
#include <stdlib.h>
#include <string.h>
#include <unistd.h>

struct script {
    const char *name;
    unsigned char *bytes;
    size_t size;
};

static void fail(const char *what, const char *why)
{
    fprintf(stderr, "show: %s: %s\n", what, why);
    exit(2);
}

/* Room for some rows. It is not cleared: a call writes every word of what it is lent. */
static void *lend(size_t rows, size_t row_size)
{
    void *area = malloc(rows * row_size);
    if (area == NULL)
        fail("memory", "there is not enough");
    return area;
}

/* Reads until the room is full or the file ends, and again where a signal interrupts it. Where reading fails otherwise, the
 * file's error is set: a part of a script is not to be taken for the whole.
 */
static size_t read_all(FILE *file, unsigned char *bytes, size_t room)
{
    size_t size = fread(bytes, 1, room, file);
    while (ferror(file) && errno == EINTR) {
        clearerr(file);
        size += fread(bytes + size, 1, room - size, file);
    }
    return size;
}

/* Reads a script, or as much of it as shows that it is too long: the library then says so. */
static struct script read_script(const char *name)
{
    const size_t most = TERKINOHA_MOST_BYTES + 1;
    struct script script = {name, (unsigned char *)lend(most, 1), 0};
    FILE *file = strcmp(name, "-") == 0 ? stdin : fopen(name, "rb");
    if (file == NULL)
        fail(name, strerror(errno));
    script.size = read_all(file, script.bytes, most);
    if (ferror(file))
        fail(name, strerror(errno));
    if (file != stdin)
        fclose(file);
    return script;
}

/* ---- bytes of the script ---- */

/* Bytes as a terminal may have them: a `?` for each control character. */
static void put_bytes(FILE *out, const unsigned char *bytes, size_t size)
{
    for (size_t i = 0; i < size; i++) {
        int above = bytes[i] == 0xC2 && i + 1 < size && bytes[i + 1] < 0xA0; /* U+0080 to U+009F take two bytes */
        int control = above || (bytes[i] < 0x20 && bytes[i] != '\t') || bytes[i] == 0x7F;
        fputc(control ? '?' : bytes[i], out);
        i += (size_t)above;
    }
}

/* The bodies of a string token, each in quotes; in parentheses where several literals are joined. */
static void put_string(const struct script *script, const terkinoha_token *token)
{
    int several = token->low > 1;
    const char *between = several ? "(" : "";
    terkinoha_body body = terkinoha_next_body(script->bytes, script->size, token->start, token->end);
    for (; body.found; body = terkinoha_next_body(script->bytes, script->size, body.next, token->end)) {
        printf("%s\"", between);
        put_bytes(stdout, script->bytes + body.start, body.end - body.start);
        putchar('"');
        between = " ";
    }
    if (several)
        putchar(')');
}

/* A token as the script spells it. */
static void put_token(const struct script *script, const terkinoha_token *token)
{
    if (token->kind == TERKINOHA_TOKEN_STRING_LITERAL)
        put_string(script, token);
    else
        put_bytes(stdout, script->bytes + token->start, token->end - token->start);
}

/* ---- a place in the script ---- */

/* Finds a line of the script, which is cut at each byte 10. Answers 0 where it has no such line. */
static int find_line(const struct script *script, uint64_t number, size_t *start, size_t *end)
{
    size_t at = 0;
    for (uint64_t line = 1; at < script->size; line++) {
        size_t past = at;
        while (past < script->size && script->bytes[past] != '\n')
            past++;
        if (line == number) {
            *start = at;
            *end = past;
            return 1;
        }
        at = past + 1;
    }
    return 0;
}

/* A mark below each character of some bytes: bytes of a character after its first have none. A tab stays a tab, so that what
 * comes after it stands right.
 */
static void put_below(FILE *out, const unsigned char *bytes, size_t size, char mark)
{
    for (size_t i = 0; i < size; i++)
        if (bytes[i] < 0x80 || bytes[i] >= 0xC0)
            fputc(bytes[i] == '\t' ? '\t' : mark, out);
}

/* Bytes that may be no characters: a `?` for each that is not ASCII. */
static void put_ascii(FILE *out, const unsigned char *bytes, size_t size)
{
    for (size_t i = 0; i < size; i++)
        put_bytes(out, bytes[i] < 0x80 ? bytes + i : (const unsigned char *)"?", 1);
}

/* How a severity is written: its word, and its colour on a terminal. */
struct style {
    const char *word, *strong, *plain;
};

static struct style style_of(uint64_t severity)
{
    int warning = severity == TERKINOHA_SEVERITY_WARNING;
    struct style style = {warning ? "warning" : "error", "", ""};
    if (isatty(fileno(stderr))) {
        style.strong = warning ? "\033[1;35m" : "\033[1;31m";
        style.plain = "\033[0m";
    }
    return style;
}

/* What is pointed at: a place, and how many bytes from there on are underlined, 1 for a caret alone. */
struct place {
    uint64_t line, column;
    size_t size;
};

/* FILE:LINE:COLUMN: error: */
static void put_head(const struct script *script, struct place place, struct style style)
{
    fprintf(stderr, "%s:", script->name);
    if (place.line != 0)
        fprintf(stderr, "%" PRIu64 ":%" PRIu64 ":", place.line, place.column);
    fprintf(stderr, " %s%s:%s ", style.strong, style.word, style.plain);
}

/* The script's line, a caret below the place and `~` below what else is underlined. What comes from the place on may be no
 * characters.
 */
static void point_at(const struct script *script, struct place place, int characters, struct style style)
{
    size_t start, end;
    if (!find_line(script, place.line, &start, &end)) {
        fprintf(stderr, "(at the end of the script)\n");
        return;
    }
    const unsigned char *line = script->bytes + start;
    size_t before = (size_t)place.column - 1, rest = end - start - before;
    put_bytes(stderr, line, before);
    if (characters)
        put_bytes(stderr, line + before, rest);
    else
        put_ascii(stderr, line + before, rest);
    fputc('\n', stderr);
    put_below(stderr, line, before, ' ');
    fprintf(stderr, "%s^", style.strong);
    put_below(stderr, line + before + 1, place.size - 1, '~');
    fprintf(stderr, "%s\n", style.plain);
}

/* ---- a refusal ---- */

static int report(const struct script *script, terkinoha_verdict verdict)
{
    struct style style = style_of(TERKINOHA_SEVERITY_ERROR);
    struct place place = {verdict.line, verdict.column, 1}; /* a refusal leaves no tokens */
    put_head(script, place, style);
    fputs(terkinoha_verdict_text(verdict), stderr);
    if (verdict.number == TERKINOHA_REFUSED_LEXICAL && verdict.kind == TERKINOHA_ERROR_UNEXPECTED_CHAR)
        fprintf(stderr, " U+%04" PRIX64, verdict.character);
    fputc('\n', stderr);
    if (verdict.line != 0)
        point_at(script, place, verdict.number != TERKINOHA_REFUSED_NOT_UTF8, style);
    return 1;
}

/* ---- findings ---- */

/* A part of the constant table's text, in quotes. */
static void put_item(uint64_t start, uint64_t end)
{
    fprintf(stderr, "`%.*s`", (int)(end - start), &TERKINOHA_TABLE_TEXT[start]);
}

/* The name that a finding shows. */
static void put_shown(const struct script *script, const terkinoha_diagnostic *found)
{
    if (found->text == TERKINOHA_TEXT_TABLE) {
        put_item(found->start, found->end);
        return;
    }
    fputc('`', stderr);
    put_bytes(stderr, script->bytes + found->start, found->end - found->start);
    fputc('`', stderr);
}

/* The type that a finding shows; of a function with its name. */
static void put_type(const terkinoha_diagnostic *found)
{
    fputs(terkinoha_type_text(found->type), stderr);
    if (found->type == TERKINOHA_TYPE_FUNCTION) {
        fputc(' ', stderr);
        put_item(found->start, found->end);
    }
}

/* An integer of two words: its decimal digits come from the last to the first. */
static void put_integer(uint64_t high, uint64_t low)
{
    char digits[40];
    size_t at = sizeof digits;
    uint32_t parts[4] = {(uint32_t)(high >> 32), (uint32_t)high, (uint32_t)(low >> 32), (uint32_t)low};
    digits[--at] = 0;
    do {
        uint64_t rest = 0;
        for (int i = 0; i < 4; i++) {
            uint64_t part = rest << 32 | parts[i];
            parts[i] = (uint32_t)(part / 10);
            rest = part % 10;
        }
        digits[--at] = (char)('0' + rest);
    } while ((parts[0] | parts[1] | parts[2] | parts[3]) != 0);
    fputs(digits + at, stderr);
}

/* What is said of a finding that shows a name. */
static void tell_name(const struct script *script, const terkinoha_diagnostic *found)
{
    switch (found->kind) {
    case TERKINOHA_FINDING_UNKNOWN_NAME:
        fputs("unknown name ", stderr);
        put_shown(script, found);
        break;
    case TERKINOHA_FINDING_UNKNOWN_ITEM:
        fprintf(stderr, "`%s` has no item ", terkinoha_entry_name(found->first));
        put_shown(script, found);
        break;
    case TERKINOHA_FINDING_UNKNOWN_MODULE:
        fputs("unknown module ", stderr);
        put_shown(script, found);
        break;
    case TERKINOHA_FINDING_NOT_IMPORTED:
        put_shown(script, found);
        fputs(" is not imported", stderr);
        break;
    case TERKINOHA_FINDING_NOT_A_MODULE:
        put_shown(script, found);
        fputs(" is not a module", stderr);
        break;
    case TERKINOHA_FINDING_NOT_A_VALUE:
        put_shown(script, found);
        fputs(" is a module, not a value", stderr);
        break;
    case TERKINOHA_FINDING_ALREADY_BOUND:
        put_shown(script, found);
        fprintf(stderr, " is already bound, at %" PRIu64 ":%" PRIu64, found->first, found->second);
        break;
    case TERKINOHA_FINDING_MULTIPLE_IMPORTS:
        put_shown(script, found);
        fputs(" is imported again", stderr);
        break;
    }
}

/* How many arguments a call has, and how many its function takes. */
static void put_counts(const terkinoha_diagnostic *found)
{
    put_item(found->start, found->end);
    fprintf(stderr, " takes %" PRIu64 " argument%s, %" PRIu64 " %s given", found->second, found->second == 1 ? "" : "s",
            found->first, found->first == 1 ? "is" : "are");
}

/* What is said of a call. */
static void tell_call(const terkinoha_diagnostic *found)
{
    switch (found->kind) {
    case TERKINOHA_FINDING_NOT_CALLABLE:
        fputs("only a function can be called, and this is ", stderr);
        put_type(found);
        break;
    case TERKINOHA_FINDING_TOO_MANY_ARGS:
    case TERKINOHA_FINDING_TOO_FEW_ARGS:
        put_counts(found);
        break;
    case TERKINOHA_FINDING_ARG_TYPE:
        fprintf(stderr, "`%s` of `%s` must be %s, and is ", terkinoha_param_name(found->first, found->second),
                terkinoha_entry_name(found->first), terkinoha_type_text(found->third));
        put_type(found);
        break;
    case TERKINOHA_FINDING_VOID_VALUE:
        fputs("this call gives no value", stderr);
        break;
    case TERKINOHA_FINDING_OVERFLOW:
        put_type(found);
        fprintf(stderr, " may not fit %s: it is cut in the run", terkinoha_type_text(found->first));
        break;
    }
}

/* What an integer type keeps of the low word of a value. */
static uint64_t cut_to(uint64_t type, uint64_t low)
{
    switch (type) {
    case TERKINOHA_TYPE_U8: return low & 0xFF;
    case TERKINOHA_TYPE_U16: return low & 0xFFFF;
    case TERKINOHA_TYPE_U32: return low & 0xFFFFFFFF;
    default: return low;
    }
}

/* What is said of any finding. */
static void tell(const struct script *script, const terkinoha_diagnostic *found)
{
    switch (found->kind) {
    case TERKINOHA_FINDING_NO_MEMBERS:
        put_type(found);
        fputs(" has no members", stderr);
        break;
    case TERKINOHA_FINDING_OPERAND_TYPE:
        fprintf(stderr, "%s of `/` must be %s, and is ", found->first == 1 ? "left" : "right",
                terkinoha_type_text(found->second));
        put_type(found);
        break;
    case TERKINOHA_FINDING_INTEGRAL_TOO_LARGE:
        fputs(terkinoha_finding_text(found->kind), stderr);
        break;
    case TERKINOHA_FINDING_DISCARDED_VALUE:
        fputs("a value is discarded: ", stderr);
        put_type(found);
        break;
    case TERKINOHA_FINDING_TRUNCATED:
        put_integer(found->second, found->first);
        fprintf(stderr, " does not fit %s: it is cut to %" PRIu64, terkinoha_type_text(found->type),
                cut_to(found->type, found->first));
        break;
    case TERKINOHA_FINDING_NOT_CALLABLE:
    case TERKINOHA_FINDING_TOO_MANY_ARGS:
    case TERKINOHA_FINDING_TOO_FEW_ARGS:
    case TERKINOHA_FINDING_ARG_TYPE:
    case TERKINOHA_FINDING_VOID_VALUE:
    case TERKINOHA_FINDING_OVERFLOW:
        tell_call(found);
        break;
    default:
        tell_name(script, found);
    }
}

/* The tokens of the script. */
struct tokens {
    const terkinoha_token *rows;
    uint64_t count;
};

/* How many bytes of a token stand in its line: of a string that goes on in a later one, those up to its last literal here. */
static size_t size_in_line(const struct script *script, const terkinoha_token *token)
{
    const unsigned char *start = script->bytes + token->start;
    const unsigned char *cut = (const unsigned char *)memchr(start, '\n', token->end - token->start);
    if (cut == NULL)
        return token->end - token->start;
    uint64_t past = token->start, line_end = token->start + (uint64_t)(cut - start);
    terkinoha_body body = terkinoha_next_body(script->bytes, script->size, past, line_end);
    for (; body.found; body = terkinoha_next_body(script->bytes, script->size, past, line_end))
        past = body.next;
    return past - token->start;
}

/* A finding's place, and the token that stands there. */
static struct place place_of(const struct script *script, struct tokens tokens, const terkinoha_diagnostic *found)
{
    uint64_t i = terkinoha_token_at(tokens.rows, tokens.count, found->line, found->column);
    struct place place = {found->line, found->column, i < tokens.count ? size_in_line(script, &tokens.rows[i]) : 1};
    return place;
}

static void put_finding(const struct script *script, struct tokens tokens, const terkinoha_diagnostic *found)
{
    struct style style = style_of(found->severity);
    struct place place = place_of(script, tokens, found);
    put_head(script, place, style);
    tell(script, found);
    fputc('\n', stderr);
    point_at(script, place, 1, style);
}

/* Findings by their statements: the number never falls, so that another one begins the next group. */
static void put_findings(const struct script *script, struct tokens tokens, const terkinoha_diagnostic *found,
                         uint64_t count)
{
    for (uint64_t i = 0; i < count; i++) {
        if (i > 0 && found[i].statement != found[i - 1].statement)
            fputc('\n', stderr);
        put_finding(script, tokens, &found[i]);
    }
}

/* Checks with tables of `room` rows: a script never has more findings, nodes or rows of statements than tokens. */
static int show_check(const struct script *script, size_t room, int stats)
{
    terkinoha_token *tokens = (terkinoha_token *)lend(room, sizeof *tokens);
    terkinoha_node *nodes = (terkinoha_node *)lend(room, sizeof *nodes);
    terkinoha_diagnostic *found = (terkinoha_diagnostic *)lend(room, sizeof *found);
    terkinoha_statement *statements = (terkinoha_statement *)lend(room, sizeof *statements);
    terkinoha_checked checked =
        terkinoha_check(script->bytes, script->size, tokens, room, nodes, room, found, room, statements, room);
    int status = checked.errors != 0;
    if (checked.verdict.number != TERKINOHA_DONE) {
        status = report(script, checked.verdict);
    } else {
        struct tokens all = {tokens, checked.tokens};
        put_findings(script, all, found, checked.errors + checked.warnings);
        printf("errors %" PRIu64 " warnings %" PRIu64 "\n", checked.errors, checked.warnings);
        if (stats)
            printf("comparisons %" PRIu64 "\n", checked.comparisons);
    }
    free(statements);
    free(found);
    free(nodes);
    free(tokens);
    return status;
}

/* ---- tokens ---- */

static void show_tokens(const struct script *script, const terkinoha_token *tokens, uint64_t count)
{
    for (uint64_t i = 0; i < count; i++) {
        const terkinoha_token *token = &tokens[i];
        printf("%" PRIu64 ":%" PRIu64 " %s", token->line, token->column, terkinoha_kind_text(token->kind));
        if (token->kind >= TERKINOHA_TOKEN_IDENTIFIER) {
            putchar(' ');
            put_token(script, token);
        }
        putchar('\n');
    }
}

/* ---- a tree ---- */

struct tree {
    const struct script *script;
    const terkinoha_token *tokens;
    const terkinoha_node *nodes;
};

static void put_named(const struct tree *tree, uint64_t token)
{
    put_token(tree->script, &tree->tokens[token]);
}

static void put_node(const struct tree *tree, uint64_t row);

static void put_argument(const struct tree *tree, const terkinoha_node *argument)
{
    putchar(' ');
    if (argument->kind == TERKINOHA_NODE_NAMED_ARGUMENT) {
        put_named(tree, argument->token);
        printf(": ");
    }
    put_node(tree, argument->first);
}

static void put_call(const struct tree *tree, const terkinoha_node *call)
{
    printf("(call ");
    put_node(tree, call->first);
    for (uint64_t next = call->second; next != 0; next = tree->nodes[next - 1].second)
        put_argument(tree, &tree->nodes[next - 1]);
    putchar(')');
}

static void put_path(const struct tree *tree, const terkinoha_node *path)
{
    put_named(tree, path->token);
    for (uint64_t i = 1; i <= path->first; i++) {
        printf("::");
        put_named(tree, path->token + 2 * i);
    }
}

/* A node, and those below it. They are at most some thousand deep: lists and steps are bounded. */
static void put_node(const struct tree *tree, uint64_t row)
{
    const terkinoha_node *node = &tree->nodes[row];
    switch (node->kind) {
    case TERKINOHA_NODE_LITERAL:
    case TERKINOHA_NODE_LOCAL:
        put_named(tree, node->token);
        break;
    case TERKINOHA_NODE_SOCK4:
        put_named(tree, node->token);
        putchar(':');
        put_named(tree, node->token + 2);
        break;
    case TERKINOHA_NODE_PATH:
        put_path(tree, node);
        break;
    case TERKINOHA_NODE_MEMBER:
        printf("(. ");
        put_node(tree, node->first);
        putchar(' ');
        put_named(tree, node->second);
        putchar(')');
        break;
    case TERKINOHA_NODE_SLASH:
        printf("(/ ");
        put_node(tree, node->first);
        putchar(' ');
        put_node(tree, node->second);
        putchar(')');
        break;
    case TERKINOHA_NODE_CALL:
        put_call(tree, node);
        break;
    }
}

/* A statement; other nodes are printed as parts of one. */
static void put_statement(const struct tree *tree, const terkinoha_node *node)
{
    switch (node->kind) {
    case TERKINOHA_NODE_IMPORT:
        printf("(import ");
        put_named(tree, node->token);
        printf(")\n");
        break;
    case TERKINOHA_NODE_LET:
        printf("(let ");
        put_named(tree, node->token);
        putchar(' ');
        put_node(tree, node->first);
        printf(")\n");
        break;
    case TERKINOHA_NODE_EXPRESSION:
        put_node(tree, node->first);
        putchar('\n');
        break;
    }
}

/* Parses into tables of `room` rows: a tree never has more nodes than tokens. */
static int show_tree(const struct script *script, size_t room)
{
    terkinoha_token *tokens = (terkinoha_token *)lend(room, sizeof *tokens);
    terkinoha_node *nodes = (terkinoha_node *)lend(room, sizeof *nodes);
    terkinoha_parsed parsed = terkinoha_parse(script->bytes, script->size, tokens, room, nodes, room);
    int status = 0;
    if (parsed.verdict.number != TERKINOHA_DONE) {
        status = report(script, parsed.verdict);
    } else {
        struct tree tree = {script, tokens, nodes};
        for (uint64_t row = 0; row < parsed.nodes; row++)
            put_statement(&tree, &nodes[row]);
    }
    free(nodes);
    free(tokens);
    return status;
}

/* ---- canonical text ---- */

static int show_text(const struct script *script, size_t room)
{
    terkinoha_token *tokens = (terkinoha_token *)lend(room, sizeof *tokens);
    char *text = (char *)lend(TERKINOHA_MOST_BYTES, 1);
    terkinoha_canonised canonised =
        terkinoha_canonicalise(script->bytes, script->size, tokens, room, text, TERKINOHA_MOST_BYTES);
    int status = 0;
    if (canonised.verdict.number != TERKINOHA_DONE)
        status = report(script, canonised.verdict);
    else
        fwrite(text, 1, canonised.bytes, stdout);
    free(text);
    free(tokens);
    return status;
}

/* ---- the program ---- */

/* Two steps: the first lexes with as much room as a script of this size can need, the second lends
 * just as many rows as there were tokens.
 */
static int show(const char *mode, const struct script *script)
{
    size_t room = script->size + 1;
    terkinoha_token *tokens = (terkinoha_token *)lend(room, sizeof *tokens);
    terkinoha_lexed lexed = terkinoha_lex(script->bytes, script->size, tokens, room);
    int status = 0;
    if (lexed.verdict.number != TERKINOHA_DONE)
        status = report(script, lexed.verdict);
    else if (strcmp(mode, "tokens") == 0)
        show_tokens(script, tokens, lexed.tokens);
    free(tokens);

    if (status == 0 && (strcmp(mode, "check") == 0 || strcmp(mode, "stats") == 0))
        status = show_check(script, lexed.tokens, strcmp(mode, "stats") == 0);
    if (status == 0 && strcmp(mode, "tree") == 0)
        status = show_tree(script, lexed.tokens);
    if (status == 0 && strcmp(mode, "text") == 0)
        status = show_text(script, lexed.tokens);
    return status;
}

/* Everything that was put to a stream is written, or the program ends here: what is missing is not to be taken for nothing. */
static void finish(FILE *out, const char *name)
{
    if (fflush(out) != 0)
        fail(name, strerror(errno));
    if (ferror(out))
        fail(name, "not all of it was written");
}

int main(int argc, char **argv)
{
    static const char *const modes[] = {"check", "stats", "tokens", "tree", "text"};
    const char *mode = argc == 3 ? argv[1] : "";
    size_t known = 0;
    while (known < 5 && strcmp(mode, modes[known]) != 0)
        known++;
    if (known == 5) {
        fprintf(stderr, "usage: show check|stats|tokens|tree|text FILE\n");
        return 2;
    }
    setvbuf(stderr, NULL, _IOLBF, BUFSIZ); /* a line at a time, and not a character */
    struct script script = read_script(argv[2]);
    int status = show(mode, &script);
    free(script.bytes);
    finish(stderr, "standard error");
    finish(stdout, "standard output");
    if (fclose(stdout) != 0)
        fail("standard output", strerror(errno));
    return status;
}
