/* terkinoha.h: a front end for resynth scripts.
 *
 * Terkinoha takes the raw bytes of a script and scans, lexes, parses, checks or canonicalises them.
 * What it finds goes into tables that the host lends. C99 or later, or C++, on x86-64 Linux. Link with
 * libterkinoha.a or libterkinoha.so; they need nothing but memcpy, memmove and memset.
 *
 *     terkinoha_token tokens[100];
 *     terkinoha_lexed lexed = terkinoha_lex(script, script_size, tokens, 100);
 *     if (lexed.verdict.number != TERKINOHA_DONE)
 *         puts(terkinoha_verdict_text(lexed.verdict));
 *
 * What a call does
 *
 *   A call reads its source, fills what is lent to it and answers a struct by value: a verdict, and
 *   the counts of what was found. The verdict is all zero where the call is done; else it says why
 *   the call was refused, and where.
 *   - Done: the first rows of a table, as many as counted, are what was found. Every word after
 *     them is zero.
 *     Findings of a check are no refusal: the call is done, and counts them.
 *   - Refused: every word of every lent table and every byte of a lent text is zero, and all counts
 *     are 0. A host that forgets to look at the number finds nothing there, and never what a call
 *     before it left.
 *   Every sequence of bytes gets an answer. No call aborts, allocates, prints, calls back or fails
 *   to return. Nothing is kept between calls: the same bytes and sizes give the same answer,
 *   whatever was called before, and calls may run on any threads at the same time. What calls
 *   answer and leave is proved of their code; the README says how. Measured: a call needs less than
 *   32 KiB of stack, and a check takes less than 256 KiB of stack, however its calls are nested.
 *
 * What a host owes
 *
 *   - Sizes are true: so many bytes of a source can be read, so many rows or bytes written.
 *   - Tables are aligned as their rows are, to 8 bytes. A source or a text may stand anywhere.
 *   - The areas of one call, its source among them, do not overlap.
 *   - An area of size 0 may be NULL.
 *   - Until a call returns, nobody else writes its source or uses its tables.
 *
 * How large tables must be
 *
 *   A source has at most TERKINOHA_MOST_BYTES bytes, or number 1 refuses it. For a source of `size`
 *   bytes these rooms are always enough, and no call is refused for room (numbers 4, 6 and 11):
 *   - lexemes: `size` rows;
 *   - tokens: `size` + 1 rows;
 *   - nodes and statements: as many rows as the source has tokens. A statement takes a row, and so
 *     does each part of its expression, but there are never more of these rows than nodes;
 *   - diagnostics: any number of rows; as many as the source has tokens keep them all;
 *   - canonical text: TERKINOHA_MOST_BYTES bytes; number 10 then means a longer text.
 *   At the worst, for 65,536 bytes of source, the four tables of a check have 65,537 rows each. A token
 *   takes 56 bytes, a node 40, a diagnostic 96 and a statement 88: the tables take 3.7, 2.6, 6.3 and
 *   5.8 MB, together 18,350,360 bytes, or 18.4 MB. The table of a scan takes 3.1 MB, 48 bytes a lexeme.
 *   Most scripts need far less. A host that minds memory takes two steps: it lexes with room for
 *   `size` + 1 tokens, then lends tables of just as many rows as were counted (examples/show.c).
 *   A host reads at most TERKINOHA_MOST_BYTES + 1 bytes of a file: where there are so many, number 1
 *   refuses them, whatever comes after.
 *
 * What names begin with
 *
 *   A constant's name says what its value is of, and no two groups share a beginning:
 *   - TERKINOHA_DONE, and TERKINOHA_REFUSED_ for the numbers from 1 on: `number` of a verdict;
 *   - TERKINOHA_ERROR_: `kind` of a verdict with number 3, and of a lexeme that is an error;
 *   - TERKINOHA_SYNTAX_: `kind` of a verdict with number 5;
 *   - TERKINOHA_LEXEME_: `class_` of a lexeme;
 *   - TERKINOHA_TOKEN_: `kind` of a token, and of a lexeme that is one;
 *   - TERKINOHA_NODE_: `kind` of a node;
 *   - TERKINOHA_FINDING_ and TERKINOHA_SEVERITY_: `kind` and `severity` of a diagnostic;
 *   - TERKINOHA_STATEMENT_ and TERKINOHA_PART_: `kind` of a row of the statement table, which is a
 *     statement or a part of one; TERKINOHA_FORM_: its `form`;
 *   - TERKINOHA_TYPE_ and TERKINOHA_TEXT_: `type` and `text` of a diagnostic or a statement;
 *   - TERKINOHA_MOST_: a limit; TERKINOHA_WORDS_: how many words a row has.
 */
#ifndef TERKINOHA_H
#define TERKINOHA_H

#include <stddef.h>
#include <stdint.h>

#ifdef __cplusplus
extern "C" {
#endif

/* ---- version --------------------------------------------------------------------------------- */

/* Another one wherever a host has to be compiled anew. A host that finds terkinoha_version() to be
 * another number was compiled with the header of another archive, and reads rows wrongly.
 */
#define TERKINOHA_VERSION 2

/* ---- limits ---------------------------------------------------------------------------------- */

#define TERKINOHA_MOST_BYTES 65536 /* of a source, and of canonical text */
#define TERKINOHA_MOST_LISTS 32    /* argument lists open at once */
#define TERKINOHA_MOST_STEPS 64    /* steps (`.`, `(`, `/`) in one expression, those in its lists not counted */
#define TERKINOHA_MOST_NAMES 512   /* names that are bound by `let` */
#define TERKINOHA_MOST_IMPORTS 64  /* names that are imported */

/* ---- numbers --------------------------------------------------------------------------------- */

/* What a call came to. Smaller numbers go first, but between 5 and 7, and between 8 and 9, the
 * earlier token decides. Scan gives 0, 1, 2 and 4; lex 0 to 4; parse 0 to 7; check 0 to 9 and 11;
 * canonicalise 0 to 4 and 10.
 */
enum terkinoha_number {
    /* exactly when: done; no place */
    TERKINOHA_DONE = 0,
    /* exactly when: source over 65,536 bytes; no place */
    TERKINOHA_REFUSED_TOO_LONG = 1,
    /* exactly when: not well-formed UTF-8;
     * place: the first byte, stepping by whole characters, where none starts */
    TERKINOHA_REFUSED_NOT_UTF8 = 2,
    /* exactly when: a lexical error, its kind named; place: start of the first such lexeme.
     * The kind is of enum terkinoha_error. Scan has rows for such errors instead */
    TERKINOHA_REFUSED_LEXICAL = 3,
    /* exactly when: tokens with `Eof` (for scan: lexemes) exceed the room; no place */
    TERKINOHA_REFUSED_TOKEN_ROOM = 4,
    /* exactly when: kind 1: a token that cannot follow; kind 2: a port over 65,535;
     * place: that token. The kind is of enum terkinoha_syntax */
    TERKINOHA_REFUSED_SYNTAX = 5,
    /* exactly when: nodes exceed the room; no place */
    TERKINOHA_REFUSED_NODE_ROOM = 6,
    /* exactly when: a 33rd open list or a 65th step; place: that token */
    TERKINOHA_REFUSED_TOO_DEEP = 7,
    /* exactly when: a call with a named argument whose callee was judged to be a function;
     * place: its `(`. Errors that were found before do not matter */
    TERKINOHA_REFUSED_CALLS = 8,
    /* exactly when: a 513th distinct let name or 65th distinct import name, failed ones counted;
     * place: the earlier such name */
    TERKINOHA_REFUSED_NAMES = 9,
    /* exactly when: canonical text exceeds its room or 65,536 bytes; no place */
    TERKINOHA_REFUSED_TEXT_ROOM = 10,
    /* exactly when: no errors, and statements exceed the room; no place */
    TERKINOHA_REFUSED_STATEMENT_ROOM = 11
};

/* The kinds of number 3, and of a lexeme that is an error. */
enum terkinoha_error {
    TERKINOHA_ERROR_UNEXPECTED_CHAR = 1,     /* a character that starts no lexeme */
    TERKINOHA_ERROR_UNTERMINATED_STRING = 2, /* a string literal with no closing quote on its line */
    TERKINOHA_ERROR_INT_OUT_OF_RANGE = 3,    /* an integer of 2^127 or more */
    TERKINOHA_ERROR_INT_LEADING_ZERO = 4,    /* a decimal integer that starts with `0` and another digit */
    TERKINOHA_ERROR_INT_INVALID_SUFFIX = 5,  /* a byte that is no digit in an integer */
    TERKINOHA_ERROR_IPV4_LITERAL = 6         /* a dotted quad that is no address */
};

/* The kinds of number 5. */
enum terkinoha_syntax {
    TERKINOHA_SYNTAX_UNEXPECTED_TOKEN = 1, /* a token that cannot follow */
    TERKINOHA_SYNTAX_INT_OUT_OF_RANGE = 2  /* a port over 65,535 */
};

/* ---- answers --------------------------------------------------------------------------------- */

/* Lines and columns count from 1; a column is a byte offset in its line plus 1. What does not apply
 * is 0.
 */
typedef struct terkinoha_verdict {
    uint64_t number;    /* enum terkinoha_number */
    uint64_t kind;      /* of number 3 (enum terkinoha_error) or 5 (enum terkinoha_syntax) */
    uint64_t line;      /* where the number has a place; scan's line is line 1 */
    uint64_t column;
    uint64_t character; /* of an unexpected character: its Unicode number */
} terkinoha_verdict;

typedef struct terkinoha_scanned {
    terkinoha_verdict verdict;
    uint64_t lexemes; /* how many rows of the table are lexemes */
} terkinoha_scanned;

typedef struct terkinoha_lexed {
    terkinoha_verdict verdict;
    uint64_t tokens; /* how many rows of the table are tokens; the last is `Eof` */
} terkinoha_lexed;

typedef struct terkinoha_parsed {
    terkinoha_verdict verdict;
    uint64_t tokens;
    uint64_t nodes; /* how many rows of the table are nodes */
} terkinoha_parsed;

typedef struct terkinoha_canonised {
    terkinoha_verdict verdict;
    uint64_t tokens;
    uint64_t bytes; /* how many bytes the canonical text has */
} terkinoha_canonised;

/* A check that is done counts all errors and warnings, however many rows the diagnostic table has.
 * Where errors are counted, no statements are left.
 *
 * `comparisons` says what the names of a script cost. Each `let`, and each use of a name that is
 * judged, looks for its name among the names that are bound, in the order in which they were bound,
 * and stops at the match: it counts one for each name that it looks at, the match too. Imports are
 * not looked at. The count is at most as many lets and uses as were judged, times the names bound at
 * the end; no room changes it, and a script and its canonical text have the same. It is good for
 * generated scripts with hundreds of lets: bind first what is used most.
 */
typedef struct terkinoha_checked {
    terkinoha_verdict verdict;
    uint64_t tokens;
    uint64_t nodes;
    uint64_t errors;
    uint64_t warnings;
    uint64_t statements;  /* how many rows of the table are statements and their parts */
    uint64_t comparisons; /* how many bound names were compared with a wanted one */
} terkinoha_checked;

/* ---- lexemes --------------------------------------------------------------------------------- */

enum terkinoha_class {
    TERKINOHA_LEXEME_TRIVIA = 1, /* blanks or a comment */
    TERKINOHA_LEXEME_STRING = 2, /* a string literal: its body is its span without the quotes */
    TERKINOHA_LEXEME_TOKEN = 3,
    TERKINOHA_LEXEME_ERROR = 4
};

/* A row of scan's table. The spans are not empty and join in order to the line. */
typedef struct terkinoha_lexeme {
    uint64_t start;  /* offset of its first byte in the line */
    uint64_t end;    /* offset past its last byte */
    uint64_t class_; /* enum terkinoha_class */
    uint64_t kind;   /* of a token (enum terkinoha_kind) or an error (enum terkinoha_error); else 0 */
    uint64_t low;    /* value, low word: of a token as there; of an unexpected character its number */
    uint64_t high;   /* value, high word */
} terkinoha_lexeme;

/* ---- tokens ---------------------------------------------------------------------------------- */

/* The kinds of tokens. A lexeme is never `Eof` or a string: the lexer makes those two. */
enum terkinoha_kind {
    TERKINOHA_TOKEN_EOF = 1,
    TERKINOHA_TOKEN_LPAREN = 2,
    TERKINOHA_TOKEN_RPAREN = 3,
    TERKINOHA_TOKEN_DOT = 4,
    TERKINOHA_TOKEN_DOUBLE_COLON = 5,
    TERKINOHA_TOKEN_COLON = 6,
    TERKINOHA_TOKEN_SEMI_COLON = 7,
    TERKINOHA_TOKEN_EQUALS = 8,
    TERKINOHA_TOKEN_COMMA = 9,
    TERKINOHA_TOKEN_SLASH = 10,
    TERKINOHA_TOKEN_IMPORT_KEYWORD = 11,
    TERKINOHA_TOKEN_LET_KEYWORD = 12,
    TERKINOHA_TOKEN_IDENTIFIER = 13,
    TERKINOHA_TOKEN_BOOLEAN_LITERAL = 14,
    TERKINOHA_TOKEN_IPV4_LITERAL = 15,
    TERKINOHA_TOKEN_STRING_LITERAL = 16,
    TERKINOHA_TOKEN_HEX_LITERAL = 17,
    TERKINOHA_TOKEN_DEC_LITERAL = 18
};

/* A row of a token table, in the order of the source. A name lies at `source + start` up to
 * `source + end`. String literals with no token between them, also across lines, are one token that
 * stands at the first: its span runs from the first quote past the last, and terkinoha_next_body
 * finds its bodies. `Eof` stands at line (lines + 1), column 1, with the empty span at the end of
 * the source. terkinoha_token_at finds the token at a place.
 */
typedef struct terkinoha_token {
    uint64_t kind;   /* enum terkinoha_kind */
    uint64_t line;   /* from 1 */
    uint64_t column; /* from 1 */
    uint64_t start;  /* offset of its first byte in the source */
    uint64_t end;    /* offset past its last byte */
    uint64_t low;    /* value, low word: of an integer, below 2^127; of an IPv4 address, its first
                        byte highest; 1 for `true`; of a string how many literals were joined */
    uint64_t high;   /* value, high word: of an integer; else 0 */
} terkinoha_token;

/* ---- nodes ----------------------------------------------------------------------------------- */

/* The kinds of nodes. Beside each is what `token`, `first`, `second` and `third` are; what is not
 * named is 0. A "row" is one of the node table, a "token" one of the token table, both from 0.
 */
enum terkinoha_node_kind {
    /* a path's further name. token: the name */
    TERKINOHA_NODE_NAME = 1,
    /* a bool, integer, address or string. token: it */
    TERKINOHA_NODE_LITERAL = 2,
    /* an address with a port. token: the address; the port is two tokens later */
    TERKINOHA_NODE_SOCK4 = 3,
    /* a name that is no path. token: it */
    TERKINOHA_NODE_LOCAL = 4,
    /* a path. token: its first name; each further one is two tokens later.
     * first: how many names follow */
    TERKINOHA_NODE_PATH = 5,
    /* `.name`. token: its first. first: the object's row. second: the name's token */
    TERKINOHA_NODE_MEMBER = 6,
    /* `/`. token: its first. first: the left operand's row. second: the right operand's row */
    TERKINOHA_NODE_SLASH = 7,
    /* a call. token: its first. first: the callee's row. second: the first argument's row plus 1,
     * or 0 for none. third: the token of `(` */
    TERKINOHA_NODE_CALL = 8,
    /* an argument. token: its value's first. first: its value's row. second: the next argument's
     * row plus 1, or 0 for none; it stands after this one and before the call */
    TERKINOHA_NODE_ARGUMENT = 9,
    /* `name: value`. token: the name. first, second: as for 9 */
    TERKINOHA_NODE_NAMED_ARGUMENT = 10,
    /* `import`. token: the name */
    TERKINOHA_NODE_IMPORT = 11,
    /* `let`. token: the name. first: its value's row */
    TERKINOHA_NODE_LET = 12,
    /* an expression as a statement. token: its first. first: the expression's row */
    TERKINOHA_NODE_EXPRESSION = 13
};

/* A row of a node table. Nodes stand in post-order: a child's row is a smaller number than its
 * parent's. The statements are the nodes of kinds 11 to 13, in order.
 */
typedef struct terkinoha_node {
    uint64_t kind; /* enum terkinoha_node_kind */
    uint64_t token;
    uint64_t first;
    uint64_t second;
    uint64_t third;
} terkinoha_node;

/* ---- what checking finds --------------------------------------------------------------------- */

enum terkinoha_severity {
    TERKINOHA_SEVERITY_ERROR = 1,
    TERKINOHA_SEVERITY_WARNING = 2
};

/* The types of values. 1 is what a call of a function gives that returns nothing; 16 is an integer
 * that has no size yet.
 */
enum terkinoha_type {
    TERKINOHA_TYPE_VOID = 1,
    TERKINOHA_TYPE_BOOL = 2,
    TERKINOHA_TYPE_U8 = 3,
    TERKINOHA_TYPE_U16 = 4,
    TERKINOHA_TYPE_U32 = 5,
    TERKINOHA_TYPE_U64 = 6,
    TERKINOHA_TYPE_IP4 = 7,
    TERKINOHA_TYPE_SOCK4 = 8,
    TERKINOHA_TYPE_BYTES = 9,
    TERKINOHA_TYPE_PKT = 10,
    TERKINOHA_TYPE_PKT_GEN = 11,
    TERKINOHA_TYPE_TIME_JUMP = 12,
    TERKINOHA_TYPE_FUNCTION = 14,
    TERKINOHA_TYPE_INTEGER = 16
};

/* Where a text lies. */
enum terkinoha_text_place {
    TERKINOHA_TEXT_NONE = 0,
    TERKINOHA_TEXT_SOURCE = 1, /* in the source */
    TERKINOHA_TEXT_TABLE = 2   /* in TERKINOHA_TABLE_TEXT */
};

/* The names and bytes of the constant table. `bench` is the only module: there is no other that a
 * script could import. These are its entries, each with the number that a row names it by and what it
 * is: a type with its value, a function, which takes just the arguments that are named here, in this
 * order, or a module, `bench` itself and one inside it.
 *
 *      1  bench              a module
 *      2  bench::HTTP        u16 80
 *      3  bench::LOOP        Ip4 127.0.0.1
 *      4  bench::BIG         u32 70000
 *      5  bench::ON          bool true
 *      6  bench::BANNER      bytes `ok`
 *      7  bench::ping        function (to: Ip4) gives Pkt
 *      8  bench::deep        a module
 *      9  bench::deep::ZERO  u8 0
 *     10  bench::pause       function (time: u32) gives TimeJump
 *     11  bench::burst       function (to: Sock4, body: bytes) gives PktGen
 *     12  bench::mark        function (on: bool) gives void
 *     13  bench::pick        function (port: u16) gives u32
 *     14  bench::host        function (number: u8) gives Ip4
 */
#define TERKINOHA_TABLE_TEXT "benchHTTPLOOPBIGONBANNERokpingdeepZEROpausetimebursttobodymarkonpickporthostnumber"

/* The kinds of findings. Beside each is what `type`, `first`, `second` and `third` are; what is not
 * named is 0. "Shows" says what the text is: that of a name in the source, at the finding's place.
 * Where `type` is a function, the text is the function's name in the table's text. A call stands at
 * its called name: a path's last name, a name that was bound, a member's name, else the first token of
 * what is called. What is found of a value stands at its first token, but of a call at its called name.
 */
enum terkinoha_finding {
    /* no `let` has bound the name. Shows the name */
    TERKINOHA_FINDING_UNKNOWN_NAME = 1,
    /* a module has no such item. Shows the item. first: the module's entry in the constant table,
     * whose name `terkinoha_entry_name` gives */
    TERKINOHA_FINDING_UNKNOWN_ITEM = 2,
    /* there is no such module. Shows the name */
    TERKINOHA_FINDING_UNKNOWN_MODULE = 4,
    /* a path's module is not imported. Shows its name */
    TERKINOHA_FINDING_NOT_IMPORTED = 5,
    /* an inner name of a path is no module. Shows the name */
    TERKINOHA_FINDING_NOT_A_MODULE = 6,
    /* a path ends at a module. Shows the name */
    TERKINOHA_FINDING_NOT_A_VALUE = 7,
    /* the name is bound already. Shows the name. first, second: line and column where it was bound */
    TERKINOHA_FINDING_ALREADY_BOUND = 8,
    /* a value has no members. type: the value's */
    TERKINOHA_FINDING_NO_MEMBERS = 9,
    /* an operand has the wrong type. type: the one found. first: 1 for the left side, 2 for the
     * right. second: the type wanted. third: the operator, 1 for `/` */
    TERKINOHA_FINDING_OPERAND_TYPE = 10,
    /* what is called is no function; at the called name. type: what is called */
    TERKINOHA_FINDING_NOT_CALLABLE = 11,
    /* a call has more arguments than its function takes; at the first that is too many. type: the
     * function. first: how many there are. second: how many it takes */
    TERKINOHA_FINDING_TOO_MANY_ARGS = 12,
    /* a call has fewer arguments than its function takes; at the called name. type: the function.
     * first: how many there are. second: how many it takes */
    TERKINOHA_FINDING_TOO_FEW_ARGS = 13,
    /* an argument has the wrong type; at its first token. type: the one found. first: the function's
     * entry in the constant table. second: the parameter's number, from 0, whose name
     * `terkinoha_param_name` gives. third: the type wanted */
    TERKINOHA_FINDING_ARG_TYPE = 19,
    /* a call that gives nothing is used as a value; at its called name */
    TERKINOHA_FINDING_VOID_VALUE = 21,
    /* an integer that no type holds */
    TERKINOHA_FINDING_INTEGRAL_TOO_LARGE = 22,
    /* a warning: imported again. Shows the name */
    TERKINOHA_FINDING_MULTIPLE_IMPORTS = 23,
    /* a warning: a statement's value is discarded. type: the value's */
    TERKINOHA_FINDING_DISCARDED_VALUE = 24,
    /* a warning: an integer was cut. type: the one it was cut to. first, second: the integer, low
     * word and high word */
    TERKINOHA_FINDING_TRUNCATED = 25,
    /* a warning: a value that is known only in the run may be cut, for its type is wider than the one
     * wanted; at its first token. type: the one found. first: the type wanted */
    TERKINOHA_FINDING_OVERFLOW = 26
};

/* A row of a diagnostic table, in the order in which the script is judged. The table's first rows,
 * as many as fit, are kept.
 *
 * `statement` is the number of the statement in which the finding stands. Imports, lets and
 * expressions are numbered alike, from 1, in source order, those too of which nothing is found:
 * statement n is the n-th node of kinds 11 to 13, and ends with the n-th `;`. The number names no row
 * of the statement table. From row to row it never falls, and of the rows with one number at most one
 * is an error. So the findings of a statement stand together, and one comparison tells where the next
 * ones begin, here in a table that keeps `rows` findings:
 *
 *     for (uint64_t i = 0; i < rows; i++) {
 *         if (i == 0 || found[i].statement != found[i - 1].statement)
 *             puts("of one statement:");
 *         puts(terkinoha_finding_text(found[i].kind));
 *     }
 *
 * A script and its canonical text have the same numbers.
 */
typedef struct terkinoha_diagnostic {
    uint64_t line;
    uint64_t column;
    uint64_t severity; /* enum terkinoha_severity */
    uint64_t kind;     /* enum terkinoha_finding */
    uint64_t text;     /* where its text lies: enum terkinoha_text_place */
    uint64_t start;    /* offset of the text's first byte there */
    uint64_t end;      /* offset past its last byte */
    uint64_t type;     /* enum terkinoha_type; 0 where the kind has none */
    uint64_t first;
    uint64_t second;
    uint64_t third;
    uint64_t statement; /* the number of its statement, from 1 */
} terkinoha_diagnostic;

/* What a row of a statement table is: 1 to 5 a statement, 6 to 9 a part of an expression. */
enum terkinoha_statement_kind {
    TERKINOHA_STATEMENT_LET = 1,     /* a value is put into a new slot */
    TERKINOHA_STATEMENT_EMIT = 2,    /* packets are sent */
    TERKINOHA_STATEMENT_WAIT = 3,    /* time passes */
    TERKINOHA_STATEMENT_EVAL = 4,    /* a call that gives nothing */
    TERKINOHA_STATEMENT_DISCARD = 5, /* a value that is discarded */
    TERKINOHA_PART_CALLEE = 6,       /* what a call calls */
    TERKINOHA_PART_ARGUMENT = 7,     /* an argument of a call */
    TERKINOHA_PART_LEFT = 8,         /* what stands left of a `/` */
    TERKINOHA_PART_RIGHT = 9         /* what stands right of a `/` */
};

/* What an expression is. */
enum terkinoha_form {
    TERKINOHA_FORM_CONSTANT = 1, /* a value that is known before the run */
    TERKINOHA_FORM_SLOT = 2,     /* what a `let` has put into a slot */
    TERKINOHA_FORM_CALL = 3,
    TERKINOHA_FORM_SLASH = 4     /* `/`, of which one operand at least is not known before the run */
};

/* A row of a statement table: what a run would do, in order. A `let` of a constant and a `let` of a
 * name that has a slot hold no statement: they only bind a name. Any other `let` takes the next slot,
 * from 0 on, and stands at its name.
 *
 * The row of a statement has its outermost expression. The parts of an expression follow its row: of
 * a call what it calls and then its arguments, of a `/` its left and then its right operand, each with
 * its own parts after it. So a statement ends where the next row of kind 1 to 5 begins, and one walk
 * finds every part: a call has 1 part and as many more as it has arguments, a `/` has 2, and the other
 * forms have none. Of `bench::pick(bench::pick(1));` the rows are
 *
 *     Discard  call of pick, 1 argument
 *     callee   constant: function pick
 *     argument call of pick, 1 argument
 *     callee   constant: function pick
 *     argument constant: u16 1
 *
 * `low` and `high` are, by the form:
 * - of a constant that is an integer it and 0; of a bool 1 or 0; of an address it, its first byte
 *   highest; of an address with a port both; of bytes of the source the row of the string's token; of
 *   bytes of the table, and of a function, start and end of the text;
 * - of a slot its number and 0;
 * - of a call the entry of its function in the constant table, and how many arguments it has;
 * - of a `/` both are 0.
 */
typedef struct terkinoha_statement {
    uint64_t line; /* of a statement; of a part that of its expression */
    uint64_t column;
    uint64_t kind; /* enum terkinoha_statement_kind */
    uint64_t slot; /* of a `let` the slot that it takes; of an argument its parameter's number, from 0; else 0 */
    uint64_t form; /* enum terkinoha_form */
    uint64_t expression_line; /* of a call that of its called name, else of its first token */
    uint64_t expression_column;
    uint64_t type; /* of the expression: enum terkinoha_type */
    uint64_t text; /* where its text lies: enum terkinoha_text_place */
    uint64_t low;
    uint64_t high;
} terkinoha_statement;

/* ---- sizes ----------------------------------------------------------------------------------- */

/* How many 64-bit words a row has. */
#define TERKINOHA_WORDS_LEXEME 6
#define TERKINOHA_WORDS_TOKEN 7
#define TERKINOHA_WORDS_NODE 5
#define TERKINOHA_WORDS_DIAGNOSTIC 12
#define TERKINOHA_WORDS_STATEMENT 11

/* A struct is just its words: a compiler that puts anything between them is refused here. */
#define TERKINOHA_ASSERT_WORDS(type, words) \
    typedef char terkinoha_assert_##type[sizeof(type) == (words) * sizeof(uint64_t) ? 1 : -1]
TERKINOHA_ASSERT_WORDS(terkinoha_lexeme, TERKINOHA_WORDS_LEXEME);
TERKINOHA_ASSERT_WORDS(terkinoha_token, TERKINOHA_WORDS_TOKEN);
TERKINOHA_ASSERT_WORDS(terkinoha_node, TERKINOHA_WORDS_NODE);
TERKINOHA_ASSERT_WORDS(terkinoha_diagnostic, TERKINOHA_WORDS_DIAGNOSTIC);
TERKINOHA_ASSERT_WORDS(terkinoha_statement, TERKINOHA_WORDS_STATEMENT);
TERKINOHA_ASSERT_WORDS(terkinoha_verdict, 5);
TERKINOHA_ASSERT_WORDS(terkinoha_scanned, 6);
TERKINOHA_ASSERT_WORDS(terkinoha_lexed, 6);
TERKINOHA_ASSERT_WORDS(terkinoha_parsed, 7);
TERKINOHA_ASSERT_WORDS(terkinoha_canonised, 7);
TERKINOHA_ASSERT_WORDS(terkinoha_checked, 11);
TERKINOHA_ASSERT_WORDS(size_t, 1);

/* A compiler that knows of it warns where an answer is thrown away. */
#if defined(__GNUC__)
#define TERKINOHA_MUST_USE __attribute__((warn_unused_result))
#else
#define TERKINOHA_MUST_USE
#endif

/* ---- the calls, as the archive has them ------------------------------------------------------ */

/* The version of the header that the archive goes with. */
TERKINOHA_MUST_USE uint64_t terkinoha_version(void);

/* Here tables are 64-bit words, and are counted in words: the room is the number of whole rows, and
 * words left over are zero too. C hosts will rather use the calls below these, which count rows;
 * other languages bind these, or any function of this header: the shared library has the inline ones
 * too (examples/host.py).
 */
TERKINOHA_MUST_USE terkinoha_scanned terkinoha_scan_words(const void *line, size_t line_size,
                                                          uint64_t *lexemes, size_t lexemes_words);
TERKINOHA_MUST_USE terkinoha_lexed terkinoha_lex_words(const void *source, size_t source_size,
                                                       uint64_t *tokens, size_t tokens_words);
TERKINOHA_MUST_USE terkinoha_parsed terkinoha_parse_words(const void *source, size_t source_size,
                                                          uint64_t *tokens, size_t tokens_words,
                                                          uint64_t *nodes, size_t nodes_words);
TERKINOHA_MUST_USE terkinoha_canonised terkinoha_canonicalise_words(const void *source, size_t source_size,
                                                                    uint64_t *tokens, size_t tokens_words,
                                                                    char *text, size_t text_size);
TERKINOHA_MUST_USE terkinoha_checked terkinoha_check_words(const void *source, size_t source_size,
                                                           uint64_t *tokens, size_t tokens_words,
                                                           uint64_t *nodes, size_t nodes_words,
                                                           uint64_t *diagnostics, size_t diagnostics_words,
                                                           uint64_t *statements, size_t statements_words);

/* ---- the calls, by rows ---------------------------------------------------------------------- */

/* Scans a line, which may hold byte 10, into lexemes: everything that stands in it, blanks, comments
 * and errors too.
 */
TERKINOHA_MUST_USE static inline terkinoha_scanned
terkinoha_scan(const void *line, size_t line_size, terkinoha_lexeme *lexemes, size_t lexeme_room)
{
    return terkinoha_scan_words(line, line_size, (uint64_t *)lexemes, lexeme_room * TERKINOHA_WORDS_LEXEME);
}

/* Lexes a source into tokens. It is cut into lines at each byte 10. */
TERKINOHA_MUST_USE static inline terkinoha_lexed
terkinoha_lex(const void *source, size_t source_size, terkinoha_token *tokens, size_t token_room)
{
    return terkinoha_lex_words(source, source_size, (uint64_t *)tokens, token_room * TERKINOHA_WORDS_TOKEN);
}

/* Parses a source into tokens and nodes. */
TERKINOHA_MUST_USE static inline terkinoha_parsed
terkinoha_parse(const void *source, size_t source_size, terkinoha_token *tokens, size_t token_room,
                terkinoha_node *nodes, size_t node_room)
{
    return terkinoha_parse_words(source, source_size, (uint64_t *)tokens, token_room * TERKINOHA_WORDS_TOKEN,
                                 (uint64_t *)nodes, node_room * TERKINOHA_WORDS_NODE);
}

/* Lexes a source into tokens and writes their canonical text: byte 10 after each `;`, one space
 * between other neighbours, no comments, one spelling for each number. Two sources have the same
 * text exactly when they have the same tokens, places aside. The text is as long as `bytes` says: it
 * may hold byte 0, inside a string, and none ends it; zeros follow where it is shorter than its room.
 */
TERKINOHA_MUST_USE static inline terkinoha_canonised
terkinoha_canonicalise(const void *source, size_t source_size, terkinoha_token *tokens, size_t token_room,
                       char *text, size_t text_room)
{
    return terkinoha_canonicalise_words(source, source_size, (uint64_t *)tokens, token_room * TERKINOHA_WORDS_TOKEN,
                                        text, text_room);
}

/* Checks a source: its tokens and nodes, what is wrong with it, and the statements that it comes to.
 * Errors and warnings are counted in full; the diagnostic table never causes a refusal. Arguments are
 * given by their places: a call that names one is refused (8) where what it calls is a function.
 */
TERKINOHA_MUST_USE static inline terkinoha_checked
terkinoha_check(const void *source, size_t source_size, terkinoha_token *tokens, size_t token_room,
                terkinoha_node *nodes, size_t node_room, terkinoha_diagnostic *diagnostics,
                size_t diagnostic_room, terkinoha_statement *statements, size_t statement_room)
{
    return terkinoha_check_words(source, source_size, (uint64_t *)tokens, token_room * TERKINOHA_WORDS_TOKEN,
                                 (uint64_t *)nodes, node_room * TERKINOHA_WORDS_NODE, (uint64_t *)diagnostics,
                                 diagnostic_room * TERKINOHA_WORDS_DIAGNOSTIC, (uint64_t *)statements,
                                 statement_room * TERKINOHA_WORDS_STATEMENT);
}

/* ---- the token at a place -------------------------------------------------------------------- */

/* The index of the token that covers a place, or `count` where none does. `tokens` are the first
 * `count` rows of a table, as many as a call has counted. A token covers so many columns of its line,
 * from its own on, as its span has bytes. Token t covers a place exactly when
 *
 *     t.line == line && t.column <= column && column - t.column < t.end - t.start
 *
 * and then no other token does. Of each place that a finding or a statement has, this is the token
 * that stands there. Blanks and comments are covered by none, but those between the literals of one
 * string are by it; `Eof`, with its empty span, covers no place. A string that goes on in later lines
 * covers all of its first line from its column on, columns past the line's end too, and nothing of
 * the later lines, for no row says where a line starts.
 */
static inline uint64_t terkinoha_token_at(const terkinoha_token *tokens, uint64_t count, uint64_t line,
                                          uint64_t column)
{
    /* tokens before `low` start at the place or before it, those from `high` on after it */
    uint64_t low = 0, high = count;
    while (low < high) {
        uint64_t middle = low + (high - low) / 2;
        const terkinoha_token *token = &tokens[middle];
        if (token->line < line || (token->line == line && token->column <= column))
            low = middle + 1;
        else
            high = middle;
    }
    if (low == 0)
        return count;
    const terkinoha_token *last = &tokens[low - 1];
    return last->line == line && column - last->column < last->end - last->start ? low - 1 : count;
}

/* ---- the bodies of a string ------------------------------------------------------------------ */

/* Where the body of one of a string's literals lies: `source + start` up to `source + end`, raw,
 * between its quotes. All zero where there is none.
 */
typedef struct terkinoha_body {
    uint64_t found; /* 1, or 0 where there is none */
    uint64_t start;
    uint64_t end;
    uint64_t next; /* where to look for the next body */
} terkinoha_body;

TERKINOHA_ASSERT_WORDS(terkinoha_body, 4);

/* The first body that a part of the source has, from offset `at` up to `end`. This walks over all
 * bodies of a string token and reads its span once:
 *
 *     terkinoha_body body = terkinoha_next_body(source, size, token.start, token.end);
 *     for (; body.found; body = terkinoha_next_body(source, size, body.next, token.end))
 *         fwrite(source + body.start, 1, body.end - body.start, stdout);
 */
TERKINOHA_MUST_USE terkinoha_body terkinoha_next_body(const void *source, size_t source_size, uint64_t at,
                                                      uint64_t end);

/* The body numbered `i`, from 0, of a string token that spans the source from `start` up to `end`.
 * It walks there from the first one: for all bodies, walk as above.
 */
TERKINOHA_MUST_USE terkinoha_body terkinoha_body_at(const void *source, size_t source_size, uint64_t start,
                                                    uint64_t end, uint64_t i);

/* ---- texts, for people to read --------------------------------------------------------------- */

/* Each is a constant that ends with byte 0, and never NULL. */

/* Of a lexical error's kind. */
static inline const char *terkinoha_error_text(uint64_t kind)
{
    switch (kind) {
    case TERKINOHA_ERROR_UNEXPECTED_CHAR: return "unexpected character";
    case TERKINOHA_ERROR_UNTERMINATED_STRING: return "unterminated string literal";
    case TERKINOHA_ERROR_INT_OUT_OF_RANGE: return "integer literal out of range";
    case TERKINOHA_ERROR_INT_LEADING_ZERO: return "decimal integer literal with leading zero";
    case TERKINOHA_ERROR_INT_INVALID_SUFFIX: return "integer literal with invalid suffix";
    case TERKINOHA_ERROR_IPV4_LITERAL: return "invalid IPv4 literal";
    default: return "unknown error";
    }
}

/* Of what a call came to. */
static inline const char *terkinoha_verdict_text(terkinoha_verdict verdict)
{
    switch (verdict.number) {
    case TERKINOHA_DONE: return "done";
    case TERKINOHA_REFUSED_TOO_LONG: return "script longer than 65536 bytes";
    case TERKINOHA_REFUSED_NOT_UTF8: return "not well-formed UTF-8";
    case TERKINOHA_REFUSED_LEXICAL: return terkinoha_error_text(verdict.kind);
    case TERKINOHA_REFUSED_TOKEN_ROOM: return "more tokens than the table has room for";
    case TERKINOHA_REFUSED_SYNTAX:
        return verdict.kind == TERKINOHA_SYNTAX_INT_OUT_OF_RANGE ? "integer literal out of range"
                                                                 : "unexpected token";
    case TERKINOHA_REFUSED_NODE_ROOM: return "more nodes than the table has room for";
    case TERKINOHA_REFUSED_TOO_DEEP: return "more than 32 open argument lists, or 64 steps in one expression";
    case TERKINOHA_REFUSED_CALLS: return "a named argument, which cannot be checked";
    case TERKINOHA_REFUSED_NAMES: return "more than 512 let names, or 64 import names";
    case TERKINOHA_REFUSED_TEXT_ROOM: return "canonical text longer than its room, or 65536 bytes";
    case TERKINOHA_REFUSED_STATEMENT_ROOM: return "more statements than the table has room for";
    default: return "unknown refusal";
    }
}

/* Of a token's kind. */
static inline const char *terkinoha_kind_text(uint64_t kind)
{
    switch (kind) {
    case TERKINOHA_TOKEN_EOF: return "end of script";
    case TERKINOHA_TOKEN_LPAREN: return "`(`";
    case TERKINOHA_TOKEN_RPAREN: return "`)`";
    case TERKINOHA_TOKEN_DOT: return "`.`";
    case TERKINOHA_TOKEN_DOUBLE_COLON: return "`::`";
    case TERKINOHA_TOKEN_COLON: return "`:`";
    case TERKINOHA_TOKEN_SEMI_COLON: return "`;`";
    case TERKINOHA_TOKEN_EQUALS: return "`=`";
    case TERKINOHA_TOKEN_COMMA: return "`,`";
    case TERKINOHA_TOKEN_SLASH: return "`/`";
    case TERKINOHA_TOKEN_IMPORT_KEYWORD: return "`import`";
    case TERKINOHA_TOKEN_LET_KEYWORD: return "`let`";
    case TERKINOHA_TOKEN_IDENTIFIER: return "name";
    case TERKINOHA_TOKEN_BOOLEAN_LITERAL: return "boolean";
    case TERKINOHA_TOKEN_IPV4_LITERAL: return "IPv4 address";
    case TERKINOHA_TOKEN_STRING_LITERAL: return "string";
    case TERKINOHA_TOKEN_HEX_LITERAL: return "hexadecimal integer";
    case TERKINOHA_TOKEN_DEC_LITERAL: return "decimal integer";
    default: return "unknown token";
    }
}

/* Of a node's kind. */
static inline const char *terkinoha_node_text(uint64_t kind)
{
    switch (kind) {
    case TERKINOHA_NODE_NAME: return "name of a path";
    case TERKINOHA_NODE_LITERAL: return "literal";
    case TERKINOHA_NODE_SOCK4: return "address with a port";
    case TERKINOHA_NODE_LOCAL: return "name";
    case TERKINOHA_NODE_PATH: return "path";
    case TERKINOHA_NODE_MEMBER: return "member";
    case TERKINOHA_NODE_SLASH: return "`/`";
    case TERKINOHA_NODE_CALL: return "call";
    case TERKINOHA_NODE_ARGUMENT: return "argument";
    case TERKINOHA_NODE_NAMED_ARGUMENT: return "named argument";
    case TERKINOHA_NODE_IMPORT: return "import";
    case TERKINOHA_NODE_LET: return "let";
    case TERKINOHA_NODE_EXPRESSION: return "expression statement";
    default: return "unknown node";
    }
}

/* Of a finding's kind. */
static inline const char *terkinoha_finding_text(uint64_t kind)
{
    switch (kind) {
    case TERKINOHA_FINDING_UNKNOWN_NAME: return "unknown name";
    case TERKINOHA_FINDING_UNKNOWN_ITEM: return "no such item in the module";
    case TERKINOHA_FINDING_UNKNOWN_MODULE: return "unknown module";
    case TERKINOHA_FINDING_NOT_IMPORTED: return "module is not imported";
    case TERKINOHA_FINDING_NOT_A_MODULE: return "not a module";
    case TERKINOHA_FINDING_NOT_A_VALUE: return "a module is not a value";
    case TERKINOHA_FINDING_ALREADY_BOUND: return "name is already bound";
    case TERKINOHA_FINDING_NO_MEMBERS: return "value has no members";
    case TERKINOHA_FINDING_OPERAND_TYPE: return "operand has the wrong type";
    case TERKINOHA_FINDING_NOT_CALLABLE: return "value cannot be called";
    case TERKINOHA_FINDING_TOO_MANY_ARGS: return "too many arguments";
    case TERKINOHA_FINDING_TOO_FEW_ARGS: return "too few arguments";
    case TERKINOHA_FINDING_ARG_TYPE: return "argument has the wrong type";
    case TERKINOHA_FINDING_VOID_VALUE: return "call gives no value";
    case TERKINOHA_FINDING_INTEGRAL_TOO_LARGE: return "integer too large for any type";
    case TERKINOHA_FINDING_MULTIPLE_IMPORTS: return "module is imported again";
    case TERKINOHA_FINDING_DISCARDED_VALUE: return "value is discarded";
    case TERKINOHA_FINDING_TRUNCATED: return "integer is cut to fit";
    case TERKINOHA_FINDING_OVERFLOW: return "value may be cut to fit";
    default: return "unknown finding";
    }
}

/* Of an entry of the constant table, by its number: its name. */
static inline const char *terkinoha_entry_name(uint64_t entry)
{
    switch (entry) {
    case 1: return "bench";
    case 2: return "HTTP";
    case 3: return "LOOP";
    case 4: return "BIG";
    case 5: return "ON";
    case 6: return "BANNER";
    case 7: return "ping";
    case 8: return "deep";
    case 9: return "ZERO";
    case 10: return "pause";
    case 11: return "burst";
    case 12: return "mark";
    case 13: return "pick";
    case 14: return "host";
    default: return "unknown entry";
    }
}

/* Of a parameter of a function, by the function's entry and the parameter's number from 0: its name. */
static inline const char *terkinoha_param_name(uint64_t entry, uint64_t param)
{
    switch (entry) {
    case 7: return param == 0 ? "to" : "unknown parameter";
    case 10: return param == 0 ? "time" : "unknown parameter";
    case 11: return param == 0 ? "to" : param == 1 ? "body" : "unknown parameter";
    case 12: return param == 0 ? "on" : "unknown parameter";
    case 13: return param == 0 ? "port" : "unknown parameter";
    case 14: return param == 0 ? "number" : "unknown parameter";
    default: return "unknown parameter";
    }
}

/* Of a type. */
static inline const char *terkinoha_type_text(uint64_t type)
{
    switch (type) {
    case TERKINOHA_TYPE_VOID: return "void";
    case TERKINOHA_TYPE_BOOL: return "bool";
    case TERKINOHA_TYPE_U8: return "u8";
    case TERKINOHA_TYPE_U16: return "u16";
    case TERKINOHA_TYPE_U32: return "u32";
    case TERKINOHA_TYPE_U64: return "u64";
    case TERKINOHA_TYPE_IP4: return "Ip4";
    case TERKINOHA_TYPE_SOCK4: return "Sock4";
    case TERKINOHA_TYPE_BYTES: return "bytes";
    case TERKINOHA_TYPE_PKT: return "Pkt";
    case TERKINOHA_TYPE_PKT_GEN: return "PktGen";
    case TERKINOHA_TYPE_TIME_JUMP: return "TimeJump";
    case TERKINOHA_TYPE_FUNCTION: return "function";
    case TERKINOHA_TYPE_INTEGER: return "integer";
    default: return "unknown type";
    }
}

#ifdef __cplusplus
}
#endif

#endif
