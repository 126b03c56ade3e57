#!/usr/bin/env python3
"""host.py FILE: checks a script by the shared library, with nothing but Python's ctypes. FILE may be `-` for standard input.

A finding or a refusal is printed as FILE:LINE:COLUMN: error: TEXT, and the last line counts the findings. Exit status, as
examples/show.c has it: 0 no errors; 1 refused, or errors found; 2 not read, or not all of it written.
The library is the file that TERKINOHA names, else the libterkinoha.so.0 that the loader finds.
"""
import os
import sys
from ctypes import CDLL, Structure, c_char_p, c_size_t, c_uint64, c_void_p

# ---- what is here of terkinoha.h; tests/c/agree holds it to that
DONE = 0
MOST_BYTES = 65536
WORDS_TOKEN = 7
WORDS_NODE = 5
WORDS_STATEMENT = 11
SEVERITY_ERROR = 1
TEXT_SOURCE = 1


def struct(names, **types):
    """A struct whose fields are 64-bit words, but those whose types are given."""
    return type("struct", (Structure,), {"_fields_": [(name, types.get(name, c_uint64)) for name in names.split()]})


Verdict = struct("number kind line column character")
Lexed = struct("verdict tokens", verdict=Verdict)
Checked = struct("verdict tokens nodes errors warnings statements comparisons", verdict=Verdict)
Diagnostic = struct("line column severity kind text start end type first second third statement")


def load(path):
    """The library, with what each function that is called here gives and takes. A source or a table is followed by its size."""
    library, area = CDLL(path), [c_void_p, c_size_t]
    for name, gives, takes in [
        ("terkinoha_lex", Lexed, area * 2),
        ("terkinoha_check", Checked, area * 5),
        ("terkinoha_verdict_text", c_char_p, [Verdict]),
        ("terkinoha_finding_text", c_char_p, [c_uint64]),
        ("terkinoha_type_text", c_char_p, [c_uint64]),
    ]:
        function = getattr(library, name)
        function.restype, function.argtypes = gives, takes
    return library


# ---- the host
def read(name):
    """A script, or as much of it as shows that it is too long: the library then says so."""
    file = 0 if name == "-" else os.open(name, os.O_RDONLY)
    source = part = os.read(file, MOST_BYTES + 1)
    while part and len(source) <= MOST_BYTES:
        part = os.read(file, MOST_BYTES + 1 - len(source))
        source += part
    return source


def check(library, name, source):
    """The lines of a script's findings, that of its counts, and the exit status."""
    size, room = len(source), len(source) + 1  # a script never has more tokens ..
    answer = library.terkinoha_lex(source, size, (c_uint64 * (room * WORDS_TOKEN))(), room)
    if answer.verdict.number == DONE:
        room = answer.tokens  # .. nor more findings, nodes or rows of statements than tokens
        tokens, nodes, statements = ((c_uint64 * (room * words))() for words in (WORDS_TOKEN, WORDS_NODE, WORDS_STATEMENT))
        found = (Diagnostic * room)()
        answer = library.terkinoha_check(source, size, tokens, room, nodes, room, found, room, statements, room)
    if answer.verdict.number != DONE:
        place = b"%d:%d:" % (answer.verdict.line, answer.verdict.column) if answer.verdict.line else b""
        return b"%s:%s error: %s\n" % (name, place, library.terkinoha_verdict_text(answer.verdict)), b"", 1
    lines = b""
    for row in found[: answer.errors + answer.warnings]:
        severity = b"error" if row.severity == SEVERITY_ERROR else b"warning"
        text = library.terkinoha_finding_text(row.kind)
        if row.text == TEXT_SOURCE:
            text += b": `%s`" % source[row.start : row.end]
        elif row.type:
            text += b": %s" % library.terkinoha_type_text(row.type)
        lines += b"%s:%d:%d: %s: %s\n" % (name, row.line, row.column, severity, text)
    return lines, b"errors %d warnings %d\n" % (answer.errors, answer.warnings), int(answer.errors > 0)


try:
    if len(sys.argv) != 2:
        raise ValueError("usage: host.py FILE")
    library = load(os.environ.get("TERKINOHA", "libterkinoha.so.0"))
    findings, counts, status = check(library, os.fsencode(sys.argv[1]), read(sys.argv[1]))
    for file, text in (2, findings), (1, counts):
        with open(file, "wb", closefd=False) as out:
            out.write(text)
except Exception as error:  # whatever failed is not to be taken for an answer
    status = 2
    try:
        os.write(2, os.fsencode(f"host.py: {error}\n"))
    except OSError:
        pass
sys.exit(status)
