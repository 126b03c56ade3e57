//! What resynth answers, as text. The formats are in README.md.

use std::collections::VecDeque;
use std::fmt::Display;
use std::io::Write;

use resynth::ast::{self, Ident, Lit};
use resynth::check::{Diagnostic, DiagnosticKind, SemanticErrorKind, WarningKind};
use resynth::hir::{self, Const, StmtKind};
use resynth::lex::{LexError, LexErrorKind, LexemeKind, Lexer, Scanner, Tok, Token};
use resynth::libapi::Module;
use resynth::loc::Loc;
use resynth::parse::{ParseErrorKind, parse as parse_tokens};
use resynth::stdlib::{STDLIB, WIDE};
use resynth::str::{Buf, StringLiteralErrorKind};
use resynth::{Held, call_parts, hold, looks, named, token};

use crate::{bounds, canon};

pub type Out = Vec<u8>;

#[derive(Clone, Copy, Default)]
pub struct Options {
    /// Check against the wider table, which has functions to call
    pub wide: bool,
    /// Show a string as the list of its raw bodies
    pub raw: bool,
    /// Give the refusals that resynth does not have
    pub bounds: bool,
}

/// Why there is no answer
pub enum Refusal {
    Utf8(Loc),
    Lex(LexError),
    Parse(resynth::parse::ParseError),
    /// One that resynth does not have
    Bound(u8, Loc),
}

type Result<T> = std::result::Result<T, Refusal>;

macro_rules! put {
    ($out:expr, $($arg:tt)*) => {
        write!($out, $($arg)*).expect("a vector takes every byte")
    };
}

fn hex(out: &mut Out, bytes: &[u8]) {
    const DIGITS: &[u8; 16] = b"0123456789abcdef";
    out.push(b'x');
    for b in bytes {
        out.push(DIGITS[usize::from(b >> 4)]);
        out.push(DIGITS[usize::from(b & 15)]);
    }
}

/// A string's value. Raw bodies stand in one buffer with byte 10 between them, which no body
/// holds.
fn string(out: &mut Out, bytes: &[u8], opts: Options) {
    if !opts.raw {
        return hex(out, bytes);
    }
    for (i, body) in bytes.split(|&b| b == b'\n').enumerate() {
        if i > 0 {
            out.push(b' ');
        }
        hex(out, body);
    }
}

fn number(out: &mut Out, mut n: u64) {
    let mut digits = [0; 20];
    let mut at = digits.len();
    loop {
        at -= 1;
        digits[at] = b'0' + (n % 10) as u8;
        n /= 10;
        if n == 0 {
            break;
        }
    }
    out.extend_from_slice(&digits[at..]);
}

fn word(out: &mut Out, word: &str) {
    out.extend_from_slice(word.as_bytes());
}

fn place(out: &mut Out, loc: Loc) {
    number(out, loc.line() as u64);
    out.push(b' ');
    number(out, loc.col() as u64);
}

fn int(out: &mut Out, n: i128) {
    match u64::try_from(n) {
        Ok(n) => number(out, n),
        Err(_) => put!(out, "{n}"),
    }
}

// Lexemes and tokens

fn tok(out: &mut Out, tok: &Tok, opts: Options) {
    match tok {
        Tok::Eof => word(out, "Eof"),
        Tok::LParen => word(out, "LParen"),
        Tok::RParen => word(out, "RParen"),
        Tok::Dot => word(out, "Dot"),
        Tok::DoubleColon => word(out, "DoubleColon"),
        Tok::Colon => word(out, "Colon"),
        Tok::SemiColon => word(out, "SemiColon"),
        Tok::Equals => word(out, "Equals"),
        Tok::Comma => word(out, "Comma"),
        Tok::Slash => word(out, "Slash"),
        Tok::ImportKeyword => word(out, "ImportKeyword"),
        Tok::LetKeyword => word(out, "LetKeyword"),
        Tok::Identifier(name) => {
            word(out, "Identifier ");
            word(out, name);
        }
        Tok::BooleanLiteral(b) => put!(out, "BooleanLiteral {b}"),
        Tok::IPv4Literal(addr) => put!(out, "IPv4Literal {addr}"),
        Tok::StringLiteral(buf) => {
            word(out, "StringLiteral ");
            string(out, buf.as_ref(), opts);
        }
        Tok::HexLiteral(n) => {
            word(out, "HexLiteral ");
            int(out, *n);
        }
        Tok::DecLiteral(n) => {
            word(out, "DecLiteral ");
            int(out, *n);
        }
    }
}

fn string_error(kind: &StringLiteralErrorKind) -> &'static str {
    match kind {
        StringLiteralErrorKind::BadChar(_) => "BadChar",
        StringLiteralErrorKind::BadHexDigit(_) => "BadHexDigit",
        StringLiteralErrorKind::OddHexDigits => "OddHexDigits",
        StringLiteralErrorKind::UnterminatedHex => "UnterminatedHex",
    }
}

fn lex_error(out: &mut Out, kind: &LexErrorKind) {
    match kind {
        LexErrorKind::UnexpectedChar(c) => {
            word(out, "UnexpectedChar ");
            number(out, u64::from(u32::from(*c)));
        }
        LexErrorKind::UnterminatedString => word(out, "UnterminatedString"),
        LexErrorKind::StringLiteral(kind) => word(out, string_error(kind)),
        LexErrorKind::IntOutOfRange => word(out, "IntOutOfRange"),
        LexErrorKind::IntLeadingZero => word(out, "IntLeadingZero"),
        LexErrorKind::IntInvalidSuffix => word(out, "IntInvalidSuffix"),
        LexErrorKind::IPv4Literal => word(out, "IPv4Literal"),
    }
}

fn refusal(out: &mut Out, refusal: &Refusal) {
    match refusal {
        Refusal::Utf8(loc) => {
            word(out, "refused 2 ");
            place(out, *loc);
        }
        Refusal::Lex(LexError { loc, kind }) => {
            word(
                out,
                match kind {
                    LexErrorKind::StringLiteral(_) => "outside ",
                    _ => "refused 3 ",
                },
            );
            place(out, *loc);
            out.push(b' ');
            lex_error(out, kind);
        }
        Refusal::Parse(err) => {
            word(out, "refused 5 ");
            place(out, err.loc);
            word(
                out,
                match err.kind {
                    ParseErrorKind::UnexpectedToken { .. } => " UnexpectedToken",
                    ParseErrorKind::IntOutOfRange => " IntOutOfRange",
                },
            );
        }
        Refusal::Bound(no, loc) => {
            put!(out, "refused {no} ");
            place(out, *loc);
        }
    }
    out.push(b'\n');
}

/// The source as text, or the place of the first byte where no well-formed character starts
fn text(src: &[u8]) -> Result<&str> {
    std::str::from_utf8(src).map_err(|err| {
        let before = &src[..err.valid_up_to()];
        let line = before.iter().filter(|&&b| b == b'\n').count();
        let start = before
            .iter()
            .rposition(|&b| b == b'\n')
            .map_or(0, |i| i + 1);
        Refusal::Utf8(Loc::new(line + 1, before.len() - start + 1))
    })
}

fn size(src: &[u8], opts: Options) -> Result<()> {
    if opts.bounds && bounds::too_long(src) {
        return Err(Refusal::Bound(1, Loc::nil()));
    }
    Ok(())
}

pub fn tokens(src: &[u8], opts: Options) -> Result<VecDeque<Token>> {
    size(src, opts)?;
    // Cut at each byte 10, and no line after the last
    let lines = text(src)?.split_terminator('\n');
    if opts.raw {
        raw_tokens(lines).map_err(Refusal::Lex)
    } else {
        Lexer::lex(lines).map_err(Refusal::Lex)
    }
}

/// As `Lexer::lex`, from the same scanner, with a string's raw bodies for its bytes
fn raw_tokens<'a>(
    lines: impl Iterator<Item = &'a str>,
) -> std::result::Result<VecDeque<Token>, LexError> {
    let mut toks = VecDeque::new();
    let mut pending: Option<(Loc, Vec<u8>)> = None;
    let mut lno = 0;
    let join = |(loc, bytes): (Loc, Vec<u8>)| token(loc, Tok::StringLiteral(Buf::from(bytes)));
    for line in lines {
        lno += 1;
        for lexeme in Scanner::new(line) {
            let lexeme = lexeme.map_err(|err| err.locate(lno))?;
            let loc = Loc::new(lno, lexeme.span.start + 1);
            match lexeme.kind {
                LexemeKind::Trivia => {}
                LexemeKind::Str(body) => match &mut pending {
                    None => pending = Some((loc, body.into())),
                    Some((_, bytes)) => {
                        bytes.push(b'\n');
                        bytes.extend_from_slice(body.as_bytes());
                    }
                },
                LexemeKind::Tok(tok) => {
                    toks.extend(pending.take().map(join));
                    toks.push_back(token(loc, tok));
                }
            }
        }
    }
    toks.extend(pending.take().map(join));
    toks.push_back(token(Loc::new(lno + 1, 1), Tok::Eof));
    Ok(toks)
}

pub fn scan(out: &mut Out, src: &[u8], opts: Options) {
    if let Err(err) = size(src, opts) {
        return refusal(out, &err);
    }
    let line = match std::str::from_utf8(src) {
        Ok(line) => line,
        Err(err) => {
            let loc = Loc::new(1, err.valid_up_to() + 1);
            return refusal(out, &Refusal::Utf8(loc));
        }
    };
    for lexeme in Scanner::new(line) {
        let span = match &lexeme {
            Ok(lexeme) => &lexeme.span,
            Err(err) => &err.span,
        };
        number(out, span.start as u64);
        out.push(b' ');
        number(out, span.end as u64);
        out.push(b' ');
        match &lexeme {
            Ok(lexeme) => match &lexeme.kind {
                LexemeKind::Trivia => word(out, "Trivia"),
                LexemeKind::Str(body) => {
                    word(out, "Str ");
                    hex(out, body.as_bytes());
                }
                LexemeKind::Tok(t) => tok(out, t, Options::default()),
            },
            Err(err) => {
                word(out, "error ");
                lex_error(out, &err.kind);
            }
        }
        out.push(b'\n');
    }
}

pub fn lex(out: &mut Out, src: &[u8], opts: Options) {
    match tokens(src, opts) {
        Ok(toks) => {
            for t in &toks {
                place(out, t.loc());
                out.push(b' ');
                tok(out, t.tok(), opts);
                out.push(b'\n');
            }
        }
        Err(err) => refusal(out, &err),
    }
}

/// The canonical text of the raw tokens
fn canonical(src: &[u8], opts: Options) -> Result<Vec<u8>> {
    let text = canon::text(&tokens(src, Options { raw: true, ..opts })?);
    if opts.bounds && bounds::too_long(&text) {
        return Err(Refusal::Bound(10, Loc::nil()));
    }
    Ok(text)
}

pub fn canon(out: &mut Out, src: &[u8], opts: Options) {
    match canonical(src, opts) {
        Ok(text) => {
            hex(out, &text);
            out.push(b'\n');
        }
        Err(err) => refusal(out, &err),
    }
}

/// One raw string body
pub fn decode(out: &mut Out, src: &[u8]) {
    let body = match std::str::from_utf8(src) {
        Ok(body) => body,
        Err(err) => {
            let loc = Loc::new(1, err.valid_up_to() + 1);
            return refusal(out, &Refusal::Utf8(loc));
        }
    };
    let mut bytes = Vec::new();
    match Buf::decode_literal_into(body, &mut bytes) {
        Ok(()) => hex(out, &bytes),
        Err(err) => put!(out, "outside {} {}", err.offset, string_error(&err.kind)),
    }
    out.push(b'\n');
}

// Trees

pub fn tree(src: &[u8], opts: Options) -> Result<Vec<ast::Stmt>> {
    let toks = tokens(src, opts)?;
    if !opts.bounds {
        return parse_tokens(toks).map_err(Refusal::Parse);
    }
    let parsed = parse_tokens(toks.clone());
    let stop = parsed.as_ref().err().map(|err| err.loc);
    match bounds::too_deep(&toks, stop) {
        Some(loc) => Err(Refusal::Bound(7, loc)),
        None => parsed.map_err(Refusal::Parse),
    }
}

/// A name and its place
fn name(out: &mut Out, ident: &Ident) {
    word(out, &ident.name);
    out.push(b' ');
    place(out, ident.loc);
}

fn expr(out: &mut Out, e: &ast::Expr, opts: Options) {
    use ast::ExprKind as K;
    word(
        out,
        match &e.kind {
            K::Literal(Lit::Bool(_)) => "(bool ",
            K::Literal(Lit::Int(_)) => "(int ",
            K::Literal(Lit::Ip4(_)) => "(ip4 ",
            K::Literal(Lit::Sock4(_)) => "(sock4 ",
            K::Literal(Lit::Str(_)) => "(str ",
            K::LocalRef(_) => "(local ",
            K::ModulePath(_) => "(path ",
            K::Member { .. } => "(member ",
            K::Call { .. } => "(call ",
            K::Binary {
                op: ast::BinOp::Slash,
                ..
            } => "(slash ",
        },
    );
    place(out, e.loc);
    out.push(b' ');
    match &e.kind {
        K::Literal(Lit::Bool(b)) => put!(out, "{b}"),
        K::Literal(Lit::Int(n)) => int(out, *n),
        K::Literal(Lit::Ip4(addr)) => put!(out, "{addr}"),
        K::Literal(Lit::Sock4(sock)) => put!(out, "{sock}"),
        K::Literal(Lit::Str(buf)) => string(out, buf.as_ref(), opts),
        K::LocalRef(ident) => {
            // A local's own place is its expression's
            assert_eq!(ident.loc, e.loc);
            word(out, &ident.name);
        }
        K::ModulePath(path) => {
            name(out, &path.module);
            for ident in path.inner.iter().chain([&path.item]) {
                out.push(b' ');
                name(out, ident);
            }
        }
        K::Member { obj, name: ident } => {
            expr(out, obj, opts);
            out.push(b' ');
            name(out, ident);
        }
        K::Binary { lhs, rhs, .. } => {
            expr(out, lhs, opts);
            out.push(b' ');
            expr(out, rhs, opts);
        }
        K::Call { callee, args } => {
            expr(out, callee, opts);
            for arg in args {
                match &arg.name {
                    None => word(out, " (arg "),
                    Some(ident) => {
                        word(out, " (named ");
                        name(out, ident);
                        out.push(b' ');
                    }
                }
                expr(out, &arg.value, opts);
                out.push(b')');
            }
        }
    }
    out.push(b')');
}

pub fn parse(out: &mut Out, src: &[u8], opts: Options) {
    let stmts = match tree(src, opts) {
        Ok(stmts) => stmts,
        Err(err) => return refusal(out, &err),
    };
    for stmt in &stmts {
        match stmt {
            ast::Stmt::Import(module) => {
                word(out, "(import ");
                name(out, module);
            }
            ast::Stmt::Let { target, value } => {
                word(out, "(let ");
                name(out, target);
                out.push(b' ');
                expr(out, value, opts);
            }
            ast::Stmt::Expr(e) => {
                word(out, "(expr ");
                expr(out, e, opts);
            }
        }
        word(out, ")\n");
    }
}

// Judgements

pub fn root(opts: Options) -> &'static Module {
    if opts.wide { &WIDE } else { &STDLIB }
}

fn field(out: &mut Out, value: impl Display) {
    put!(out, " {value}");
}

/// A diagnostic's line: its place, `E` or `W`, its kind, and its fields as check.rs declares them
pub fn diagnostic(out: &mut Out, diag: &Diagnostic) {
    place(out, diag.loc);
    match &diag.kind {
        DiagnosticKind::Error(kind) => {
            word(out, " E ");
            semantic_error(out, kind);
        }
        DiagnosticKind::Warning(kind) => {
            word(out, " W ");
            warning(out, kind);
        }
    }
    out.push(b'\n');
}

fn warning(out: &mut Out, kind: &WarningKind) {
    use WarningKind as K;
    match kind {
        K::MultipleImports(name) => {
            word(out, "MultipleImports");
            field(out, name);
        }
        K::DiscardedValue(ty) => {
            word(out, "DiscardedValue");
            field(out, ty);
        }
        K::Truncated { value, ty } => {
            word(out, "Truncated");
            field(out, value);
            field(out, ty);
        }
        K::Overflow { found, ty } => {
            word(out, "Overflow");
            field(out, found);
            field(out, ty);
        }
    }
}

fn semantic_error(out: &mut Out, kind: &SemanticErrorKind) {
    use SemanticErrorKind as K;
    match kind {
        K::UnknownName(name) => {
            word(out, "UnknownName");
            field(out, name);
        }
        K::UnknownItem { name, module } => {
            word(out, "UnknownItem");
            field(out, name);
            field(out, module);
        }
        K::UnknownMember { class, name } => {
            word(out, "UnknownMember");
            field(out, class);
            field(out, name);
        }
        K::UnknownModule(name) => {
            word(out, "UnknownModule");
            field(out, name);
        }
        K::NotImported(name) => {
            word(out, "NotImported");
            field(out, name);
        }
        K::NotAModule(name) => {
            word(out, "NotAModule");
            field(out, name);
        }
        K::NotAValue(name) => {
            word(out, "NotAValue");
            field(out, name);
        }
        K::AlreadyBound { name, first } => {
            word(out, "AlreadyBound");
            field(out, name);
            out.push(b' ');
            place(out, *first);
        }
        K::NoMembers(found) => {
            word(out, "NoMembers");
            field(out, found);
        }
        K::OperandType {
            op,
            side,
            expected,
            found,
        } => {
            word(out, "OperandType");
            field(out, op);
            field(out, side);
            field(out, expected);
            field(out, found);
        }
        K::NotCallable(found) => {
            word(out, "NotCallable");
            field(out, found);
        }
        K::TooManyArgs { func, got, want } => {
            word(out, "TooManyArgs");
            field(out, func);
            field(out, got);
            field(out, want);
        }
        K::TooFewArgs { func, got, want } => {
            word(out, "TooFewArgs");
            field(out, func);
            field(out, got);
            field(out, want);
        }
        K::MissingArg { func, arg } => {
            word(out, "MissingArg");
            field(out, func);
            field(out, arg);
        }
        K::UnknownArg { func, arg } => {
            word(out, "UnknownArg");
            field(out, func);
            field(out, arg);
        }
        K::DuplicateArg { func, arg } => {
            word(out, "DuplicateArg");
            field(out, func);
            field(out, arg);
        }
        K::UnexpectedCollectArgs { func } => {
            word(out, "UnexpectedCollectArgs");
            field(out, func);
        }
        K::UnexpectedNamedArg { func, arg } => {
            word(out, "UnexpectedNamedArg");
            field(out, func);
            field(out, arg);
        }
        K::ArgType {
            func,
            arg,
            expected,
            found,
        } => {
            word(out, "ArgType");
            field(out, func);
            field(out, arg);
            field(out, expected);
            field(out, found);
        }
        K::CollectArgType {
            func,
            expected,
            found,
        } => {
            word(out, "CollectArgType");
            field(out, func);
            field(out, expected);
            field(out, found);
        }
        K::VoidValue => word(out, "VoidValue"),
        K::IntegralTooLarge() => word(out, "IntegralTooLarge"),
    }
}

fn constant(out: &mut Out, c: &Const, opts: Options) {
    match c {
        Const::Bool(b) => put!(out, "bool {b}"),
        Const::U8(n) => put!(out, "u8 {n}"),
        Const::U16(n) => put!(out, "u16 {n}"),
        Const::U32(n) => put!(out, "u32 {n}"),
        Const::U64(n) => put!(out, "u64 {n}"),
        Const::Ip4(addr) => put!(out, "Ip4 {addr}"),
        Const::Sock4(sock) => put!(out, "Sock4 {sock}"),
        Const::Bytes(buf) => {
            word(out, "bytes ");
            string(out, buf.as_ref(), opts);
        }
        Const::Func(func) => put!(out, "function {}", func.name),
        Const::Absent => word(out, "nil"),
    }
}

fn held_expr(out: &mut Out, e: &hir::Expr, opts: Options) {
    use hir::ExprKind as K;
    word(
        out,
        match &e.kind {
            K::Const(_) => "(const ",
            K::Local(_) => "(local ",
            K::Method { .. } => "(method ",
            K::Seq { .. } => "(seq ",
            K::Call(_) => "(call ",
            K::SockAddr { .. } => "(slash ",
        },
    );
    place(out, e.loc);
    out.push(b' ');
    match &e.kind {
        K::Const(c) => constant(out, c, opts),
        K::Local(slot) => number(out, slot.index() as u64),
        K::Method { obj, func } => {
            held_expr(out, obj, opts);
            field(out, func.name);
        }
        K::Seq { effects, value } => {
            for effect in effects {
                held_expr(out, effect, opts);
                out.push(b' ');
            }
            held_expr(out, value, opts);
        }
        K::Call(call) => {
            let parts = call_parts(call);
            held_expr(out, parts.callee, opts);
            field(out, parts.func.name);
            for (arg, param) in parts.args {
                put!(out, " (arg {param} ");
                held_expr(out, arg, opts);
                out.push(b')');
            }
            for arg in parts.collect {
                word(out, " (collect ");
                held_expr(out, arg, opts);
                out.push(b')');
            }
        }
        K::SockAddr { ip, port } => {
            held_expr(out, ip, opts);
            out.push(b' ');
            held_expr(out, port, opts);
        }
    }
    out.push(b')');
}

fn held_stmt(out: &mut Out, stmt: &hir::Stmt, held: &Held, opts: Options) {
    word(out, "stmt ");
    place(out, stmt.loc);
    let value = match &stmt.kind {
        StmtKind::Let { slot, value } => {
            word(out, " Let ");
            number(out, slot.index() as u64);
            out.push(b' ');
            word(out, &held.slots[slot.index()]);
            value
        }
        StmtKind::Emit(value) => {
            word(out, " Emit");
            value
        }
        StmtKind::Wait(value) => {
            word(out, " Wait");
            value
        }
        StmtKind::Eval(value) => {
            word(out, " Eval");
            value
        }
        StmtKind::Discard(value) => {
            word(out, " Discard");
            value
        }
    };
    out.push(b' ');
    held_expr(out, value, opts);
    out.push(b'\n');
}

/// The place of a refusal that resynth does not have: 8 or 9. Without the wider table every call is one of 8, and the smaller number
/// goes first. With it only some are, and the earlier token decides.
fn unjudged(src: &[u8], stmts: &[ast::Stmt], opts: Options) -> Result<Option<(u8, Loc)>> {
    let call = if opts.wide {
        named(root(opts), stmts)
    } else {
        Some(0)
    };
    let toks = tokens(src, opts)?;
    let eight = call.and_then(|i| bounds::call(&toks, i)).map(|loc| (8, loc));
    let nine = bounds::too_many_names(stmts).map(|loc| (9, loc));
    Ok(match (eight, nine) {
        (Some(eight), Some(nine)) if opts.wide && before(nine.1, eight.1) => Some(nine),
        (eight, nine) => eight.or(nine),
    })
}

fn before(a: Loc, b: Loc) -> bool {
    (a.line(), a.col()) < (b.line(), b.col())
}

/// The statements to judge
fn judged(src: &[u8], opts: Options) -> Result<Vec<ast::Stmt>> {
    let stmts = tree(src, opts)?;
    if opts.bounds
        && let Some((number, loc)) = unjudged(src, &stmts, opts)?
    {
        return Err(Refusal::Bound(number, loc));
    }
    Ok(stmts)
}

pub fn check(out: &mut Out, src: &[u8], opts: Options) {
    let stmts = match judged(src, opts) {
        Ok(stmts) => stmts,
        Err(err) => return refusal(out, &err),
    };
    let held = hold(root(opts), stmts, |_, diag| diagnostic(out, &diag));
    put!(out, "errors {} warnings {}\n", held.errors, held.warnings);
    if held.errors == 0 {
        for stmt in &held.stmts {
            held_stmt(out, stmt, &held, opts);
        }
    }
}

/// A diagnostic's line after the number of its statement
pub fn numbered(out: &mut Out, number: usize, diag: &Diagnostic) {
    put!(out, "{number} ");
    diagnostic(out, diag);
}

pub fn grouped(out: &mut Out, src: &[u8], opts: Options) {
    let stmts = match judged(src, opts) {
        Ok(stmts) => stmts,
        Err(err) => return refusal(out, &err),
    };
    let comparisons = looks(root(opts), &stmts).comparisons;
    let held = hold(root(opts), stmts, |number, diag| {
        numbered(out, number, &diag)
    });
    let Held {
        errors, warnings, ..
    } = held;
    put!(
        out,
        "errors {errors} warnings {warnings} comparisons {comparisons}\n"
    );
}
