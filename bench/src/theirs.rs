//! resynth's own scanner, lexer, parser and checker on the same sources.

use std::collections::VecDeque;

use resynth::ast::{Expr, ExprKind, Stmt};
use resynth::check::{Diagnostic, DiagnosticKind};
use resynth::lex::{LexemeKind, Lexer, Scanner, Tok, Token};
use resynth::stdlib::WIDE;
use resynth::{Held, hold};

/// How many lexemes a line has
pub fn scan(line: &str) -> usize {
    let mut n = 0;
    for lexeme in Scanner::new(line) {
        std::hint::black_box(&lexeme);
        n += 1;
    }
    n
}

pub fn lex(source: &str) -> VecDeque<Token> {
    Lexer::lex(source.split_terminator('\n')).expect("the script lexes")
}

pub fn parse(source: &str) -> Vec<Stmt> {
    resynth::parse::parse(lex(source)).expect("the script parses")
}

/// What the checker holds after its loop, and what it found, in room that was known beforehand as ours is
pub fn check(source: &str, room: usize) -> (Held, Vec<Diagnostic>) {
    let mut found = Vec::with_capacity(room);
    let held = hold(&WIDE, parse(source), |_, diag| found.push(diag));
    (held, found)
}

/// The line and column of a finding, and 1 for an error, 2 for a warning
pub fn finding(diag: &Diagnostic) -> (u64, u64, u64) {
    let severity = match diag.kind {
        DiagnosticKind::Error(_) => 1,
        DiagnosticKind::Warning(_) => 2,
    };
    (diag.loc.line() as u64, diag.loc.col() as u64, severity)
}

/// The end of each lexeme, and whether it is a token
pub fn lexemes(line: &str) -> Vec<(u64, bool)> {
    Scanner::new(line)
        .map(|found| match found {
            Ok(l) => (l.span.end as u64, matches!(l.kind, LexemeKind::Tok(_))),
            Err(e) => (e.span.end as u64, false),
        })
        .collect()
}

/// A token's kind by its number, its line and its column
pub fn place(token: &Token) -> (u64, u64, u64) {
    let kind = match token.tok() {
        Tok::Eof => 1,
        Tok::LParen => 2,
        Tok::RParen => 3,
        Tok::Dot => 4,
        Tok::DoubleColon => 5,
        Tok::Colon => 6,
        Tok::SemiColon => 7,
        Tok::Equals => 8,
        Tok::Comma => 9,
        Tok::Slash => 10,
        Tok::ImportKeyword => 11,
        Tok::LetKeyword => 12,
        Tok::Identifier(_) => 13,
        Tok::BooleanLiteral(_) => 14,
        Tok::IPv4Literal(_) => 15,
        Tok::StringLiteral(_) => 16,
        Tok::HexLiteral(_) => 17,
        Tok::DecLiteral(_) => 18,
    };
    let loc = token.loc();
    (kind, loc.line() as u64, loc.col() as u64)
}

/// Nodes, as the node table counts them
pub fn nodes(stmts: &[Stmt]) -> u64 {
    stmts
        .iter()
        .map(|stmt| match stmt {
            Stmt::Import(_) => 1,
            Stmt::Let { value, .. } | Stmt::Expr(value) => 1 + expr_nodes(value),
        })
        .sum()
}

fn expr_nodes(expr: &Expr) -> u64 {
    match &expr.kind {
        ExprKind::Literal(_) | ExprKind::LocalRef(_) => 1,
        ExprKind::ModulePath(path) => 2 + path.inner.len() as u64,
        ExprKind::Member { obj, .. } => 1 + expr_nodes(obj),
        ExprKind::Call { callee, args } => {
            let args: u64 = args.iter().map(|arg| 1 + expr_nodes(&arg.value)).sum();
            1 + expr_nodes(callee) + args
        }
        ExprKind::Binary { lhs, rhs, .. } => 1 + expr_nodes(lhs) + expr_nodes(rhs),
    }
}
