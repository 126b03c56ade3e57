//! resynth's front end: the modules of its own root that stand for a language, each file as
//! published, with a standard library of ours. More is public here than in resynth's root, so
//! that the oracle can print it.

#![allow(dead_code)]

pub mod args;
pub mod ast;
pub mod check;
pub mod hir;
pub mod interp;
pub mod lex;
pub mod libapi;
pub mod loc;
pub mod object;
pub mod parse;
pub mod stdlib;
pub mod str;
pub mod sym;
pub mod val;

pub use check::bind::{Held, Looks, all_uses, first_named, hold, looks, named};

/// `check_in`, as it is
pub fn check_in(
    root: &'static libapi::Module,
    stmts: impl IntoIterator<Item = ast::Stmt>,
    diag: impl FnMut(check::Diagnostic),
) -> Result<hir::Program, check::ErrorSummary> {
    check::check_in(root, stmts, diag)
}

/// A token made by hand
pub fn token(loc: loc::Loc, tok: lex::Tok) -> lex::Token {
    lex::Token { loc, tok }
}

/// The parts of a bound call
pub struct CallParts<'a> {
    pub callee: &'a hir::Expr,
    pub func: &'static libapi::FuncDef,
    pub args: &'a [(hir::Expr, usize)],
    pub collect: &'a [hir::Expr],
}

pub fn call_parts(call: &hir::Call) -> CallParts<'_> {
    CallParts {
        callee: &call.callee,
        func: call.func,
        args: &call.args,
        collect: &call.collect,
    }
}
