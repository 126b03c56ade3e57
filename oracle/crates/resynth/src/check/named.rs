//! Number 8: "at its `(`, a call with a named argument whose callee was judged to be a function". resynth has no such refusal: it
//! binds named arguments, or refuses them in its own way. Whether it judged a callee to be a function it is asked: the statement is
//! judged with one argument for those of the call, a name that nobody has. A callee comes before its arguments, and only a function's
//! arguments are judged, so resynth reports that name exactly where the callee came to a function.

use super::super::Checker;
use super::asking::{as_it_is, copy, expr, nobody, reports, value};
use crate::ast::{Arg, Expr, ExprKind, Stmt};
use crate::libapi::Module;

/// The first such call, by its number among all calls: from 0, in the order of their `(`. What is judged first of two calls has
/// the earlier `(`, for a callee stands before it and the arguments after it.
pub fn named(root: &'static Module, stmts: &[Stmt]) -> Option<usize> {
    let mut checker = Checker::new(root, |_| {});
    let mut before = 0;
    for stmt in stmts {
        let calls = calls(stmt);
        for (i, call) in calls.iter().enumerate() {
            let asked = |e: &Expr| std::ptr::eq(e, *call).then(|| with_nobody(call));
            if has_name(call) && reports(&mut checker, stmt, call.loc, &asked) {
                return Some(before + i);
            }
        }
        before += calls.len();
        let _ = checker.stmt(copy(stmt, &as_it_is), &mut Vec::new());
    }
    None
}

/// The first call with a named argument, judged or not
pub fn first_named(stmts: &[Stmt]) -> Option<usize> {
    stmts.iter().flat_map(calls).position(has_name)
}

fn has_name(call: &Expr) -> bool {
    matches!(&call.kind, ExprKind::Call { args, .. } if args.iter().any(|arg| arg.name.is_some()))
}

/// The call, with the name that nobody has as its only argument
fn with_nobody(call: &Expr) -> Expr {
    let ExprKind::Call { callee, .. } = &call.kind else {
        unreachable!("it was found as a call")
    };
    let only = Arg {
        name: None,
        value: nobody(call.loc),
    };
    Expr {
        loc: call.loc,
        kind: ExprKind::Call {
            callee: Box::new(expr(callee, &as_it_is)),
            args: [only].into(),
        },
    }
}

/// The calls in a statement, in the order of their `(`
fn calls(stmt: &Stmt) -> Vec<&Expr> {
    let mut found = Vec::new();
    if let Some(e) = value(stmt) {
        calls_in(e, &mut found);
    }
    found
}

fn calls_in<'a>(e: &'a Expr, found: &mut Vec<&'a Expr>) {
    match &e.kind {
        ExprKind::Literal(_) | ExprKind::LocalRef(_) | ExprKind::ModulePath(_) => {}
        ExprKind::Member { obj, .. } => calls_in(obj, found),
        ExprKind::Call { callee, args } => {
            calls_in(callee, found);
            found.push(e);
            args.iter().for_each(|arg| calls_in(&arg.value, found));
        }
        ExprKind::Binary { lhs, rhs, .. } => {
            calls_in(lhs, found);
            calls_in(rhs, found);
        }
    }
}
