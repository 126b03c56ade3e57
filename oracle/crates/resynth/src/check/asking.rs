//! Questions to resynth's checker. A statement is judged with a part of it changed, so that what resynth reports tells whether it
//! came there. So no rule of what is judged, and when, is repeated in this folder.

use super::super::{Checker, Diagnostic, SemanticError, SemanticErrorKind, Stop};
use crate::ast::{Arg, Expr, ExprKind, Ident, Lit, ModulePath, Stmt};
use crate::loc::Loc;

/// Is no name in any source, so nothing is bound to it
const NOBODY: &str = "?";

/// The name that nobody has, at a place
pub fn nobody(loc: Loc) -> Expr {
    Expr {
        loc,
        kind: ExprKind::LocalRef(Ident {
            loc,
            name: NOBODY.into(),
        }),
    }
}

/// Whether resynth reports the name that nobody has, at a place, when it judges the statement with a change. What the question
/// bound is taken back.
pub fn reports<D: FnMut(Diagnostic)>(
    checker: &mut Checker<D>,
    stmt: &Stmt,
    place: Loc,
    change: &dyn Fn(&Expr) -> Option<Expr>,
) -> bool {
    let new = match stmt {
        Stmt::Let { target, .. } if !checker.bindings.contains_key(&target.name) => Some(target),
        _ => None,
    };
    let slots = checker.slots.len();
    let told = checker.stmt(copy(stmt, change), &mut Vec::new());
    checker.slots.truncate(slots);
    if let Some(target) = new {
        checker.bindings.remove(&target.name);
    }
    matches!(
        told,
        Err(Stop::Reported(SemanticError { loc, kind: SemanticErrorKind::UnknownName(name) }))
            if loc == place && *name == *NOBODY
    )
}

/// The statement's expression
pub fn value(stmt: &Stmt) -> Option<&Expr> {
    match stmt {
        Stmt::Import(_) => None,
        Stmt::Let { value, .. } | Stmt::Expr(value) => Some(value),
    }
}

/// No change
pub fn as_it_is(_: &Expr) -> Option<Expr> {
    None
}

/// The statement, with what `change` gives in the place of an expression
pub fn copy(stmt: &Stmt, change: &dyn Fn(&Expr) -> Option<Expr>) -> Stmt {
    match stmt {
        Stmt::Import(module) => Stmt::Import(ident(module)),
        Stmt::Let { target, value } => Stmt::Let {
            target: ident(target),
            value: expr(value, change),
        },
        Stmt::Expr(value) => Stmt::Expr(expr(value, change)),
    }
}

fn ident(Ident { loc, name }: &Ident) -> Ident {
    Ident {
        loc: *loc,
        name: name.clone(),
    }
}

fn literal(lit: &Lit) -> Lit {
    match lit {
        Lit::Bool(b) => Lit::Bool(*b),
        Lit::Int(n) => Lit::Int(*n),
        Lit::Ip4(addr) => Lit::Ip4(*addr),
        Lit::Sock4(sock) => Lit::Sock4(*sock),
        Lit::Str(buf) => Lit::Str(buf.clone()),
    }
}

fn path(path: &ModulePath) -> ModulePath {
    ModulePath {
        module: ident(&path.module),
        inner: path.inner.iter().map(ident).collect(),
        item: ident(&path.item),
    }
}

pub fn expr(e: &Expr, change: &dyn Fn(&Expr) -> Option<Expr>) -> Expr {
    if let Some(other) = change(e) {
        return other;
    }
    let boxed = |e: &Expr| Box::new(expr(e, change));
    let kind = match &e.kind {
        ExprKind::Literal(lit) => ExprKind::Literal(literal(lit)),
        ExprKind::LocalRef(local) => ExprKind::LocalRef(ident(local)),
        ExprKind::ModulePath(names) => ExprKind::ModulePath(Box::new(path(names))),
        ExprKind::Member { obj, name } => ExprKind::Member {
            obj: boxed(obj),
            name: ident(name),
        },
        ExprKind::Call { callee, args } => ExprKind::Call {
            callee: boxed(callee),
            args: args.iter().map(|arg| argument(arg, change)).collect(),
        },
        ExprKind::Binary { op, lhs, rhs } => ExprKind::Binary {
            op: *op,
            lhs: boxed(lhs),
            rhs: boxed(rhs),
        },
    };
    Expr { loc: e.loc, kind }
}

fn argument(arg: &Arg, change: &dyn Fn(&Expr) -> Option<Expr>) -> Arg {
    Arg {
        name: arg.name.as_ref().map(ident),
        value: expr(&arg.value, change),
    }
}
