//! Stands where check.rs says `mod bind;`. It holds resynth's own bind.rs one level lower, and
//! beside it what a child of `check` can see: the statements as `Checker::run` holds them before
//! `eliminate_dead_lets`; in looks.rs the count of compared names, and in named.rs the calls that number
//! 8 refuses, both by the questions of asking.rs.

#[path = "asking.rs"]
mod asking;
#[path = "looks.rs"]
mod looks;
#[path = "named.rs"]
mod named;
#[path = "resynth_bind.rs"]
mod resynth_bind;

pub use looks::{Looks, all_uses, looks};
pub use named::{first_named, named};
pub(crate) use resynth_bind::{ArgIn, Bound};

use std::cell::Cell;

use super::{Checker, Diagnostic, Stop};
// resynth's bind.rs finds these in `super`
use super::{SemanticError, SemanticErrorKind, Value, WarningKind};

use crate::ast;
use crate::hir::{Program, Stmt};
use crate::libapi::Module;

/// What `Checker::run` holds after its loop
pub struct Held {
    pub stmts: Vec<Stmt>,
    /// The name bound to each slot
    pub slots: Vec<Box<str>>,
    pub errors: usize,
    pub warnings: usize,
}

/// `Checker::run` up to the end of its loop. The turns are counted: with a diagnostic `diag` is given
/// the number of the turn that reported it, from 1.
pub fn hold(
    root: &'static Module,
    stmts: impl IntoIterator<Item = ast::Stmt>,
    mut diag: impl FnMut(usize, Diagnostic),
) -> Held {
    let turn = Cell::new(0);
    let mut checker = Checker::new(root, |found| diag(turn.get(), found));
    let mut out = Vec::new();
    for stmt in stmts {
        turn.set(turn.get() + 1);
        match checker.stmt(stmt, &mut out) {
            Err(Stop::Reported(err)) => checker.error(err),
            Err(Stop::Poisoned) => {}
            Ok(_) => {}
        }
    }
    Held {
        stmts: out,
        slots: checker.slots,
        errors: checker.errors,
        warnings: checker.warnings,
    }
}

impl Held {
    /// The rest of `Checker::run`, for comparing with it
    pub fn finish(self) -> Option<Program> {
        (self.errors == 0)
            .then(|| Program::new(self.stmts.into(), self.slots.into()).eliminate_dead_lets())
    }
}
