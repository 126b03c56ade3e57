//! How many bound names are compared with a wanted one, by a search along a list of our own. Which
//! uses are judged is resynth's to say: it is asked, and no rule of its checker is repeated here.

use super::super::{Checker, Diagnostic, Stop};
use super::asking::{as_it_is, copy, nobody, reports, value};
use crate::ast::{ExprKind, Ident, Stmt};
use crate::libapi::Module;
use crate::loc::Loc;

#[derive(Default)]
pub struct Looks {
    /// The bound names in order of binding, failed ones too
    pub names: Vec<Box<str>>,
    /// How many lets and local uses were judged
    pub searches: usize,
    /// How many names were looked at in all these searches
    pub comparisons: usize,
    /// How many errors resynth reported here, for comparing with another run
    pub errors: usize,
}

/// Counts the searches, in a run of resynth's checker beside the one that answers
pub fn looks(root: &'static Module, stmts: &[Stmt]) -> Looks {
    let mut checker = Checker::new(root, |_| {});
    let mut looks = Looks::default();
    for stmt in stmts {
        if let Stmt::Let { target, .. } = stmt {
            looks.search(&target.name);
        }
        for used in uses(stmt) {
            if judges(&mut checker, stmt, used.loc) {
                looks.search(&used.name);
            }
        }
        let told = checker.stmt(copy(stmt, &as_it_is), &mut Vec::new());
        looks.errors += usize::from(matches!(told, Err(Stop::Reported(_))));
        if let Stmt::Let { target, .. } = stmt {
            looks.bind(&target.name);
        }
        assert_eq!(looks.names.len(), checker.bindings.len());
    }
    looks
}

impl Looks {
    /// From the first name on, up to the wanted one
    fn search(&mut self, wanted: &str) {
        self.searches += 1;
        for name in &self.names {
            self.comparisons += 1;
            if **name == *wanted {
                break;
            }
        }
    }

    /// A name is in the list once
    fn bind(&mut self, name: &str) {
        if !self.names.iter().any(|known| **known == *name) {
            self.names.push(name.into());
        }
    }
}

/// Whether resynth judges the local at this place: with a name there that nobody has it reports that
/// name, or it never comes there.
fn judges<D: FnMut(Diagnostic)>(checker: &mut Checker<D>, stmt: &Stmt, place: Loc) -> bool {
    reports(checker, stmt, place, &|e| match &e.kind {
        ExprKind::LocalRef(local) if local.loc == place => Some(nobody(place)),
        _ => None,
    })
}

/// The locals in a statement
fn uses(stmt: &Stmt) -> Vec<&Ident> {
    let mut found = Vec::new();
    let mut left: Vec<_> = value(stmt).into_iter().collect();
    while let Some(expr) = left.pop() {
        match &expr.kind {
            ExprKind::Literal(_) | ExprKind::ModulePath(_) => {}
            ExprKind::LocalRef(ident) => found.push(ident),
            ExprKind::Member { obj, .. } => left.push(obj),
            ExprKind::Call { callee, args } => {
                left.push(callee);
                left.extend(args.iter().map(|arg| &arg.value));
            }
            ExprKind::Binary { lhs, rhs, .. } => left.extend([&**lhs, &**rhs]),
        }
    }
    found
}

/// How many lets and locals stand in some statements, judged or not
pub fn all_uses(stmts: &[Stmt]) -> usize {
    let one = |stmt: &Stmt| uses(stmt).len() + usize::from(matches!(stmt, Stmt::Let { .. }));
    stmts.iter().map(one).sum()
}
