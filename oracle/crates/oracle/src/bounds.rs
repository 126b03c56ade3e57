//! The refusals that resynth does not have, counted over its tokens and trees: a source, canonical
//! text, lists, steps and names beyond the stated sizes, and the place of a call.

use std::collections::{HashSet, VecDeque};

use resynth::ast::Stmt;
use resynth::lex::{Tok, Token};
use resynth::loc::Loc;

/// Of a source, and of canonical text
const BYTES: usize = 65_536;
const LISTS: usize = 32;
const STEPS: usize = 64;
const LETS: usize = 512;
const IMPORTS: usize = 64;

/// Number 1, and number 10 of canonical text
pub fn too_long(text: &[u8]) -> bool {
    text.len() > BYTES
}

/// Number 7: a list too many or a step too many, among the tokens before `stop`, where the parser
/// stopped. Up to there each `.`, `(` and `/` is a step.
pub fn too_deep(toks: &VecDeque<Token>, stop: Option<Loc>) -> Option<Loc> {
    // The steps of the statement's expression, then of the argument in each open list
    let mut steps = vec![0];
    for tok in toks {
        if Some(tok.loc()) == stop {
            return None;
        }
        match tok.tok() {
            Tok::SemiColon => steps = vec![0],
            Tok::Comma => *steps.last_mut()? = 0,
            Tok::RParen => {
                steps.pop();
            }
            Tok::Dot | Tok::Slash | Tok::LParen => {
                let count = steps.last_mut()?;
                *count += 1;
                if *count > STEPS {
                    return Some(tok.loc());
                }
                if *tok.tok() == Tok::LParen {
                    steps.push(0);
                    if steps.len() - 1 > LISTS {
                        return Some(tok.loc());
                    }
                }
            }
            _ => {}
        }
    }
    None
}

/// The `(` of a call, by its number from 0, in tokens that are sentences
pub fn call(toks: &VecDeque<Token>, number: usize) -> Option<Loc> {
    toks.iter()
        .filter(|tok| *tok.tok() == Tok::LParen)
        .nth(number)
        .map(Token::loc)
}

/// Number 9: the first name too many
pub fn too_many_names(stmts: &[Stmt]) -> Option<Loc> {
    let mut lets = HashSet::new();
    let mut imports = HashSet::new();
    for stmt in stmts {
        let (names, most, ident) = match stmt {
            Stmt::Let { target, .. } => (&mut lets, LETS, target),
            Stmt::Import(module) => (&mut imports, IMPORTS, module),
            Stmt::Expr(_) => continue,
        };
        names.insert(&ident.name);
        if names.len() > most {
            return Some(ident.loc);
        }
    }
    None
}
