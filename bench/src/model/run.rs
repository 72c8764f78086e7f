//! What a run reports (01, "A run"), by the definitions: every row unified in turn, and every branch with what is decided above it.

use std::ops::Range;

use super::plan::Plan;
use super::read::{Goal, Table};
use super::term::{Symbol, Term};
use super::unify::unifies;

/// Goal variables and the fresh variables of open places are renamed apart from a row's, which are below 32.
const GOAL: u16 = 1000;
pub(super) const FRESH: u16 = 2000;

pub(super) fn renamed(goal: &Goal) -> Vec<Term> {
    goal.arguments.iter().map(|term| term.renamed(GOAL)).collect()
}

/// The rows that unify with the goal, from the top.
pub fn hits(table: &Table, goal: &Goal) -> Vec<u8> {
    let goal = renamed(goal);
    (0..table.rows.len()).filter(|&row| unifies(&table.rows[row].arguments, &goal)).map(|row| row as u8).collect()
}

/// The branches for which the goal unifies with everything decided above, each open place a fresh variable.
pub fn tried(table: &Table, plan: &Plan, goal: &Goal) -> usize {
    tried_from(plan, plan.top(), &vec![Part::Open; table.width], &renamed(goal))
}

fn tried_from(plan: &Plan, state: Range<usize>, decided: &[Part], goal: &[Term]) -> usize {
    let here = if unifies(&as_terms(decided), goal) { plan.at(state.clone()).count() } else { 0 };
    let below = plan.at(state).map(|(branch, below)| {
        let mut decided = decided.to_vec();
        decide(&mut decided, &mut branch.place(), branch.cell);
        tried_from(plan, below, &decided, goal)
    });
    here + below.sum::<usize>()
}

/// A part of what is decided: an open place, a row's variable, or a symbol over further parts.
#[derive(Clone)]
enum Part {
    Open,
    Variable(u16),
    Name(u16, Vec<Part>),
    Number(i16),
}

/// Puts the cell into the open place of this index, counted from the left; true when that was done.
fn decide(parts: &mut [Part], place: &mut usize, cell: u32) -> bool {
    parts.iter_mut().any(|part| match part {
        Part::Open if *place == 0 => {
            *part = match Symbol::of(cell).expect("the check accepted the branch's cell") {
                Symbol::Variable(number) => Part::Variable(number),
                Symbol::Name { number, arguments } => Part::Name(number, vec![Part::Open; arguments]),
                Symbol::Number(value) => Part::Number(value),
            };
            true
        }
        Part::Open => {
            *place -= 1;
            false
        }
        Part::Name(_, parts) => decide(parts, place, cell),
        Part::Variable(_) | Part::Number(_) => false,
    })
}

/// The parts as terms, the open places as fresh variables.
fn as_terms(parts: &[Part]) -> Vec<Term> {
    fn term(part: &Part, fresh: &mut u16) -> Term {
        match part {
            Part::Open => {
                *fresh += 1;
                Term::Var(*fresh)
            }
            Part::Variable(number) => Term::Var(*number),
            Part::Name(number, parts) => Term::Name(*number, parts.iter().map(|part| term(part, fresh)).collect()),
            Part::Number(value) => Term::Number(*value),
        }
    }
    let mut fresh = FRESH;
    parts.iter().map(|part| term(part, &mut fresh)).collect()
}
