//! Instances of a goal: the same goal with more known.

use super::{each_variable, numbered, size, Alphabet};
use crate::model::read::{Table, ROW_CELLS};
use crate::model::term::Term;
use crate::model::unify::Substitution;
use crate::random::Random;

/// Goal variables are moved apart from a row's, which are below 32.
const APART: u16 = 1000;

/// A goal's instance: what it has in common with a row, where that is short enough, or any other.
pub fn any(random: &mut Random, table: &Table, goal: &[Term]) -> Vec<u32> {
    let toward = if random.one_in(2) { toward_row(random, table, goal) } else { None };
    toward.unwrap_or_else(|| by_substitution(random, goal))
}

/// The most general instance of the goal that is one of some row.
fn toward_row(random: &mut Random, table: &Table, goal: &[Term]) -> Option<Vec<u32>> {
    let row = &random.pick(&table.rows).arguments;
    let goal: Vec<Term> = goal.iter().map(|term| term.renamed(APART)).collect();
    let mut unifier = Substitution::default();
    if !unifier.unify_all(row, &goal) || unifier.cells(&goal) > ROW_CELLS as u64 {
        return None;
    }
    Some(numbered(goal.iter().map(|term| unifier.applied(term)).collect()))
}

/// Each variable stays, becomes another one, or a term, in which old and new variables stand; the largest of them stay where 32 cells are too few.
fn by_substitution(random: &mut Random, goal: &[Term]) -> Vec<u32> {
    let variables = 1 + goal.iter().flat_map(variables).max().unwrap_or(0);
    let mut images: Vec<Term> = (0..variables).map(|variable| image(random, variable, variables)).collect();
    loop {
        let mut terms = goal.to_vec();
        each_variable(&mut terms, &mut |variable| images[variable as usize].clone());
        if size(&terms) <= ROW_CELLS {
            return numbered(terms);
        }
        let largest = (0..images.len()).max_by_key(|&variable| images[variable].size()).expect("there is one");
        images[largest] = Term::Var(largest as u16);
    }
}

fn image(random: &mut Random, variable: u16, variables: u16) -> Term {
    match random.below(6) {
        0 | 1 => Term::Var(variable),
        2 => Term::Var(random.below(variables as usize) as u16),
        _ => {
            let size = random.within(1..=3);
            let mut term = [Alphabet { symbols: 3, variable: 4 }.term(random, size)];
            each_variable(&mut term, &mut |_| Term::Var(random.below(variables as usize + 2) as u16));
            let [term] = term;
            term
        }
    }
}

fn variables(term: &Term) -> Vec<u16> {
    match term {
        Term::Var(number) => vec![*number],
        _ => term.arguments().iter().flat_map(variables).collect(),
    }
}
