//! Rows and goals with a long common instance (02, W-209): a name's arguments are all one variable, and the goal puts the names one in another.

use super::{numbered, Alphabet};
use crate::model::term::Term;
use crate::random::Random;

/// The columns of these tables.
const WIDTH: usize = 8;

/// So many rows of 31 cells and a goal of 31 cells: the common instance of each has 1,864,131 cells.
pub fn million(rows: usize) -> (Vec<u32>, Vec<u32>) {
    const F: u32 = 1 << 30 | 4 << 16 | 9;
    const U: u32 = 1 << 30 | 3 << 16 | 8;
    let row = [0, F, 0, 0, 0, 0, 1, F, 1, 1, 1, 1, 2, F, 2, 2, 2, 2, 3, U, F, 3, 3, 3, 3, 4, F, 4, 4, 4, 4];
    let goal = [F, 0, 0, 0, 0, 1, F, 1, 1, 1, 1, 2, F, 2, 2, 2, 2, 3, F, 3, 3, 3, 3, U, 4, F, 4, 4, 4, 4, 5];
    ([&[WIDTH as u32, rows as u32], &row.repeat(rows)[..]].concat(), goal.to_vec())
}

/// The cells of the goal's variables 0 to 3, from the row below.
const LENGTHS: [usize; 4] = [1, 5, 21, 85];

/// The row (v0,f4(v0,v0,v0,v0),v1,f4(v1,..),v2,f4(v2,..),v3,v4), and a goal (v0,v1,v1,v2,v2,v3,v3,term) whose reply has exactly so many cells; so
/// many are 720 to 1,100.
pub fn of_length(random: &mut Random, length: usize) -> (Vec<Term>, Vec<u32>) {
    let four = |variable| Term::Name(9, vec![Term::Var(variable); 4]);
    let mut row: Vec<Term> = (0..3).flat_map(|variable| [Term::Var(variable), four(variable)]).collect();
    row.extend([Term::Var(3), Term::Var(4)]);
    let before = LENGTHS[0] + 2 * LENGTHS[1..].iter().sum::<usize>();
    let mut goal = [0, 1, 1, 2, 2, 3, 3].map(Term::Var).to_vec();
    goal.push(term_of_length(random, length - before));
    (row, numbered(goal))
}

/// A term of at most 25 cells over the goal's variables that stands for so many cells.
fn term_of_length(random: &mut Random, length: usize) -> Term {
    loop {
        let leaves: Vec<u16> = (0..random.within(5..=16)).map(|_| *random.pick(&[0, 1, 2, 3, 3, 3, 3])).collect();
        let filled: usize = leaves.iter().map(|&variable| LENGTHS[variable as usize]).sum();
        let names = length.saturating_sub(filled);
        if (leaves.len() / 3 + 1..=25 - leaves.len()).contains(&names) {
            return nested(random, names, leaves);
        }
    }
}

/// A term of so many names, each with one to four arguments, over these leaves.
fn nested(random: &mut Random, names: usize, leaves: Vec<u16>) -> Term {
    let mut terms: Vec<Term> = leaves.into_iter().map(Term::Var).collect();
    for left in (0..names).rev() {
        // As many as leave something for the others, and not too much.
        let least = terms.len().saturating_sub(3 * left).max(1);
        let most = if left == 0 { terms.len() } else { 4.min(terms.len()) };
        let count = if left == 0 { most } else { random.within(least.min(most)..=most) };
        let from = random.below(terms.len() + 1 - count);
        let arguments: Vec<Term> = terms.drain(from..from + count).collect();
        terms.insert(from, Term::Name(9, arguments));
    }
    terms.pop().expect("one term is left")
}

/// Rows and a goal whose common instances are of all lengths: the row's names repeat one variable each, the goal's variables go from column to
/// column.
pub fn chained(random: &mut Random, rows: usize) -> (Vec<Vec<Term>>, Vec<u32>) {
    let width = random.within(3..=WIDTH);
    let row = |random: &mut Random| {
        let name = |variable: usize, arguments| Term::Name(9, vec![Term::Var(variable as u16); arguments]);
        let column = |column: usize| if column % 2 == 0 { Term::Var(column as u16 / 2) } else { name(column / 2, random.within(1..=4)) };
        (0..width).map(column).collect()
    };
    let rows = (0..rows).map(|_| row(random)).collect();
    let mut goal: Vec<Term> = (0..width as u16).map(|column| Term::Var(column.div_ceil(2))).collect();
    let size = random.within(1..=32 - width);
    let mut last = Alphabet { symbols: 1, variable: 1 }.term(random, size);
    super::each_variable(std::slice::from_mut(&mut last), &mut |_| Term::Var(random.below(width / 2 + 1) as u16));
    goal[width - 1] = last;
    (rows, numbered(goal))
}
