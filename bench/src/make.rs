//! Random inputs: tables, rows, records, goals, plans, lists of goals, of names and of columns, files and cards, sound and damaged.

pub mod asked;
pub mod big;
pub mod cards;
pub mod columns;
pub mod damage;
pub mod files;
pub mod goals;
pub mod instances;
pub mod lists;
pub mod names;
pub mod plans;
pub mod records;
pub mod rows;
pub mod tables;
pub mod texts;

use crate::model::term::Term;
use crate::random::Random;

/// The names and numbers that terms are made of: few, so that rows agree often.
#[derive(Clone, Copy)]
struct Alphabet {
    /// How many names without arguments there are, how many of each other number of arguments, and how many numbers.
    symbols: usize,
    /// A leaf is a variable once in so many times; 0: never.
    variable: usize,
}

impl Alphabet {
    /// A term of exactly `size` cells. All its variables are v0; those of a row or goal are told apart or shared when it is complete.
    fn term(self, random: &mut Random, size: usize) -> Term {
        if size == 1 {
            return self.leaf(random);
        }
        let arguments = random.within(1..=4.min(size - 1));
        Term::Name(100 + random.below(self.symbols) as u16, self.terms(random, arguments, size - 1))
    }

    /// So many terms, of exactly `size` cells in all.
    fn terms(self, random: &mut Random, count: usize, size: usize) -> Vec<Term> {
        let mut sizes = vec![1; count];
        for _ in count..size {
            sizes[random.below(count)] += 1;
        }
        sizes.into_iter().map(|size| self.term(random, size)).collect()
    }

    fn leaf(self, random: &mut Random) -> Term {
        if self.variable > 0 && random.one_in(self.variable) {
            Term::Var(0)
        } else if random.one_in(3) {
            // Every second one below zero.
            let value = random.below(self.symbols) as i16;
            Term::Number(if value % 2 == 0 { value } else { -value })
        } else {
            Term::Name(random.below(self.symbols) as u16, Vec::new())
        }
    }
}

/// The cells of terms.
fn size(terms: &[Term]) -> usize {
    terms.iter().map(Term::size).sum()
}

/// The subterm of this index, each before its arguments.
fn subterm<'t>(terms: &'t mut [Term], index: &mut usize) -> Option<&'t mut Term> {
    for term in terms {
        if *index == 0 {
            return Some(term);
        }
        *index -= 1;
        if let Term::Name(_, arguments) = term {
            if let Some(found) = subterm(arguments, index) {
                return Some(found);
            }
        }
    }
    None
}

/// One of the subterms, all equally often.
fn any_subterm<'t>(random: &mut Random, terms: &'t mut [Term]) -> &'t mut Term {
    let mut index = random.below(size(terms));
    subterm(terms, &mut index).expect("the index is below the number of cells")
}

/// Every variable, from left to right, replaced by what is given for its number.
fn each_variable(terms: &mut [Term], replace: &mut impl FnMut(u16) -> Term) {
    for term in terms {
        match term {
            Term::Var(number) => *term = replace(*number),
            Term::Name(_, arguments) => each_variable(arguments, replace),
            Term::Number(_) => {}
        }
    }
}

/// Gives every variable another number: none stands twice.
fn apart(terms: &mut [Term]) {
    let mut numbers = 0..;
    each_variable(terms, &mut |_| Term::Var(numbers.next().expect("numbers do not end")));
}

/// Gives each variable one of few numbers, or of many.
fn shared(random: &mut Random, terms: &mut [Term]) {
    let few = *random.pick(&[2, 4, 1000]);
    each_variable(terms, &mut |_| Term::Var(random.below(few) as u16));
}

/// Makes some of the leaves variables, and some of the variables the same.
fn repeated(random: &mut Random, terms: &mut [Term]) {
    for _ in 0..random.within(1..=5) {
        let term = any_subterm(random, terms);
        if term.size() == 1 {
            *term = Term::Var(0);
        }
    }
    shared(random, terms);
}

/// The cells, variables numbered by first appearance.
pub fn numbered(mut terms: Vec<Term>) -> Vec<u32> {
    let mut met = Vec::new();
    each_variable(&mut terms, &mut |number| {
        let found = met.iter().position(|&other| other == number).unwrap_or_else(|| {
            met.push(number);
            met.len() - 1
        });
        Term::Var(found as u16)
    });
    let mut cells = Vec::new();
    terms.iter().for_each(|term| term.write(&mut cells));
    cells
}
