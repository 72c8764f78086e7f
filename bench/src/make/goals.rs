//! Goals for a table.

use super::{any_subterm, each_variable, numbered, shared, size, Alphabet};
use crate::model::read::{Table, ROW_CELLS};
use crate::model::term::Term;
use crate::random::Random;

const ALPHABET: Alphabet = Alphabet { symbols: 3, variable: 4 };

/// A sound goal of any kind.
pub fn any(random: &mut Random, table: &Table) -> Vec<u32> {
    match random.below(11) {
        0 => open(table.width),
        1 => cells(vec![Term::Var(0); table.width]),
        2 => random_terms(random, table.width),
        3 => mixed(random, table),
        4 | 5 => instance(random, table),
        6..=8 => near(random, table),
        _ => general(random, table),
    }
}

/// The goal of distinct variables.
pub fn open(width: usize) -> Vec<u32> {
    (0..width as u32).collect()
}

fn random_terms(random: &mut Random, width: usize) -> Vec<u32> {
    let size = random.within(width..=ROW_CELLS.min(3 * width));
    let mut terms = ALPHABET.terms(random, width, size);
    shared(random, &mut terms);
    cells(terms)
}

/// A row's instance: its variables replaced by terms without variables; one met again sometimes by another term.
pub fn instance(random: &mut Random, table: &Table) -> Vec<u32> {
    let mut terms = random.pick(&table.rows).arguments.clone();
    let ground = Alphabet { symbols: 3, variable: 0 };
    let mut by: Vec<(u16, Term)> = Vec::new();
    each_variable(&mut terms, &mut |variable| {
        if let Some((_, term)) = by.iter().find(|(other, _)| *other == variable) {
            if !random.one_in(6) {
                return term.clone();
            }
        }
        let size = random.within(1..=3);
        let term = ground.term(random, size);
        by.push((variable, term.clone()));
        term
    });
    cells(terms)
}

/// A goal that knows these columns and nothing else: what a row holds there, or in each of them another row, a leaf for every variable.
pub fn knowing(random: &mut Random, table: &Table, columns: &[u32], of_one_row: bool) -> Vec<u32> {
    let ground = Alphabet { symbols: 3, variable: 0 };
    loop {
        let row = random.pick(&table.rows);
        let mut blank = 1000..;
        let mut terms: Vec<Term> = (0..table.width)
            .map(|column| match columns.contains(&(column as u32)) {
                true if of_one_row => row.arguments[column].clone(),
                true => random.pick(&table.rows).arguments[column].clone(),
                false => Term::Var(blank.next().expect("numbers do not end")),
            })
            .collect();
        each_variable(&mut terms, &mut |number| if number < 1000 { ground.leaf(random) } else { Term::Var(number) });
        if size(&terms) <= ROW_CELLS {
            return numbered(terms);
        }
    }
}

/// A row with its variables, and now and then other parts, replaced by terms of a small pool, in which variables stand by themselves and inside
/// names: what is met again is then the same, joins two variables, differs inside, or holds itself.
fn near(random: &mut Random, table: &Table) -> Vec<u32> {
    let row = (0..4).map(|_| random.pick(&table.rows)).max_by_key(|row| row.again.min(1)).expect("four of them");
    let mut terms = row.arguments.clone();
    let variables = random.within(1..=4);
    let mut pool: Vec<Term> = (0..variables).map(|variable| Term::Var(variable as u16)).collect();
    for _ in 0..random.below(3) {
        let size = random.within(1..=3);
        let mut term = [Alphabet { symbols: 2, variable: 2 }.term(random, size)];
        each_variable(&mut term, &mut |_| Term::Var(random.below(variables) as u16));
        pool.extend(term);
    }
    each_variable(&mut terms, &mut |_| random.pick(&pool).clone());
    for _ in 0..random.below(3) {
        *any_subterm(random, &mut terms) = random.pick(&pool).clone();
    }
    cells(terms)
}

/// A row with some of its subterms replaced by variables, some of them shared.
pub fn general(random: &mut Random, table: &Table) -> Vec<u32> {
    let mut terms = random.pick(&table.rows).arguments.clone();
    for _ in 0..random.within(1..=4) {
        *any_subterm(random, &mut terms) = Term::Var(0);
    }
    shared(random, &mut terms);
    cells(terms)
}

/// Arguments of different rows.
fn mixed(random: &mut Random, table: &Table) -> Vec<u32> {
    let mut terms: Vec<Term> = (0..table.width).map(|argument| random.pick(&table.rows).arguments[argument].clone()).collect();
    shared(random, &mut terms);
    cells(terms)
}

/// A goal of 32 cells: a variable for the first row's largest argument, and the same at most leaves of the others. For two columns and more.
pub fn repeating(random: &mut Random, table: &Table) -> Vec<u32> {
    let largest = (0..table.width).max_by_key(|&column| table.rows[0].arguments[column].size()).expect("a row has an argument");
    let mut terms = Alphabet { symbols: 3, variable: 1 }.terms(random, table.width - 1, ROW_CELLS - 1);
    each_variable(&mut terms, &mut |_| Term::Var(if random.one_in(6) { random.within(1..=3) as u16 } else { 0 }));
    terms.insert(largest, Term::Var(0));
    cells(terms)
}

/// The goal's cells: arguments made blank until 32 cells are enough, variables numbered by first appearance.
fn cells(mut terms: Vec<Term>) -> Vec<u32> {
    let mut blank = 2000;
    while size(&terms) > ROW_CELLS {
        let largest = terms.iter_mut().max_by_key(|term| term.size()).expect("a goal has an argument");
        *largest = Term::Var(blank);
        blank += 1;
    }
    numbered(terms)
}
