//! New rows for a table that is edited.

use super::{any_subterm, apart, numbered, repeated, size, Alphabet};
use crate::model::read::{Table, ROW_CELLS};
use crate::model::term::Term;
use crate::random::Random;

const ALPHABET: Alphabet = Alphabet { symbols: 3, variable: 6 };

/// A row that is sound by itself: one that is there, one of variables, arguments of different rows, terms of any size, or a row with one
/// subterm replaced; with its variables told apart, as they came, or made the same.
pub fn any(random: &mut Random, table: &Table) -> Vec<u32> {
    let mut row = random.pick(&table.rows).arguments.clone();
    match random.below(8) {
        0 => {}
        1 => row.fill(Term::Var(0)),
        2 | 3 => mix(random, table, &mut row),
        4 => {
            let size = random.within(table.width..=ROW_CELLS);
            row = ALPHABET.terms(random, table.width, size);
        }
        _ => {
            let term = any_subterm(random, &mut row);
            *term = ALPHABET.term(random, term.size());
        }
    }
    match random.below(3) {
        0 => apart(&mut row),
        1 => repeated(random, &mut row),
        _ => {}
    }
    numbered(row)
}

/// Takes each argument from another row, where the cells allow it.
fn mix(random: &mut Random, table: &Table, row: &mut [Term]) {
    for column in 0..table.width {
        let other = &random.pick(&table.rows).arguments[column];
        if size(row) - row[column].size() + other.size() <= ROW_CELLS {
            row[column] = other.clone();
        }
    }
}
