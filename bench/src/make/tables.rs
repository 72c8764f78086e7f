//! Tables of the kinds that are compared and timed.

use super::{any_subterm, apart, numbered, repeated, size, Alphabet};
use crate::model::read::ROW_CELLS;
use crate::model::term::Term;
use crate::random::Random;

#[derive(Clone, Copy, Debug, PartialEq, Eq)]
pub enum Kind {
    /// Urgency, enamel, piece, firing; neighbours often agree.
    Shop,
    /// Two columns of nested names.
    Nested,
    /// Six columns, three of them mostly blank.
    Blank,
    /// So many columns, every row of 32 cells.
    Full(usize),
    /// Few short rows over few symbols.
    Small,
    /// One column of names nested one in another.
    Chain,
}

pub type Row = Vec<Term>;

/// A table of any kind and any number of rows. In every second one, every second row may repeat variables.
pub fn any(random: &mut Random) -> Vec<u32> {
    let made = any_rows(random);
    repeated_in(random, made)
}

/// The same of one kind and number of rows.
pub fn sometimes_repeated(random: &mut Random, kind: Kind, rows: usize) -> Vec<u32> {
    let made = rows_of(random, kind, rows);
    repeated_in(random, made)
}

fn repeated_in(random: &mut Random, mut made: Vec<Row>) -> Vec<u32> {
    if random.one_in(2) {
        for row in &mut made {
            if random.one_in(2) {
                repeated(random, row);
            }
        }
    }
    cells(&made)
}

fn any_rows(random: &mut Random) -> Vec<Row> {
    match random.below(16) {
        0 => rows_of(random, Kind::Shop, 64),
        1 => {
            let width = random.within(1..=8);
            rows_of(random, Kind::Full(width), 64)
        }
        2 | 3 => with_rows(random, Kind::Shop, 64),
        4 | 5 => with_rows(random, Kind::Nested, 24),
        6 | 7 => with_rows(random, Kind::Blank, 32),
        8 => {
            let width = random.within(1..=8);
            with_rows(random, Kind::Full(width), 16)
        }
        9 => with_rows(random, Kind::Chain, 8),
        _ => with_rows(random, Kind::Small, 6),
    }
}

fn with_rows(random: &mut Random, kind: Kind, most: usize) -> Vec<Row> {
    let rows = random.within(1..=most);
    rows_of(random, kind, rows)
}

/// A table of so many rows, none of which repeats a variable.
pub fn table(random: &mut Random, kind: Kind, rows: usize) -> Vec<u32> {
    cells(&rows_of(random, kind, rows))
}

fn rows_of(random: &mut Random, kind: Kind, rows: usize) -> Vec<Row> {
    let mut made = match kind {
        Kind::Shop => shop(random, rows),
        Kind::Nested => varied(random, rows, 2, 8..=20, Alphabet { symbols: 3, variable: 8 }),
        Kind::Blank => blank(random, rows),
        Kind::Full(width) => varied(random, rows, width, ROW_CELLS..=ROW_CELLS, Alphabet { symbols: 3, variable: 12 }),
        Kind::Small => {
            let width = random.within(1..=3);
            varied(random, rows, width, width..=6, Alphabet { symbols: 2, variable: 4 })
        }
        Kind::Chain => chain(random, rows),
    };
    tell_apart(random, &mut made);
    made.iter_mut().for_each(|row| apart(row));
    made
}

/// A row without variables that stands above gets a variable for one of its leaves.
fn tell_apart(random: &mut Random, rows: &mut [Row]) {
    for number in 1..rows.len() {
        let (above, [row, ..]) = rows.split_at_mut(number) else {
            unreachable!("the number is below that of the rows");
        };
        while above.contains(row) && !row.iter().any(has_variable) {
            let term = any_subterm(random, row);
            if term.size() == 1 {
                *term = Term::Var(0);
            }
        }
    }
}

fn has_variable(term: &Term) -> bool {
    match term {
        Term::Var(_) => true,
        Term::Name(_, arguments) => arguments.iter().any(has_variable),
        Term::Number(_) => false,
    }
}

/// The table of these rows.
pub fn cells(rows: &[Row]) -> Vec<u32> {
    let mut cells = vec![rows[0].len() as u32, rows.len() as u32];
    rows.iter().for_each(|row| cells.extend(numbered(row.clone())));
    cells
}

/// Rows of 32 cells with a large term in one column, the others blank: what a goal repeats of that column makes replies long. Some tables repeat
/// variables too.
pub fn heavy(random: &mut Random, rows: usize) -> Vec<u32> {
    let width = random.within(2..=8);
    let column = random.below(width);
    let alphabet = Alphabet { symbols: 3, variable: *random.pick(&[0, 3, 12]) };
    let repeats = random.one_in(3);
    let row = |_| {
        let mut row = vec![Term::Var(0); width];
        row[column] = alphabet.term(random, ROW_CELLS + 1 - width);
        if repeats {
            repeated(random, &mut row);
        } else {
            apart(&mut row);
        }
        row
    };
    cells(&(0..rows).map(row).collect::<Vec<Row>>())
}

/// 64 rows of a chain of 31 cells and a blank, and a goal of 32 cells with 24 times the chain's variable: 64 replies of 752 cells.
pub fn longest_replies() -> (Vec<u32>, Vec<u32>) {
    let name = |number: u32, arguments: u32| 1 << 30 | arguments << 16 | number;
    let mut table = vec![2, 64];
    for row in 0..64 {
        table.extend([name(1, 1); ROW_CELLS - 2]);
        table.extend([name(row, 0), 0]);
    }
    let goal = [&[0, name(2, 2), 0][..], &[name(3, 4), 0, 0, 0].repeat(7), &[0]].concat();
    (table, goal)
}

fn shop(random: &mut Random, rows: usize) -> Vec<Row> {
    const URGENCIES: [i16; 5] = [9, 10, 5, 3, 1];
    let mut enamel = 0;
    let row = |number: usize| {
        if random.one_in(3) {
            enamel = random.below(6) as u16;
        }
        let piece = random.below(8) as u16;
        let piece = match piece {
            0 | 1 => Term::Name(20 + piece, vec![Term::Name(30 + random.below(3) as u16, vec![])]),
            _ => Term::Name(20 + piece, vec![]),
        };
        let heat = Term::Number(720 + 20 * random.below(5) as i16);
        let minutes = Term::Number(2 + random.below(3) as i16);
        let urgency = Term::Number(URGENCIES[number * URGENCIES.len() / rows]);
        let mut row = vec![urgency, Term::Name(10 + enamel, vec![]), piece, Term::Name(40, vec![heat, minutes])];
        if random.one_in(8) {
            row[random.below(3)] = Term::Var(0);
        }
        row
    };
    (0..rows).map(row).collect()
}

fn blank(random: &mut Random, rows: usize) -> Vec<Row> {
    let alphabet = Alphabet { symbols: 3, variable: 20 };
    let column = |random: &mut Random, column: usize| {
        if column % 2 == 1 && !random.one_in(4) {
            Term::Var(0)
        } else {
            alphabet.leaf(random)
        }
    };
    (0..rows).map(|_| (0..6).map(|number| column(random, number)).collect()).collect()
}

/// Rows that often differ from the row above in one subterm, and sometimes in nothing.
fn varied(random: &mut Random, rows: usize, width: usize, sizes: std::ops::RangeInclusive<usize>, alphabet: Alphabet) -> Vec<Row> {
    let mut made: Vec<Row> = Vec::new();
    for _ in 0..rows {
        let row = match made.last() {
            Some(above) if !random.one_in(4) => {
                let mut row = above.clone();
                if !random.one_in(8) {
                    let term = any_subterm(random, &mut row);
                    *term = alphabet.term(random, term.size());
                }
                row
            }
            _ => {
                let size = random.within(sizes.clone());
                alphabet.terms(random, width, size)
            }
        };
        debug_assert!(size(&row) <= ROW_CELLS);
        made.push(row);
    }
    made
}

fn chain(random: &mut Random, rows: usize) -> Vec<Row> {
    let alphabet = Alphabet { symbols: 2, variable: 3 };
    let row = |_| {
        let nested = if random.one_in(4) { ROW_CELLS - 1 } else { random.below(ROW_CELLS) };
        let leaf = alphabet.leaf(random);
        vec![(0..nested).fold(leaf, |term, _| Term::Name(100, vec![term]))]
    };
    (0..rows).map(row).collect()
}
