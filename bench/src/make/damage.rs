//! Damage of every kind to cells that were sound.

use crate::model::plan::PLAN_CELLS;
use crate::model::read::{read_table, ROW_CELLS, TABLE_CELLS};
use crate::random::Random;

/// Damages a table: its headers, its length, its rows or its cells.
pub fn table(random: &mut Random, cells: &mut Vec<u32>) {
    match random.below(10) {
        0 => cells[0] = *random.pick(&[0, 9, 10, 1 << 31, u32::MAX]),
        1 => cells[1] = *random.pick(&[0, 65, 66, 1 << 30, u32::MAX]),
        2 => cells[random.below(2)] = random.within(1..=8) as u32,
        3 => lengthened(random, cells, TABLE_CELLS),
        4 => deepened(random, cells, 2),
        5 => doubled(random, cells),
        6 => {
            // What is tested before a doubled row, or after it.
            doubled(random, cells);
            any(random, cells);
        }
        _ => any(random, cells),
    }
}

/// Puts a copy of a row in the place of another, or of itself.
fn doubled(random: &mut Random, cells: &mut Vec<u32>) {
    let rows = read_table(cells).expect("the table was sound").rows;
    let [copied, lost] = [(); 2].map(|()| random.pick(&rows)).map(|row| row.start..row.start + row.cells);
    let copy = cells[copied].to_vec();
    cells.splice(lost, copy);
}

/// Damages a row that is to be put into a table.
pub fn row(random: &mut Random, cells: &mut Vec<u32>) {
    match random.below(8) {
        0 => lengthened(random, cells, ROW_CELLS),
        1 => cells.clear(),
        2 => deepened(random, cells, 0),
        3 | 4 => {
            // A variable twice, which is no damage where its turn has come, or one whose turn it is not.
            let variable = random.below(3) as u32;
            for _ in 0..2 {
                let place = random.below(cells.len());
                cells[place] = variable;
            }
        }
        _ => any(random, cells),
    }
}

/// Damages a goal.
pub fn goal(random: &mut Random, cells: &mut Vec<u32>) {
    match random.below(6) {
        0 => lengthened(random, cells, ROW_CELLS),
        1 => cells.clear(),
        _ => any(random, cells),
    }
}

/// Damages a plan.
pub fn plan(random: &mut Random, cells: &mut Vec<u32>) {
    match random.below(12) {
        0 => lengthened(random, cells, PLAN_CELLS),
        _ => any(random, cells),
    }
}

/// Cuts, extends, or changes cells.
fn any(random: &mut Random, cells: &mut Vec<u32>) {
    if cells.is_empty() {
        cells.push(strange(random, 0));
        return;
    }
    let place = random.below(cells.len());
    match random.below(9) {
        0 => cells.truncate(place),
        1 => {
            for _ in 0..random.within(1..=3) {
                cells.push(strange(random, 0));
            }
        }
        2 => {
            cells.remove(place);
        }
        3 => cells.insert(place, strange(random, cells[place])),
        4 => {
            let other = random.below(cells.len());
            cells.swap(place, other);
        }
        _ => {
            for _ in 0..random.within(1..=2) {
                let place = random.below(cells.len());
                cells[place] = strange(random, cells[place]);
            }
        }
    }
}

/// Puts in a name that wants more arguments than there are cells left in its row.
fn deepened(random: &mut Random, cells: &mut Vec<u32>, first: usize) {
    let place = random.within(first..=cells.len());
    let deep = std::iter::repeat_n(1 << 30 | (random.within(1..=4) as u32) << 16, random.within(1..=ROW_CELLS + 2));
    cells.splice(place..place, deep);
}

/// About as many cells as are just allowed, or too many.
fn lengthened(random: &mut Random, cells: &mut Vec<u32>, most: usize) {
    let length = random.within(most - 1..=most + 3);
    let repeated = *random.pick(cells);
    cells.resize(length, repeated);
}

/// A cell that is near the old one, or none at all.
fn strange(random: &mut Random, old: u32) -> u32 {
    match random.below(9) {
        0 => old.wrapping_add(1),
        1 => old.wrapping_sub(1),
        2 => old ^ 1 << random.below(32),
        3 => old ^ (random.within(1..=7) as u32) << 16,
        4 => random.below(4) as u32,
        5 => 1 << 30 | (random.below(8) as u32) << 16 | random.below(4) as u32,
        6 => 2 << 30 | random.below(4) as u32,
        7 => 3 << 30 | random.below(4) as u32,
        _ => random.number() as u32,
    }
}
