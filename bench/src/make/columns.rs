//! Lists of columns that are always filled in (02, W-213), and plans for them that are spoiled where a place is chosen.

use std::ops::Range;

use crate::model::plan::Plan;
use crate::random::Random;

/// A list for a table of this width: none, all, some; in any order, with repeats, longer than any table is wide; one in eight with a number that is
/// no column.
pub fn any(random: &mut Random, width: usize) -> Vec<u32> {
    let mut columns: Vec<u32> = match random.below(8) {
        0 => Vec::new(),
        1 => (0..width as u32).collect(),
        2 => (0..random.within(1..=12)).map(|_| random.below(width) as u32).collect(),
        3 if random.one_in(8) => (0..random.within(1000..=5000)).map(|_| random.below(width) as u32).collect(),
        4 => vec![random.below(width) as u32],
        _ => (0..width as u32).filter(|_| random.one_in(2)).collect(),
    };
    if random.one_in(2) {
        shuffle(random, &mut columns);
    }
    if random.one_in(8) {
        let place = random.within(0..=columns.len());
        columns.insert(place, no_column(random, width));
    }
    columns
}

/// A number that is not below the width: the width itself, a little more, the largest of all, or one whose last bits are a column's.
fn no_column(random: &mut Random, width: usize) -> u32 {
    let column = random.below(width) as u32;
    match random.below(5) {
        0 => width as u32,
        1 => random.within(width..=10) as u32,
        2 => u32::MAX,
        3 => column | 1 << random.within(4..=31),
        _ => column.wrapping_sub(8),
    }
}

fn shuffle(random: &mut Random, columns: &mut [u32]) {
    for place in 1..columns.len() {
        columns.swap(place, random.below(place + 1));
    }
}

/// The plan's cells with another place at one state, or none that is open; the number of branches after it as it was, another, or cut off.
pub fn spoiled(random: &mut Random, plan: &Plan) -> Vec<u32> {
    let mut cells = plan.write();
    let mut indices = Vec::new();
    index_cells(plan, plan.top(), &mut 0, &mut indices);
    let at = *random.pick(&indices);
    cells[at] = if random.one_in(8) { random.number() as u32 } else { random.below(12) as u32 };
    match random.below(3) {
        0 => cells[at + 1] = cells[at + 1].wrapping_add(1),
        1 => cells.truncate(at + 1),
        _ => {}
    }
    cells
}

/// Where the index of each state stands among the plan's cells.
fn index_cells(plan: &Plan, state: Range<usize>, at: &mut usize, found: &mut Vec<usize>) {
    if state.is_empty() {
        *at += 1;
        return;
    }
    found.push(*at);
    *at += 2;
    for (_, below) in plan.at(state) {
        *at += 1;
        index_cells(plan, below, at, found);
    }
}

#[cfg(test)]
mod tests {
    use super::*;
    use crate::model::plan::check;
    use crate::model::read::read_table;
    use crate::notation::{plan, table};

    #[test]
    fn where_places_are_chosen() {
        let read = read_table(&table("(f1(a)) (f1(b)) (g)")).unwrap();
        let tree = check(&read, &plan("0 2 f1 0 2 a 1 b 1 g 1")).unwrap();
        let mut found = Vec::new();
        index_cells(&tree, tree.top(), &mut 0, &mut found);
        assert_eq!(found, [0, 3]);
    }
}
