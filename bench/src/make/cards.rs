//! Bad cards (02, W-212): what stands in the cells changed, with numbers and checks made right, and blocks as cards lose them. The ways of
//! crate::make::files come between the two.

use std::ops::Range;

use crate::make::{plans, tables};
use crate::model::files::{sealed, BLOCK_BYTES, BLOCK_CELLS};
use crate::model::least::least;
use crate::model::plan::grow;
use crate::model::read::{read_table, ROWS, ROW_CELLS};
use crate::random::Random;

/// The cells of a file by their parts. Its table size counts the cells between too, where it is not another.
#[derive(Clone)]
pub struct Card {
    pub table: Vec<u32>,
    pub between: Vec<u32>,
    pub plan: Vec<u32>,
    pub table_size: Option<u32>,
    /// Where the rows stand in the table, before anything is changed.
    rows: Vec<Range<usize>>,
}

#[derive(Clone, Copy, Debug, PartialEq, Eq)]
pub enum Changed {
    /// The table's size: below its first row, about the end of a row, past the file; its width; its count.
    Size,
    Width,
    Count,
    /// A row that stands above; a cell of no kind; a variable's number too high; a row too long.
    Twice,
    NoCell,
    NotFresh,
    TooLong,
    /// Cells after the last row that belong to the table, up to three blocks of them.
    Between,
    /// A plan of other rows; of other places.
    OtherPlan,
    OtherPlaces,
}

use Changed::*;

pub const CHANGED: [(Changed, &str); 10] = [
    (Size, "the table's size"),
    (Width, "the width"),
    (Count, "the count"),
    (Twice, "a row twice"),
    (NoCell, "a cell of no kind"),
    (NotFresh, "a variable not fresh"),
    (TooLong, "a row too long"),
    (Between, "cells between table and plan"),
    (OtherPlan, "another table's plan"),
    (OtherPlaces, "a plan of other places"),
];

#[derive(Clone, Copy, Debug, PartialEq, Eq)]
pub enum Worn {
    /// Blocks of zeros: one; each with one chance in three; all but the first.
    Wiped,
    WipedSome,
    WipedRest,
    /// Behind the file: blocks of noise; a part of a block.
    Noise,
    Part,
}

use Worn::*;

pub const WORN: [(Worn, &str); 5] = [
    (Wiped, "a block of zeros"),
    (WipedSome, "some blocks of zeros"),
    (WipedRest, "all blocks of zeros but the first"),
    (Noise, "blocks of noise behind"),
    (Part, "a part of a block behind"),
];

impl Card {
    /// Of a sound table.
    pub fn new(table: Vec<u32>, plan: Vec<u32>) -> Card {
        let rows = read_table(&table).expect("a sound table").rows.iter().map(|row| row.start..row.start + row.cells).collect();
        Card { table, between: Vec::new(), plan, table_size: None, rows }
    }

    /// Any table with any plan that is accepted.
    pub fn any(random: &mut Random) -> Card {
        let table = tables::any(random);
        let plan = plans::any(random, &read_table(&table).expect("a sound table"));
        Card::new(table, plan)
    }

    /// Whole blocks, numbers and checks right.
    pub fn sealed(&self) -> Vec<u8> {
        let table_size = self.table_size.unwrap_or((self.table.len() + self.between.len()) as u32);
        let mut cells = [&[table_size, self.plan.len() as u32], &self.table[..], &self.between, &self.plan].concat();
        cells.resize(cells.len().next_multiple_of(BLOCK_CELLS), 0);
        sealed(&cells)
    }

    pub fn change(&mut self, random: &mut Random, how: Changed) {
        let row = random.pick(&self.rows).clone();
        let any = random.number() as u32;
        let leaf = row.end - 1;
        match how {
            Size => {
                let end = row.end as u32;
                self.table_size = Some(*random.pick(&[0, 1, 2, 3, end - 1, end, end + 1, 2050, 2051, 1 << 31, u32::MAX, any]));
            }
            Width => self.table[0] = *random.pick(&[0, 1, self.table[0].wrapping_sub(1), self.table[0].wrapping_add(1), 8, 9, u32::MAX, any]),
            Count => {
                let (count, few) = (self.table[1], 1 + any % ROWS as u32);
                self.table[1] = *random.pick(&[0, count.wrapping_sub(1), count.wrapping_add(1), few, 64, 65, count | 1 << 16, any]);
            }
            Twice => {
                let cells = self.table[row.clone()].to_vec();
                let at = *random.pick(&[row.end, self.table.len()]);
                self.table.splice(at..at, cells);
                self.table[1] = self.table[1].wrapping_add(1);
            }
            NoCell => self.table[row.start + random.below(row.len())] |= 3 << 30,
            // The last cell of a row has no arguments.
            NotFresh => self.table[leaf] = *random.pick(&[1, 2, 31, 0xffff]),
            TooLong => {
                let more = random.within(ROW_CELLS + 1 - row.len()..=ROW_CELLS + 3);
                self.table.splice(leaf..leaf, vec![1 << 30 | 1 << 16; more]);
            }
            Between => {
                let kind = *random.pick(&[0, 1, 2, 3]);
                self.between = (0..random.within(1..=3 * BLOCK_CELLS)).map(|place| kind << 30 | (place as u32 % 7)).collect();
            }
            OtherPlan => self.plan = least(&read_table(&tables::any(random)).expect("a sound table")).write(),
            OtherPlaces => {
                if let Ok(table) = read_table(&self.table) {
                    self.plan = grow(&table, |open, rows| open.places(rows) - 1).write();
                }
            }
        }
    }
}

/// Wears blocks out, or puts bytes behind them.
pub fn wear(random: &mut Random, how: Worn, file: &mut Vec<u8>) {
    let blocks = file.len().div_ceil(BLOCK_BYTES);
    let one = random.below(blocks.max(1));
    match how {
        Wiped => wipe(file, |block| block == one),
        WipedSome => wipe(file, |_| random.one_in(3)),
        WipedRest => wipe(file, |block| block > 0),
        Noise => {
            let more = random.within(1..=3) * BLOCK_BYTES;
            file.extend((0..more).map(|_| random.number() as u8));
        }
        Part => {
            let more = *random.pick(&[1, 4, 508, 511]);
            file.extend((0..more).map(|_| random.number() as u8));
        }
    }
}

pub fn wipe(file: &mut [u8], mut which: impl FnMut(usize) -> bool) {
    for (number, block) in file.chunks_mut(BLOCK_BYTES).enumerate() {
        if which(number) {
            block.fill(0);
        }
    }
}

#[cfg(test)]
mod tests {
    use super::*;

    #[test]
    fn every_kind_is_named() {
        assert!(CHANGED.iter().enumerate().all(|(number, &(how, _))| how as usize == number));
        assert!(WORN.iter().enumerate().all(|(number, &(how, _))| how as usize == number));
    }
}
