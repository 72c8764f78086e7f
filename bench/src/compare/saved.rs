//! What must be met of bad cards (02, W-212), and how often it was.

use std::fmt;

use super::filed::count;
use super::tally::listed;
use crate::make::cards::{Changed, Worn, CHANGED, WORN};
use crate::make::files::{Spoiled, SPOILED};
use crate::model::files::{block, words, BLOCK_BYTES, BLOCK_CELLS};
use crate::model::least::{least_by, Measure};
use crate::model::read::{read_row, read_table, ROWS};
use crate::model::refusal::{Number, Refusal};
use crate::model::salvage::{found, Found, Saved};

/// What was done to a card: in its cells, then in its blocks, then as it lay in the drawer.
#[derive(Debug, Default)]
pub struct Ways {
    pub changed: Vec<Changed>,
    pub spoiled: Option<Spoiled>,
    pub worn: Option<Worn>,
}

/// What comes of a card.
const OUTCOMES: [&str; 5] = ["all kept", "a new plan", "rows dropped", "HEAD", "NONE"];

/// Of rows and plan.
const SAVED: [&str; 15] = [
    "the plan before a bad block",
    "the plan after a bad block",
    "a new plan for one in a bad block",
    "for one that is missing",
    "for one that is refused",
    "for one of other rows than those kept",
    "one row of several",
    "64 rows",
    "66 blocks",
    "cells after the last row",
    "the plan after a table size over 2,050",
    "a plan that is not the least",
    "a row cut by a bad block",
    "by a missing one",
    "by the table size",
];

/// What the first row that is not kept is refused with.
const ENDED: [(&str, Number); 5] =
    [("LONG", Number::Long), ("SHORT", Number::Short), ("CELL", Number::Cell), ("FRESH", Number::Fresh), ("SAME", Number::Same)];

/// Of the bad blocks.
const BAD: [&str; 6] = ["none", "one", "several", "with sound ones between", "a part", "over 256"];

/// Of the refusals.
const LOST: [&str; 8] = [
    "HEAD for no byte",
    "for a part of a block",
    "for a bad block 0",
    "for the width",
    "for the count",
    "NONE for a table size below 2",
    "for a row cut",
    "for a row refused",
];

/// Of the rooms.
const ROOMS: [&str; 9] = [
    "exactly the rooms",
    "larger rooms",
    "no list, for no bad block",
    "ROOM for the table, a cell less",
    "for the plan, a cell less",
    "for the list, a number less",
    "for all three",
    "for plan and list",
    "with no rooms",
];

#[derive(Default)]
pub struct Salvages {
    rows: u64,
    dropped: u64,
    bad_blocks: u64,
    outcomes: [u64; OUTCOMES.len()],
    saved: [u64; SAVED.len()],
    ended: [u64; ENDED.len()],
    bad: [u64; BAD.len()],
    lost: [u64; LOST.len()],
    rooms: [u64; ROOMS.len()],
    /// By the way and the outcome.
    changed: [[u64; OUTCOMES.len()]; CHANGED.len()],
    spoiled: [[u64; OUTCOMES.len()]; SPOILED.len()],
    worn: [[u64; OUTCOMES.len()]; WORN.len()],
}

impl Salvages {
    /// What came of a file that was made so, with so much room for table, plan and list.
    pub fn note(&mut self, file: &[u8], saved: &Result<Saved, Refusal>, ways: &Ways, rooms: [usize; 3], expected: u64) {
        let outcome = match saved {
            Ok(saved) if saved.plan_kept => 0,
            Ok(saved) if saved.dropped == 0 => 1,
            Ok(_) => 2,
            Err(refusal) if refusal.number == Number::Head => 3,
            Err(_) => 4,
        };
        self.outcomes[outcome] += 1;
        ways.changed.iter().for_each(|&how| self.changed[how as usize][outcome] += 1);
        ways.spoiled.iter().for_each(|&how| self.spoiled[how as usize][outcome] += 1);
        ways.worn.iter().for_each(|&how| self.worn[how as usize][outcome] += 1);
        match (saved, found(file)) {
            (Ok(saved), Ok(found)) => {
                self.rows += u64::from(saved.table[1]);
                self.dropped += saved.dropped as u64;
                self.bad_blocks += saved.bad.len() as u64;
                count(&mut self.saved, &of_saved(file, saved, &found));
                count(&mut self.ended, &of_ended(saved, &found));
                count(&mut self.bad, &of_bad(file, &saved.bad));
                count(&mut self.rooms, &of_rooms(rooms, saved.needed(), expected));
            }
            (Err(_), found) => count(&mut self.lost, &of_lost(file, found.ok())),
            (Ok(_), Err(_)) => unreachable!("what has no head is not saved"),
        }
    }

    /// Whether all was met.
    pub fn passed(&self) -> bool {
        let counts = [&self.outcomes[..], &self.saved, &self.ended, &self.bad, &self.lost, &self.rooms];
        let ways = self.changed.iter().chain(&self.spoiled).chain(&self.worn);
        counts.into_iter().flatten().all(|&met| met > 0) && ways.into_iter().all(|met| met.iter().sum::<u64>() > 0)
    }
}

/// The table's size and the plan's, of a sound block 0.
fn sizes(file: &[u8]) -> [u64; 2] {
    [4, 8].map(|at| u64::from(words(&file[at..at + 4])[0]))
}

/// In the order of SAVED.
fn of_saved(file: &[u8], saved: &Saved, found: &Found) -> [bool; SAVED.len()] {
    let [table_size, plan_size] = sizes(file);
    let block_of = |cell: u64| (cell / BLOCK_CELLS as u64) as usize;
    let (first, last) = (block_of(2 + table_size), block_of(1 + table_size + plan_size));
    let [kept, count] = [saved.table[1], found.count];
    let all = kept == count;
    let read = read_table(&saved.table).expect("what is saved is a table");
    let rest = &found.rows[saved.table.len() - 2..];
    // A row that ends with the cells that are there: the next would be in this block.
    let cut = !all && !rest.is_empty() && ended(saved, found) == Number::Short;
    let next = block_of(4 + found.rows.len() as u64);
    [
        saved.plan_kept && saved.bad.iter().any(|&bad| bad > last),
        saved.plan_kept && saved.bad.iter().any(|&bad| bad < first),
        all && found.plan.is_none() && saved.bad.iter().any(|&bad| (first..=last).contains(&bad)),
        all && found.plan.is_none() && saved.bad.is_empty(),
        all && !saved.plan_kept && found.plan.is_some(),
        !all && found.plan.is_some(),
        kept == 1 && count > 1,
        kept == ROWS as u32,
        file.len() / BLOCK_BYTES == 66 && saved.plan_kept,
        all && !rest.is_empty(),
        saved.plan_kept && table_size > 2050,
        saved.plan_kept && saved.plan != least_by(&read, Measure::Work(0)).write(),
        cut && saved.bad.contains(&next),
        cut && next == file.len().div_ceil(BLOCK_BYTES),
        cut && found.rows.len() as u64 + 2 == table_size,
    ]
}

/// What the first row that is not kept is refused with.
fn ended(saved: &Saved, found: &Found) -> Number {
    let read = read_table(&saved.table).expect("what is saved is a table");
    let rows: Vec<Vec<u32>> = read.rows.iter().map(|row| saved.table[row.start..row.start + row.cells].to_vec()).collect();
    read_row(read.width, &rows, &found.rows[saved.table.len() - 2..]).expect_err("the row is not kept").number
}

/// In the order of ENDED.
fn of_ended(saved: &Saved, found: &Found) -> [bool; ENDED.len()] {
    if saved.dropped == 0 {
        return [false; ENDED.len()];
    }
    let number = ended(saved, found);
    ENDED.map(|(_, other)| other == number)
}

/// In the order of BAD.
fn of_bad(file: &[u8], bad: &[usize]) -> [bool; BAD.len()] {
    let between = bad.windows(2).any(|pair| pair[1] > pair[0] + 1);
    [bad.is_empty(), bad.len() == 1, bad.len() > 1, between, !file.len().is_multiple_of(BLOCK_BYTES), bad.len() > 256]
}

/// In the order of LOST.
fn of_lost(file: &[u8], found: Option<Found>) -> [bool; LOST.len()] {
    let Some(found) = found else {
        let part = !file.is_empty() && file.len() < BLOCK_BYTES;
        let whole = file.len() >= BLOCK_BYTES;
        let is_sound = whole && block(0, &words(&file[4..504])) == file[..BLOCK_BYTES];
        let [width, count] = if whole { [12, 16].map(|at| words(&file[at..at + 4])[0]) } else { [0; 2] };
        let [wide, many] = [!(1..=8).contains(&width), !(1..=64).contains(&count)];
        return [file.is_empty(), part, whole && !is_sound, is_sound && wide && !many, is_sound && many && !wide, false, false, false];
    };
    let refused = read_row(found.width as usize, &[], &found.rows).err().map(|refusal| refusal.number);
    let below = sizes(file)[0] < 2;
    let cut = refused == Some(Number::Short);
    [false, false, false, false, false, below, !below && cut, !cut]
}

/// In the order of ROOMS.
fn of_rooms(rooms: [usize; 3], needed: [usize; 3], expected: u64) -> [bool; ROOMS.len()] {
    let short = [0, 1, 2].map(|room| rooms[room] < needed[room]);
    let by_one = |room: usize| short[room] && rooms[room] + 1 == needed[room] && expected >> 16 == needed[room] as u64;
    [
        rooms == needed,
        (0..3).all(|room| rooms[room] > needed[room]),
        short == [false; 3] && rooms[2] == 0,
        by_one(0),
        by_one(1) && !short[0],
        by_one(2) && short == [false, false, true],
        short == [true; 3],
        short == [false, true, true],
        rooms == [0; 3],
    ]
}

impl fmt::Display for Salvages {
    fn fmt(&self, f: &mut fmt::Formatter) -> fmt::Result {
        let pairs = |names: &[&'static str], counts: &[u64]| listed(&names.iter().copied().zip(counts.iter().copied()).collect::<Vec<_>>());
        let Salvages { rows, dropped, bad_blocks, .. } = self;
        writeln!(f, "bad cards: rows kept {rows}, dropped {dropped}, bad blocks {bad_blocks}; {}", pairs(&OUTCOMES, &self.outcomes))?;
        writeln!(f, "saved with: {}", pairs(&SAVED, &self.saved))?;
        writeln!(f, "the first row dropped for: {}", pairs(&ENDED.map(|(name, _)| name), &self.ended))?;
        writeln!(f, "bad blocks: {}", pairs(&BAD, &self.bad))?;
        writeln!(f, "lost with: {}", pairs(&LOST, &self.lost))?;
        writeln!(f, "saved in: {}", pairs(&ROOMS, &self.rooms))?;
        let changed = CHANGED.iter().map(|&(_, name)| name).zip(&self.changed);
        let spoiled = SPOILED.iter().map(|&(_, name)| name).zip(&self.spoiled);
        let worn = WORN.iter().map(|&(_, name)| name).zip(&self.worn);
        for (name, outcomes) in changed.chain(spoiled).chain(worn) {
            writeln!(f, "saved, {name}: {}", pairs(&OUTCOMES, outcomes))?;
        }
        Ok(())
    }
}
