//! What must be met of plans for named columns (02, W-213), and how often it was.

use std::fmt;
use std::ops::Range;

use super::filed::{count, parts};
use super::tally::listed;
use crate::model::columns::Named;
use crate::model::least::{least_by, Measure};
use crate::model::plan::{Open, PLAN_CELLS};
use crate::model::read::{read_table, Table};
use crate::model::refusal::{ByNumber, Number, NAMES};
use crate::model::term::Term;

/// What each call can be refused with, by input.
type Refused = [(&'static str, usize, &'static [usize])];
const OF_BUILDING: &Refused = &[("figure", 6, &[20]), ("table", 1, &[1, 2, 3, 4, 5, 6, 7, 9, 24]), ("columns", 9, &[33]), ("room", 4, &[16])];
const OF_CHECKING: &Refused = &[("table", 1, &[1, 2, 3, 4, 5, 6, 7, 9, 24]), ("columns", 9, &[33]), ("plan", 2, &[9, 10, 11, 12, 13, 14, 15, 34])];

/// Of the lists, where the table is accepted.
const LISTS: [&str; 9] = [
    "none",
    "all",
    "some",
    "out of order",
    "with repeats",
    "over 65,535 numbers",
    "COLUMN for the width alone",
    "for 2^32 - 1 alone",
    "for one whose last bits are a column's",
];

/// Which of them is that some are named and not all.
const SOME: usize = 2;

/// Of the refusals that come before others: with COLUMN what else is wrong, and what comes before it.
const BEFORE: [&str; 6] = [
    "COLUMN with a plan that is refused",
    "with one over 6,082 cells",
    "with no room",
    "a column that is none with a table that is refused",
    "with a figure above 15",
    "FIGURE with a table that is refused",
];

/// Of the plans that were built, some but not all columns named.
const BUILT: [&str; 7] =
    ["the plain plan", "another of the same cost", "one that costs more", "one row", "64 rows", "a row that repeats a variable", "figure 15"];

/// Of the rooms.
const ROOMS: [&str; 4] = ["exactly the cells", "more", "a cell less", "none"];

/// Of the places that are refused.
const EARLY: [&str; 8] = [
    "at the first state",
    "below a branch",
    "of several rows",
    "of one row",
    "before a wrong count",
    "before the end",
    "with only arguments inside named columns open",
    "OPEN while a named place is open",
];

#[derive(Default)]
pub struct Chosen {
    /// By input and number, of building and of checking.
    refused: [[ByNumber<u64>; 10]; 2],
    lists: [u64; LISTS.len()],
    before: [u64; BEFORE.len()],
    built: [u64; BUILT.len()],
    rooms: [u64; ROOMS.len()],
    early: [u64; EARLY.len()],
}

/// One call to build: its inputs, and its room afterwards.
pub struct Building<'c> {
    pub table: &'c [u32],
    pub figure: u32,
    pub columns: &'c [u32],
    pub room: &'c [u32],
}

impl Chosen {
    pub fn built(&mut self, call: &Building, expected: u64) {
        let (number, input) = parts(expected);
        let (figure, column, short) = (number == Number::Figure as usize, number == Number::Column as usize, number == Number::Room as usize);
        self.refused[0][input][number] += 1;
        let read = read_table(call.table);
        let no_column = read.as_ref().is_ok_and(|read| call.columns.iter().any(|&column| column as usize >= read.width));
        count(&mut self.before, &[false, false, column && call.room.is_empty(), false, figure && no_column, figure && read.is_err()]);
        let Ok(read) = read else {
            return;
        };
        let list = of_list(read.width, call.columns, number);
        count(&mut self.lists, &list);
        let needed = if short { expected >> 16 } else { expected >> 16 & 0xffff } as usize;
        if number == 0 || short {
            let room = call.room.len();
            count(&mut self.rooms, &[room == needed, room > needed, room + 1 == needed, room == 0]);
        }
        if number == 0 && list[SOME] {
            count(&mut self.built, &of_plan(&read, call.figure, &call.room[..needed], (expected >> 32) as usize));
        }
    }

    /// What came of checking for these columns, and of the plain check.
    pub fn checked(&mut self, table: &[u32], columns: &[u32], plan: &[u32], plain: u64, expected: u64) {
        let (number, input) = parts(expected);
        self.refused[1][input][number] += 1;
        let Ok(read) = read_table(table) else {
            // No table has so many columns.
            self.before[3] += u64::from(columns.iter().any(|&column| column >= 8));
            return;
        };
        count(&mut self.lists, &of_list(read.width, columns, number));
        if number == Number::Column as usize {
            count(&mut self.before, &[plain & 0xff != 0, plan.len() > PLAN_CELLS]);
        } else if number == Number::Early as usize || number == Number::Open as usize {
            let named = Named::of(&read, columns).expect("the columns were accepted");
            count(&mut self.early, &of_place(&read, &named, plan, (expected >> 16) as usize, number));
        }
    }

    /// Whether all was met.
    pub fn passed(&self) -> bool {
        let refused = [OF_BUILDING, OF_CHECKING].into_iter().zip(&self.refused);
        let mut met =
            refused.flat_map(|(all, met)| all.iter().flat_map(move |&(_, input, numbers)| numbers.iter().map(move |&number| met[input][number])));
        let counts = [&self.lists[..], &self.before, &self.built, &self.rooms, &self.early];
        met.all(|met| met > 0) && counts.into_iter().flatten().all(|&met| met > 0)
    }
}

/// In the order of LISTS.
fn of_list(width: usize, columns: &[u32], number: usize) -> [bool; LISTS.len()] {
    let is_column = |column: &&u32| (**column as usize) < width;
    let wrong: Vec<u32> = columns.iter().filter(|column| !is_column(column)).copied().collect();
    let mut set: Vec<u32> = columns.iter().filter(is_column).copied().collect();
    let in_order = set.is_sorted();
    set.sort();
    set.dedup();
    let (sound, refused) = (wrong.is_empty(), number == Number::Column as usize);
    [
        columns.is_empty(),
        sound && set.len() == width,
        sound && !set.is_empty() && set.len() < width,
        sound && !in_order,
        sound && set.len() < columns.len(),
        sound && columns.len() > 65_535,
        refused && wrong == [width as u32],
        refused && wrong == [u32::MAX],
        refused && wrong.iter().all(|&column| column > 15 && ((column & 15) as usize) < width),
    ]
}

/// In the order of BUILT.
fn of_plan(table: &Table, figure: u32, plan: &[u32], cost: usize) -> [bool; BUILT.len()] {
    let measure = Measure::Work(figure);
    let plain = least_by(table, measure);
    let (least, same) = (measure.cost(&plain), plain.write() == plan);
    [
        same,
        !same && cost == least,
        cost > least,
        table.rows.len() == 1,
        table.rows.len() == 64,
        table.rows.iter().any(|row| row.again > 0),
        figure == 15,
    ]
}

/// In the order of EARLY: the index at this place of a plan that is sound before it.
fn of_place(table: &Table, named: &Named, plan: &[u32], place: usize, number: usize) -> [bool; EARLY.len()] {
    let mut open = Open::new(table);
    let rows = state_at(&mut open, 0..table.rows.len(), plan, &mut 0, place).expect("the cell is an index");
    let (may, terms) = (named.choosable(open.first(&rows)), open.first(&rows));
    if number == Number::Open as usize {
        let mut met = [false; EARLY.len()];
        met[EARLY.len() - 1] = may.len() < terms.len();
        return met;
    }
    let is_argument = |&term: &&Term| table.rows[rows.start].arguments.iter().any(|argument| std::ptr::eq(argument, term));
    let chosen = plan[place] as usize;
    [
        place == 0,
        place > 0,
        rows.len() > 1,
        rows.len() == 1,
        plan.get(place + 1).is_some_and(|&count| count as usize != open.runs(&rows, chosen)),
        plan.len() == place + 1,
        !may.iter().any(|&place| is_argument(&terms[place])),
        false,
    ]
}

/// Goes down the cells of a plan to the state whose first cell is this one; its rows.
fn state_at(open: &mut Open, rows: Range<usize>, plan: &[u32], at: &mut usize, place: usize) -> Option<Range<usize>> {
    if *at == place {
        return Some(rows);
    }
    if open.places(&rows) == 0 {
        *at += 1;
        return None;
    }
    let chosen = plan[*at] as usize;
    *at += 2;
    let mut left = rows;
    while !left.is_empty() {
        let run = open.run(left.clone(), chosen);
        left.start = run.end;
        *at += 1;
        open.close(&run, chosen);
        if let Some(found) = state_at(open, run, plan, at, place) {
            return Some(found);
        }
    }
    None
}

impl fmt::Display for Chosen {
    fn fmt(&self, f: &mut fmt::Formatter) -> fmt::Result {
        let pairs = |names: &[&'static str], counts: &[u64]| listed(&names.iter().copied().zip(counts.iter().copied()).collect::<Vec<_>>());
        for ((call, all), met) in [("build_for", OF_BUILDING), ("check_for", OF_CHECKING)].into_iter().zip(&self.refused) {
            for &(input, place, numbers) in all {
                let counts: Vec<(&str, u64)> = numbers.iter().map(|&number| (NAMES[number - 1], met[place][number])).collect();
                writeln!(f, "{call} refused, {input}: {}", listed(&counts))?;
            }
        }
        writeln!(f, "lists of columns: {}", pairs(&LISTS, &self.lists))?;
        writeln!(f, "one refusal before another: {}", pairs(&BEFORE, &self.before))?;
        writeln!(f, "built for some columns: {}", pairs(&BUILT, &self.built))?;
        writeln!(f, "built in: {}", pairs(&ROOMS, &self.rooms))?;
        writeln!(f, "EARLY: {}", pairs(&EARLY, &self.early))
    }
}
