//! What must be met of plans that lists of goals like best, and how often it was.

use std::fmt;

use super::filed::{count, parts};
use super::tally::listed;
use crate::make::lists::List;
use crate::model::liked::Sets;
use crate::model::read::{read_goal, read_table, Table};
use crate::model::refusal::{ByNumber, Number, Refusal, NAMES};

/// What a call can be refused with, by input; and what a goal can be.
const REFUSED: [(&str, usize, &[usize]); 3] = [("figure", 6, &[20]), ("table", 1, &[1, 2, 3, 4, 5, 6, 7, 9, 24]), ("room", 4, &[16])];
const OF_GOALS: [usize; 5] = [1, 5, 6, 7, 9];

/// Of what was found.
const FOUND: [&str; 9] = [
    "the plain plan",
    "that of a column",
    "of several",
    "another plan that tries as much as the plain one",
    "two plans that try as much, and less than it",
    "one plan for two sets",
    "a set by which more is tried",
    "a plan that costs more",
    "one that costs as much",
];

/// Of the lists, where figure and table are accepted.
const LISTS: [&str; 11] = [
    "no word",
    "one word",
    "an odd word behind goals",
    "no goal that is accepted",
    "a goal twice",
    "over 255 goals",
    "a start past the cells",
    "a count past them",
    "a sum past 2^64",
    "over 65,535 tried",
    "over 2^32",
];

/// Of the rooms.
const ROOMS: [&str; 7] = [
    "exactly the cells",
    "more",
    "a cell less",
    "none",
    "fewer than the plain plan has",
    "fewer than another has",
    "ROOM where the plain plan has room",
];

/// Of tables and records.
const OVER: [&str; 9] = [
    "one row",
    "64 rows",
    "one column",
    "eight columns",
    "a row that repeats a variable",
    "figure 15",
    "FIGURE with a table that is refused",
    "with no room",
    "a table refused with no room",
];

#[derive(Default)]
pub struct Likings {
    refused: [ByNumber<u64>; 10],
    goals: ByNumber<u64>,
    found: [u64; FOUND.len()],
    lists: [u64; LISTS.len()],
    rooms: [u64; ROOMS.len()],
    over: [u64; OVER.len()],
}

/// One call: its inputs, and what is known of the sets of columns.
pub struct Liking<'c> {
    pub table: &'c [u32],
    pub figure: u32,
    pub list: &'c List,
    pub room: usize,
    pub sets: &'c Result<Sets, Refusal>,
}

impl Likings {
    pub fn built(&mut self, call: &Liking, expected: u64) {
        let (number, input) = parts(expected);
        self.refused[input][number] += 1;
        let (no_figure, no_table, no_room) = (number == Number::Figure as usize, input == 1, call.room == 0);
        let read = read_table(call.table);
        count(&mut self.over[6..], &[no_figure && read.is_err(), no_figure && no_room, no_table && no_room]);
        let (Ok(sets), Ok(read)) = (call.sets, read) else {
            return;
        };
        count(&mut self.over, &of_table(&read, call.figure));
        count(&mut self.lists, &of_list(call.list, &read, sets));
        for part in call.list.parts() {
            let refused = call.list.goal(part).map(|goal| read_goal(read.width, goal).err().map_or(0, |refusal| refusal.number as usize));
            self.goals[refused.unwrap_or(Number::Length as usize)] += 1;
        }
        count(&mut self.rooms, &of_room(sets, call.room, number));
        if number == 0 {
            count(&mut self.found, &of_sets(sets));
        }
    }

    /// Whether all was met.
    pub fn passed(&self) -> bool {
        let mut refused = REFUSED.iter().flat_map(|&(_, input, numbers)| numbers.iter().map(move |&number| self.refused[input][number]));
        let counts = [&self.found[..], &self.lists, &self.rooms, &self.over];
        let goals = OF_GOALS.iter().all(|&number| self.goals[number] > 0);
        refused.all(|met| met > 0) && goals && counts.into_iter().flatten().all(|&met| met > 0)
    }
}

/// In the order of OVER, as far as it goes by the table.
fn of_table(table: &Table, figure: u32) -> [bool; 6] {
    let rows = table.rows.len();
    [rows == 1, rows == 64, table.width == 1, table.width == 8, table.rows.iter().any(|row| row.again > 0), figure == 15]
}

/// In the order of LISTS.
fn of_list(list: &List, table: &Table, sets: &Sets) -> [bool; LISTS.len()] {
    let mut parts: Vec<(usize, usize)> = list.parts().collect();
    let goals = parts.len();
    let (words, cells) = (list.words().len(), list.cells().len());
    let accepted = |&part: &(usize, usize)| list.goal(part).is_some_and(|goal| read_goal(table.width, goal).is_ok());
    let some = |is: &dyn Fn(usize, usize) -> bool| parts.iter().any(|&(start, count)| is(start, count));
    let past = [
        some(&|start, _| start > cells),
        some(&|start, count| start <= cells && count > cells - start),
        some(&|start, count| start.checked_add(count).is_none()),
    ];
    let none = goals > 0 && !parts.iter().any(accepted);
    parts.retain(accepted);
    parts.sort();
    let twice = parts.windows(2).any(|pair| pair[0] == pair[1]);
    let tried = sets.liked().tried;
    let [start, count, sum] = past;
    [words == 0, words == 1, words > 1 && words % 2 == 1, none, twice, goals > 255, start, count, sum, tried > 65_535, tried > u32::MAX as usize]
}

/// In the order of ROOMS.
fn of_room(sets: &Sets, room: usize, number: usize) -> [bool; ROOMS.len()] {
    let cells: Vec<usize> = sets.plans.iter().map(|plan| plan.write().len()).collect();
    let (needed, answered) = (cells[sets.best()], number == 0);
    [
        room == needed,
        room > needed,
        room + 1 == needed,
        room == 0,
        answered && room < cells[0],
        answered && cells.iter().any(|&cells| room < cells),
        !answered && cells[0] <= room,
    ]
}

/// In the order of FOUND.
fn of_sets(sets: &Sets) -> [bool; FOUND.len()] {
    let best = sets.best();
    let others = |is: &dyn Fn(usize) -> bool| (0..sets.plans.len()).any(|set| set != best && is(set));
    let ties = others(&|set| sets.totals[set] == sets.totals[best] && sets.plans[set] != sets.plans[best]);
    let doubled = others(&|set| sets.plans[set] == sets.plans[best]);
    let (cost, plain) = (sets.cost(best), sets.cost(0));
    [
        best == 0,
        best.count_ones() == 1,
        best.count_ones() > 1,
        best == 0 && ties,
        best > 0 && ties,
        best > 0 && doubled,
        others(&|set| sets.totals[set] > sets.totals[0]),
        cost > plain,
        best > 0 && cost == plain,
    ]
}

impl fmt::Display for Likings {
    fn fmt(&self, f: &mut fmt::Formatter) -> fmt::Result {
        let pairs = |names: &[&'static str], counts: &[u64]| listed(&names.iter().copied().zip(counts.iter().copied()).collect::<Vec<_>>());
        let counted = |numbers: &[usize], met: &ByNumber<u64>| {
            let counts: Vec<(&str, u64)> = numbers.iter().map(|&number| (NAMES[number - 1], met[number])).collect();
            listed(&counts)
        };
        for (input, place, numbers) in REFUSED {
            writeln!(f, "build_liked refused, {input}: {}", counted(numbers, &self.refused[place]))?;
        }
        writeln!(f, "liked best: {}", pairs(&FOUND, &self.found))?;
        writeln!(f, "goals of such lists: accepted {}, refused {}", self.goals[0], counted(&OF_GOALS, &self.goals))?;
        writeln!(f, "their lists: {}", pairs(&LISTS, &self.lists))?;
        writeln!(f, "their rooms: {}", pairs(&ROOMS, &self.rooms))?;
        writeln!(f, "their tables and records: {}", pairs(&OVER, &self.over))
    }
}
