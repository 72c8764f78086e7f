//! The exported functions against the independent implementation, input by input: the whole answer and the whole of the lent room.

mod chosen;
pub mod clauses;
pub mod columns;
mod edits;
mod filed;
pub mod files;
mod handed;
pub mod liked;
mod likings;
pub mod listings;
pub mod repeats;
mod replies;
pub mod salvage;
mod saved;
pub(crate) mod small;
mod tally;
mod texts;

use crate::engine::{Definition, Engine, Plain};
use crate::make::{damage, goals, plans, records, tables};
use crate::model::least::{every_run, every_run_by_search, least_by, least_by_search, Measure};
use crate::model::plan::{Plan, PLAN_CELLS};
use crate::model::read::{read_goal, read_table, Table};
use crate::model::record::{figure_in, table_in, Record, MOST_FIGURE, RECORD_CELLS};
use crate::model::run::hits;
use crate::model::walk::{fit, in_turn, Fit};
use crate::random::Random;
use tally::Met;
pub use tally::{Entry, Tally};

/// The seed of a comparison that names none.
pub const SEED: u64 = 1995;
/// The rounds of a comparison that names none.
pub const ROUNDS: usize = 20_000;

/// Compares on all inputs of a few small families, then on so many rounds of random ones.
pub fn compare<E: Engine>(exported: &E, rounds: usize, seed: u64) -> Tally {
    let mut comparison = Comparison { exported, random: Random::new(seed), tally: Tally::default() };
    comparison.small_families();
    comparison.fixed_repeats();
    for _ in 0..rounds {
        comparison.round();
    }
    comparison.tally
}

/// Goes on with texts: those that are fixed, then so many random ones.
pub fn texts<E: Engine>(exported: &E, tally: Tally, count: usize, seed: u64) -> Tally {
    let mut comparison = Comparison { exported, random: Random::new(seed), tally };
    comparison.fixed_texts();
    comparison.random_texts(count);
    comparison.tally
}

/// Goes on with what the rules say: fixed cases, then so many random tables.
pub fn replies<E: Engine>(exported: &E, tally: Tally, count: usize, seed: u64) -> Tally {
    let mut comparison = Comparison { exported, random: Random::new(seed), tally };
    comparison.fixed_replies();
    comparison.fixed_lengths();
    for _ in 0..count {
        comparison.random_replies();
        if comparison.random.one_in(4) {
            comparison.long_replies();
        }
    }
    comparison.tally
}

/// Goes on with records: edits with their answers written down, then so many tables, each with a sequence of edits and a record that was never
/// worked out.
pub fn edits<E: Engine>(exported: &E, tally: Tally, count: usize, seed: u64) -> Tally {
    let mut comparison = Comparison { exported, random: Random::new(seed), tally };
    comparison.fixed_edits();
    for _ in 0..count {
        comparison.random_edits();
        comparison.any_record();
    }
    comparison.tally
}

/// Goes on with plans handed back as Prolog: fixed cases, then so many random tables with texts and lists of names.
pub fn clauses<E: Engine>(exported: &E, tally: Tally, count: usize, seed: u64) -> Tally {
    let mut comparison = Comparison { exported, random: Random::new(seed), tally };
    comparison.fixed_clauses();
    for _ in 0..count {
        comparison.random_clauses();
    }
    comparison.tally
}

/// Goes on with files: fixed ones, then so many random tables and plans with their files, sound and spoiled.
pub fn files<E: Engine>(exported: &E, tally: Tally, count: usize, seed: u64) -> Tally {
    let mut comparison = Comparison { exported, random: Random::new(seed), tally };
    comparison.fixed_files();
    for _ in 0..count {
        comparison.random_files();
    }
    comparison.tally
}

/// Goes on with what can be saved of files: fixed ones, then so many random ones, sound and harmed.
pub fn salvages<E: Engine>(exported: &E, tally: Tally, count: usize, seed: u64) -> Tally {
    let mut comparison = Comparison { exported, random: Random::new(seed), tally };
    comparison.fixed_salvages();
    for _ in 0..count {
        comparison.random_salvages();
    }
    comparison.tally
}

/// Goes on with plans for named columns: fixed ones, then so many random tables with lists of columns and plans.
pub fn columns<E: Engine>(exported: &E, tally: Tally, count: usize, seed: u64) -> Tally {
    let mut comparison = Comparison { exported, random: Random::new(seed), tally };
    comparison.fixed_columns();
    for _ in 0..count {
        comparison.random_columns();
    }
    comparison.tally
}

/// Goes on with plans that lists of goals like best: fixed ones, then so many random tables with lists.
pub fn liked<E: Engine>(exported: &E, tally: Tally, count: usize, seed: u64) -> Tally {
    let mut comparison = Comparison { exported, random: Random::new(seed), tally };
    comparison.fixed_liked();
    for _ in 0..count {
        comparison.random_liked();
    }
    comparison.tally
}

/// Goes on with the largest tables and the longest lists of them.
pub fn liked_at_length<E: Engine>(exported: &E, tally: Tally, seed: u64) -> Tally {
    let mut comparison = Comparison { exported, random: Random::new(seed), tally };
    comparison.liked_full();
    comparison.liked_by_many();
    comparison.tally
}

struct Comparison<'e, E: Engine> {
    exported: &'e E,
    random: Random,
    tally: Tally,
}

/// The figures at which short tables are worked out and built; the last one is refused. By 01's measure the listings are compared.
const FIGURES: [u32; 5] = [0, 1, 2, 15, 16];
/// The most rows of a short table.
const SHORT: usize = 8;

/// Cells or bytes on either side of a lent room, which no call may touch.
pub(crate) const MARGIN: usize = 8;

impl<E: Engine> Comparison<'_, E> {
    /// A table, sound or damaged, with rows, rooms, plans and goals of all kinds.
    fn round(&mut self) {
        let mut table = tables::any(&mut self.random);
        let mut read = read_table(&table).ok();
        if self.random.one_in(4) {
            damage::table(&mut self.random, &mut table);
            // Most plans and goals for a damaged table are those of the sound one: its refusal comes first.
            read = read_table(&table).ok().or(read);
        }
        let read = read.expect("the table was sound");
        self.read_table(&table);
        self.search(&read);
        if read.rows.len() <= SHORT {
            self.build(&table, &FIGURES);
        } else {
            let figure = self.random.below(18) as u32;
            self.build(&table, &[figure]);
        }
        let record = records::holding(&mut self.random, &table);
        self.over(&record, &read);
    }

    /// The entries that go by a record's table, with rows, plans and goals of all kinds.
    fn over(&mut self, record: &Record, read: &Table) {
        for _ in 0..4 {
            self.row(record);
        }
        for _ in 0..3 {
            let plan = self.plan(read);
            self.check_plan(record, &plan);
        }
        for _ in 0..3 {
            let goal = self.goal(read);
            self.read_goal(record, &goal);
        }
        for _ in 0..4 {
            let (plan, goal) = (self.plan(read), self.goal(read));
            self.run(record, &plan, &goal, read.rows.len());
            self.replies(record, &plan, &goal);
        }
    }

    fn plan(&mut self, table: &Table) -> Vec<u32> {
        let mut plan = plans::any(&mut self.random, table);
        if self.random.one_in(3) {
            damage::plan(&mut self.random, &mut plan);
        }
        plan
    }

    fn goal(&mut self, table: &Table) -> Vec<u32> {
        let mut goal = goals::any(&mut self.random, table);
        if self.random.one_in(5) {
            damage::goal(&mut self.random, &mut goal);
        }
        goal
    }

    /// A room too small, just large enough, or larger.
    fn room(&mut self, needed: usize, most: usize) -> usize {
        match self.random.below(6) {
            0 => needed.saturating_sub(1),
            1 => self.random.below(needed + 1),
            2 | 3 => needed,
            4 => needed + self.random.within(1..=5),
            _ => most,
        }
    }

    /// A room with its margins, filled with anything.
    fn lent(&mut self, room: usize) -> Vec<u32> {
        let first = self.random.number() as u32;
        (0..(room + 2 * MARGIN) as u32).map(|place| first.wrapping_add(place.wrapping_mul(0x9e37_79b9))).collect()
    }

    fn read_table(&mut self, table: &[u32]) {
        let answer = self.exported.read_table(table);
        self.tally.settle(Entry::ReadTable, answer, Definition.read_table(table), true, &|| format!("table {table:?}"));
    }

    fn read_goal(&mut self, record: &Record, goal: &[u32]) {
        let answer = self.exported.read_goal(record, goal);
        let describe = || format!("table {:?} goal {goal:?}", table_in(record));
        self.tally.settle(Entry::ReadGoal, answer, Definition.read_goal(record, goal), true, &describe);
    }

    fn row(&mut self, record: &Record) {
        let row = match self.random.below(8) {
            0 => usize::MAX,
            1 => self.random.number() as usize,
            2 => table_in(record).get(1).map_or(0, |&rows| rows as usize),
            _ => self.random.below(66),
        };
        let answer = self.exported.row(record, row);
        let describe = || format!("table {:?} row {row}", table_in(record));
        self.tally.settle(Entry::Row, answer, Definition.row(record, row), true, &describe);
    }

    fn check_plan(&mut self, record: &Record, plan: &[u32]) {
        let answer = self.exported.check_plan(record, plan);
        let describe = || format!("table {:?} plan {plan:?}", table_in(record));
        self.tally.settle(Entry::CheckPlan, answer, Definition.check_plan(record, plan), true, &describe);
    }

    /// Works the table out with each figure, and builds from each record.
    fn build(&mut self, table: &[u32], figures: &[u32]) {
        for &figure in figures {
            if let Some(record) = self.work_out(table, figure) {
                self.build_from(&record);
            }
        }
    }

    /// The expected record, where there is one.
    fn work_out(&mut self, table: &[u32], figure: u32) -> Option<Box<Record>> {
        let lent = self.lent(RECORD_CELLS);
        let (answer, left) = lend_record(&lent, |record| self.exported.work_out(table, figure, record));
        let (expected, wanted) = lend_record(&lent, |record| Definition.work_out(table, figure, record));
        self.tally.settle(Entry::WorkOut, answer, expected, left == wanted, &|| format!("table {table:?} figure {figure}"));
        let read = read_table(table).ok().filter(|_| expected & 0xff == 0)?;
        self.tally.meet(Met::WorkedOut, read.rows.iter().any(|row| row.again > 0));
        Some(without_margins(wanted))
    }

    /// Builds from a record that was worked out or edited.
    fn build_from(&mut self, record: &Record) {
        let (table, figure) = (table_in(record), figure_in(record));
        let needed = least_by(&read_table(table).expect("a record's table is sound"), Measure::Work(figure)).write().len();
        let room = self.room(needed, PLAN_CELLS + 7);
        let lent = self.lent(room);
        let (answer, left) = lend(&lent, |room| self.exported.build_plan(record, room));
        let (expected, wanted) = lend(&lent, |room| Definition.build_plan(record, room));
        let describe = || format!("table {table:?} figure {figure} room {room}");
        self.tally.settle(Entry::BuildPlan, answer, expected, left == wanted, &describe);
    }

    fn run(&mut self, record: &Record, plan: &[u32], goal: &[u32], rows: usize) {
        let room = self.room(rows, 300);
        let lent: Vec<u8> = (0..room + 2 * MARGIN).map(|_| self.random.number() as u8).collect();
        let (answer, left) = lend(&lent, |room| self.exported.run_plan(record, plan, goal, room));
        let (expected, wanted) = lend(&lent, |room| Definition.run_plan(record, plan, goal, room));
        let describe = || format!("table {:?} plan {plan:?} goal {goal:?} room {room}", table_in(record));
        self.tally.settle(Entry::RunPlan, answer, expected, left == wanted, &describe);
        let (walked, walked_left) = lend(&lent, |room| Plain.run_plan(record, plan, goal, room));
        self.tally.own("walks against the definitions", walked == expected && walked_left == wanted, &describe);
        if let Ok(read) = read_table(table_in(record)) {
            self.in_turn(&read, goal);
        }
    }

    /// The rows unified in turn that are timed, against the textbook's unifier; and how those that repeat a variable stand to the goal.
    fn in_turn(&mut self, table: &Table, goal: &[u32]) {
        let Ok(read) = read_goal(table.width, goal) else {
            return;
        };
        let mut found = Vec::new();
        in_turn(&table.rows, &read, &mut found);
        self.tally.own("rows in turn against the textbook's unifier", found == hits(table, &read), &|| format!("goal {goal:?}"));
        for row in table.rows.iter().filter(|row| row.again > 0) {
            let (as_it_is, told_apart) = (fit(row, &read), fit(&row.apart(), &read));
            self.tally.meet(Met::Hit, as_it_is == Fit::Fits);
            self.tally.meet(Met::KeptByOccursCheck, as_it_is == Fit::WithoutEnd);
            self.tally.meet(Met::KeptByRepeating, as_it_is != Fit::Fits && told_apart == Fit::Fits);
        }
    }

    /// The independent builder against a search through every plan, where the table is small enough for it; and what is known of each run of rows.
    fn search(&mut self, table: &Table) {
        if table.rows.iter().all(|row| row.cells <= 7) && table.rows.len() <= SHORT {
            let works = FIGURES.iter().filter(|&&figure| figure <= MOST_FIGURE).map(|&figure| Measure::Work(figure));
            for measure in works.chain([Measure::Branches]) {
                let (built, found): (Plan, Plan) = (least_by(table, measure), least_by_search(table, measure));
                let describe = || format!("{measure:?} {built:?} {found:?}");
                self.tally.own("least plans against a search through all plans", built == found, &describe);
                let (runs, found) = (every_run(table, measure), every_run_by_search(table, measure));
                let describe = || format!("{measure:?} {runs:?} {found:?}");
                self.tally.own("runs of rows against a search through all plans", runs == found, &describe);
            }
        }
    }
}

/// A call with the middle of the lent cells or bytes as its room; its answer, and all of them afterwards.
pub(crate) fn lend<T: Clone>(lent: &[T], call: impl FnOnce(&mut [T]) -> u64) -> (u64, Vec<T>) {
    let mut left = lent.to_vec();
    let end = left.len() - MARGIN;
    let answer = call(&mut left[MARGIN..end]);
    (answer, left)
}

/// Two rooms lent in one call.
pub(crate) fn lend_two(lent: &[Vec<u32>; 2], call: impl FnOnce(&mut [u32], &mut [u32]) -> u64) -> (u64, [Vec<u32>; 2]) {
    let mut second_left = Vec::new();
    let (answer, first_left) = lend(&lent[0], |first| {
        let (answer, left) = lend(&lent[1], |second| call(first, second));
        second_left = left;
        answer
    });
    (answer, [first_left, second_left])
}

/// The same with a record in the middle.
fn lend_record(lent: &[u32], call: impl FnOnce(&mut Record) -> u64) -> (u64, Vec<u32>) {
    lend(lent, |middle| call(middle.try_into().expect("as many numbers as a record has")))
}

/// The record in the middle of what was lent.
fn without_margins(mut lent: Vec<u32>) -> Box<Record> {
    lent.truncate(MARGIN + RECORD_CELLS);
    records::boxed(lent.split_off(MARGIN))
}
