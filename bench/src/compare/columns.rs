//! Plans for columns that are always filled in (02, W-213): the request's table with its plans, costs and answers written down, plans spoiled at
//! every cell, then random tables, lists of columns and plans. What is built is run on goals, and its hits are held against the plain plan's.

use std::collections::BTreeSet;

use super::chosen::Building;
use super::{lend, Comparison, Entry, FIGURES, MARGIN, SHORT};
use crate::engine::{Definition, Engine, Plain};
use crate::make::columns::{any, spoiled};
use crate::make::{damage, goals, plans, records, tables};
use crate::model::columns::{least_for, named_come_first, Named};
use crate::model::least::{least_by, least_for_by_search, least_of_all, Measure};
use crate::model::plan::{check, check_for, grow, Plan, PLAN_CELLS};
use crate::model::read::{read_table, Table};
use crate::model::record::{figure_in, put_table, table_in, Record, MOST_FIGURE};
use crate::notation::{name, plan, table};

/// Rows, lists of columns that all have this plan, its branches, and its cost by W-204's measure with the figures of WORK.
pub struct Example {
    pub rows: &'static str,
    pub lists: &'static [&'static [u32]],
    pub branches: usize,
    pub plan: &'static str,
    pub work: [usize; 3],
    /// The plan with the second and third figure, where it is another.
    pub later: Option<&'static str>,
}

pub const WORK: [u32; 3] = [0, 2, 15];

const fn example(rows: &'static str, lists: &'static [&'static [u32]], branches: usize, plan: &'static str, work: [usize; 3]) -> Example {
    Example { rows, lists, branches, plan, work, later: None }
}

const FOUR: &str = "(a,c) (b,c) (a,d) (b,d)";
const AGREED: &str = "(a,b) (b,b) (c,b)";
const BELOW: &str = "(a,f1(a)) (b,f1(a)) (b,f1(b))";
const THREE: &str = "(a,b,c) (a,c,c) (b,b,d)";
const BY_FIRST: &str = "0 4 a 0 1 c 1 b 0 1 c 1 a 0 1 d 1 b 0 1 d 1";
const BY_SECOND: &str = "1 2 c 0 2 a 1 b 1 d 0 2 a 1 b 1";

/// The request's table. In the first of its lines the plan is the second line's from figure 2 on.
pub const EXAMPLES: [Example; 10] = [
    Example { later: Some(BY_FIRST), ..example(FOUR, &[&[], &[0, 1], &[1, 0]], 6, BY_SECOND, [6, 10, 23]) },
    example(FOUR, &[&[0], &[0, 0]], 8, BY_FIRST, [8, 10, 23]),
    example(FOUR, &[&[1]], 6, BY_SECOND, [6, 12, 51]),
    example(AGREED, &[&[], &[1], &[0, 1]], 4, "1 1 b 0 3 a 1 b 1 c 1", [4, 6, 19]),
    example(AGREED, &[&[0]], 6, "0 3 a 0 1 b 1 b 0 1 b 1 c 0 1 b 1", [6, 8, 21]),
    example(BELOW, &[&[], &[1, 0, 1]], 6, "1 1 f1 0 2 a 0 1 a 1 b 0 2 a 1 b 1", [7, 11, 37]),
    example(BELOW, &[&[0]], 7, "0 2 a 0 1 f1 0 1 a 1 b 0 1 f1 0 2 a 1 b 1", [9, 13, 39]),
    example(BELOW, &[&[1], &[1, 1, 1]], 6, "1 1 f1 1 2 a 0 2 a 1 b 1 b 0 1 b 1", [7, 11, 37]),
    example(THREE, &[&[2, 0], &[0, 2], &[2, 0, 2]], 7, "0 2 a 1 1 c 0 2 b 1 c 1 b 1 1 d 0 1 b 1", [7, 11, 37]),
    example(THREE, &[&[1]], 9, "1 3 b 0 1 a 0 1 c 1 c 0 1 a 0 1 c 1 b 0 1 b 0 1 d 1", [9, 11, 24]),
];

/// Numbers, inputs and places.
pub const COLUMN: u64 = 33 | 9 << 8;
pub const OPEN: u64 = 12 | 2 << 8;
pub const EARLY: u64 = 34 | 2 << 8;

const P1: &str = "(a,b,c) (a,b,d) (a,c,c) (b,a,c)";
const P1_PLAN: &str = "0 2 a 0 2 b 0 2 c 1 d 1 c 0 1 c 1 b 0 1 a 0 1 c 1";

/// A table, columns, a plan and what its check for these columns answers.
pub type Answer = (Vec<u32>, &'static [u32], Vec<u32>, u64);

pub fn answers() -> Vec<Answer> {
    let two = || table("(v0,v1)");
    let mut answers = vec![
        (two(), &[0][..], plan("1 1 v1 0 1 v0 1"), EARLY),
        (two(), &[0], plan("1"), EARLY),
        (two(), &[0], plan("2 1 v1 0 1 v0 1"), OPEN),
        (two(), &[0], plan("0 1 v0 0 1 v1 1"), 2 << 16),
        (two(), &[2], plan("0 1 v0 0 1 v1 1"), COLUMN),
        (two(), &[1], plan("0 1 v0 0 1 v1 1"), EARLY),
        (two(), &[0, u32::MAX], plan("1"), COLUMN),
        (table(P1), &[1], plan(P1_PLAN), EARLY),
        (table(P1), &[0], plan(P1_PLAN), 9 << 16),
        (table(P1), &[0, 2], plan(P1_PLAN), EARLY | 3 << 16),
        (vec![1, 1, 3 << 30], &[8], plan("0"), 6 | 1 << 8 | 2 << 16),
        (table(P1), &[8], vec![0; PLAN_CELLS + 1], COLUMN),
        (table(P1), &[1], vec![0; PLAN_CELLS + 1], 10 | 2 << 8),
    ];
    // EARLY comes before anything of the count, and ENDS, for the index itself, before EARLY.
    for (cells, answer) in
        [("0 2 a 0", EARLY | 3 << 16), ("0 2 a 0 7", EARLY | 3 << 16), ("0 2 a", 11 | 2 << 8 | 3 << 16), ("0 2 a 2", OPEN | 3 << 16)]
    {
        answers.push((table(P1), &[0, 2], plan(cells), answer));
    }
    answers
}

/// Every list of columns in order, none and all among them.
fn lists(width: usize) -> impl Iterator<Item = Vec<u32>> {
    (0..1u32 << width).map(move |set| (0..width as u32).filter(|column| set >> column & 1 == 1).collect())
}

impl<E: Engine> Comparison<'_, E> {
    pub(super) fn fixed_columns(&mut self) {
        for example in &EXAMPLES {
            self.example(example);
        }
        for (cells, columns, plan, answer) in answers() {
            let record = records::holding(&mut self.random, &cells);
            let found = Definition.check_for(&record, columns, &plan);
            self.noted("answers", found == answer, &format!("{cells:?} {columns:?} {plan:?}: {found:#x}"));
            self.check_for(&record, columns, &plan);
        }
        for rows in [FOUR, AGREED, BELOW, THREE, P1, "(f2(a,v0),v0) (f2(a,b),a) (f2(b,b),v0)", "(f1(f1(v0)),v0,f2(v0,a)) (f1(b),a,f2(b,v0))"] {
            self.spoiled_everywhere(&table(rows));
        }
        for rows in ["(v0)", FOUR, THREE, "(a,b,c,d,e,f,g,h)"] {
            self.no_columns(&table(rows));
        }
        self.deep_columns();
        self.long_lists_of_columns();
    }

    fn noted(&mut self, what: &str, same: bool, inputs: &str) {
        self.tally.own("plans for named columns against what is written down", same, &|| format!("{what}: {inputs}"));
    }

    fn example(&mut self, example: &Example) {
        let cells = table(example.rows);
        let read = read_table(&cells).expect("a sound table");
        for &columns in example.lists {
            let named = Named::of(&read, columns).expect("columns of the table");
            let found = least_for(&read, &named, Measure::Branches);
            let same = found.branches.len() == example.branches && found.write() == plan(example.plan);
            self.noted("plans", same, &format!("{} {columns:?}", example.rows));
            for (place, (figure, cost)) in WORK.into_iter().zip(example.work).enumerate() {
                let found = least_for(&read, &named, Measure::Work(figure));
                let written = example.later.filter(|_| place > 0).unwrap_or(example.plan);
                let same = Measure::Work(figure).cost(&found) == cost && found.write() == plan(written);
                self.noted("costs", same, &format!("{} {columns:?} {figure}", example.rows));
            }
            self.least_of_the_kind(&read, columns);
            self.build_for_all(&cells, columns);
        }
    }

    /// Plans for every list of columns, cut at every cell, and with every cell replaced by some others, the next one as it was, replaced or cut off.
    fn spoiled_everywhere(&mut self, cells: &[u32]) {
        let read = read_table(cells).expect("a sound table");
        let record = records::holding(&mut self.random, cells);
        for columns in lists(read.width) {
            let named = Named::of(&read, &columns).expect("columns of the table");
            let last = grow(&read, |open, rows| named.choosable(open.first(rows)).pop().expect("some place may be chosen"));
            let sound = [least_for(&read, &named, Measure::Work(0)), last, least_by(&read, Measure::Work(0)), grow(&read, |_, _| 0)];
            for sound in BTreeSet::from(sound.map(|plan| plan.write())) {
                for place in 0..sound.len() {
                    self.check_for(&record, &columns, &sound[..place]);
                    for cell in [0, 1, 2, 3, sound[place].wrapping_add(1), name('a', 0), u32::MAX] {
                        let mut spoiled = sound.clone();
                        spoiled[place] = cell;
                        self.check_for(&record, &columns, &spoiled);
                        self.check_for(&record, &columns, &spoiled[..=place]);
                        if let Some(next) = spoiled.get_mut(place + 1) {
                            *next = next.wrapping_add(1);
                            self.check_for(&record, &columns, &spoiled);
                        }
                    }
                }
                self.check_for(&record, &columns, &[&sound[..], &[0]].concat());
            }
        }
    }

    /// Numbers that are no columns, alone, before, after and between others; with tables and figures accepted and refused, with room and none, and with
    /// plans that are accepted, refused and too long.
    fn no_columns(&mut self, cells: &[u32]) {
        let (width, read) = (cells[0], read_table(cells).expect("a sound table"));
        let sound = least_by(&read, Measure::Work(0)).write();
        let records = [(cells, 0), (cells, 16), (&cells[..cells.len() - 1], 0), (&cells[..cells.len() - 1], 16)].map(|(cells, figure)| {
            let mut record = records::empty();
            put_table(&mut record, cells, figure);
            record
        });
        for number in (width..=9).chain([1 << 4, 1 << 8, 1 << 16, 1 << 31, u32::MAX - 7, u32::MAX - 1, u32::MAX]) {
            for columns in [&[number][..], &[number, 0], &[0, number], &[width - 1, number, width - 1]] {
                for record in &records {
                    self.build_for(record, columns, 100);
                    self.build_for(record, columns, 0);
                    for plan in [&sound[..], &[], &[u32::MAX], &[0; PLAN_CELLS + 1]] {
                        self.check_for(record, columns, plan);
                    }
                }
            }
        }
    }

    /// Names one in another in each of two columns, the other one named; and 64 rows of 32 cells, each column named alone, and all but one.
    fn deep_columns(&mut self) {
        let chain = |names: usize, leaf: u32| [vec![name('f', 1); names], vec![name('a', 0) + leaf]].concat();
        let deep = [vec![2, 3], (0..3).flat_map(|row| [chain(14 + row, row as u32 % 2), chain(14 - row, row as u32)].concat()).collect()].concat();
        let full = tables::table(&mut self.random, tables::Kind::Full(8), 64);
        for cells in [deep, full] {
            let width = cells[0];
            for column in 0..width {
                let others: Vec<u32> = (0..width).rev().filter(|&other| other != column).collect();
                for columns in [&[column][..], &others] {
                    let mut record = records::holding(&mut self.random, &cells);
                    record[1] = *self.random.pick(&FIGURES);
                    self.build_and_run(&record, columns, PLAN_CELLS);
                    self.plans_for(&record, &read_table(&cells).expect("a sound table"), columns);
                }
            }
        }
    }

    /// Lists longer than any number of sixteen bits, sound and with a number at their end that is no column.
    fn long_lists_of_columns(&mut self) {
        let cells = table(THREE);
        let record = records::worked_out(&cells, 2);
        let plan = plan(EXAMPLES[8].plan);
        for last in [0, 1, 2, 3, u32::MAX] {
            let columns = [vec![2; 70_000], vec![0, last]].concat();
            self.build_for(&record, &columns, 100);
            self.check_for(&record, &columns, &plan);
        }
    }

    /// A table, sound or damaged, with lists of columns, and for each what is built, and plans of all sorts checked.
    pub(super) fn random_columns(&mut self) {
        let mut cells = tables::any(&mut self.random);
        let mut read = read_table(&cells).expect("a sound table");
        let sound = !self.random.one_in(6);
        if !sound {
            damage::table(&mut self.random, &mut cells);
            // Most lists and plans for a damaged table are those of the sound one: its refusal comes first.
            read = read_table(&cells).unwrap_or(read);
        }
        for _ in 0..2 {
            let columns = any(&mut self.random, read.width);
            if read.rows.len() <= SHORT {
                self.build_for_all(&cells, &columns);
            }
            let record = if sound && self.random.one_in(4) { records::damaged } else { records::holding };
            let mut record = record(&mut self.random, &cells);
            if self.random.one_in(2) {
                record[1] = *self.random.pick(&FIGURES);
            }
            self.build_for_any(&record, &columns);
            self.plans_for(&record, &read, &columns);
            self.least_of_the_kind(&read, &columns);
        }
    }

    /// With each figure, in rooms of exactly the cells, one less, none and more.
    fn build_for_all(&mut self, cells: &[u32], columns: &[u32]) {
        for figure in FIGURES {
            let mut record = records::holding(&mut self.random, cells);
            record[1] = figure;
            let needed = cells_needed(&record, columns);
            for room in [needed.saturating_sub(1), 0, needed + 3] {
                self.build_for(&record, columns, room);
            }
            self.build_and_run(&record, columns, needed);
        }
    }

    /// In one of these rooms.
    fn build_for_any(&mut self, record: &Record, columns: &[u32]) {
        let needed = cells_needed(record, columns);
        let room = *self.random.pick(&[needed, needed, needed.saturating_sub(1), 0, PLAN_CELLS + 7]);
        self.build_and_run(record, columns, room);
    }

    /// What was built is accepted by both checks with the same answer, and finds the rows that the plain plan finds.
    fn build_and_run(&mut self, record: &Record, columns: &[u32], room: usize) {
        let Some(plan) = self.build_for(record, columns, room) else {
            return;
        };
        self.check_for(record, columns, &plan);
        self.check_plan(record, &plan);
        let read = read_table(table_in(record)).expect("the table was accepted");
        let plain = least_by(&read, Measure::Work(figure_in(record))).write();
        let of_one_row = self.random.one_in(2);
        for goal in [goals::any(&mut self.random, &read), goals::knowing(&mut self.random, &read, columns, of_one_row)] {
            self.run(record, &plan, &goal, read.rows.len());
            let [found, wanted] = [&plan, &plain].map(|plan| {
                let mut room = [0; 64];
                let answer = Plain.run_plan(record, plan, &goal, &mut room);
                (answer & 0xffff_ffff, room)
            });
            let describe = || format!("table {:?} columns {columns:?} goal {goal:?}", table_in(record));
            self.tally.own("hits by plans for named columns against the plain plan's", found == wanted, &describe);
        }
    }

    /// The plan that is expected, where there is one.
    fn build_for(&mut self, record: &Record, columns: &[u32], room: usize) -> Option<Vec<u32>> {
        let lent = self.lent(room);
        let (answer, left) = lend(&lent, |room| self.exported.build_for(record, columns, room));
        let (expected, wanted) = lend(&lent, |room| Definition.build_for(record, columns, room));
        let (table, figure) = (table_in(record), figure_in(record));
        let describe = || format!("table {table:?} figure {figure} columns {:?} room {room}", shown(columns));
        self.tally.settle(Entry::BuildFor, answer, expected, left == wanted, &describe);
        self.tally.chosen.built(&Building { table, figure, columns, room: &wanted[MARGIN..MARGIN + room] }, expected);
        (expected & 0xff == 0).then(|| wanted[MARGIN..][..(expected >> 16 & 0xffff) as usize].to_vec())
    }

    /// Plans checked: for these columns, nearly so, and for none; some of each spoiled.
    fn plans_for(&mut self, record: &Record, read: &Table, columns: &[u32]) {
        // Where a number is no column, plans for the others: COLUMN comes first.
        let sound: Vec<u32> = columns.iter().copied().filter(|&column| (column as usize) < read.width).collect();
        let named = Named::of(read, &sound).expect("columns of the table");
        let made = [
            plans::for_columns(&mut self.random, read, &named),
            plans::nearly_for_columns(&mut self.random, read, &named),
            least_by(read, Measure::Work(0)),
            grow(read, |open, rows| self.random.below(open.places(rows))),
        ];
        for plan in made {
            self.in_two_ways(read, &sound, &named, &plan);
            self.check_for(record, columns, &plan.write());
            let spoiled = spoiled(&mut self.random, &plan);
            self.check_for(record, columns, &spoiled);
            let mut damaged = plan.write();
            damage::plan(&mut self.random, &mut damaged);
            self.check_for(record, columns, &damaged);
        }
    }

    fn check_for(&mut self, record: &Record, columns: &[u32], plan: &[u32]) {
        let answer = self.exported.check_for(record, columns, plan);
        let (expected, plain) = (Definition.check_for(record, columns, plan), Definition.check_plan(record, plan));
        let describe = || format!("table {:?} columns {:?} plan {plan:?}", table_in(record), shown(columns));
        self.tally.settle(Entry::CheckFor, answer, expected, true, &describe);
        self.tally.chosen.checked(table_in(record), columns, plan, plain, expected);
        if expected & 0xff == 0 {
            self.tally.own("plans for named columns against the plain check", plain == expected, &describe);
        }
    }

    /// Whether a plan is one for these columns: by the places that may be chosen, and by the order of columns on every way down.
    fn in_two_ways(&mut self, read: &Table, columns: &[u32], named: &Named, plan: &Plan) {
        let cells = plan.write();
        let accepted = check_for(read, named, &cells).is_ok();
        let describe = || format!("columns {columns:?} plan {cells:?}");
        self.tally.own(
            "plans for named columns against the order of columns on every way down",
            accepted == named_come_first(read, columns, plan),
            &describe,
        );
        self.tally.own("plans of all sorts against the plain check", check(read, &cells).as_ref() == Ok(plan), &describe);
    }

    /// The least plan for these columns by a search through all plans, where the table is small enough for it, and out of the list of all, where it is
    /// smaller still; and where none or all are named the plain one.
    fn least_of_the_kind(&mut self, read: &Table, columns: &[u32]) {
        let Ok(named) = Named::of(read, columns) else {
            return;
        };
        let most = |cells, rows| read.rows.iter().all(|row| row.cells <= cells) && read.rows.len() <= rows;
        let free = (0..read.width as u32).all(|column| columns.contains(&column)) || columns.is_empty();
        let works = FIGURES.iter().filter(|&&figure| figure <= MOST_FIGURE).map(|&figure| Measure::Work(figure));
        for measure in works.chain([Measure::Branches]) {
            let searched = most(7, SHORT).then(|| least_for_by_search(read, &named, measure));
            let listed = most(4, 4).then(|| least_of_all(read, &named, measure));
            let plain = free.then(|| least_by(read, measure));
            let ways = [
                ("least plans for named columns against a search through all plans", searched),
                ("least plans for named columns against the list of all plans", listed),
                ("least plans for no column or all against the plain ones", plain),
            ];
            for (what, plan) in ways.into_iter().filter_map(|(what, plan)| plan.map(|plan| (what, plan))) {
                let found = least_for(read, &named, measure);
                self.tally.own(what, plan == found, &|| format!("{measure:?} columns {columns:?}: {found:?} {plan:?}"));
            }
        }
    }
}

/// The cells of the plan; for what is refused, a few.
fn cells_needed(record: &Record, columns: &[u32]) -> usize {
    let answer = Definition.build_for(record, columns, &mut vec![0; PLAN_CELLS]);
    if answer & 0xff == 0 {
        (answer >> 16 & 0xffff) as usize
    } else {
        20
    }
}

/// The first numbers of a list.
fn shown(columns: &[u32]) -> &[u32] {
    &columns[..columns.len().min(20)]
}
