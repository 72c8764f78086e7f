//! Rows that repeat a variable (02, W-209): the request's table and its long replies, with plans, costs, hits, branches tried and replies written
//! down.

use super::Comparison;
use crate::engine::{Definition, Engine};
use crate::make::{big, records, tables};
use crate::model::least::{least, least_by, Measure};
use crate::model::plan::grow;
use crate::model::read::read_table;
use crate::model::record::entry;
use crate::model::replies::all;
use crate::notation::{goal, plan, table};

/// Rows; their least cost by 01's measure, and by W-204's with figures 0 and 3; the plan, where it is written down.
pub struct Costs {
    pub rows: &'static str,
    pub branches: usize,
    pub work: [usize; 2],
    pub plan: Option<&'static str>,
}

/// The figures of `work`.
pub const FIGURES: [u32; 2] = [0, 3];

const fn costs(rows: &'static str, branches: usize, work: [usize; 2], plan: Option<&'static str>) -> Costs {
    Costs { rows, branches, work, plan }
}

pub const COSTS: [Costs; 10] = [
    costs("(v0,v0)", 2, [1, 1], Some("0 1 v0 0 1 v0 1")),
    costs("(v0,v0,v0)", 3, [2, 2], None),
    costs("(v0,f1(v0))", 3, [3, 3], Some("0 1 v0 0 1 f1 0 1 v0 1")),
    costs("(v0,v1,f2(v0,v1))", 5, [5, 5], None),
    costs("(v0,v0) (v0,v0)", 4, [2, 5], Some("0 2 v0 0 1 v0 1 v0 0 1 v0 1")),
    costs("(v0,v0) (v0,v1)", 4, [1, 4], None),
    costs("(a,v0) (v0,v0)", 4, [2, 5], None),
    costs("(a,v0,v0) (a,b,v0)", 5, [3, 6], Some("0 1 a 0 2 v0 0 1 v0 1 b 0 1 v0 1")),
    costs("(f1(v0),v0) (f1(a),a)", 5, [5, 8], None),
    costs("(f1(v0),v0,f1(v1),v1)", 6, [6, 6], None),
];

/// Rows, a goal, the hits, the branches that the least plan tries, and the replies.
pub type Run = (&'static str, &'static str, &'static [u8], usize, &'static str);

pub const RUNS: [Run; 12] = [
    ("(v0,v0)", "(a,b)", &[], 2, ""),
    ("(v0,v0)", "(a,v0)", &[0], 2, "(a,a)"),
    ("(v0,v0)", "(v0,f1(v0))", &[], 2, ""),
    ("(v0,v0,v0)", "(a,v0,b)", &[], 3, ""),
    ("(v0,f1(v0))", "(v0,v0)", &[], 3, ""),
    ("(v0,v1,f2(v0,v1))", "(v0,f1(v0),v1)", &[0], 5, "(v0,f1(v0),f2(v0,f1(v0)))"),
    ("(v0,v0) (v0,v0)", "(v0,v1)", &[0, 1], 4, "(v0,v0) (v0,v0)"),
    ("(v0,v0) (v0,v1)", "(a,b)", &[1], 4, "(a,b)"),
    ("(a,v0) (v0,v0)", "(v0,v0)", &[0, 1], 4, "(a,a) (v0,v0)"),
    ("(a,v0,v0) (a,b,v0)", "(a,b,c)", &[1], 5, "(a,b,c)"),
    ("(f1(v0),v0) (f1(a),a)", "(f1(v0),v0)", &[0, 1], 5, "(f1(v0),v0) (f1(a),a)"),
    ("(f1(v0),v0,f1(v1),v1)", "(v0,v1,v0,v1)", &[0], 6, "(f1(v0),v0,f1(v0),v0)"),
];

/// The row (v0,f4(v0,..),v1,f4(v1,..),v2,f4(v2,..),v3,v4) as a table, and two goals: the reply of the first has exactly 1,024 cells, that of the
/// second has more. Each tries 20 branches.
pub fn at_the_bound() -> (Vec<u32>, [Vec<u32>; 2]) {
    const S: u32 = 1_073_807_369;
    const P: u32 = 1_073_872_905;
    const T: u32 = 1_073_938_441;
    const F: u32 = 1_074_003_977;
    let table = vec![8, 1, 0, F, 0, 0, 0, 0, 1, F, 1, 1, 1, 1, 2, F, 2, 2, 2, 2, 3, 4];
    let largest = vec![0, 1, 1, 2, 2, 3, 3, P, T, F, 3, 3, 1, 3, P, 3, 3, S, P, 3, 3, P, T, 3, S, 3, 0, 2];
    let longer = vec![0, 1, 1, 2, 2, 3, 3, F, T, 3, 3, T, 3, 2, 3, 3, P, 0, F, 3, 3, 1, S, T, 3, 3, 0, S, 0];
    (table, [largest, longer])
}

/// Number, input and place of BIG.
pub const BIG: u64 = 25 | 3 << 8;

impl<E: Engine> Comparison<'_, E> {
    pub(super) fn fixed_repeats(&mut self) {
        for case in &COSTS {
            let cells = table(case.rows);
            let read = read_table(&cells).expect("a sound table");
            let found = FIGURES.map(|figure| Measure::Work(figure).cost(&least_by(&read, Measure::Work(figure))));
            let plain = least(&read);
            let same = found == case.work && plain.branches.len() == case.branches;
            self.written("costs", same && case.plan.is_none_or(|cells| plan(cells) == plain.write()), case.rows);
            self.search(&read);
            self.build(&cells, &[0, 1, 3, 15]);
        }
        for (rows, asked, hits, tried, said) in RUNS {
            self.fixed_run(&table(rows), &goal(asked), hits, tried);
            let read = read_table(&table(rows)).expect("a sound table");
            let said: Vec<Vec<u32>> = said.split_whitespace().map(goal).collect();
            self.written("replies", all(&table(rows), &least(&read).write(), &goal(asked)) == Ok(said), rows);
            self.every_room(&table(rows), &read, &goal(asked));
        }
        self.every_plan_costs_seven();
        self.a_single_row();
    }

    fn written(&mut self, what: &str, same: bool, rows: &str) {
        self.tally.own("rows that repeat a variable against what is written down", same, &|| format!("{what}: {rows}"));
    }

    /// By the least plan.
    fn fixed_run(&mut self, table: &[u32], goal: &[u32], hits: &[u8], tried: usize) {
        let read = read_table(table).expect("a sound table");
        let (record, plan, mut room) = (records::worked_out(table, 0), least(&read).write(), [0; 64]);
        let answer = Definition.run_plan(&record, &plan, goal, &mut room);
        let same = answer == (hits.len() as u64) << 16 | (tried as u64) << 32 && room[..hits.len()] == *hits;
        self.written("runs", same, &format!("{table:?} {goal:?}: {answer:#x}"));
        self.run(&record, &plan, goal, read.rows.len());
    }

    /// Rows (a,v0,v0) (b,v0,v0) with figure 3: whichever places are taken.
    fn every_plan_costs_seven(&mut self) {
        const ROWS: &str = "(a,v0,v0) (b,v0,v0)";
        let read = read_table(&table(ROWS)).expect("a sound table");
        for _ in 0..20 {
            let plan = grow(&read, |open, rows| self.random.below(open.places(rows)));
            self.written("costs", Measure::Work(3).cost(&plan) == 7, ROWS);
        }
    }

    /// What a record says of one row: its later meetings are in the cost with nothing closed.
    fn a_single_row(&mut self) {
        for (rows, whole) in [("(v0,v0)", 1), ("(v0,f1(v0))", 3), ("(a,v0,v1,v0,v0)", 3), ("(f2(v0,v0),v1)", 4)] {
            let record = self.work_out(&table(rows), 15).expect("a sound table and a figure");
            self.written("a record", entry(&record, 0, 0) == [whole, 0, 0], rows);
        }
    }

    /// Replies of 1,024 cells, of more, and of over a million; in rooms of every size.
    pub(super) fn fixed_lengths(&mut self) {
        let (table, [largest, longer]) = at_the_bound();
        let record = records::worked_out(&table, 0);
        let read = read_table(&table).expect("a sound table");
        let plan = least(&read).write();
        for (goal, room, answer) in [
            (&largest, 1024, 1 << 16 | 1024 << 32),
            (&largest, 1023, 16 | 4 << 8 | 1024 << 16),
            (&longer, 0, BIG),
            (&longer, 1024, BIG),
            (&longer, 1 << 16, BIG),
        ] {
            let found = Definition.replies(&record, &plan, goal, &mut vec![0; room]);
            self.written("replies", found == answer, &format!("{goal:?} in {room} cells: {found:#x}"));
            self.replies_in(&record, &plan, goal, room);
        }
        self.written("costs", Measure::Work(0).cost(&least(&read)) == 27, "the row with long replies");
        for goal in [&largest, &longer] {
            self.fixed_run(&table, goal, &[0], 20);
            self.every_room(&table, &read, goal);
        }
        self.long_beside_short(&table[2..], &longer);
        self.every_length();
        self.millions();
    }

    /// BIG where another row's reply is short, above and below; and none where the long one's row is no hit.
    fn long_beside_short(&mut self, long: &[u32], goal: &[u32]) {
        let blank: Vec<u32> = (0..8).collect();
        let no_hit = [&long[..long.len() - 2], &[2 << 30, 3]].concat();
        for (rows, answer) in [([&blank, long], BIG), ([long, &blank], BIG), ([&no_hit, &blank], 1 << 16 | (goal.len() as u64) << 32)] {
            let table = [&[8, 2], &rows.concat()[..]].concat();
            let (record, read) = (records::worked_out(&table, 0), read_table(&table).expect("a sound table"));
            let found = Definition.replies(&record, &least(&read).write(), goal, &mut vec![0; 2048]);
            self.written("replies", found == answer, &format!("{table:?} {goal:?}: {found:#x}"));
            self.every_room(&table, &read, goal);
        }
    }

    /// Replies of 1,000 to 1,050 cells.
    fn every_length(&mut self) {
        for length in 1000..=1050 {
            let (row, goal) = big::of_length(&mut self.random, length);
            let table = tables::cells(&[row]);
            let (record, read) = (records::worked_out(&table, 0), read_table(&table).expect("a sound table"));
            let plan = least(&read).write();
            let found = Definition.replies(&record, &plan, &goal, &mut vec![0; 1050]);
            let wanted = if length > 1024 { BIG } else { 1 << 16 | (length as u64) << 32 };
            self.written("replies", found == wanted, &format!("{goal:?}: {found:#x}"));
            for room in [0, 1000, length, 2000] {
                self.replies_in(&record, &plan, &goal, room);
            }
        }
    }

    /// Rows and a goal of 31 cells with a common instance of 1,864,131 cells.
    fn millions(&mut self) {
        for rows in [1, 64] {
            let (table, goal) = big::million(rows);
            let all: Vec<u8> = (0..rows as u8).collect();
            // The rows share the branches of their six names.
            self.fixed_run(&table, &goal, &all, 6 + 25 * rows);
            let read = read_table(&table).expect("a sound table");
            self.every_room(&table, &read, &goal);
        }
    }
}
