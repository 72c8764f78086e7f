//! Plans for named columns (02, W-213) beside the plain ones: the branches that goals try which know these columns and nothing else, and the
//! instructions of building and checking. `count` and `instructions` go together as those of crate::count.

use std::hint::black_box;
use std::path::Path;

use crate::cases::{FIGURE, KINDS, ROWS, SEED};
use crate::count::{measured, total};
use crate::engine::{Engine, Exported, Plain};
use crate::make::tables::{table, Kind};
use crate::make::{goals, records};
use crate::model::plan::PLAN_CELLS;
use crate::model::read::{read_table, Table};
use crate::model::record::Record;
use crate::random::Random;

/// The columns that are named, for each of the tables. Of the shop's the first line is the request's: the urgency and the piece.
const NAMED: [&[&[u32]]; KINDS.len()] =
    [&[&[0, 2], &[1], &[2], &[3]], &[&[0], &[1]], &[&[0, 2, 4], &[1, 3, 5], &[5]], &[&[0], &[7], &[0, 1, 2, 3], &[4, 5, 6, 7]], &[&[0]]];

/// The goals of each sort.
const GOALS: usize = 256;

/// A table with its record, the plain least plan and that for some columns.
struct Case {
    name: String,
    cells: Vec<u32>,
    record: Box<Record>,
    columns: &'static [u32],
    plain: Vec<u32>,
    plan: Vec<u32>,
}

impl Case {
    fn new(name: &str, kind: Kind, rows: usize, columns: &'static [u32]) -> Case {
        let cells = table(&mut Random::new(SEED), kind, rows);
        let record = records::worked_out(&cells, FIGURE);
        let built = |build: &dyn Fn(&mut [u32]) -> u64| {
            let mut room = vec![0; PLAN_CELLS];
            let answer = build(&mut room);
            room.truncate((answer >> 16 & 0xffff) as usize);
            room
        };
        let plain = built(&|room| Exported.build_plan(&record, room));
        let plan = built(&|room| Exported.build_for(&record, columns, room));
        let named: Vec<String> = columns.iter().map(u32::to_string).collect();
        Case { name: format!("{name} | {}", named.join(", ")), plain, plan, columns, cells, record }
    }

    fn branches(&self, plan: &[u32]) -> usize {
        (Exported.check_plan(&self.record, plan) >> 16) as usize
    }

    /// The states at which a place is chosen: a plan has one cell for each of them, two for each branch, and one besides.
    fn states(&self) -> usize {
        self.plan.len() - 2 * self.branches(&self.plan) - 1
    }

    /// The branches that a goal tries in the mean, by the plain plan and by the other.
    fn tried(&self, goals: &[Vec<u32>]) -> [f64; 2] {
        [&self.plain, &self.plan].map(|plan| {
            let tried = goals.iter().map(|goal| Exported.run_plan(&self.record, plan, goal, &mut [0; 64]) >> 32);
            tried.sum::<u64>() as f64 / goals.len() as f64
        })
    }

    /// Working out, building from the record, building for no column and for these; the plain check of the plan for these, and the check for them;
    /// the independent building for these.
    fn works(&self) -> [Box<dyn FnMut() -> u64 + '_>; 7] {
        let (mut record, [mut plain, mut none, mut room, mut theirs]) = (records::empty(), [(); 4].map(|()| vec![0; PLAN_CELLS]));
        [
            Box::new(move || Exported.work_out(&self.cells, FIGURE, &mut record)),
            Box::new(move || Exported.build_plan(&self.record, &mut plain)),
            Box::new(move || Exported.build_for(&self.record, &[], &mut none)),
            Box::new(move || Exported.build_for(&self.record, self.columns, &mut room)),
            Box::new(|| Exported.check_plan(&self.record, &self.plan)),
            Box::new(|| Exported.check_for(&self.record, self.columns, &self.plan)),
            Box::new(move || Plain.build_for(&self.record, self.columns, &mut theirs)),
        ]
    }
}

/// The tables of crate::cases with so many rows, each with its lists of columns.
fn cases(rows: usize) -> impl Iterator<Item = Case> {
    KINDS.into_iter().zip(NAMED).flat_map(move |((name, kind), lists)| lists.iter().map(move |columns| Case::new(name, kind, rows, columns)))
}

/// Prints the branches of both plans, and those that goals try, for docs/BENCH.md.
pub fn tried() {
    println!(
        "| table | columns named | branches: plain, for these | tried, of one row: plain, for these | tried, of several rows: plain, for these |"
    );
    println!("|---|---|---|---|---|");
    for case in cases(ROWS[ROWS.len() - 1]) {
        let read: Table = read_table(&case.cells).expect("a sound table");
        let [of_one_row, of_several] = [true, false].map(|of_one_row| {
            let random = &mut Random::new(SEED);
            let goals: Vec<Vec<u32>> = (0..GOALS).map(|_| goals::knowing(random, &read, case.columns, of_one_row)).collect();
            let [plain, named] = case.tried(&goals);
            format!("{plain:.1}, {named:.1} = {:.2}", named / plain)
        });
        let [plain, named] = [&case.plain, &case.plan].map(|plan| case.branches(plan));
        println!("| {} | {plain}, {named} | {of_one_row} | {of_several} |", case.name);
    }
}

pub fn count() {
    for case in ROWS.into_iter().flat_map(cases) {
        for mut work in case.works() {
            black_box(work());
            measured(&mut || {
                black_box(work());
            });
        }
    }
}

/// Prints the figures from callgrind's files FOLDER/count.1, count.2, ..
pub fn instructions(folder: &Path) {
    println!("\nPlans for named columns: building beside working out and building plainly; the check beside the plain check of the same plan");
    println!(
        "{:<30}{:>5}{:>11}{:>11}{:>7}{:>11}{:>7}{:>12}{:>7}{:>11}{:>11}{:>14}",
        "", "rows", "plain", "for none", "ratio", "for these", "ratio", "independent", "ratio", "check", "check for", "for a state"
    );
    let mut files = 0;
    for (rows, case) in ROWS.into_iter().flat_map(|rows| cases(rows).map(move |case| (rows, case))) {
        let [work_out, build, none, named, check, check_for, theirs] = [(); 7].map(|()| {
            files += 1;
            total(&folder.join(format!("count.{files}"))) as f64
        });
        let plain = work_out + build;
        let (to_none, to_named, to_theirs, state) = (none / plain, named / plain, named / theirs, (check_for - check) / case.states() as f64);
        print!("{:<30}{rows:>5}{plain:>11}{none:>11}{to_none:>7.2}{named:>11}{to_named:>7.2}", case.name);
        println!("{theirs:>12}{to_theirs:>7.2}{check:>11}{check_for:>11}{state:>14.1}");
    }
}

#[cfg(test)]
mod tests {
    use super::*;
    use crate::model::plan::check;

    #[test]
    fn states_are_counted() {
        for case in cases(8) {
            let plan = check(&read_table(&case.cells).unwrap(), &case.plan).unwrap();
            // A state with a place is the first one or below a branch that is not the last on its way.
            let inner = plan.branches.iter().enumerate().filter(|(number, branch)| branch.after() > number + 1).count();
            assert_eq!(case.states(), 1 + inner, "{}", case.name);
        }
    }
}
