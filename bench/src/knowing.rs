//! Knowing more never adds rules (02, W-214): goals and their instances by one plan, and what a list of goals adds up to, against single runs.

mod tally;

use crate::engine::Engine;
use crate::make::{goals, instances, plans, records, tables};
use crate::model::read::{read_goal, read_table, Goal, Table};
use crate::model::record::{table_in, Record};
use crate::model::run::hits;
use crate::model::term::Term;
use crate::random::Random;
use crate::shift::compare::list;
use crate::shift::{Job, Shift};
use tally::Met;
pub use tally::Tally;

/// The two entries that the request speaks of.
pub trait Runs {
    fn run_plan(&self, record: &Record, plan: &[u32], goal: &[u32], room: &mut [u8]) -> u64;
    fn run_jobs(&self, record: &Record, plan: &[u32], cells: &[u32], jobs: &mut [Job]) -> u64;
}

impl<E: Engine + Shift> Runs for E {
    fn run_plan(&self, record: &Record, plan: &[u32], goal: &[u32], room: &mut [u8]) -> u64 {
        Engine::run_plan(self, record, plan, goal, room)
    }
    fn run_jobs(&self, record: &Record, plan: &[u32], cells: &[u32], jobs: &mut [Job]) -> u64 {
        Shift::run_jobs(self, record, plan, cells, jobs)
    }
}

/// Compares on so many tables, each with goals filled in step by step and with a list.
pub fn compare<R: Runs>(entries: &R, tables: usize, seed: u64) -> Tally {
    let mut comparison = Comparison { entries, random: Random::new(seed), tally: Tally::default() };
    for _ in 0..tables {
        let cells = tables::any(&mut comparison.random);
        let table = read_table(&cells).expect("a sound table");
        let record = records::holding(&mut comparison.random, &cells);
        comparison.filled_in(&record, &table);
        comparison.added_up(&record, &table);
    }
    comparison.tally
}

/// What a run reports.
#[derive(Clone, Debug, PartialEq, Eq)]
struct Report {
    rows: Vec<u8>,
    tried: u64,
}

struct Comparison<'r, R: Runs> {
    entries: &'r R,
    random: Random,
    tally: Tally,
}

/// How often a goal is filled in.
const STEPS: usize = 4;

impl<R: Runs> Comparison<'_, R> {
    /// A run in a room of its own; nothing where it is turned away.
    fn run(&mut self, record: &Record, plan: &[u32], goal: &[u32], rows: usize) -> Option<Report> {
        let mut room = vec![0xee; rows + self.random.below(3)];
        let answer = self.entries.run_plan(record, plan, goal, &mut room);
        room.truncate((answer >> 16 & 0xffff) as usize);
        (answer & 0xff == 0).then_some(Report { rows: room, tried: answer >> 32 })
    }

    /// A goal, an instance of it, an instance of that, and so on, by one plan of any order. Each is compared with all before it.
    fn filled_in(&mut self, record: &Record, table: &Table) {
        let plan = plans::any(&mut self.random, table);
        let other_plan = plans::any(&mut self.random, table);
        let mut before: Vec<(Goal, Option<Report>)> = Vec::new();
        let mut cells = goals::any(&mut self.random, table);
        for _ in 0..=STEPS {
            let goal = read_goal(table.width, &cells).expect("a sound goal");
            let report = self.run(record, &plan, &cells, table.rows.len());
            for (wide, wider) in &before {
                self.tally.own(fills(&wide.arguments, &goal.arguments));
                let describe = || format!("table {:?} plan {plan:?} goal {cells:?}", table_in(record));
                self.tally.pair(wider.as_ref(), report.as_ref(), &describe);
            }
            if let (Some((_, Some(wider))), Some(by_other)) = (before.first(), self.run(record, &other_plan, &cells, table.rows.len())) {
                self.tally.meet(Met::MoreByAnotherPlan, by_other.tried > wider.tried);
            }
            cells = instances::any(&mut self.random, table, &goal.arguments);
            before.push((goal, report));
        }
    }

    /// A list of goals, refused ones and parts past the cells among them: what its records add up to, against one run after another.
    fn added_up(&mut self, record: &Record, table: &Table) {
        let plan = plans::any(&mut self.random, table);
        let (cells, mut jobs) = list(&mut self.random, table);
        let parts: Vec<Option<&[u32]>> = jobs.iter().map(|job| cells.get(job.start..).and_then(|rest| rest.get(..job.count))).collect();
        let answer = self.entries.run_jobs(record, &plan, &cells, &mut jobs);
        let mut singles = Vec::new();
        for part in &parts {
            singles.extend(part.and_then(|goal| self.run(record, &plan, goal, table.rows.len())));
        }
        let goals: Vec<Goal> = parts.iter().flatten().filter_map(|goal| read_goal(table.width, goal).ok()).collect();
        let unify: Vec<Vec<u8>> = goals.iter().map(|goal| hits(table, goal)).collect();
        let tried: u128 = singles.iter().map(|report| u128::from(report.tried)).sum();
        let same = answer & 0xff == 0
            && jobs.iter().map(|job| job.tried as u128).sum::<u128>() == tried
            && (0..64).all(|row| {
                let counted = jobs.iter().filter(|job| job.hits >> row & 1 == 1).count();
                let reported = singles.iter().map(|report| times(row, &report.rows)).sum::<usize>();
                counted == reported && counted == unify.iter().map(|rows| times(row, rows)).sum::<usize>()
            });
        let describe = || format!("table {:?} plan {plan:?} cells {cells:?} jobs {jobs:?}", table_in(record));
        self.tally.list(jobs.len(), goals.len(), same, &describe);
    }
}

/// How often the row is reported.
fn times(row: u8, rows: &[u8]) -> usize {
    rows.iter().filter(|&&other| other == row).count()
}

/// Whether one substitution of the first goal's variables makes the second.
fn fills(wide: &[Term], narrow: &[Term]) -> bool {
    fn filled<'t>(wide: &Term, narrow: &'t Term, by: &mut Vec<Option<&'t Term>>) -> bool {
        match (wide, narrow) {
            (Term::Var(number), _) => {
                let place = *number as usize;
                by.resize(by.len().max(place + 1), None);
                by[place].map_or(true, |image| image == narrow) && by[place].insert(narrow) == &narrow
            }
            (Term::Number(one), Term::Number(other)) => one == other,
            (Term::Name(one, these), Term::Name(other, those)) => one == other && all_filled(these, those, by),
            _ => false,
        }
    }
    fn all_filled<'t>(wide: &[Term], narrow: &'t [Term], by: &mut Vec<Option<&'t Term>>) -> bool {
        wide.len() == narrow.len() && wide.iter().zip(narrow).all(|(one, other)| filled(one, other, by))
    }
    all_filled(wide, narrow, &mut Vec::new())
}
