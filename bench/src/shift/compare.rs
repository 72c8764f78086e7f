//! Lists of goals: sound, refused, overlapping, repeated and outside; the whole answer and every job, with jobs on either side.

use std::fmt;

use super::{one_by_one, Job, Shift};
use crate::engine::{Definition, Plain};
use crate::make::{damage, goals, plans, records, tables};
use crate::model::read::{read_table, Table};
use crate::model::record::{table_in, Record};
use crate::model::refusal::{ByNumber, NAMES};
use crate::random::Random;

/// What a call, and what a job, can be refused with.
const OF_CALLS: [usize; 15] = [1, 2, 3, 4, 5, 6, 7, 9, 10, 11, 12, 13, 14, 15, 24];
const OF_JOBS: [usize; 5] = [1, 5, 6, 7, 9];

/// Jobs on either side of a list, which no call may touch.
const MARGIN: usize = 2;

/// How many differences are shown with their inputs.
const SHOWN: u64 = 5;

/// How often each refusal was given, by its number; at 0 how often there was none.
#[derive(Default)]
pub struct Tally {
    calls: ByNumber<u64>,
    jobs: ByNumber<u64>,
    differ: u64,
    own_differ: u64,
}

/// Compares on so many lists.
pub fn compare<S: Shift>(engine: &S, lists: usize, seed: u64) -> Tally {
    let random = &mut Random::new(seed);
    let mut tally = Tally::default();
    for _ in 0..lists {
        let mut table = tables::any(random);
        let mut read = read_table(&table).ok();
        if random.one_in(6) {
            damage::table(random, &mut table);
            read = read_table(&table).ok().or(read);
        }
        let read = read.expect("the table was sound");
        let mut plan = plans::any(random, &read);
        if random.one_in(3) {
            damage::plan(random, &mut plan);
        }
        let (cells, jobs) = list(random, &read);
        tally.settle(engine, &records::holding(random, &table), &plan, &cells, &jobs);
    }
    tally
}

/// Goals one after another, and jobs for them and for other parts of the cells; what else the jobs hold is anything.
pub fn list(random: &mut Random, table: &Table) -> (Vec<u32>, Vec<Job>) {
    let mut cells = Vec::new();
    let mut parts = Vec::new();
    let most = if random.one_in(40) { 300 } else { 12 };
    for _ in 0..random.below(most) {
        let mut goal = goals::any(random, table);
        if random.one_in(5) {
            damage::goal(random, &mut goal);
        }
        parts.push((cells.len(), goal.len()));
        cells.extend(goal);
    }
    for _ in 0..random.below(8) {
        parts.push(part(random, cells.len()));
    }
    if !parts.is_empty() {
        for _ in 0..random.below(parts.len() + 1) {
            let (one, other) = (random.below(parts.len()), random.below(parts.len()));
            parts[one] = parts[other];
        }
    }
    let jobs = parts.into_iter().map(|(start, count)| Job { start, count, ..anything(random) });
    let jobs = jobs.collect();
    (cells, jobs)
}

/// A part of so many cells, or one that reaches past them.
fn part(random: &mut Random, cells: usize) -> (usize, usize) {
    let start = random.below(cells + 1);
    match random.below(8) {
        0 => (cells, 0),
        1 => (cells, 1),
        2 => (cells + random.within(1..=3), random.below(2)),
        3 => (start, cells - start + 1),
        4 => *random.pick(&[(usize::MAX, usize::MAX), (0, usize::MAX), (usize::MAX, 1), (1, usize::MAX), (usize::MAX, 0)]),
        5 => (start, random.number() as usize),
        _ => (start, random.below((cells - start).min(33) + 1)),
    }
}

fn anything(random: &mut Random) -> Job {
    let mut number = || random.number() as usize;
    Job { start: number(), count: number(), number: number(), place: number(), hits: number() as u64, tried: number() }
}

impl Tally {
    fn settle<S: Shift>(&mut self, engine: &S, record: &Record, plan: &[u32], cells: &[u32], jobs: &[Job]) {
        let margin = [Job { start: 0, count: 1, number: 2, place: 3, hits: 4, tried: 5 }; MARGIN];
        let lent = [&margin, jobs, &margin].concat();
        let lend = |call: &dyn Fn(&mut [Job]) -> u64| {
            let mut left = lent.clone();
            let end = left.len() - MARGIN;
            (call(&mut left[MARGIN..end]), left)
        };
        let expected = lend(&|jobs| Definition.run_jobs(record, plan, cells, jobs));
        let found = lend(&|jobs| engine.run_jobs(record, plan, cells, jobs));
        self.calls[(expected.0 & 0xff) as usize] += 1;
        if expected.0 & 0xff == 0 {
            expected.1[MARGIN..MARGIN + jobs.len()].iter().for_each(|job| self.jobs[job.number] += 1);
        }
        if found != expected {
            self.differ += 1;
            if self.differ <= SHOWN {
                let table = table_in(record);
                eprintln!("run_jobs: {found:?} and not {expected:?}: table {table:?} plan {plan:?} cells {cells:?} jobs {jobs:?}");
            }
        }
        if lend(&|jobs| one_by_one(&Plain, record, plan, cells, jobs)) != expected {
            self.own_differ += 1;
        }
    }

    pub fn differ(&self) -> u64 {
        self.differ
    }

    fn never_met(&self) -> Vec<String> {
        let calls = OF_CALLS.iter().filter(|&&number| self.calls[number] == 0).map(|number| format!("{} of a call", NAMES[number - 1]));
        let jobs = OF_JOBS.iter().filter(|&&number| self.jobs[number] == 0).map(|number| format!("{} of a goal", NAMES[number - 1]));
        calls.chain(jobs).collect()
    }

    /// Nothing differs, here or within the independent implementation, and every refusal was met.
    pub fn passed(&self) -> bool {
        self.differ == 0 && self.own_differ == 0 && self.never_met().is_empty()
    }
}

impl fmt::Display for Tally {
    fn fmt(&self, f: &mut fmt::Formatter) -> fmt::Result {
        let (lists, jobs): (u64, u64) = (self.calls.iter().sum(), self.jobs.iter().sum());
        writeln!(f, "lists of goals: {lists}, {} refused; jobs: {jobs}, {} refused", lists - self.calls[0], jobs - self.jobs[0])?;
        for refusal in self.never_met() {
            writeln!(f, "{refusal} was never met")?;
        }
        write!(f, "lists of goals: {} differ; one by one against the definitions: {} differ", self.differ, self.own_differ)
    }
}
