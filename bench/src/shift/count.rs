//! Instructions of a list of 256 goals in one call, beside their single calls. `count` and `instructions` go together as those of crate::count.

use std::hint::black_box;
use std::path::Path;

use super::{Job, Shift};
use crate::cases::{FIGURE, KINDS, SEED};
use crate::count::{measured, total};
use crate::engine::{Engine, Exported};
use crate::make::tables::table;
use crate::make::{goals, records};
use crate::model::least::least;
use crate::model::read::read_table;
use crate::model::record::Record;
use crate::random::Random;

const ROWS: usize = 64;
const GOALS: usize = 256;

/// A table's record with a plan and goals, half of them instances of rows and half rows with parts blank.
struct Case {
    record: Box<Record>,
    plan: Vec<u32>,
    goals: Vec<Vec<u32>>,
}

fn cases() -> impl Iterator<Item = (&'static str, Case)> {
    KINDS.into_iter().map(|(name, kind)| {
        let random = &mut Random::new(SEED);
        let cells = table(random, kind, ROWS);
        let read = read_table(&cells).expect("a sound table");
        let goals = (0..GOALS).map(|goal| if goal % 2 == 0 { goals::instance(random, &read) } else { goals::general(random, &read) });
        (name, Case { goals: goals.collect(), plan: least(&read).write(), record: records::worked_out(&cells, FIGURE) })
    })
}

impl Case {
    /// What is counted: the list, the list of none, each goal by itself, and a run that is refused at its goal.
    fn works(&self) -> [Box<dyn FnMut() + '_>; 4] {
        let cells: Vec<u32> = self.goals.concat();
        let mut start = 0;
        let mut jobs: Vec<Job> = Vec::new();
        for goal in &self.goals {
            jobs.push(Job { start, count: goal.len(), ..Job::default() });
            start += goal.len();
        }
        let one = |goal: &[u32]| {
            let mut room = [0; 64];
            black_box(Exported.run_plan(&self.record, &self.plan, black_box(goal), &mut room));
        };
        [
            Box::new(move || {
                black_box(Exported.run_jobs(&self.record, &self.plan, &cells, black_box(&mut jobs)));
            }),
            Box::new(|| {
                black_box(Exported.run_jobs(&self.record, &self.plan, &[], &mut []));
            }),
            Box::new(move || self.goals.iter().for_each(|goal| one(goal))),
            Box::new(move || one(&[])),
        ]
    }
}

pub fn count() {
    for (_, case) in cases() {
        for mut work in case.works() {
            work();
            measured(&mut *work);
        }
    }
}

/// Prints the figures from callgrind's files FOLDER/count.1, count.2, ..
pub fn instructions(folder: &Path) {
    println!(
        "\n{GOALS} goals in one call, {ROWS} rows: against their walks and readings of goals with one check; and for a goal, against a single call"
    );
    println!("{:<18}{:>10}{:>14}{:>7}{:>12}{:>13}{:>7}", "", "list", "walks, check", "ratio", "for a goal", "single call", "ratio");
    for (place, (name, _)) in cases().enumerate() {
        let [list, none, single, prepare] = [1, 2, 3, 4].map(|file| total(&folder.join(format!("count.{}", 4 * place + file))) as f64);
        let goals = GOALS as f64;
        let alone = single - goals * prepare + none;
        let (for_one, for_single) = (list / goals, single / goals);
        println!("{name:<18}{list:>10.0}{alone:>14.0}{:>7.2}{for_one:>12.0}{for_single:>13.0}{:>7.3}", list / alone, for_one / for_single);
    }
}
