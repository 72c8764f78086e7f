//! What one reply takes (02, W-203): the call less the run, the second reading of the table and what a call without hits does besides, by the
//! number of hits; beside it the walk that found them.

use std::hint::black_box;

use crate::cases::{Case, Work, FIGURE};
use crate::engine::{Engine, Exported};
use crate::make::records;
use crate::model::read::{read_goal, read_table};
use crate::model::replies::said;

/// Enough for every table.
const ROOM: usize = 64 * 1024;

/// One row and a goal that does not unify with it.
const NO_HIT: ([u32; 3], [u32; 4], [u32; 1]) = ([1, 1, 1 << 30 | 1], [0, 1, 1 << 30 | 1, 1], [1 << 30 | 2]);

/// The goals of one sort for one table.
pub struct Sort<'c> {
    pub name: String,
    pub hits: usize,
    goals: usize,
    /// Replies, run, what a run does before it reads the goal, reading; the first, second and fourth without a hit; the independent replies.
    works: Vec<Work<'c>>,
}

/// For one reply, exported and independent, and for the walk that found the replies of a goal.
pub struct Figures {
    pub reply: f64,
    pub walk: f64,
    pub independent: f64,
}

pub fn sorts(case: &Case) -> Vec<Sort<'_>> {
    case.goals.iter().map(|(sort, goals)| Sort::new(case, sort, goals)).collect()
}

impl<'c> Sort<'c> {
    fn new(case: &'c Case, sort: &str, goals: &'c [Vec<u32>]) -> Sort<'c> {
        let table = read_table(&case.table).expect("a sound table");
        let read = |goal: &[u32]| read_goal(table.width, goal).expect("a sound goal");
        let hits = goals.iter().map(|goal| said(&table, &read(goal)).len()).sum();
        let (mut room, mut rows, mut few) = (vec![0; ROOM], [0; 64], [0; 64]);
        let (row, plan, other) = (&NO_HIT.0, &NO_HIT.1, &NO_HIT.2);
        let [one, same] = [(); 2].map(|()| records::worked_out(row, FIGURE));
        let works = vec![
            each(goals, move |goal| Exported.replies(&case.record, &case.plan, goal, &mut room)),
            each(goals, move |goal| Exported.run_plan(&case.record, &case.plan, goal, &mut rows)),
            each(&[], move |goal| Exported.run_plan(&case.record, &case.plan, goal, &mut few)),
            each(&[], move |_| Exported.read_table(&case.table)),
            each(&[], move |_| Exported.replies(&one, plan, other, &mut [])),
            each(&[], move |_| Exported.run_plan(&same, plan, other, &mut [0; 64])),
            each(&[], move |_| Exported.read_table(row)),
            each(goals, move |goal| said(&case.read, &read_goal(case.read.width, goal).expect("a sound goal")).len() as u64),
        ];
        Sort { name: format!("reply, {sort}"), hits, goals: goals.len(), works }
    }

    /// Does every work once, or takes the figure of each from a file.
    pub fn figures(&mut self, figure: impl FnMut(&mut Work<'c>) -> f64) -> Figures {
        let [replies, run, prepare, read, no_replies, no_run, no_read, independent] = self.works.iter_mut().map(figure).collect::<Vec<_>>()[..]
        else {
            unreachable!("there are eight works");
        };
        let goals = self.goals as f64;
        let besides = goals * (read + no_replies - no_run - no_read);
        let hits = self.hits as f64;
        Figures { reply: (replies - run - besides) / hits, walk: run / goals - prepare, independent: independent / hits }
    }
}

/// A call for each goal, or one call with no goal.
fn each<'c>(goals: &'c [Vec<u32>], mut call: impl FnMut(&[u32]) -> u64 + 'c) -> Work<'c> {
    let work = move || {
        if goals.is_empty() {
            black_box(call(black_box(&[])));
        }
        for goal in goals {
            black_box(call(black_box(goal)));
        }
    };
    Work { calls: goals.len().max(1), work: Box::new(work) }
}
