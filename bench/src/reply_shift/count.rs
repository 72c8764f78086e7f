//! Instructions of the replies to a list of 256 goals in one call, beside their walks and replies alone. `count` and `instructions` go together as
//! those of crate::count.

use std::hint::black_box;
use std::path::Path;

use super::{ReplyJob, ReplyShift};
use crate::cases::{FIGURE, KINDS, SEED};
use crate::count::{measured, total};
use crate::engine::{Engine, Exported};
use crate::make::tables::table;
use crate::make::{goals, records};
use crate::model::least::least;
use crate::model::read::read_table;
use crate::model::record::Record;
use crate::random::Random;

const ROWS: usize = 64;
const GOALS: usize = 256;

/// Enough for one goal of any table.
const ROOM: usize = 64 * 1024;

/// A table's record with a plan and goals, half of them instances of rows and half rows with parts blank.
struct Case {
    record: Box<Record>,
    table: Vec<u32>,
    plan: Vec<u32>,
    goals: Vec<Vec<u32>>,
}

fn cases() -> impl Iterator<Item = (&'static str, Case)> {
    KINDS.into_iter().map(|(name, kind)| {
        let random = &mut Random::new(SEED);
        let table = table(random, kind, ROWS);
        let read = read_table(&table).expect("a sound table");
        let goals = (0..GOALS).map(|goal| if goal % 2 == 0 { goals::instance(random, &read) } else { goals::general(random, &read) });
        (name, Case { goals: goals.collect(), plan: least(&read).write(), record: records::worked_out(&table, FIGURE), table })
    })
}

impl Case {
    /// What is counted: the list, the list of none, the replies of each goal alone, those of a goal that is refused, and the reading of the table.
    fn works(&self) -> [Box<dyn FnMut() + '_>; 5] {
        let cells: Vec<u32> = self.goals.concat();
        let mut start = 0;
        let mut jobs: Vec<ReplyJob> = Vec::new();
        for goal in &self.goals {
            jobs.push(ReplyJob { start, count: goal.len(), ..ReplyJob::default() });
            start += goal.len();
        }
        let mut all = vec![0; GOALS * 2048];
        let (mut each, mut none) = (vec![0; ROOM], vec![0; ROOM]);
        [
            Box::new(move || {
                black_box(Exported.reply_jobs(&self.record, &self.plan, &cells, black_box(&mut jobs), &mut all));
            }),
            Box::new(|| {
                black_box(Exported.reply_jobs(&self.record, &self.plan, &[], &mut [], &mut []));
            }),
            Box::new(move || {
                for goal in &self.goals {
                    black_box(Exported.replies(&self.record, &self.plan, black_box(goal), &mut each));
                }
            }),
            Box::new(move || {
                black_box(Exported.replies(&self.record, &self.plan, black_box(&[]), &mut none));
            }),
            Box::new(|| {
                black_box(Exported.read_table(black_box(&self.table)));
            }),
        ]
    }
}

pub fn count() {
    for (_, case) in cases() {
        for mut work in case.works() {
            work();
            measured(&mut *work);
        }
    }
}

/// Prints the figures from callgrind's files FOLDER/count.1, count.2, ..
pub fn instructions(folder: &Path) {
    println!("\nThe replies to {GOALS} goals in one call, {ROWS} rows: for a goal, against its walk and replies alone; and a single call");
    println!("{:<18}{:>12}{:>12}{:>15}{:>7}{:>13}{:>7}", "", "list", "for a goal", "walk, replies", "ratio", "single call", "ratio");
    for (place, (name, _)) in cases().enumerate() {
        let [list, none, single, refused, read] = [1, 2, 3, 4, 5].map(|file| total(&folder.join(format!("count.{}", 5 * place + file))) as f64);
        let goals = GOALS as f64;
        let for_one = (list - none) / goals;
        // A call that is refused at its goal has checked table and plan; one that is answered reads the table once more for where the rows start.
        let (single, alone) = (single / goals, single / goals - refused - read);
        println!("{name:<18}{list:>12.0}{for_one:>12.0}{alone:>15.0}{:>7.3}{single:>13.0}{:>7.3}", for_one / alone, list / goals / single);
    }
}
