//! A whole shift's jobs in one call (02, W-202): the entry as the library exports it, and the request written a second time.

pub mod compare;
pub mod count;
mod model;

use crate::engine::{Definition, Engine, Plain};
use crate::model::record::{table_in, Record};
use crate::model::refusal::packed;

/// One goal of a list: where its cells are, and what the call leaves.
#[repr(C)]
#[derive(Clone, Copy, Debug, Default, PartialEq, Eq)]
pub struct Job {
    pub start: usize,
    pub count: usize,
    pub number: usize,
    pub place: usize,
    pub hits: u64,
    pub tried: usize,
}

pub trait Shift {
    fn run_jobs(&self, record: &Record, plan: &[u32], cells: &[u32], jobs: &mut [Job]) -> u64;
}

/// By the request's own words, over the definitions.
impl Shift for Definition {
    fn run_jobs(&self, record: &Record, plan: &[u32], cells: &[u32], jobs: &mut [Job]) -> u64 {
        packed(model::run_jobs(table_in(record), plan, cells, jobs))
    }
}

/// One by one.
impl Shift for Plain {
    fn run_jobs(&self, record: &Record, plan: &[u32], cells: &[u32], jobs: &mut [Job]) -> u64 {
        one_by_one(self, record, plan, cells, jobs)
    }
}

/// "It equals asking one by one": the check of the plan, then a run for each goal.
pub fn one_by_one<E: Engine>(engine: &E, record: &Record, plan: &[u32], cells: &[u32], jobs: &mut [Job]) -> u64 {
    let checked = engine.check_plan(record, plan);
    if checked & 0xff != 0 {
        return checked;
    }
    for job in jobs {
        let mut room = [0; 64];
        let goal = cells.get(job.start..).and_then(|rest| rest.get(..job.count));
        let answer = goal.map_or(1, |goal| engine.run_plan(record, plan, goal, &mut room));
        let (number, second) = ((answer & 0xff) as usize, (answer >> 32) as usize);
        let (place, tried) = if number == 0 { (0, second) } else { ((answer >> 16) as usize, 0) };
        let count = if number == 0 { (answer >> 16 & 0xffff) as usize } else { 0 };
        let hits = room[..count].iter().map(|&row| 1 << row).sum();
        *job = Job { start: job.start, count: job.count, number, place, hits, tried };
    }
    checked
}

#[cfg(not(feature = "stand-in"))]
mod exported {
    use super::{Job, Record, Shift};
    use crate::engine::Exported;
    use dudowiej::sys;
    use std::mem::size_of;

    // A record of the list is laid out as the exported function writes it.
    const _: () = assert!(size_of::<Job>() == size_of::<sys::Job>());

    // Each pointer and length is one slice's, the record's pointer is a reference, and the jobs are borrowed alone.
    impl Shift for Exported {
        fn run_jobs(&self, record: &Record, plan: &[u32], cells: &[u32], jobs: &mut [Job]) -> u64 {
            let (jobs, count) = (jobs.as_mut_ptr().cast(), jobs.len());
            unsafe { sys::dudowiej_run_jobs(record, plan.as_ptr(), plan.len(), cells.as_ptr(), cells.len(), jobs, count) }
        }
    }
}
