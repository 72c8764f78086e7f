//! A shift's replies in one call (W-202 and W-203 together): the entry as the library exports it, and the request written a second time.

pub mod compare;
pub mod count;
mod model;

use crate::engine::{Definition, Engine, Plain};
use crate::model::record::{table_in, Record};
use crate::model::refusal::{packed, Number};

/// One goal of a list: where its cells are, and what the call leaves.
#[repr(C)]
#[derive(Clone, Copy, Debug, Default, PartialEq, Eq)]
pub struct ReplyJob {
    pub start: usize,
    pub count: usize,
    pub number: usize,
    pub place: usize,
    pub at: usize,
    pub replies: usize,
    pub cells: usize,
    pub hits: u64,
    pub tried: usize,
}

pub trait ReplyShift {
    fn reply_jobs(&self, record: &Record, plan: &[u32], cells: &[u32], jobs: &mut [ReplyJob], room: &mut [u32]) -> u64;
}

/// By the request's own words, over the definitions.
impl ReplyShift for Definition {
    fn reply_jobs(&self, record: &Record, plan: &[u32], cells: &[u32], jobs: &mut [ReplyJob], room: &mut [u32]) -> u64 {
        packed(model::reply_jobs(table_in(record), plan, cells, jobs, room))
    }
}

/// One by one.
impl ReplyShift for Plain {
    fn reply_jobs(&self, record: &Record, plan: &[u32], cells: &[u32], jobs: &mut [ReplyJob], room: &mut [u32]) -> u64 {
        one_by_one(self, record, plan, cells, jobs, room)
    }
}

/// "It equals asking one by one with what is left of the room": the check of the plan, then replies and a run for each goal.
pub fn one_by_one<E: Engine>(engine: &E, record: &Record, plan: &[u32], cells: &[u32], jobs: &mut [ReplyJob], room: &mut [u32]) -> u64 {
    let checked = engine.check_plan(record, plan);
    if checked & 0xff != 0 {
        return checked;
    }
    let mut on = 0;
    for job in jobs {
        let part = ReplyJob { start: job.start, count: job.count, ..ReplyJob::default() };
        *job = match cells.get(job.start..).and_then(|rest| rest.get(..job.count)) {
            None => ReplyJob { number: Number::Length as usize, ..part },
            Some(goal) => asked(engine, record, plan, goal, part, &mut room[on..]),
        };
        if job.number == 0 {
            job.at = on;
            on += job.cells;
        }
    }
    checked
}

/// One goal, with what is left of the room.
fn asked<E: Engine>(engine: &E, record: &Record, plan: &[u32], goal: &[u32], part: ReplyJob, left: &mut [u32]) -> ReplyJob {
    let replied = engine.replies(record, plan, goal, left);
    if replied & 0xff != 0 {
        return ReplyJob { number: (replied & 0xff) as usize, place: (replied >> 16) as usize, ..part };
    }
    let mut rows = [0; 64];
    let ran = engine.run_plan(record, plan, goal, &mut rows);
    let (replies, found) = ((replied >> 16 & 0xffff) as usize, (ran >> 16 & 0xffff) as usize);
    let hits = rows[..found].iter().map(|&row| 1 << row).sum();
    ReplyJob { replies, cells: (replied >> 32) as usize, hits, tried: (ran >> 32) as usize, ..part }
}

#[cfg(not(feature = "stand-in"))]
mod exported {
    use super::{Record, ReplyJob, ReplyShift};
    use crate::engine::Exported;
    use dudowiej::sys;
    use std::mem::size_of;

    // A record of the list is laid out as the exported function writes it.
    const _: () = assert!(size_of::<ReplyJob>() == size_of::<sys::ReplyJob>());

    // Each pointer and length is one slice's, the record's pointer is a reference; jobs and room are borrowed alone.
    impl ReplyShift for Exported {
        fn reply_jobs(&self, record: &Record, plan: &[u32], cells: &[u32], jobs: &mut [ReplyJob], room: &mut [u32]) -> u64 {
            let ((plan, plan_cells), (cells, cells_count)) = ((plan.as_ptr(), plan.len()), (cells.as_ptr(), cells.len()));
            let ((jobs, jobs_count), (room, room_cells)) = ((jobs.as_mut_ptr().cast(), jobs.len()), (room.as_mut_ptr(), room.len()));
            unsafe { sys::dudowiej_reply_jobs(record, plan, plan_cells, cells, cells_count, jobs, jobs_count, room, room_cells) }
        }
    }
}
