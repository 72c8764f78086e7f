//! The request in plain Rust, from the words of W-202, W-203 and W-209 alone.

use super::ReplyJob;
use crate::model::plan::{check, Plan};
use crate::model::read::{read_goal, read_table, Table};
use crate::model::refusal::{Answer, Input, Number, Refusal};
use crate::model::replies::{said, Reply};
use crate::model::run::{hits, tried};

/// The plan's branches. "Table and plan are checked once", for the whole call: where one is refused nothing is touched.
pub fn reply_jobs(table: &[u32], plan: &[u32], cells: &[u32], jobs: &mut [ReplyJob], room: &mut [u32]) -> Answer {
    let table = read_table(table)?;
    let plan = check(&table, plan)?;
    let mut written = 0;
    for job in jobs {
        // "Start and count stay." What a refused goal does not say is 0.
        let part = ReplyJob { start: job.start, count: job.count, ..ReplyJob::default() };
        *job = match asked(&table, &plan, cells, part, &mut room[written..]) {
            Ok(answered) => ReplyJob { at: written, ..answered },
            Err(refusal) => ReplyJob { number: refusal.number as usize, place: refusal.place, ..part },
        };
        written += job.cells;
    }
    Ok((plan.branches.len(), 0))
}

/// One goal with what is left of the room. "A start or count past the lent cells is that goal's LENGTH"; then the goal's own refusals, BIG, ROOM.
fn asked(table: &Table, plan: &Plan, cells: &[u32], part: ReplyJob, left: &mut [u32]) -> Result<ReplyJob, Refusal> {
    // As numbers of 128 bits, so that no sum is too large.
    if part.start as u128 + part.count as u128 > cells.len() as u128 {
        return Err(Refusal { number: Number::Length, input: Input::Goal, place: 0 });
    }
    let goal = read_goal(table.width, &cells[part.start..part.start + part.count])?;
    let mut replies = Vec::new();
    for reply in said(table, &goal) {
        match reply {
            Reply::Cells(cells) => replies.push(cells),
            Reply::Big(_) => return Err(Refusal { number: Number::Big, input: Input::Goal, place: 0 }),
        }
    }
    let all = replies.concat();
    // "A goal whose replies do not fit what is left is ROOM in its own record, with the cells that it needs as place, and writes nothing."
    let front = left.get_mut(..all.len()).ok_or(Refusal { number: Number::Room, input: Input::Room, place: all.len() })?;
    front.copy_from_slice(&all);
    let rows = hits(table, &goal).iter().fold(0, |bits, &row| bits | 1 << row);
    Ok(ReplyJob { replies: replies.len(), cells: all.len(), hits: rows, tried: tried(table, plan, &goal), ..part })
}
