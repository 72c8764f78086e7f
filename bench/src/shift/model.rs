//! W-202 in plain Rust, from 02's words and the reading of its records alone.

use super::Job;
use crate::model::plan::{check, Plan};
use crate::model::read::{read_goal, read_table, Table};
use crate::model::refusal::{Answer, Input, Number, Refusal};
use crate::model::run::{hits, tried};

/// The plan's branches. "Refusals: table and plan as in 01, for the whole call, no record touched".
pub fn run_jobs(table: &[u32], plan: &[u32], cells: &[u32], jobs: &mut [Job]) -> Answer {
    let table = read_table(table)?;
    let plan = check(&table, plan)?;
    for job in jobs {
        // "Start and count stay."
        let (number, place, hits, tried) = match asked(&table, &plan, cells, job.start, job.count) {
            Ok((hits, tried)) => (0, 0, hits, tried),
            Err(refusal) => (refusal.number as usize, refusal.place, 0, 0),
        };
        *job = Job { number, place, hits, tried, ..*job };
    }
    Ok((plan.branches.len(), 0))
}

/// One goal: "the hit rows as 64 bits and the branches tried". "A start or count past the lent cells is that goal's LENGTH".
fn asked(table: &Table, plan: &Plan, cells: &[u32], start: usize, count: usize) -> Result<(u64, usize), Refusal> {
    // As numbers of 128 bits, so that no sum is too large.
    if start as u128 + count as u128 > cells.len() as u128 {
        return Err(Refusal { number: Number::Length, input: Input::Goal, place: 0 });
    }
    let goal = read_goal(table.width, &cells[start..start + count])?;
    let bits = hits(table, &goal).iter().fold(0, |bits, &row| bits | 1 << row);
    Ok((bits, tried(table, plan, &goal)))
}
