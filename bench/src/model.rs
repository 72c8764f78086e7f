//! Document 01 ("Tables, plans and runs") in plain Rust: terms as trees and a textbook unifier; and of 02 the requests that have landed. It was
//! written from the documents alone and shares nothing with the library.

pub mod asking;
pub mod clauses;
pub mod columns;
pub mod files;
pub mod grammar;
pub mod least;
pub mod liked;
pub mod listing;
pub mod plan;
pub mod read;
pub mod record;
pub mod refusal;
pub mod replies;
pub mod run;
pub mod salvage;
pub mod term;
pub mod text;
pub mod unify;
pub mod walk;

use columns::{least_for, Named};
use least::{least_by, Measure};
use liked::{Liked, Tried};
use plan::Plan;
use read::{Goal, Table};
use refusal::{Answer, Input, Number, Refusal};

/// A table's width and rows.
pub fn read_table(table: &[u32]) -> Answer {
    let table = read::read_table(table)?;
    Ok((table.width, table.rows.len()))
}

/// A goal's cells and variables.
pub fn read_goal(table: &[u32], goal: &[u32]) -> Answer {
    let table = read::read_table(table)?;
    let goal = read::read_goal(table.width, goal)?;
    Ok((goal.cells, goal.variables))
}

/// Where a row's cells start and how many they are; 0 and 0 where there is none. Never refused.
pub fn row(table: &[u32], row: usize) -> Answer {
    let table = read::read_table(table).ok();
    Ok(table.and_then(|table| table.rows.get(row).map(|row| (row.start, row.cells))).unwrap_or((0, 0)))
}

/// The branches of a plan.
pub fn check_plan(table: &[u32], plan: &[u32]) -> Answer {
    let table = read::read_table(table)?;
    Ok((plan::check(&table, plan)?.branches.len(), 0))
}

/// The branches of a plan for named columns.
pub fn check_for(table: &[u32], columns: &[u32], plan: &[u32]) -> Answer {
    let table = read::read_table(table)?;
    let named = Named::of(&table, columns)?;
    Ok((plan::check_for(&table, &named, plan)?.branches.len(), 0))
}

/// Writes the least plan by the work of W-204 with a figure; its cells and its cost.
pub fn build_plan(table: &[u32], figure: u32, room: &mut [u32]) -> Answer {
    build_by(table, figure, room, |table, measure| Ok(least_by(table, measure)))
}

/// The same for named columns.
pub fn build_for(table: &[u32], figure: u32, columns: &[u32], room: &mut [u32]) -> Answer {
    build_by(table, figure, room, |table, measure| Ok(least_for(table, &Named::of(table, columns)?, measure)))
}

/// The work of W-204 with a record's figure.
fn measure(figure: u32) -> Result<Measure, Refusal> {
    if figure > record::MOST_FIGURE {
        return Err(Refusal { number: Number::Figure, input: Input::Figure, place: 0 });
    }
    Ok(Measure::Work(figure))
}

fn build_by(table: &[u32], figure: u32, room: &mut [u32], least: impl FnOnce(&Table, Measure) -> Result<Plan, Refusal>) -> Answer {
    let measure = measure(figure)?;
    let table = read::read_table(table)?;
    let plan = least(&table, measure)?;
    let cells = plan.write();
    written(room, &cells)?;
    Ok((cells.len(), measure.cost(&plan)))
}

/// Of the plans for every set of columns, writes the one that a list of goals likes best; its cells and its cost.
pub fn build_liked(table: &[u32], figure: u32, goals: &[u32], list: &[usize], tried: Tried, room: &mut [u32], liked: &mut Liked) -> Answer {
    liked::lend(&liked::sets(table, figure, goals, list, tried), room, liked)
}

/// Writes the hit rows, by a walk down the plan; their number and the branches tried.
pub fn run_plan(table: &[u32], plan: &[u32], goal: &[u32], room: &mut [u8]) -> Answer {
    run_by(table, plan, goal, room, |_, plan, goal| {
        let mut hits = Vec::new();
        let tried = walk::walk(plan, goal, &mut hits);
        (hits, tried)
    })
}

/// The same by the definitions alone: every row unified in turn, every branch with what is decided above it.
pub fn run_plan_by_definition(table: &[u32], plan: &[u32], goal: &[u32], room: &mut [u8]) -> Answer {
    run_by(table, plan, goal, room, |table, plan, goal| (run::hits(table, goal), run::tried(table, plan, goal)))
}

fn run_by(table: &[u32], plan: &[u32], goal: &[u32], room: &mut [u8], report: impl FnOnce(&Table, &Plan, &Goal) -> (Vec<u8>, usize)) -> Answer {
    let table = read::read_table(table)?;
    let plan = plan::check(&table, plan)?;
    let goal = read::read_goal(table.width, goal)?;
    // The room goes by the rows of the table and not by the hits.
    if room.len() < table.rows.len() {
        return Err(no_room(table.rows.len()));
    }
    let (hits, tried) = report(&table, &plan, &goal);
    written(room, &hits)?;
    Ok((hits.len(), tried))
}

fn no_room(needed: usize) -> Refusal {
    Refusal { number: Number::Room, input: Input::Room, place: needed }
}

/// Writes to the front of the lent room; the rest of it is untouched.
fn written<T: Copy>(room: &mut [T], what: &[T]) -> Result<(), Refusal> {
    let front = room.get_mut(..what.len()).ok_or(no_room(what.len()))?;
    front.copy_from_slice(what);
    Ok(())
}
