//! What a shift's jobs are told, in Rust: some jobs for a shop's table, and the replies of the rules to all of them in one call and one room; once
//! with room enough, and once with so little that a job in the middle does not fit and a later one does.
//!
//! usage: said FILE    (samples/shop.cells; samples/README.md has the numbers of the names)

use dudowiej::{show, variable, whole, Goals, Placed, Plan, Record, Refusal};
use samples::shared::said;
use samples::shop::{name_of, with_cells, BLUE, BOWL, BROOCH, RED, RING, SOFT};
use std::process::ExitCode;

const GOALS: [&[u32]; 6] = [
    // Urgency 10, red, a ring: which firing?
    &[whole(10), RED, RING, variable(0)],
    // A column too few.
    &[whole(9), BLUE, RING],
    // A blue bowl of any size.
    &[whole(9), BLUE, BOWL, variable(0), variable(1)],
    // Anything at all: every rule replies.
    &[variable(0), variable(1), variable(2), variable(3)],
    // A soft brooch of urgency 1: no rule fits.
    &[whole(1), RED, BROOCH, SOFT],
    // A blue bowl whose size is called as its firing: one variable twice.
    &[whole(9), BLUE, BOWL, variable(0), variable(0)],
];

/// Room for all replies, and for some of them.
const ENOUGH: usize = 100;
const LITTLE: usize = 26;

fn main() -> ExitCode {
    with_cells("said", rules)
}

fn rules(table: &[u32]) -> Result<(), Refusal> {
    let record = Record::work_out(table, 0)?;
    let plan = Plan::build(&record).plan;
    println!("worked out: {} rules", record.rows());
    let mut jobs: Goals = GOALS.into_iter().collect();
    // Past the cells.
    jobs.push_place(jobs.cells().len(), 1);
    let cells = plan.cells();
    ask(&record, cells, &jobs, ENOUGH);
    ask(&record, cells, &jobs, LITTLE);
    ask(&record, &cells[..cells.len() - 1], &jobs, ENOUGH);
    Ok(())
}

/// Asks all jobs in a room of so many cells.
fn ask(record: &Record, plan: &[u32], jobs: &Goals, room_cells: usize) {
    let mut room = vec![0; room_cells];
    println!("\nroom for {room_cells} cells");
    match Plan::check(record, plan).and_then(|plan| record.reply_jobs_in(&plan, jobs, &mut room)) {
        Err(refusal) => println!("jobs: {}", said(&refusal)),
        Ok(answers) => {
            for (number, answer) in answers.iter().enumerate() {
                print!("job {}: ", number + 1);
                match answer {
                    Err(Refusal { reason, place, .. }) => println!("refused, {} {} at {place}", reason.name(), reason.number()),
                    Ok(placed) => print_job(record, jobs.get(number).unwrap_or_default(), placed, &room),
                }
            }
        }
    }
}

/// Prints what a job is told: for each rule that fits, from the top, its reply.
fn print_job(record: &Record, job: &[u32], placed: &Placed, room: &[u32]) {
    let Placed { hits, cells } = placed;
    let replies = record.as_replies(&room[cells.clone()]);
    println!("{}", show(job, name_of));
    for (row, reply) in hits.rows().zip(replies.iter()) {
        println!("  rule {} says: {}", row + 1, show(reply, name_of));
    }
    println!("  replies: {}, cells: {}, from cell {} on; {} branches tried", replies.len(), cells.len(), cells.start, hits.tried());
}
