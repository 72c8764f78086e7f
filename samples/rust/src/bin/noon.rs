//! A shop edits its rules at noon, in Rust: the table is worked out in the morning; then a rule is replaced, another appended and dropped
//! again, and each time the plan is built anew from the record and the same job is asked.
//!
//! usage: noon FILE    (samples/shop.cells; samples/README.md has the numbers of the names)

use dudowiej::{variable, whole, Built, Plan, Record, Refusal, ROWS};
use samples::shared::{rule, said};
use samples::shop::{name_of, with_cells, BLUE, HARD, RING, SHELF};
use std::process::ExitCode;

const FIGURE: u32 = 2;

/// Blue rings that wait: which firing?
const JOB: [u32; 4] = [whole(9), BLUE, RING, variable(0)];

/// The row that changes, rule 4; what it becomes, a rule for the end (back to the shelf below), and one with a column too few.
const CHANGED: usize = 3;
const HARDER: [u32; 4] = [whole(9), BLUE, RING, HARD];
const LAST: [u32; 5] = [variable(0), BLUE, variable(1), SHELF, whole(-1)];
const TOO_SHORT: [u32; 3] = [whole(9), BLUE, RING];

fn main() -> ExitCode {
    with_cells("noon", day)
}

fn day(table: &[u32]) -> Result<(), Refusal> {
    let mut record = Record::work_out(table, FIGURE)?;
    tell("worked out", Ok(()), &record);
    let morning = record.clone();

    tell("replaced", record.replace(CHANGED, &HARDER), &record);
    let noon = record.clone();
    tell("appended", record.append(&LAST), &record);
    tell("dropped", record.drop_last(), &record);
    println!("as at noon: {}", record == noon);

    tell("too short a rule", record.append(&TOO_SHORT), &record);
    tell("no such rule", record.replace(ROWS, &HARDER), &record);
    tell("the same rule again", record.append(&HARDER), &record);
    println!("as at noon: {}", record == noon);

    tell("replaced", record.replace(CHANGED, morning.row(CHANGED).unwrap_or_default()), &record);
    println!("as in the morning: {}", record == morning);
    Ok(())
}

/// Prints what came of an edit: the rules there are now, the plan's size and the rules that fit the job; or why it was refused.
fn tell(edit: &str, answer: Result<(), Refusal>, record: &Record) {
    if let Err(refusal) = answer {
        println!("{edit}: {}", said(&refusal));
        return;
    }
    println!("{edit}: {} rules", record.rows());
    let Built { plan, cost } = Plan::build(record);
    println!("  plan: cost {cost}, {} branches", plan.branches());
    match record.run(&plan, &JOB) {
        Err(refusal) => println!("  job: {}", said(&refusal)),
        Ok(hits) => hits.rows().for_each(|row| println!("  {}", rule(record, row, name_of))),
    }
}
