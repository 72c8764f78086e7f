//! Columns that are always filled in, in Rust: in this shop urgency and piece are known whenever a job is asked. The plain least plan is
//! built, and the least plan that finishes these two columns before it looks at any other place; both are checked and asked for the same
//! jobs.
//!
//! usage: known FILE    (samples/shop.cells; samples/README.md has the numbers of the names)

use dudowiej::{show, variable, whole, Built, Plan, Record, Refusal, COLUMNS};
use samples::shared::{rule, said};
use samples::shop::{name_of, with_cells, BLUE, BOWL, BROOCH, LARGE, RING};
use std::process::ExitCode;

/// What a choice between branches costs here.
const FIGURE: u32 = 0;

/// The columns that are always known: urgency and piece.
const KNOWN: [u32; 2] = [0, 2];

/// Jobs in which they are.
const JOBS: [&[u32]; 5] = [
    // A ring that is waited for: which enamels, and which firing?
    &[whole(9), variable(0), RING, variable(1)],
    // A brooch likewise.
    &[whole(9), variable(0), BROOCH, variable(1)],
    // A large bowl for today.
    &[whole(10), variable(0), BOWL, LARGE, variable(1)],
    // A ring that is not urgent.
    &[whole(1), variable(0), RING, variable(1)],
    // A blue ring for today: the enamel is known too.
    &[whole(10), BLUE, RING, variable(0)],
];

/// The plain least plan, and the least for the known columns.
struct Plans {
    least: Plan,
    for_known: Plan,
}

fn main() -> ExitCode {
    with_cells("known", known)
}

fn known(table: &[u32]) -> Result<(), Refusal> {
    let record = Record::work_out(table, FIGURE)?;
    println!("worked out: {} rules", record.rows());
    let least = Plan::build(&record);
    let for_known = match Plan::build_for(&record, &KNOWN) {
        Err(refusal) => {
            println!("the known columns: {}", said(&refusal));
            return Ok(());
        }
        Ok(built) => built,
    };
    tell("plain", &record, &least);
    tell("for the known columns", &record, &for_known);
    let plans = Plans { least: least.plan, for_known: for_known.plan };
    other_lists(&record, &plans)?;
    ask_all(&record, &plans);
    refusals(&record, &plans);
    Ok(())
}

/// Prints what a plan costs and its size, and whether it is one for the known columns.
fn tell(what: &str, record: &Record, built: &Built) {
    let (plan, cost) = (&built.plan, built.cost);
    println!("{what}: cost {cost}, {} branches in {} cells", plan.branches(), plan.cells().len());
    match Plan::check_for(record, &KNOWN, plan.cells()) {
        Err(refusal) => println!("  checked for the known columns: {}", said(&refusal)),
        Ok(checked) => println!("  checked for the known columns: {} branches", checked.branches()),
    }
}

/// The list of columns is a set; with none of them, or all, the plan is the plain one.
fn other_lists(record: &Record, plans: &Plans) -> Result<(), Refusal> {
    let all: Vec<u32> = (0..record.width() as u32).collect();
    let lists: [(&str, &[u32], &str, &Plan); 3] = [
        ("listed in another order, one twice", &[2, 0, 2], "the same plan", &plans.for_known),
        ("no column listed", &[], "the plain plan", &plans.least),
        ("all columns listed", &all, "the plain plan", &plans.least),
    ];
    for (what, list, name, plan) in lists {
        let built = Plan::build_for(record, list)?;
        println!("{what}: {}", if built.plan == *plan { name } else { "another plan" });
    }
    Ok(())
}

/// Asks for all jobs, and prints the branches tried for them.
fn ask_all(record: &Record, plans: &Plans) {
    let (mut by_least, mut by_known) = (0, 0);
    for job in JOBS {
        match ask(record, plans, job) {
            Err(refusal) => println!("\njob: {}", said(&refusal)),
            Ok(tried) => {
                by_least += tried.0;
                by_known += tried.1;
            }
        }
    }
    println!("\nin all: {by_least} branches tried by the plain plan, {by_known} by the other");
}

/// Prints the rules that fit a job, and the branches that each plan tried.
fn ask(record: &Record, plans: &Plans, job: &[u32]) -> Result<(usize, usize), Refusal> {
    let by_least = record.run(&plans.least, job)?;
    let by_known = record.run(&plans.for_known, job)?;
    println!("\njob: {}", show(job, name_of));
    by_least.rows().for_each(|row| println!("  {}", rule(record, row, name_of)));
    let rules = if by_least.bits() == by_known.bits() { "the same rules by both plans" } else { "other rules by the other plan" };
    let tried = (by_least.tried(), by_known.tried());
    println!("  {rules}; tried: {} by the plain plan, {} by the other", tried.0, tried.1);
    Ok(tried)
}

/// Prints two refusals. Each is given for every table that has the known columns.
fn refusals(record: &Record, plans: &Plans) {
    let mut short_room = vec![0; plans.for_known.cells().len() - 1];
    println!("a column that is not there: {}", said(&Plan::build_for(record, &[0, COLUMNS as u32]).unwrap_err()));
    println!("a cell too few: {}", said(&Plan::build_for_in(record, &KNOWN, &mut short_room).unwrap_err()));
}
