//! A shop's table in Rust: loads it, works it out, builds its plan, checks the plan, asks which rules fit some jobs, then a whole shift of
//! jobs in one call, and shows some refusals.
//!
//! usage: shop FILE    (samples/shop.cells; samples/README.md has the numbers of the names, and what is said of other files)

use dudowiej::{show, terms, variable, whole, Built, Goals, Plan, Record, Refusal, Symbol};
use samples::shared::{rule, said};
use samples::shop::{name_of, with_cells, BLACK, BLUE, BOWL, LARGE, RED, RING};
use std::process::ExitCode;

/// The figures whose plans are shown.
const FIGURES: [u32; 4] = [0, 1, 2, 15];

fn main() -> ExitCode {
    with_cells("shop", rules)
}

fn rules(table: &[u32]) -> Result<(), Refusal> {
    // A choice between branches costs as much as two tests.
    let record = Record::work_out(table, 2)?;
    println!("table: {} rules of {} columns", record.rows(), record.width());
    for figure in FIGURES {
        let record = Record::work_out(table, figure)?;
        let Built { plan, cost } = Plan::build(&record);
        println!("figure {figure}: cost {cost}, {} branches in {} cells", plan.branches(), plan.cells().len());
    }
    // A plan's cells may come from anywhere: what passes the check is a plan.
    let built = Plan::build(&record).plan;
    let plan = Plan::check(&record, built.cells())?;

    let jobs: [&[u32]; 5] = [
        // Urgency 10, red, a ring: which firing?
        &[whole(10), RED, RING, variable(0)],
        // A red ring of any urgency: the rules for 9 come first, as printed.
        &[variable(0), RED, RING, variable(1)],
        // A large blue bowl.
        &[whole(9), BLUE, BOWL, LARGE, variable(0)],
        // Whatever is black.
        &[variable(0), BLACK, variable(1), variable(2)],
        // An enamel that is also a piece: only rules that leave one of them blank.
        &[variable(0), variable(1), variable(1), variable(2)],
    ];
    for goal in jobs {
        ask(&record, &plan, goal);
    }
    shift(&record, &plan)?;
    refusals(&record, &plan);
    Ok(())
}

/// Prints the rules that fit a job.
fn ask(record: &Record, plan: &Plan, goal: &[u32]) {
    match record.run(plan, goal) {
        Err(refusal) => println!("\njob: {}", said(&refusal)),
        Ok(hits) => {
            println!("\njob: {}", show(goal, name_of));
            for row in hits.rows() {
                println!("  {}", rule(record, row, name_of));
            }
            println!("  {} of {} branches tried", hits.tried(), plan.branches());
        }
    }
}

/// Asks, in one call, for every row with any of its columns left blank. Prints how many of these jobs each rule fits, and what they tried.
fn shift(record: &Record, plan: &Plan) -> Result<(), Refusal> {
    let mut jobs = Goals::new();
    for row in (0..record.rows()).filter_map(|row| record.row(row)) {
        for blanks in 0..1 << record.width() {
            jobs.push(&with_blanks(row, blanks));
        }
    }
    // A job that reaches past the cells is turned away, and the others are not.
    jobs.push_place(jobs.cells().len() - 1, 2);
    let answers = record.run_jobs(plan, &jobs)?;
    let tried: usize = answers.iter().flatten().map(|hits| hits.tried()).sum();
    println!("\na shift of {} jobs: {tried} branches tried", answers.len());
    for row in 0..record.rows() {
        println!("  rule {} fits {}", row + 1, answers.iter().flatten().filter(|hits| hits.has(row)).count());
    }
    for (number, answer) in (1..).zip(&answers) {
        if let Err(Refusal { reason, place, .. }) = answer {
            println!("  job {number}: refused, {} {} at {place}", reason.name(), reason.number());
        }
    }
    Ok(())
}

/// A row as a job, with a blank in each column whose bit is set, and each of its variables a blank of its own.
fn with_blanks(row: &[u32], blanks: u32) -> Vec<u32> {
    let mut variables = 0;
    let mut fresh = |cell| match Symbol::of(cell) {
        Some(Symbol::Variable(_)) => {
            variables += 1;
            variable(variables - 1)
        }
        _ => cell,
    };
    let blank: &[u32] = &[variable(0)];
    let columns = terms(row).enumerate().map(|(column, term)| if blanks >> column & 1 == 1 { blank } else { term });
    columns.flatten().map(|&cell| fresh(cell)).collect()
}

/// Prints five refusals. Each is given for every table that is accepted.
fn refusals(record: &Record, plan: &Plan) {
    let (table, cells) = (record.table(), plan.cells());
    let short_table = &table[..table.len() - 1];
    let short_plan = &cells[..cells.len() - 1];
    let short_goal: Vec<u32> = (0..record.width() as u16 - 1).map(variable).collect();
    let mut short_room = vec![0; cells.len() - 1];
    println!("\nrefusals:");
    println!("  a table without its last cell: {}", said(&Record::work_out(short_table, 2).unwrap_err()));
    println!("  a plan without its last cell: {}", said(&Plan::check(record, short_plan).unwrap_err()));
    println!("  a goal with a column too few: {}", said(&record.run(plan, &short_goal).unwrap_err()));
    println!("  a cell too few for the plan: {}", said(&Plan::build_in(record, &mut short_room).unwrap_err()));
    println!("  a figure above 15: {}", said(&Record::work_out(table, 16).unwrap_err()));
}
