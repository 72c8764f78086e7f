//! A shop's table from Prolog text in Rust: loads the facts, builds the plan, and asks some jobs, each a goal in Prolog text; prints the rules
//! that fit and what each of them says to the job, in the names of both texts.
//!
//! usage: text FILE    (samples/shop.pl)

use dudowiej::{Built, Names, Plan, Record, Refusal, TEXT_BYTES};
use samples::shared::{said, with_file};
use std::process::ExitCode;

const JOBS: [&str; 8] = [
    // Urgency 10, red, a ring: which firing?
    "rule(10, red, ring, Firing)",
    // A blue bowl of any size.
    "rule(9, blue, bowl(Size), Firing)",
    // A black tray: no rule names a tray.
    "rule(1, black, tray, Firing)",
    // Anything black.
    "rule(Urgency, black, Piece, Firing)",
    // A blue bowl whose size is called as its firing: one variable twice.
    "rule(9, blue, bowl(Firing), Firing)",
    // A red ring that was put off: urgency below zero.
    "rule(-1, red, ring, Firing).",
    // Cut off, and with a column too few.
    "rule(9, blue, ring",
    "rule(9, blue, ring)",
];

fn main() -> ExitCode {
    // One byte more than a text may have, so that too long a file is seen to be one.
    with_file("text", TEXT_BYTES + 1, shop)
}

fn shop(text: &[u8]) -> Result<(), Refusal> {
    let (record, names) = Record::from_text(text, 0)?;
    println!("text: {} rules of {} columns, {} names", record.rows(), record.width(), names.len());
    let Built { plan, cost } = Plan::build(&record);
    println!("plan: cost {cost} with figure 0");
    for job in JOBS {
        println!("\njob: {job}");
        if let Err(refusal) = ask(&record, &names, &plan, job) {
            println!("  job: {}", said(&refusal));
        }
    }
    Ok(())
}

/// Prints the rules that fit a job, and below each what it says: the job with the rule's bindings filled in.
fn ask(record: &Record, names: &Names, plan: &Plan, job: &str) -> Result<(), Refusal> {
    let goal = names.goal(job)?;
    let hits = record.run(plan, &goal)?;
    let replies = record.replies(plan, &goal)?;
    // There is a reply for each hit, in the same order.
    for (row, reply) in hits.rows().zip(replies.iter()) {
        println!("  rule {}: {}", row + 1, names.say(&goal, record.row(row).unwrap_or_default())?);
        println!("    says: {}", names.say(&goal, reply)?);
    }
    Ok(())
}
