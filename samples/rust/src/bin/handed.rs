//! A shop's table handed back as Prolog in Rust: loads the facts, works the table out, builds the plan and prints the program that the plan
//! is, then two refusals. Whatever is no clause stands in a comment, so that all of it is a Prolog text.
//!
//! usage: handed FILE    (samples/shop.pl)

use dudowiej::{Names, Plan, Record, Refusal, TEXT_BYTES};
use samples::shared::{said, with_file};
use std::process::ExitCode;

fn main() -> ExitCode {
    // One byte more than a text may have, so that too long a file is seen to be one.
    with_file("handed", TEXT_BYTES + 1, hand_back)
}

fn hand_back(text: &[u8]) -> Result<(), Refusal> {
    // A choice between branches costs nothing.
    let (record, names) = Record::from_text(text, 0)?;
    let plan = Plan::build(&record).plan;
    let program = record.clauses(&plan, &names)?;
    println!("% {} rules and {} names: {} clauses, {} bytes", record.rows(), names.len(), program.clauses, program.text.len());
    print!("{}", program.text);

    // A table that has no name at all needs no list.
    if let Some(shorter) = names.len().checked_sub(1).and_then(|less| Names::from_words(names.words().take(less))) {
        say("without the last name", record.clauses(&plan, &shorter));
    }
    say("a byte too few", record.clauses_in(&plan, &names, &mut vec![0; program.text.len() - 1]));
    Ok(())
}

/// What is refused, as a comment.
fn say<T>(what: &str, answer: Result<T, Refusal>) {
    if let Err(refusal) = answer {
        println!("% {what}: {}", said(&refusal));
    }
}
