//! Front and back in one enamel, in Rust: rules that use a variable twice, what they say to some jobs, and an answer that is too large.
//!
//! usage: enamel

use dudowiej::{Plan, Record, Refusal};
use samples::shared::said;

/// Rule 1 asks for one enamel, front and back; rule 2 takes any two.
const SIDES: &str = "sides(E, E). sides(_, _).";

/// No enamel is its own gilding: Prolog calls this the occurs check.
const OCCURS: &str = "sides(X, gilt(X))";

/// Each variable is a set of four of the one before, in the rule and in the job: what they have in common has over a million cells.
const SETS: &str = "sets(A, s(A,A,A,A), B, s(B,B,B,B), C, s(C,C,C,C), D, g(s(D,D,D,D), E, s(E,E,E,E))).";
const SET: &str = "sets(s(A,A,A,A), B, s(B,B,B,B), C, s(C,C,C,C), D, s(D,D,D,D), g(E, s(E,E,E,E), F))";

fn main() {
    let sides = ask_all(SIDES, &["sides(red, red)", "sides(red, blue)", "sides(red, Back)", OCCURS]);
    if let Err(refusal) = sides.and_then(|()| ask_all(SETS, &[SET])) {
        println!("{}", said(&refusal));
    }
}

/// Prints for each job how many of the rules fit it, and what each of them says to it.
fn ask_all(rules: &str, jobs: &[&str]) -> Result<(), Refusal> {
    let (record, names) = Record::from_text(rules, 0)?;
    let plan = Plan::build(&record).plan;
    for job in jobs {
        let goal = names.goal(job)?;
        let hits = record.run(&plan, &goal)?;
        println!("{job}: {} fit", hits.count());
        match record.replies(&plan, &goal) {
            Err(refusal) => println!("  answers: {}", said(&refusal)),
            Ok(replies) => {
                for (row, reply) in hits.rows().zip(replies.iter()) {
                    println!("  rule {}: {}", row + 1, names.say(&goal, reply)?);
                }
            }
        }
    }
    Ok(())
}
