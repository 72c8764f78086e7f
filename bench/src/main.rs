//! The comparison and the benchmark; docs/BENCH.md says how they are made.

use std::io::Read;
use std::path::Path;
use std::process::ExitCode;

use dudowiej_bench::compare::{self, listings, ROUNDS, SEED};
use dudowiej_bench::engine::Exported;
use dudowiej_bench::model::listing::listing;
use dudowiej_bench::{asking, believe, clauses, columns, count, edits, files, liked, map, prolog, reply_shift, salvage, shift, stack, time};

const USAGE: &str = "usage:
  compare [ROUNDS [SEED]]   the exported functions against the independent implementation
  time                      both side by side, in nanoseconds
  time-million              the same for common instances of over a million cells alone
  count                     every call that bench/instructions.sh counts, once
  instructions FOLDER       what callgrind counted
  count-texts, text-instructions FOLDER    the same for texts alone
  texts FOLDER COUNT SEED   accepted texts with their facts, and kinds of refused ones, as files
  programs FOLDER COUNT SEED   plans handed back as Prolog with goals and replies, as files
  count-shift, instructions-shift FOLDER   the same for a list of goals
  count-reply-shift, instructions-reply-shift FOLDER   the same for the replies to a list of goals
  count-asking, instructions-asking FOLDER   the same for goals and answers as text
  count-replies, instructions-replies FOLDER   the same for replies alone
  count-repeats, instructions-repeats FOLDER   the same for rows that repeat a variable
  count-edits, instructions-edits FOLDER   the same for a record's edits
  count-clauses, instructions-clauses FOLDER   the same for plans handed back as Prolog
  count-files, instructions-files FOLDER   the same for files
  count-salvage, instructions-salvage FOLDER   the same for what is saved of bad cards
  count-columns, instructions-columns FOLDER   the same for plans for named columns
  count-liked, instructions-liked FOLDER   the same for plans that lists of goals like best, with their times
  columns                   the branches that goals try by plans for named columns and by plain ones
  liked                     how far plans that lists of goals like best, and plain ones, are from the fewest branches
  stack                     the bytes of stack that each entry touches
  list                      the independent listing of the table on standard input
  map                       whether the drawing of layers in the README is that of crates.txt
  believe                   what must be believed of the page of demands: definitions, lines and files";

/// What these print needs no exported function.
const WITHOUT: [&str; 3] = ["list", "map", "believe"];

fn main() -> ExitCode {
    let words: Vec<String> = std::env::args().skip(1).collect();
    let words: Vec<&str> = words.iter().map(String::as_str).collect();
    if cfg!(feature = "stand-in") && !words.first().is_some_and(|word| WITHOUT.contains(word)) {
        println!("The stand-in: no exported function is called, the harness is tried on the independent ones.");
    }
    match words[..] {
        ["compare"] => compared(ROUNDS, SEED),
        ["compare", rounds] => number(rounds).map_or_else(usage, |rounds| compared(rounds as usize, SEED)),
        ["compare", rounds, seed] => match (number(rounds), number(seed)) {
            (Some(rounds), Some(seed)) => compared(rounds as usize, seed),
            _ => usage(),
        },
        ["time"] => done(time::time),
        ["time-million"] => done(time::time_million),
        ["count"] => done(count::count),
        ["instructions", folder] => done(|| count::instructions(Path::new(folder))),
        ["count-texts"] => done(count::count_texts),
        ["text-instructions", folder] => done(|| count::text_instructions(Path::new(folder), 0)),
        ["texts", folder, count, seed] => match (number(count), number(seed)) {
            (Some(count), Some(seed)) => done(|| prolog::write_texts(Path::new(folder), count as usize, seed)),
            _ => usage(),
        },
        ["programs", folder, count, seed] => match (number(count), number(seed)) {
            (Some(count), Some(seed)) => done(|| prolog::write_programs(Path::new(folder), count as usize, seed)),
            _ => usage(),
        },
        ["count-shift"] => done(shift::count::count),
        ["instructions-shift", folder] => done(|| shift::count::instructions(Path::new(folder))),
        ["count-reply-shift"] => done(reply_shift::count::count),
        ["instructions-reply-shift", folder] => done(|| reply_shift::count::instructions(Path::new(folder))),
        ["count-asking"] => done(asking::count::count),
        ["instructions-asking", folder] => done(|| asking::count::instructions(Path::new(folder))),
        ["count-replies"] => done(count::count_replies),
        ["instructions-replies", folder] => done(|| {
            count::reply_instructions(Path::new(folder), 0);
        }),
        ["count-repeats"] => done(count::count_repeats),
        ["instructions-repeats", folder] => done(|| {
            count::repeat_instructions(Path::new(folder), 0);
        }),
        ["count-edits"] => done(edits::count),
        ["instructions-edits", folder] => done(|| edits::instructions(Path::new(folder))),
        ["count-clauses"] => done(clauses::count),
        ["instructions-clauses", folder] => done(|| clauses::instructions(Path::new(folder))),
        ["count-files"] => done(files::count),
        ["instructions-files", folder] => done(|| files::instructions(Path::new(folder))),
        ["count-salvage"] => done(salvage::count),
        ["instructions-salvage", folder] => done(|| salvage::instructions(Path::new(folder))),
        ["count-columns"] => done(columns::count),
        ["instructions-columns", folder] => done(|| columns::instructions(Path::new(folder))),
        ["count-liked"] => done(liked::count),
        ["instructions-liked", folder] => done(|| liked::instructions(Path::new(folder))),
        ["columns"] => done(columns::tried),
        ["liked"] => done(liked::near),
        ["stack"] => done(stack::stack),
        ["list"] => done(list),
        ["map"] => done(|| map::print(include_str!("../../README.md"), include_str!("../../crates.txt"))),
        ["believe"] => done(|| believe::print(Path::new(concat!(env!("CARGO_MANIFEST_DIR"), "/..")))),
        _ => usage(),
    }
}

fn done(work: impl FnOnce()) -> ExitCode {
    work();
    ExitCode::SUCCESS
}

fn usage() -> ExitCode {
    eprintln!("{USAGE}");
    ExitCode::from(2)
}

fn number(word: &str) -> Option<u64> {
    word.parse().ok()
}

fn compared(rounds: usize, seed: u64) -> ExitCode {
    println!("seed {seed}, {rounds} rounds");
    let listings_differ = compared_listings(rounds / 20, seed);
    let lists = shift::compare::compare(&Exported, rounds / 4, seed);
    println!("{lists}");
    let replied = reply_shift::compare::compare(&Exported, rounds / 4, seed);
    println!("{replied}");
    let asked = asking::compare::compare(&Exported, rounds / 8, seed);
    let asked = asking::compare::families(&Exported, asked, seed);
    println!("{asked}");
    let more = dudowiej_bench::knowing::compare(&Exported, rounds / 4, seed);
    println!("{more}");
    let tally = compare::compare(&Exported, rounds, seed);
    let tally = compare::texts(&Exported, tally, 2 * rounds, seed);
    let tally = compare::replies(&Exported, tally, 2 * rounds, seed);
    let tally = compare::edits(&Exported, tally, rounds / 10, seed);
    let tally = compare::clauses(&Exported, tally, rounds, seed);
    let tally = compare::columns(&Exported, tally, rounds / 2, seed);
    let tally = compare::liked_at_length(&Exported, compare::liked(&Exported, tally, rounds / 8, seed), seed);
    let tally = compare::files(&Exported, tally, rounds, seed);
    let tally = compare::salvages(&Exported, tally, rounds, seed);
    println!("{tally}");
    if tally.passed() && lists.passed() && replied.passed() && asked.passed() && more.passed() && listings_differ == 0 {
        ExitCode::SUCCESS
    } else {
        ExitCode::FAILURE
    }
}

fn compared_listings(count: usize, seed: u64) -> usize {
    let Some(program) = listings::program() else {
        println!("target/bin/planlist is not built: no listing is compared");
        return 0;
    };
    let differ = listings::compare(&program, count, seed);
    println!("listings of planlist: {count}, {differ} differ");
    differ
}

fn list() {
    let mut bytes = Vec::new();
    std::io::stdin().read_to_end(&mut bytes).expect("standard input can be read");
    print!("{}", listing(&bytes));
}
