//! Every refusal's name, number and words, and that this crate says what the header and docs/FORMAT.md say.

mod common;

use common::{shop, with_word};
use dudowiej::*;
use std::collections::BTreeSet;

const HEADER: &str = include_str!("../../include/dudowiej.h");
const FORMAT: &str = include_str!("../../docs/FORMAT.md");
const ENTRIES: &str = include_str!("../src/sys.rs");

/// What is refused of tables, goals and texts.
fn of_tables() -> Vec<Refusal> {
    let one = Record::work_out(&[1, 1, 0], 0).unwrap();
    vec![
        Goal::read(&one, &[]).unwrap_err(),
        read_table(&[9, 1, 0]).unwrap_err(),
        read_table(&[1, 65, 0]).unwrap_err(),
        read_table(&[vec![1, 1], vec![name(0, 1); 32]].concat()).unwrap_err(),
        read_table(&[1, 1]).unwrap_err(),
        read_table(&[1, 1, u32::MAX]).unwrap_err(),
        read_table(&[1, 1, 1]).unwrap_err(),
        read_table(&[1, 1, 0, 0]).unwrap_err(),
        read_text(vec![0; TEXT_BYTES + 1]).unwrap_err(),
        read_text("p(a) ,").unwrap_err(),
        read_text("p(a). p(a, b).").unwrap_err(),
        Record::work_out(&[1, 1, 0], MOST_FIGURE + 1).unwrap_err(),
    ]
}

/// What is refused of edits.
fn of_edits() -> Vec<Refusal> {
    let mut one = Record::work_out(&[1, 1, whole(7)], 0).unwrap();
    let mut full = Record::work_out(&[vec![1, 64], vec![0; 64]].concat(), 0).unwrap();
    vec![
        full.append(&[0]).unwrap_err(),
        one.drop_last().unwrap_err(),
        one.replace(1, &[0]).unwrap_err(),
        one.append(&[whole(7)]).unwrap_err(),
    ]
}

/// What is refused of plans.
fn of_plans() -> Vec<Refusal> {
    let shop = shop("p(a,b). p(a,c).");
    let check = |words: &str| Plan::check(&shop.record, &shop.cells(words)).unwrap_err();
    vec![
        Plan::check(&shop.record, &[0; PLAN_CELLS + 1]).unwrap_err(),
        check("0 1 a 0 2 b 1 c"),
        check("2 1 a 0 2 b 1 c 1"),
        check("0 2 a 0 2 b 1 c 1"),
        check("0 1 b 0 2 b 1 c 1"),
        check("0 1 a 0 2 b 1 c 2"),
        Plan::build_in(&shop.record, &mut []).unwrap_err(),
        shop.record.clauses(&shop.plan, &Names::default()).unwrap_err(),
        Plan::build_for(&shop.record, &[2]).unwrap_err(),
        Plan::check_for(&shop.record, &[1], shop.plan.cells()).unwrap_err(),
    ]
}

/// What is refused of files.
fn of_files() -> Vec<Refusal> {
    let shop = shop("p(a).");
    let file = shop.record.write_file(&shop.plan).unwrap();
    vec![
        Card::read(&[]).unwrap_err(),
        Card::read(&[0; BLOCK_BYTES]).unwrap_err(),
        Card::read(&with_word(&file, 2, 400)).unwrap_err(),
        Card::read(&with_word(&file, 125, 1)).unwrap_err(),
        Card::salvage(&[]).unwrap_err(),
        Card::salvage(&with_word(&file, 5, u32::MAX)).unwrap_err(),
    ]
}

/// A goal whose reply doubles with each column.
fn of_replies() -> Vec<Refusal> {
    let (s, g) = (name(4, 4), name(3, 3));
    let table = [8, 1, 0, s, 0, 0, 0, 0, 1, s, 1, 1, 1, 1, 2, s, 2, 2, 2, 2, 3, g, s, 3, 3, 3, 3, 4, s, 4, 4, 4, 4];
    let goal = [s, 0, 0, 0, 0, 1, s, 1, 1, 1, 1, 2, s, 2, 2, 2, 2, 3, s, 3, 3, 3, 3, g, 4, s, 4, 4, 4, 4, 5];
    let record = Record::work_out(&table, 0).unwrap();
    vec![record.replies(&Plan::build(&record).plan, &goal).unwrap_err()]
}

/// Every reason but TWICE is given, and says its name, its place and its words.
#[test]
fn every_refusal_says_why() {
    let all = [of_tables(), of_edits(), of_plans(), of_files(), of_replies()].concat();
    for Refusal { reason, input, place } in &all {
        let said = format!("{input} refused, {} {} at {place}: {}", reason.name(), reason.number(), reason.words());
        assert_eq!(Refusal { reason: *reason, input: *input, place: *place }.to_string(), said);
    }
    let numbers: BTreeSet<usize> = all.iter().map(|refusal| refusal.reason.number()).collect();
    assert_eq!(numbers, (1..=34).filter(|&number| number != Reason::Twice.number()).collect());
    let inputs: BTreeSet<String> = all.iter().map(|refusal| refusal.input.to_string()).collect();
    let words = ["columns", "figure", "file", "goal", "names", "plan", "room", "table", "text"];
    assert_eq!(inputs, words.map(String::from).into());
}

/// What is said, word for word.
#[test]
fn some_refusals_in_full() {
    let said = |refusal: &Refusal| refusal.to_string();
    assert_eq!(
        said(&of_tables()[0]),
        "goal refused, LENGTH 1 at 0: a table has 2 to 2,050 cells and at most 2,048 names, a goal 1 to 32 cells"
    );
    assert_eq!(said(&of_tables()[9]), "text refused, TEXT 18 at 5: no text of facts, or no goal, goes on so");
    assert_eq!(said(&of_edits()[3]), "table refused, SAME 24 at 0: a row without variables stands in the table already");
    assert_eq!(said(&of_plans()[1]), "plan refused, ENDS 11 at 8: the cells end before the plan is complete");
    assert_eq!(said(&of_plans()[6]), "room refused, ROOM 16 at 9: the lent room is too small, and the place says how much is needed");
    let error: Box<dyn std::error::Error> = Box::new(of_replies()[0]);
    assert_eq!(error.to_string(), "goal refused, BIG 25 at 0: a reply, or an answer that is to be written, has over 1,024 cells");
}

/// The names and numbers are those of docs/FORMAT.md and of the header, and each reason has words of its own.
#[test]
fn the_reasons_are_the_documents() {
    let listed: Vec<(usize, &str)> = Reason::ALL.iter().map(|reason| (reason.number(), reason.name())).collect();
    let rows = FORMAT.lines().filter_map(|line| {
        let mut parts = line.strip_prefix("| ")?.split(" | ");
        let (number, name) = (parts.next()?.parse().ok()?, parts.next()?);
        name.chars().all(|c| c.is_ascii_uppercase()).then_some((number, name))
    });
    assert_eq!(rows.collect::<BTreeSet<_>>(), listed.iter().copied().collect());
    assert_eq!(header_numbers("DUDOWIEJ_REFUSED_"), listed);
    let words: BTreeSet<&str> = Reason::ALL.iter().map(|reason| reason.words()).collect();
    assert_eq!(words.len(), listed.len());
    for (number, reason) in (1..).zip(Reason::ALL) {
        assert_eq!(Reason::of_number(number), Some(*reason));
    }
    assert_eq!((Reason::of_number(0), Reason::of_number(listed.len() + 1)), (None, None));
}

/// The header's constants that begin so, by number.
fn header_numbers(prefix: &str) -> Vec<(usize, &'static str)> {
    let constants = HEADER.lines().filter_map(|line| {
        let (name, value) = line.trim().strip_prefix(prefix)?.split_once(" = ")?;
        let digits = value.find(|c: char| !c.is_ascii_digit()).unwrap_or(value.len());
        Some((value[..digits].parse().ok()?, name))
    });
    constants.collect()
}

#[test]
fn the_limits_are_the_headers() {
    let limits = header_numbers("DUDOWIEJ_");
    let ours = [
        ("COLUMNS", COLUMNS),
        ("ROWS", ROWS),
        ("ROW_CELLS", ROW_CELLS),
        ("GOAL_CELLS", GOAL_CELLS),
        ("TABLE_CELLS", TABLE_CELLS),
        ("PLAN_CELLS", PLAN_CELLS),
        ("TEXT_BYTES", TEXT_BYTES),
        ("NAMES", NAMES),
        ("REPLY_CELLS", REPLY_CELLS),
        ("CLAUSES", CLAUSES),
        ("FILE_BYTES", FILE_BYTES),
        ("MOST_FIGURE", MOST_FIGURE as usize),
    ];
    for (name, value) in ours {
        assert!(limits.contains(&(value, name)), "{name}");
    }
    assert!(HEADER.contains(&format!("DUDOWIEJ_RECORD_CELLS = {RECORD_CELLS} ")));
}

/// The entries declared are the header's, each once.
#[test]
fn the_entries_are_the_headers() {
    let names = |text: &'static str, before: &str| -> Vec<&'static str> {
        let declared = text.lines().filter_map(|line| line.trim().strip_prefix(before)?.split_once('('));
        declared.map(|(name, _)| name).collect()
    };
    let mut header = names(HEADER, "uint64_t ");
    let mut ours = names(ENTRIES, "pub fn ");
    header.sort_unstable();
    ours.sort_unstable();
    assert_eq!(ours, header);
    assert_eq!(HEADER.matches(&format!("#define DUDOWIEJ_VERSION \"{}\"", env!("CARGO_PKG_VERSION"))).count(), 1);
}
