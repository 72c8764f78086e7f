//! Instructions, as callgrind counts them. `count` does each work once to warm up and once inside `measured`; callgrind, told to count inside
//! `measured` alone and to write a file after each, gives one file for each; `instructions` reads the files. bench/instructions.sh does it all.

use std::path::Path;

use crate::branches::{million, repeats, sorts, Repeats};
use crate::cases::{Case, Measure, KINDS, ROWS};
use crate::replies;
use crate::texts::{measured_texts, reading};

/// What callgrind counts.
#[no_mangle]
#[inline(never)]
pub fn measured(work: &mut dyn FnMut()) {
    work();
}

/// Does every work of every measure, in the order in which `instructions` takes the files.
pub fn count() {
    each_case(|_, case| case.measures().into_iter().for_each(once));
    sorts().iter().for_each(|sort| once(sort.walk()));
    count_repeats();
    count_replies();
    count_texts();
}

fn once(mut measure: Measure) {
    measure.figures(|work| {
        (work.work)();
        measured(&mut *work.work);
        0.0
    });
}

/// The same for rows that repeat a variable alone.
pub fn count_repeats() {
    repeats().iter().for_each(|sort| sort.walks().into_iter().for_each(once));
    million().walks().into_iter().for_each(once);
}

/// The same for replies alone.
pub fn count_replies() {
    each_case(|_, case| {
        for mut sort in replies::sorts(case) {
            sort.figures(|work| {
                (work.work)();
                measured(&mut *work.work);
                0.0
            });
        }
    });
}

/// The same for texts alone.
pub fn count_texts() {
    for (_, text) in measured_texts() {
        let mut work = reading(&text);
        (work.work)();
        measured(&mut *work.work);
    }
}

/// Prints the instructions of every measure from callgrind's files FOLDER/count.1, count.2, ..
pub fn instructions(folder: &Path) {
    let mut files = 0;
    let mut line = |mut measure: Measure, parts: usize| {
        let (exported, independent) = measure.figures(|_| {
            files += 1;
            total(&folder.join(format!("count.{files}"))) as f64 / parts as f64
        });
        println!("{:<34}{exported:>12.0}{independent:>13.0}{:>8.2}", measure.name, exported / independent);
    };
    each_case(|name, case| {
        println!("\n{name}: {}", case.title());
        heading("instructions for a call");
        case.measures().into_iter().for_each(|measure| line(measure, 1));
    });
    println!("\nOne branch: the walk by the number of branches tried; 64 rows, every branch of one sort");
    heading("instructions for a branch");
    sorts().iter().for_each(|sort| line(sort.walk(), sort.tried()));
    let files = repeat_instructions(folder, files);
    let files = reply_instructions(folder, files);
    text_instructions(folder, files);
}

/// Prints what rows that repeat a variable take, from the files after the first so many; the number of the last one.
pub fn repeat_instructions(folder: &Path, before: usize) -> usize {
    let mut files = before;
    let mut both = |mut measure: Measure| {
        measure.figures(|_| {
            files += 1;
            total(&folder.join(format!("count.{files}"))) as f64
        })
    };
    println!("\nRows that repeat a variable: the start of one besides its meetings, a later meeting, and a variable that stands once");
    println!("{:<40}{:>8}{:>8}{:>8}   independent", "", "start", "later", "once");
    for sort in repeats() {
        let figures = sort.walks().map(&mut both);
        let [start, later, once] = Repeats::parts(figures.map(|(exported, _)| exported));
        let theirs = Repeats::parts(figures.map(|(_, independent)| independent));
        println!("{:<40}{start:>8.0}{later:>8.0}{once:>8.0}   {:.0} {:.0} {:.0}", sort.name, theirs[0], theirs[1], theirs[2]);
    }
    for measure in million().walks() {
        let (exported, independent) = both(measure);
        println!("a row whose common instance has over a million cells, of 64: {:.0}, independent {:.0}", exported / 64.0, independent / 64.0);
    }
    files
}

/// Prints what a reply takes, from the files after the first so many; the number of the last one.
pub fn reply_instructions(folder: &Path, before: usize) -> usize {
    let mut files = before;
    println!("\nOne reply, and the walk that found the replies of a goal");
    println!("{:<26}{:>6}{:>10}{:>13}{:>10}{:>16}", "", "hits", "reply", "independent", "walk", "reply to walk");
    each_case(|name, case| {
        println!("{name}: {}", case.title());
        for mut sort in replies::sorts(case) {
            let of = sort.figures(|_| {
                files += 1;
                total(&folder.join(format!("count.{files}"))) as f64
            });
            let ratio = of.reply / of.walk;
            println!("{:<26}{:>6}{:>10.0}{:>13.0}{:>10.0}{ratio:>16.2}", sort.name, sort.hits, of.reply, of.independent, of.walk);
        }
    });
    files
}

/// Prints the instructions of every text from the files after the first so many.
pub fn text_instructions(folder: &Path, before: usize) {
    println!("\nTables from text, exported");
    println!("{:<52}{:>8}{:>14}{:>12}", "", "bytes", "instructions", "for a byte");
    for (number, (name, text)) in measured_texts().iter().enumerate() {
        let count = total(&folder.join(format!("count.{}", before + number + 1)));
        println!("{name:<52}{:>8}{count:>14}{:>12.1}", text.len(), count as f64 / text.len() as f64);
    }
}

fn heading(first: &str) {
    println!("{first:<34}{:>12}{:>13}{:>8}", "exported", "independent", "ratio");
}

fn each_case(mut visit: impl FnMut(&str, &Case)) {
    for (name, kind) in KINDS {
        for rows in ROWS {
            visit(name, &Case::new(kind, rows));
        }
    }
}

/// The number on the line `summary:` of a file of callgrind.
pub fn total(file: &Path) -> u64 {
    let text = std::fs::read_to_string(file).unwrap_or_else(|error| panic!("{}: {error}", file.display()));
    let line = text.lines().find_map(|line| line.strip_prefix("summary: "));
    line.and_then(|number| number.trim().parse().ok()).unwrap_or_else(|| panic!("{}: no summary", file.display()))
}
