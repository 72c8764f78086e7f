//! Instructions of files written and read (02, W-211), in all and for each word beside the check of the plan. `count` and `instructions` go together
//! as those of crate::count.

use std::hint::black_box;
use std::path::Path;

use crate::cases::{FIGURE, KINDS, ROWS, SEED};
use crate::count::{measured, total};
use crate::engine::{Engine, Exported, Plain};
use crate::make::files::{largest, with_plan};
use crate::make::records;
use crate::make::tables::table;
use crate::model::files::{filled, sealed, BLOCK_BYTES, BLOCK_WORDS, FILE_BYTES};
use crate::model::plan::PLAN_CELLS;
use crate::model::read::TABLE_CELLS;
use crate::model::record::Record;
use crate::random::Random;

/// A table's record, its least plan by 01's measure, and their file.
struct Case {
    name: String,
    record: Box<Record>,
    plan: Vec<u32>,
    file: Vec<u8>,
}

impl Case {
    fn new(name: String, (table, plan): (Vec<u32>, Vec<u32>)) -> Case {
        Case { name, record: records::worked_out(&table, FIGURE), file: sealed(&filled(&table, &plan)), plan }
    }

    /// Writing, reading, the check of the plan that both contain; and the independent writing and reading.
    fn works(&self) -> [Box<dyn FnMut() -> u64 + '_>; 5] {
        let [mut room, mut theirs] = [(); 2].map(|()| vec![0; FILE_BYTES]);
        let [mut rooms, mut their_rooms] = [(); 2].map(|()| (vec![0; TABLE_CELLS], vec![0; PLAN_CELLS]));
        [
            Box::new(move || Exported.write_file(&self.record, &self.plan, &mut room)),
            Box::new(move || Exported.read_file(&self.file, &mut rooms.0, &mut rooms.1)),
            Box::new(|| Exported.check_plan(&self.record, &self.plan)),
            Box::new(move || Plain.write_file(&self.record, &self.plan, &mut theirs)),
            Box::new(move || Plain.read_file(&self.file, &mut their_rooms.0, &mut their_rooms.1)),
        ]
    }
}

/// The tables of crate::cases, then the largest file.
fn cases() -> Vec<Case> {
    let sizes = KINDS.iter().flat_map(|&(name, kind)| ROWS.map(|rows| (format!("{name}, {rows} rows"), table(&mut Random::new(SEED), kind, rows))));
    let cases = sizes.map(|(name, table)| Case::new(name, with_plan(table)));
    cases.chain([Case::new("nothing in common".into(), largest())]).collect()
}

pub fn count() {
    for case in cases() {
        for mut work in case.works() {
            black_box(work());
            measured(&mut || {
                black_box(work());
            });
        }
    }
}

/// Prints the figures from callgrind's files FOLDER/count.1, count.2, ..
pub fn instructions(folder: &Path) {
    println!("\nFiles: writing and reading, for a word beside the check of the plan, and to the independent ones");
    println!(
        "{:<26}{:>7}{:>7}{:>11}{:>11}{:>12}{:>8}{:>11}{:>12}{:>8}",
        "", "blocks", "words", "the check", "writing", "for a word", "ratio", "reading", "for a word", "ratio"
    );
    let mut files = 0;
    for case in cases() {
        let [write, read, check, their_write, their_read] = [(); 5].map(|()| {
            files += 1;
            total(&folder.join(format!("count.{files}"))) as f64
        });
        let blocks = case.file.len() / BLOCK_BYTES;
        let words = blocks * BLOCK_WORDS;
        let [writing, reading] = [write, read].map(|count| (count - check) / words as f64);
        let [to_write, to_read] = [write / their_write, read / their_read];
        print!("{:<26}{blocks:>7}{words:>7}{check:>11}", case.name);
        println!("{write:>11}{writing:>12.1}{to_write:>8.2}{read:>11}{reading:>12.1}{to_read:>8.2}");
    }
}
