//! Instructions of a record's edits (02, W-207) beside working the table out anew, at 64 rows. `count` and `instructions` go together as those
//! of crate::count.

use std::hint::black_box;
use std::path::Path;

use crate::cases::{FIGURE, KINDS, SEED};
use crate::count::{measured, total};
use crate::engine::{Engine, Exported};
use crate::make::records;
use crate::make::tables::{table, Kind};
use crate::model::plan::PLAN_CELLS;
use crate::model::read::{read_table, ROWS};
use crate::model::record::{drop_last, Record};
use crate::random::Random;

/// The rows whose replacing is counted alone.
const REPLACED: [usize; 5] = [0, 16, 32, 48, 63];

/// A table worked out, and other rows of its kind to put into it.
struct Case {
    table: Vec<u32>,
    record: Box<Record>,
    /// The same without the last row.
    shorter: Box<Record>,
    others: Vec<Vec<u32>>,
}

/// So many calls at a record that is as it was before.
struct Work<'c> {
    name: String,
    calls: usize,
    before: &'c Record,
    call: Box<dyn FnMut(&mut Record) + 'c>,
}

impl Case {
    fn new(kind: Kind) -> Case {
        let cells = table(&mut Random::new(SEED), kind, ROWS);
        let other = table(&mut Random::new(SEED + 1), kind, ROWS);
        let read = read_table(&other).expect("a sound table");
        let others = read.rows.iter().map(|row| other[row.start..row.start + row.cells].to_vec()).collect();
        let record = records::worked_out(&cells, FIGURE);
        let mut shorter = record.clone();
        drop_last(&mut shorter).expect("there are more rows");
        Case { table: cells, record, shorter, others }
    }

    /// Working out first, building second: the others are held against these two.
    fn works(&self) -> Vec<Work<'_>> {
        let mut room = vec![0; PLAN_CELLS];
        let mut works = vec![
            self.work("work out", &self.record, |record| Exported.work_out(&self.table, FIGURE, record)),
            self.work("build from the record", &self.record, move |record| Exported.build_plan(record, &mut room)),
            self.work("append", &self.shorter, |record| Exported.append(record, &self.others[ROWS - 1])),
            self.work("drop", &self.record, |record| Exported.drop_last(record)),
        ];
        for row in REPLACED {
            let replace = move |record: &mut Record| Exported.replace(record, row, &self.others[row]);
            works.push(self.work(&format!("replace row {row}"), &self.record, replace));
        }
        let each = |record: &mut Record| self.others.iter().enumerate().map(|(row, cells)| Exported.replace(record, row, cells)).sum();
        works.push(Work { calls: ROWS, ..self.work("replace, mean of all rows", &self.record, each) });
        works
    }

    fn work<'c>(&'c self, name: &str, before: &'c Record, mut call: impl FnMut(&mut Record) -> u64 + 'c) -> Work<'c> {
        let call = move |record: &mut Record| {
            black_box(call(black_box(record)));
        };
        Work { name: name.to_string(), calls: 1, before, call: Box::new(call) }
    }
}

pub fn count() {
    for (_, kind) in KINDS {
        for mut work in Case::new(kind).works() {
            let [mut first, mut second] = [(); 2].map(|()| records::boxed(work.before.to_vec()));
            (work.call)(&mut first);
            measured(&mut || (work.call)(&mut second));
        }
    }
}

/// Prints the figures from callgrind's files FOLDER/count.1, count.2, ..
pub fn instructions(folder: &Path) {
    println!("\nRecords, {ROWS} rows: against working out anew, and building against working out and building");
    let mut files = 0;
    for (name, kind) in KINDS {
        println!("{name}");
        let case = Case::new(kind);
        let mut anew = 0.0;
        for (place, work) in case.works().into_iter().enumerate() {
            files += 1;
            let count = total(&folder.join(format!("count.{files}"))) as f64 / work.calls as f64;
            if place == 0 {
                anew = count;
            }
            let against = if place == 1 { anew + count } else { anew };
            println!("  {:<28}{count:>12.0}{:>8.2}", work.name, count / against);
        }
    }
}
