//! Instructions of a plan handed back as Prolog (02, W-210), in all and for each byte of its text. `count` and `instructions` go together as those
//! of crate::count.

use std::hint::black_box;
use std::path::Path;

use crate::cases::{FIGURE, KINDS, ROWS, SEED};
use crate::count::{measured, total};
use crate::engine::{Engine, Exported, Plain};
use crate::make::names::Named;
use crate::make::records;
use crate::make::tables::{table, Kind};
use crate::model::least::least;
use crate::model::read::read_table;
use crate::model::record::Record;
use crate::random::Random;

/// More bytes than any of the texts has.
const ROOM: usize = 1 << 18;

/// A table with its record, its least plan by 01's measure, and its names.
struct Case {
    name: String,
    record: Box<Record>,
    plan: Vec<u32>,
    named: Named,
}

impl Case {
    fn new(name: &str, kind: Kind, rows: usize) -> Case {
        let mut cells = table(&mut Random::new(SEED), kind, rows);
        let count = numbered_anew(&mut cells);
        Case::of(format!("{name}, {rows} rows"), &cells, count)
    }

    /// With so many names of 8 bytes.
    fn of(name: String, cells: &[u32], names: usize) -> Case {
        let plan = least(&read_table(cells).expect("a sound table")).write();
        let words: Vec<String> = (0..names).map(|number| format!("name{number:04}")).collect();
        Case { name, record: records::worked_out(cells, FIGURE), plan, named: Named::of(&words) }
    }

    /// The call, the check of the plan that it contains, and the independent call.
    fn works(&self) -> [Box<dyn FnMut() -> u64 + '_>; 3] {
        let [mut room, mut theirs] = [(); 2].map(|()| vec![0; ROOM]);
        let Named { text, names } = &self.named;
        [
            Box::new(move || Exported.clauses(&self.record, &self.plan, text, names, &mut room)),
            Box::new(|| Exported.check_plan(&self.record, &self.plan)),
            Box::new(move || Plain.clauses(&self.record, &self.plan, text, names, &mut theirs)),
        ]
    }

    /// Clauses and bytes.
    fn sizes(&self) -> (u64, u64) {
        let answer = Plain.clauses(&self.record, &self.plan, &self.named.text, &self.named.names, &mut vec![0; ROOM]);
        (answer >> 16 & 0xffff, answer >> 32)
    }
}

/// Numbers the names of a table from 0 by first appearance, as a text's are, whatever number of arguments they have; how many there are.
fn numbered_anew(cells: &mut [u32]) -> usize {
    let mut met = Vec::new();
    for cell in cells[2..].iter_mut().filter(|cell| **cell >> 30 == 1) {
        let number = *cell & 0xffff;
        if !met.contains(&number) {
            met.push(number);
        }
        *cell = *cell & !0xffff | met.iter().position(|&other| other == number).expect("it was met") as u32;
    }
    met.len()
}

/// The tables of crate::cases; then one row with the longest list that a text gives.
fn cases() -> Vec<Case> {
    let sizes = KINDS.iter().flat_map(|&(name, kind)| ROWS.map(|rows| Case::new(name, kind, rows)));
    sizes.chain([Case::of("one row, 2,048 names".into(), &[1, 1, 1 << 30], 2048)]).collect()
}

pub fn count() {
    for case in cases() {
        for mut work in case.works() {
            black_box(work());
            measured(&mut || {
                black_box(work());
            });
        }
    }
}

/// Prints the figures from callgrind's files FOLDER/count.1, count.2, ..
pub fn instructions(folder: &Path) {
    println!("\nPlans handed back as Prolog: words of 8 bytes");
    println!(
        "{:<26}{:>8}{:>8}{:>14}{:>12}{:>12}{:>14}{:>12}{:>8}",
        "", "clauses", "bytes", "instructions", "for a byte", "the check", "independent", "for a byte", "ratio"
    );
    let mut files = 0;
    for case in cases() {
        let [exported, check, independent] = [(); 3].map(|()| {
            files += 1;
            total(&folder.join(format!("count.{files}"))) as f64
        });
        let (clauses, bytes) = case.sizes();
        let [each, theirs] = [exported, independent].map(|count| count / bytes as f64);
        let ratio = exported / independent;
        println!("{:<26}{clauses:>8}{bytes:>8}{exported:>14}{each:>12.1}{check:>12}{independent:>14}{theirs:>12.1}{ratio:>8.2}", case.name);
    }
}
