//! Instructions of what is saved of a card (02, W-212): of a sound one, of one whose last block is wiped, so that a plan is built, and of one whose
//! middle block is; in all, and for each word beside the reading of rows and the check or the building of the plan. `count` and `instructions` go
//! together as those of crate::count.

use std::hint::black_box;
use std::path::Path;

use crate::cases::{KINDS, ROWS, SEED};
use crate::count::{measured, total};
use crate::engine::{Engine, Exported, Plain};
use crate::make::cards::wipe;
use crate::make::files::{largest, with_plan};
use crate::make::records;
use crate::make::tables::table;
use crate::model::files::{filled, sealed, BLOCK_BYTES, BLOCK_WORDS};
use crate::model::plan::PLAN_CELLS;
use crate::model::read::TABLE_CELLS;
use crate::model::record::Record;
use crate::model::salvage::{saved, Report};
use crate::random::Random;

/// A card, and what is saved of it.
struct Card {
    file: Vec<u8>,
    table: Vec<u32>,
    record: Box<Record>,
    plan: Vec<u32>,
    plan_kept: bool,
}

impl Card {
    fn new(file: Vec<u8>) -> Card {
        let saved = saved(&file).expect("something is saved");
        Card { file, record: records::worked_out(&saved.table, 0), table: saved.table, plan: saved.plan, plan_kept: saved.plan_kept }
    }

    /// Saving; the reading of the rows kept; the check of a plan that was kept, or the table worked out and its plan built; the independent saving.
    fn works(&self) -> [Box<dyn FnMut() -> u64 + '_>; 4] {
        let [mut rooms, mut theirs] = [(); 2].map(|()| (vec![0; TABLE_CELLS], vec![0; PLAN_CELLS], vec![0; 66], Report::default()));
        let (mut record, mut room) = (records::empty(), vec![0; PLAN_CELLS]);
        [
            Box::new(move || Exported.salvage(&self.file, &mut rooms.0, &mut rooms.1, &mut rooms.2, &mut rooms.3)),
            Box::new(|| Exported.read_table(&self.table)),
            Box::new(move || {
                if self.plan_kept {
                    return Exported.check_plan(&self.record, &self.plan);
                }
                Exported.work_out(&self.table, 0, &mut record);
                Exported.build_plan(&record, &mut room)
            }),
            Box::new(move || Plain.salvage(&self.file, &mut theirs.0, &mut theirs.1, &mut theirs.2, &mut theirs.3)),
        ]
    }
}

/// The largest tables of crate::cases with their least plans, then the largest card; each sound, with its last block wiped, and with a middle one.
fn cards() -> Vec<(String, Card)> {
    let most = ROWS[ROWS.len() - 1];
    let tables = KINDS.iter().map(|&(name, kind)| (name, with_plan(table(&mut Random::new(SEED), kind, most))));
    let sound = tables.chain([("nothing in common", largest())]).map(|(name, (table, plan))| (name, sealed(&filled(&table, &plan))));
    let harmed = sound.flat_map(|(name, file)| {
        let blocks = file.len() / BLOCK_BYTES;
        [("", blocks), (", the last wiped", blocks - 1), (", a middle one", blocks / 8 + 1)].map(|(how, bad)| {
            let mut file = file.clone();
            wipe(&mut file, |block| block == bad);
            (format!("{name}{how}"), Card::new(file))
        })
    });
    harmed.collect()
}

pub fn count() {
    for (_, card) in cards() {
        for mut work in card.works() {
            black_box(work());
            measured(&mut || {
                black_box(work());
            });
        }
    }
}

/// Prints the figures from callgrind's files FOLDER/count.1, count.2, ..
pub fn instructions(folder: &Path) {
    println!("\nBad cards: saving, for a word beside the rows read and the plan checked or built, and to the independent one");
    println!("{:<36}{:>7}{:>6}{:>11}{:>11}{:>11}{:>12}{:>8}", "", "blocks", "rows", "the rows", "the plan", "saving", "for a word", "ratio");
    let mut files = 0;
    for (name, card) in cards() {
        let [saving, rows, plan, theirs] = [(); 4].map(|()| {
            files += 1;
            total(&folder.join(format!("count.{files}"))) as f64
        });
        let blocks = card.file.len() / BLOCK_BYTES;
        let (word, ratio) = ((saving - rows - plan) / (blocks * BLOCK_WORDS) as f64, saving / theirs);
        println!("{name:<36}{blocks:>7}{:>6}{rows:>11}{plan:>11}{saving:>11}{word:>12.1}{ratio:>8.2}", card.table[1]);
    }
}
