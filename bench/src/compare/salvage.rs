//! What is saved of a bad card (02, W-212): the request's examples written down, a small and the largest card harmed block by block and word by
//! word, then random cards harmed in every way. Each with rooms too small, just enough and larger.

use super::saved::Ways;
use super::{Comparison, Entry, MARGIN};
use crate::engine::Engine;
use crate::make::cards::{wear, wipe, Card, CHANGED, WORN};
use crate::make::files::{cells, largest, of_cells, spoil, with_plan, SPOILED};
use crate::make::plans;
use crate::model::files::{block, card, file, filled, sealed, words, BLOCK_BYTES, BLOCK_CELLS, BLOCK_WORDS, CHECKED};
use crate::model::plan::PLAN_CELLS;
use crate::model::read::{read_table, TABLE_CELLS};
use crate::model::refusal::{packed, Refusal};
use crate::model::salvage::{found, kept_by_counts, saved, Report, Saved};
use crate::notation::{plan, table};

/// A shop's card: 12 rows, 54 cells, a plan of 107, two blocks.
pub const SHOP: &[u8; 1024] = include_bytes!("../../../samples/shop.card");

/// No sound first block, or no width or count; no row that is kept.
pub const HEAD: u64 = 31 | 8 << 8;
pub const NONE: u64 = 32 | 8 << 8;

/// The request's examples: what was done to a file, the file, and what is saved of it or its refusal.
pub fn examples() -> Vec<(&'static str, Vec<u8>, Result<Saved, u64>)> {
    let shop = card(SHOP).expect("the shop's card is sound");
    let of_shop = |plan_kept, bad: &[usize]| {
        let (table, plan) = shop.clone();
        Ok(Saved { table, plan, bad: bad.to_vec(), dropped: 0, plan_kept })
    };
    let (first, second) = SHOP.split_at(BLOCK_BYTES);
    let zeros = [0; BLOCK_BYTES];
    let noise: Vec<u8> = (0..BLOCK_BYTES).map(|place| (place * 73 + 5) as u8).collect();
    let with = |change: &dyn Fn(&mut Vec<u32>)| {
        let mut cells = cells(SHOP);
        change(&mut cells);
        sealed(&cells)
    };
    let mut examples = vec![
        ("sound", SHOP.to_vec(), of_shop(true, &[])),
        ("block 1 zeroed", [first, &zeros].concat(), of_shop(false, &[1])),
        ("the last byte missing", SHOP[..1023].to_vec(), of_shop(false, &[1])),
        ("block 1 missing", first.to_vec(), of_shop(false, &[])),
        ("block 0 zeroed", [&zeros, second].concat(), Err(HEAD)),
        ("511 bytes", SHOP[..511].to_vec(), Err(HEAD)),
        ("no byte", Vec::new(), Err(HEAD)),
        ("width 9", with(&|cells| cells[2] = 9), Err(HEAD)),
        ("count 0", with(&|cells| cells[3] = 0), Err(HEAD)),
        ("count 65", with(&|cells| cells[3] = 65), Err(HEAD)),
        ("the first cell of kind 3", with(&|cells| cells[4] |= 3 << 30), Err(NONE)),
        ("a block of noise behind", [SHOP, &noise[..]].concat(), of_shop(true, &[2])),
        ("one byte behind", [SHOP, &noise[..1]].concat(), of_shop(true, &[2])),
    ];
    for (what, size) in [("table size 0", 0), ("table size 1", 1), ("table size 2", 2)] {
        examples.push((what, with(&|cells| cells[0] = size), Err(NONE)));
    }
    examples.extend(short_examples());
    examples.push(block_lost());
    examples.push(plan_after_a_bad_block());
    examples
}

/// Those of a few rows of one letter.
fn short_examples() -> Vec<(&'static str, Vec<u8>, Result<Saved, u64>)> {
    let two = with_plan(table("(a) (b)"));
    let mut no_cell = two.0.clone();
    no_cell[3] |= 3 << 30;
    let mut three = two.0.clone();
    three[1] = 3;
    let saved = |rows, least, dropped| Ok(Saved { table: table(rows), plan: plan(least), bad: Vec::new(), dropped, plan_kept: false });
    let twice = table("(a) (b) (a)");
    vec![
        ("a second row of kind 3", sealed(&filled(&no_cell, &two.1)), saved("(a)", "0 1 a 1", 1)),
        ("a row twice", sealed(&filled(&twice, &plan("0 3 a 1 b 1 a 1"))), saved("(a) (b)", "0 2 a 1 b 1", 1)),
        ("count 3 for two rows", sealed(&filled(&three, &two.1)), saved("(a) (b)", "0 2 a 1 b 1", 1)),
        ("a plan for other rows", sealed(&filled(&two.0, &plan("0 2 a 1 c 1"))), saved("(a) (b)", "0 2 a 1 b 1", 0)),
    ]
}

/// Of 40 rows of 32 cells the rows that end before block 5, which is lost: 19, since row 19 ends with cell 643, and block 5 begins with cell 625.
fn block_lost() -> (&'static str, Vec<u8>, Result<Saved, u64>) {
    let first_rows = |rows: u32| {
        let mut table = largest().0;
        table.truncate(2 + 32 * rows as usize);
        table[1] = rows;
        with_plan(table)
    };
    let (table, plan) = first_rows(40);
    let mut bytes = sealed(&filled(&table, &plan));
    bytes.drain(5 * BLOCK_BYTES..6 * BLOCK_BYTES);
    let bad = (5..bytes.len() / BLOCK_BYTES).collect();
    let (table, plan) = first_rows(19);
    ("a block lost of 40 rows", bytes, Ok(Saved { table, plan, bad, dropped: 21, plan_kept: false }))
}

/// Four cells of rows and 298 more belong to the table, so that the plan is in block 2; block 1 is bad.
fn plan_after_a_bad_block() -> (&'static str, Vec<u8>, Result<Saved, u64>) {
    let table = table("(a,c) (b,c)");
    // Not the least plan, so that it is seen to be the card's.
    let plan = plan("0 2 a 0 1 c 1 b 0 1 c 1");
    let mut bytes = sealed(&filled(&[&table[..], &[0; 298]].concat(), &plan));
    wipe(&mut bytes, |block| block == 1);
    ("a plan after a bad block", bytes, Ok(Saved { table, plan, bad: vec![1], dropped: 0, plan_kept: true }))
}

/// The rooms of a call and the report, each with margins, and what they hold before.
#[derive(Clone, PartialEq, Eq)]
struct Lent {
    table: Vec<u32>,
    plan: Vec<u32>,
    bad: Vec<usize>,
    report: [Report; 3],
}

impl Lent {
    fn call(mut self, call: impl FnOnce(&mut [u32], &mut [u32], &mut [usize], &mut Report) -> u64) -> (u64, Lent) {
        fn middle<T>(lent: &mut [T]) -> &mut [T] {
            let end = lent.len() - MARGIN;
            &mut lent[MARGIN..end]
        }
        let answer = call(middle(&mut self.table), middle(&mut self.plan), middle(&mut self.bad), &mut self.report[1]);
        (answer, self)
    }
}

impl<E: Engine> Comparison<'_, E> {
    pub(super) fn fixed_salvages(&mut self) {
        for (what, bytes, expected) in examples() {
            let same = saved(&bytes).map_err(|refusal| packed(Err(refusal))) == expected;
            self.tally.own("what is saved against what is written down", same, &|| what.to_string());
            self.in_all_rooms(&bytes);
        }
        self.largest_harmed();
        self.every_word_harmed();
        self.rows_at_the_bounds();
        self.plans_at_the_bounds();
        self.every_table_size();
        self.many_bad_blocks();
    }

    /// Rooms of no size, one too small, just enough, one more and larger, for each of the three; all of them too small.
    fn in_all_rooms(&mut self, bytes: &[u8]) {
        let saved = saved(bytes);
        let needed = saved.as_ref().map_or([3, 4, 1], Saved::needed);
        for room in 0..3 {
            for size in [0, needed[room].saturating_sub(1), needed[room], needed[room] + 1, needed[room] + 1000] {
                let mut rooms = needed;
                rooms[room] = size;
                self.salvage_in(bytes, &saved, &Ways::default(), rooms);
            }
        }
        let short = needed.map(|size| size.saturating_sub(1));
        for rooms in [[0; 3], short, [needed[0], short[1], short[2]], [TABLE_CELLS, PLAN_CELLS, 100]] {
            self.salvage_in(bytes, &saved, &Ways::default(), rooms);
        }
        self.among_themselves(bytes, &saved);
    }

    /// 66 blocks: each of them wiped, and the file cut before it and within it.
    fn largest_harmed(&mut self) {
        let (table, plan) = largest();
        let whole = sealed(&filled(&table, &plan));
        self.in_all_rooms(&whole);
        for block in (0..66).step_by(3).chain([1, 2, 65]) {
            let mut wiped = whole.clone();
            wipe(&mut wiped, |number| number == block);
            self.salvage_largely(&wiped);
            self.salvage_largely(&whole[..block * BLOCK_BYTES]);
            self.salvage_largely(&whole[..block * BLOCK_BYTES + 1 + 7 * block]);
        }
    }

    /// Every fifth word of three blocks changed, and their numbers and checks; the file cut there.
    fn every_word_harmed(&mut self) {
        let (table, plan) = of_cells(251);
        let whole = sealed(&filled(&table, &plan));
        let ends = [0, 1, 2].into_iter().flat_map(|block| [0, CHECKED, CHECKED + 1].map(|word| block * BLOCK_WORDS + word));
        for place in (0..3 * BLOCK_WORDS).step_by(5).chain(ends) {
            let mut changed = whole.clone();
            changed[4 * place] ^= 1 << self.random.below(8);
            self.salvage_largely(&changed);
            self.salvage_largely(&whole[..4 * place]);
        }
    }

    /// Rows of 11 cells, of which the eleventh ends with block 0, and some more; of 10 and 12, of which one lies in both blocks.
    fn rows_at_the_bounds(&mut self) {
        for length in [10, 11, 12] {
            let row = |row| [vec![1 << 30 | 1 << 16; length - 1], vec![1 << 30 | row]].concat();
            for rows in [10, 11, 12, 20] {
                let (table, plan) = with_plan([vec![1, rows], (0..rows).flat_map(row).collect()].concat());
                let mut bytes = sealed(&filled(&table, &plan));
                self.salvage_largely(&bytes[..BLOCK_BYTES]);
                wipe(&mut bytes, |block| block == 1);
                self.salvage_largely(&bytes);
            }
        }
    }

    /// Plans that end with a block, and bad ones behind; such that the plan size counts a cell more; and plans far behind the rows, where the table
    /// size is over what a table has.
    fn plans_at_the_bounds(&mut self) {
        for (count, more) in [(125, 0), (250, 0), (125, 1), (250, 1)] {
            let (table, plan) = of_cells(count);
            let mut cells = filled(&table, &plan);
            cells[1] += more;
            let whole = sealed(&cells);
            for behind in [0, 1, BLOCK_BYTES, BLOCK_BYTES + 1] {
                self.salvage_largely(&[&whole[..], &vec![0; behind]].concat());
            }
        }
        let (table, plan) = of_cells(126);
        for size in [TABLE_CELLS, TABLE_CELLS + 1, 5000] {
            let mut longer = table.clone();
            longer.resize(size, 1);
            let mut bytes = sealed(&filled(&longer, &plan));
            self.salvage_largely(&bytes);
            wipe(&mut bytes, |block| block == 2);
            self.salvage_largely(&bytes);
        }
    }

    /// Every table size up to the end of the rows and a little more, with the plan where it was; and such as no file has.
    fn every_table_size(&mut self) {
        let (table, plan) = of_cells(126);
        let mut cells = filled(&table, &plan);
        let far = [2049, 2050, 2051, 4000, 1 << 16, 1 << 31, u32::MAX - 1, u32::MAX];
        for size in (0..=table.len() as u32 + 3).chain(far) {
            cells[0] = size;
            self.salvage_largely(&sealed(&cells));
        }
        // Plan sizes about the right one, and such as no file has.
        cells[0] = table.len() as u32;
        let right = plan.len() as u32;
        for size in [0, 1, right - 1, right, right + 1, 6082, 6083, 1 << 31, u32::MAX] {
            cells[1] = size;
            self.salvage_largely(&sealed(&cells));
        }
    }

    /// More bad blocks than a card has, and numbers that count to 256 only.
    fn many_bad_blocks(&mut self) {
        let (table, plan) = of_cells(251);
        let mut bytes = sealed(&filled(&table, &plan));
        for number in 3..600u32 {
            bytes.extend(block(number % 256, &[number; BLOCK_CELLS]));
        }
        self.in_all_rooms(&bytes);
        wipe(&mut bytes, |block| block % 2 == 1);
        self.in_all_rooms(&bytes);
    }

    /// Any card, sound; then harmed in its cells, in its blocks and in its bytes, each of them or not.
    pub(super) fn random_salvages(&mut self) {
        let sound = if self.random.one_in(50) { Card::new(largest().0, largest().1) } else { Card::any(&mut self.random) };
        let written = sound.sealed();
        self.salvage(&written, &Ways::default());
        for _ in 0..4 {
            let (mut ways, mut card) = (Ways::default(), sound.clone());
            while self.random.one_in(2) && ways.changed.len() < 3 {
                let (how, _) = *self.random.pick(&CHANGED);
                card.change(&mut self.random, how);
                ways.changed.push(how);
            }
            // A plan for what stands there now, so that it can be kept.
            if let (true, Ok(table)) = (self.random.one_in(3), read_table(&card.table)) {
                card.plan = plans::any(&mut self.random, &table);
            }
            let mut bytes = card.sealed();
            if self.random.one_in(2) {
                let (how, _) = *self.random.pick(&SPOILED);
                spoil(&mut self.random, how, &mut bytes);
                ways.spoiled = Some(how);
            }
            if self.random.one_in(2) {
                let (how, _) = *self.random.pick(&WORN);
                wear(&mut self.random, how, &mut bytes);
                ways.worn = Some(how);
            }
            self.originals(&written, &sound.table, &bytes);
            self.salvage(&bytes, &ways);
        }
    }

    /// "Kept rows are the original's, cell for cell, where sound blocks are as written."
    fn originals(&mut self, written: &[u8], table: &[u32], bytes: &[u8]) {
        let (Ok(saved), Ok(found)) = (saved(bytes), found(bytes)) else {
            return;
        };
        let blocks = |file: &[u8]| file.chunks(BLOCK_BYTES).map(<[u8]>::to_vec).collect::<Vec<_>>();
        let original = blocks(written);
        let as_written = |(place, block): (usize, Vec<u8>)| found.bad.contains(&place) || original.get(place) == Some(&block);
        if blocks(bytes).into_iter().enumerate().all(as_written) {
            let same = table[0] == saved.table[0] && saved.table[1] <= table[1] && table[2..].starts_with(&saved.table[2..]);
            self.tally.own("rows saved from sound blocks as they were written against the original's", same, &|| shown(bytes));
        }
    }

    /// In rooms too small, just enough or larger.
    fn salvage(&mut self, bytes: &[u8], ways: &Ways) {
        let saved = saved(bytes);
        let needed = saved.as_ref().map_or([10; 3], Saved::needed);
        let most = [TABLE_CELLS + 20, PLAN_CELLS + 20, needed[2] + 200];
        let mut rooms = [0, 1, 2].map(|room| self.room(needed[room], most[room]));
        // Else one of the three would nearly always be too small.
        if self.random.one_in(2) {
            let all = [0, 1, 2].map(|room| rooms[room].max(needed[room]));
            let only = self.random.below(6);
            rooms = [0, 1, 2].map(|room| if room == only { rooms[room] } else { all[room] });
        }
        self.salvage_in(bytes, &saved, ways, rooms);
        self.among_themselves(bytes, &saved);
    }

    /// In rooms that are large enough for every card.
    fn salvage_largely(&mut self, bytes: &[u8]) {
        let saved = saved(bytes);
        self.salvage_in(bytes, &saved, &Ways::default(), [TABLE_CELLS, PLAN_CELLS, 70]);
        self.among_themselves(bytes, &saved);
    }

    fn salvage_in(&mut self, bytes: &[u8], saved: &Result<Saved, Refusal>, ways: &Ways, rooms: [usize; 3]) {
        let mut number = || self.random.number() as usize;
        let mut report =
            || Report { kept: number(), dropped: number(), plan_kept: number(), table_cells: number(), plan_cells: number(), bad_blocks: number() };
        let report = [(); 3].map(|()| report());
        let bad = self.lent(rooms[2]).into_iter().map(|cell| cell as usize * 0x1_0000_0001).collect();
        let lent = Lent { table: self.lent(rooms[0]), plan: self.lent(rooms[1]), bad, report };
        let (answer, left) = lent.clone().call(|table, plan, bad, report| self.exported.salvage(bytes, table, plan, bad, report));
        let (expected, wanted) = lent.call(|table, plan, bad, report| match saved {
            Ok(saved) => packed(saved.put(table, plan, bad, report)),
            Err(refusal) => packed(Err(*refusal)),
        });
        let describe = || format!("{ways:?} {} rooms {rooms:?}: {:?} and not {:?}", shown(bytes), left.report[1], wanted.report[1]);
        self.tally.settle(Entry::Salvage, answer, expected, left == wanted, &describe);
        self.tally.salvages.note(bytes, saved, ways, rooms, expected);
    }

    /// The rows by counts; what is saved is a card again; and "a file W-211 accepts comes through unchanged".
    fn among_themselves(&mut self, bytes: &[u8], saved: &Result<Saved, Refusal>) {
        let describe = || shown(bytes);
        if let Ok(found) = found(bytes) {
            let by_counts = kept_by_counts(&found);
            let same = saved.as_ref().map_or(by_counts[1] == 0, |saved| saved.table == by_counts);
            self.tally.own("rows saved one by one against the largest count that is a table", same, &describe);
        }
        if let Ok(saved) = saved {
            let again = file(&saved.table, &saved.plan);
            self.tally.own("what is saved against its own file read back", again.is_ok_and(|file| card(&file).is_ok()), &describe);
        }
        if let Ok((table, plan)) = card(bytes) {
            let whole = Saved { table, plan, bad: Vec::new(), dropped: 0, plan_kept: true };
            self.tally.own("files that are accepted against what is saved of them", saved.as_ref() == Ok(&whole), &describe);
        }
    }
}

/// The first words of a file, and how many bytes it has.
fn shown(bytes: &[u8]) -> String {
    format!("file of {} bytes: {:?}", bytes.len(), words(&bytes[..bytes.len().min(4 * BLOCK_BYTES)]))
}
