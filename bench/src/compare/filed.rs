//! What must be met of files (02, W-211), and how often it was.

use std::fmt;

use super::tally::listed;
use crate::make::files::{Spoiled, SPOILED};
use crate::model::files::{end, words, BLOCK_BYTES};
use crate::model::refusal::{ByNumber, Number, NAMES};

/// What the calls can be refused with, by input.
const TABLE: (&str, usize, &[usize]) = ("table", 1, &[1, 2, 3, 4, 5, 6, 7, 9, 24]);
const PLAN: (&str, usize, &[usize]) = ("plan", 2, &[9, 10, 11, 12, 13, 14, 15]);
const ROOM: (&str, usize, &[usize]) = ("room", 4, &[16]);
const FILE: (&str, usize, &[usize]) = ("file", 8, &[27, 28, 29, 30]);
const OF_WRITING: [(&str, usize, &[usize]); 3] = [TABLE, PLAN, ROOM];
const OF_READING: [(&str, usize, &[usize]); 4] = [FILE, TABLE, PLAN, ROOM];

/// Of files that were written, and of rooms that were refused.
const WRITTEN: [&str; 9] = [
    "125 cells and sizes",
    "126",
    "250",
    "251",
    "66 blocks",
    "a room of exactly the bytes",
    "a larger room",
    "ROOM for one byte less",
    "ROOM with no room",
];

/// Of files that were read, and of those that were refused.
const READ: [&str; 15] = [
    "66 blocks",
    "exactly the rooms",
    "larger rooms",
    "ROOM for the table, a cell less",
    "ROOM for the plan, a cell less",
    "ROOM for both",
    "ROOM with no rooms",
    "no byte",
    "511 bytes",
    "513 bytes",
    "DAMAGE in block 0",
    "in a later block",
    "past block 65",
    "SIZES for too many blocks",
    "SIZES for too few",
];

/// What a file spoiled in one way must be refused with, each at least once; 0 where it must be accepted.
const OF_SPOILED: [(Spoiled, &[usize]); SPOILED.len()] = [
    (Spoiled::Bit, &[28]),
    (Spoiled::Byte, &[28]),
    (Spoiled::Word, &[28]),
    (Spoiled::Neighbours, &[28]),
    (Spoiled::Unseen, &[13, 14, 30]),
    (Spoiled::TwoBlocks, &[28]),
    (Spoiled::Lost, &[27, 28, 29]),
    (Spoiled::Doubled, &[28]),
    (Spoiled::Exchanged, &[28]),
    (Spoiled::Copied, &[28]),
    (Spoiled::Cut, &[27]),
    (Spoiled::CutBetween, &[27, 29]),
    (Spoiled::Longer, &[27, 28]),
    (Spoiled::TableSize, &[29]),
    (Spoiled::PlanSize, &[29, 30]),
    (Spoiled::Moved, &[]),
    (Spoiled::Wrapping, &[29]),
    (Spoiled::Padding, &[30]),
    (Spoiled::PaddingAndWidth, &[30]),
    (Spoiled::BlockMore, &[29]),
    (Spoiled::TableCell, &[]),
    (Spoiled::PlanCell, &[12, 13, 14, 15]),
];

#[derive(Default)]
pub struct Filed {
    files: u64,
    blocks: u64,
    written: [u64; WRITTEN.len()],
    read: [u64; READ.len()],
    /// By input and number, of writing and of reading.
    refused: [[ByNumber<u64>; 9]; 2],
    /// By the way and number.
    spoiled: [ByNumber<u64>; SPOILED.len()],
}

pub(super) fn count(counts: &mut [u64], met: &[bool]) {
    counts.iter_mut().zip(met).for_each(|(count, &met)| *count += u64::from(met));
}

/// A refusal's number and input.
pub(super) fn parts(expected: u64) -> (usize, usize) {
    ((expected & 0xff) as usize, (expected >> 8 & 0xff) as usize)
}

impl Filed {
    /// What came of a table and a plan of so many cells, with so much room.
    pub fn written(&mut self, cells: usize, room: usize, expected: u64) {
        let (number, input) = parts(expected);
        let mut met = [false; WRITTEN.len()];
        if number == 0 {
            let (bytes, blocks) = ((expected >> 16 & 0xffff) as usize, expected >> 32);
            self.files += 1;
            self.blocks += blocks;
            let sizes = [125, 126, 250, 251].map(|size| cells + 2 == size);
            met[..4].copy_from_slice(&sizes);
            met[4..7].copy_from_slice(&[blocks == 66, room == bytes, room > bytes]);
        } else {
            self.refused[0][input][number] += 1;
            let no_room = number == Number::Room as usize;
            met[7..].copy_from_slice(&[no_room && expected >> 16 == room as u64 + 1, no_room && room == 0]);
        }
        count(&mut self.written, &met);
    }

    /// What came of a file that was spoiled in this way, or in none, with so much room for table and plan.
    pub fn read(&mut self, file: &[u8], how: Option<Spoiled>, rooms: [usize; 2], expected: u64) {
        let (number, input) = parts(expected);
        if let Some(how) = how {
            self.spoiled[how as usize][number] += 1;
        }
        if number > 0 {
            self.refused[1][input][number] += 1;
        }
        count(&mut self.read, &of_reading(file, rooms, expected));
    }

    /// Whether all was met.
    pub fn passed(&self) -> bool {
        let refused = |entry: usize, of: &[(&str, usize, &[usize])]| {
            of.iter().all(|&(_, input, numbers)| numbers.iter().all(|&number| self.refused[entry][input][number] > 0))
        };
        let spoiled = OF_SPOILED.iter().all(|&(how, numbers)| {
            let met = &self.spoiled[how as usize];
            met.iter().sum::<u64>() > 0 && numbers.iter().all(|&number| met[number] > 0)
        });
        refused(0, &OF_WRITING) && refused(1, &OF_READING) && spoiled && self.written.iter().chain(&self.read).all(|&met| met > 0)
    }
}

/// In the order of READ.
fn of_reading(file: &[u8], [table, plan]: [usize; 2], expected: u64) -> [bool; READ.len()] {
    let (number, _) = parts(expected);
    let is = |wanted: Number| number == wanted as usize;
    let (blocks, place) = (file.len() / BLOCK_BYTES, expected >> 16);
    let sizes = [4, 8].map(|at| file.get(at..at + 4).map_or(0, |size| words(size)[0]));
    let [table_short, plan_short] = [table < sizes[0] as usize, plan < sizes[1] as usize];
    let exact = table == sizes[0] as usize && plan == sizes[1] as usize;
    let wanted = end(&sizes).div_ceil(125);
    [
        number == 0 && blocks == 66,
        number == 0 && exact,
        number == 0 && table > sizes[0] as usize && plan > sizes[1] as usize,
        is(Number::Room) && table_short && place == table as u64 + 1,
        is(Number::Room) && !table_short && place == plan as u64 + 1,
        is(Number::Room) && table_short && plan_short,
        is(Number::Room) && table == 0 && plan == 0,
        file.is_empty(),
        file.len() == 511,
        file.len() == 513,
        is(Number::Damage) && place == 0,
        is(Number::Damage) && place > 0,
        is(Number::Damage) && place > 65,
        is(Number::Sizes) && wanted < blocks as u64,
        is(Number::Sizes) && wanted > blocks as u64,
    ]
}

impl fmt::Display for Filed {
    fn fmt(&self, f: &mut fmt::Formatter) -> fmt::Result {
        let pairs = |names: &[&'static str], counts: &[u64]| listed(&names.iter().copied().zip(counts.iter().copied()).collect::<Vec<_>>());
        let counted =
            |numbers: &[usize], counts: &[u64]| listed(&numbers.iter().map(|&number| (NAMES[number - 1], counts[number])).collect::<Vec<_>>());
        writeln!(f, "files {}, blocks {}; with: {}", self.files, self.blocks, pairs(&WRITTEN, &self.written))?;
        for (input, place, numbers) in OF_WRITING {
            writeln!(f, "files not written, {input}: {}", counted(numbers, &self.refused[0][place]))?;
        }
        writeln!(f, "files read with: {}", pairs(&READ, &self.read))?;
        for (input, place, numbers) in OF_READING {
            writeln!(f, "files refused, {input}: {}", counted(numbers, &self.refused[1][place]))?;
        }
        for ((how, name), met) in SPOILED.into_iter().zip(&self.spoiled) {
            debug_assert_eq!(how, OF_SPOILED[how as usize].0);
            let numbers: Vec<usize> = (1..=NAMES.len()).filter(|&number| met[number] > 0).collect();
            writeln!(f, "spoiled, {name}: accepted {}, {}", met[0], counted(&numbers, met))?;
        }
        Ok(())
    }
}
