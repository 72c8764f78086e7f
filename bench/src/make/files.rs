//! Files (02, W-211) of tables and plans at the bounds, and files spoiled: in their bytes, as cards do it, or in their cells, with numbers and
//! checks made right.

use crate::model::files::{end, sealed, words, BLOCK_BYTES, BLOCK_CELLS, BLOCK_WORDS, CHECKED};
use crate::model::least::least;
use crate::model::read::{read_table, ROWS, ROW_CELLS};
use crate::random::Random;

#[derive(Clone, Copy, Debug, PartialEq, Eq)]
pub enum Spoiled {
    /// In the bytes: one bit, one byte, one word; two neighbouring words exchanged; three neighbouring words so that the checks stay.
    Bit,
    Byte,
    Word,
    Neighbours,
    Unseen,
    /// A byte in each of two blocks.
    TwoBlocks,
    /// Whole blocks: one lost, one there twice, two exchanged, one in another's place as well.
    Lost,
    Doubled,
    Exchanged,
    Copied,
    /// Cut anywhere, cut between blocks, and bytes added.
    Cut,
    CutBetween,
    Longer,
    /// In the cells, checks right: the table's size, the plan's size, one for the other, both by half of what a number can be.
    TableSize,
    PlanSize,
    Moved,
    Wrapping,
    /// A cell after table and plan; that and the table's width.
    Padding,
    PaddingAndWidth,
    /// A block of zeros more.
    BlockMore,
    /// Any cell of the table, of the plan.
    TableCell,
    PlanCell,
}

use Spoiled::*;

pub const SPOILED: [(Spoiled, &str); 22] = [
    (Bit, "a bit"),
    (Byte, "a byte"),
    (Word, "a word"),
    (Neighbours, "two neighbours exchanged"),
    (Unseen, "three words, checks as before"),
    (TwoBlocks, "two blocks"),
    (Lost, "a block lost"),
    (Doubled, "a block doubled"),
    (Exchanged, "blocks exchanged"),
    (Copied, "a block in another's place"),
    (Cut, "cut"),
    (CutBetween, "cut between blocks"),
    (Longer, "bytes added"),
    (TableSize, "the table's size"),
    (PlanSize, "the plan's size"),
    (Moved, "a cell more of one, less of the other"),
    (Wrapping, "sizes whose sum wraps"),
    (Padding, "padding"),
    (PaddingAndWidth, "padding and the width"),
    (BlockMore, "a block of zeros more"),
    (TableCell, "a cell of the table"),
    (PlanCell, "a cell of the plan"),
];

/// Spoils a file of whole sound blocks, where that can be done to it. Gives the first block that has to be told, where the request says that one
/// always is.
pub fn spoil(random: &mut Random, how: Spoiled, file: &mut Vec<u8>) -> Option<usize> {
    match how {
        Bit | Byte | Word | Neighbours | TwoBlocks => in_bytes(random, how, file),
        Unseen => {
            unseen(random, file);
            None
        }
        Lost | Doubled | Exchanged | Copied => in_blocks(random, how, file),
        Cut => {
            // Every second time a byte is changed besides.
            if random.one_in(2) {
                in_bytes(random, Byte, file);
            }
            file.truncate(random.below(file.len()));
            None
        }
        CutBetween => {
            file.truncate(random.below(file.len() / BLOCK_BYTES) * BLOCK_BYTES);
            None
        }
        Longer => {
            let more = *random.pick(&[1, 4, 511, 512, 513, 1024]);
            file.resize(file.len() + more, 0);
            None
        }
        _ => {
            let mut cells = cells(file);
            in_cells(random, how, &mut cells);
            *file = sealed(&cells);
            None
        }
    }
}

fn in_bytes(random: &mut Random, how: Spoiled, file: &mut [u8]) -> Option<usize> {
    let place = random.below(file.len());
    match how {
        Bit => file[place] ^= 1 << random.below(8),
        Byte => file[place] ^= random.within(1..=255) as u8,
        Word => return Some(with_word(random, file, place / 4)),
        Neighbours => return exchange(random, file, place / BLOCK_BYTES),
        _ => {
            let other = random.below(file.len());
            file[place] ^= 0x10;
            file[other] ^= 0x21;
            return Some(place.min(other) / BLOCK_BYTES);
        }
    }
    Some(place / BLOCK_BYTES)
}

/// Changes a word into another; its block.
fn with_word(random: &mut Random, file: &mut [u8], place: usize) -> usize {
    let word = &mut file[4 * place..4 * place + 4];
    let old = words(word)[0];
    let any = random.number() as u32 | 1;
    let by = *random.pick(&[1, 2, u32::MAX, 1 << 31, 1 << 16, 125, any]);
    word.copy_from_slice(&old.wrapping_add(by).to_le_bytes());
    place / BLOCK_WORDS
}

/// Exchanges two unequal neighbours of the words that the checks of a block are over; the block, where there are such.
fn exchange(random: &mut Random, file: &mut [u8], block: usize) -> Option<usize> {
    let bytes = &mut file[block * BLOCK_BYTES..][..4 * CHECKED];
    let unequal = |place: &usize| bytes[4 * place..4 * place + 4] != bytes[4 * place + 4..4 * place + 8];
    let places: Vec<usize> = (0..CHECKED - 1).filter(unequal).collect();
    if places.is_empty() {
        return None;
    }
    let place = *random.pick(&places);
    bytes[4 * place..4 * place + 8].rotate_left(4);
    Some(block)
}

/// One more, two less, one more: what the checks do not tell.
fn unseen(random: &mut Random, file: &mut [u8]) {
    let blocks = file.len() / BLOCK_BYTES;
    // Not the number.
    let first = random.below(blocks) * BLOCK_WORDS + random.within(1..=CHECKED - 3);
    for (place, by) in [(first, 1), (first + 1, 2u32.wrapping_neg()), (first + 2, 1)] {
        let word = &mut file[4 * place..4 * place + 4];
        let changed = words(word)[0].wrapping_add(by);
        word.copy_from_slice(&changed.to_le_bytes());
    }
}

fn in_blocks(random: &mut Random, how: Spoiled, file: &mut Vec<u8>) -> Option<usize> {
    let mut blocks: Vec<Vec<u8>> = file.chunks(BLOCK_BYTES).map(<[u8]>::to_vec).collect();
    let count = blocks.len();
    let [one, other] = [(); 2].map(|()| random.below(count));
    let told = match how {
        Lost => {
            blocks.remove(one);
            (one + 1 < count).then_some(one)
        }
        Doubled => {
            blocks.insert(one, blocks[one].clone());
            Some(one + 1)
        }
        Exchanged => {
            blocks.swap(one, other);
            (one != other).then_some(one.min(other))
        }
        _ => {
            blocks[one] = blocks[other].clone();
            (one != other).then_some(one)
        }
    };
    *file = blocks.concat();
    told
}

/// The cells of all blocks, whatever their numbers and checks are.
pub fn cells(file: &[u8]) -> Vec<u32> {
    file.chunks(BLOCK_BYTES).flat_map(|block| words(&block[4..4 * CHECKED])).collect()
}

fn in_cells(random: &mut Random, how: Spoiled, cells: &mut Vec<u32>) {
    let (table, end) = (cells[0] as usize, end(cells).min(cells.len() as u64) as usize);
    let by = *random.pick(&[1, 2, 124, 125, 126, 500, 1 << 31, u32::MAX, u32::MAX - 1, u32::MAX - 124]);
    match how {
        TableSize => cells[0] = cells[0].wrapping_add(by),
        PlanSize => cells[1] = cells[1].wrapping_add(by),
        Moved => {
            let by = if random.one_in(2) { 1 } else { u32::MAX };
            cells[0] = cells[0].wrapping_add(by);
            cells[1] = cells[1].wrapping_sub(by);
        }
        Wrapping => {
            cells[0] = cells[0].wrapping_add(1 << 31);
            cells[1] = cells[1].wrapping_add(1 << 31);
        }
        BlockMore => cells.resize(cells.len() + BLOCK_CELLS, 0),
        TableCell => changed(random, &mut cells[2..end.min(2 + table)]),
        PlanCell => changed(random, &mut cells[end.min(2 + table)..end]),
        _ => {
            if how == PaddingAndWidth {
                cells[2] = 9;
            }
            let zeros = &mut cells[end..];
            let any = random.below(zeros.len().max(1));
            let place = *random.pick(&[0, zeros.len().saturating_sub(1), any]);
            if let Some(zero) = zeros.get_mut(place) {
                *zero = 1 << random.below(32);
            }
        }
    }
}

fn changed(random: &mut Random, cells: &mut [u32]) {
    if !cells.is_empty() {
        let place = random.below(cells.len());
        cells[place] ^= 1 << random.below(32);
    }
}

/// A name with so many arguments.
fn name(number: u32, arguments: u32) -> u32 {
    1 << 30 | arguments << 16 | number
}

/// A table and its least plan that take exactly so many cells with their two sizes: rows of one name each, the last one below so many others.
pub fn of_cells(count: usize) -> (Vec<u32>, Vec<u32>) {
    // A row takes 3 cells, a name above the last one's 4, and there are 6 besides.
    let fits = |rows: usize| (count.checked_sub(6 + 3 * rows)?.is_multiple_of(4)).then(|| (rows, (count - 6 - 3 * rows) / 4));
    let (rows, above) = (1..=ROWS).rev().find_map(|rows| fits(rows).filter(|&(_, above)| above < ROW_CELLS)).expect("there is such a table");
    let names = (0..rows as u32).map(|number| name(number, 0));
    let mut table: Vec<u32> = [1, rows as u32].into_iter().chain(names).collect();
    let last = table.len() - 1;
    table.splice(last..last, vec![name(64, 1); above]);
    with_plan(table)
}

/// 64 rows of one column with nothing in common, of 32 cells each: no table has more cells, and no plan.
pub fn largest() -> (Vec<u32>, Vec<u32>) {
    let row = |row| [vec![name(row, 1); ROW_CELLS - 1], vec![name(row, 0)]].concat();
    with_plan([vec![1, ROWS as u32], (0..ROWS as u32).flat_map(row).collect()].concat())
}

/// A sound table with its least plan by 01's measure.
pub fn with_plan(table: Vec<u32>) -> (Vec<u32>, Vec<u32>) {
    let plan = least(&read_table(&table).expect("a sound table")).write();
    (table, plan)
}

#[cfg(test)]
mod tests {
    use super::*;

    #[test]
    fn tables_at_the_bounds() {
        for count in [13, 124, 125, 126, 127, 249, 250, 251, 252] {
            let (table, plan) = of_cells(count);
            assert_eq!(2 + table.len() + plan.len(), count);
        }
        let (table, plan) = largest();
        assert_eq!((table.len(), plan.len()), (2050, 6082));
    }

    #[test]
    fn every_kind_is_named() {
        for (number, (how, _)) in SPOILED.into_iter().enumerate() {
            assert_eq!(how as usize, number);
        }
    }
}
