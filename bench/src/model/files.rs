//! One file for a table and its plan (02, W-211), from that page alone: all blocks are taken apart first, then the tests follow in its order.

use super::plan;
use super::read;
use super::refusal::{Answer, Input, Number, Refusal};
use super::{no_room, written};

/// "The file is blocks of 512 bytes, little-endian: block number from 0, 125 cells, then two check words."
pub const BLOCK_BYTES: usize = 512;
pub const BLOCK_WORDS: usize = BLOCK_BYTES / 4;
pub const BLOCK_CELLS: usize = 125;
/// The words that the checks are over.
pub const CHECKED: usize = 1 + BLOCK_CELLS;
/// The most bytes of a file that is accepted: 66 blocks.
pub const FILE_BYTES: usize = 33_792;

/// Writes the file of a table and a plan; its bytes and its blocks.
pub fn write_file(table: &[u32], plan: &[u32], room: &mut [u8]) -> Answer {
    let file = file(table, plan)?;
    written(room, &file)?;
    Ok((file.len(), file.len() / BLOCK_BYTES))
}

/// Writes the table's cells to one room and the plan's to the other; how many they are.
pub fn read_file(file: &[u8], table_room: &mut [u32], plan_room: &mut [u32]) -> Answer {
    let (table, plan) = card(file)?;
    // Both rooms are looked at before one of them is written.
    for (room, cells) in [(&table_room, &table), (&plan_room, &plan)] {
        if room.len() < cells.len() {
            return Err(no_room(cells.len()));
        }
    }
    written(table_room, &table)?;
    written(plan_room, &plan)?;
    Ok((table.len(), plan.len()))
}

/// The file of a table and a plan, before any room is looked at.
pub fn file(table: &[u32], plan: &[u32]) -> Result<Vec<u8>, Refusal> {
    plan::check(&read::read_table(table)?, plan)?;
    Ok(sealed(&filled(table, plan)))
}

/// The table and the plan in a file, before any room is looked at.
pub fn card(file: &[u8]) -> Result<(Vec<u32>, Vec<u32>), Refusal> {
    let refused = |number, place| Err(Refusal { number, input: Input::File, place });
    if file.is_empty() || !file.len().is_multiple_of(BLOCK_BYTES) {
        return refused(Number::Blocks, 0);
    }
    let blocks: Vec<Vec<u32>> = file.chunks(BLOCK_BYTES).map(words).collect();
    if let Some(place) = (0..blocks.len()).find(|&place| !is_sound(&blocks[place], place)) {
        return refused(Number::Damage, place);
    }
    let cells: Vec<u32> = blocks.iter().flat_map(|block| &block[1..CHECKED]).copied().collect();
    let end = end(&cells);
    if end.div_ceil(BLOCK_CELLS as u64) != blocks.len() as u64 {
        return refused(Number::Sizes, 0);
    }
    let (used, zeros) = cells.split_at(end as usize);
    if zeros.iter().any(|&cell| cell != 0) {
        return refused(Number::Padding, 0);
    }
    let (table, plan) = used[2..].split_at(used[0] as usize);
    plan::check(&read::read_table(table)?, plan)?;
    Ok((table.to_vec(), plan.to_vec()))
}

/// Where the zeros begin, by the sizes at the start of the cells.
pub fn end(cells: &[u32]) -> u64 {
    2 + u64::from(cells[0]) + u64::from(cells[1])
}

/// "The cells are table size, plan size, table, plan, zeros to the end of the block, and no more blocks than needed"; for any lists of cells.
pub fn filled(table: &[u32], plan: &[u32]) -> Vec<u32> {
    let mut cells = [&[table.len() as u32, plan.len() as u32], table, plan].concat();
    cells.resize(cells.len().next_multiple_of(BLOCK_CELLS), 0);
    cells
}

/// The blocks of any cells, numbers and checks right.
pub fn sealed(cells: &[u32]) -> Vec<u8> {
    cells.chunks(BLOCK_CELLS).zip(0..).flat_map(|(cells, number)| block(number, cells)).collect()
}

/// The bytes of one block.
pub fn block(number: u32, cells: &[u32]) -> Vec<u8> {
    let checked = [&[number], cells].concat();
    [&checked[..], &checks(&checked)].concat().iter().flat_map(|word| word.to_le_bytes()).collect()
}

/// The words of bytes.
pub fn words(bytes: &[u8]) -> Vec<u32> {
    bytes.chunks_exact(4).map(|word| u32::from_le_bytes(word.try_into().expect("four bytes"))).collect()
}

fn is_sound(block: &[u32], place: usize) -> bool {
    block[0] as usize == place && block[CHECKED..] == checks(&block[..CHECKED])
}

/// "The first starts at 1 and adds the number and each cell modulo 2^32; the second starts at 0 and adds the first after each addition, likewise."
pub fn checks(words: &[u32]) -> [u32; 2] {
    const MODULUS: u64 = 1 << 32;
    let (mut first, mut second) = (1, 0);
    for &word in words {
        first = (first + u64::from(word)) % MODULUS;
        second = (second + first) % MODULUS;
    }
    [first as u32, second as u32]
}

/// The same, of not too many words, without sums that run on: in the second a word counts once for every word from it to the end.
pub fn checks_by_places(words: &[u32]) -> [u32; 2] {
    let first: u64 = words.iter().map(|&word| u64::from(word)).sum();
    let second: u64 = words.iter().rev().zip(1..).map(|(&word, times)| times * u64::from(word)).sum();
    [1 + first, words.len() as u64 + second].map(|sum| sum as u32)
}

#[cfg(test)]
mod tests {
    use super::*;

    #[test]
    fn checks_written_down() {
        let lists: [(&[u32], [u32; 2]); 5] =
            [(&[0; 126], [1, 126]), (&[0, 1], [2, 3]), (&[1, 0], [2, 4]), (&[u32::MAX], [0, 0]), (&[1, 0, 1], [3, 7])];
        for (words, expected) in lists {
            assert_eq!([checks(words), checks_by_places(words)], [expected; 2]);
        }
        // Words that differ in more than one place may have equal checks.
        assert_eq!(checks(&[0, 2, 0]), checks(&[1, 0, 1]));
    }

    #[test]
    fn blocks_by_the_number_of_cells() {
        for (cells, blocks) in [(125, 1), (126, 2), (250, 2), (251, 3), (2 + 2050 + 6082, 66)] {
            assert_eq!(sealed(&filled(&vec![0; cells - 2], &[])).len(), blocks * BLOCK_BYTES);
        }
    }

    #[test]
    fn sizes_do_not_wrap() {
        assert_eq!(end(&[u32::MAX, u32::MAX]), 1 << 33);
    }
}
