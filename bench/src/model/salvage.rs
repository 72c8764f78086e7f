//! What is saved of a bad card (02, W-212), from that page alone: the file is one list of cells, each of them there or not, and rows and plan are
//! looked for in it.

use super::files::{checks_by_places, words, BLOCK_BYTES, BLOCK_CELLS, CHECKED};
use super::least::{least_by, Measure};
use super::read::{read_row, read_table, ROW_CELLS, TABLE_CELLS};
use super::refusal::{Answer, Input, Number, Refusal};
use super::{no_room, plan, written};

/// The report as the exported function writes it: rows kept, rows dropped, 1 where the plan was kept; the cells of both, and how many blocks are bad.
#[repr(C)]
#[derive(Clone, Copy, Debug, Default, PartialEq, Eq)]
pub struct Report {
    pub kept: usize,
    pub dropped: usize,
    pub plan_kept: usize,
    pub table_cells: usize,
    pub plan_cells: usize,
    pub bad_blocks: usize,
}

/// What is saved, before any room is looked at.
#[derive(Clone, Debug, PartialEq, Eq)]
pub struct Saved {
    pub table: Vec<u32>,
    pub plan: Vec<u32>,
    pub bad: Vec<usize>,
    pub dropped: usize,
    pub plan_kept: bool,
}

impl Saved {
    pub fn report(&self) -> Report {
        Report {
            kept: self.table[1] as usize,
            dropped: self.dropped,
            plan_kept: usize::from(self.plan_kept),
            table_cells: self.table.len(),
            plan_cells: self.plan.len(),
            bad_blocks: self.bad.len(),
        }
    }

    /// As much room as is needed for table, plan and the numbers of the bad blocks.
    pub fn needed(&self) -> [usize; 3] {
        [self.table.len(), self.plan.len(), self.bad.len()]
    }

    /// Writes the three and the report; the rows kept and the rows dropped.
    pub fn put(&self, table: &mut [u32], plan: &mut [u32], bad: &mut [usize], report: &mut Report) -> Answer {
        // All rooms are looked at before one of them is written.
        let (lent, needed) = ([table.len(), plan.len(), bad.len()], self.needed());
        if let Some(room) = (0..3).find(|&room| lent[room] < needed[room]) {
            return Err(no_room(needed[room]));
        }
        written(table, &self.table)?;
        written(plan, &self.plan)?;
        written(bad, &self.bad)?;
        *report = self.report();
        Ok((report.kept, report.dropped))
    }
}

/// Writes what is saved of a file.
pub fn salvage(file: &[u8], table: &mut [u32], plan: &mut [u32], bad: &mut [usize], report: &mut Report) -> Answer {
    saved(file)?.put(table, plan, bad, report)
}

pub fn saved(file: &[u8]) -> Result<Saved, Refusal> {
    let found = found(file)?;
    let table = kept(found.width, found.count, &found.rows);
    if table[1] == 0 {
        return Err(refusal(Number::None));
    }
    let read = read_table(&table).expect("rows that were kept are a table");
    let old = found.plan.filter(|cells| table[1] == found.count && plan::check(&read, cells).is_ok());
    Ok(Saved {
        dropped: (found.count - table[1]) as usize,
        plan_kept: old.is_some(),
        plan: old.unwrap_or_else(|| least_by(&read, Measure::Work(0)).write()),
        bad: found.bad,
        table,
    })
}

fn refusal(number: Number) -> Refusal {
    Refusal { number, input: Input::File, place: 0 }
}

/// What stands in a file whose block 0 is sound and has a width and a count.
#[derive(Debug)]
pub struct Found {
    pub width: u32,
    pub count: u32,
    /// The cells that are there from the first row on, "within the table size and before the first bad or missing block".
    pub rows: Vec<u32>,
    /// The plan's cells, where "every plan cell is in a sound block".
    pub plan: Option<Vec<u32>>,
    /// "Each bad block"; "a part of a block is a bad one".
    pub bad: Vec<usize>,
}

pub fn found(file: &[u8]) -> Result<Found, Refusal> {
    let blocks: Vec<Option<Vec<u32>>> = file.chunks(BLOCK_BYTES).enumerate().map(|(place, bytes)| sound(place, bytes)).collect();
    let cell = |place: u64| {
        let cells = blocks.get(place as usize / BLOCK_CELLS)?.as_ref()?;
        Some(cells[place as usize % BLOCK_CELLS])
    };
    let (Some(table_size), Some(plan_size), Some(width), Some(count)) = (cell(0), cell(1), cell(2), cell(3)) else {
        return Err(refusal(Number::Head));
    };
    if !(1..=8).contains(&width) || !(1..=64).contains(&count) {
        return Err(refusal(Number::Head));
    }
    let plan_from = 2 + u64::from(table_size);
    Ok(Found {
        width,
        count,
        rows: (4..plan_from).map_while(cell).collect(),
        plan: (plan_from..plan_from + u64::from(plan_size)).map(cell).collect(),
        bad: (0..blocks.len()).filter(|&place| blocks[place].is_none()).collect(),
    })
}

/// The cells of a block, where it is whole, has its place's number and right checks.
fn sound(place: usize, bytes: &[u8]) -> Option<Vec<u32>> {
    let words = words(bytes);
    let is_sound = bytes.len() == BLOCK_BYTES && words[0] as usize == place && words[CHECKED..] == checks_by_places(&words[..CHECKED]);
    is_sound.then(|| words[1..CHECKED].to_vec())
}

/// "The longest run of rows from the top that the table's checks accept", as a table: for one row after another each number of cells is tried.
fn kept(width: u32, count: u32, cells: &[u32]) -> Vec<u32> {
    let mut rows: Vec<Vec<u32>> = Vec::new();
    let mut rest = cells;
    while rows.len() < count as usize {
        let mut starts = (1..=rest.len().min(ROW_CELLS)).map(|cells| rest.split_at(cells));
        let Some((row, after)) = starts.find(|(row, _)| read_row(width as usize, &rows, row).is_ok()) else {
            break;
        };
        rows.push(row.to_vec());
        rest = after;
    }
    [vec![width, rows.len() as u32], rows.concat()].concat()
}

/// The same by the reading of whole tables: the largest number of rows, up to the count, with which the cells begin with a table.
pub fn kept_by_counts(found: &Found) -> Vec<u32> {
    let cells = &found.rows[..found.rows.len().min(TABLE_CELLS - 2)];
    let begin = |rows: u32| {
        let table = [&[found.width, rows], cells].concat();
        match read_table(&table) {
            Ok(_) => Some(table),
            Err(Refusal { number: Number::Extra, place, .. }) => Some(table[..place].to_vec()),
            Err(_) => None,
        }
    };
    (1..=found.count).rev().find_map(begin).unwrap_or(vec![found.width, 0])
}

#[cfg(test)]
mod tests {
    use super::*;
    use crate::make::files::of_cells;
    use crate::model::files::{filled, sealed};

    #[test]
    fn a_part_is_bad_and_what_is_missing_is_not() {
        let (table, plan) = of_cells(251);
        let file = sealed(&filled(&table, &plan));
        let bad = |bytes: &[u8]| found(bytes).map(|found| found.bad);
        assert_eq!(bad(&file), Ok(vec![]));
        assert_eq!(bad(&file[..1535]), Ok(vec![2]));
        assert_eq!(bad(&file[..1024]), Ok(vec![]));
        assert_eq!(bad(&[&file[..], &[0; 513]].concat()), Ok(vec![3, 4]));
        assert_eq!(bad(&file[..511]), Err(refusal(Number::Head)));
    }

    #[test]
    fn sizes_that_no_file_has() {
        let mut cells = [0; 125];
        (cells[0], cells[1], cells[2], cells[3]) = (u32::MAX, u32::MAX, 1, 64);
        let found = found(&sealed(&cells)).expect("block 0 is sound");
        assert_eq!((found.rows.len(), found.plan), (121, None));
    }
}
