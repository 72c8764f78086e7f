//! Files: a table and its plan, as they travel on a card.

use crate::entries;
use crate::limits::{BLOCK_BYTES, FILE_BYTES, PLAN_CELLS, TABLE_CELLS};
use crate::plan::Plan;
use crate::record::Record;
use crate::refusal::Refusal;
use crate::sys;

/// What a file holds. There is no record in it: [`Card::work_out`] makes one of the table, with any figure.
///
/// ```
/// use dudowiej::{Card, Plan, Record};
///
/// let (record, _) = Record::from_text("p(a). p(b).", 2)?;
/// let plan = Plan::build(&record).plan;
/// let file = record.write_file(&plan)?;
/// assert_eq!(file.len(), 512);
/// let card = Card::read(&file)?;
/// assert_eq!((&card.table[..], &card.plan), (record.table(), &plan));
/// # Ok::<(), dudowiej::Refusal>(())
/// ```
#[derive(Debug, Clone, PartialEq, Eq)]
pub struct Card {
    /// The table's cells.
    pub table: Vec<u32>,
    /// The plan.
    pub plan: Plan,
}

/// What was saved of a bad file, and what was not.
#[derive(Debug, Clone, PartialEq, Eq)]
pub struct Salvaged {
    /// The rows kept, and a plan for them.
    pub card: Card,
    /// How many rows were kept.
    pub kept: usize,
    /// How many rows were dropped, of as many as the file says.
    pub dropped: usize,
    /// Whether the plan is the file's; otherwise it is new.
    pub plan_kept: bool,
    /// The numbers of the bad blocks, ascending from 0.
    pub bad_blocks: Vec<usize>,
}

impl Record {
    /// The record's table and a plan as one file: blocks of 512 bytes with check words.
    ///
    /// Refused is the plan, where it is none for this table.
    pub fn write_file(&self, plan: &Plan) -> Result<Vec<u8>, Refusal> {
        let mut room = vec![0; FILE_BYTES];
        let (bytes, _) = self.write_file_in(plan, &mut room)?;
        room.truncate(bytes);
        Ok(room)
    }

    /// The same in a lent room; the rest of the room is untouched. How many bytes the file has, and how many blocks.
    ///
    /// Refused are the plan, as there, and ROOM, with the bytes needed.
    pub fn write_file_in(&self, plan: &Plan, room: &mut [u8]) -> Result<(usize, usize), Refusal> {
        entries::write_file(self.as_numbers(), plan.cells(), room)
    }
}

impl Card {
    /// Reads a file. Writing what was read gives the file again.
    ///
    /// Refused are BLOCKS, DAMAGE, SIZES and PADDING of the file, and then the table and the plan, with places in their own cells.
    pub fn read(file: &[u8]) -> Result<Card, Refusal> {
        let (mut table, mut plan) = (vec![0; TABLE_CELLS], vec![0; PLAN_CELLS]);
        let (table_cells, plan_cells) = entries::read_file(file, &mut table, &mut plan)?;
        Ok(Card::of(&table[..table_cells], &plan[..plan_cells]))
    }

    /// Saves what can be saved of a file: the rows from the top that end before the first block that is bad or missing, with the file's
    /// plan where all rows are kept and it is whole, or else a new one. Of a file that can be read, that is all of it.
    ///
    /// Refused are HEAD, where block 0 is missing or bad or holds no width and number of rows, and NONE, where no row is kept.
    ///
    /// ```
    /// use dudowiej::{Card, Plan, Record};
    ///
    /// let (record, _) = Record::from_text("p(a). p(b).", 0)?;
    /// let mut file = record.write_file(&Plan::build(&record).plan)?;
    /// file.push(0);
    /// assert!(Card::read(&file).is_err());
    /// let saved = Card::salvage(&file)?;
    /// assert_eq!((saved.kept, saved.dropped, saved.plan_kept, &saved.bad_blocks[..]), (2, 0, true, &[1][..]));
    /// # Ok::<(), dudowiej::Refusal>(())
    /// ```
    pub fn salvage(file: &[u8]) -> Result<Salvaged, Refusal> {
        // No file has more bad blocks than blocks, a part of one counted.
        Card::salvage_in(file, &mut vec![0; file.len().div_ceil(BLOCK_BYTES)])
    }

    /// The same with a lent list for the bad blocks.
    ///
    /// Refused are HEAD and NONE, as there, and ROOM, with how many blocks are bad.
    pub fn salvage_in(file: &[u8], bad: &mut [usize]) -> Result<Salvaged, Refusal> {
        let (mut table, mut plan, mut report) = (vec![0; TABLE_CELLS], vec![0; PLAN_CELLS], sys::Report::default());
        entries::salvage(file, &mut table, &mut plan, bad, &mut report)?;
        Ok(Salvaged {
            card: Card::of(&table[..report.table_cells], &plan[..report.plan_cells]),
            kept: report.kept,
            dropped: report.dropped,
            plan_kept: report.plan_kept == 1,
            bad_blocks: bad[..report.bad_blocks].to_vec(),
        })
    }

    /// Works the table out with a figure.
    ///
    /// Refused is FIGURE, a figure above 15; and the table, where it was changed since it was read.
    pub fn work_out(&self, figure: u32) -> Result<Record, Refusal> {
        Record::work_out(&self.table, figure)
    }

    fn of(table: &[u32], plan: &[u32]) -> Card {
        Card { table: table.to_vec(), plan: Plan::of(plan.to_vec(), table[1] as usize) }
    }
}
