//! Records: a table that is worked out, and edits of a row at a time.

use crate::entries;
use crate::limits::RECORD_CELLS;
use crate::names::{read_text, Names};
use crate::refusal::Refusal;
use crate::sys;
use std::fmt;

/// Where a record has its table's number of cells, its figure, and the table.
const COUNT: usize = 0;
const FIGURE: usize = 1;
const TABLE: usize = 2;

/// What a table has.
#[derive(Debug, Clone, Copy, PartialEq, Eq)]
pub struct Shape {
    /// How many terms a row has, 1 to 8.
    pub width: usize,
    /// How many rows there are, 1 to 64.
    pub rows: usize,
}

/// Reads a table and makes nothing of it.
///
/// Refused is what is no table: LENGTH, WIDTH, COUNT, and of the rows LONG, SHORT, CELL, FRESH, SAME and EXTRA.
pub fn read_table(table: &[u32]) -> Result<Shape, Refusal> {
    let (width, rows) = entries::read_table(table)?;
    Ok(Shape { width, rows })
}

/// A table that is worked out: the table, a figure, and what every run of its rows costs.
///
/// It comes from [`Record::work_out`], [`Record::from_text`] and the edits alone, so that what is promised of such records holds for every
/// one. Two records are equal exactly when their tables and their figures are.
///
/// ```
/// use dudowiej::{name, variable, whole, Record};
///
/// // Two columns, two rows: (9, red) and (_, red).
/// let red = name(0, 0);
/// let mut record = Record::work_out(&[2, 2, whole(9), red, variable(0), red], 0)?;
/// let morning = record.clone();
/// record.append(&[whole(10), variable(0)])?;
/// assert_eq!((record.rows(), record.width()), (3, 2));
/// assert_eq!(record.row(2), Some(&[whole(10), variable(0)][..]));
/// record.drop_last()?;
/// assert_eq!(record, morning);
/// # Ok::<(), dudowiej::Refusal>(())
/// ```
#[derive(Clone, PartialEq, Eq)]
pub struct Record(Box<sys::Record>);

impl Record {
    /// Works a table out with a figure. The figure, 0 to 15, is what a choice between branches costs when a plan is built.
    ///
    /// Refused are FIGURE, a figure above 15, and then the table, as by [`read_table`].
    pub fn work_out(table: &[u32], figure: u32) -> Result<Record, Refusal> {
        let numbers = vec![0; RECORD_CELLS].into_boxed_slice();
        let mut record: Box<sys::Record> = numbers.try_into().expect("as many numbers as a record has");
        entries::work_out(table, figure, &mut record)?;
        Ok(Record(record))
    }

    /// Works out the table of a text of Prolog facts, and gives the text's names with it.
    ///
    /// Refused are the text and its table, as by [`read_text`], and then FIGURE, a figure above 15.
    ///
    /// ```
    /// use dudowiej::Record;
    ///
    /// let (record, names) = Record::from_text("rule(9, red, soft). rule(_, _, hard).", 0)?;
    /// assert_eq!(record.rows(), 2);
    /// assert_eq!(names.show(record.row(1).unwrap()), "_0, _1, hard");
    /// # Ok::<(), dudowiej::Refusal>(())
    /// ```
    pub fn from_text(text: impl AsRef<[u8]>, figure: u32) -> Result<(Record, Names), Refusal> {
        let facts = read_text(text)?;
        Ok((Record::work_out(&facts.table, figure)?, facts.names))
    }

    /// The table's cells: its width, its number of rows, and the rows.
    pub fn table(&self) -> &[u32] {
        &self.0[TABLE..TABLE + self.0[COUNT] as usize]
    }

    /// The figure.
    pub fn figure(&self) -> u32 {
        self.0[FIGURE]
    }

    /// How many terms a row has.
    pub fn width(&self) -> usize {
        self.table()[0] as usize
    }

    /// How many rows there are.
    pub fn rows(&self) -> usize {
        self.table()[1] as usize
    }

    /// The row of this number, from 0; nothing where there is none.
    pub fn row(&self, row: usize) -> Option<&[u32]> {
        // No row is of no cells.
        match entries::row(&self.0, row) {
            Ok((start, cells)) if cells > 0 => Some(&self.table()[start..start + cells]),
            _ => None,
        }
    }

    /// Appends a row at the end. A plan that was built before is the old table's: build it again. So it is with the other edits.
    ///
    /// Refused are FULL, where there are 64 rows, and then of the row LONG, SHORT, CELL, FRESH, SAME and EXTRA, with places from its start.
    /// A refused edit changes nothing.
    pub fn append(&mut self, row: &[u32]) -> Result<(), Refusal> {
        entries::append(&mut self.0, row).map(drop)
    }

    /// Drops the last row.
    ///
    /// Refused is LAST, where there is one row only.
    pub fn drop_last(&mut self) -> Result<(), Refusal> {
        entries::drop_last(&mut self.0).map(drop)
    }

    /// Replaces the row of this number, from 0. A row may be put back in its own place.
    ///
    /// Refused are INDEX, where there is no such row, and then the row, as by [`Record::append`].
    pub fn replace(&mut self, r: usize, row: &[u32]) -> Result<(), Refusal> {
        entries::replace(&mut self.0, r, row).map(drop)
    }

    /// The record as the entries take it ([`sys`]).
    pub fn as_numbers(&self) -> &sys::Record {
        &self.0
    }
}

impl fmt::Debug for Record {
    fn fmt(&self, to: &mut fmt::Formatter) -> fmt::Result {
        to.debug_struct("Record").field("figure", &self.figure()).field("table", &self.table()).finish_non_exhaustive()
    }
}
