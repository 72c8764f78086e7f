//! Records and their edits (02, W-207), from that page and the layout that callers are told. Nothing is kept here: an edit makes the new list
//! of rows and works out everything anew, which is what its record is to equal.

use super::least::{every_run, Measure};
use super::read::{read_row, read_table, ROWS, TABLE_CELLS};
use super::refusal::{Answer, Input, Number, Refusal};

/// A table's number of cells, the figure, the table's cells and zeros; then three numbers for every pair of first and last row.
pub type Record = [u32; RECORD_CELLS];
pub const RECORD_CELLS: usize = 14_340;

/// The most that a figure may be.
pub const MOST_FIGURE: u32 = 15;

/// Where the parts of a record start: the table's cells; what the rows of a pair cost with nothing closed; their least cost and the place to
/// take, from the state where all places that they agree on are closed.
const CELLS: usize = 2;
const WHOLE: usize = 2052;
const CLOSED: usize = 6148;
const PLACE: usize = 10_244;

/// A pair's number in each of the three last parts.
fn pair(first: usize, last: usize) -> usize {
    64 * first + last
}

/// What a record says of a pair: cost with nothing closed, least cost, place.
pub fn entry(record: &Record, first: usize, last: usize) -> [u32; 3] {
    [WHOLE, CLOSED, PLACE].map(|part| record[part + pair(first, last)])
}

/// The table's cells in a record, whatever it holds; none where it says that there are more than a table has.
pub fn table_in(record: &Record) -> &[u32] {
    match record[0] as usize {
        count @ 0..=TABLE_CELLS => &record[CELLS..CELLS + count],
        _ => &[],
    }
}

/// The figure in a record, whatever it holds.
pub fn figure_in(record: &Record) -> u32 {
    record[1]
}

/// Puts the first cells of a table and its figure in a record, and nothing else.
pub fn put_table(record: &mut Record, table: &[u32], figure: u32) {
    let kept = &table[..table.len().min(TABLE_CELLS)];
    record[0] = table.len() as u32;
    record[1] = figure;
    record[CELLS..CELLS + kept.len()].copy_from_slice(kept);
}

/// Works a table out into a record; the table's width and rows.
pub fn work_out(cells: &[u32], figure: u32, record: &mut Record) -> Answer {
    if figure > MOST_FIGURE {
        return Err(Refusal { number: Number::Figure, input: Input::Figure, place: 0 });
    }
    let table = read_table(cells)?;
    record.fill(0);
    put_table(record, cells, figure);
    for (first, last, best) in every_run(&table, Measure::Work(figure)) {
        for (part, number) in [(WHOLE, best.whole), (CLOSED, best.closed), (PLACE, best.place)] {
            record[part + pair(first, last)] = number as u32;
        }
    }
    Ok((table.width, table.rows.len()))
}

/// Appends a row at the end.
pub fn append(record: &mut Record, row: &[u32]) -> Answer {
    edited(record, |width, rows| {
        if rows.len() == ROWS {
            return Err(not_here(Number::Full));
        }
        read_row(width, rows, row)?;
        rows.push(row.to_vec());
        Ok(())
    })
}

/// Drops the last row.
pub fn drop_last(record: &mut Record) -> Answer {
    edited(record, |_, rows| {
        if rows.len() == 1 {
            return Err(not_here(Number::Last));
        }
        rows.pop();
        Ok(())
    })
}

/// Replaces row r.
pub fn replace(record: &mut Record, r: usize, row: &[u32]) -> Answer {
    edited(record, |width, rows| {
        if r >= rows.len() {
            return Err(not_here(Number::Index));
        }
        rows.remove(r);
        read_row(width, rows, row)?;
        rows.insert(r, row.to_vec());
        Ok(())
    })
}

fn not_here(number: Number) -> Refusal {
    Refusal { number, input: Input::Table, place: 0 }
}

/// A change of the list of rows, given the width; then everything anew.
fn edited(record: &mut Record, change: impl FnOnce(usize, &mut Vec<Vec<u32>>) -> Result<(), Refusal>) -> Answer {
    let cells = table_in(record);
    let table = read_table(cells)?;
    let mut rows = table.rows.iter().map(|row| cells[row.start..row.start + row.cells].to_vec()).collect();
    change(table.width, &mut rows)?;
    let headers = vec![table.width as u32, rows.len() as u32];
    // A record that was never worked out may hold any figure; what it becomes is then anybody's.
    work_out(&[headers, rows.concat()].concat(), figure_in(record).min(MOST_FIGURE), record)
}

#[cfg(test)]
mod tests {
    use super::*;
    use crate::notation::{goal, table};

    const P1: &str = "(a,b,c) (a,b,d) (a,c,c) (b,a,c)";

    fn worked_out(rows: &str, figure: u32) -> Box<Record> {
        let mut record = Box::new([7; RECORD_CELLS]);
        assert!(work_out(&table(rows), figure, &mut record).is_ok());
        record
    }

    /// The numbers that are not 0, with their places, from the first pair on.
    fn entries(record: &Record) -> Vec<(usize, u32)> {
        (2052..RECORD_CELLS).map(|place| (place, record[place])).filter(|&(_, number)| number != 0).collect()
    }

    #[test]
    fn where_everything_stands() {
        let record = worked_out(P1, 2);
        assert_eq!(record[..2], [14, 2]);
        assert_eq!(record[2..16], table(P1));
        assert!(record[16..2052].iter().all(|&number| number == 0));
        let whole = [(0, 3), (1, 6), (2, 9), (3, 14), (65, 3), (66, 7), (67, 11), (130, 3), (131, 7), (195, 3)];
        let closed = [(1, 4), (2, 8), (3, 14), (66, 6), (67, 11), (131, 6)];
        let place = [(2, 1), (67, 1)];
        let from = |start: usize, part: &[(usize, u32)]| part.iter().map(|&(pair, number)| (start + pair, number)).collect::<Vec<_>>();
        assert_eq!(entries(&record), [from(2052, &whole), from(6148, &closed), from(10_244, &place)].concat());
    }

    #[test]
    fn one_row_is_a_leaf() {
        // A name with an argument costs 2, a name without 1, the choice 15.
        let record = worked_out("(f1(a)) (f1(b)) (f1(c))", 15);
        assert_eq!([entry(&record, 0, 0), entry(&record, 0, 1), entry(&record, 1, 0)], [[3, 0, 0], [19, 17, 0], [0, 0, 0]]);
    }

    #[test]
    fn edits_one_after_another() {
        let mut record = worked_out(P1, 2);
        assert_eq!(append(&mut record, &goal("(b,a,d)")), Ok((3, 5)));
        assert_eq!(record, worked_out("(a,b,c) (a,b,d) (a,c,c) (b,a,c) (b,a,d)", 2));
        assert_eq!(replace(&mut record, 1, &goal("(a,c,d)")), Ok((3, 5)));
        assert_eq!(drop_last(&mut record), Ok((3, 4)));
        assert_eq!(record, worked_out("(a,b,c) (a,c,d) (a,c,c) (b,a,c)", 2));
        let before = record.clone();
        assert_eq!(replace(&mut record, 4, &[]), Err(not_here(Number::Index)));
        assert_eq!(append(&mut record, &goal("(a,b)")), Err(Refusal { number: Number::Short, input: Input::Table, place: 2 }));
        assert_eq!(record, before);
    }

    #[test]
    fn the_table_of_any_numbers() {
        let mut record = Box::new([9; RECORD_CELLS]);
        assert_eq!(table_in(&record), [9; 9]);
        record[0] = 2050;
        assert_eq!(table_in(&record).len(), 2050);
        record[0] = 2051;
        assert!(table_in(&record).is_empty());
    }
}
