//! Records and their edits (02, W-207): the request's records and answers written down, random sequences of edits, and records that were never
//! worked out. After each edit the whole record is compared with one that is worked out anew.

use super::{lend, lend_record, Comparison, Entry, Met, MARGIN};
use crate::engine::{Definition, Engine};
use crate::make::{damage, records, rows, tables};
use crate::model::plan::PLAN_CELLS;
use crate::model::read::{read_table, Table, ROWS};
use crate::model::record::{entry, figure_in, table_in, Record, MOST_FIGURE, RECORD_CELLS};
use crate::notation::{goal, name, table};

#[derive(Debug)]
enum Edit {
    Append(Vec<u32>),
    DropLast,
    Replace(usize, Vec<u32>),
}

impl Edit {
    fn of(&self, engine: &impl Engine, record: &mut Record) -> u64 {
        match self {
            Edit::Append(row) => engine.append(record, row),
            Edit::DropLast => engine.drop_last(record),
            Edit::Replace(r, row) => engine.replace(record, *r, row),
        }
    }

    fn entry(&self) -> Entry {
        match self {
            Edit::Append(_) => Entry::Append,
            Edit::DropLast => Entry::DropLast,
            Edit::Replace(..) => Entry::Replace,
        }
    }

    /// Whether the row that is put in has a variable twice.
    fn repeats(&self) -> bool {
        match self {
            Edit::Append(row) | Edit::Replace(_, row) => {
                let variables: Vec<&u32> = row.iter().filter(|&&cell| cell >> 30 == 0).collect();
                (1..variables.len()).any(|later| variables[..later].contains(&variables[later]))
            }
            Edit::DropLast => false,
        }
    }

    /// The changed row, of so many rows before.
    fn row(&self, rows: usize) -> usize {
        match self {
            Edit::Append(_) => rows,
            Edit::DropLast => rows - 1,
            Edit::Replace(r, _) => *r,
        }
    }
}

/// A first and a last row, with the least cost and the place from the state where all is closed that they agree on.
type Pair = (usize, usize, [u32; 2]);

/// 01's P1, and what its record says with this figure: of each run, beside the pair, the cost with nothing closed.
const P1: &str = "(a,b,c) (a,b,d) (a,c,c) (b,a,c)";
const FIGURE: u32 = 2;
const RUNS: [(u32, Pair); 10] = [
    (3, (0, 0, [0, 0])),
    (6, (0, 1, [4, 0])),
    (9, (0, 2, [8, 1])),
    (14, (0, 3, [14, 0])),
    (3, (1, 1, [0, 0])),
    (7, (1, 2, [6, 0])),
    (11, (1, 3, [11, 1])),
    (3, (2, 2, [0, 0])),
    (7, (2, 3, [6, 0])),
    (3, (3, 3, [0, 0])),
];

/// Edits of that record with the table's rows and cells afterwards, and the pairs that the request names as changed; all others stay.
fn accepted() -> [(Edit, [u32; 2], Vec<Pair>); 5] {
    [
        // A row put back in its own place.
        (Edit::Replace(0, goal("(a,b,c)")), [4, 14], vec![]),
        (
            Edit::Replace(1, goal("(a,c,d)")),
            [4, 14],
            vec![(0, 1, [6, 0]), (0, 2, [8, 1]), (0, 3, [14, 0]), (1, 1, [0, 0]), (1, 2, [4, 0]), (1, 3, [11, 0])],
        ),
        (Edit::Append(goal("(b,a,d)")), [5, 17], vec![(0, 4, [17, 0]), (1, 4, [14, 1]), (2, 4, [11, 0]), (3, 4, [4, 0]), (4, 4, [0, 0])]),
        // A variable twice (W-209): the later one costs 1.
        (Edit::Append(goal("(a,v0,v0)")), [5, 17], vec![(0, 4, [16, 0]), (1, 4, [13, 1]), (2, 4, [10, 0]), (3, 4, [7, 0]), (4, 4, [0, 0])]),
        (Edit::DropLast, [3, 11], vec![(0, 3, [0, 0]), (1, 3, [0, 0]), (2, 3, [0, 0]), (3, 3, [0, 0])]),
    ]
}

/// Edits of that record that are refused, each with its number and place.
fn refused() -> [(Edit, u64, u64); 14] {
    let no_cell = 3 << 30;
    let (a, b) = (name('a', 0), name('b', 0));
    [
        (Edit::Replace(4, vec![no_cell]), 23, 0),
        (Edit::Replace(1 << 63, vec![no_cell]), 23, 0),
        (Edit::Replace(1 << 32, goal("(a,b,c)")), 23, 0),
        (Edit::Append(vec![]), 5, 0),
        (Edit::Append(goal("(a,b)")), 5, 2),
        (Edit::Append(goal("(b,b,c,d)")), 9, 3),
        // SAME, W-208: before EXTRA, after what is wrong in the row itself, and against the rows before and after.
        (Edit::Append(goal("(a,b,c)")), 24, 0),
        (Edit::Append(goal("(a,b,c,d)")), 24, 0),
        (Edit::Replace(0, goal("(a,b,d)")), 24, 0),
        (Edit::Replace(3, goal("(a,b,c)")), 24, 0),
        (Edit::Replace(0, [goal("(a,b,d)"), vec![no_cell]].concat()), 24, 0),
        (Edit::Append(goal("(a,v1,b)")), 7, 1),
        (Edit::Append(vec![a, no_cell, b]), 6, 1),
        (Edit::Append(vec![name('f', 1); 33]), 4, 32),
    ]
}

impl<E: Engine> Comparison<'_, E> {
    pub(super) fn fixed_edits(&mut self) {
        let p1 = self.work_out(&table(P1), FIGURE).expect("a sound table and a figure");
        let said = RUNS.iter().all(|&(whole, (first, last, [cost, place]))| entry(&p1, first, last) == [whole, cost, place]);
        self.written_down(said, P1);
        for (edit, [rows, cells], changed) in accepted() {
            let mut record = p1.clone();
            let same = self.edit(&mut record, &edit) == 3 << 16 | u64::from(rows) << 32 && record[0] == cells;
            self.written_down(same && only_changed(&p1, &record, &changed), &format!("{edit:?}"));
        }
        for (edit, number, place) in refused() {
            self.refused_edit(&p1, &edit, number | 1 << 8 | place << 16);
        }
        let mut record = p1.clone();
        self.edit(&mut record, &Edit::Append(goal("(b,a,d)")));
        self.edit(&mut record, &Edit::DropLast);
        self.written_down(record == p1, "dropping what was appended gives the first record");
        self.most_and_fewest_rows();
    }

    /// 64 rows, where one more is refused but not after one was dropped; and one row, likewise.
    fn most_and_fewest_rows(&mut self) {
        let numbers: Vec<String> = (0..ROWS).map(|row| format!("({row})")).collect();
        let mut full = self.work_out(&table(&numbers.join(" ")), FIGURE).expect("64 rows");
        self.refused_edit(&full, &Edit::Append(vec![3 << 30]), 21 | 1 << 8);
        for (edit, rows) in [(Edit::DropLast, 63), (Edit::Append(goal("(b)")), 64)] {
            let answer = self.edit(&mut full, &edit);
            self.written_down(answer == 1 << 16 | rows << 32, &format!("{edit:?} with 64 rows: {answer:#x}"));
        }
        let mut one = self.work_out(&table("(a)"), FIGURE).expect("one row");
        self.refused_edit(&one, &Edit::DropLast, 22 | 1 << 8);
        for (edit, rows) in [(Edit::Append(goal("(b)")), 2), (Edit::DropLast, 1)] {
            let answer = self.edit(&mut one, &edit);
            self.written_down(answer == 1 << 16 | rows << 32, &format!("{edit:?} with one row: {answer:#x}"));
        }
    }

    fn written_down(&mut self, same: bool, what: &str) {
        self.tally.own("records and edits against those written down", same, &|| what.to_string());
    }

    fn refused_edit(&mut self, record: &Record, edit: &Edit, wanted: u64) {
        let answer = self.edit(&mut records::boxed(record.to_vec()), edit);
        self.written_down(answer == wanted, &format!("{edit:?}: {answer:#x}"));
    }

    /// A table worked out, a sequence of edits, and the other entries with the record that comes of it.
    pub(super) fn random_edits(&mut self) {
        let (table, figure) = (tables::any(&mut self.random), self.random.below(MOST_FIGURE as usize + 1) as u32);
        let mut record = self.work_out(&table, figure).expect("a sound table and a figure");
        for _ in 0..self.random.within(1..=6) {
            let edit = self.any_edit(&read_table(table_in(&record)).expect("an edited table is sound"));
            self.edit(&mut record, &edit);
        }
        self.build_from(&record);
        let read = read_table(table_in(&record)).expect("an edited table is sound");
        self.over(&record, &read);
    }

    fn any_edit(&mut self, table: &Table) -> Edit {
        let kind = self.random.below(8);
        let mut row = rows::any(&mut self.random, table);
        if self.random.one_in(4) {
            damage::row(&mut self.random, &mut row);
        }
        match kind {
            0..=2 => Edit::Append(row),
            3 | 4 => Edit::DropLast,
            _ => Edit::Replace(self.index(table.rows.len()), row),
        }
    }

    /// Mostly of a row that is there; of those that are not, some whose last bits are such a row's.
    fn index(&mut self, rows: usize) -> usize {
        let index = self.random.below(rows);
        match self.random.below(24) {
            0 => rows,
            1 => rows + self.random.below(70),
            2 => index | 1 << self.random.within(8..=63),
            3 => usize::MAX,
            _ => index,
        }
    }

    /// One edit of a record that was worked out or edited. The record becomes the expected one.
    fn edit(&mut self, record: &mut Record, edit: &Edit) -> u64 {
        let lent = self.around(record);
        let (answer, left) = lend_record(&lent, |record| edit.of(self.exported, record));
        let (expected, wanted) = lend_record(&lent, |record| edit.of(&Definition, record));
        let (table, figure) = (table_in(record), figure_in(record));
        let describe = || format!("table {table:?} figure {figure} {edit:?}");
        self.tally.settle(edit.entry(), answer, expected, left == wanted, &describe);
        self.tally.edited(edit.entry(), expected);
        let wanted = super::without_margins(wanted);
        if expected & 0xff == 0 {
            self.tally.meet(Met::Edited, edit.repeats());
            let same = kept(record, &wanted, edit.row(table[1] as usize));
            self.tally.own("runs without the changed row keep what is known of them", same, &describe);
        } else {
            self.tally.own("a refused edit changes nothing", *record == *wanted, &describe);
        }
        *record = *wanted;
        expected
    }

    /// A record that was never worked out: its table is what the other entries go by; an edit and building end, and touch nothing beside it.
    pub(super) fn any_record(&mut self) {
        let table = tables::any(&mut self.random);
        let read = read_table(&table).expect("a sound table");
        let record = records::damaged(&mut self.random, &table);
        self.over(&record, &read);
        let edit = self.any_edit(&read);
        let lent = self.around(&record);
        let (_, left) = lend_record(&lent, |record| edit.of(self.exported, record));
        let describe = || format!("table {:?} {edit:?}, never worked out", table_in(&record));
        self.tally.ended(same_margins(&lent, &left), &describe);
        let room = self.random.below(PLAN_CELLS + 1);
        let lent = self.lent(room);
        let (_, left) = lend(&lent, |room| self.exported.build_plan(&record, room));
        self.tally.ended(same_margins(&lent, &left), &describe);
    }

    /// A record with margins.
    fn around(&mut self, record: &Record) -> Vec<u32> {
        let mut lent = self.lent(RECORD_CELLS);
        lent[MARGIN..MARGIN + RECORD_CELLS].copy_from_slice(record);
        lent
    }
}

fn same_margins(lent: &[u32], left: &[u32]) -> bool {
    let end = lent.len() - MARGIN;
    lent[..MARGIN] == left[..MARGIN] && lent[end..] == left[end..]
}

fn pairs() -> impl Iterator<Item = (usize, usize)> {
    (0..ROWS).flat_map(|first| (0..ROWS).map(move |last| (first, last)))
}

/// Whether all pairs without a row are the same in both records.
fn kept(before: &Record, after: &Record, row: usize) -> bool {
    let holds_row = |first, last| first <= row && row <= last;
    pairs().all(|(first, last)| holds_row(first, last) || entry(before, first, last) == entry(after, first, last))
}

/// Whether the pairs that are named have their cost and place, and all others are the same in both records.
fn only_changed(before: &Record, after: &Record, changed: &[Pair]) -> bool {
    pairs().all(|(first, last)| {
        let now = entry(after, first, last);
        match changed.iter().find(|pair| (pair.0, pair.1) == (first, last)) {
            Some((_, _, cost_and_place)) => now[1..] == *cost_and_place,
            None => now == entry(before, first, last),
        }
    })
}
