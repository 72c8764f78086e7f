//! Plans for columns that are always filled in (02, W-213): the request's table by each engine, and engines that are wrong in one thing each are
//! found.

mod altered;

use std::ops::Range;

use altered::{answered, differs, number, written, Altered, BuildFor, CheckFor, RIGHT};
use dudowiej_bench::compare::columns::{answers, COLUMN, EARLY, EXAMPLES, OPEN, WORK};
use dudowiej_bench::compare::{columns, Tally};
use dudowiej_bench::engine::{Definition, Engine, Exported, Plain};
use dudowiej_bench::make::records;
use dudowiej_bench::model::columns::{agree, least_for, least_where, Held, Named};
use dudowiej_bench::model::least::{least_by, Measure};
use dudowiej_bench::model::plan::{check, grow, Open, Plan, PLAN_CELLS};
use dudowiej_bench::model::read::{read_table, Table};
use dudowiej_bench::model::record::{entry, figure_in, put_table, table_in, Record};
use dudowiej_bench::model::term::Term;
use dudowiej_bench::notation::{plan, table};

const SIZE: u64 = 10;
const ENDS: u64 = 11 | 2 << 8;
const EDGES: u64 = 13 | 2 << 8;

fn engines() -> [&'static dyn Engine; 3] {
    [&Exported, &Plain, &Definition]
}

/// The record with other numbers for all that is known of pairs of rows.
fn with_other_numbers(mut record: Box<Record>) -> Box<Record> {
    record[2052..].fill(7);
    record
}

#[test]
fn the_requests_plans() {
    for example in &EXAMPLES {
        let cells = table(example.rows);
        for (place, (figure, cost)) in WORK.into_iter().zip(example.work).enumerate() {
            let plan = plan(example.later.filter(|_| place > 0).unwrap_or(example.plan));
            let (count, answer) = (plan.len(), (plan.len() as u64) << 16 | (cost as u64) << 32);
            let sound = records::worked_out(&cells, figure);
            for record in [with_other_numbers(sound.clone()), sound] {
                for (engine, columns) in engines().into_iter().flat_map(|engine| example.lists.iter().map(move |columns| (engine, columns))) {
                    let mut room = vec![7; count + 5];
                    assert_eq!(engine.build_for(&record, columns, &mut room), answer, "{} {columns:?} {figure}", example.rows);
                    assert_eq!(room, [&plan[..], &[7; 5]].concat(), "{} {columns:?} {figure}", example.rows);
                    assert_eq!(engine.build_for(&record, columns, &mut room[..count]), answer);
                    let mut short = vec![7; count - 1];
                    assert_eq!(engine.build_for(&record, columns, &mut short), 16 | 4 << 8 | (count as u64) << 16);
                    assert_eq!(engine.build_for(&record, columns, &mut []), 16 | 4 << 8 | (count as u64) << 16);
                    assert!(short.iter().all(|&cell| cell == 7));
                    assert_eq!(engine.check_for(&record, columns, &plan), engine.check_plan(&record, &plan));
                    assert_eq!(number(engine.check_for(&record, columns, &plan)), 0);
                }
            }
        }
    }
}

#[test]
fn the_requests_answers() {
    for (cells, columns, plan, answer) in answers() {
        let mut record = records::empty();
        put_table(&mut record, &cells, 0);
        for engine in engines() {
            assert_eq!(engine.check_for(&record, columns, &plan), answer, "{cells:?} {columns:?} {plan:?}");
        }
    }
}

/// FIGURE, the table's, COLUMN, ROOM; and for the check, which does not look at the figure, the table's, COLUMN, SIZE.
#[test]
fn one_refusal_after_another() {
    let (sound, refused) = (table("(a,b) (b,b)"), vec![1, 1, 3 << 30]);
    let with = |cells: &[u32], figure| {
        let mut record = records::empty();
        put_table(&mut record, cells, figure);
        record
    };
    let too_long = vec![0; PLAN_CELLS + 1];
    for engine in engines() {
        let mut room = [7; 3];
        let mut build = |record: &Record, columns: &[u32]| engine.build_for(record, columns, &mut room);
        for figure in [16, u32::MAX] {
            assert_eq!(build(&with(&refused, figure), &[9]), 20 | 6 << 8);
            assert_eq!(build(&with(&sound, figure), &[9]), 20 | 6 << 8);
        }
        assert_eq!(build(&with(&refused, 15), &[9]), 6 | 1 << 8 | 2 << 16);
        assert_eq!(build(&with(&sound, 15), &[0, 2]), COLUMN);
        assert_eq!(build(&with(&sound, 15), &[0, u32::MAX, 1]), COLUMN);
        assert_eq!(build(&with(&sound, 15), &[0, 1]), 16 | 4 << 8 | 9 << 16);
        assert_eq!(room, [7; 3]);
        assert_eq!(engine.check_for(&with(&refused, 16), &[9], &too_long), 6 | 1 << 8 | 2 << 16);
        assert_eq!(engine.check_for(&with(&sound, 16), &[2], &too_long), COLUMN);
        assert_eq!(engine.check_for(&with(&sound, 16), &[1, 1], &too_long), 10 | 2 << 8);
        // More cells than a table has: none are looked at.
        let mut record = with(&sound, 0);
        record[0] = 2051;
        assert_eq!([build_in(engine, &record, &[9]), engine.check_for(&record, &[9], &[])], [1 | 1 << 8; 2]);
    }
}

fn build_in(engine: &dyn Engine, record: &Record, columns: &[u32]) -> u64 {
    engine.build_for(record, columns, &mut [0; 100])
}

// The wrong ones.

#[track_caller]
fn found(wrong: Altered) {
    differs(columns(&wrong, Tally::default(), 25, 1));
}

#[track_caller]
fn found_building(build_for: BuildFor) {
    found(Altered { build_for, ..RIGHT });
}

#[track_caller]
fn found_checking(check_for: CheckFor) {
    found(Altered { check_for, ..RIGHT });
}

#[test]
fn right_ones_pass() {
    let tally = columns(&RIGHT, Tally::default(), 500, 1);
    assert_eq!(tally.differ(), 0, "{tally}");
    // What the wrong checks below are made from.
    let tally = columns(&Altered { check_for: |record, columns, plan| checking(&AS_READ, record, columns, plan), ..RIGHT }, Tally::default(), 200, 1);
    assert_eq!(tally.differ(), 0, "{tally}");
}

/// How a check decides, in a third writing: by a flag for each open place.
struct Way {
    /// The flags below a branch at a place with so many arguments.
    spread: fn(&[bool], usize, usize) -> Vec<bool>,
    /// What the cells of a state, its index first, are refused with.
    index: fn(&Index) -> Result<(), u64>,
}

const AS_READ: Way = Way {
    spread: |flags, place, arguments| [&flags[..place], &vec![flags[place]; arguments], &flags[place + 1..]].concat(),
    index: |at| {
        at.ends(0)?;
        at.open()?;
        at.early()?;
        at.ends(1)?;
        at.edges()
    },
};

/// A state as the check meets it.
struct Index<'c> {
    cells: &'c [u32],
    at: usize,
    flags: &'c [bool],
    open: &'c Open<'c>,
    rows: Range<usize>,
    columns: &'c [u32],
}

impl Index<'_> {
    fn refused(&self, number: u64, after: usize) -> Result<(), u64> {
        Err(number | ((self.at + after) as u64) << 16)
    }

    fn place(&self) -> usize {
        self.cells[self.at] as usize
    }

    fn ends(&self, after: usize) -> Result<(), u64> {
        self.cells.get(self.at + after).map_or(self.refused(ENDS, after), |_| Ok(()))
    }

    fn open(&self) -> Result<(), u64> {
        if self.place() < self.open.places(&self.rows) {
            Ok(())
        } else {
            self.refused(OPEN, 0)
        }
    }

    fn is_early(&self) -> bool {
        self.flags.contains(&true) && self.flags.get(self.place()) != Some(&true)
    }

    fn early(&self) -> Result<(), u64> {
        self.refused_where(self.is_early())
    }

    fn refused_where(&self, early: bool) -> Result<(), u64> {
        if early {
            self.refused(EARLY, 0)
        } else {
            Ok(())
        }
    }

    fn edges(&self) -> Result<(), u64> {
        if self.cells[self.at + 1] as usize == self.open.runs(&self.rows, self.place()) {
            Ok(())
        } else {
            self.refused(EDGES, 1)
        }
    }
}

/// The states of a plan on the way down, as far as its cells are sound by the plain check.
struct Checking<'c> {
    way: &'c Way,
    columns: &'c [u32],
    cells: &'c [u32],
    at: usize,
    /// The first cell that is not.
    stop: usize,
}

impl Checking<'_> {
    fn state(&mut self, open: &mut Open, rows: Range<usize>, flags: &[bool]) -> Result<(), u64> {
        if open.places(&rows) == 0 {
            self.at += 1;
            return Ok(());
        }
        (self.way.index)(&Index { cells: self.cells, at: self.at, flags, open, rows: rows.clone(), columns: self.columns })?;
        let place = self.cells[self.at] as usize;
        self.at += 2;
        let mut left = rows;
        while !left.is_empty() && self.at < self.stop {
            let run = open.run(left.clone(), place);
            left.start = run.end;
            self.at += 1;
            let below = (self.way.spread)(flags, place, open.at(run.start, place).arguments().len());
            open.close(&run, place);
            self.state(open, run, &below)?;
        }
        Ok(())
    }
}

/// The table's refusals and the plan's other ones are the plain check's.
fn checking(way: &Way, record: &Record, columns: &[u32], cells: &[u32]) -> u64 {
    let plain = Plain.check_plan(record, cells);
    let Ok(table) = read_table(table_in(record)) else {
        return plain;
    };
    if is_past(table.width as u32, columns) {
        return COLUMN;
    }
    if number(plain) == SIZE {
        return plain;
    }
    let flags: Vec<bool> = (0..table.width as u32).map(|column| columns.contains(&column)).collect();
    let stop = if answered(plain) { cells.len() } else { (plain >> 16) as usize };
    let mut checking = Checking { way, columns, cells, at: 0, stop };
    checking.state(&mut Open::new(&table), 0..table.rows.len(), &flags).err().unwrap_or(plain)
}

/// An engine whose check decides these things in another way.
macro_rules! instead {
    ($($thing:ident: $way:expr),*) => {
        found_checking(|record, columns, plan| checking(&Way { $($thing: $way,)* ..AS_READ }, record, columns, plan))
    };
}

#[test]
fn early_before_or_after_another() {
    // Before OPEN; after the count's ENDS; after EDGES.
    instead!(index: |at| {
        at.ends(0)?;
        at.early()?;
        at.open()?;
        at.ends(1)?;
        at.edges()
    });
    instead!(index: |at| {
        at.ends(0)?;
        at.open()?;
        at.ends(1)?;
        at.early()?;
        at.edges()
    });
    instead!(index: |at| {
        at.ends(0)?;
        at.open()?;
        at.ends(1)?;
        at.edges()?;
        at.early()
    });
}

#[test]
fn early_at_another_place() {
    // The count's; the first cell; the place that is chosen.
    for wrong in [
        (|record, columns, plan| moved(record, columns, plan, |place, _| place + 1)) as CheckFor,
        |record, columns, plan| moved(record, columns, plan, |_, _| 0),
        |record, columns, plan| moved(record, columns, plan, |_, index| index),
    ] {
        found_checking(wrong);
    }
}

/// EARLY, at a place that goes by the right one and its index.
fn moved(record: &Record, columns: &[u32], plan: &[u32], place: fn(u64, u64) -> u64) -> u64 {
    match Plain.check_for(record, columns, plan) {
        early if number(early) == number(EARLY) => EARLY | place(early >> 16, plan[(early >> 16) as usize].into()) << 16,
        answer => answer,
    }
}

/// The right order of refusals, with another test for EARLY.
macro_rules! early {
    ($is_early:expr) => {
        instead!(index: |at| {
            let is_early: fn(&Index) -> bool = $is_early;
            at.ends(0)?;
            at.open()?;
            at.refused_where(is_early(at))?;
            at.ends(1)?;
            at.edges()
        })
    };
}

#[test]
fn early_given_too_often() {
    // Where the named columns are finished; where none is named; inside them, and not outside; where another than the leftmost is chosen.
    early!(|at| !at.columns.is_empty() && !at.flags[at.place()]);
    early!(|at| at.is_early() || at.columns.is_empty() && at.place() > 0);
    early!(|at| at.flags.contains(&true) && at.flags[at.place()]);
    early!(|at| at.is_early() || at.flags.iter().position(|&flag| flag).is_some_and(|first| at.place() > first));
}

#[test]
fn early_given_too_seldom() {
    // Never; only at the first state; never for one row; never for several; by the next place's flag; only for places before a named one.
    early!(|_| false);
    early!(|at| at.is_early() && at.at == 0);
    early!(|at| at.is_early() && at.rows.len() > 1);
    early!(|at| at.is_early() && at.rows.len() == 1);
    early!(|at| at.is_early() && at.flags.get(at.place() + 1) != Some(&true));
    early!(|at| at.is_early() && at.flags[at.place()..].contains(&true));
}

#[test]
fn flags_not_spread() {
    // As they were; nothing named at arguments; one argument alone; all flags but the place's; the arguments' flags those of the next place.
    instead!(spread: |flags, _, arguments| {
        let mut below = flags.to_vec();
        below.resize(flags.len() + arguments - 1, false);
        below
    });
    instead!(spread: |flags, place, arguments| [&flags[..place], &vec![false; arguments], &flags[place + 1..]].concat());
    instead!(spread: |flags, place, arguments| {
        let mut below = [&flags[..place], &vec![false; arguments], &flags[place + 1..]].concat();
        if arguments > 0 {
            below[place] = flags[place];
        }
        below
    });
    instead!(spread: |flags, place, arguments| [&flags[..place], &vec![true; arguments], &flags[place + 1..]].concat());
    instead!(spread: |flags, place, arguments| {
        let next = flags.get(place + 1).copied().unwrap_or(false);
        [&flags[..place], &vec![next; arguments], &flags[place + 1..]].concat()
    });
}

/// Both entries by another list, in the place of one that is accepted.
macro_rules! list {
    ($change:expr) => {
        found_checking(|record, columns, plan| {
            let change: fn(&[u32]) -> Vec<u32> = $change;
            match Plain.check_for(record, columns, plan) {
                COLUMN => COLUMN,
                _ => Plain.check_for(record, &change(columns), plan),
            }
        });
        found_building(|record, columns, room| {
            let change: fn(&[u32]) -> Vec<u32> = $change;
            match Plain.build_for(record, columns, &mut room.to_vec()) {
                COLUMN => COLUMN,
                _ => Plain.build_for(record, &change(columns), room),
            }
        });
    };
}

#[test]
fn another_list() {
    // None; the first alone; the last alone; the least alone; without those named twice; the first two; by their places in the list.
    list!(|_| Vec::new());
    list!(|columns| columns[..columns.len().min(1)].to_vec());
    list!(|columns| columns[columns.len().saturating_sub(1)..].to_vec());
    list!(|columns| columns.iter().min().copied().into_iter().collect());
    list!(|columns| columns.iter().filter(|&column| columns.iter().filter(|&other| other == column).count() == 1).copied().collect());
    list!(|columns| columns[..columns.len().min(2)].to_vec());
    list!(|columns| (0..=columns.iter().max().copied().unwrap_or(0)).take(columns.len()).collect());
}

/// Both entries, with COLUMN for other lists of an accepted table: given for those, or not given and without the numbers that are no columns.
macro_rules! column {
    ($is_refused:expr) => {
        found_checking(|record, columns, plan| {
            let is_refused: fn(u32, &[u32]) -> bool = $is_refused;
            match read_table(table_in(record)) {
                Ok(read) if is_refused(read.width as u32, columns) => COLUMN,
                Ok(read) => Plain.check_for(record, &below(&read, columns), plan),
                Err(_) => Plain.check_for(record, columns, plan),
            }
        });
        found_building(|record, columns, room| {
            let is_refused: fn(u32, &[u32]) -> bool = $is_refused;
            match read_table(table_in(record)) {
                Ok(read) if figure_in(record) <= 15 && is_refused(read.width as u32, columns) => COLUMN,
                Ok(read) => Plain.build_for(record, &below(&read, columns), room),
                Err(_) => Plain.build_for(record, columns, room),
            }
        });
    };
}

fn is_past(width: u32, columns: &[u32]) -> bool {
    columns.iter().any(|&column| column >= width)
}

fn below(read: &Table, columns: &[u32]) -> Vec<u32> {
    columns.iter().copied().filter(|&column| (column as usize) < read.width).collect()
}

#[test]
fn column_given_otherwise() {
    // For width - 1; not for the width; not for 2^32 - 1; by the last 3, 8 or 16 bits; never; by the first number or the last alone.
    column!(|width, columns| columns.iter().any(|&column| column >= width - 1));
    column!(|width, columns| columns.iter().any(|&column| column > width));
    column!(|width, columns| columns.iter().any(|&column| column >= width && column < u32::MAX));
    column!(|width, columns| columns.iter().any(|&column| column % 8 >= width));
    column!(|width, columns| columns.iter().any(|&column| column % 256 >= width));
    column!(|width, columns| columns.iter().any(|&column| column % 65_536 >= width));
    column!(|_, _| false);
    column!(|width, columns| columns.first().is_some_and(|&column| column >= width));
    column!(|width, columns| columns.last().is_some_and(|&column| column >= width));
    // Not for 8 and more, or by the largest width.
    column!(|width, columns| columns.iter().any(|&column| column >= width && column < 8));
    column!(|_, columns| columns.iter().any(|&column| column >= 8));
    // For a repeat; for a list out of order; for more numbers than columns; for no number.
    column!(|width, columns| is_past(width, columns) || columns.iter().enumerate().any(|(later, column)| columns[..later].contains(column)));
    column!(|width, columns| is_past(width, columns) || !columns.is_sorted());
    column!(|width, columns| is_past(width, columns) || columns.len() > width as usize);
    column!(|width, columns| is_past(width, columns) || columns.is_empty());
    column!(|width, columns| is_past(width, columns) || columns.len() > 65_535);
}

#[test]
fn column_of_another_input_or_place() {
    for wrong in [
        (|record, columns, plan| where_column(Plain.check_for(record, columns, plan), 33 | 2 << 8)) as CheckFor,
        |record, columns, plan| where_column(Plain.check_for(record, columns, plan), 33 | 1 << 8),
        |record, columns, plan| where_column(Plain.check_for(record, columns, plan), COLUMN | (columns.len() as u64) << 16),
    ] {
        found_checking(wrong);
    }
    found_building(|record, columns, room| where_column(Plain.build_for(record, columns, room), 33 | 4 << 8));
    found_building(|record, columns, room| {
        let at = columns.iter().position(|&column| column >= 8).unwrap_or(0);
        where_column(Plain.build_for(record, columns, room), COLUMN | (at as u64) << 16)
    });
}

fn where_column(answer: u64, wrong: u64) -> u64 {
    if answer == COLUMN {
        wrong
    } else {
        answer
    }
}

#[test]
fn column_before_or_after_another() {
    // After the plan's, and after SIZE alone; before the table's.
    found_checking(|record, columns, plan| match (Plain.check_for(record, columns, plan), Plain.check_plan(record, plan)) {
        (COLUMN, plain) if !answered(plain) => plain,
        (answer, _) => answer,
    });
    found_checking(|record, columns, plan| match (Plain.check_for(record, columns, plan), Plain.check_plan(record, plan)) {
        (COLUMN, plain) if number(plain) == SIZE => plain,
        (answer, _) => answer,
    });
    found_checking(|record, columns, plan| match Plain.check_for(record, columns, plan) {
        answer if answer >> 8 & 0xff == 1 && columns.iter().any(|&column| column >= 8) => COLUMN,
        answer => answer,
    });
    // Building: after ROOM; before the table's; before FIGURE; FIGURE after the table's.
    found_building(|record, columns, room| match Plain.build_for(record, columns, room) {
        COLUMN if room.is_empty() => Plain.build_plan(record, room),
        answer => answer,
    });
    found_building(|record, columns, room| match Plain.build_for(record, columns, room) {
        answer if answer >> 8 & 0xff == 1 && columns.iter().any(|&column| column >= 8) => COLUMN,
        answer => answer,
    });
    found_building(|record, columns, room| match Plain.build_for(record, columns, room) {
        answer if number(answer) == 20 && answered(Plain.read_table(table_in(record))) && columns.iter().any(|&column| column >= 8) => COLUMN,
        answer => answer,
    });
    found_building(|record, columns, room| match (Plain.build_for(record, columns, room), Plain.read_table(table_in(record))) {
        (answer, table) if number(answer) == 20 && !answered(table) => table,
        (answer, _) => answer,
    });
}

#[test]
fn a_check_of_another_kind() {
    // That accepts the builder's plan alone; that looks at the figure; that answers the cost; that takes the columns named for those that are not.
    found_checking(|record, columns, plan| {
        let mut room = [0; PLAN_CELLS];
        let mut plain = Box::new(*record);
        plain[1] = 0;
        match (Plain.check_for(record, columns, plan), Plain.build_for(&plain, columns, &mut room)) {
            (answer, _) if answered(answer) && !room.starts_with(plan) => EDGES,
            (answer, _) => answer,
        }
    });
    found_checking(|record, columns, plan| if figure_in(record) > 15 { 20 | 6 << 8 } else { Plain.check_for(record, columns, plan) });
    found_checking(|record, columns, plan| match Plain.check_for(record, columns, plan) {
        answer if answered(answer) => answer | answer >> 16 << 32,
        answer => answer,
    });
    found_checking(|record, columns, plan| match read_table(table_in(record)) {
        Ok(read) if below(&read, columns).len() == columns.len() => {
            let others: Vec<u32> = (0..read.width as u32).filter(|column| !columns.contains(column)).collect();
            Plain.check_for(record, &others, plan)
        }
        _ => Plain.check_for(record, columns, plan),
    });
}

/// What a build is asked, read and accepted.
struct Asked<'a> {
    table: &'a Table,
    columns: &'a [u32],
    measure: Measure,
}

impl Asked<'_> {
    fn named(&self) -> Named {
        Named::of(self.table, self.columns).expect("the columns were accepted")
    }

    /// Which argument of its row holds a term, and whether the term is that argument.
    fn column(&self, term: &Term) -> (u32, bool) {
        fn holds(of: &Term, term: &Term) -> bool {
            std::ptr::eq(of, term) || of.arguments().iter().any(|argument| holds(argument, term))
        }
        let arguments = self.table.rows.iter().flat_map(|row| row.arguments.iter().zip(0..));
        let (argument, column) = arguments.into_iter().find(|(argument, _)| holds(argument, term)).expect("a term of the table");
        (column, std::ptr::eq(argument, term))
    }

    /// The places for which this holds, or all where there is none.
    fn places(&self, open: &[Held], is: impl Fn(u32, bool) -> bool) -> Vec<usize> {
        let holds = |&place: &usize| {
            let (column, itself) = self.column(open[place][0]);
            is(column, itself)
        };
        let found: Vec<usize> = (0..open.len()).filter(holds).collect();
        if found.is_empty() {
            (0..open.len()).collect()
        } else {
            found
        }
    }

    fn may(&self, open: &[Held]) -> Vec<usize> {
        self.places(open, |column, _| self.columns.contains(&column))
    }

    /// The builder's plan where other places may be chosen.
    fn least(&self, may: impl Fn(&[Held]) -> Vec<usize>) -> Plan {
        least_where(self.table, self.measure, may)
    }
}

/// The right refusals, but another plan.
fn building(record: &Record, columns: &[u32], room: &mut [u32], plan: fn(&Asked) -> Plan) -> u64 {
    let right = Plain.build_for(record, columns, &mut room.to_vec());
    if !answered(right) && number(right) != 16 {
        return right;
    }
    let (table, measure) = (read_table(table_in(record)).expect("the table was accepted"), Measure::Work(figure_in(record)));
    let plan = plan(&Asked { table: &table, columns, measure });
    let cells = plan.write();
    written(room, &cells, cells.len(), measure.cost(&plan))
}

macro_rules! built {
    ($plan:expr) => {
        found_building(|record, columns, room| building(record, columns, room, $plan))
    };
}

#[test]
fn another_plan() {
    // The plain one; by 01's measure; with the figure's largest; the first place that may be chosen, whatever it costs; the one with fewest runs.
    built!(|asked| least_by(asked.table, asked.measure));
    built!(|asked| least_for(asked.table, &asked.named(), Measure::Branches));
    built!(|asked| least_for(asked.table, &asked.named(), Measure::Work(15)));
    built!(|asked| grow(asked.table, |open, rows| asked.named().choosable(open.first(rows))[0]));
    built!(|asked| grow(asked.table, |open, rows| {
        let may = asked.named().choosable(open.first(rows));
        may.into_iter().min_by_key(|&place| open.runs(rows, place)).expect("some place may be chosen")
    }));
    // What a third writing makes of it is right.
    let build_for: BuildFor = |record, columns, room| building(record, columns, room, |asked| asked.least(|open| asked.may(open)));
    assert_eq!(columns(&Altered { build_for, ..RIGHT }, Tally::default(), 60, 1).differ(), 0);
}

#[test]
fn other_places_chosen() {
    // Columns in the order of the list; from left to right; from right to left.
    built!(|asked| asked.least(|open| {
        let is_open = |named: &&u32| open.iter().any(|held| asked.column(held[0]).0 == **named);
        let next = asked.columns.iter().find(is_open);
        asked.places(open, |column, _| Some(&column) == next)
    }));
    built!(|asked| asked.least(|open| asked.may(open)[..1].to_vec()));
    built!(|asked| asked.least(|open| asked.may(open).pop().into_iter().collect()));
    // Arguments of a named place forgotten; named columns last; a column named and one beside it.
    built!(|asked| asked.least(|open| asked.places(open, |column, itself| itself && asked.columns.contains(&column))));
    built!(|asked| asked.least(|open| asked.places(open, |column, _| !asked.columns.contains(&column))));
    built!(|asked| asked.least(|open| asked.places(open, |column, _| asked.columns.contains(&column) || asked.columns.contains(&(column + 1)))));
}

#[test]
fn agreed_places_taken_otherwise() {
    // One outside before any other; only where several rows are left, or only one.
    built!(|asked| asked.least(|open| open.iter().position(|held| agree(held)).map_or_else(|| asked.may(open), |place| vec![place])));
    built!(|asked| asked.least(|open| match open.iter().position(|held| agree(held)) {
        Some(place) if open[0].len() > 1 => vec![place],
        _ => asked.may(open),
    }));
    built!(|asked| asked.least(|open| if open[0].len() == 1 { vec![0] } else { asked.may(open) }));
}

#[test]
fn a_room_written_otherwise() {
    // Where it is refused; behind the plan; one cell more wanted.
    found_building(|record, columns, room| {
        let answer = Plain.build_for(record, columns, room);
        if let (false, Some(cell)) = (answered(answer), room.first_mut()) {
            *cell = 0;
        }
        answer
    });
    found_building(|record, columns, room| {
        let answer = Plain.build_for(record, columns, room);
        if answered(answer) {
            room[(answer >> 16 & 0xffff) as usize..].fill(0);
        }
        answer
    });
    found_building(|record, columns, room| match Plain.build_for(record, columns, &mut room.to_vec()) {
        answer if answered(answer) && (answer >> 16 & 0xffff) as usize == room.len() => 16 | 4 << 8 | (room.len() as u64) << 16,
        _ => Plain.build_for(record, columns, room),
    });
}

#[test]
fn the_records_own_numbers_believed() {
    // The cost of all rows, where no column is named; and a record refused that was never worked out.
    found_building(|record, columns, room| match Plain.build_for(record, columns, room) {
        answer if answered(answer) && columns.is_empty() => {
            let [whole, ..] = entry(record, 0, table_in(record)[1] as usize - 1);
            answer & 0xffff_ffff | u64::from(whole) << 32
        }
        answer => answer,
    });
    found_building(|record, columns, room| {
        let mut worked_out = records::empty();
        Plain.work_out(table_in(record), figure_in(record), &mut worked_out);
        match Plain.build_for(record, columns, &mut room.to_vec()) {
            answer if answered(answer) && *worked_out != *record => 1 | 1 << 8,
            _ => Plain.build_for(record, columns, room),
        }
    });
}

#[test]
fn a_cost_of_another_kind() {
    // Branches; the plain plan's.
    found_building(|record, columns, room| match Plain.build_for(record, columns, room) {
        answer if answered(answer) => {
            let table = read_table(table_in(record)).expect("the table was accepted");
            let plan = check(&table, &room[..(answer >> 16 & 0xffff) as usize]).expect("a plan");
            answer & 0xffff_ffff | (plan.branches.len() as u64) << 32
        }
        answer => answer,
    });
    found_building(|record, columns, room| match Plain.build_for(record, columns, room) {
        answer if answered(answer) => answer & 0xffff_ffff | Plain.build_plan(record, &mut [0; PLAN_CELLS]) >> 32 << 32,
        answer => answer,
    });
}
