//! What is saved of a bad card (02, W-212): the request's examples by each engine, and engines that are wrong in one thing each are found.

mod altered;

use altered::{answered, differs, number, Altered, Salvage, RIGHT};
use dudowiej_bench::compare::salvage::{examples, HEAD, NONE, SHOP};
use dudowiej_bench::compare::{salvages, Tally};
use dudowiej_bench::engine::{Definition, Engine, Exported, Plain};
use dudowiej_bench::make::files::{largest, of_cells};
use dudowiej_bench::model::files::{block, card, checks, file, filled, sealed, words, BLOCK_BYTES, BLOCK_CELLS, CHECKED};
use dudowiej_bench::model::least::{least_by, Measure};
use dudowiej_bench::model::plan::{check, grow};
use dudowiej_bench::model::read::{read_row, read_table, Table};
use dudowiej_bench::model::refusal::{Number, Refusal};
use dudowiej_bench::model::salvage::{Report, Saved};

fn engines() -> [&'static dyn Engine; 3] {
    [&Exported, &Plain, &Definition]
}

/// The answer with two values.
fn both(first: usize, second: usize) -> u64 {
    (first as u64) << 16 | (second as u64) << 32
}

/// A report that no call leaves.
const OTHER: Report = Report { kept: 7, dropped: 7, plan_kept: 7, table_cells: 7, plan_cells: 7, bad_blocks: 7 };

/// The answer, the three rooms and the report of a call in rooms of these sizes, all filled with 7 before.
type Left = (u64, Vec<u32>, Vec<u32>, Vec<usize>, Report);

fn left_by(engine: &dyn Engine, file: &[u8], [table, plan, bad]: [usize; 3]) -> Left {
    let (mut table, mut plan, mut bad, mut report) = (vec![7; table], vec![7; plan], vec![7; bad], OTHER);
    let answer = engine.salvage(file, &mut table, &mut plan, &mut bad, &mut report);
    (answer, table, plan, bad, report)
}

/// What is left in rooms of these sizes, which are large enough.
fn wanted(saved: &Saved, [table, plan, bad]: [usize; 3]) -> Left {
    fn padded<T: Copy>(front: &[T], room: usize, seven: T) -> Vec<T> {
        [front, &vec![seven; room - front.len()]].concat()
    }
    let answer = both(saved.table[1] as usize, saved.dropped);
    (answer, padded(&saved.table, table, 7), padded(&saved.plan, plan, 7), padded(&saved.bad, bad, 7), saved.report())
}

fn nothing(answer: u64, [table, plan, bad]: [usize; 3]) -> Left {
    (answer, vec![7; table], vec![7; plan], vec![7; bad], OTHER)
}

#[test]
fn the_requests_examples() {
    for engine in engines() {
        for (what, file, expected) in examples() {
            for rooms in [[2050, 6082, 100], expected.as_ref().map_or([0; 3], Saved::needed)] {
                let expected = expected.as_ref().map_or_else(|&refusal| nothing(refusal, rooms), |saved| wanted(saved, rooms));
                assert_eq!(left_by(engine, &file, rooms), expected, "{what}");
            }
        }
    }
}

/// What the request's table says of the shop's card.
#[test]
fn the_shops_card() {
    let zeroed = [&SHOP[..512], &[0; 512]].concat();
    for engine in engines() {
        for (file, plan_kept, bad_blocks) in [(&SHOP[..], 1, 0), (&zeroed, 0, 1), (&SHOP[..1023], 0, 1), (&SHOP[..512], 0, 0)] {
            let (answer, _, _, bad, report) = left_by(engine, file, [54, 107, 1]);
            assert_eq!(answer, both(12, 0));
            assert_eq!(report, Report { kept: 12, dropped: 0, plan_kept, table_cells: 54, plan_cells: 107, bad_blocks });
            assert_eq!(bad, [if bad_blocks == 1 { 1 } else { 7 }]);
        }
    }
}

/// "A file W-211 accepts comes through unchanged": written again it is the same.
#[test]
fn accepted_files_come_through() {
    for engine in engines() {
        for (table, plan) in [card(SHOP).expect("a sound card"), of_cells(125), of_cells(126), of_cells(251), largest()] {
            let bytes = file(&table, &plan).expect("a sound table and plan");
            let rooms = [table.len(), plan.len(), 0];
            let (answer, table, plan, _, report) = left_by(engine, &bytes, rooms);
            assert_eq!((answer & 0xff, answer >> 32, report.plan_kept, report.bad_blocks), (0, 0, 1, 0));
            assert_eq!(file(&table, &plan), Ok(bytes));
        }
    }
}

#[test]
fn rooms_that_are_too_small() {
    let room = |needed: u64| 16 | 4 << 8 | needed << 16;
    let file = [&SHOP[..512], &[0; 1100]].concat();
    for engine in engines() {
        // The table's first, then the plan's, then the list's.
        let cases = [
            ([53, 106, 2], 54),
            ([53, 107, 3], 54),
            ([0, 0, 0], 54),
            ([54, 106, 2], 107),
            ([54, 0, 0], 107),
            ([54, 107, 2], 3),
            ([2050, 6082, 0], 3),
        ];
        for (rooms, needed) in cases {
            assert_eq!(left_by(engine, &file, rooms), nothing(room(needed), rooms));
        }
        assert_eq!(left_by(engine, &file, [54, 107, 3]).3, [1, 2, 3]);
        // HEAD and NONE come before.
        assert_eq!(left_by(engine, &[0; 512], [0; 3]), nothing(HEAD, [0; 3]));
        let none = sealed(&filled(&[1, 1, 3 << 30], &[]));
        assert_eq!(left_by(engine, &none, [0; 3]), nothing(NONE, [0; 3]));
    }
}

/// Numbers and how many there are go beyond sixteen bits.
#[test]
fn more_bad_blocks_than_any_card() {
    const BLOCKS: usize = 65_540;
    let mut file = SHOP.to_vec();
    file.resize(BLOCKS * BLOCK_BYTES, 0);
    // One that is sound, and one whose number is its place in sixteen bits only.
    file[65_537 * BLOCK_BYTES..][..BLOCK_BYTES].copy_from_slice(&block(65_537, &[9; BLOCK_CELLS]));
    file[65_538 * BLOCK_BYTES..][..BLOCK_BYTES].copy_from_slice(&block(2, &[9; BLOCK_CELLS]));
    let expected: Vec<usize> = (2..BLOCKS).filter(|&number| number != 65_537).collect();
    for engine in engines() {
        let (answer, _, _, bad, report) = left_by(engine, &file, [54, 107, 65_537]);
        assert_eq!((answer, report.plan_kept, report.bad_blocks), (both(12, 0), 1, 65_537));
        assert_eq!(bad, expected);
        assert_eq!(left_by(engine, &file, [54, 107, 65_536]).0, 16 | 4 << 8 | 65_537 << 16);
    }
}

/// A card in a third writing, of which the wrong ones below are made.
struct Card<'f> {
    bytes: &'f [u8],
    /// The words of each block that is there, zeros where it ends early, and whether it is sound.
    blocks: Vec<(Vec<u32>, bool)>,
    table_size: u64,
    plan_size: u64,
    width: u32,
    count: u32,
}

impl Card<'_> {
    /// A cell in a sound block.
    fn cell(&self, place: u64) -> Option<u32> {
        let (words, sound) = self.blocks.get(place as usize / 125)?;
        sound.then(|| words[1 + place as usize % 125])
    }

    /// A cell, sound or not.
    fn any_cell(&self, place: u64) -> Option<u32> {
        Some(self.blocks.get(place as usize / 125)?.0[1 + place as usize % 125])
    }

    fn plan_from(&self) -> u64 {
        2 + self.table_size
    }

    fn plan_to(&self) -> u64 {
        self.plan_from() + self.plan_size
    }

    fn first_bad(&self) -> usize {
        self.blocks.iter().position(|(_, sound)| !sound).unwrap_or(self.blocks.len())
    }
}

type Rows = Vec<Vec<u32>>;

/// How each thing is decided.
struct Way {
    sound: fn(&[u8], usize) -> bool,
    head: fn(&Card) -> bool,
    /// The cells from the first row on.
    cells: fn(&Card) -> Vec<u32>,
    rows: fn(u32, u32, &[u32]) -> Rows,
    /// The plan that is kept, if one is.
    plan: fn(&Card, &Table) -> Option<Vec<u32>>,
    build: fn(&Table) -> Vec<u32>,
    bad: fn(&Card) -> Vec<usize>,
    /// The room that is too small, by what is needed and what is lent.
    room: fn([usize; 3], [usize; 3]) -> Option<usize>,
    report: fn(&Card, &Saved) -> Report,
}

const AS_READ: Way = Way {
    sound: |bytes, place| sound_by(bytes, |words| words[0] as usize == place && words[126..] == checks(&words[..126])),
    head: |card| (1..=8).contains(&card.width) && (1..=64).contains(&card.count),
    cells: |card| (4..card.plan_from()).map_while(|place| card.cell(place)).collect(),
    rows: |width, count, cells| rows_by(count, cells, |rows, cells| read_row(width as usize, rows, cells)),
    plan: |card, table| checked(card, table, (card.plan_from()..card.plan_to()).map(|place| card.cell(place)).collect()),
    build: |table| least_by(table, Measure::Work(0)).write(),
    bad: |card| (0..card.blocks.len()).filter(|&place| !card.blocks[place].1).collect(),
    room: |needed, lent| (0..3).find(|&room| lent[room] < needed[room]).map(|room| needed[room]),
    report: |_, saved| saved.report(),
};

fn sound_by(bytes: &[u8], is_sound: impl Fn(&[u32]) -> bool) -> bool {
    bytes.len() == BLOCK_BYTES && is_sound(&words(bytes))
}

type Test = Result<(), Refusal>;

/// Rows one after another as long as this accepts one, or finds that cells follow it.
fn rows_by(count: u32, cells: &[u32], test: impl Fn(&[Vec<u32>], &[u32]) -> Test) -> Rows {
    let (mut rows, mut at) = (Rows::new(), 0);
    while rows.len() < count as usize {
        let Some(length) = length(test(&rows, &cells[at..]), cells.len() - at) else {
            break;
        };
        rows.push(cells[at..at + length].to_vec());
        at += length;
    }
    rows
}

fn length(test: Test, left: usize) -> Option<usize> {
    match test {
        Ok(()) => Some(left),
        Err(refusal) if refusal.number == Number::Extra => Some(refusal.place),
        Err(_) => None,
    }
}

/// The plan, where all rows are kept and it is accepted.
fn checked(card: &Card, table: &Table, plan: Option<Vec<u32>>) -> Option<Vec<u32>> {
    plan.filter(|plan| table.rows.len() == card.count as usize && check(table, plan).is_ok())
}

/// What is saved, and what is said of it.
fn saving(way: &Way, bytes: &[u8]) -> Result<(Saved, Report), u64> {
    let block = |(place, bytes): (usize, &[u8])| {
        let mut words = words(bytes);
        words.resize(128, 0);
        (words, (way.sound)(bytes, place))
    };
    let blocks: Vec<_> = bytes.chunks(BLOCK_BYTES).enumerate().map(block).collect();
    let (words, true) = blocks.first().ok_or(HEAD)? else {
        return Err(HEAD);
    };
    let [table_size, plan_size, width, count] = [1, 2, 3, 4].map(|place| words[place]);
    let card = Card { bytes, table_size: table_size.into(), plan_size: plan_size.into(), width, count, blocks };
    if !(way.head)(&card) {
        return Err(HEAD);
    }
    let rows = (way.rows)(width, count, &(way.cells)(&card));
    if rows.is_empty() {
        return Err(NONE);
    }
    let table = [&[width, rows.len() as u32], &rows.concat()[..]].concat();
    let read = read_table(&table).map_err(|_| NONE)?;
    let old = (way.plan)(&card, &read);
    let dropped = (count as usize).saturating_sub(rows.len());
    let saved = Saved { table, plan_kept: old.is_some(), plan: old.unwrap_or_else(|| (way.build)(&read)), bad: (way.bad)(&card), dropped };
    let report = (way.report)(&card, &saved);
    Ok((saved, report))
}

fn salvaging(way: &Way, bytes: &[u8], table: &mut [u32], plan: &mut [u32], bad: &mut [usize], report: &mut Report) -> u64 {
    let (saved, told) = match saving(way, bytes) {
        Ok(saved) => saved,
        Err(refusal) => return refusal,
    };
    if let Some(needed) = (way.room)(saved.needed(), [table.len(), plan.len(), bad.len()]) {
        return room(needed);
    }
    put(table, &saved.table);
    put(plan, &saved.plan);
    put(bad, &saved.bad);
    *report = told;
    both(saved.table[1] as usize, saved.dropped)
}

/// As far as the room goes.
fn put<T: Copy>(room: &mut [T], what: &[T]) {
    let count = room.len().min(what.len());
    room[..count].copy_from_slice(&what[..count]);
}

fn room(needed: usize) -> u64 {
    16 | 4 << 8 | (needed as u64) << 16
}

#[track_caller]
fn wrong(salvage: Salvage) {
    differs(salvages(&Altered { salvage, ..RIGHT }, Tally::default(), 60, 1));
}

/// An engine in which these things are decided in another way.
macro_rules! instead {
    ($($thing:ident: $way:expr),*) => {
        wrong(|file, table, plan, bad, report| salvaging(&Way { $($thing: $way,)* ..AS_READ }, file, table, plan, bad, report))
    };
}

#[test]
fn right_ones_pass() {
    let tally = salvages(&RIGHT, Tally::default(), 500, 1);
    assert_eq!(tally.differ(), 0, "{tally}");
    // What the wrong ones below are made from.
    let salvage: Salvage = |file, table, plan, bad, report| salvaging(&AS_READ, file, table, plan, bad, report);
    let tally = salvages(&Altered { salvage, ..RIGHT }, Tally::default(), 500, 1);
    assert_eq!(tally.differ(), 0, "{tally}");
}

#[test]
fn blocks_told_otherwise() {
    // Any number; one of 8 bits; one check alone, the other alone; a part is sound; all are; the first alone is looked at.
    instead!(sound: |bytes, _| sound_by(bytes, |words| words[126..] == checks(&words[..CHECKED])));
    instead!(sound: |bytes, place| sound_by(bytes, |words| words[0] as usize == place % 256 && words[126..] == checks(&words[..CHECKED])));
    instead!(sound: |bytes, place| sound_by(bytes, |words| words[0] as usize == place && words[126] == checks(&words[..CHECKED])[0]));
    instead!(sound: |bytes, place| sound_by(bytes, |words| words[0] as usize == place && words[127] == checks(&words[..CHECKED])[1]));
    instead!(sound: |bytes, place| bytes.len() < BLOCK_BYTES || (AS_READ.sound)(bytes, place));
    instead!(sound: |bytes, _| bytes.len() == BLOCK_BYTES);
    instead!(sound: |bytes, place| place > 0 || (AS_READ.sound)(bytes, place));
    // What stands in a block decides, but for block 0, and not where it is.
    instead!(sound: |bytes, place| {
        (place > 0 || (AS_READ.sound)(bytes, 0)) && sound_by(bytes, |words| words[126..] == checks(&words[..CHECKED]))
    });
}

#[test]
fn heads_told_otherwise() {
    // Widths and counts that are allowed or not; sizes, whole blocks and padding, which are for the reading of files.
    instead!(head: |card| card.width <= 8 && (1..=64).contains(&card.count));
    instead!(head: |card| (1..=9).contains(&card.width) && (1..=64).contains(&card.count));
    instead!(head: |card| (1..=7).contains(&card.width) && (1..=64).contains(&card.count));
    instead!(head: |card| (1..=8).contains(&card.width) && (1..=63).contains(&card.count));
    instead!(head: |card| (1..=8).contains(&card.width) && (1..=65).contains(&card.count));
    instead!(head: |card| (1..=8).contains(&card.width) && card.count <= 64);
    instead!(head: |card| (1..=8).contains(&card.width) && (1..=64).contains(&(card.count & 0xffff)));
    instead!(head: |card| (1..=8).contains(&card.width));
    instead!(head: |card| (1..=255).contains(&card.width) && (1..=64).contains(&card.count));
    instead!(head: |card| (AS_READ.head)(card) && card.table_size <= 2050);
    instead!(head: |card| (AS_READ.head)(card) && card.table_size >= 2);
    instead!(head: |card| (AS_READ.head)(card) && card.plan_size <= 6082);
    instead!(head: |card| (AS_READ.head)(card) && card.plan_to().div_ceil(125) <= card.blocks.len() as u64);
    instead!(head: |card| (AS_READ.head)(card) && card.bytes.len() % BLOCK_BYTES == 0);
    instead!(head: |card| (AS_READ.head)(card) && card.blocks.len() <= 66);
}

#[test]
fn the_rows_cells_otherwise() {
    // Not cut at the table size; a cell early, a cell late; cut at 2,050 cells of a file; the sizes counted.
    instead!(cells: |card| (4..).map_while(|place| card.cell(place)).collect());
    instead!(cells: |card| (4..card.plan_from() - 1).map_while(|place| card.cell(place)).collect());
    instead!(cells: |card| (4..card.plan_from() + 1).map_while(|place| card.cell(place)).collect());
    instead!(cells: |card| (4..card.table_size).map_while(|place| card.cell(place)).collect());
    instead!(cells: |card| (4..card.plan_from()).take(2045).map_while(|place| card.cell(place)).collect());
    // Nothing where the size is over 2,050, or past the file.
    instead!(cells: |card| if card.table_size > 2050 { Vec::new() } else { (AS_READ.cells)(card) });
    instead!(cells: |card| if card.plan_from() > 125 * card.blocks.len() as u64 { Vec::new() } else { (AS_READ.cells)(card) });
    // Bad blocks left out, read as they are, and read as zeros; and whole rows only up to the block before.
    instead!(cells: |card| (4..card.plan_from().min(125 * card.blocks.len() as u64)).filter_map(|place| card.cell(place)).collect());
    instead!(cells: |card| (4..card.plan_from()).map_while(|place| card.any_cell(place)).collect());
    instead!(cells: |card| (4..card.plan_from().min(125 * card.blocks.len() as u64)).map(|place| card.cell(place).unwrap_or(0)).collect());
    instead!(cells: |card| {
        let to = if card.first_bad() < card.blocks.len() { 125 * card.first_bad() as u64 - 1 } else { u64::MAX };
        (4..card.plan_from().min(to)).map_while(|place| card.cell(place)).collect()
    });
    // A row that ends in a bad block: the rest of it is taken from there.
    instead!(cells: |card| {
        let cells = (AS_READ.cells)(card);
        let from = 4 + cells.len() as u64;
        let more = (from..card.plan_from().min(from + 31)).map_while(|place| card.any_cell(place));
        cells.iter().copied().chain(more).collect()
    });
}

#[test]
fn rows_kept_otherwise() {
    // One fewer; one fewer where not all are kept; none but all; at most as many as fit the count and one more; 32 or 63 at most.
    instead!(rows: |width, count, cells| { let mut rows = (AS_READ.rows)(width, count, cells); rows.pop(); rows });
    instead!(rows: |width, count, cells| {
        let mut rows = (AS_READ.rows)(width, count, cells);
        if rows.len() < count as usize {
            rows.pop();
        }
        rows
    });
    instead!(rows: |width, count, cells| Some((AS_READ.rows)(width, count, cells)).filter(|rows| rows.len() == count as usize).unwrap_or_default());
    instead!(rows: |width, count, cells| (AS_READ.rows)(width, (count + 1).min(64), cells));
    instead!(rows: |width, _, cells| (AS_READ.rows)(width, 64, cells));
    instead!(rows: |width, count, cells| (AS_READ.rows)(width, count.min(63), cells));
    instead!(rows: |_, count, cells| (AS_READ.rows)(1, count, cells));
    // SAME not told, told of neighbours alone, left out with the rows after it kept; FRESH not told.
    instead!(rows: |width, count, cells| {
        rows_by(count, cells, |rows, cells| match read_row(width as usize, rows, cells) {
            Err(refusal) if refusal.number == Number::Same => read_row(width as usize, &[], cells),
            other => other,
        })
    });
    instead!(rows: |width, count, cells| rows_by(count, cells, |rows, cells| {
        read_row(width as usize, &rows[rows.len().saturating_sub(1)..], cells)
    }));
    instead!(rows: |width, count, cells| without_refused(width, count, cells, &[Number::Same]));
    instead!(rows: |width, count, cells| without_refused(width, count, cells, &[Number::Same, Number::Fresh, Number::Cell, Number::Long]));
    // A row that follows a refused one at the next cell.
    instead!(rows: |width, count, cells| {
        let rows = (AS_READ.rows)(width, count, cells);
        let at = rows.concat().len() + 1;
        let more = rows_by(count - rows.len() as u32, cells.get(at..).unwrap_or(&[]), |more, cells| {
            read_row(width as usize, &[&rows[..], more].concat(), cells)
        });
        [rows, more].concat()
    });
    // Cells after the last row drop it; a row with a variable that stands above ends it.
    instead!(rows: |width, count, cells| {
        let mut rows = (AS_READ.rows)(width, count, cells);
        if rows.concat().len() < cells.len() {
            rows.pop();
        }
        rows
    });
    instead!(rows: |width, count, cells| {
        let rows = (AS_READ.rows)(width, count, cells);
        let first = (1..rows.len()).find(|&row| rows[..row].contains(&rows[row])).unwrap_or(rows.len());
        rows[..first].to_vec()
    });
}

/// Rows that are refused in these ways are left out, and the rows after them kept.
fn without_refused(width: u32, count: u32, cells: &[u32], numbers: &[Number]) -> Rows {
    let (mut rows, mut at) = (Rows::new(), 0);
    for _ in 0..count {
        let test = read_row(width as usize, &rows, &cells[at..]);
        let refused = test.is_err_and(|refusal| numbers.contains(&refusal.number));
        // Of a row that cannot be read, as many cells as there are columns.
        let apart = length(read_row(width as usize, &[], &cells[at..]), cells.len() - at);
        let Some(length) = length(test, cells.len() - at).or(apart.or(Some(width as usize)).filter(|_| refused)) else {
            break;
        };
        let end = cells.len().min(at + length);
        if !refused {
            rows.push(cells[at..end].to_vec());
        }
        at = end;
    }
    rows
}

#[test]
fn plans_kept_otherwise() {
    // Never; whenever no block is bad; whenever none before it is bad; unchecked; from bad blocks too.
    instead!(plan: |_, _| None);
    instead!(plan: |card, table| (AS_READ.plan)(card, table).filter(|_| card.first_bad() == card.blocks.len()));
    instead!(plan: |card, table| (AS_READ.plan)(card, table).filter(|_| card.first_bad() as u64 > (card.plan_to() - 1) / 125));
    instead!(plan: |card, table| {
        let plan: Option<Vec<u32>> = (card.plan_from()..card.plan_to()).map(|place| card.cell(place)).collect();
        plan.filter(|_| table.rows.len() == card.count as usize)
    });
    instead!(plan: |card, table| checked(card, table, (card.plan_from()..card.plan_to()).map(|place| card.any_cell(place)).collect()));
    // Where rows were dropped; where the check alone is against the rows kept.
    instead!(plan: |card, table| {
        let plan: Option<Vec<u32>> = (card.plan_from()..card.plan_to()).map(|place| card.cell(place)).collect();
        plan.filter(|plan| check(table, plan).is_ok())
    });
    // As far as it is there, as far as it is needed; of no cells; after the rows that are kept.
    instead!(plan: |card, table| checked(card, table, Some((card.plan_from()..card.plan_to()).map_while(|place| card.cell(place)).collect())));
    instead!(plan: |card, table| {
        let cells: Vec<u32> = (card.plan_from()..card.plan_from() + 6082).map_while(|place| card.cell(place)).collect();
        (1..=cells.len()).rev().find_map(|count| checked(card, table, Some(cells[..count].to_vec())))
    });
    instead!(plan: |card, table| if card.plan_size == 0 { Some(Vec::new()) } else { (AS_READ.plan)(card, table) });
    instead!(plan: |card, table| {
        let from = 4 + table.rows.iter().map(|row| row.cells).sum::<usize>() as u64;
        checked(card, table, (from..from + card.plan_size).map(|place| card.cell(place)).collect())
    });
    // Only a least one; only in a file that W-211 accepts, or of the right number of blocks.
    instead!(plan: |card, table| (AS_READ.plan)(card, table).filter(|plan| *plan == (AS_READ.build)(table)));
    instead!(plan: |card, table| (AS_READ.plan)(card, table).filter(|_| dudowiej_bench::model::files::card(card.bytes).is_ok()));
    instead!(plan: |card, table| (AS_READ.plan)(card, table).filter(|_| card.plan_to().div_ceil(125) == card.blocks.len() as u64));
    instead!(plan: |card, table| (AS_READ.plan)(card, table).filter(|_| card.table_size <= 2050));
    // One block too few is looked at, one too many.
    instead!(plan: |card, table| {
        let last = (card.plan_to() - 1) / 125;
        let cell = |place: u64| if place / 125 == last { card.any_cell(place) } else { card.cell(place) };
        checked(card, table, (card.plan_from()..card.plan_to()).map(cell).collect())
    });
    instead!(plan: |card, table| (AS_READ.plan)(card, table).filter(|_| card.blocks.get(card.plan_to() as usize / 125).is_none_or(|block| block.1)));
}

#[test]
fn new_plans_otherwise() {
    // Of other figures; by the number of branches; of the first open places, of the last.
    instead!(build: |table| least_by(table, Measure::Work(1)).write());
    instead!(build: |table| least_by(table, Measure::Work(15)).write());
    instead!(build: |table| least_by(table, Measure::Branches).write());
    instead!(build: |table| grow(table, |_, _| 0).write());
    instead!(build: |table| grow(table, |open, rows| open.places(rows) - 1).write());
}

#[test]
fn bad_blocks_otherwise() {
    // The first alone; all after it; those the sizes count; whole ones; from 1; by what stands there; in bytes; of 8 bits; downwards; none.
    instead!(bad: |card| (AS_READ.bad)(card).into_iter().take(1).collect());
    instead!(bad: |card| (card.first_bad()..card.blocks.len()).collect());
    instead!(bad: |card| (AS_READ.bad)(card).into_iter().filter(|&place| (place as u64) < card.plan_to().div_ceil(125)).collect());
    instead!(bad: |card| (AS_READ.bad)(card).into_iter().filter(|&place| place < card.bytes.len() / BLOCK_BYTES).collect());
    instead!(bad: |card| (AS_READ.bad)(card).into_iter().map(|place| place + 1).collect());
    instead!(bad: |card| (AS_READ.bad)(card).into_iter().map(|place| card.blocks[place].0[0] as usize).collect());
    instead!(bad: |card| (AS_READ.bad)(card).into_iter().map(|place| BLOCK_BYTES * place).collect());
    instead!(bad: |card| (AS_READ.bad)(card).into_iter().map(|place| place & 0xff).collect());
    instead!(bad: |card| (AS_READ.bad)(card).into_iter().rev().collect());
    instead!(bad: |_| Vec::new());
    // Those that are missing too; one more where there is a part; at most 66.
    instead!(bad: |card| {
        let missing = card.blocks.len()..(card.plan_to().div_ceil(125) as usize).min(card.blocks.len() + 3);
        (AS_READ.bad)(card).into_iter().chain(missing).collect()
    });
    instead!(bad: |card| {
        let part = (card.bytes.len() % BLOCK_BYTES != 0).then_some(card.blocks.len());
        (AS_READ.bad)(card).into_iter().chain(part).collect()
    });
    instead!(bad: |card| (AS_READ.bad)(card).into_iter().take(66).collect());
}

#[test]
fn rooms_told_otherwise() {
    // In other orders; one of them not looked at; one to spare; all together; what is missing; a list that must have room.
    instead!(room: |needed, lent| [1, 0, 2].into_iter().find(|&room| lent[room] < needed[room]).map(|room| needed[room]));
    instead!(room: |needed, lent| [2, 0, 1].into_iter().find(|&room| lent[room] < needed[room]).map(|room| needed[room]));
    instead!(room: |needed, lent| [0, 2, 1].into_iter().find(|&room| lent[room] < needed[room]).map(|room| needed[room]));
    instead!(room: |needed, lent| (1..3).find(|&room| lent[room] < needed[room]).map(|room| needed[room]));
    instead!(room: |needed, lent| [0, 2].into_iter().find(|&room| lent[room] < needed[room]).map(|room| needed[room]));
    instead!(room: |needed, lent| (0..2).find(|&room| lent[room] < needed[room]).map(|room| needed[room]));
    instead!(room: |needed, [table, plan, bad]| (AS_READ.room)(needed, [table.saturating_sub(1), plan, bad]));
    instead!(room: |needed, [table, plan, bad]| (AS_READ.room)(needed, [table, plan.saturating_sub(1), bad]));
    instead!(room: |needed, [table, plan, bad]| (AS_READ.room)(needed, [table, plan, bad.saturating_sub(1)]));
    instead!(room: |needed, lent| (AS_READ.room)(needed, lent).map(|_| needed.iter().sum()));
    instead!(room: |needed, lent| (0..3).find(|&room| lent[room] < needed[room]).map(|room| needed[room] - lent[room]));
    instead!(room: |needed, lent| (0..3).find(|&room| lent[room] < needed[room]).map(|room| lent[room]));
    instead!(room: |needed, lent| (AS_READ.room)(needed, lent).or((lent[2] == 0).then_some(0)));
    // By the most that there can be.
    instead!(room: |needed, lent| (AS_READ.room)([needed[0], 6082, needed[2]], lent));
    // Before HEAD and NONE.
    wrong(|file, table, plan, bad, report| match Plain.salvage(file, table, plan, bad, report) {
        HEAD if table.is_empty() => room(2),
        answer => answer,
    });
    wrong(|file, table, plan, bad, report| match Plain.salvage(file, table, plan, bad, report) {
        NONE if table.len() < 3 => room(3),
        answer => answer,
    });
}

#[test]
fn reports_otherwise() {
    // Of a new plan that it was kept, of a kept one that it is new; 2 for 1.
    instead!(report: |_, saved| Report { plan_kept: 1, ..saved.report() });
    instead!(report: |_, saved| Report { plan_kept: 0, ..saved.report() });
    instead!(report: |_, saved| Report { plan_kept: 2 * usize::from(saved.plan_kept), ..saved.report() });
    instead!(report: |card, saved| Report { plan_kept: usize::from(card.first_bad() == card.blocks.len()), ..saved.report() });
    instead!(report: |_, saved| Report { plan_kept: usize::from(saved.dropped == 0), ..saved.report() });
    // The count for the rows kept; rows dropped none, or by what the count was before; exchanged.
    instead!(report: |card, saved| Report { kept: card.count as usize, ..saved.report() });
    instead!(report: |_, saved| Report { dropped: 0, ..saved.report() });
    instead!(report: |_, saved| Report { dropped: saved.dropped.min(1), ..saved.report() });
    instead!(report: |_, saved| Report { dropped: 64 - saved.table[1] as usize, ..saved.report() });
    instead!(report: |_, saved| Report { kept: saved.dropped, dropped: saved.table[1] as usize, ..saved.report() });
    // Sizes as they stand in the file; without width and count; exchanged; in bytes.
    instead!(report: |card, saved| Report { table_cells: card.table_size as usize, ..saved.report() });
    instead!(report: |card, saved| Report { plan_cells: card.plan_size as usize, ..saved.report() });
    instead!(report: |_, saved| Report { table_cells: saved.table.len() - 2, ..saved.report() });
    instead!(report: |_, saved| Report { table_cells: saved.plan.len(), plan_cells: saved.table.len(), ..saved.report() });
    instead!(report: |_, saved| Report { plan_cells: 4 * saved.plan.len(), ..saved.report() });
    // The first bad block's number; 1 for several; the blocks there are; those of the sizes.
    instead!(report: |_, saved| Report { bad_blocks: saved.bad.first().copied().unwrap_or(0), ..saved.report() });
    instead!(report: |_, saved| Report { bad_blocks: saved.bad.len().min(1), ..saved.report() });
    instead!(report: |card, saved| Report { bad_blocks: card.blocks.len(), ..saved.report() });
    instead!(report: |_, saved| Report { bad_blocks: saved.bad.len() & 0xff, ..saved.report() });
    // Written where something is refused; not written.
    wrong(|file, table, plan, bad, report| {
        let answer = Plain.salvage(file, table, plan, bad, report);
        if number(answer) == 16 {
            *report = saving(&AS_READ, file).expect("a room was too small").1;
        }
        answer
    });
    wrong(|file, table, plan, bad, report| {
        let answer = Plain.salvage(file, table, plan, bad, report);
        if matches!(number(answer), 31 | 32) {
            *report = Report::default();
        }
        answer
    });
    wrong(|file, table, plan, bad, _| Plain.salvage(file, table, plan, bad, &mut Report::default()));
}

#[test]
fn what_is_written_otherwise() {
    // Where a room is too small: the table, the plan, the list as far as it goes.
    wrong(|file, table, plan, bad, report| {
        let answer = Plain.salvage(file, table, plan, bad, report);
        if number(answer) == 16 {
            put(table, &saving(&AS_READ, file).expect("a room was too small").0.table);
        }
        answer
    });
    wrong(|file, table, plan, bad, report| {
        let answer = Plain.salvage(file, table, plan, bad, report);
        if number(answer) == 16 {
            put(plan, &saving(&AS_READ, file).expect("a room was too small").0.plan);
        }
        answer
    });
    wrong(|file, table, plan, bad, report| {
        let answer = Plain.salvage(file, table, plan, bad, report);
        if number(answer) == 16 {
            put(bad, &saving(&AS_READ, file).expect("a room was too small").0.bad);
        }
        answer
    });
    // Where nothing can be saved: the list, the head.
    wrong(|file, table, plan, bad, report| {
        let answer = Plain.salvage(file, table, plan, bad, report);
        if let (31, [first, ..]) = (number(answer), bad) {
            *first = 0;
        }
        answer
    });
    wrong(|file, table, plan, bad, report| {
        let answer = Plain.salvage(file, table, plan, bad, report);
        if let (32, [width, ..]) = (number(answer), table) {
            *width = 1;
        }
        answer
    });
    // Rooms cleared behind; not written; the count left as it stands in the file.
    wrong(|file, table, plan, bad, report| {
        let answer = Plain.salvage(file, table, plan, bad, report);
        if answered(answer) {
            table[report.table_cells..].fill(0);
        }
        answer
    });
    wrong(|file, table, plan, bad, report| {
        let answer = Plain.salvage(file, table, plan, bad, report);
        if answered(answer) {
            plan[report.plan_cells..].fill(0);
        }
        answer
    });
    wrong(|file, table, plan, bad, report| {
        let answer = Plain.salvage(file, table, plan, bad, report);
        if answered(answer) {
            bad[report.bad_blocks..].fill(0);
        }
        answer
    });
    wrong(|file, table, plan, bad, report| Plain.salvage(file, &mut table.to_vec(), plan, bad, report));
    wrong(|file, table, plan, bad, report| Plain.salvage(file, table, &mut plan.to_vec(), bad, report));
    wrong(|file, table, plan, bad, report| Plain.salvage(file, table, plan, &mut bad.to_vec(), report));
    wrong(|file, table, plan, bad, report| {
        let answer = Plain.salvage(file, table, plan, bad, report);
        if answered(answer) {
            table[1] += report.dropped as u32;
        }
        answer
    });
}

#[test]
fn answers_otherwise() {
    // Exchanged; the count for the rows kept; bad blocks, or whether the plan was kept, for the rows dropped; cells.
    wrong(|file, table, plan, bad, report| match Plain.salvage(file, table, plan, bad, report) {
        answer if answered(answer) => both(report.dropped, report.kept),
        answer => answer,
    });
    wrong(|file, table, plan, bad, report| match Plain.salvage(file, table, plan, bad, report) {
        answer if answered(answer) => both(report.kept + report.dropped, report.dropped),
        answer => answer,
    });
    wrong(|file, table, plan, bad, report| match Plain.salvage(file, table, plan, bad, report) {
        answer if answered(answer) => both(report.kept, report.bad_blocks),
        answer => answer,
    });
    wrong(|file, table, plan, bad, report| match Plain.salvage(file, table, plan, bad, report) {
        answer if answered(answer) => both(report.table_cells, report.plan_cells),
        answer => answer,
    });
}

#[test]
fn refusals_otherwise() {
    // NONE for HEAD and HEAD for NONE; DAMAGE at 0; at other places; of other inputs; the first row's own refusal.
    wrong(|file, table, plan, bad, report| match Plain.salvage(file, table, plan, bad, report) {
        HEAD => NONE,
        answer => answer,
    });
    wrong(|file, table, plan, bad, report| match Plain.salvage(file, table, plan, bad, report) {
        NONE => HEAD,
        answer => answer,
    });
    wrong(|file, table, plan, bad, report| match Plain.salvage(file, table, plan, bad, report) {
        HEAD if file.len() >= BLOCK_BYTES => 28 | 8 << 8,
        answer => answer,
    });
    wrong(|file, table, plan, bad, report| match Plain.salvage(file, table, plan, bad, report) {
        HEAD if file.is_empty() => 27 | 8 << 8,
        answer => answer,
    });
    wrong(|file, table, plan, bad, report| match Plain.salvage(file, table, plan, bad, report) {
        NONE => NONE | 4 << 16,
        answer => answer,
    });
    wrong(|file, table, plan, bad, report| match Plain.salvage(file, table, plan, bad, report) {
        answer @ (HEAD | NONE) => answer & 0xff | 1 << 8,
        answer => answer,
    });
    wrong(|file, table, plan, bad, report| match Plain.salvage(file, table, plan, bad, report) {
        answer if number(answer) == 16 => answer & !0xff00 | 8 << 8,
        answer => answer,
    });
}
