//! One file for a table and its plan (02, W-211): the request's bytes and its table of files by each engine, and engines that are wrong in one
//! thing each are found.

mod altered;

use altered::{answered, differs, number, written, Altered, ReadFile, WriteFile, RIGHT};
use dudowiej_bench::compare::files::{answers, p1, refused, worked, CHECKS, FIRST, LAST, P1_CHECKS, PLAN, TABLE, WORDS};
use dudowiej_bench::compare::{files, Tally};
use dudowiej_bench::engine::{Definition, Engine, Exported, Plain};
use dudowiej_bench::make::files::{cells, largest, of_cells};
use dudowiej_bench::make::records;
use dudowiej_bench::model::files::{block, checks, end, filled, sealed, words, BLOCK_BYTES, BLOCK_CELLS, CHECKED, FILE_BYTES};
use dudowiej_bench::model::record::{table_in, Record};
use dudowiej_bench::model::text::load;
use dudowiej_bench::model::{check_plan, refusal::packed};
use dudowiej_bench::random::Random;

fn engines() -> [&'static dyn Engine; 3] {
    [&Exported, &Plain, &Definition]
}

/// The answer with two values.
fn both(first: usize, second: usize) -> u64 {
    (first as u64) << 16 | (second as u64) << 32
}

/// The file of a table and a plan by an engine, in more room than is needed; the rest of it stays.
fn file_by(engine: &dyn Engine, table: &[u32], plan: &[u32]) -> Vec<u8> {
    let mut room = vec![7; FILE_BYTES + 100];
    let answer = engine.write_file(&records::worked_out(table, 0), plan, &mut room);
    let bytes = (answer >> 16 & 0xffff) as usize;
    assert_eq!(answer, both(bytes, bytes / 512));
    assert!(room[bytes..].iter().all(|&byte| byte == 7));
    room.truncate(bytes);
    room
}

/// A file is read to these, in rooms of just their size.
fn reads_back(engine: &dyn Engine, file: &[u8], table: &[u32], plan: &[u32]) {
    let (mut first, mut second) = (vec![7; table.len()], vec![7; plan.len()]);
    assert_eq!(engine.read_file(file, &mut first, &mut second), both(table.len(), plan.len()));
    assert_eq!((&first[..], &second[..]), (table, plan));
}

#[test]
fn the_requests_bytes() {
    for engine in engines() {
        let file = file_by(engine, &TABLE, &PLAN);
        assert_eq!(file.len(), 512);
        assert_eq!(words(&file), worked());
        assert_eq!([&words(&file)[..10], &words(&file)[126..]], [&WORDS[..], &CHECKS]);
        assert_eq!((&file[..16], &file[504..]), (&FIRST[..], &LAST[..]));
        reads_back(engine, &file, &TABLE, &PLAN);
        let (table, plan) = p1();
        let file = file_by(engine, &table, &plan);
        assert_eq!((table.len(), plan.len(), &words(&file)[126..]), (14, 25, &P1_CHECKS[..]));
        reads_back(engine, &file, &table, &plan);
    }
}

#[test]
fn the_requests_blocks() {
    for engine in engines() {
        for (cells, blocks) in [(125, 1), (126, 2), (250, 2), (251, 3)] {
            let (table, plan) = of_cells(cells);
            assert_eq!(2 + table.len() + plan.len(), cells);
            let file = file_by(engine, &table, &plan);
            assert_eq!(file.len(), 512 * blocks);
            reads_back(engine, &file, &table, &plan);
        }
        let (table, plan) = largest();
        let file = file_by(engine, &table, &plan);
        assert_eq!(file.len(), FILE_BYTES);
        reads_back(engine, &file, &table, &plan);
    }
}

#[test]
fn the_requests_answers() {
    for engine in engines() {
        for (what, file, expected) in answers() {
            for rooms in [[0, 0], [2050, 6082]] {
                let [mut table, mut plan] = rooms.map(|room| vec![7; room]);
                assert_eq!(engine.read_file(&file, &mut table, &mut plan), expected, "{what}");
                assert!(table.iter().chain(&plan).all(|&cell| cell == 7));
            }
        }
    }
}

#[test]
fn any_byte_of_a_block() {
    let (table, plan) = of_cells(251);
    for engine in engines() {
        let mut file = file_by(engine, &table, &plan);
        for place in 0..file.len() {
            file[place] ^= 0x40;
            assert_eq!(engine.read_file(&file, &mut [7; 2050], &mut [7; 6082]), refused(28, place as u64 / 512));
            file[place] ^= 0x40;
        }
    }
}

#[test]
fn rooms_that_are_too_small() {
    let (table, plan) = of_cells(251);
    let (t, p) = (table.len(), plan.len());
    for engine in engines() {
        let file = file_by(engine, &table, &plan);
        for (rooms, wanted) in [([t - 1, p - 1], t), ([t - 1, p], t), ([0, 0], t), ([0, 6082], t), ([t, p - 1], p), ([2050, 0], p)] {
            let [mut first, mut second] = rooms.map(|room| vec![7; room]);
            assert_eq!(engine.read_file(&file, &mut first, &mut second), 16 | 4 << 8 | (wanted as u64) << 16);
            assert!(first.iter().chain(&second).all(|&cell| cell == 7));
        }
        let mut short = vec![7; file.len() - 1];
        assert_eq!(engine.write_file(&records::worked_out(&table, 0), &plan, &mut short), 16 | 4 << 8 | (file.len() as u64) << 16);
        assert!(short.iter().all(|&byte| byte == 7));
    }
}

/// The rest of the rooms stays, and so does all of them where anything is refused.
#[test]
fn larger_rooms() {
    let (table, plan) = p1();
    for engine in engines() {
        let file = file_by(engine, &table, &plan);
        let (mut first, mut second) = ([7; 2050], [7; 6082]);
        assert_eq!(engine.read_file(&file, &mut first, &mut second), both(14, 25));
        assert!(first.starts_with(&table) && first[14..].iter().all(|&cell| cell == 7));
        assert!(second.starts_with(&plan) && second[25..].iter().all(|&cell| cell == 7));
    }
}

/// Block 65,536 has a number of more than sixteen bits.
#[test]
fn more_blocks_than_any_card() {
    const BLOCKS: u32 = 65_540;
    let zeros = [0; BLOCK_CELLS];
    let mut file: Vec<u8> = (0..BLOCKS).flat_map(|number| block(number, &zeros)).collect();
    for engine in engines() {
        let read = |file: &[u8]| engine.read_file(file, &mut [], &mut []);
        assert_eq!(read(&file), refused(29, 0));
        let mut spoiled = file.clone();
        spoiled[65_536 * BLOCK_BYTES..][..BLOCK_BYTES].copy_from_slice(&block(0, &zeros));
        assert_eq!(read(&spoiled), refused(28, 65_536));
        spoiled[65_539 * BLOCK_BYTES + 7] = 1;
        assert_eq!(read(&spoiled), refused(28, 65_536));
    }
    // Sizes that give as many blocks: a table that is too long.
    let mut cells = zeros;
    (cells[0], cells[1]) = (BLOCKS * BLOCK_CELLS as u32 - 2, 0);
    file[..BLOCK_BYTES].copy_from_slice(&block(0, &cells));
    for engine in engines() {
        assert_eq!(engine.read_file(&file, &mut [], &mut []), 1 | 1 << 8);
    }
}

/// The card that is kept beside the shop's rules: their table with its least plan of figure 0.
#[test]
fn the_shops_card() {
    let sample = |name: &str| std::fs::read(format!("{}/../samples/{name}", env!("CARGO_MANIFEST_DIR"))).expect("the sample is there");
    let loaded = load(&sample("shop.pl")).expect("a text");
    let record = records::worked_out(&loaded.cells, 0);
    for engine in engines() {
        let mut plan = vec![0; 6082];
        let built = engine.build_plan(&record, &mut plan);
        plan.truncate((built >> 16 & 0xffff) as usize);
        assert_eq!(file_by(engine, &loaded.cells, &plan), sample("shop.card"));
        reads_back(engine, &sample("shop.card"), &loaded.cells, &plan);
    }
}

/// "Two blocks whose first 126 words differ in one word, or by exchange of two unequal neighbours, never have equal checks."
#[test]
fn one_word_or_two_neighbours_are_told() {
    let random = &mut Random::new(126);
    for round in 0..20_000 {
        let bits = [1, 3, 16, 32][round % 4];
        let mut block: Vec<u32> = (0..CHECKED).map(|_| (random.number() >> (64 - bits)) as u32).collect();
        let before = checks(&block);
        let place = random.below(CHECKED);
        let old = block[place];
        block[place] = if random.one_in(2) { old ^ 1 << random.below(32) } else { random.number() as u32 };
        assert_eq!(checks(&block) == before, block[place] == old);
        block[place] = old;
        let place = random.below(CHECKED - 1);
        block.swap(place, place + 1);
        assert_eq!(checks(&block) == before, block[place] == block[place + 1]);
    }
}

fn wrong_reader(read_file: ReadFile) {
    differs(files(&Altered { read_file, ..RIGHT }, Tally::default(), 200, 1));
}

fn wrong_writer(write_file: WriteFile) {
    differs(files(&Altered { write_file, ..RIGHT }, Tally::default(), 200, 1));
}

#[test]
fn right_ones_pass() {
    let tally = files(&RIGHT, Tally::default(), 500, 1);
    assert_eq!(tally.differ(), 0, "{tally}");
    // What the wrong ones below are made from.
    let read_file: ReadFile = |file, table, plan| reading(&TESTS, file, table, plan);
    let write_file: WriteFile = |record, plan, room| writing(record, plan, room, |table, plan| sealed_by(&filled(table, plan), checks));
    let tally = files(&Altered { read_file, write_file, ..RIGHT }, Tally::default(), 500, 1);
    assert_eq!(tally.differ(), 0, "{tally}");
}

/// One test of a file, with the sizes of the rooms: what it refuses.
type Test = fn(&[u8], [usize; 2]) -> Option<u64>;

/// The two check words of a block's first 126.
type Sums = fn(&[u32]) -> [u32; 2];

const TESTS: [Test; 6] = [whole_blocks, damage, sizes, padding, contents, rooms];
const WHOLE_BLOCKS: usize = 0;
const DAMAGE: usize = 1;
const SIZES: usize = 2;
const PADDING: usize = 3;
const CONTENTS: usize = 4;
const ROOMS: usize = 5;

/// Reads by these tests in this order; what they let through is read as far as it goes.
fn reading(tests: &[Test], file: &[u8], table_room: &mut [u32], plan_room: &mut [u32]) -> u64 {
    if let Some(refusal) = tests.iter().find_map(|test| test(file, [table_room.len(), plan_room.len()])) {
        return refusal;
    }
    let (table, plan) = parts(file);
    for (room, cells) in [(table_room, &table), (plan_room, &plan)] {
        let count = room.len().min(cells.len());
        room[..count].copy_from_slice(&cells[..count]);
    }
    both(table.len() & 0xffff, plan.len())
}

/// One test in place of another.
fn with(place: usize, test: Test) -> [Test; 6] {
    let mut tests = TESTS;
    tests[place] = test;
    tests
}

/// A reader with another test in place of this one.
macro_rules! instead {
    ($place:ident, $test:expr) => {
        wrong_reader(|file, table, plan| reading(&with($place, $test), file, table, plan))
    };
}

/// A reader with these tests alone, in this order.
macro_rules! only {
    ($($test:ident),*) => {
        wrong_reader(|file, table, plan| reading(&[$($test),*], file, table, plan))
    };
}

fn whole(file: &[u8]) -> &[u8] {
    &file[..file.len() - file.len() % BLOCK_BYTES]
}

/// The cells of the whole blocks; at least two.
fn some_cells(file: &[u8]) -> Vec<u32> {
    let mut cells = cells(whole(file));
    cells.resize(cells.len().max(2), 0);
    cells
}

fn parts(file: &[u8]) -> (Vec<u32>, Vec<u32>) {
    let cells = some_cells(file);
    let at = |place: u64| place.min(cells.len() as u64) as usize;
    let table_end = at(2 + u64::from(cells[0]));
    (cells[2..table_end].to_vec(), cells[table_end..at(end(&cells))].to_vec())
}

fn whole_blocks(file: &[u8], _: [usize; 2]) -> Option<u64> {
    (file.is_empty() || !file.len().is_multiple_of(BLOCK_BYTES)).then_some(refused(27, 0))
}

fn damage(file: &[u8], _: [usize; 2]) -> Option<u64> {
    first_bad(file, |block, place| is_sound(block, place, checks))
}

fn is_sound(block: &[u32], place: usize, checks: Sums) -> bool {
    block[0] as usize == place && block[CHECKED..] == checks(&block[..CHECKED])
}

/// DAMAGE at the first block that is not sound in this sense.
fn first_bad(file: &[u8], is_sound: impl Fn(&[u32], usize) -> bool) -> Option<u64> {
    bad(file, is_sound).first().map(|&place| refused(28, place as u64))
}

fn bad(file: &[u8], is_sound: impl Fn(&[u32], usize) -> bool) -> Vec<usize> {
    let blocks: Vec<Vec<u32>> = whole(file).chunks(BLOCK_BYTES).map(words).collect();
    (0..blocks.len()).filter(|&place| !is_sound(&blocks[place], place)).collect()
}

fn bad_blocks(file: &[u8]) -> Vec<usize> {
    bad(file, |block, place| is_sound(block, place, checks))
}

fn sizes(file: &[u8], _: [usize; 2]) -> Option<u64> {
    sizes_by(file, |end, blocks| end.div_ceil(125) == blocks)
}

/// SIZES where the end of the plan and the number of blocks do not fit in this sense.
fn sizes_by(file: &[u8], fit: impl Fn(u64, u64) -> bool) -> Option<u64> {
    (!fit(end(&some_cells(file)), (file.len() / BLOCK_BYTES) as u64)).then_some(refused(29, 0))
}

fn padding(file: &[u8], _: [usize; 2]) -> Option<u64> {
    padding_by(file, |zeros| zeros.iter().any(|&cell| cell != 0))
}

fn padding_by(file: &[u8], is_wrong: impl Fn(&[u32]) -> bool) -> Option<u64> {
    let cells = some_cells(file);
    let from = end(&cells).min(cells.len() as u64) as usize;
    is_wrong(&cells[from..]).then_some(refused(30, 0))
}

fn contents(file: &[u8], _: [usize; 2]) -> Option<u64> {
    let (table, plan) = parts(file);
    Some(packed(check_plan(&table, &plan))).filter(|&answer| !answered(answer))
}

fn rooms(file: &[u8], [table, plan]: [usize; 2]) -> Option<u64> {
    let cells = parts(file);
    no_room(cells.0.len(), table).or(no_room(cells.1.len(), plan))
}

fn no_room(needed: usize, lent: usize) -> Option<u64> {
    (lent < needed).then_some(16 | 4 << 8 | (needed as u64) << 16)
}

#[test]
fn a_test_left_out() {
    only!(damage, sizes, padding, contents, rooms);
    only!(whole_blocks, sizes, padding, contents, rooms);
    only!(whole_blocks, damage, padding, contents, rooms);
    only!(whole_blocks, damage, sizes, contents, rooms);
    only!(whole_blocks, damage, sizes, padding, rooms);
    only!(whole_blocks, damage, sizes, padding, contents);
}

#[test]
fn tests_in_another_order() {
    only!(damage, whole_blocks, sizes, padding, contents, rooms);
    only!(whole_blocks, sizes, damage, padding, contents, rooms);
    only!(whole_blocks, damage, padding, sizes, contents, rooms);
    only!(whole_blocks, damage, sizes, contents, padding, rooms);
    only!(whole_blocks, damage, sizes, padding, rooms, contents);
    // The plan's SIZE before the table's; the table's LENGTH before SIZES.
    instead!(CONTENTS, |file, _| if parts(file).1.len() > 6082 { Some(10 | 2 << 8) } else { contents(file, [0; 2]) });
    instead!(SIZES, |file, _| if some_cells(file)[0] > 2050 { Some(1 | 1 << 8) } else { sizes(file, [0; 2]) });
}

#[test]
fn whole_blocks_told_otherwise() {
    // No byte, whole words, whole sectors of 128 bytes; more blocks than a card has; at the number of bytes.
    instead!(WHOLE_BLOCKS, |file, _| (file.len() % BLOCK_BYTES != 0).then_some(refused(27, 0)));
    instead!(WHOLE_BLOCKS, |file, _| (file.is_empty() || file.len() % 4 != 0).then_some(refused(27, 0)));
    instead!(WHOLE_BLOCKS, |file, _| (file.is_empty() || file.len() % 128 != 0).then_some(refused(27, 0)));
    instead!(WHOLE_BLOCKS, |file, _| if file.len() > FILE_BYTES { Some(refused(27, 0)) } else { whole_blocks(file, [0; 2]) });
    instead!(WHOLE_BLOCKS, |file, _| whole_blocks(file, [0; 2]).map(|answer| answer | (file.len() as u64) << 16));
}

/// Two sums that start at these and add in this way.
fn sums(words: &[u32], first: u32, second: u32, add: impl Fn(u32, u32, u32) -> u32) -> [u32; 2] {
    let (mut one, mut two) = (first, second);
    for &word in words {
        one = one.wrapping_add(word);
        two = add(two, one, word);
    }
    [one, two]
}

/// Other sums over a block's first 126 words, each wrong in one thing: from 0; from 1; the words added twice; the second without the first; the cells
/// only; exchanged; one sum twice; none; of 31 bits; not beyond what a word holds.
const WRONG_SUMS: [Sums; 10] = [
    |words| sums(words, 0, 0, |two, one, _| two.wrapping_add(one)),
    |words| sums(words, 1, 1, |two, one, _| two.wrapping_add(one)),
    |words| sums(words, 1, 0, |two, one, word| two.wrapping_add(one).wrapping_add(word)),
    |words| sums(words, 1, 0, |two, _, word| two.wrapping_add(word)),
    |words| checks(&words[1..]),
    |words| [checks(words)[1], checks(words)[0]],
    |words| [checks(words)[0]; 2],
    |_| [1, 126],
    |words| checks(words).map(|sum| sum & 0x7fff_ffff),
    |words| [words.iter().fold(1, |sum: u32, &word| sum.saturating_add(word)), checks(words)[1]],
];

/// Each of them, in a reader and in a writer.
macro_rules! wrong_sums {
    ($($place:literal)*) => {
        $(
            instead!(DAMAGE, |file, _| first_bad(file, |block, place| is_sound(block, place, WRONG_SUMS[$place])));
            wrong_writer(|record, plan, room| writing(record, plan, room, |table, plan| sealed_by(&filled(table, plan), WRONG_SUMS[$place])));
        )*
    };
}

#[test]
fn other_sums() {
    wrong_sums!(0 1 2 3 4 5 6 7 8 9);
}

#[test]
fn blocks_told_otherwise() {
    // Any number; one of 8 bits; one check alone; the first block alone; as many blocks as a card has.
    instead!(DAMAGE, |file, _| first_bad(file, |block, _| is_sound(block, block[0] as usize, checks)));
    instead!(DAMAGE, |file, _| first_bad(file, |block, place| is_sound(block, place % 256, checks)));
    instead!(DAMAGE, |file, _| first_bad(file, |block, place| block[0] as usize == place && block[126] == checks(&block[..CHECKED])[0]));
    instead!(DAMAGE, |file, _| first_bad(file, |block, place| block[0] as usize == place && block[127] == checks(&block[..CHECKED])[1]));
    instead!(DAMAGE, |file, rooms| damage(&file[..file.len().min(512)], rooms));
    instead!(DAMAGE, |file, rooms| damage(&file[..file.len().min(FILE_BYTES)], rooms));
}

#[test]
fn damage_at_another_place() {
    // In bytes; the last bad block; how many are bad; the number that stands there; the number of blocks; 0.
    instead!(DAMAGE, |file, _| bad_blocks(file).first().map(|&place| refused(28, 512 * place as u64)));
    instead!(DAMAGE, |file, _| bad_blocks(file).last().map(|&place| refused(28, place as u64)));
    instead!(DAMAGE, |file, _| bad_blocks(file).first().map(|_| refused(28, bad_blocks(file).len() as u64)));
    instead!(DAMAGE, |file, _| bad_blocks(file).first().map(|&place| refused(28, u64::from(words(&file[512 * place..][..4])[0]))));
    instead!(DAMAGE, |file, _| bad_blocks(file).first().map(|_| refused(28, file.len() as u64 / 512)));
    instead!(DAMAGE, |file, _| bad_blocks(file).first().map(|_| refused(28, 0)));
}

#[test]
fn sizes_told_otherwise() {
    // Blocks enough, or not too many; the sum wrapped; the two sizes not counted; a block more where the cells end with a block; at the blocks wanted.
    instead!(SIZES, |file, _| sizes_by(file, |end, blocks| end.div_ceil(125) <= blocks));
    instead!(SIZES, |file, _| sizes_by(file, |end, blocks| end.div_ceil(125) >= blocks));
    instead!(SIZES, |file, _| sizes_by(file, |end, blocks| (end & 0xffff_ffff).div_ceil(125) == blocks));
    instead!(SIZES, |file, _| sizes_by(file, |end, blocks| (end - 2).div_ceil(125) == blocks));
    instead!(SIZES, |file, _| sizes_by(file, |end, blocks| end / 125 + 1 == blocks));
    instead!(SIZES, |file, _| sizes(file, [0; 2]).map(|answer| answer | end(&some_cells(file)).div_ceil(125) << 16));
    // A table that is too long, a plan that is.
    instead!(SIZES, |file, _| if some_cells(file)[0] > 2050 { Some(refused(29, 0)) } else { sizes(file, [0; 2]) });
    instead!(SIZES, |file, _| if some_cells(file)[1] > 6082 { Some(refused(29, 0)) } else { sizes(file, [0; 2]) });
}

#[test]
fn padding_told_otherwise() {
    // The first cell alone, the last alone; one cell early; the low half of each; at the cell.
    instead!(PADDING, |file, _| padding_by(file, |zeros| zeros.first().is_some_and(|&cell| cell != 0)));
    instead!(PADDING, |file, _| padding_by(file, |zeros| zeros.last().is_some_and(|&cell| cell != 0)));
    instead!(PADDING, |file, _| {
        let cells = some_cells(file);
        let from = end(&cells).min(cells.len() as u64) as usize - 1;
        cells[from..].iter().any(|&cell| cell != 0).then_some(refused(30, 0))
    });
    instead!(PADDING, |file, _| padding_by(file, |zeros| zeros.iter().any(|&cell| cell & 0xffff != 0)));
    instead!(PADDING, |file, _| padding(file, [0; 2]).map(|answer| answer | end(&some_cells(file)) << 16));
}

#[test]
fn rooms_told_otherwise() {
    // The plan's first; both together; one to spare; what is missing; the table's alone, then the plan's alone.
    instead!(ROOMS, |file, [table, plan]| no_room(parts(file).1.len(), plan).or(no_room(parts(file).0.len(), table)));
    instead!(ROOMS, |file, [table, plan]| {
        let cells = parts(file);
        rooms(file, [table, plan]).map(|_| 16 | 4 << 8 | ((cells.0.len() + cells.1.len()) as u64) << 16)
    });
    instead!(ROOMS, |file, [table, plan]| rooms(file, [table.saturating_sub(1), plan]));
    instead!(ROOMS, |file, [table, plan]| rooms(file, [table, plan.saturating_sub(1)]));
    instead!(ROOMS, |file, [table, plan]| match rooms(file, [table, plan]) {
        Some(answer) if answer >> 16 > table as u64 => Some(answer - ((table as u64) << 16)),
        other => other,
    });
    instead!(ROOMS, |file, [table, _]| no_room(parts(file).0.len(), table));
    instead!(ROOMS, |file, [_, plan]| no_room(parts(file).1.len(), plan));
}

#[test]
fn what_is_read_otherwise() {
    // The table written before the plan's room is looked at; by other refusals; rooms cleared behind; nothing written.
    wrong_reader(|file, table, plan| {
        let answer = Plain.read_file(file, table, plan);
        if number(answer) == 16 && answer >> 16 != parts(file).0.len() as u64 {
            reading(&[], file, table, &mut []);
        }
        answer
    });
    wrong_reader(|file, table, plan| {
        let answer = Plain.read_file(file, table, plan);
        if let (28, [first, ..]) = (number(answer), table) {
            *first = first.wrapping_add(1);
        }
        answer
    });
    wrong_reader(|file, table, plan| {
        let answer = Plain.read_file(file, table, plan);
        if let (12, [first, ..]) = (number(answer), plan) {
            *first = first.wrapping_add(1);
        }
        answer
    });
    wrong_reader(|file, table, plan| {
        let answer = Plain.read_file(file, table, plan);
        if answered(answer) {
            plan[(answer >> 32) as usize..].fill(0);
        }
        answer
    });
    wrong_reader(|file, table, plan| Plain.read_file(file, &mut table.to_vec(), plan));
    wrong_reader(|file, table, plan| Plain.read_file(file, table, &mut plan.to_vec()));
    // Two values exchanged, or one for both together; bytes for cells.
    wrong_reader(|file, table, plan| match Plain.read_file(file, table, plan) {
        answer if answered(answer) => (answer >> 32) << 16 | (answer >> 16 & 0xffff) << 32,
        answer => answer,
    });
    wrong_reader(|file, table, plan| match Plain.read_file(file, table, plan) {
        answer if answered(answer) => answer + ((answer >> 16 & 0xffff) << 32),
        answer => answer,
    });
    wrong_reader(|file, table, plan| match Plain.read_file(file, table, plan) {
        answer if answered(answer) => 4 * answer,
        answer => answer,
    });
}

#[test]
fn a_file_of_another_input() {
    wrong_reader(|file, table, plan| match Plain.read_file(file, table, plan) {
        answer if answer >> 8 & 0xff == 8 => answer & !0xff00 | 5 << 8,
        answer => answer,
    });
    wrong_reader(|file, table, plan| match Plain.read_file(file, table, plan) {
        answer if matches!(answer >> 8 & 0xff, 1 | 2) => answer & !0xff00 | 8 << 8,
        answer => answer,
    });
    // Places of table and plan in the file's cells.
    wrong_reader(|file, table, plan| match Plain.read_file(file, table, plan) {
        answer if answer >> 8 & 0xff == 1 => answer + (2 << 16),
        answer => answer,
    });
    wrong_reader(|file, table, plan| match Plain.read_file(file, table, plan) {
        answer if answer >> 8 & 0xff == 2 => answer + ((2 + parts(file).0.len() as u64) << 16),
        answer => answer,
    });
}

/// The blocks of cells with other check words.
fn sealed_by(cells: &[u32], checks: impl Fn(&[u32]) -> [u32; 2]) -> Vec<u8> {
    let block = |(place, cells): (usize, &[u32])| {
        let checked = [&[place as u32], cells].concat();
        [&checked[..], &checks(&checked)].concat()
    };
    cells.chunks(BLOCK_CELLS).enumerate().flat_map(block).flat_map(u32::to_le_bytes).collect()
}

/// The right refusals of table and plan, but another file.
fn writing(record: &Record, plan: &[u32], room: &mut [u8], file: impl FnOnce(&[u32], &[u32]) -> Vec<u8>) -> u64 {
    if !answered(Plain.check_plan(record, plan)) {
        return Plain.write_file(record, plan, room);
    }
    let file = file(table_in(record), plan);
    written(room, &file, file.len() & 0xffff, file.len() / 512)
}

#[test]
fn files_written_otherwise() {
    // The high byte first; numbers from 1, none; sizes exchanged, in bytes, of one list for both; the plan first; the figure at the end.
    wrong_writer(|record, plan, room| {
        writing(record, plan, room, |table, plan| {
            let file = sealed(&filled(table, plan));
            words(&file).iter().flat_map(|word| word.to_be_bytes()).collect()
        })
    });
    wrong_writer(|record, plan, room| {
        writing(record, plan, room, |table, plan| filled(table, plan).chunks(125).zip(1..).flat_map(|(cells, number)| block(number, cells)).collect())
    });
    wrong_writer(|record, plan, room| {
        writing(record, plan, room, |table, plan| filled(table, plan).chunks(125).flat_map(|cells| block(0, cells)).collect())
    });
    wrong_writer(|record, plan, room| {
        writing(record, plan, room, |table, plan| {
            let mut cells = filled(table, plan);
            cells.swap(0, 1);
            sealed(&cells)
        })
    });
    wrong_writer(|record, plan, room| {
        writing(record, plan, room, |table, plan| {
            let mut cells = filled(table, plan);
            cells[..2].iter_mut().for_each(|size| *size *= 4);
            sealed(&cells)
        })
    });
    wrong_writer(|record, plan, room| {
        writing(record, plan, room, |table, plan| {
            let mut cells = filled(table, plan);
            cells[1] += cells[0];
            sealed(&cells)
        })
    });
    wrong_writer(|record, plan, room| {
        writing(record, plan, room, |table, plan| {
            let mut cells = filled(plan, table);
            cells.swap(0, 1);
            sealed(&cells)
        })
    });
    wrong_writer(|record, plan, room| writing(record, plan, room, |table, plan| sealed(&filled(table, &[plan, &[record[1]]].concat()))));
}

#[test]
fn ends_written_otherwise() {
    // Ones for zeros; a block more always, and where the cells end with a block; the zeros left away; what the room held before.
    wrong_writer(|record, plan, room| {
        writing(record, plan, room, |table, plan| {
            let mut cells = filled(table, plan);
            cells[2 + table.len() + plan.len()..].fill(u32::MAX);
            sealed(&cells)
        })
    });
    wrong_writer(|record, plan, room| writing(record, plan, room, |table, plan| sealed(&[filled(table, plan), vec![0; BLOCK_CELLS]].concat())));
    wrong_writer(|record, plan, room| {
        writing(record, plan, room, |table, plan| {
            let full = (2 + table.len() + plan.len()).is_multiple_of(BLOCK_CELLS);
            sealed(&[filled(table, plan), vec![0; if full { BLOCK_CELLS } else { 0 }]].concat())
        })
    });
    wrong_writer(|record, plan, room| {
        writing(record, plan, room, |table, plan| {
            let cells = filled(table, plan);
            sealed_by(&cells[..2 + table.len() + plan.len()], checks)
        })
    });
    wrong_writer(|record, plan, room| {
        let before = room.to_vec();
        let answer = Plain.write_file(record, plan, room);
        if answered(answer) {
            let bytes = (answer >> 16 & 0xffff) as usize;
            let zeros = bytes - 8..bytes - 8 - 4 * (bytes / 512 * 125 - 2 - table_in(record).len() - plan.len());
            room[zeros.end..zeros.start].copy_from_slice(&before[zeros.end..zeros.start]);
        }
        answer
    });
}

#[test]
fn a_writers_values_and_rooms_otherwise() {
    // Exchanged; cells for bytes; the last block's number. Never refused for want of room; one to spare; in blocks; by what is missing.
    wrong_writer(|record, plan, room| match Plain.write_file(record, plan, room) {
        answer if answered(answer) => (answer >> 32) << 16 | (answer >> 16 & 0xffff) << 32,
        answer => answer,
    });
    wrong_writer(|record, plan, room| match Plain.write_file(record, plan, room) {
        answer if answered(answer) => both(2 + table_in(record).len() + plan.len(), (answer >> 32) as usize),
        answer => answer,
    });
    wrong_writer(|record, plan, room| match Plain.write_file(record, plan, room) {
        answer if answered(answer) => answer - (1 << 32),
        answer => answer,
    });
    wrong_writer(|record, plan, room| match Plain.write_file(record, plan, room) {
        answer if number(answer) == 16 => both((answer >> 16) as usize, (answer >> 16) as usize / 512),
        answer => answer,
    });
    wrong_writer(|record, plan, room| {
        let needed = Plain.write_file(record, plan, &mut []);
        if number(needed) == 16 && needed >> 16 == room.len() as u64 {
            needed
        } else {
            Plain.write_file(record, plan, room)
        }
    });
    wrong_writer(|record, plan, room| match Plain.write_file(record, plan, room) {
        answer if number(answer) == 16 => 16 | 4 << 8 | ((answer >> 16) / 512) << 16,
        answer => answer,
    });
    wrong_writer(|record, plan, room| match Plain.write_file(record, plan, room) {
        answer if number(answer) == 16 => answer - ((room.len() as u64) << 16),
        answer => answer,
    });
}

#[test]
fn what_is_written_otherwise() {
    // A refusal that writes, for want of room and of a plan; a room cleared behind the file; nothing written; blocks as far as there is room.
    wrong_writer(|record, plan, room| refused_and_written(16, record, plan, room));
    wrong_writer(|record, plan, room| refused_and_written(12, record, plan, room));
    wrong_writer(|record, plan, room| {
        let answer = Plain.write_file(record, plan, room);
        if answered(answer) {
            room[(answer >> 16 & 0xffff) as usize..].fill(0);
        }
        answer
    });
    wrong_writer(|record, plan, room| Plain.write_file(record, plan, &mut room.to_vec()));
    wrong_writer(|record, plan, room| {
        let mut enough = vec![0; FILE_BYTES];
        let answer = Plain.write_file(record, plan, &mut enough);
        if answered(answer) {
            let count = (room.len() / 512 * 512).min((answer >> 16 & 0xffff) as usize);
            room[..count].copy_from_slice(&enough[..count]);
        }
        Plain.write_file(record, plan, room)
    });
}

/// The first byte of the room is changed where this is refused.
fn refused_and_written(wanted: u64, record: &Record, plan: &[u32], room: &mut [u8]) -> u64 {
    let answer = Plain.write_file(record, plan, room);
    if let (true, [first, ..]) = (number(answer) == wanted, room) {
        *first = first.wrapping_add(1);
    }
    answer
}

#[test]
fn a_writers_refusals_otherwise() {
    // No plan is refused; no table is; everything is; the room before the plan; the plan's SIZE before the table's.
    wrong_writer(|record, plan, room| match Plain.write_file(record, plan, room) {
        answer if answer >> 8 & 0xff == 2 => {
            let file = sealed(&filled(table_in(record), plan));
            written(room, &file, file.len() & 0xffff, file.len() / 512)
        }
        answer => answer,
    });
    wrong_writer(|record, plan, room| match Plain.write_file(record, plan, room) {
        answer if answer >> 8 & 0xff == 1 => {
            let file = sealed(&filled(table_in(record), plan));
            written(room, &file, file.len() & 0xffff, file.len() / 512)
        }
        answer => answer,
    });
    wrong_writer(|_, _, _| 1 | 1 << 8);
    wrong_writer(|record, plan, room| match Plain.write_file(record, plan, room) {
        answer if answer >> 8 & 0xff == 2 && room.len() < 512 => 16 | 4 << 8 | 512 << 16,
        answer => answer,
    });
    wrong_writer(|record, plan, room| match Plain.write_file(record, plan, room) {
        answer if answer >> 8 & 0xff == 1 && plan.len() > 6082 => 10 | 2 << 8,
        answer => answer,
    });
}
