//! One file for a table and its plan (02, W-211): the request's words and its table of files with their answers written down, files at the bounds,
//! then random tables and plans, written and read back, and their files spoiled in every way. Each with rooms too small, just enough and larger.

use super::{lend, lend_two, Comparison, Entry, MARGIN};
use crate::engine::{Definition, Engine};
use crate::make::files::{cells, largest, of_cells, spoil, with_plan, Spoiled, SPOILED};
use crate::make::{damage, plans, records, tables};
use crate::model::files::{card, checks, checks_by_places, file, filled, sealed, words, BLOCK_BYTES, BLOCK_CELLS, BLOCK_WORDS, CHECKED, FILE_BYTES};
use crate::model::plan::PLAN_CELLS;
use crate::model::read::{read_table, TABLE_CELLS};
use crate::model::record::{table_in, Record};
use crate::notation::table;

/// The request's table and plan, and the words of their file: the first ten, then 116 zeros, then these two.
pub const TABLE: [u32; 3] = [1, 1, 1 << 30];
pub const PLAN: [u32; 4] = [0, 1, 1 << 30, 1];
pub const WORDS: [u32; 10] = [0, 3, 4, 1, 1, 1 << 30, 0, 1, 1 << 30, 1];
pub const CHECKS: [u32; 2] = [2_147_483_660, 3_221_226_950];
/// Its first bytes, and its last ones.
pub const FIRST: [u8; 16] = [0, 0, 0, 0, 3, 0, 0, 0, 4, 0, 0, 0, 1, 0, 0, 0];
pub const LAST: [u8; 8] = [0x0c, 0, 0, 0x80, 0xc6, 0x05, 0, 0xc0];

/// P1 by names 0 to 3, and the last two words of its file.
pub const P1_CHECKS: [u32; 2] = [1_073_741_911, 3_221_235_441];

pub fn p1() -> (Vec<u32>, Vec<u32>) {
    let mut cells = table("(a,b,c) (a,b,d) (a,c,c) (b,a,c)");
    cells[2..].iter_mut().for_each(|cell| *cell -= u32::from(b'a'));
    with_plan(cells)
}

/// The words of the request's file.
pub fn worked() -> Vec<u32> {
    [&WORDS[..], &[0; 116], &CHECKS].concat()
}

/// A file's refusal by number and place.
pub fn refused(number: u64, place: u64) -> u64 {
    number | 8 << 8 | place << 16
}

/// The request's table: files and how they are answered.
pub fn answers() -> Vec<(&'static str, Vec<u8>, u64)> {
    let (table, plan) = of_cells(251);
    let whole = sealed(&filled(&table, &plan));
    let one = sealed(&filled(&TABLE, &PLAN));
    let with = |change: &dyn Fn(&mut Vec<u32>)| {
        let mut cells = cells(&whole);
        change(&mut cells);
        sealed(&cells)
    };
    let [first, second, third] = [0, 1, 2].map(|block| &whole[block * BLOCK_BYTES..][..BLOCK_BYTES]);
    let last = 3 * BLOCK_CELLS - 1;
    vec![
        ("no byte", Vec::new(), refused(27, 0)),
        ("511 bytes", one[..511].to_vec(), refused(27, 0)),
        ("513 bytes", [&one[..], &[0]].concat(), refused(27, 0)),
        ("block 1 in block 0's place", [second, second, third].concat(), refused(28, 0)),
        ("two blocks exchanged", [second, first, third].concat(), refused(28, 0)),
        ("a block of zeros more", with(&|cells| cells.resize(4 * BLOCK_CELLS, 0)), refused(29, 0)),
        ("plan size 500 more", with(&|cells| cells[1] += 500), refused(29, 0)),
        ("a 1 in the last cell", with(&|cells| cells[last] = 1), refused(30, 0)),
        ("that and a width of 9", with(&|cells| (cells[last], cells[2]) = (1, 9)), refused(30, 0)),
        ("a width of 9", with(&|cells| cells[2] = 9), 2 | 1 << 8),
        ("64 for the first index", with(&|cells| cells[2 + table.len()] = 64), 12 | 2 << 8),
        ("table size 2,051, plan size 0", sealed(&filled(&[0; 2051], &[])), 1 | 1 << 8),
    ]
}

impl<E: Engine> Comparison<'_, E> {
    pub(super) fn fixed_files(&mut self) {
        self.words_written_down();
        self.answers_written_down();
        for count in [13, 124, 125, 126, 127, 249, 250, 251, 252] {
            let (table, plan) = of_cells(count);
            self.in_every_room(&table, &plan);
        }
        let (table, plan) = largest();
        self.in_every_room(&table, &plan);
        self.every_byte_spoiled();
        self.every_size();
        self.long_files();
    }

    fn file_told(&mut self, what: &str, same: bool, of: &str) {
        self.tally.own("files against what is written down", same, &|| format!("{what}: {of}"));
    }

    /// The request's words, bytes and sums.
    fn words_written_down(&mut self) {
        let bytes = file(&TABLE, &PLAN).expect("a sound table and plan");
        self.file_told("words", words(&bytes) == worked(), "the request's");
        self.file_told("bytes", bytes.starts_with(&FIRST) && bytes.ends_with(&LAST), "the request's");
        let (table, plan) = p1();
        let bytes = file(&table, &plan).expect("a sound table and plan");
        self.file_told("words", words(&bytes)[CHECKED..] == P1_CHECKS && (table.len(), plan.len()) == (14, 25), "P1");
        for (words, sums) in [(&[0; 126][..], [1, 126]), (&[0, 1], [2, 3]), (&[1, 0], [2, 4]), (&[u32::MAX], [0, 0])] {
            self.file_told("sums", checks(words) == sums, &format!("{words:?}"));
        }
        self.in_every_room(&TABLE, &PLAN);
        self.in_every_room(&table, &plan);
    }

    fn answers_written_down(&mut self) {
        for (what, bytes, expected) in answers() {
            for rooms in [[0, 0], [TABLE_CELLS, PLAN_CELLS]] {
                let found = Definition.read_file(&bytes, &mut vec![0; rooms[0]], &mut vec![0; rooms[1]]);
                self.file_told("files", found == expected, what);
                self.read_file(&bytes, None, rooms);
            }
        }
        // Sound, with one cell too few for the table, and for the plan too.
        let (table, plan) = of_cells(251);
        let bytes = sealed(&filled(&table, &plan));
        let (mut short, mut too) = (vec![0; table.len() - 1], vec![0; plan.len() - 1]);
        self.file_told("rooms", Definition.read_file(&bytes, &mut short, &mut too) == 16 | 4 << 8 | (table.len() as u64) << 16, "both too small");
    }

    /// Written and read in rooms of no size, one too small, just enough and larger.
    fn in_every_room(&mut self, table: &[u32], plan: &[u32]) {
        let record = records::holding(&mut self.random, table);
        let bytes = file(table, plan).expect("a sound table and plan");
        for room in [0, bytes.len() - 1, bytes.len(), bytes.len() + 1, FILE_BYTES + 1000] {
            self.write_file(&record, plan, room);
        }
        for table_room in [0, table.len() - 1, table.len(), table.len() + 1, TABLE_CELLS + 100] {
            for plan_room in [0, plan.len() - 1, plan.len(), plan.len() + 1, PLAN_CELLS + 100] {
                self.read_file(&bytes, None, [table_room, plan_room]);
            }
        }
    }

    /// Every byte of a file of three blocks changed, and every two neighbouring words exchanged; cut at every byte.
    fn every_byte_spoiled(&mut self) {
        let (table, plan) = of_cells(251);
        let bytes = file(&table, &plan).expect("a sound table and plan");
        let rooms = [TABLE_CELLS, PLAN_CELLS];
        for place in 0..bytes.len() {
            let mut changed = bytes.clone();
            changed[place] ^= 1 << self.random.below(8);
            let block = place / BLOCK_BYTES;
            self.file_told("bytes changed", Definition.read_file(&changed, &mut [], &mut []) == refused(28, block as u64), &format!("{place}"));
            self.read_file(&changed, None, rooms);
            self.read_file(&bytes[..place], None, rooms);
        }
        for place in 0..bytes.len() / 4 - 1 {
            let mut changed = bytes.clone();
            changed[4 * place..4 * place + 8].rotate_left(4);
            let block = refused(28, (place / BLOCK_WORDS) as u64);
            let inside = place % BLOCK_WORDS < CHECKED - 1 && changed != bytes;
            self.file_told("neighbours", !inside || Definition.read_file(&changed, &mut [], &mut []) == block, &format!("{place}"));
            self.read_file(&changed, None, rooms);
        }
    }

    /// Sizes about those that give as many blocks as there are, and such as no file has, checks right.
    fn every_size(&mut self) {
        let (table, plan) = of_cells(251);
        let cells = filled(&table, &plan);
        let sums = [0, 1, 122, 123, 124, 247, 248, 249, 250, 372, 373, 374, 498];
        let pairs = sums.iter().flat_map(|&sum| [(0, sum), (sum, 0), (sum / 2, sum - sum / 2)]);
        let far = [(u32::MAX, u32::MAX), (u32::MAX, 250), (250, u32::MAX), (1 << 31, (1 << 31) + 249), (u32::MAX - 1, 251), (u32::MAX, 0)];
        for (table_size, plan_size) in pairs.chain(far) {
            for zeros in [false, true] {
                let mut changed = cells.clone();
                (changed[0], changed[1]) = (table_size, plan_size);
                if zeros {
                    changed[2..].fill(0);
                }
                self.read_file(&sealed(&changed), None, [TABLE_CELLS, PLAN_CELLS]);
            }
        }
    }

    /// Files of more blocks than a card has: their sizes give as many, or not; numbers that count to 256 only.
    fn long_files(&mut self) {
        let sizes = [(2050, 6083), (2051, 6082), (2051, 6083), (8248, 0), (0, 8248), (20_000, 5000), (3, 40_000)];
        for ((table_size, plan_size), width) in sizes.into_iter().flat_map(|sizes| [(sizes, 1), (sizes, 9)]) {
            let table: Vec<u32> = [width, 1, 1 << 30].into_iter().chain(std::iter::repeat(0)).take(table_size).collect();
            let mut cells = filled(&table, &vec![0; plan_size]);
            self.read_file(&sealed(&cells), None, [TABLE_CELLS, PLAN_CELLS]);
            let last = cells.len() - 1;
            cells[last] = 1;
            self.read_file(&sealed(&cells), None, [TABLE_CELLS, PLAN_CELLS]);
            let mut bytes = sealed(&cells);
            let place = bytes.len() - 100;
            bytes[place] ^= 1;
            self.read_file(&bytes, None, [TABLE_CELLS, PLAN_CELLS]);
        }
        let cells = filled(&vec![0; 300 * BLOCK_CELLS - 2], &[]);
        let numbered = cells.chunks(BLOCK_CELLS).zip(0u32..).flat_map(|(cells, number)| crate::model::files::block(number % 256, cells));
        self.read_file(&numbered.collect::<Vec<u8>>(), None, [TABLE_CELLS, PLAN_CELLS]);
    }

    /// A table and a plan, each sound or damaged: written, and read from a file that holds them whatever they are; then files spoiled in every way.
    pub(super) fn random_files(&mut self) {
        let mut table = tables::any(&mut self.random);
        let mut plan = plans::any(&mut self.random, &read_table(&table).expect("a sound table"));
        let sound = sealed(&filled(&table, &plan));
        if self.random.one_in(3) {
            damage::table(&mut self.random, &mut table);
        }
        if self.random.one_in(4) {
            damage::plan(&mut self.random, &mut plan);
        }
        let record = records::holding(&mut self.random, &table);
        let needed = file(&table, &plan).map_or(BLOCK_BYTES, |bytes| bytes.len());
        let room = self.room(needed, FILE_BYTES + 100);
        self.write_file(&record, &plan, room);
        self.read_any(&sealed(&filled(&table, &plan)), None);
        for _ in 0..4 {
            let (how, _) = *self.random.pick(&SPOILED);
            let mut bytes = sound.clone();
            let told = spoil(&mut self.random, how, &mut bytes);
            if let Some(block) = told {
                let found = Definition.read_file(&bytes, &mut [], &mut []);
                let as_said = found == refused(28, block as u64);
                self.tally.own("files spoiled in a block against its place", as_said, &|| format!("{how:?} {block} {}", shown(&bytes)));
            }
            self.read_any(&bytes, Some(how));
        }
        self.sums();
    }

    /// "Two blocks whose first 126 words differ in one word, or by exchange of two unequal neighbours, never have equal checks."
    fn sums(&mut self) {
        let bits = *self.random.pick(&[1, 2, 8, 32]);
        let block: Vec<u32> = (0..CHECKED).map(|_| (self.random.number() >> 32 >> (32 - bits)) as u32).collect();
        let place = self.random.below(CHECKED - 1);
        let (mut changed, mut exchanged) = (block.clone(), block.clone());
        changed[place + self.random.below(2)] ^= 1 << self.random.below(32);
        exchanged.swap(place, place + 1);
        let told = checks(&changed) != checks(&block) && (exchanged == block || checks(&exchanged) != checks(&block));
        self.tally.own("blocks that differ in a word or in two neighbours against their checks", told, &|| format!("{block:?} at {place}"));
        let same = checks(&block) == checks_by_places(&block);
        self.tally.own("checks that run on against checks by places", same, &|| format!("{block:?}"));
    }

    /// With rooms too small, just enough or larger.
    fn read_any(&mut self, bytes: &[u8], how: Option<Spoiled>) {
        let needed = card(bytes).map_or([10, 10], |(table, plan)| [table.len(), plan.len()]);
        let rooms = [self.room(needed[0], TABLE_CELLS + 20), self.room(needed[1], PLAN_CELLS + 20)];
        self.read_file(bytes, how, rooms);
    }

    fn write_file(&mut self, record: &Record, plan: &[u32], room: usize) {
        let first = self.random.number() as u8;
        let lent: Vec<u8> = (0..room + 2 * MARGIN).map(|place| first.wrapping_add((place * 37) as u8)).collect();
        let (answer, left) = lend(&lent, |room| self.exported.write_file(record, plan, room));
        let (expected, wanted) = lend(&lent, |room| Definition.write_file(record, plan, room));
        let table = table_in(record);
        let describe = || format!("table {table:?} plan {plan:?} room {room}");
        self.tally.settle(Entry::WriteFile, answer, expected, left == wanted, &describe);
        self.tally.filed.written(table.len() + plan.len(), room, expected);
        if expected & 0xff == 0 {
            let read = card(&wanted[MARGIN..MARGIN + (expected >> 16 & 0xffff) as usize]);
            self.tally.own("files read back against what was written", read == Ok((table.to_vec(), plan.to_vec())), &describe);
        }
    }

    fn read_file(&mut self, bytes: &[u8], how: Option<Spoiled>, rooms: [usize; 2]) {
        let lent = rooms.map(|room| self.lent(room));
        let (answer, left) = lend_two(&lent, |table, plan| self.exported.read_file(bytes, table, plan));
        let (expected, wanted) = lend_two(&lent, |table, plan| Definition.read_file(bytes, table, plan));
        let describe = || format!("{how:?} {} rooms {rooms:?}", shown(bytes));
        self.tally.settle(Entry::ReadFile, answer, expected, left == wanted, &describe);
        self.tally.filed.read(bytes, how, rooms, expected);
        if let Ok((table, plan)) = card(bytes) {
            self.tally.own("files written again against what was read", file(&table, &plan).as_deref() == Ok(bytes), &describe);
        }
    }
}

/// The first words of a file, and how many bytes it has.
fn shown(bytes: &[u8]) -> String {
    format!("file of {} bytes: {:?}", bytes.len(), words(&bytes[..bytes.len().min(4 * BLOCK_BYTES)]))
}
