//! Plans handed back as Prolog (02, W-210): the request's tables with their texts and its lists of names with their answers written down, programs
//! at the bounds, then random tables, plans, texts and lists. Each with rooms too small, just enough and larger.

use super::handed::{used, Call};
use super::{lend, Comparison, Entry, MARGIN};
use crate::engine::{Definition, Engine};
use crate::make::names::{damage as damage_names, entry, letters, sound, Named};
use crate::make::{damage, goals, numbered, plans, records, tables, texts};
use crate::model::clauses::{answers, handed, said};
use crate::model::least::least;
use crate::model::plan::grow;
use crate::model::read::{read_goal, read_table, Table};
use crate::model::record::{table_in, Record};
use crate::model::replies::all;
use crate::model::text::load;
use crate::notation::{name, table};

/// Rows, and the text of their least plan by figure 0, each line of it.
pub const WRITTEN: [(&str, &[&str]); 5] = [
    (
        "(a,b,c) (a,b,d) (a,c,c) (b,a,c)",
        &["'P0'(a, _0, _1) :- 'P1'(_0, _1).", "'P0'(b, a, c).", "'P1'(b, _0) :- 'P2'(_0).", "'P1'(c, c).", "'P2'(c).", "'P2'(d)."],
    ),
    ("(f1(v0),v0) (f1(a),b) (c,-1)", &["'P0'(f(_0), _1) :- 'P1'(_0, _1).", "'P0'(c, -1).", "'P1'(_0, _0).", "'P1'(a, b)."]),
    ("(a)", &["'P0'(a)."]),
    ("(a,b) (a,c)", &["'P0'(a, _0) :- 'P1'(_0).", "'P1'(b).", "'P1'(c)."]),
    ("(a,b) (a,c) (d,v0) (d,v0)", &["'P0'(a, _0) :- 'P1'(_0).", "'P0'(d, _0) :- 'P2'(_0).", "'P1'(b).", "'P1'(c).", "'P2'(_0).", "'P2'(_0)."]),
];

/// Clauses and bytes of these texts.
pub const SIZES: [(u64, u64); 5] = [(6, 103), (4, 72), (1, 9), (3, 43), (6, 88)];

/// A text, and lists of starts and bytes for a table with the names 0 and 1: accepted, then refused.
pub const TEXT: &[u8] = b"p(red,blue,X).";
pub const ACCEPTED: [&[(usize, usize)]; 3] = [&[(2, 3), (6, 4)], &[(2, 3), (6, 4), (0, 1)], &[(3, 2), (7, 2)]];
pub const REFUSED: [&[(usize, usize)]; 9] = [
    &[],
    &[(2, 3)],
    &[(2, 3), (2, 3)],
    &[(2, 3), (11, 1)],
    &[(2, 3), (6, 5)],
    &[(2, 3), (6, 0)],
    &[(2, 3), (13, 9)],
    &[(2, 3), (6, 4), (14, 1)],
    &[(2, 3), (6, 4), (2, 3)],
];

/// Number, input and place of NAMES.
pub const NAMES: u64 = 26 | 7 << 8;

/// A list of starts and bytes.
pub fn names(list: &[(usize, usize)]) -> Vec<u32> {
    list.iter().map(|&(start, bytes)| entry(start, bytes)).collect()
}

/// The lines as a text.
pub fn lines(lines: &[&str]) -> Vec<u8> {
    lines.iter().flat_map(|line| [line.as_bytes(), b"\n"].concat()).collect()
}

/// 64 rows that share their first column and are told apart by six others of two names each: as many clauses as there can be, by the plan that
/// takes the first open place.
pub fn most_clauses() -> Vec<u32> {
    let row = |number: u32| [0].into_iter().chain((0..6).rev().map(move |bit| number >> bit & 1)).map(|name| 1 << 30 | name);
    [7, 64].into_iter().chain((0..64).flat_map(row)).collect()
}

/// The rows' numbers in one column, a blank in the other; blanks first where that is wished.
fn blank_column(first: bool) -> Vec<u32> {
    let row = |row: u32| if first { [0, 2 << 30 | row] } else { [2 << 30 | row, 0] };
    [2, 64].into_iter().chain((0..64).flat_map(row)).collect()
}

/// `f` so often, one in another, around a name.
fn nested(depth: usize) -> Vec<u32> {
    [vec![1, 1], vec![name('f', 1); depth], vec![name('a', 0)]].concat()
}

impl<E: Engine> Comparison<'_, E> {
    pub(super) fn fixed_clauses(&mut self) {
        self.texts_written_down();
        self.lists_written_down();
        for rows in ["(v0)", "(v0) (v0)", "(v0,v0)", "(v0,f1(v0)) (a,v0)", "(g,a,1) (g,a,2) (g,a,3) (g,1,b) (g,2,b) (g,3,b)"] {
            self.every_plan(&table(rows), &letters());
        }
        for table in [nested(31), blank_column(false), blank_column(true), most_clauses(), tables::longest_replies().0] {
            self.every_plan(&table, &letters());
        }
        self.long_words();
        self.long_lists();
    }

    /// The request's table.
    fn texts_written_down(&mut self) {
        for ((rows, text), (clauses, bytes)) in WRITTEN.into_iter().zip(SIZES) {
            let (cells, named, text) = (table(rows), letters(), lines(text));
            let plan = read_table(&cells).map(|read| least(&read).write()).expect("a sound table");
            let found = handed(&cells, &plan, &named.text, &named.names).map(|(program, words)| (program.len(), said(&program, &words)));
            self.told("texts", found == Ok((clauses as usize, text.clone())) && text.len() as u64 == bytes, rows);
            let record = records::holding(&mut self.random, &cells);
            let one_less = Definition.clauses(&record, &plan, &named.text, &named.names, &mut vec![7; text.len() - 1]);
            self.told("rooms", one_less == 16 | 4 << 8 | bytes << 16, rows);
            self.every_plan(&cells, &named);
        }
    }

    fn lists_written_down(&mut self) {
        let cells = [1, 2, 1 << 30, 1 << 30 | 1];
        let plan = read_table(&cells).map(|read| least(&read).write()).expect("a sound table");
        let record = records::worked_out(&cells, 0);
        for (lists, refused) in [(&ACCEPTED[..], false), (&REFUSED, true)] {
            for list in lists {
                let named = Named { text: TEXT.to_vec(), names: names(list) };
                let found = Definition.clauses(&record, &plan, &named.text, &named.names, &mut [0; 100]);
                self.told("lists", if refused { found == NAMES } else { found & 0xff == 0 }, &format!("{list:?}"));
                self.every_plan(&cells, &named);
            }
        }
    }

    fn told(&mut self, what: &str, same: bool, of: &str) {
        self.tally.own("plans handed back against what is written down", same, &|| format!("{what}: {of}"));
    }

    /// Words of 300 bytes and of 65,535; a second one that starts at the last byte a start can name.
    fn long_words(&mut self) {
        for bytes in [299, 300, 65_535] {
            let named = Named::of(&["a", "b"].map(|letter| letter.repeat(bytes)));
            let one = Named { names: named.names[..1].to_vec(), ..named.clone() };
            for (cells, named) in [(&[1, 1, 1 << 30][..], &one), (&[2, 2, 1 << 30, 1 << 30, 1 << 30 | 1, 1 << 30 | 1 << 16, 0], &named)] {
                self.every_plan(cells, named);
            }
            // The last byte of the text is wanting, of the second word's too.
            let cut = Named { text: named.text[..named.text.len() - 1].to_vec(), ..named };
            self.every_plan(&[1, 1, 1 << 30], &cut);
        }
    }

    /// Lists of more names than a text gives, with an entry at the end that is like one at the start, or like none.
    fn long_lists(&mut self) {
        let words: Vec<String> = (0..3000).map(|number| format!("n{number}x")).collect();
        let mut named = Named::of(&words);
        let cells = [1, 1, 1 << 30 | 2999];
        self.every_plan(&cells, &named);
        self.every_plan(&[1, 1, 1 << 30 | 3000], &named);
        self.every_plan(&[1, 1, 2 << 30], &named);
        named.names.push(named.names[0]);
        self.every_plan(&cells, &named);
    }

    /// With the builder's plan, those that take the first and the last open place; in rooms of no size, one byte too few, just enough, and larger.
    fn every_plan(&mut self, cells: &[u32], named: &Named) {
        let read = read_table(cells).expect("a sound table");
        let record = records::holding(&mut self.random, cells);
        let orders = [least(&read), grow(&read, |_, _| 0), grow(&read, |open, rows| open.places(rows) - 1)];
        for plan in orders.map(|plan| plan.write()) {
            let needed = bytes_needed(cells, &plan, named);
            for room in [0, needed.saturating_sub(1), needed, needed + 1, needed + 1000] {
                self.clauses_in(&record, &plan, named, room);
            }
        }
    }

    /// A table, sound or damaged, with plans, texts and lists of all kinds.
    pub(super) fn random_clauses(&mut self) {
        let (mut cells, named) = self.table_with_names();
        let mut read = read_table(&cells).ok();
        if self.random.one_in(8) {
            damage::table(&mut self.random, &mut cells);
            read = read_table(&cells).ok().or(read);
        }
        let read = read.expect("the table was sound");
        let record = records::holding(&mut self.random, &cells);
        for _ in 0..2 {
            let mut plan = plans::any(&mut self.random, &read);
            if self.random.one_in(6) {
                damage::plan(&mut self.random, &mut plan);
            }
            let mut named = named.clone();
            if self.random.one_in(3) {
                damage_names(&mut self.random, &mut named, used(&read));
            }
            self.clauses(&record, &plan, &named);
            self.answered(&cells, &plan, &named, &read);
        }
    }

    /// A text that is a table, with its names; or any table, with names anywhere in any bytes.
    fn table_with_names(&mut self) -> (Vec<u32>, Named) {
        if self.random.one_in(2) {
            let text = texts::sound(&mut self.random);
            if let Some(loaded) = load(&text).ok().filter(|loaded| read_table(&loaded.cells).is_ok()) {
                return (loaded.cells, Named { text, names: loaded.names });
            }
        }
        let cells = tables::any(&mut self.random);
        let more = *self.random.pick(&[0, 0, 1, 5]);
        let count = used(&read_table(&cells).expect("a sound table")) + more;
        (cells, sound(&mut self.random, count))
    }

    /// With a room too small, just enough or larger.
    fn clauses(&mut self, record: &Record, plan: &[u32], named: &Named) {
        let needed = bytes_needed(table_in(record), plan, named);
        let most = if self.random.one_in(2) { 0 } else { needed + 1000 };
        let room = self.room(needed, most);
        self.clauses_in(record, plan, named, room);
    }

    fn clauses_in(&mut self, record: &Record, plan: &[u32], named: &Named, room: usize) {
        let Named { text, names } = named;
        let first = self.random.number() as u8;
        let lent: Vec<u8> = (0..room + 2 * MARGIN).map(|place| first.wrapping_add((place * 37) as u8)).collect();
        let (answer, left) = lend(&lent, |room| self.exported.clauses(record, plan, text, names, room));
        let (expected, wanted) = lend(&lent, |room| Definition.clauses(record, plan, text, names, room));
        let table = table_in(record);
        let describe = || {
            let start = text[..text.len().min(1000)].escape_ascii();
            format!("table {table:?} plan {plan:?} text \"{start}\" of {} bytes names {:?} room {room}", text.len(), &names[..names.len().min(200)])
        };
        self.tally.settle(Entry::Clauses, answer, expected, left == wanted, &describe);
        self.tally.handed.note(&Call { table, plan, named, room }, expected);
    }

    /// What the program answers to a goal, by Prolog's order of clauses and the textbook's unifier, against the replies.
    fn answered(&mut self, cells: &[u32], plan: &[u32], named: &Named, read: &Table) {
        let Ok((program, _)) = handed(cells, plan, &named.text, &named.names) else {
            return;
        };
        let goal = goals::any(&mut self.random, read);
        let (Ok(replies), Ok(asked)) = (all(cells, plan, &goal), read_goal(cells[0] as usize, &goal)) else {
            return;
        };
        let found: Vec<Vec<u32>> = answers(&program, &asked.arguments).into_iter().map(numbered).collect();
        self.tally.own("programs answered as Prolog does against the replies", found == replies, &|| format!("{cells:?} {plan:?} {goal:?}"));
    }
}

/// The bytes of the program; for what is refused, a few.
fn bytes_needed(table: &[u32], plan: &[u32], named: &Named) -> usize {
    handed(table, plan, &named.text, &named.names).map_or(20, |(program, words)| said(&program, &words).len())
}
