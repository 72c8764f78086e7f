//! What must be met of plans handed back as Prolog (02, W-210), and how often it was.

use std::fmt;

use super::tally::listed;
use crate::make::names::Named;
use crate::model::clauses::{handed, word, Clause};
use crate::model::least::least;
use crate::model::read::{read_table, Table};
use crate::model::refusal::{ByNumber, Number, NAMES};
use crate::model::term::Term;

/// What the call can be refused with, by input; NAMES and ROOM are told apart below.
const REFUSED: [(&str, usize, &[usize]); 4] =
    [("table", 1, &[1, 2, 3, 4, 5, 6, 7, 9, 24]), ("plan", 2, &[9, 10, 11, 12, 13, 14, 15]), ("room", 4, &[16]), ("names", 7, &[26])];

/// Why a list is refused, where there is one reason alone; and where that is in an entry that no cell uses.
const REASONS: [&str; 6] =
    ["past the text", "no byte", "no lower-case name", "two alike", "a number not listed", "only in an entry that no cell uses"];

/// Of the programs that were written.
const PROGRAMS: [&str; 14] = [
    "one clause",
    "one branch first, several below",
    "a call of another than the next predicate",
    "a row that repeats a variable",
    "a number below zero",
    "a name with arguments",
    "a word of 300 bytes",
    "over 65,535 bytes",
    "127 clauses",
    "a part of a longer word",
    "an entry that no cell uses",
    "a plan that is not the builder's",
    "a room of exactly the bytes",
    "an entry that ends past byte 65,535",
];

/// Of the rooms that were refused.
const ROOMS: [&str; 2] = ["one byte less", "no room"];

#[derive(Default)]
pub struct Handed {
    programs: u64,
    clauses: u64,
    bytes: u64,
    longest: usize,
    met: [u64; PROGRAMS.len()],
    rooms: [u64; ROOMS.len()],
    reasons: [u64; REASONS.len()],
    /// By input and number.
    refused: [ByNumber<u64>; 8],
}

/// One call: its inputs, and as much room as it lent.
pub struct Call<'c> {
    pub table: &'c [u32],
    pub plan: &'c [u32],
    pub named: &'c Named,
    pub room: usize,
}

impl Handed {
    pub fn note(&mut self, call: &Call, expected: u64) {
        let (number, input) = ((expected & 0xff) as usize, (expected >> 8 & 0xff) as usize);
        let count = |counts: &mut [u64], met: &[bool]| counts.iter_mut().zip(met).for_each(|(count, &met)| *count += u64::from(met));
        if number > 0 {
            self.refused[input][number] += 1;
            if number == Number::Names as usize {
                count(&mut self.reasons, &reasons(&read_table(call.table).expect("the table was accepted"), call.named));
            } else if number == Number::Room as usize {
                count(&mut self.rooms, &[expected >> 16 == call.room as u64 + 1, call.room == 0]);
            }
            return;
        }
        let (program, _) = handed(call.table, call.plan, &call.named.text, &call.named.names).expect("the call was answered");
        let bytes = (expected >> 32) as usize;
        self.programs += 1;
        self.clauses += program.len() as u64;
        self.bytes += bytes as u64;
        self.longest = self.longest.max(bytes);
        count(&mut self.met, &of_program(call, &program, bytes));
    }

    /// Whether all was met.
    pub fn passed(&self) -> bool {
        let refused = REFUSED.iter().all(|&(_, input, numbers)| numbers.iter().all(|&number| self.refused[input][number] > 0));
        refused && self.met.iter().chain(&self.rooms).chain(&self.reasons).all(|&met| met > 0)
    }
}

/// In the order of PROGRAMS.
fn of_program(call: &Call, program: &[Clause], bytes: usize) -> [bool; PROGRAMS.len()] {
    let table = read_table(call.table).expect("the table was accepted");
    let terms = || table.rows.iter().flat_map(|row| &row.arguments);
    let Named { text, names } = call.named;
    let ends = |name: &u32| (*name & 0xffff) as usize + (*name >> 16) as usize;
    let inside = |name: &u32| text.get(ends(name)).is_some_and(|&byte| byte.is_ascii_alphanumeric() || byte == b'_');
    [
        program.len() == 1,
        program.len() > 1 && program.iter().filter(|clause| clause.predicate == 0).count() == 1,
        program.iter().any(|clause| clause.called.is_some_and(|called| called != clause.predicate + 1)),
        table.rows.iter().any(|row| row.again > 0),
        terms().any(|term| holds(term, &|term| matches!(term, Term::Number(..0)))),
        terms().any(|term| holds(term, &|term| !term.arguments().is_empty())),
        terms().any(|term| holds(term, &|term| matches!(term, Term::Name(number, _) if names[*number as usize] >> 16 >= 300))),
        bytes > 65_535,
        program.len() == 127,
        terms().any(|term| holds(term, &|term| matches!(term, Term::Name(number, _) if inside(&names[*number as usize])))),
        used(&table) < names.len(),
        call.plan != least(&table).write(),
        call.room == bytes,
        names.iter().any(|name| ends(name) > 65_535),
    ]
}

/// In the order of REASONS.
fn reasons(table: &Table, named: &Named) -> [bool; REASONS.len()] {
    let Named { text, names } = named;
    let used = used(table);
    let is_past = |name: u32| (name & 0xffff) as usize + (name >> 16) as usize > text.len();
    let is_other = |name: u32| word(text, name).is_none() && !is_past(name) && name >> 16 > 0;
    let alike = |of: &[u32]| {
        let mut words: Vec<&[u8]> = of.iter().filter_map(|&name| word(text, name)).collect();
        words.sort();
        words.windows(2).any(|pair| pair[0] == pair[1])
    };
    let of = |names: &[u32]| {
        let any = |wrong: &dyn Fn(u32) -> bool| names.iter().any(|&name| wrong(name));
        [any(&is_past), any(&|name| name >> 16 == 0), any(&is_other), alike(names), names.len() < used]
    };
    let found = of(names);
    let alone = found.iter().filter(|&&found| found).count() == 1;
    let only_unused = names.len() > used && of(&names[..used]) == [false; 5];
    [alone && found[0], alone && found[1], alone && found[2], alone && found[3], alone && found[4], only_unused]
}

/// One more than the highest number of a name in the table.
pub fn used(table: &Table) -> usize {
    fn of(term: &Term) -> usize {
        let own = if let Term::Name(number, _) = term { *number as usize + 1 } else { 0 };
        term.arguments().iter().map(of).fold(own, usize::max)
    }
    table.rows.iter().flat_map(|row| &row.arguments).map(of).max().unwrap_or(0)
}

fn holds(term: &Term, is: &dyn Fn(&Term) -> bool) -> bool {
    is(term) || term.arguments().iter().any(|argument| holds(argument, is))
}

impl fmt::Display for Handed {
    fn fmt(&self, f: &mut fmt::Formatter) -> fmt::Result {
        let pairs = |names: &[&'static str], counts: &[u64]| listed(&names.iter().copied().zip(counts.iter().copied()).collect::<Vec<_>>());
        let Handed { programs, clauses, bytes, longest, .. } = self;
        writeln!(f, "programs {programs}, clauses {clauses}, bytes {bytes}, the longest {longest}")?;
        writeln!(f, "programs with: {}", pairs(&PROGRAMS, &self.met))?;
        for (input, place, numbers) in REFUSED {
            let counts: Vec<(&str, u64)> = numbers.iter().map(|&number| (NAMES[number - 1], self.refused[place][number])).collect();
            writeln!(f, "clauses refused, {input}: {}", listed(&counts))?;
        }
        writeln!(f, "NAMES for one reason alone: {}; ROOM: {}", pairs(&REASONS, &self.reasons), pairs(&ROOMS, &self.rooms))
    }
}
