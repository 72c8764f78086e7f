//! What was met of goals and answers, and what differed.

use std::collections::BTreeMap;
use std::fmt;

use super::{words_of, Asked};
use crate::model::asking::{whole, word, GOAL_BYTES};
use crate::model::replies::REPLY_CELLS;
use crate::model::term::Symbol;
use crate::model::text::{load, predicate};

/// How many differences are shown with their inputs.
const SHOWN: u64 = 5;

/// What must be met of goals.
const OF_GOALS: [&str; 25] = [
    "read",
    "with a full stop",
    "without one",
    "without one, behind a comment",
    "of 32 cells",
    "of 65,533 bytes",
    "with no new name",
    "with one",
    "with several",
    "with one that stands again",
    "with a variable that stands again",
    "with a name that is listed twice",
    "LENGTH of the table",
    "BYTES",
    "BYTES for 65,534",
    "TEXT at a byte",
    "TEXT at the end",
    "OTHER for another predicate",
    "OTHER for another number of arguments",
    "OTHER for more than one fact",
    "OTHER for facts that are refused",
    "LENGTH of the goal",
    "LENGTH of the goal for 33 cells",
    "ROOM for the cells",
    "ROOM for the new names",
];

/// What must be met of answers.
const OF_ANSWERS: [&str; 14] = [
    "replies of a goal",
    "said",
    "of no cell",
    "of 1,024 cells",
    "with terms that are missing",
    "with terms too many",
    "with what is no cell",
    "with a new name",
    "with a name in neither list",
    "for facts that are refused",
    "BIG",
    "BIG for 1,025 cells",
    "ROOM",
    "ROOM with one byte too few",
];

#[derive(Default)]
pub struct Tally {
    met: BTreeMap<&'static str, u64>,
    compared: u64,
    differ: u64,
    /// The independent implementation's parts among themselves: compared, and how many differed.
    own: BTreeMap<&'static str, (u64, u64)>,
}

impl Tally {
    /// One call: its answer beside the expected one, and whether the lent rooms are the same afterwards.
    pub(super) fn settle(&mut self, entry: &str, answer: u64, expected: u64, same_room: bool, inputs: &dyn Fn() -> String) {
        self.compared += 1;
        if answer != expected || !same_room {
            self.differ += 1;
            if self.differ <= SHOWN {
                let room = if same_room { "" } else { ", another room" };
                eprintln!("{entry}: {answer:#x} and not {expected:#x}{room}: {}", inputs());
            }
        }
    }

    /// One comparison within the independent implementation.
    pub(super) fn own(&mut self, what: &'static str, same: bool, inputs: &dyn Fn() -> String) {
        let (compared, differ) = self.own.entry(what).or_default();
        *compared += 1;
        if !same {
            *differ += 1;
            if *differ <= SHOWN {
                eprintln!("{what}: {}", inputs());
            }
        }
    }

    pub(super) fn met(&mut self, what: &'static str, met: bool) {
        debug_assert!(OF_GOALS.contains(&what) || OF_ANSWERS.contains(&what), "{what}");
        *self.met.entry(what).or_default() += u64::from(met);
    }

    /// What came of a goal in room for so many cells.
    pub(super) fn was_read(&mut self, asked: Asked, expected: u64, cells_room: usize) {
        let (number, input, place) = (expected & 0xff, expected >> 8 & 0xff, (expected >> 16) as usize);
        let what = match (number, input) {
            (0, _) => return self.was_goal(asked),
            (1, 1) => "LENGTH of the table",
            (1, _) => "LENGTH of the goal",
            (16, _) if place > cells_room => "ROOM for the cells",
            (16, _) => "ROOM for the new names",
            (17, _) => "BYTES",
            (18, _) if place == asked.goal.len() => "TEXT at the end",
            (18, _) => "TEXT at a byte",
            _ => why_other(asked),
        };
        self.met(what, true);
        self.met("BYTES for 65,534", what == "BYTES" && asked.goal.len() == GOAL_BYTES + 1);
        let cells = || whole(asked.goal).and_then(|whole| load(&whole)).map_or(0, |loaded| loaded.cells.len() - 2);
        self.met("LENGTH of the goal for 33 cells", what == "LENGTH of the goal" && cells() == 33);
    }

    fn was_goal(&mut self, asked: Asked) {
        let Asked { text, names, goal } = asked;
        let read = crate::model::asking::read(text, names, goal).expect("it was read");
        let stopped = whole(goal).is_ok_and(|whole| whole.len() == goal.len());
        let last = goal.rsplit(|&byte| byte == 10).next().unwrap_or_default();
        let again = |met: &dyn Fn(u32) -> bool| {
            let cells: Vec<u32> = read.cells.iter().map(|&cell| if cell >> 30 == 1 { cell & !0x7_0000 } else { cell }).collect();
            cells.iter().enumerate().any(|(place, &cell)| met(cell) && cells[..place].contains(&cell))
        };
        let twice = |&cell: &u32| {
            let listed =
                |entry: &&u32| cell >> 30 == 1 && names.get((cell & 0xffff) as usize).is_some_and(|name| word(text, *name) == word(text, **entry));
            names.iter().filter(listed).count() > 1
        };
        self.met("read", true);
        self.met("with a full stop", stopped);
        self.met("without one", !stopped);
        self.met("without one, behind a comment", !stopped && last.contains(&b'%'));
        self.met("of 32 cells", read.cells.len() == 32);
        self.met("of 65,533 bytes", goal.len() == GOAL_BYTES);
        self.met("with no new name", read.new.is_empty());
        self.met("with one", read.new.len() == 1);
        self.met("with several", read.new.len() > 1);
        self.met("with one that stands again", again(&|cell| cell >> 30 == 1 && (cell & 0xffff) as usize >= names.len()));
        self.met("with a variable that stands again", again(&|cell| cell >> 30 == 0));
        self.met("with a name that is listed twice", names.len() < 100 && read.cells.iter().any(twice));
    }

    /// What came of an answer in so many bytes of room.
    pub(super) fn was_said(&mut self, asked: Asked, new: &[u32], cells: &[u32], (expected, room): (u64, usize)) {
        let count = cells.len() as u64;
        match expected & 0xff {
            0 => {}
            16 => {
                self.met("ROOM", true);
                return self.met("ROOM with one byte too few", expected >> 16 == room as u64 + 1);
            }
            _ => {
                self.met("BIG", true);
                return self.met("BIG for 1,025 cells", count == REPLY_CELLS + 1);
            }
        }
        let words = words_of(asked, new).len();
        let number = |cell: &u32| match Symbol::of(*cell) {
            Some(Symbol::Name { number, .. }) => Some(number as usize),
            _ => None,
        };
        // Terms that are wanted when the cells end; fewer than none where there are too many.
        let wanted = predicate(asked.text).map(|(_, width)| {
            let arguments = |cell: &u32| if number(cell).is_some() { (cell >> 16 & 7) as isize } else { 0 };
            cells.iter().fold(width as isize, |wanted, cell| wanted + arguments(cell) - 1)
        });
        self.met("said", true);
        self.met("of no cell", count == 0);
        self.met("of 1,024 cells", count == REPLY_CELLS);
        self.met("with terms that are missing", wanted.is_some_and(|wanted| wanted > 0));
        self.met("with terms too many", wanted.is_some_and(|wanted| wanted < 0));
        self.met("with what is no cell", cells.iter().any(|&cell| Symbol::of(cell).is_none()));
        self.met("with a new name", cells.iter().filter_map(number).any(|number| (asked.names.len()..words).contains(&number)));
        self.met("with a name in neither list", cells.iter().filter_map(number).any(|number| number >= words));
        self.met("for facts that are refused", wanted.is_none());
    }

    pub fn differ(&self) -> u64 {
        self.differ
    }

    fn counts<'t>(&'t self, wanted: &'t [&'static str]) -> impl Iterator<Item = (&'static str, u64)> + 't {
        wanted.iter().map(|&what| (what, self.met.get(what).copied().unwrap_or(0)))
    }

    fn never_met(&self) -> Vec<&'static str> {
        self.counts(&OF_GOALS).chain(self.counts(&OF_ANSWERS)).filter(|&(_, met)| met == 0).map(|(what, _)| what).collect()
    }

    /// Nothing differs, here or within the independent implementation, and all was met.
    pub fn passed(&self) -> bool {
        self.differ == 0 && self.own.values().all(|&(_, differ)| differ == 0) && self.never_met().is_empty()
    }
}

/// Why a goal is none of the facts'.
fn why_other(asked: Asked) -> &'static str {
    let Some((name, width)) = predicate(asked.text) else {
        return "OTHER for facts that are refused";
    };
    let whole = whole(asked.goal).unwrap_or_default();
    match (load(&whole), predicate(&whole)) {
        (Ok(loaded), Some(asked)) if loaded.cells[1] == 1 && asked.0 != name => "OTHER for another predicate",
        (Ok(loaded), Some(asked)) if loaded.cells[1] == 1 && asked.1 != width => "OTHER for another number of arguments",
        _ => "OTHER for more than one fact",
    }
}

impl fmt::Display for Tally {
    fn fmt(&self, f: &mut fmt::Formatter) -> fmt::Result {
        for (name, wanted) in [("goals as text", &OF_GOALS[..]), ("answers as text", &OF_ANSWERS)] {
            let counts: Vec<String> = self.counts(wanted).map(|(what, met)| format!("{what} {met}")).collect();
            writeln!(f, "{name}: {}", counts.join(", "))?;
        }
        for (what, (compared, differ)) in &self.own {
            writeln!(f, "{what}: {compared}, {differ} differ")?;
        }
        for what in self.never_met() {
            writeln!(f, "{what} was never met")?;
        }
        write!(f, "goals and answers as text: {} compared, {} differ", self.compared, self.differ)
    }
}
