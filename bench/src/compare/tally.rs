//! What was compared, and what came of it.

use std::collections::BTreeMap;
use std::fmt;

use super::chosen::Chosen;
use super::filed::Filed;
use super::handed::Handed;
use super::likings::Likings;
use super::saved::Salvages;
use crate::model::refusal::{given, ByNumber, Number, NAMES, NEVER};
use crate::model::replies::{Reply, REPLY_CELLS};

#[derive(Clone, Copy, PartialEq, Eq)]
pub enum Entry {
    ReadTable,
    ReadGoal,
    Row,
    CheckPlan,
    BuildPlan,
    RunPlan,
    ReadText,
    Replies,
    WorkOut,
    Append,
    DropLast,
    Replace,
    Clauses,
    WriteFile,
    ReadFile,
    Salvage,
    BuildFor,
    CheckFor,
    BuildLiked,
}

const ENTRIES: [&str; 19] = [
    "read_table",
    "read_goal",
    "row",
    "check_plan",
    "build_plan",
    "run_plan",
    "read_text",
    "replies",
    "work_out",
    "append",
    "drop_last",
    "replace",
    "clauses",
    "write_file",
    "read_file",
    "salvage",
    "build_for",
    "check_for",
    "build_liked",
];

/// What replies can be refused with, by input: table, plan, goal, room.
const OF_REPLIES: [(&str, &[usize]); 4] =
    [("table", &[1, 2, 3, 4, 5, 6, 7, 9, 24]), ("plan", &[9, 10, 11, 12, 13, 14, 15]), ("goal", &[1, 5, 6, 7, 9, 25]), ("room", &[16])];

/// What an edit of a record that was worked out can be refused with.
const OF_EDITS: [(Entry, &[usize]); 3] =
    [(Entry::Append, &[21, 4, 5, 6, 7, 24, 9]), (Entry::DropLast, &[22]), (Entry::Replace, &[23, 4, 5, 6, 7, 24, 9])];

/// What must be met of rows that repeat a variable (02, W-209).
#[derive(Clone, Copy)]
pub enum Met {
    /// Runs: a row that is hit; one that would be with its variables told apart; one that would be if terms had no end.
    Hit,
    KeptByRepeating,
    KeptByOccursCheck,
    /// Accepted: tables worked out, rows put in by edits, texts.
    WorkedOut,
    Edited,
    Text,
    /// Replies: of exactly as many cells as one may have; BIG for one cell more, for over a million, with no room lent, and beside others.
    Largest,
    OneMore,
    Million,
    NoRoom,
    AmongOthers,
}

const MET: [&str; 11] = [
    "rows that repeat a variable, hit",
    "kept from it by the variable alone",
    "kept from it by the occurs check alone",
    "tables worked out that repeat a variable",
    "edits with such a row",
    "texts with such a fact",
    "replies of 1,024 cells",
    "BIG for 1,025",
    "BIG for over a million",
    "BIG with no room",
    "BIG beside shorter replies",
];

/// How many differences are shown with their inputs.
const SHOWN: u64 = 5;

#[derive(Default)]
pub struct Tally {
    /// By the number of the refusal, 0 where the entry answered, and by entry.
    counts: ByNumber<[u64; ENTRIES.len()]>,
    differ: u64,
    /// Hits and branches tried of all runs that were answered.
    hits: u64,
    tried: u64,
    /// Of the texts refused for want of room: for the cells, for the names.
    text_rooms: [u64; 2],
    /// How often replies were refused, by input from 1 and number.
    replies_refused: [ByNumber<u64>; OF_REPLIES.len() + 1],
    replies: Replies,
    met: [u64; MET.len()],
    pub(super) handed: Handed,
    pub(super) filed: Filed,
    pub(super) salvages: Salvages,
    pub(super) chosen: Chosen,
    pub(super) likings: Likings,
    /// Edits of records that were worked out, by the number of the refusal and by entry.
    edits: ByNumber<[u64; ENTRIES.len()]>,
    /// How often a plan was built from, or an edit made in, a record that was never worked out.
    ended: u64,
    /// The independent implementation's parts among themselves: compared, and how many differed.
    own: BTreeMap<&'static str, (u64, u64)>,
}

/// Of replies that were written: how many, their cells, the largest; calls with 64 of them, and with a goal of 32 cells.
#[derive(Default)]
struct Replies {
    count: u64,
    cells: u64,
    largest: u64,
    with_64: u64,
    goals_of_32: u64,
}

impl Tally {
    /// One call of an exported function: its answer beside the expected one, and whether the lent rooms are the same afterwards.
    pub fn settle(&mut self, entry: Entry, answer: u64, expected: u64, same_room: bool, inputs: &dyn Fn() -> String) {
        let number = (expected & 0xff) as usize;
        self.counts[number][entry as usize] += 1;
        if number == 0 && entry == Entry::RunPlan {
            self.hits += expected >> 16 & 0xffff;
            self.tried += expected >> 32;
        }
        if answer != expected || !same_room {
            self.differ += 1;
            if self.differ <= SHOWN {
                let room = if same_room { "" } else { ", another room" };
                eprintln!("{}: {answer:#x} and not {expected:#x}{room}: {}", ENTRIES[entry as usize], inputs());
            }
        }
    }

    /// What a text's room was wanted for: the place is above the cells lent exactly where it is the cells.
    pub fn text(&mut self, expected: u64, cells: usize) {
        if expected & 0xff == 16 {
            self.text_rooms[usize::from(expected >> 16 <= cells as u64)] += 1;
        }
    }

    /// One more of what must be met.
    pub fn meet(&mut self, what: Met, met: bool) {
        self.met[what as usize] += u64::from(met);
    }

    /// What came of a call for replies in so much room, and those that were expected, of any length.
    pub fn replied(&mut self, expected: u64, goal_cells: usize, room: usize, replies: &[Reply]) {
        let (number, input) = ((expected & 0xff) as usize, (expected >> 8 & 0xff) as usize);
        let some = |with: &dyn Fn(u64) -> bool| replies.iter().any(|reply| with(reply.length()));
        self.meet(Met::Largest, number == 0 && some(&|length| length == REPLY_CELLS));
        if number == Number::Big as usize {
            self.meet(Met::OneMore, !some(&|length| length > REPLY_CELLS + 1));
            self.meet(Met::Million, some(&|length| length > 1_000_000));
            self.meet(Met::NoRoom, room == 0);
            self.meet(Met::AmongOthers, some(&|length| length <= REPLY_CELLS));
        }
        if number > 0 {
            self.replies_refused[input][number] += 1;
            return;
        }
        let seen = &mut self.replies;
        seen.count += replies.len() as u64;
        seen.with_64 += u64::from(replies.len() == 64);
        seen.goals_of_32 += u64::from(goal_cells == 32);
        for reply in replies {
            seen.cells += reply.length();
            seen.largest = seen.largest.max(reply.length());
        }
    }

    /// What came of an edit of a record that was worked out.
    pub fn edited(&mut self, entry: Entry, expected: u64) {
        self.edits[(expected & 0xff) as usize][entry as usize] += 1;
    }

    /// Building from a record that was never worked out, or an edit of one: it ended, and touched nothing beside what was lent.
    pub fn ended(&mut self, in_bounds: bool, inputs: &dyn Fn() -> String) {
        self.ended += 1;
        if !in_bounds {
            self.differ += 1;
            eprintln!("build_plan, out of bounds: {}", inputs());
        }
    }

    /// One comparison within the independent implementation.
    pub fn own(&mut self, what: &'static str, same: bool, inputs: &dyn Fn() -> String) {
        let (compared, differ) = self.own.entry(what).or_default();
        *compared += 1;
        if !same {
            *differ += 1;
            if *differ <= SHOWN {
                eprintln!("{what}: {}", inputs());
            }
        }
    }

    pub fn compared(&self) -> u64 {
        self.counts.iter().flatten().sum()
    }

    pub fn differ(&self) -> u64 {
        self.differ
    }

    /// The refusals that no input met.
    pub fn never_met(&self) -> Vec<usize> {
        given().filter(|&number| self.counts[number].iter().all(|&count| count == 0)).collect()
    }

    /// What a text can be answered with, and how often it was.
    fn texts(&self) -> Vec<(&'static str, u64)> {
        const GIVEN: [usize; 8] = [17, 18, 19, 1, 2, 3, 4, 24];
        let mut met: Vec<_> = GIVEN.iter().map(|&number| (NAMES[number - 1], self.counts[number][Entry::ReadText as usize])).collect();
        met.extend([("ROOM for cells", self.text_rooms[0]), ("ROOM for names", self.text_rooms[1])]);
        met
    }

    /// What replies can be refused with, by input, and how often they were.
    fn replies(&self) -> Vec<(&'static str, Vec<(&'static str, u64)>)> {
        let met = |input: usize, numbers: &[usize]| numbers.iter().map(|&number| (NAMES[number - 1], self.replies_refused[input][number])).collect();
        OF_REPLIES.iter().enumerate().map(|(place, &(input, numbers))| (input, met(place + 1, numbers))).collect()
    }

    /// What edits can be refused with, by entry, and how often they were.
    fn edits(&self) -> Vec<(&'static str, Vec<(&'static str, u64)>)> {
        let met = |entry: Entry, numbers: &[usize]| numbers.iter().map(|&number| (NAMES[number - 1], self.edits[number][entry as usize])).collect();
        OF_EDITS.iter().map(|&(entry, numbers)| (ENTRIES[entry as usize], met(entry, numbers))).collect()
    }

    /// Nothing differs, here or within the independent implementation, and every refusal was met and whatever else must be.
    pub fn passed(&self) -> bool {
        self.differ == 0
            && self.own.values().all(|&(_, differ)| differ == 0)
            && self.never_met().is_empty()
            && self.met.iter().all(|&met| met > 0)
            && self.handed.passed()
            && self.filed.passed()
            && self.salvages.passed()
            && self.chosen.passed()
            && self.likings.passed()
            && self.texts().iter().all(|&(_, met)| met > 0)
            && self.replies().iter().chain(&self.edits()).flat_map(|(_, refused)| refused).all(|&(_, met)| met > 0)
    }
}

impl fmt::Display for Tally {
    fn fmt(&self, f: &mut fmt::Formatter) -> fmt::Result {
        write!(f, "{:<12}", "")?;
        for entry in ENTRIES {
            write!(f, "{entry:>12}")?;
        }
        writeln!(f)?;
        for (number, counts) in self.counts.iter().enumerate().filter(|&(number, _)| number != NEVER) {
            let name = if number == 0 { "answered".to_string() } else { format!("{number} {}", NAMES[number - 1]) };
            write!(f, "{name:<12}")?;
            for count in counts {
                write!(f, "{count:>12}")?;
            }
            writeln!(f)?;
        }
        writeln!(f, "hits {} tried {}", self.hits, self.tried)?;
        writeln!(f, "texts refused: {}", listed(&self.texts()))?;
        let Replies { count, cells, largest, with_64, goals_of_32 } = &self.replies;
        writeln!(
            f,
            "replies {count}, cells {cells}, the largest {largest}; calls with 64 replies {with_64}, answered goals of 32 cells {goals_of_32}"
        )?;
        for (input, refused) in self.replies() {
            writeln!(f, "replies refused, {input}: {}", listed(&refused))?;
        }
        write!(f, "{}{}{}{}{}", self.handed, self.filed, self.salvages, self.chosen, self.likings)?;
        writeln!(f, "edits of records that were worked out: {}", self.edits.iter().flatten().sum::<u64>())?;
        for (entry, refused) in self.edits() {
            writeln!(f, "{entry} refused: {}", listed(&refused))?;
        }
        writeln!(f, "plans built from records that were never worked out, and edits made in them: {}", self.ended)?;
        for (what, (compared, differ)) in &self.own {
            writeln!(f, "{what}: {compared}, {differ} differ")?;
        }
        writeln!(f, "{}", listed(&MET.into_iter().zip(self.met).collect::<Vec<_>>()))?;
        writeln!(f, "refusals met: {} of {}", given().count() - self.never_met().len(), given().count())?;
        for number in self.never_met() {
            writeln!(f, "refusal {number} {} was never met", NAMES[number - 1])?;
        }
        write!(f, "{} compared, {} differ", self.compared(), self.differ)
    }
}

/// How often each refusal was met.
pub(super) fn listed(refused: &[(&str, u64)]) -> String {
    refused.iter().map(|(name, met)| format!("{name} {met}")).collect::<Vec<_>>().join(", ")
}
