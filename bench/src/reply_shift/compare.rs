//! Lists of goals whose replies are wanted: sound, refused, with replies that are too long, and rooms of all sizes; the whole answer, every job and
//! the whole room, with jobs and cells on either side.

use std::fmt;

use super::{one_by_one, ReplyJob, ReplyShift};
use crate::engine::{Definition, Plain};
use crate::make::{big, damage, goals, plans, records, tables};
use crate::model::read::{read_table, Table};
use crate::model::record::{table_in, Record};
use crate::model::refusal::{ByNumber, Number, NAMES};
use crate::random::Random;
use crate::shift::compare::list;

/// What a call, and what a job, can be refused with.
const OF_CALLS: [usize; 15] = [1, 2, 3, 4, 5, 6, 7, 9, 10, 11, 12, 13, 14, 15, 24];
const OF_JOBS: [usize; 7] = [1, 5, 6, 7, 9, 16, 25];

/// Jobs and cells on either side of what is lent, which no call may touch.
const MARGIN: usize = 2;

/// How many differences are shown with their inputs.
const SHOWN: u64 = 5;

/// What must be met besides.
const NAMED: [&str; 8] = [
    "an answered goal with replies",
    "an answered goal without replies",
    "replies written after a goal that was refused ROOM",
    "replies written after a goal that was refused BIG",
    "a goal without replies answered after the room was full",
    "a ROOM although the replies before it were fewer than the room",
    "a goal after whose replies the room was just full",
    "a room of which cells were left",
];

/// How often each refusal was given, by its number, at 0 how often there was none; and how often each of the rest was met.
#[derive(Default)]
pub struct Tally {
    calls: ByNumber<u64>,
    jobs: ByNumber<u64>,
    met: [u64; NAMED.len()],
    differ: u64,
    own_differ: u64,
}

/// One call.
struct Call {
    record: Box<Record>,
    plan: Vec<u32>,
    cells: Vec<u32>,
    jobs: Vec<ReplyJob>,
    /// With the cells on either side.
    room: Vec<u32>,
}

/// Compares on so many lists.
pub fn compare<S: ReplyShift>(engine: &S, lists: usize, seed: u64) -> Tally {
    let random = &mut Random::new(seed);
    let mut tally = Tally::default();
    for _ in 0..lists {
        tally.settle(engine, &any(random));
    }
    tally
}

/// A table, sound or damaged, a plan likewise, a list of goals, and a room that is too small, just enough or larger for them.
fn any(random: &mut Random) -> Call {
    let (mut table, long) = match random.below(4) {
        0 => long(random),
        1 => {
            let rows = *random.pick(&[1, 2, 5, 64]);
            (tables::heavy(random, rows), None)
        }
        _ => (tables::any(random), None),
    };
    let mut read = read_table(&table).ok();
    if random.one_in(6) {
        damage::table(random, &mut table);
        read = read_table(&table).ok().or(read);
    }
    let read = read.expect("the table was sound");
    let mut plan = plans::any(random, &read);
    if random.one_in(4) {
        damage::plan(random, &mut plan);
    }
    let (cells, jobs) = asked(random, &read, long);
    let record = records::holding(random, &table);
    let room = room(random, &record, &plan, &cells, &jobs);
    let room = (0..room + 2 * MARGIN).map(|_| random.number() as u32).collect();
    Call { record, plan, cells, jobs, room }
}

/// A table and a goal with replies of any length, many of them over the most that a reply may have.
fn long(random: &mut Random) -> (Vec<u32>, Option<Vec<u32>>) {
    loop {
        let (rows, goal) = if random.one_in(2) {
            let rows = *random.pick(&[1, 2, 5]);
            big::chained(random, rows)
        } else {
            let length = *random.pick(&[800, 1024, 1025, 1026]);
            let (row, goal) = big::of_length(random, length);
            (vec![row], goal)
        };
        let table = tables::cells(&rows);
        if read_table(&table).is_ok() {
            return (table, Some(goal));
        }
    }
}

/// The lists that runs are compared with, and the goal of long replies a few times more.
fn asked(random: &mut Random, table: &Table, long: Option<Vec<u32>>) -> (Vec<u32>, Vec<ReplyJob>) {
    let (mut cells, runs) = list(random, table);
    let mut parts: Vec<(usize, usize)> = runs.iter().map(|job| (job.start, job.count)).collect();
    parts.truncate(16);
    let more = long.unwrap_or_else(|| goals::open(table.width));
    for _ in 0..random.below(4) {
        let goal = if random.one_in(4) { &goals::open(table.width) } else { &more };
        let place = random.below(parts.len() + 1);
        parts.insert(place, (cells.len(), goal.len()));
        cells.extend(goal);
    }
    let mut number = || random.number() as usize;
    let mut job = |(start, count)| {
        let [number, place, at, replies, cells, hits, tried] = [(); 7].map(|()| number());
        ReplyJob { start, count, number, place, at, replies, cells, hits: hits as u64, tried }
    };
    let jobs = parts.into_iter().map(&mut job).collect();
    (cells, jobs)
}

/// How many cells are lent: for all replies, one less, more, none, or for some of them.
fn room(random: &mut Random, record: &Record, plan: &[u32], cells: &[u32], jobs: &[ReplyJob]) -> usize {
    let mut jobs = jobs.to_vec();
    let mut all = vec![0; jobs.len() * 64 * 1024];
    let answer = Definition.reply_jobs(record, plan, cells, &mut jobs, &mut all);
    let sizes: Vec<usize> = if answer & 0xff == 0 { jobs.iter().map(|job| job.cells).collect() } else { vec![20] };
    let needed: usize = sizes.iter().sum();
    match random.below(6) {
        0 => needed,
        1 => needed.saturating_sub(1),
        2 => needed + random.below(1030),
        3 => random.below(4),
        // As many as the first goals take, or some more: a later goal may fit that is smaller than one that does not.
        4 => sizes[..random.below(sizes.len() + 1)].iter().sum(),
        _ => random.below(needed + 1),
    }
}

impl Tally {
    fn settle<S: ReplyShift>(&mut self, engine: &S, call: &Call) {
        let margin = [ReplyJob { start: 0, count: 1, number: 2, place: 3, at: 4, replies: 5, cells: 6, hits: 7, tried: 8 }; MARGIN];
        let lent = [&margin, &call.jobs[..], &margin].concat();
        let lend = |asks: &dyn Fn(&mut [ReplyJob], &mut [u32]) -> u64| {
            let (mut jobs, mut room) = (lent.clone(), call.room.clone());
            let (jobs_end, room_end) = (jobs.len() - MARGIN, room.len() - MARGIN);
            (asks(&mut jobs[MARGIN..jobs_end], &mut room[MARGIN..room_end]), jobs, room)
        };
        let Call { record, plan, cells, .. } = call;
        let expected = lend(&|jobs, room| Definition.reply_jobs(record, plan, cells, jobs, room));
        let found = lend(&|jobs, room| engine.reply_jobs(record, plan, cells, jobs, room));
        self.calls[(expected.0 & 0xff) as usize] += 1;
        if expected.0 & 0xff == 0 {
            self.meet(&expected.1[MARGIN..MARGIN + call.jobs.len()], call.room.len() - 2 * MARGIN);
        }
        if found != expected {
            self.differ += 1;
            if self.differ <= SHOWN {
                let (table, jobs, room) = (table_in(record), &call.jobs, call.room.len() - 2 * MARGIN);
                let shown = format!("{:?} and not {:?}", (found.0, &found.1), (expected.0, &expected.1));
                eprintln!("reply_jobs: {shown}: table {table:?} plan {plan:?} cells {cells:?} jobs {jobs:?} room {room}");
            }
        }
        if lend(&|jobs, room| one_by_one(&Plain, record, plan, cells, jobs, room)) != expected {
            self.own_differ += 1;
        }
    }

    /// What an accepted list shows.
    fn meet(&mut self, jobs: &[ReplyJob], room: usize) {
        let (mut on, mut no_room, mut big) = (0, false, false);
        for job in jobs {
            self.jobs[job.number] += 1;
            no_room |= job.number == Number::Room as usize;
            big |= job.number == Number::Big as usize;
            let answered = job.number == 0;
            let met = [
                answered && job.replies > 0,
                answered && job.replies == 0,
                no_room && job.replies > 0,
                big && job.replies > 0,
                answered && job.replies == 0 && on == room && room > 0,
                job.number == Number::Room as usize && on < room,
                job.replies > 0 && on + job.cells == room,
                false,
            ];
            self.met.iter_mut().zip(met).for_each(|(count, met)| *count += met as u64);
            on += job.cells;
        }
        self.met[NAMED.len() - 1] += (on < room) as u64;
    }

    pub fn differ(&self) -> u64 {
        self.differ
    }

    fn never_met(&self) -> Vec<String> {
        let calls = OF_CALLS.iter().filter(|&&number| self.calls[number] == 0).map(|number| format!("{} of a call", NAMES[number - 1]));
        let jobs = OF_JOBS.iter().filter(|&&number| self.jobs[number] == 0).map(|number| format!("{} of a goal", NAMES[number - 1]));
        let met = NAMED.iter().zip(self.met).filter(|(_, met)| *met == 0).map(|(name, _)| name.to_string());
        calls.chain(jobs).chain(met).collect()
    }

    /// Nothing differs, here or within the independent implementation, and all was met.
    pub fn passed(&self) -> bool {
        self.differ == 0 && self.own_differ == 0 && self.never_met().is_empty()
    }
}

impl fmt::Display for Tally {
    fn fmt(&self, f: &mut fmt::Formatter) -> fmt::Result {
        let (lists, jobs): (u64, u64) = (self.calls.iter().sum(), self.jobs.iter().sum());
        let refused: Vec<String> = OF_JOBS.iter().map(|&number| format!("{} {}", NAMES[number - 1], self.jobs[number])).collect();
        writeln!(
            f,
            "lists for replies: {lists}, {} refused; jobs: {jobs}, {} answered, {}",
            lists - self.calls[0],
            self.jobs[0],
            refused.join(", ")
        )?;
        for (name, met) in NAMED.iter().zip(self.met) {
            writeln!(f, "  {met:>8} {name}")?;
        }
        for name in self.never_met() {
            writeln!(f, "{name} was never met")?;
        }
        write!(f, "lists for replies: {} differ; one by one against the definitions: {} differ", self.differ, self.own_differ)
    }
}
