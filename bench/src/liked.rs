//! The plan that a list of goals likes best, beside the plain least plan and the fewest branches that the list tries by any plan; and what it takes
//! to find it. `count` and `instructions` go together as those of crate::count.

use std::hint::black_box;
use std::path::Path;
use std::time::Instant;

use crate::cases::{FIGURE, SEED};
use crate::count::{measured, total};
use crate::engine::{Engine, Exported, Plain};
use crate::make::lists::List;
use crate::make::tables::{sometimes_repeated, table, Kind};
use crate::make::{goals, numbered, records};
use crate::model::liked::{accepted, fewest, Liked};
use crate::model::plan::PLAN_CELLS;
use crate::model::read::{read_table, Table};
use crate::model::record::{table_in, Record};
use crate::model::term::Term;
use crate::random::Random;
use crate::shift::{Job, Shift};

/// A shop's table: 12 rows of urgency, enamel, piece and firing.
const SHOP: &[u8] = include_bytes!("../../samples/shop.cells");

/// The jobs of a list for it.
const JOBS: usize = 300;

fn shop() -> Vec<u32> {
    SHOP.chunks_exact(4).map(|cell| u32::from_le_bytes(cell.try_into().expect("four bytes"))).collect()
}

/// Jobs for a table that know these columns; where none is named each knows each of them once in two times. What is known is something that a row has
/// there.
fn jobs(table: &Table, known: &[u32]) -> Vec<Vec<u32>> {
    let random = &mut Random::new(SEED);
    let mut term = |column: usize| {
        let held: Vec<&Term> = table.rows.iter().map(|row| &row.arguments[column]).filter(|term| !term.is_variable()).collect();
        match known {
            [] if random.one_in(2) => Term::Var(column as u16),
            [_, ..] if !known.contains(&(column as u32)) => Term::Var(column as u16),
            _ => (*random.pick(&held)).clone(),
        }
    };
    (0..JOBS).map(|_| numbered((0..table.width).map(&mut term).collect())).collect()
}

/// A list over a record's table, and what is found for it.
struct Finding {
    read: Table,
    list: List,
    record: Box<Record>,
    liked: Liked,
}

impl Finding {
    fn new(cells: &[u32], goals: &[Vec<u32>]) -> Finding {
        let (record, list, mut liked) = (records::worked_out(cells, FIGURE), List::of(goals), Liked::default());
        let answer = Exported.build_liked(&record, list.cells(), list.words(), &mut vec![0; PLAN_CELLS], &mut liked);
        assert_eq!(answer & 0xff, 0, "a sound table and room enough");
        Finding { read: read_table(cells).expect("a sound table"), list, record, liked }
    }

    /// The fewest branches that the list tries by any plan.
    fn fewest(&self) -> f64 {
        fewest(&self.read, &accepted(self.read.width, self.list.cells(), self.list.words())) as f64
    }

    /// What the list tries by the plan for these columns.
    fn tried_for(&self, columns: &[u32]) -> usize {
        jobs_by_plan_for(&self.record, &self.list, columns).iter().map(|job| job.tried).sum()
    }
}

/// The plan for some columns built, and the list run by it.
fn jobs_by_plan_for(record: &Record, list: &List, columns: &[u32]) -> Vec<Job> {
    let mut plan = vec![0; PLAN_CELLS];
    let built = Exported.build_for(record, columns, &mut plan);
    plan.truncate((built >> 16 & 0xffff) as usize);
    let mut jobs: Vec<Job> = list.parts().map(|(start, count)| Job { start, count, ..Job::default() }).collect();
    Exported.run_jobs(record, &plan, list.cells(), &mut jobs);
    jobs
}

/// Prints, for docs/BENCH.md, how far the plan that is liked best and the plain one are from the fewest branches by any plan.
pub fn near() {
    small_tables();
    println!();
    shops_table();
}

/// How many small tables there are for each sort of list.
const TABLES: usize = 1000;

/// The goals of a list: how many, and one of them, given the columns that the list's goals know.
type Sort = (&'static str, usize, fn(&mut Random, &Table, &[u32]) -> Vec<u32>);

const SORTS: [Sort; 5] = [
    ("8 goals of any kind", 8, |random, table, _| goals::any(random, table)),
    ("40 goals of any kind", 40, |random, table, _| goals::any(random, table)),
    ("40 that know the same columns, each of one row", 40, |random, table, columns| goals::knowing(random, table, columns, true)),
    ("40 that know the same columns, of several rows", 40, |random, table, columns| goals::knowing(random, table, columns, false)),
    ("40 that know one column each, of several rows", 40, |random, table, _| {
        let column = random.below(table.width) as u32;
        goals::knowing(random, table, &[column], false)
    }),
];

/// Ratios to the fewest.
#[derive(Default)]
struct Ratios(Vec<f64>);

impl Ratios {
    fn shown(&self) -> String {
        let (sum, worst) = (self.0.iter().sum::<f64>(), self.0.iter().copied().fold(1.0, f64::max));
        let fewest = self.0.iter().filter(|&&ratio| ratio == 1.0).count();
        format!("{:.3}, {worst:.2}, {fewest}", sum / self.0.len() as f64)
    }
}

/// Tables of two to six rows and two or three columns, some of them nested, some with rows that repeat a variable.
fn small_tables() {
    println!("| lists, {TABLES} tables each | liked best: mean, worst, the fewest in | the plain plan: the same | better than the plain plan in |");
    println!("|---|---|---|---|");
    for (name, count, goal) in SORTS {
        let random = &mut Random::new(SEED);
        let (mut liked, mut plain, mut better) = (Ratios::default(), Ratios::default(), 0);
        for _ in 0..TABLES {
            let (read, cells) = small_table(random);
            let columns: Vec<u32> = (0..read.width as u32).filter(|_| random.one_in(2)).collect();
            let goals: Vec<Vec<u32>> = (0..count).map(|_| goal(random, &read, &columns)).collect();
            let found = Finding::new(&cells, &goals);
            let fewest = found.fewest();
            liked.0.push(found.liked.tried as f64 / fewest);
            plain.0.push(found.liked.plain as f64 / fewest);
            better += usize::from(found.liked.tried < found.liked.plain);
        }
        println!("| {name} | {} | {} | {better} |", liked.shown(), plain.shown());
    }
}

fn small_table(random: &mut Random) -> (Table, Vec<u32>) {
    loop {
        let rows = random.within(2..=6);
        let cells = sometimes_repeated(random, Kind::Small, rows);
        let read = read_table(&cells).expect("a sound table");
        if read.width > 1 {
            return (read, cells);
        }
    }
}

/// Of the shop's columns those that its jobs know; in the last line each job knows each of them once in two times.
const KNOWN: [&[u32]; 8] = [&[0, 1, 2], &[0, 2], &[1, 2], &[0], &[1], &[2], &[3], &[]];

fn shops_table() {
    println!("| the shop's jobs know | the fewest by any plan | liked best: columns, tried | the plain plan | the plan for what is known |");
    println!("|---|---|---|---|---|");
    let cells = shop();
    let read = read_table(&cells).expect("a sound table");
    for known in KNOWN {
        let found = Finding::new(&cells, &jobs(&read, known));
        let fewest = found.fewest();
        let to_fewest = |tried: usize| format!("{tried} = {:.3}", tried as f64 / fewest);
        let columns: Vec<u32> = (0..read.width as u32).filter(|column| found.liked.columns >> column & 1 == 1).collect();
        let named = match known {
            [] => "".to_string(),
            _ => to_fewest(found.tried_for(known)),
        };
        let (known, liked) = (listed(known, "each of them, one in two times"), listed(&columns, "none"));
        println!("| {known} | {fewest} | {liked}: {} | {} | {named} |", to_fewest(found.liked.tried), to_fewest(found.liked.plain));
    }
}

fn listed(columns: &[u32], none: &str) -> String {
    match columns {
        [] => none.to_string(),
        _ => columns.iter().map(u32::to_string).collect::<Vec<_>>().join(", "),
    }
}

/// What is counted and timed: a record and a list.
struct Case {
    name: &'static str,
    record: Box<Record>,
    list: List,
}

impl Case {
    /// Finding; the plan for each set of columns built and the list run by it, in calls of their own; the independent finding.
    fn works(&self) -> [Box<dyn FnMut() + '_>; 3] {
        let [mut room, mut theirs] = [(); 2].map(|()| vec![0; PLAN_CELLS]);
        let (cells, words) = (self.list.cells(), self.list.words());
        let sets = 0..1u32 << table_in(&self.record)[0];
        [
            Box::new(move || {
                black_box(Exported.build_liked(&self.record, cells, words, &mut room, black_box(&mut Liked::default())));
            }),
            Box::new(move || {
                for set in sets.clone() {
                    let columns: Vec<u32> = (0..8).filter(|column| set >> column & 1 == 1).collect();
                    black_box(jobs_by_plan_for(&self.record, &self.list, &columns));
                }
            }),
            Box::new(move || {
                black_box(Plain.build_liked(&self.record, cells, words, &mut theirs, black_box(&mut Liked::default())));
            }),
        ]
    }
}

/// The shop's table with jobs that know each column once in two times; and of crate::cases the shop-like table and the full one, 64 rows each, with
/// goals half of which are instances of rows, and half rows with parts blank.
fn cases() -> [Case; 3] {
    let cells = shop();
    let jobs = jobs(&read_table(&cells).expect("a sound table"), &[]);
    let of_kind = |name, kind| {
        let random = &mut Random::new(SEED);
        let cells = table(random, kind, 64);
        let read = read_table(&cells).expect("a sound table");
        let goals = (0..JOBS).map(|goal| if goal % 2 == 0 { goals::instance(random, &read) } else { goals::general(random, &read) });
        Case { name, record: records::worked_out(&cells, FIGURE), list: List::of(&goals.collect::<Vec<_>>()) }
    };
    [
        Case { name: "the shop's, 12 rows, 4 columns", record: records::worked_out(&cells, FIGURE), list: List::of(&jobs) },
        of_kind("shop, 64 rows, 4 columns", Kind::Shop),
        of_kind("full, 64 rows, 8 columns", Kind::Full(8)),
    ]
}

/// Each work once. There is no warm-up: the works are long.
pub fn count() {
    for case in cases() {
        case.works().iter_mut().for_each(|work| measured(&mut **work));
    }
}

/// How often each work is timed.
const TIMES: usize = 5;

/// Prints the figures from callgrind's files FOLDER/count.1, count.2, .. and the milliseconds of the same works, measured now.
pub fn instructions(folder: &Path) {
    println!(
        "\nThe plan that {JOBS} jobs like best: against single calls, which build for each set of columns and run the jobs, and the independent one"
    );
    println!("{:<34}{:>14}{:>14}{:>7}{:>14}{:>7}{:>9}{:>9}{:>9}", "", "exported", "single calls", "ratio", "independent", "ratio", "ms", "ms", "ms");
    for (place, case) in cases().iter().enumerate() {
        let [ours, single, theirs] = [1, 2, 3].map(|file| total(&folder.join(format!("count.{}", 3 * place + file))) as f64);
        let [ms, single_ms, theirs_ms] = case.works().map(|mut work| milliseconds(&mut *work));
        print!("{:<34}{ours:>14}{single:>14}{:>7.2}{theirs:>14}{:>7.2}", case.name, ours / single, ours / theirs);
        println!("{ms:>9.1}{single_ms:>9.1}{theirs_ms:>9.1}");
    }
}

/// The median.
fn milliseconds(work: &mut dyn FnMut()) -> f64 {
    let mut times = [(); TIMES].map(|()| {
        let start = Instant::now();
        work();
        start.elapsed()
    });
    times.sort();
    times[TIMES / 2].as_secs_f64() * 1000.0
}

#[cfg(test)]
mod tests {
    use super::*;

    #[test]
    fn the_shops_jobs_are_sound() {
        for case in cases() {
            let width = table_in(&case.record)[0] as usize;
            assert_eq!(accepted(width, case.list.cells(), case.list.words()).iter().map(|(_, times)| *times).sum::<u128>(), JOBS as u128);
        }
    }

    #[test]
    fn none_tries_fewer() {
        let random = &mut Random::new(1);
        for _ in 0..50 {
            let (read, cells) = small_table(random);
            let goals: Vec<Vec<u32>> = (0..8).map(|_| goals::any(random, &read)).collect();
            let found = Finding::new(&cells, &goals);
            assert!(found.fewest() <= found.liked.tried as f64 && found.liked.tried <= found.liked.plain);
            assert_eq!([found.tried_for(&[]), found.tried_for(&[0, 1, 2][..read.width])], [found.liked.plain; 2]);
        }
    }
}
