//! What is measured, in time and in instructions: the exported functions beside the independent ones on the same inputs.

use std::hint::black_box;

use crate::engine::{Engine, Exported, Plain};
use crate::make::tables::{table, Kind};
use crate::make::{goals, records};
use crate::model::least::{least, least_by, Measure as By};
use crate::model::plan::{check, Plan, PLAN_CELLS};
use crate::model::read::{read_goal, read_table, Goal, Table};
use crate::model::record::Record;
use crate::model::walk::{in_turn, walk};
use crate::random::Random;

pub const SEED: u64 = 64;

pub const KINDS: [(&str, Kind); 5] =
    [("shop", Kind::Shop), ("nested", Kind::Nested), ("blank", Kind::Blank), ("full, 8 columns", Kind::Full(8)), ("full, 1 column", Kind::Full(1))];

/// The figure that tables are worked out with where that is measured.
pub const FIGURE: u32 = 0;

/// The numbers of rows, the last one for the ratios.
pub const ROWS: [usize; 4] = [8, 16, 32, 64];

/// A table with its record and its least plan by 01's measure, and goals by their sorts.
pub struct Case {
    pub table: Vec<u32>,
    pub record: Box<Record>,
    pub plan: Vec<u32>,
    pub goals: Vec<(&'static str, Vec<Vec<u32>>)>,
    pub read: Table,
    tree: Plan,
}

impl Case {
    /// Goals of three sorts: instances of rows, rows with some parts blank, and the goal of distinct variables.
    pub fn new(kind: Kind, rows: usize) -> Case {
        let random = &mut Random::new(SEED);
        Case::of(table(random, kind, rows), |table| {
            vec![
                ("instances", (0..16).map(|_| goals::instance(random, table)).collect()),
                ("part blank", (0..16).map(|_| goals::general(random, table)).collect()),
                ("open", vec![goals::open(table.width)]),
            ]
        })
    }

    /// One goal alone.
    pub fn with_goal(table: Vec<u32>, goal: Vec<u32>) -> Case {
        Case::of(table, |_| vec![("one goal", vec![goal])])
    }

    fn of(table: Vec<u32>, goals: impl FnOnce(&Table) -> Vec<(&'static str, Vec<Vec<u32>>)>) -> Case {
        let read = read_table(&table).expect("a sound table");
        let tree = least(&read);
        Case { plan: tree.write(), record: records::worked_out(&table, FIGURE), table, goals: goals(&read), read, tree }
    }

    /// The case in one line.
    pub fn title(&self) -> String {
        let (rows, width) = (self.read.rows.len(), self.read.width);
        format!("{rows} rows of width {width}, {} cells; plan of {} branches, {} cells", self.table.len(), self.tree.branches.len(), self.plan.len())
    }

    /// The branches that the walks of its goals try together.
    pub fn tried(&self) -> usize {
        let goals = self.goals.iter().flat_map(|(_, goals)| goals);
        goals.map(|goal| walk(&self.tree, &self.goal(goal), &mut Vec::new())).sum()
    }

    /// The walks alone, for each sort of goals.
    pub fn walks(&self) -> Vec<Measure<'_>> {
        self.goals.iter().map(|(sort, goals)| self.walking(sort, goals)).collect()
    }

    /// The whole calls for hits and for replies, for each sort of goals.
    pub fn answers(&self) -> Vec<Measure<'_>> {
        self.goals.iter().flat_map(|(sort, goals)| [self.running(sort, goals), self.replying(sort, goals)]).collect()
    }

    pub fn measures(&self) -> Vec<Measure<'_>> {
        let mut measures = vec![self.reading(), self.checking(), self.checking_read()];
        measures.extend([self.working_out(), self.building(), self.building_anew(), self.building_read()]);
        for (sort, goals) in &self.goals {
            measures.push(self.running(sort, goals));
            measures.push(self.walking(sort, goals));
            measures.push(self.walking_read(sort, goals));
            measures.push(self.against_rows_in_turn(sort, goals));
            measures.push(self.against_rows_in_turn_from_cells(sort, goals));
        }
        measures
    }

    // What the exported functions do.

    fn read(&self) -> Work<'_> {
        once(|| Exported.read_table(&self.table))
    }

    fn check(&self) -> Work<'_> {
        once(|| Exported.check_plan(&self.record, &self.plan))
    }

    fn work_out(&self) -> Work<'_> {
        let mut record = records::empty();
        once(move || Exported.work_out(&self.table, FIGURE, &mut record))
    }

    fn build(&self) -> Work<'_> {
        let mut room = vec![0; PLAN_CELLS];
        once(move || Exported.build_plan(&self.record, &mut room))
    }

    fn run<'c>(&'c self, goals: &'c [Vec<u32>]) -> Work<'c> {
        let mut room = [0; 64];
        each(goals, move |goal| Exported.run_plan(&self.record, &self.plan, goal, &mut room))
    }

    /// What a run does before it reads the goal: table and plan are checked, the plan's branches noted. A goal of no cells is refused then.
    fn prepare(&self) -> Work<'_> {
        let mut room = [0; 64];
        once(move || Exported.run_plan(&self.record, &self.plan, &[], &mut room))
    }

    fn read_goal<'c>(&'c self, goals: &'c [Vec<u32>]) -> Work<'c> {
        each(goals, |goal| Exported.read_goal(&self.record, goal))
    }

    // The measures.

    fn reading(&self) -> Measure<'_> {
        Measure::new("read", vec![self.read()], vec![], once(|| Plain.read_table(&self.table)))
    }

    fn checking(&self) -> Measure<'_> {
        Measure::new("check", vec![self.check()], vec![], once(|| Plain.check_plan(&self.record, &self.plan)))
    }

    /// The check less the reading of the table, against the independent check for a table that is read.
    fn checking_read(&self) -> Measure<'_> {
        let independent = once(|| check(&self.read, &self.plan).map_or(0, |plan| plan.branches.len() as u64));
        Measure::new("check less read", vec![self.check()], vec![self.read()], independent)
    }

    fn working_out(&self) -> Measure<'_> {
        let mut record = records::empty();
        Measure::new("work out", vec![self.work_out()], vec![], once(move || Plain.work_out(&self.table, FIGURE, &mut record)))
    }

    /// From the record; the independent builder goes by its table and figure alone, here and below.
    fn building(&self) -> Measure<'_> {
        Measure::new("build", vec![self.build()], vec![], self.independent_build())
    }

    fn building_anew(&self) -> Measure<'_> {
        Measure::new("work out and build", vec![self.work_out(), self.build()], vec![], self.independent_build())
    }

    /// The same less the reading of the table, which both calls do.
    fn building_read(&self) -> Measure<'_> {
        let independent = once(|| least_by(&self.read, By::Work(FIGURE)).write().len() as u64);
        Measure::new("work out and build less read", vec![self.work_out(), self.build()], vec![self.read(), self.read()], independent)
    }

    fn independent_build(&self) -> Work<'_> {
        let mut room = vec![0; PLAN_CELLS];
        once(move || Plain.build_plan(&self.record, &mut room))
    }

    /// The whole call: table and plan are checked in it, on both sides.
    fn running<'c>(&'c self, sort: &str, goals: &'c [Vec<u32>]) -> Measure<'c> {
        let mut room = [0; 64];
        let independent = each(goals, move |goal| Plain.run_plan(&self.record, &self.plan, goal, &mut room));
        Measure::new(format!("run, {sort}"), vec![self.run(goals)], vec![], independent)
    }

    /// The replies of every goal, in as much room as can be needed.
    fn replying<'c>(&'c self, sort: &str, goals: &'c [Vec<u32>]) -> Measure<'c> {
        let [mut room, mut theirs] = [(); 2].map(|()| vec![0; 64 * 1024]);
        let exported = each(goals, move |goal| Exported.replies(&self.record, &self.plan, goal, &mut room));
        let independent = each(goals, move |goal| Plain.replies(&self.record, &self.plan, goal, &mut theirs));
        Measure::new(format!("replies, {sort}"), vec![exported], vec![], independent)
    }

    /// The run less what it does before it reads the goal, against reading the goal and walking down the same plan.
    fn walking<'c>(&'c self, sort: &str, goals: &'c [Vec<u32>]) -> Measure<'c> {
        let mut hits = Vec::with_capacity(64);
        let independent = each(goals, move |goal| walked(&self.tree, &self.goal(goal), &mut hits));
        Measure::new(format!("walk, {sort}"), vec![self.run(goals)], vec![self.prepare()], independent)
    }

    /// The same without the reading of the goal: for the exported side, read_goal less read_table is taken off too.
    fn walking_read<'c>(&'c self, sort: &str, goals: &'c [Vec<u32>]) -> Measure<'c> {
        let read: Vec<Goal> = goals.iter().map(|goal| self.goal(goal)).collect();
        let mut hits = Vec::with_capacity(64);
        let work = move || {
            for goal in &read {
                black_box(walked(&self.tree, black_box(goal), &mut hits));
            }
        };
        let independent = Work { calls: goals.len(), work: Box::new(work) };
        let (more, less) = (vec![self.run(goals), self.read()], vec![self.prepare(), self.read_goal(goals)]);
        Measure::new(format!("walk less goal, {sort}"), more, less, independent)
    }

    /// The same, against reading the goal and unifying every row of a table that is read.
    fn against_rows_in_turn<'c>(&'c self, sort: &str, goals: &'c [Vec<u32>]) -> Measure<'c> {
        let mut hits = Vec::with_capacity(64);
        let independent = each(goals, move |goal| {
            hits.clear();
            in_turn(&self.read.rows, &self.goal(goal), &mut hits);
            hits.len() as u64
        });
        Measure::new(format!("walk to rows in turn, {sort}"), vec![self.run(goals)], vec![self.prepare()], independent)
    }

    /// The whole call, against reading table and goal and unifying every row.
    fn against_rows_in_turn_from_cells<'c>(&'c self, sort: &str, goals: &'c [Vec<u32>]) -> Measure<'c> {
        let mut hits = Vec::with_capacity(64);
        let independent = each(goals, move |goal| {
            hits.clear();
            let table = read_table(&self.table).expect("a sound table");
            in_turn(&table.rows, &self.goal(goal), &mut hits);
            hits.len() as u64
        });
        Measure::new(format!("run to rows in turn, {sort}"), vec![self.run(goals)], vec![], independent)
    }

    fn goal(&self, cells: &[u32]) -> Goal {
        read_goal(self.read.width, cells).expect("a sound goal")
    }
}

fn walked(plan: &Plan, goal: &Goal, hits: &mut Vec<u8>) -> u64 {
    hits.clear();
    walk(plan, goal, hits) as u64
}

/// One line of figures. The exported side: some works, less others that they contain. The independent side: one work.
pub struct Measure<'c> {
    pub name: String,
    pub more: Vec<Work<'c>>,
    pub less: Vec<Work<'c>>,
    pub independent: Work<'c>,
}

impl<'c> Measure<'c> {
    fn new(name: impl Into<String>, more: Vec<Work<'c>>, less: Vec<Work<'c>>, independent: Work<'c>) -> Measure<'c> {
        Measure { name: name.into(), more, less, independent }
    }

    /// The figure for a call of the exported side and of the independent side, from a figure for each work.
    pub fn figures(&mut self, mut figure: impl FnMut(&mut Work<'c>) -> f64) -> (f64, f64) {
        let mut for_a_call = |work: &mut Work<'c>| figure(work) / work.calls as f64;
        let more: f64 = self.more.iter_mut().map(&mut for_a_call).sum();
        let less: f64 = self.less.iter_mut().map(&mut for_a_call).sum();
        (more - less, for_a_call(&mut self.independent))
    }
}

/// Some calls, made by `work` each time it is called.
pub struct Work<'c> {
    pub calls: usize,
    pub work: Box<dyn FnMut() + 'c>,
}

fn once<'c>(mut call: impl FnMut() -> u64 + 'c) -> Work<'c> {
    let work = move || {
        black_box(call());
    };
    Work { calls: 1, work: Box::new(work) }
}

fn each<'c>(goals: &'c [Vec<u32>], mut call: impl FnMut(&[u32]) -> u64 + 'c) -> Work<'c> {
    let work = move || {
        for goal in goals {
            black_box(call(black_box(goal)));
        }
    };
    Work { calls: goals.len(), work: Box::new(work) }
}
