//! An engine whose entries can be replaced one by one, and what wrong entries share. No test needs all of it.
#![allow(dead_code)]

use std::ops::Range;

use dudowiej_bench::compare::{compare, Tally};
use dudowiej_bench::engine::{Engine, Plain};
use dudowiej_bench::model::least::Measure;
use dudowiej_bench::model::liked::Liked;
use dudowiej_bench::model::plan::{grow, Open};
use dudowiej_bench::model::read::read_table;
use dudowiej_bench::model::record::{figure_in, table_in, Record};
use dudowiej_bench::model::salvage::Report;

/// A comparison finds that something differs.
#[track_caller]
pub fn differs(tally: Tally) {
    assert!(tally.differ() > 0);
    assert!(!tally.passed());
}

/// The comparison of tables, plans and runs finds it.
pub fn found(wrong: Altered) {
    differs(compare(&wrong, 200, 1));
}

pub fn number(answer: u64) -> u64 {
    answer & 0xff
}

pub fn answered(answer: u64) -> bool {
    number(answer) == 0
}

/// How many hits a run answers.
pub fn hits(answer: u64) -> usize {
    (answer >> 16 & 0xffff) as usize
}

/// The refusal of a table or row.
pub fn refused(number: u64) -> u64 {
    number | 1 << 8
}

/// Writes the cells or bytes, and answers two values; or ROOM.
pub fn written<T: Copy>(room: &mut [T], cells: &[T], first: usize, second: usize) -> u64 {
    let Some(front) = room.get_mut(..cells.len()) else {
        return 16 | 4 << 8 | (cells.len() as u64) << 16;
    };
    front.copy_from_slice(cells);
    (first as u64) << 16 | (second as u64) << 32
}

/// Builds the plan that takes these places, whatever the record says.
pub fn built(record: &Record, room: &mut [u32], choose: fn(&Open, &Range<usize>) -> usize) -> u64 {
    let Ok(read) = read_table(table_in(record)) else {
        return Plain.build_plan(record, room);
    };
    let plan = grow(&read, |open, rows| choose(open, rows));
    let cells = plan.write();
    written(room, &cells, cells.len(), Measure::Work(figure_in(record)).cost(&plan))
}

pub struct Altered {
    pub read_table: fn(&[u32]) -> u64,
    pub work_out: fn(&[u32], u32, &mut Record) -> u64,
    pub append: fn(&mut Record, &[u32]) -> u64,
    pub drop_last: fn(&mut Record) -> u64,
    pub replace: fn(&mut Record, usize, &[u32]) -> u64,
    pub row: fn(&Record, usize) -> u64,
    pub check_plan: fn(&Record, &[u32]) -> u64,
    pub build_plan: fn(&Record, &mut [u32]) -> u64,
    pub run_plan: fn(&Record, &[u32], &[u32], &mut [u8]) -> u64,
    pub read_text: ReadText,
    pub replies: Replies,
    pub clauses: Clauses,
    pub write_file: WriteFile,
    pub read_file: ReadFile,
    pub salvage: Salvage,
    pub build_for: BuildFor,
    pub check_for: CheckFor,
    pub build_liked: BuildLiked,
}

pub type ReadText = fn(&[u8], &mut [u32], &mut [u32]) -> u64;
pub type Replies = fn(&Record, &[u32], &[u32], &mut [u32]) -> u64;
pub type Clauses = fn(&Record, &[u32], &[u8], &[u32], &mut [u8]) -> u64;
pub type WriteFile = fn(&Record, &[u32], &mut [u8]) -> u64;
pub type ReadFile = fn(&[u8], &mut [u32], &mut [u32]) -> u64;
pub type Salvage = fn(&[u8], &mut [u32], &mut [u32], &mut [usize], &mut Report) -> u64;
pub type BuildFor = fn(&Record, &[u32], &mut [u32]) -> u64;
pub type CheckFor = fn(&Record, &[u32], &[u32]) -> u64;
pub type BuildLiked = fn(&Record, &[u32], &[usize], &mut [u32], &mut Liked) -> u64;

pub const RIGHT: Altered = Altered {
    read_table: |table| Plain.read_table(table),
    work_out: |table, figure, record| Plain.work_out(table, figure, record),
    append: |record, row| Plain.append(record, row),
    drop_last: |record| Plain.drop_last(record),
    replace: |record, r, row| Plain.replace(record, r, row),
    row: |record, row| Plain.row(record, row),
    check_plan: |record, plan| Plain.check_plan(record, plan),
    build_plan: |record, room| Plain.build_plan(record, room),
    run_plan: |record, plan, goal, room| Plain.run_plan(record, plan, goal, room),
    read_text: |text, cells, names| Plain.read_text(text, cells, names),
    replies: |record, plan, goal, room| Plain.replies(record, plan, goal, room),
    clauses: |record, plan, text, names, room| Plain.clauses(record, plan, text, names, room),
    write_file: |record, plan, room| Plain.write_file(record, plan, room),
    read_file: |file, table, plan| Plain.read_file(file, table, plan),
    salvage: |file, table, plan, bad, report| Plain.salvage(file, table, plan, bad, report),
    build_for: |record, columns, room| Plain.build_for(record, columns, room),
    check_for: |record, columns, plan| Plain.check_for(record, columns, plan),
    build_liked: |record, goals, list, room, liked| Plain.build_liked(record, goals, list, room, liked),
};

impl Engine for Altered {
    fn read_table(&self, table: &[u32]) -> u64 {
        (self.read_table)(table)
    }
    fn work_out(&self, table: &[u32], figure: u32, record: &mut Record) -> u64 {
        (self.work_out)(table, figure, record)
    }
    fn append(&self, record: &mut Record, row: &[u32]) -> u64 {
        (self.append)(record, row)
    }
    fn drop_last(&self, record: &mut Record) -> u64 {
        (self.drop_last)(record)
    }
    fn replace(&self, record: &mut Record, r: usize, row: &[u32]) -> u64 {
        (self.replace)(record, r, row)
    }
    fn read_goal(&self, record: &Record, goal: &[u32]) -> u64 {
        Plain.read_goal(record, goal)
    }
    fn row(&self, record: &Record, row: usize) -> u64 {
        (self.row)(record, row)
    }
    fn check_plan(&self, record: &Record, plan: &[u32]) -> u64 {
        (self.check_plan)(record, plan)
    }
    fn build_plan(&self, record: &Record, room: &mut [u32]) -> u64 {
        (self.build_plan)(record, room)
    }
    fn run_plan(&self, record: &Record, plan: &[u32], goal: &[u32], room: &mut [u8]) -> u64 {
        (self.run_plan)(record, plan, goal, room)
    }
    fn read_text(&self, text: &[u8], cells: &mut [u32], names: &mut [u32]) -> u64 {
        (self.read_text)(text, cells, names)
    }
    fn replies(&self, record: &Record, plan: &[u32], goal: &[u32], room: &mut [u32]) -> u64 {
        (self.replies)(record, plan, goal, room)
    }
    fn clauses(&self, record: &Record, plan: &[u32], text: &[u8], names: &[u32], room: &mut [u8]) -> u64 {
        (self.clauses)(record, plan, text, names, room)
    }
    fn write_file(&self, record: &Record, plan: &[u32], room: &mut [u8]) -> u64 {
        (self.write_file)(record, plan, room)
    }
    fn read_file(&self, file: &[u8], table: &mut [u32], plan: &mut [u32]) -> u64 {
        (self.read_file)(file, table, plan)
    }
    fn salvage(&self, file: &[u8], table: &mut [u32], plan: &mut [u32], bad: &mut [usize], report: &mut Report) -> u64 {
        (self.salvage)(file, table, plan, bad, report)
    }
    fn build_for(&self, record: &Record, columns: &[u32], room: &mut [u32]) -> u64 {
        (self.build_for)(record, columns, room)
    }
    fn check_for(&self, record: &Record, columns: &[u32], plan: &[u32]) -> u64 {
        (self.check_for)(record, columns, plan)
    }
    fn build_liked(&self, record: &Record, goals: &[u32], list: &[usize], room: &mut [u32], liked: &mut Liked) -> u64 {
        (self.build_liked)(record, goals, list, room, liked)
    }
}
