//! Stack: the most that each entry touches, over the inputs that take it deepest and inputs that are refused on the way.

mod touched;

use std::hint::black_box;

use crate::asking::Asking;
use crate::branches::{flat, with_argument};
use crate::cases::SEED;
use crate::compare::clauses::most_clauses;
use crate::engine::{Engine, Exported};
use crate::make::cards::wipe;
use crate::make::lists::List;
use crate::make::names::{entry, letters};
use crate::make::tables::{longest_replies, table, Kind};
use crate::make::{big, goals, records};
use crate::model::asking::GOAL_BYTES;
use crate::model::files::{filled, sealed, BLOCK_BYTES, BLOCK_CELLS, FILE_BYTES};
use crate::model::least::least;
use crate::model::liked::Liked;
use crate::model::plan::{grow, PLAN_CELLS};
use crate::model::read::{read_table, Table, ROW_CELLS, TABLE_CELLS};
use crate::model::record::{drop_last, put_table, Record, MOST_FIGURE};
use crate::model::salvage::Report;
use crate::random::Random;
use crate::reply_shift::{ReplyJob, ReplyShift};
use crate::shift::{Job, Shift};
use crate::texts::{measured_texts, ROOM};
use touched::touched;

const ROWS: usize = 64;

/// Lists of columns: none, the first, the last of the widest table, those between, and one that no table has.
const COLUMNS: [&[u32]; 5] = [&[], &[0], &[7], &[6, 5, 4, 3, 2, 1], &[8]];

/// Measures every entry on every input and prints the most of each.
pub fn stack() {
    let mut most = Most(Vec::new());
    for table in full_tables() {
        let read = read_table(&table).expect("a sound table");
        let (plans, goals) = (plans(&read), goals(&read, &table));
        let sound = records::worked_out(&table, MOST_FIGURE);
        let last = row_of(&read, &table, ROWS - 1);
        most.of_edits(&sound, &last);
        most.of_edits(&records::holding(&mut Random::new(SEED), &table), &last);
        for table in refused_too(table.clone()) {
            most.of_table(&table);
            let mut record = sound.clone();
            put_table(&mut record, &table, MOST_FIGURE);
            most.of_record(&record, &plans, &goals);
            most.of_clauses(&record, &plans);
            most.of_files(&record, &table, &plans[..1]);
            most.of_cards(&table, &plans[..1]);
        }
        most.of_files(&sound, &table, &plans);
        most.of_cards(&table, &plans);
    }
    for (table, goal) in [longest_replies(), big::million(ROWS), deep_terms(), deep_search()] {
        let plans = plans(&read_table(&table).expect("a sound table"));
        most.of_record(&records::worked_out(&table, MOST_FIGURE), &plans, &[goal]);
        most.of_clauses(&records::worked_out(&table, MOST_FIGURE), &plans);
    }
    let table = most_clauses();
    most.of_clauses(&records::worked_out(&table, MOST_FIGURE), &plans(&read_table(&table).expect("a sound table")));
    for (_, text) in measured_texts() {
        most.of_text(&text);
        most.of_asking(&text);
    }
    println!("Bytes of stack that a call touches below its caller's frame, the most over all inputs");
    for (entry, bytes) in most.0 {
        println!("{entry:<22}{bytes:>8}");
    }
}

/// Each entry with the most that was seen of it.
struct Most(Vec<(&'static str, usize)>);

impl Most {
    fn of_table(&mut self, table: &[u32]) {
        self.note("dudowiej_read_table", || Exported.read_table(table));
        let mut record = records::empty();
        for figure in [0, MOST_FIGURE, MOST_FIGURE + 1] {
            self.note("dudowiej_work_out", || Exported.work_out(table, figure, &mut record));
        }
    }

    /// Edits of a record with 64 rows, and of it without the last; with a row, sound and refused.
    fn of_edits(&mut self, full: &Record, row: &[u32]) {
        let mut shorter = records::boxed(full.to_vec());
        drop_last(&mut shorter).expect("there are more rows");
        let mut record = records::empty();
        for before in [full, &*shorter] {
            let mut note = |entry, edit: &dyn Fn(&mut Record) -> u64| {
                self.note(entry, || {
                    record.copy_from_slice(before);
                    edit(&mut record)
                });
            };
            note("dudowiej_drop_last", &|record| Exported.drop_last(record));
            for row in refused_too(row.to_vec()) {
                note("dudowiej_append", &|record| Exported.append(record, &row));
                for r in [0, ROWS / 2, ROWS - 2, ROWS - 1, ROWS] {
                    note("dudowiej_replace", &|record| Exported.replace(record, r, &row));
                }
            }
        }
    }

    fn of_record(&mut self, record: &Record, plans: &[Vec<u32>], goals: &[Vec<u32>]) {
        for goal in goals {
            self.note("dudowiej_read_goal", || Exported.read_goal(record, goal));
        }
        for row in [0, ROWS - 1, ROWS] {
            self.note("dudowiej_row", || Exported.row(record, row));
        }
        for plan in plans {
            self.note("dudowiej_check_plan", || Exported.check_plan(record, plan));
            for columns in COLUMNS {
                self.note("dudowiej_check_for", || Exported.check_for(record, columns, plan));
            }
        }
        for cells in [PLAN_CELLS, 0] {
            let mut room = vec![0; cells];
            self.note("dudowiej_build_plan", || Exported.build_plan(record, &mut room));
            for columns in COLUMNS {
                self.note("dudowiej_build_for", || Exported.build_for(record, columns, &mut room));
            }
            for list in [List::of(goals), List::of(&[])] {
                let mut liked = Liked::default();
                self.note("dudowiej_build_liked", || Exported.build_liked(record, list.cells(), list.words(), &mut room, &mut liked));
            }
        }
        for (plan, goal) in plans.iter().flat_map(|plan| goals.iter().map(move |goal| (plan, goal))) {
            for bytes in [ROWS, 0] {
                let mut room = vec![0; bytes];
                self.note("dudowiej_run_plan", || Exported.run_plan(record, plan, goal, &mut room));
            }
            for cells in [ROWS * 1024, 0] {
                let mut room = vec![0; cells];
                self.note("dudowiej_replies", || Exported.replies(record, plan, goal, &mut room));
                let mut jobs = [ReplyJob { count: goal.len(), ..ReplyJob::default() }];
                self.note("dudowiej_reply_jobs", || Exported.reply_jobs(record, plan, goal, &mut jobs, &mut room));
            }
            let mut jobs = [Job { count: goal.len(), ..Job::default() }];
            self.note("dudowiej_run_jobs", || Exported.run_jobs(record, plan, goal, &mut jobs));
        }
    }

    /// With a list that has every name, in more room than is needed and in none; and with one that has none, and one with an entry past the text.
    fn of_clauses(&mut self, record: &Record, plans: &[Vec<u32>]) {
        let all = letters();
        let past = [&all.names[..], &[entry(0, 0xffff)]].concat();
        let mut note = |plan: &[u32], names: &[u32], bytes: usize| {
            let mut room = vec![0; bytes];
            self.note("dudowiej_clauses", || Exported.clauses(record, plan, &all.text, names, &mut room));
        };
        for plan in plans {
            note(plan, &all.names, 1 << 16);
            note(plan, &all.names, 0);
        }
        note(&plans[0], &past, 1 << 16);
        note(&plans[0], &[], 1 << 16);
    }

    /// Each plan written in room enough and in none; the file of the table and each plan, whatever they are, read in rooms enough, with none for the
    /// plan and with none; and the file cut, spoiled at its end, with a cell that is no padding, and with a block more.
    fn of_files(&mut self, record: &Record, table: &[u32], plans: &[Vec<u32>]) {
        for plan in plans {
            for bytes in [FILE_BYTES, 0] {
                let mut room = vec![0; bytes];
                self.note("dudowiej_write_file", || Exported.write_file(record, plan, &mut room));
            }
            let mut cells = filled(table, plan);
            let file = sealed(&cells);
            let mut spoiled = file.clone();
            *spoiled.last_mut().expect("there are blocks") ^= 1;
            *cells.last_mut().expect("there are cells") ^= 1;
            let padded = sealed(&cells);
            cells.resize(cells.len() + BLOCK_CELLS, 0);
            for file in [&file, &file[..file.len() - 1], &spoiled, &padded, &sealed(&cells)] {
                for (table, plan) in [(TABLE_CELLS, PLAN_CELLS), (TABLE_CELLS, 0), (0, 0)] {
                    let (mut table, mut plan) = (vec![0; table], vec![0; plan]);
                    self.note("dudowiej_read_file", || Exported.read_file(file, &mut table, &mut plan));
                }
            }
        }
    }

    /// The file of the table and each plan, whatever they are, saved as it is, with a block wiped or all but the first, cut, and with bytes behind it;
    /// in rooms enough, with no list, with no room for the plan and with none.
    fn of_cards(&mut self, table: &[u32], plans: &[Vec<u32>]) {
        for plan in plans {
            let file = sealed(&filled(table, plan));
            let last = file.len() / BLOCK_BYTES - 1;
            let wiped = |which: &dyn Fn(usize) -> bool| {
                let mut file = file.clone();
                wipe(&mut file, which);
                file
            };
            let [head, middle, end, rest] =
                [wiped(&|block| block == 0), wiped(&|block| block == last / 8 + 1), wiped(&|block| block == last), wiped(&|block| block > 0)];
            let longer = [&file[..], &[0; 5000]].concat();
            for file in [&file, &file[..file.len() - 1], &head, &middle, &end, &rest, &longer] {
                for (table, plan, bad) in [(TABLE_CELLS, PLAN_CELLS, 100), (TABLE_CELLS, PLAN_CELLS, 0), (TABLE_CELLS, 0, 0), (0, 0, 0)] {
                    let (mut table, mut plan, mut bad, mut report) = (vec![0; table], vec![0; plan], vec![0; bad], Report::default());
                    self.note("dudowiej_salvage", || Exported.salvage(file, &mut table, &mut plan, &mut bad, &mut report));
                }
            }
        }
    }

    /// The text as it is, cut, and with a byte at its end that no text has; rooms of no size, of one cell, of a table's and larger than all.
    fn of_text(&mut self, text: &[u8]) {
        let damaged = [&text[..text.len() - 1], b"\t"].concat();
        for text in [text, &text[..text.len() - 1], &damaged] {
            for (cells, names) in [(0, 0), (TABLE_CELLS, 0), (TABLE_CELLS, TABLE_CELLS), (ROOM, 0), (ROOM, 1), (ROOM, TABLE_CELLS), (ROOM, ROOM)] {
                let (mut cells, mut names) = (vec![0; cells], vec![0; names]);
                self.note("dudowiej_read_text", || Exported.read_text(text, &mut cells, &mut names));
            }
        }
    }

    /// The text as facts, as a goal for itself and as one for other facts, cut too, and with a list of too many names; as many names said one in
    /// another as an answer may have, and one more. In room enough and in none.
    fn of_asking(&mut self, text: &[u8]) {
        let (names, short, other) = ([2 << 16; 2049], &b"p(a)"[..], &b"p(a)."[..]);
        let shorter = text.len().min(GOAL_BYTES);
        for (facts, goal) in [(text, text), (text, &text[..shorter]), (text, short), (other, text), (other, &text[..shorter]), (other, short)] {
            for room in [32, 0] {
                let (mut cells, mut new) = (vec![0; room], vec![0; room]);
                for names in [&names[..2048], &names] {
                    self.note("dudowiej_read_goal_text", || Exported.read_goal_text(facts, names, goal, &mut cells, &mut new));
                }
                let mut room = vec![0; 4096 * room];
                for cells in [&[with_argument(2050); 1025][1..], &[with_argument(0); 1025], &[]] {
                    self.note("dudowiej_put_answer", || Exported.put_answer(facts, &names[..2048], goal, &names, cells, &mut room));
                }
            }
        }
    }

    fn note(&mut self, entry: &'static str, mut call: impl FnMut() -> u64) {
        let bytes = touched(|| {
            black_box(call());
        });
        match self.0.iter_mut().find(|(other, _)| *other == entry) {
            None => self.0.push((entry, bytes)),
            Some((_, most)) => *most = bytes.max(*most),
        }
    }
}

/// Tables of 64 rows of 32 cells. A plan closes one cell of a row at a time, so every plan for them is 32 branches deep, and none is deeper.
fn full_tables() -> [Vec<u32>; 4] {
    let random = |width| table(&mut Random::new(SEED), Kind::Full(width), ROWS);
    [chains(|_| 0), chains(|row| row), random(8), random(1)]
}

/// One column of names nested one in another, named by the row's number, and in each row another leaf.
fn chains(name: fn(u32) -> u32) -> Vec<u32> {
    let mut cells = vec![1, ROWS as u32];
    for row in 0..ROWS as u32 {
        cells.extend([with_argument(name(row)); ROW_CELLS - 1]);
        cells.push(flat(row));
    }
    cells
}

/// The row (f1(..f1(v0)),v0,f1(..f1(v1)),v1,v2,v2) and a goal that makes the last two columns terms of 26 names one in another, apart from each
/// other: a later meeting goes down both.
fn deep_terms() -> (Vec<u32>, Vec<u32>) {
    let chain = |names: usize, leaf: u32| [vec![with_argument(1); names], vec![leaf]].concat();
    let row = [chain(13, 0), vec![0], chain(13, 1), vec![1, 2, 2]].concat();
    let goal = [vec![0], chain(12, flat(1)), vec![1], chain(12, flat(1)), vec![0, 1]].concat();
    ([vec![6, 1], row].concat(), goal)
}

/// The row (f1(..f1(v0)),v0,v1,v1) and a goal that makes the first column a term of 55 names one in another, with which the last is met.
fn deep_search() -> (Vec<u32>, Vec<u32>) {
    let chain = |names: usize, leaf: u32| [vec![with_argument(1); names], vec![leaf]].concat();
    let row = [chain(28, 0), vec![0, 1, 1]].concat();
    let goal = [vec![0], chain(27, 1), vec![0, 2]].concat();
    ([vec![4, 1], row].concat(), goal)
}

/// The cells as they are; with one less, with one more and with the last one changed; and none.
fn refused_too(cells: Vec<u32>) -> [Vec<u32>; 5] {
    let [mut cut, mut longer, mut changed] = [(); 3].map(|()| cells.clone());
    cut.pop();
    longer.push(0);
    *changed.last_mut().expect("there are cells") ^= 1 << 29;
    [cells, cut, longer, changed, Vec::new()]
}

/// The builder's plan, that of the first open places and that of the last, each refused too; and one that is too long.
fn plans(table: &Table) -> Vec<Vec<u32>> {
    let sound = [least(table), grow(table, |_, _| 0), grow(table, |open, rows| open.places(rows) - 1)];
    let mut plans: Vec<Vec<u32>> = sound.iter().flat_map(|plan| refused_too(plan.write())).collect();
    plans.push(vec![0; PLAN_CELLS + 1]);
    plans
}

/// The goal of distinct variables, the last row, and the first, which is refused too.
fn goals(table: &Table, cells: &[u32]) -> Vec<Vec<u32>> {
    let mut goals = vec![goals::open(table.width), row_of(table, cells, ROWS - 1)];
    goals.extend(refused_too(row_of(table, cells, 0)));
    goals
}

fn row_of(table: &Table, cells: &[u32], row: usize) -> Vec<u32> {
    cells[table.rows[row].start..][..table.rows[row].cells].to_vec()
}

#[cfg(test)]
mod tests {
    use super::*;
    use crate::model::plan::check;

    #[test]
    fn plans_are_as_deep_as_can_be() {
        for table in full_tables() {
            let read = read_table(&table).expect("a sound table");
            let deepest = |plan: &Vec<u32>| check(&read, plan).ok().and_then(|plan| plan.branches.iter().map(|branch| branch.depth() + 1).max());
            let depths: Vec<Option<usize>> = plans(&read).iter().map(deepest).collect();
            let [sound, refused] = [Some(ROW_CELLS), None];
            assert_eq!(depths, [[sound, refused, refused, refused, refused].repeat(3), vec![refused]].concat());
        }
    }
}
