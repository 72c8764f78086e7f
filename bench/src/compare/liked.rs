//! The plan that a list of goals likes best: examples with what is found written down, then random tables, lists, figures, records and rooms. What
//! is expected is found by all sets of columns; on small tables it is held against the records of the list added up, and against the fewest branches
//! that any plan makes the list try.

use super::likings::Liking;
use super::{lend, Comparison, Entry, FIGURES, MARGIN, SHORT};
use crate::engine::{Definition, Engine};
use crate::make::lists::{self, List};
use crate::make::{damage, goals, records, tables};
use crate::model::liked::{accepted, by_walk, fewest, lend as lend_to, sets, Liked, Sets};
use crate::model::plan::PLAN_CELLS;
use crate::model::read::{read_table, ROWS, ROW_CELLS};
use crate::model::record::{figure_in, table_in, Record, MOST_FIGURE};
use crate::model::refusal::{packed, Refusal};
use crate::model::run::tried;
use crate::notation::{goal, name, plan, table};
use crate::shift::{Job, Shift};

/// Rows, a figure and goals; the columns that are liked best with the plan and its cost, and what is tried by it and by the plain plan.
pub struct Example {
    pub rows: &'static str,
    pub figure: u32,
    pub goals: &'static [&'static str],
    pub columns: usize,
    pub plan: &'static str,
    pub cost: usize,
    pub tried: usize,
    pub plain: usize,
}

const TWO: &str = "(a,b) (a,c)";
const FOUR: &str = "(a,c) (b,c) (a,d) (b,d)";
const AGREED: &str = "(a,b) (b,b) (c,b)";
const THREE: &str = "(a,b,c) (a,c,c) (b,b,d)";
const BY_FIRST: &str = "0 4 a 0 1 c 1 b 0 1 c 1 a 0 1 d 1 b 0 1 d 1";
const BY_SECOND: &str = "1 2 c 0 2 a 1 b 1 d 0 2 a 1 b 1";

const fn example(rows: &'static str, figure: u32, goals: &'static [&'static str], found: [usize; 3], plan: &'static str, cost: usize) -> Example {
    let [columns, tried, plain] = found;
    Example { rows, figure, goals, columns, plan, cost, tried, plain }
}

pub const EXAMPLES: [Example; 14] = [
    example(TWO, 0, &[], [0, 0, 0], "0 1 a 0 2 b 1 c 1", 3),
    // Where all goals fail in the second column, the first need not be looked at.
    example(TWO, 0, &["(a,d)", "(a,d)", "(a,d)"], [2, 6, 9], "1 2 b 0 1 a 1 c 0 1 a 1", 4),
    // A goal that is refused adds nothing.
    example(TWO, 0, &["(a)", "(a,d)", "(v1,v0)", "(a,b,c)"], [2, 2, 3], "1 2 b 0 1 a 1 c 0 1 a 1", 4),
    example(TWO, 15, &["(a)", "(v1,v0)"], [0, 0, 0], "0 1 a 0 2 b 1 c 1", 18),
    // As many tried: the plain plan.
    example(FOUR, 0, &["(a,v0)"], [0, 6, 6], BY_SECOND, 6),
    example(FOUR, 0, &["(v0,c)"], [0, 4, 4], BY_SECOND, 6),
    example(FOUR, 0, &["(d,v0)"], [1, 4, 6], BY_FIRST, 8),
    example(FOUR, 0, &["(d,v0)", "(v0,c)"], [0, 10, 10], BY_SECOND, 6),
    // With figure 2 the plain plan is another, and has more branches.
    example(FOUR, 2, &["(v0,c)"], [2, 4, 8], BY_SECOND, 12),
    example(FOUR, 2, &["(v0,v1)"], [2, 6, 8], BY_SECOND, 12),
    example(AGREED, 0, &["(d,b)"], [1, 3, 4], "0 3 a 0 1 b 1 b 0 1 b 1 c 0 1 b 1", 6),
    example(AGREED, 0, &["(d,b)", "(a,c)"], [0, 5, 5], "1 1 b 0 3 a 1 b 1 c 1", 4),
    // With the last two columns as few are tried, by another plan.
    example(THREE, 0, &["(v0,v1,a)"], [4, 2, 5], "2 2 c 0 1 a 0 2 b 1 c 1 d 0 1 b 0 1 b 1", 7),
    example(THREE, 0, &["(v0,d,v1)"], [2, 3, 6], "1 3 b 0 1 a 0 1 c 1 c 0 1 a 0 1 c 1 b 0 1 b 0 1 d 1", 9),
];

impl<E: Engine> Comparison<'_, E> {
    pub(super) fn fixed_liked(&mut self) {
        for example in &EXAMPLES {
            self.liked_example(example);
        }
        for figure in (0..=17).chain([1 << 31, u32::MAX]) {
            self.liked_in_all_rooms(&table(THREE), figure, &of_texts(&["(v0,e,v1)", "(a,v0,c)"]));
            self.liked_in_all_rooms(&table(THREE)[..8], figure, &of_texts(&["(v0,e,v1)"]));
        }
        self.liked_past_the_cells();
        self.liked_by_each_column();
    }

    fn liked_example(&mut self, example: &Example) {
        let (cells, list) = (table(example.rows), of_texts(example.goals));
        let mut room = vec![0; PLAN_CELLS];
        let mut liked = Liked::default();
        let found = sets(&cells, example.figure, list.cells(), list.words(), tried);
        let answer = lend_to(&found, &mut room, &mut liked);
        let plan = plan(example.plan);
        let same = answer == Ok((plan.len(), example.cost))
            && room.starts_with(&plan)
            && liked == Liked { columns: example.columns, tried: example.tried, plain: example.plain };
        let describe = || format!("{} {:?}: {answer:?} {liked:?} {:?}", example.rows, example.goals, &room[..40]);
        self.tally.own("plans that lists like best against what is written down", same, &describe);
        self.liked_in_all_rooms(&cells, example.figure, &list);
        self.liked_in_all_rooms(&cells, example.figure, &list.odd(0, cells[0] as usize));
    }

    /// Goals that reach past the lent cells, by one and by far, and an odd word; what stands behind would be sound.
    fn liked_past_the_cells(&mut self) {
        let texts = of_texts(&["(v0,c)", "(e,v0)", "(e,v0)"]);
        let near = [(0, 2), (2, 2), (4, 2), (4, 1), (6, 0), (6, 1), (7, 0)];
        let far = [(0, usize::MAX), (usize::MAX, 1), (usize::MAX, usize::MAX), (1 << 32, 2), (2, 1 << 32 | 2), (usize::MAX - 1, 4)];
        for cut in 0..=6 {
            for (start, count) in near.into_iter().chain(far) {
                let words = [texts.words(), &[start, count]].concat();
                let list = List::new(texts.cells().to_vec(), words).cut(cut);
                self.liked_in_all_rooms(&table(FOUR), 0, &list);
                self.liked_in_all_rooms(&table(FOUR), 0, &list.odd(start, count));
            }
        }
    }

    /// Eight columns, and goals that know one or two of them and fail there.
    fn liked_by_each_column(&mut self) {
        let cells = table("(a,b,c,d,e,f,g,h) (a,a,b,b,c,c,d,d) (b,a,c,b,d,c,e,d)");
        for (column, other) in (0..8).map(|column| (column, column)).chain([(0, 7), (6, 7), (2, 5)]) {
            let mut goal = goals::open(8);
            goal[column] = name('z', 0);
            goal[other] = name('z', 0);
            let mut met = 0..;
            let goal = goal.iter().map(|&cell| if cell < 8 { met.next().expect("numbers do not end") } else { cell }).collect();
            let record = records::worked_out(&cells, 0);
            self.liked_in_some_room(&record, &List::of(&[goal]));
        }
    }

    /// 64 rows of 32 cells and one row, of one column and of eight, with goals of all sorts.
    pub(super) fn liked_full(&mut self) {
        for (width, rows, goals) in [(1, 64, 300), (8, 64, 12), (8, 1, 12), (1, 1, 12), (8, 6, 300)] {
            let cells = tables::sometimes_repeated(&mut self.random, tables::Kind::Full(width), rows);
            let read = read_table(&cells).expect("a sound table");
            let goals: Vec<Vec<u32>> = (0..goals).map(|_| goals::any(&mut self.random, &read)).collect();
            let mut record = records::holding(&mut self.random, &cells);
            record[1] = *self.random.pick(&FIGURES[..4]);
            self.liked_in_some_room(&record, &List::of(&goals));
        }
    }

    /// So many goals of distinct variables that what they try takes more than 32 bits: rows of 32 cells that have nothing in common.
    pub(super) fn liked_by_many(&mut self) {
        let chain = |row: u32| [vec![name('f', 1) + row; ROW_CELLS - 1], vec![name('a', 0)]].concat();
        let cells = [vec![1, ROWS as u32], (0..ROWS as u32).flat_map(chain).collect()].concat();
        let goals = (1 << 32) / (ROWS * ROW_CELLS) + 1;
        let record = records::worked_out(&cells, MOST_FIGURE);
        self.liked_in_some_room(&record, &List::new(vec![0], [0, 1].repeat(goals)));
    }

    /// A table, sound or damaged, with lists, and for each some records and rooms.
    pub(super) fn random_liked(&mut self) {
        let mut cells = tables::any(&mut self.random);
        let mut read = read_table(&cells).expect("a sound table");
        let sound = !self.random.one_in(6);
        if !sound {
            damage::table(&mut self.random, &mut cells);
            // Lists for a damaged table are those of the sound one: its refusal comes first.
            read = read_table(&cells).unwrap_or(read);
        }
        let list = lists::any(&mut self.random, &read);
        if read.rows.len() <= SHORT && read.width <= 4 {
            let figure = *self.random.pick(&FIGURES);
            self.liked_in_all_rooms(&cells, figure, &list);
        }
        let record = if sound && self.random.one_in(4) { records::damaged } else { records::holding };
        let mut record = record(&mut self.random, &cells);
        if self.random.one_in(2) {
            record[1] = *self.random.pick(&FIGURES);
        }
        self.liked_in_some_room(&record, &list);
    }

    /// In rooms of exactly the cells, one less, none, a few more, and the largest.
    fn liked_in_all_rooms(&mut self, cells: &[u32], figure: u32, list: &List) {
        let mut record = records::holding(&mut self.random, cells);
        record[1] = figure;
        let sets = self.sets(&record, list);
        let needed = cells_needed(&sets);
        for room in [needed, needed.saturating_sub(1), 0, needed + 3, PLAN_CELLS + 7] {
            self.build_liked(&record, list, &sets, room);
        }
    }

    /// In exactly the cells, and in another room.
    fn liked_in_some_room(&mut self, record: &Record, list: &List) {
        let sets = self.sets(record, list);
        let needed = cells_needed(&sets);
        self.build_liked(record, list, &sets, needed);
        let room = *self.random.pick(&[needed.saturating_sub(1), 0, needed + 1, PLAN_CELLS + 7]);
        self.build_liked(record, list, &sets, room);
    }

    /// What is known of all sets of columns: by walks, and where it is not too much by the definitions too.
    fn sets(&mut self, record: &Record, list: &List) -> Result<Sets, Refusal> {
        let (table, figure) = (table_in(record), figure_in(record));
        let by = |tried| sets(table, figure, list.cells(), list.words(), tried);
        let walked = by(by_walk);
        let Ok(found) = &walked else {
            return walked;
        };
        let read = read_table(table).expect("the table was accepted");
        let goals = accepted(read.width, list.cells(), list.words());
        if found.plans.iter().map(|plan| plan.branches.len()).sum::<usize>() * list.words().len() <= 40_000 {
            let defined = by(tried).expect("as before");
            let describe = || format!("table {table:?} figure {figure} list {list:?}");
            self.tally.own("what lists try by walks against the definitions", defined.totals == found.totals, &describe);
            self.added_up(record, list, found);
        }
        if read.rows.iter().all(|row| row.cells <= 6) && read.rows.len() <= SHORT {
            let fewest = fewest(&read, &goals);
            let describe = || format!("table {table:?} figure {figure} list {list:?}: {fewest} {:?}", found.totals);
            self.tally.own("plans that lists like best against the fewest of all plans", fewest <= found.liked().tried as u128, &describe);
        }
        walked
    }

    /// What the list's records add up to, by the plan that is liked best and by the plain one.
    fn added_up(&mut self, record: &Record, list: &List, sets: &Sets) {
        for set in [sets.best(), 0] {
            let mut jobs: Vec<Job> = list.parts().map(|(start, count)| Job { start, count, ..Job::default() }).collect();
            let answer = Definition.run_jobs(record, &sets.plans[set].write(), list.cells(), &mut jobs);
            let same = answer & 0xff == 0 && jobs.iter().map(|job| job.tried).sum::<usize>() == sets.totals[set];
            let describe = || format!("table {:?} list {list:?} set {set}", table_in(record));
            self.tally.own("what lists try against their records added up", same, &describe);
        }
    }

    fn build_liked(&mut self, record: &Record, list: &List, sets: &Result<Sets, Refusal>, room: usize) {
        let lent = self.lent(room);
        let mut number = || self.random.number() as usize;
        let before = [(); 3].map(|()| Liked { columns: number(), tried: number(), plain: number() });
        let (mut found, mut wanted) = (before, before);
        let (answer, left) = lend(&lent, |room| self.exported.build_liked(record, list.cells(), list.words(), room, &mut found[1]));
        let (expected, right) = lend(&lent, |room| packed(lend_to(sets, room, &mut wanted[1])));
        let (table, figure) = (table_in(record), figure_in(record));
        let describe = || format!("{found:?} and {wanted:?}: table {table:?} figure {figure} list {} room {room}", shown(list));
        self.tally.settle(Entry::BuildLiked, answer, expected, left == right && found == wanted, &describe);
        self.tally.likings.built(&Liking { table, figure, list, room, sets }, expected);
        debug_assert_eq!(right.len(), room + 2 * MARGIN);
    }
}

/// Goals such as "(a,v0)" one after another.
pub fn of_texts(texts: &[&str]) -> List {
    List::of(&texts.iter().map(|text| goal(text)).collect::<Vec<_>>())
}

/// The cells of the plan; for what is refused, a few.
fn cells_needed(sets: &Result<Sets, Refusal>) -> usize {
    sets.as_ref().map_or(20, |sets| sets.plans[sets.best()].write().len())
}

/// A list, where it is not too long.
fn shown(list: &List) -> String {
    if list.words().len() > 1000 {
        return format!("of {} words", list.words().len());
    }
    format!("{list:?}")
}
