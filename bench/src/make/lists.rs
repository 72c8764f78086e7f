//! Lists of goals, two words for each: where its cells start and how many they are.

use super::{damage, goals, numbered};
use crate::model::read::{read_goal, Table};
use crate::model::term::Term;
use crate::random::Random;
use crate::shift::compare::list;

/// A list and its goals' cells. Behind what is lent stand more cells, and a word more: what is read past the end is often sound.
#[derive(Clone, Debug)]
pub struct List {
    cells: Vec<u32>,
    cells_lent: usize,
    words: Vec<usize>,
    words_lent: usize,
}

impl List {
    /// Goals one after another.
    pub fn of(goals: &[Vec<u32>]) -> List {
        let mut start = 0;
        let word = |goal: &Vec<u32>| {
            start += goal.len();
            [start - goal.len(), goal.len()]
        };
        List::new(goals.concat(), goals.iter().flat_map(word).collect())
    }

    pub fn new(cells: Vec<u32>, words: Vec<usize>) -> List {
        List { cells_lent: cells.len(), cells, words_lent: words.len(), words }
    }

    pub fn cells(&self) -> &[u32] {
        &self.cells[..self.cells_lent]
    }

    pub fn words(&self) -> &[usize] {
        &self.words[..self.words_lent]
    }

    /// The starts and counts.
    pub fn parts(&self) -> impl Iterator<Item = (usize, usize)> + '_ {
        self.words().chunks_exact(2).map(|goal| (goal[0], goal[1]))
    }

    /// A goal's cells; nothing where they reach past those that are lent.
    pub fn goal(&self, (start, count): (usize, usize)) -> Option<&[u32]> {
        self.cells().get(start..).and_then(|rest| rest.get(..count))
    }

    /// So many cells fewer are lent.
    pub fn cut(mut self, cells: usize) -> List {
        self.cells_lent = self.cells_lent.saturating_sub(cells);
        self
    }

    /// A word more, with one behind it that is not lent: together they would be a goal.
    pub fn odd(mut self, start: usize, count: usize) -> List {
        self.words.truncate(self.words_lent);
        self.words.extend([start, count]);
        self.words_lent += 1;
        self
    }
}

/// A list of any kind for a table: with refused goals, goals past the cells, goals twice, none at all; one in four with an odd word.
pub fn any(random: &mut Random, table: &Table) -> List {
    let mut list = match random.below(8) {
        0 => List::new(goals::any(random, table), Vec::new()),
        1 | 2 => of_all_sorts(random, table),
        3 | 4 => known(random, table),
        5 => again(random, table),
        _ => strangers(random, table),
    };
    if random.one_in(5) {
        list = list.cut(random.within(1..=3));
    }
    if random.one_in(4) {
        let (start, count) = list.parts().last().unwrap_or((0, list.cells().len()));
        list = list.odd(*random.pick(&[start, start, start, 0, usize::MAX]), count);
    }
    list
}

/// Those with which lists of goals are compared.
fn of_all_sorts(random: &mut Random, table: &Table) -> List {
    let (cells, jobs) = list(random, table);
    List::new(cells, jobs.iter().flat_map(|job| [job.start, job.count]).collect())
}

/// Goals that all know the same columns; one in ten damaged.
fn known(random: &mut Random, table: &Table) -> List {
    let columns: Vec<u32> = (0..table.width as u32).filter(|_| random.one_in(2)).collect();
    let (of_one_row, count) = (random.one_in(2), random.within(1..=24));
    let goal = |_| {
        let mut goal = goals::knowing(random, table, &columns, of_one_row);
        if random.one_in(10) {
            damage::goal(random, &mut goal);
        }
        goal
    };
    List::of(&(0..count).map(goal).collect::<Vec<_>>())
}

/// One goal several times, the same cells or a copy, and one more.
fn again(random: &mut Random, table: &Table) -> List {
    let (one, other) = (goals::any(random, table), goals::any(random, table));
    let mut list = List::of(&[one.clone(), other, one.clone()]);
    for _ in 0..random.below(12) {
        list.words.extend([0, one.len()]);
    }
    List::new(list.cells, list.words)
}

/// Goals that know one column, a name that no row has, and sometimes another that a row has: by some plans they go no further than the first state.
fn strangers(random: &mut Random, table: &Table) -> List {
    let count = random.within(1..=12);
    let goal = |_| {
        let of_one_row = random.one_in(2);
        let beside = [random.below(table.width) as u32];
        let cells = goals::knowing(random, table, &beside, of_one_row);
        let mut terms = read_goal(table.width, &cells).expect("a sound goal").arguments;
        terms[random.below(table.width)] = Term::Name(999, Vec::new());
        numbered(terms)
    };
    List::of(&(0..count).map(goal).collect::<Vec<_>>())
}
