//! Goals, alone and in a list.

use crate::cell::Symbol;
use crate::entries;
use crate::names::word_at;
use crate::record::Record;
use crate::refusal::Refusal;
use std::ops::Deref;

/// A goal that was read, from cells for a record's table or from text for the facts' names ([`Names::goal`](crate::Names::goal)): as many
/// terms as the table has columns. It can stand wherever a goal's cells are taken; any other cells can too, and are refused there if they
/// are no goal.
///
/// ```
/// use dudowiej::{name, variable, Goal, Record};
///
/// let [a, b] = [1, 2].map(|number| name(number, 0));
/// let record = Record::work_out(&[2, 1, a, b], 0)?;
/// let goal = Goal::read(&record, &[a, variable(0)])?;
/// assert_eq!((goal.len(), goal.variables()), (2, 1));
/// assert!(Goal::read(&record, &[a]).is_err());
/// # Ok::<(), dudowiej::Refusal>(())
/// ```
#[derive(Debug, Clone, PartialEq, Eq, Hash)]
pub struct Goal {
    cells: Vec<u32>,
    variables: usize,
    /// Its text, and the places in it of the names that the facts have not. A goal of cells has neither.
    text: Vec<u8>,
    new: Vec<u32>,
}

impl Goal {
    /// Reads a goal.
    ///
    /// Refused is what is no goal for the table: LENGTH, SHORT, CELL, FRESH, EXTRA.
    pub fn read(record: &Record, cells: &[u32]) -> Result<Goal, Refusal> {
        let (_, variables) = entries::read_goal(record.as_numbers(), cells)?;
        Ok(Goal { cells: cells.to_vec(), variables, text: Vec::new(), new: Vec::new() })
    }

    /// A goal that was read from text. Its variables are numbered from 0.
    pub(crate) fn of_text(text: &[u8], cells: &[u32], new: &[u32]) -> Goal {
        let variables = cells.iter().filter(|&&cell| matches!(Symbol::of(cell), Some(Symbol::Variable(_)))).max();
        let variables = variables.map_or(0, |&last| last as usize + 1);
        Goal { cells: cells.to_vec(), variables, text: text.to_vec(), new: new.to_vec() }
    }

    /// How many variables it has.
    pub fn variables(&self) -> usize {
        self.variables
    }

    /// The names that the facts have not, in the order of their numbers, which come after those of the facts. A goal of cells says none.
    pub fn new_names(&self) -> impl Iterator<Item = &str> {
        self.new.iter().map(|&entry| word_at(&self.text, entry))
    }

    /// The text and the list of new names in it.
    pub(crate) fn listed(&self) -> (&[u8], &[u32]) {
        (&self.text, &self.new)
    }
}

impl Deref for Goal {
    type Target = [u32];

    fn deref(&self) -> &[u32] {
        &self.cells
    }
}

impl AsRef<[u32]> for Goal {
    fn as_ref(&self) -> &[u32] {
        &self.cells
    }
}

/// A list of goals: a shift's jobs, or last month's. Their cells lie one after another, and each goal is a start and a count among them.
/// Any cells may be put in; what is no goal is refused by itself when the list is asked.
///
/// ```
/// use dudowiej::{variable, whole, Goals};
///
/// let mut goals = Goals::new();
/// goals.push(&[whole(9), variable(0)]);
/// goals.push(&[whole(10), variable(0)]);
/// assert_eq!(goals.len(), 2);
/// assert_eq!(goals.get(1), Some(&[whole(10), variable(0)][..]));
/// ```
#[derive(Debug, Clone, Default, PartialEq, Eq)]
pub struct Goals {
    cells: Vec<u32>,
    /// Two words for each goal.
    places: Vec<usize>,
}

impl Goals {
    /// No goals.
    pub fn new() -> Goals {
        Goals::default()
    }

    /// Puts a goal at the end.
    pub fn push(&mut self, goal: &[u32]) {
        self.push_place(self.cells.len(), goal.len());
        self.cells.extend(goal);
    }

    /// Puts a goal at the end whose cells are in the list already: so many from this one on. A goal that reaches past the cells is refused
    /// by itself when the list is asked, LENGTH at 0.
    pub fn push_place(&mut self, start: usize, count: usize) {
        self.places.extend([start, count]);
    }

    /// How many goals there are.
    pub fn len(&self) -> usize {
        self.places.len() / 2
    }

    /// Whether there is none.
    pub fn is_empty(&self) -> bool {
        self.places.is_empty()
    }

    /// The cells of all goals.
    pub fn cells(&self) -> &[u32] {
        &self.cells
    }

    /// The goal of this number, from 0; nothing where there is none, or where it reaches past the cells.
    pub fn get(&self, goal: usize) -> Option<&[u32]> {
        let (start, count) = self.starts().nth(goal)?;
        self.cells.get(start..)?.get(..count)
    }

    /// Start and count of each goal.
    pub(crate) fn starts(&self) -> impl Iterator<Item = (usize, usize)> + '_ {
        self.places.chunks_exact(2).map(|place| (place[0], place[1]))
    }

    /// The same as words, two for each goal.
    pub(crate) fn places(&self) -> &[usize] {
        &self.places
    }
}

impl<G: AsRef<[u32]>> Extend<G> for Goals {
    fn extend<I: IntoIterator<Item = G>>(&mut self, goals: I) {
        goals.into_iter().for_each(|goal| self.push(goal.as_ref()));
    }
}

impl<G: AsRef<[u32]>> FromIterator<G> for Goals {
    fn from_iter<I: IntoIterator<Item = G>>(goals: I) -> Goals {
        let mut list = Goals::new();
        list.extend(goals);
        list
    }
}
