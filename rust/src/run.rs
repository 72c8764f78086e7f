//! Runs of a plan, on a goal and on a list of goals.

use crate::entries;
use crate::goal::Goals;
use crate::limits::ROWS;
use crate::plan::Plan;
use crate::record::Record;
use crate::refusal::{goal_apart, Refusal};
use crate::sys::Job;

/// What a run reports: the rows that fit the goal, and the branches tried.
#[derive(Debug, Clone, Copy, Default, PartialEq, Eq, Hash)]
pub struct Hits {
    bits: u64,
    tried: usize,
}

impl Hits {
    pub(crate) fn of(bits: u64, tried: usize) -> Hits {
        Hits { bits, tried }
    }

    /// The rows, from the top, by their numbers from 0.
    pub fn rows(self) -> impl Iterator<Item = usize> {
        (0..ROWS).filter(move |&row| self.has(row))
    }

    /// Whether the row of this number is one of them.
    pub fn has(self, row: usize) -> bool {
        row < ROWS && self.bits >> row & 1 == 1
    }

    /// How many rows they are.
    pub fn count(self) -> usize {
        self.bits.count_ones() as usize
    }

    /// The rows as a number, row r as bit r.
    pub fn bits(self) -> u64 {
        self.bits
    }

    /// How many branches were tried.
    pub fn tried(self) -> usize {
        self.tried
    }
}

impl Record {
    /// Runs a plan on a goal. Table and plan are checked on each call, which is nearly all of its cost: for more than one goal there is
    /// [`Record::run_jobs`]. That no row fits is an answer like any other.
    ///
    /// Refused are the plan, where it is none for this table (SIZE, ENDS, OPEN, EDGES, LABEL, ROWS, EXTRA), and then the goal (LENGTH,
    /// SHORT, CELL, FRESH, EXTRA).
    ///
    /// ```
    /// use dudowiej::{name, variable, Plan, Record};
    ///
    /// let [a, b, c, d] = [1, 2, 3, 4].map(|number| name(number, 0));
    /// let record = Record::work_out(&[2, 3, a, b, b, c, a, d], 0)?;
    /// let plan = Plan::build(&record).plan;
    /// let hits = record.run(&plan, &[a, variable(0)])?;
    /// assert_eq!(hits.rows().collect::<Vec<_>>(), [0, 2]);
    /// assert_eq!((hits.tried(), plan.branches()), (5, 6));
    /// # Ok::<(), dudowiej::Refusal>(())
    /// ```
    pub fn run(&self, plan: &Plan, goal: &[u32]) -> Result<Hits, Refusal> {
        let mut rows = [0; ROWS];
        let (count, tried) = entries::run_plan(self.as_numbers(), plan.cells(), goal, &mut rows)?;
        let bits = rows[..count].iter().fold(0, |bits, row| bits | 1 << row);
        Ok(Hits::of(bits, tried))
    }

    /// Runs a plan on every goal of a list, each as [`Record::run`] would by itself. The plan is checked once.
    ///
    /// Refused is the plan, where it is none for this table; a goal that is refused is so by itself, and the others are answered.
    ///
    /// ```
    /// use dudowiej::{name, variable, Goals, Plan, Reason, Record};
    ///
    /// let [a, b] = [1, 2].map(|number| name(number, 0));
    /// let record = Record::work_out(&[1, 2, a, b], 0)?;
    /// let plan = Plan::build(&record).plan;
    /// let goals: Goals = [vec![a], vec![variable(0)], vec![a, b]].into_iter().collect();
    /// let answers = record.run_jobs(&plan, &goals)?;
    /// assert_eq!(answers[0]?.bits(), 0b01);
    /// assert_eq!(answers[1]?.bits(), 0b11);
    /// assert_eq!(answers[2].unwrap_err().reason, Reason::Extra);
    /// # Ok::<(), dudowiej::Refusal>(())
    /// ```
    pub fn run_jobs(&self, plan: &Plan, goals: &Goals) -> Result<Vec<Result<Hits, Refusal>>, Refusal> {
        let mut jobs: Vec<Job> = goals.starts().map(|(start, count)| Job { start, count, ..Job::default() }).collect();
        entries::run_jobs(self.as_numbers(), plan.cells(), goals.cells(), &mut jobs)?;
        Ok(jobs.iter().map(|job| goal_apart(job.number, job.place, Hits::of(job.hits, job.tried))).collect())
    }
}
