//! What was compared, what differs, and what was met.

use std::fmt;

use super::Report;

/// How many differences are shown with their inputs.
const SHOWN: u64 = 5;

/// What pairs of a goal and its instance have to show.
#[derive(Clone, Copy)]
pub enum Met {
    FewerRows,
    SameRows,
    FewerTried,
    SameTried,
    /// By another plan the instance tries more than the goal: then nothing is said.
    MoreByAnotherPlan,
}

const SHOWS: [&str; 5] = ["fewer rows", "the same rows", "fewer tried", "as many tried", "more tried by another plan"];

#[derive(Default)]
pub struct Tally {
    pairs: u64,
    met: [u64; SHOWS.len()],
    lists: u64,
    jobs: u64,
    goals: u64,
    differ: u64,
    own_differ: u64,
}

impl Tally {
    pub(super) fn meet(&mut self, what: Met, is_so: bool) {
        self.met[what as usize] += u64::from(is_so);
    }

    /// What is to hold within the independent implementation.
    pub(super) fn own(&mut self, holds: bool) {
        self.own_differ += u64::from(!holds);
    }

    fn settle(&mut self, right: bool, describe: &dyn Fn() -> String) {
        if !right {
            self.differ += 1;
            if self.differ <= SHOWN {
                eprintln!("knowing more: {}", describe());
            }
        }
    }

    /// A goal and an instance of it, both answered by one plan.
    pub(super) fn pair(&mut self, wide: Option<&Report>, narrow: Option<&Report>, describe: &dyn Fn() -> String) {
        self.pairs += 1;
        let (Some(wide), Some(narrow)) = (wide, narrow) else {
            return self.settle(false, describe);
        };
        self.meet(Met::FewerRows, narrow.rows.len() < wide.rows.len());
        self.meet(Met::SameRows, narrow.rows == wide.rows);
        self.meet(Met::FewerTried, narrow.tried < wide.tried);
        self.meet(Met::SameTried, narrow.tried == wide.tried);
        let right = among(&narrow.rows, &wide.rows) && narrow.tried <= wide.tried;
        self.settle(right, &|| format!("{narrow:?} after {wide:?}: {}", describe()));
    }

    /// A list with so many records, so many of them of accepted goals.
    pub(super) fn list(&mut self, jobs: usize, goals: usize, right: bool, describe: &dyn Fn() -> String) {
        self.lists += 1;
        self.jobs += jobs as u64;
        self.goals += goals as u64;
        self.settle(right, describe);
    }

    pub fn differ(&self) -> u64 {
        self.differ
    }

    fn never_met(&self) -> impl Iterator<Item = &str> {
        SHOWS.into_iter().zip(self.met).filter(|&(_, count)| count == 0).map(|(what, _)| what)
    }

    /// Nothing differs, here or within the independent implementation, and everything was met.
    pub fn passed(&self) -> bool {
        self.differ == 0 && self.own_differ == 0 && self.never_met().next().is_none()
    }
}

/// Some of the others, in the same order.
fn among(rows: &[u8], others: &[u8]) -> bool {
    let mut others = others.iter();
    rows.iter().all(|row| others.any(|other| other == row))
}

impl fmt::Display for Tally {
    fn fmt(&self, f: &mut fmt::Formatter) -> fmt::Result {
        write!(f, "goals with an instance: {}", self.pairs)?;
        for (what, count) in SHOWS.iter().zip(self.met) {
            write!(f, ", {count} {what}")?;
        }
        for what in self.never_met() {
            write!(f, "\n{what} was never met")?;
        }
        writeln!(f, "\nlists added up: {}, {} records, {} of accepted goals", self.lists, self.jobs, self.goals)?;
        write!(f, "knowing more: {} differ; instances that are none: {}", self.differ, self.own_differ)
    }
}
