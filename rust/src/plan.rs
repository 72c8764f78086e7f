//! Plans: built, built for columns, built for a list of goals, and checked.

use crate::entries;
use crate::goal::Goals;
use crate::limits::PLAN_CELLS;
use crate::record::Record;
use crate::refusal::Refusal;
use crate::sys;

/// A plan: which place of a goal is looked at first, and which next.
///
/// Every plan is the library's own or was checked by it. It is a plan for the table of the record that it was built or checked with;
/// whatever takes a record and a plan refuses one that is no plan for that record's table. The rows that fit a goal are the same by every
/// plan, and the branches tried may be more or fewer.
///
/// ```
/// use dudowiej::{name, Plan, Record};
///
/// let [a, b, c, d] = [1, 2, 3, 4].map(|number| name(number, 0));
/// let record = Record::work_out(&[2, 3, a, b, b, c, a, d], 0)?;
/// let built = Plan::build(&record);
/// assert_eq!((built.plan.branches(), built.cost), (6, 6));
/// assert_eq!(built.plan.cells(), [0, 3, a, 0, 1, b, 1, b, 0, 1, c, 1, a, 0, 1, d, 1]);
/// // Anyone may write a plan. This one looks at place 1 first.
/// let other = Plan::check(&record, &[1, 3, b, 0, 1, a, 1, c, 0, 1, b, 1, d, 0, 1, a, 1])?;
/// assert_eq!(other.branches(), 6);
/// # Ok::<(), dudowiej::Refusal>(())
/// ```
#[derive(Debug, Clone, PartialEq, Eq, Hash)]
pub struct Plan {
    cells: Vec<u32>,
    branches: usize,
}

/// A plan that was built.
#[derive(Debug, Clone, PartialEq, Eq)]
pub struct Built {
    /// The plan.
    pub plan: Plan,
    /// What it costs, by the record's figure.
    pub cost: usize,
}

/// A plan that was written to a lent room.
#[derive(Debug, Clone, Copy, PartialEq, Eq)]
pub struct Written {
    /// How many cells it has.
    pub cells: usize,
    /// What it costs, by the record's figure.
    pub cost: usize,
}

/// The plan that a list of goals likes best, and how much it is liked.
#[derive(Debug, Clone, PartialEq, Eq)]
pub struct Liked {
    /// The plan.
    pub plan: Plan,
    /// What it costs, by the record's figure.
    pub cost: usize,
    /// How many branches the goals try.
    pub tried: Tried,
}

/// What a list of goals tries by the plan that it likes best, and by the plain one.
#[derive(Debug, Clone, PartialEq, Eq)]
pub struct Tried {
    /// The columns that the best plan was built for, ascending; none for the plain plan.
    pub columns: Vec<u32>,
    /// The branches that the goals try by it, all together.
    pub best: usize,
    /// The branches that they try by the plain plan.
    pub plain: usize,
}

impl Plan {
    /// The least plan by work: the branch of a variable costs 0, of a number 1, of a name 1 and its arguments, and a state with two or more
    /// branches the record's figure. Nothing is refused.
    pub fn build(record: &Record) -> Built {
        let mut room = vec![0; PLAN_CELLS];
        let written = Plan::build_in(record, &mut room).expect("a record's plan finds room");
        Built { plan: Plan::from_room(record, room, written), cost: written.cost }
    }

    /// The same plan in a lent room; the rest of the room is untouched.
    ///
    /// Refused is ROOM, where the room is too small, with the cells needed.
    pub fn build_in(record: &Record, room: &mut [u32]) -> Result<Written, Refusal> {
        let (cells, cost) = entries::build_plan(record.as_numbers(), room)?;
        Ok(Written { cells, cost })
    }

    /// The least plan for columns that are always filled in: it finishes these before it looks at any other place. The columns are numbers
    /// from 0, in any order; with none of them, or all, it is the plain plan.
    ///
    /// Refused is COLUMN, where a column is not below the table's width.
    pub fn build_for(record: &Record, columns: &[u32]) -> Result<Built, Refusal> {
        let mut room = vec![0; PLAN_CELLS];
        let written = Plan::build_for_in(record, columns, &mut room)?;
        Ok(Built { plan: Plan::from_room(record, room, written), cost: written.cost })
    }

    /// The same plan in a lent room; the rest of the room is untouched.
    ///
    /// Refused are COLUMN, as there, and ROOM, with the cells needed.
    pub fn build_for_in(record: &Record, columns: &[u32], room: &mut [u32]) -> Result<Written, Refusal> {
        let (cells, cost) = entries::build_for(record.as_numbers(), columns, room)?;
        Ok(Written { cells, cost })
    }

    /// Of the plans for each set of columns, the one by which the goals of a list try the fewest branches, all together. A goal that is
    /// refused adds nothing. Up to 255 plans are built, and the list is run by each: this is work for a night. Nothing is refused.
    ///
    /// ```
    /// use dudowiej::{name, Goals, Plan, Record};
    ///
    /// let [a, b, c, d] = [1, 2, 3, 4].map(|number| name(number, 0));
    /// let record = Record::work_out(&[2, 2, a, b, a, c], 0)?;
    /// let goals: Goals = [[a, d]; 3].into_iter().collect();
    /// let liked = Plan::build_liked(&record, &goals);
    /// assert_eq!(liked.tried.columns, [1]);
    /// assert_eq!((liked.tried.best, liked.tried.plain), (6, 9));
    /// # Ok::<(), dudowiej::Refusal>(())
    /// ```
    pub fn build_liked(record: &Record, goals: &Goals) -> Liked {
        let mut room = vec![0; PLAN_CELLS];
        let (written, tried) = Plan::build_liked_in(record, goals, &mut room).expect("a record's plan finds room");
        Liked { plan: Plan::from_room(record, room, written), cost: written.cost, tried }
    }

    /// The same plan in a lent room; the rest of the room is untouched.
    ///
    /// Refused is ROOM, where the room is too small, with the cells needed.
    pub fn build_liked_in(record: &Record, goals: &Goals, room: &mut [u32]) -> Result<(Written, Tried), Refusal> {
        let mut found = sys::Liked::default();
        let (cells, cost) = entries::build_liked(record.as_numbers(), goals.cells(), goals.places(), room, &mut found)?;
        let columns = (0..record.width() as u32).filter(|column| found.columns >> column & 1 == 1).collect();
        Ok((Written { cells, cost }, Tried { columns, best: found.tried, plain: found.plain }))
    }

    /// Checks any cells for a record's table.
    ///
    /// Refused is what is no plan for it: SIZE, and then at the cell where it goes wrong ENDS, OPEN, EDGES, LABEL, ROWS or EXTRA.
    pub fn check(record: &Record, cells: &[u32]) -> Result<Plan, Refusal> {
        let (branches, _) = entries::check_plan(record.as_numbers(), cells)?;
        Ok(Plan { cells: cells.to_vec(), branches })
    }

    /// Checks any cells for a record's table and columns that are always filled in.
    ///
    /// Refused are COLUMN, where a column is not below the table's width, and then the cells as by [`Plan::check`], and with EARLY where
    /// another place is looked at while one inside the columns is open.
    pub fn check_for(record: &Record, columns: &[u32], cells: &[u32]) -> Result<Plan, Refusal> {
        let (branches, _) = entries::check_for(record.as_numbers(), columns, cells)?;
        Ok(Plan { cells: cells.to_vec(), branches })
    }

    /// The plan's cells.
    pub fn cells(&self) -> &[u32] {
        &self.cells
    }

    /// How many branches it has. No run tries more.
    pub fn branches(&self) -> usize {
        self.branches
    }

    /// A plan of the library's own, for a table of so many rows. Its cells are 3 · branches + 2 - rows (docs/FORMAT.md, "Plans").
    pub(crate) fn of(cells: Vec<u32>, rows: usize) -> Plan {
        let branches = (cells.len() + rows - 2) / 3;
        Plan { cells, branches }
    }

    fn from_room(record: &Record, mut room: Vec<u32>, written: Written) -> Plan {
        room.truncate(written.cells);
        room.shrink_to_fit();
        Plan::of(room, record.rows())
    }
}
