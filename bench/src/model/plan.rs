//! Plans (01, "Plans"): runs of agreeing rows, the check of any plan and of one for named columns (02, W-213), and plans written as cells.

use std::ops::Range;

use super::columns::Named;
use super::read::Table;
use super::refusal::{Input, Number, Refusal};
use super::term::Term;

/// The most cells of a plan.
pub const PLAN_CELLS: usize = 6082;

/// A branch. Its state's place, its symbol's cell and its rows; the number of branches above it; and the index, in plan order, of the
/// first branch that is not below it.
#[derive(Clone, Copy, Debug, PartialEq, Eq)]
pub struct Branch {
    pub cell: u32,
    after: u16,
    place: u8,
    depth: u8,
    first: u8,
    last: u8,
}

impl Branch {
    pub fn place(&self) -> usize {
        self.place as usize
    }

    pub fn depth(&self) -> usize {
        self.depth as usize
    }

    pub fn rows(&self) -> Range<usize> {
        self.first as usize..self.last as usize + 1
    }

    pub fn after(&self) -> usize {
        self.after as usize
    }

    pub fn is_variable(&self) -> bool {
        self.cell >> 30 == 0
    }

    pub fn argument_count(&self) -> usize {
        (self.cell >> 16 & 7) as usize
    }
}

/// A plan's tree: its branches in plan order, a branch before those below it. A state is the range of the branches at and below it; an empty
/// range is a leaf.
#[derive(Clone, Debug, PartialEq, Eq)]
pub struct Plan {
    pub rows: usize,
    pub branches: Vec<Branch>,
}

impl Plan {
    /// The first state.
    pub fn top(&self) -> Range<usize> {
        0..self.branches.len()
    }

    /// A state's branches, each with the state below it.
    pub fn at(&self, state: Range<usize>) -> impl Iterator<Item = (&Branch, Range<usize>)> {
        let mut next = state.start;
        std::iter::from_fn(move || {
            let index = next;
            let branch = self.branches[..state.end].get(index)?;
            next = branch.after();
            Some((branch, index + 1..next))
        })
    }

    /// The plan as cells.
    pub fn write(&self) -> Vec<u32> {
        let mut cells = Vec::with_capacity(3 * self.branches.len() + 1);
        self.write_state(self.top(), self.rows, &mut cells);
        cells
    }

    fn write_state(&self, state: Range<usize>, rows: usize, cells: &mut Vec<u32>) {
        if state.is_empty() {
            cells.push(rows as u32);
            return;
        }
        cells.push(self.branches[state.start].place as u32);
        cells.push(self.at(state.clone()).count() as u32);
        for (branch, below) in self.at(state) {
            cells.push(branch.cell);
            self.write_state(below, branch.rows().len(), cells);
        }
    }

    /// Adds a branch without its end and gives its index.
    fn begin(&mut self, cell: u32, place: usize, depth: usize, rows: &Range<usize>) -> usize {
        let (first, last) = (rows.start as u8, rows.end as u8 - 1);
        self.branches.push(Branch { cell, after: 0, place: place as u8, depth: depth as u8, first, last });
        self.branches.len() - 1
    }

    fn end(&mut self, branch: usize) {
        self.branches[branch].after = self.branches.len() as u16;
    }
}

/// The rows of a table on their way down a plan: each row's terms at the open places, left to right. Below a state a row is in one branch, so
/// that places are closed where they stand.
pub struct Open<'t>(Vec<Vec<&'t Term>>);

impl<'t> Open<'t> {
    pub fn new(table: &'t Table) -> Open<'t> {
        let row = |arguments: &'t [Term]| {
            let mut open = Vec::with_capacity(super::read::ROW_CELLS);
            open.extend(arguments);
            open
        };
        Open(table.rows.iter().map(|r| row(&r.arguments)).collect())
    }

    /// The number of open places; the same for all rows of a state.
    pub fn places(&self, rows: &Range<usize>) -> usize {
        self.0[rows.start].len()
    }

    pub fn at(&self, row: usize, place: usize) -> &'t Term {
        self.0[row][place]
    }

    /// What the first of the rows holds at the open places.
    pub fn first(&self, rows: &Range<usize>) -> &[&'t Term] {
        &self.0[rows.start]
    }

    /// The longest run of agreeing neighbours from the first of the rows on.
    pub fn run(&self, rows: Range<usize>, place: usize) -> Range<usize> {
        let mut end = rows.start + 1;
        while end < rows.end && self.at(end - 1, place).agrees(self.at(end, place)) {
            end += 1;
        }
        rows.start..end
    }

    /// The number of runs.
    pub fn runs(&self, rows: &Range<usize>, place: usize) -> usize {
        1 + (rows.start + 1..rows.end).filter(|&r| !self.at(r - 1, place).agrees(self.at(r, place))).count()
    }

    /// Closes a place: a name's arguments take its place in the list.
    pub fn close(&mut self, rows: &Range<usize>, place: usize) {
        for open in &mut self.0[rows.clone()] {
            match open[place].arguments() {
                [] => {
                    open.remove(place);
                }
                arguments => {
                    open.splice(place..place + 1, arguments);
                }
            }
        }
    }
}

/// The plan that takes at each state the place `choose` names.
pub fn grow<'t>(table: &'t Table, mut choose: impl FnMut(&Open<'t>, &Range<usize>) -> usize) -> Plan {
    fn state<'t>(open: &mut Open<'t>, rows: Range<usize>, depth: usize, choose: &mut impl FnMut(&Open<'t>, &Range<usize>) -> usize, plan: &mut Plan) {
        if open.places(&rows) == 0 {
            return;
        }
        let place = choose(open, &rows);
        let mut left = rows;
        while !left.is_empty() {
            let run = open.run(left.clone(), place);
            left.start = run.end;
            let branch = plan.begin(open.at(run.start, place).cell(), place, depth, &run);
            open.close(&run, place);
            state(open, run, depth + 1, choose, plan);
            plan.end(branch);
        }
    }
    let rows = table.rows.len();
    let mut plan = Plan { rows, branches: Vec::new() };
    state(&mut Open::new(table), 0..rows, 0, &mut choose, &mut plan);
    plan
}

/// The check of any plan, and its tree.
pub fn check(table: &Table, cells: &[u32]) -> Result<Plan, Refusal> {
    check_for(table, &Named::default(), cells)
}

/// The check of a plan for named columns, and its tree.
pub fn check_for(table: &Table, named: &Named, cells: &[u32]) -> Result<Plan, Refusal> {
    if cells.len() > PLAN_CELLS {
        return Err(Refusal { number: Number::Size, input: Input::Plan, place: 0 });
    }
    let rows = table.rows.len();
    let mut check = Check { open: Open::new(table), named, cells, at: 0, plan: Plan { rows, branches: Vec::new() } };
    check.state(0..rows, 0)?;
    if check.at < cells.len() {
        return Err(check.refusal(Number::Extra));
    }
    Ok(check.plan)
}

struct Check<'t, 'c> {
    open: Open<'t>,
    named: &'c Named,
    cells: &'c [u32],
    at: usize,
    plan: Plan,
}

impl Check<'_, '_> {
    fn refusal(&self, number: Number) -> Refusal {
        Refusal { number, input: Input::Plan, place: self.at }
    }

    /// The next cell, where it passes the one test of its place.
    fn take(&mut self, number: Number, passes: impl FnOnce(usize) -> bool) -> Result<usize, Refusal> {
        let Some(&cell) = self.cells.get(self.at) else {
            return Err(self.refusal(Number::Ends));
        };
        if !passes(cell as usize) {
            return Err(self.refusal(number));
        }
        self.at += 1;
        Ok(cell as usize)
    }

    fn state(&mut self, rows: Range<usize>, depth: usize) -> Result<(), Refusal> {
        let places = self.open.places(&rows);
        if places == 0 {
            self.take(Number::Rows, |cell| cell == rows.len())?;
            return Ok(());
        }
        let index = self.at;
        let place = self.take(Number::Open, |cell| cell < places)?;
        if !self.named.is_empty() && !self.named.choosable(self.open.first(&rows)).contains(&place) {
            return Err(Refusal { place: index, ..self.refusal(Number::Early) });
        }
        let runs = self.open.runs(&rows, place);
        self.take(Number::Edges, |cell| cell == runs)?;
        let mut left = rows;
        while !left.is_empty() {
            let run = self.open.run(left.clone(), place);
            left.start = run.end;
            let symbol = self.open.at(run.start, place).cell();
            self.take(Number::Label, |cell| cell == symbol as usize)?;
            let branch = self.plan.begin(symbol, place, depth, &run);
            self.open.close(&run, place);
            self.state(run, depth + 1)?;
            self.plan.end(branch);
        }
        Ok(())
    }
}
