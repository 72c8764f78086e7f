//! The least plan (01, "The least plan"), by 01's measure and by that of 02, W-204 and W-209; and a search through all plans, those for named
//! columns too (W-213).

use std::collections::HashMap;
use std::ops::Range;

use super::columns::Named;
use super::plan::{check_for, grow, Open, Plan};
use super::read::{Row, Table};
use super::term::{Symbol, Term};

/// What a plan costs: its number of branches, or the work of W-204 with a figure.
#[derive(Clone, Copy, Debug, PartialEq, Eq)]
pub enum Measure {
    Branches,
    Work(u32),
}

impl Measure {
    /// What a branch for this cell adds below those of the cells `met`: nothing for a variable, but one where it was met; one for a number, one and
    /// its arguments for a name.
    pub(super) fn weight(self, cell: u32, met: &[u32]) -> usize {
        match (self, Symbol::of(cell)) {
            (Measure::Branches, _) | (_, Some(Symbol::Number(_))) => 1,
            (_, Some(Symbol::Name { arguments, .. })) => 1 + arguments,
            (_, Some(Symbol::Variable(_)) | None) => usize::from(met.contains(&cell)),
        }
    }

    /// What a state with so many branches adds.
    pub(super) fn figure(self, branches: usize) -> usize {
        match self {
            Measure::Work(figure) if branches >= 2 => figure as usize,
            _ => 0,
        }
    }

    /// What a row by itself costs: its cells, each with its weight. Whatever the plan, each variable has one first meeting.
    fn row(self, row: &Row) -> usize {
        fn cells(measure: Measure, terms: &[Term]) -> usize {
            terms.iter().map(|term| measure.weight(term.cell(), &[]) + cells(measure, term.arguments())).sum()
        }
        let again = if self == Measure::Branches { 0 } else { row.again };
        cells(self, &row.arguments) + again
    }

    /// The cost of a plan.
    pub fn cost(self, plan: &Plan) -> usize {
        self.below(plan, plan.top(), &mut Vec::new())
    }

    /// The cost of a state below branches of these cells.
    fn below(self, plan: &Plan, state: Range<usize>, met: &mut Vec<u32>) -> usize {
        let mut sum = 0;
        let mut branches = 0;
        for (branch, state) in plan.at(state) {
            sum += self.weight(branch.cell, met);
            met.push(branch.cell);
            sum += self.below(plan, state, met);
            met.pop();
            branches += 1;
        }
        self.figure(branches) + sum
    }
}

/// The builder's plan by 01's measure.
pub fn least(table: &Table) -> Plan {
    least_by(table, Measure::Branches)
}

/// The builder's plan, by document 001's equations 1 and 2: a least count for every pair of first and last row that is met.
pub fn least_by(table: &Table, measure: Measure) -> Plan {
    let mut counts = Counts { table, measure, known: vec![None; table.rows.len() * table.rows.len()] };
    grow(table, |open, rows| leftmost_agreed(open, rows, 0..open.places(rows)).unwrap_or_else(|| counts.best(rows.clone()).place))
}

/// The leftmost of some open places that all the rows agree on; a single row agrees with itself everywhere.
fn leftmost_agreed(open: &Open, rows: &Range<usize>, places: impl IntoIterator<Item = usize>) -> Option<usize> {
    places.into_iter().find(|&place| open.run(rows.clone(), place).len() == rows.len())
}

/// What is known of every run of rows, by its first and last row.
pub fn every_run(table: &Table, measure: Measure) -> Vec<(usize, usize, Best)> {
    let rows = table.rows.len();
    let mut counts = Counts { table, measure, known: vec![None; rows * rows] };
    runs(rows).map(|(first, last)| (first, last, counts.best(first..last + 1))).collect()
}

/// Every pair of a first and a last row that is not before it.
fn runs(rows: usize) -> impl Iterator<Item = (usize, usize)> {
    (0..rows).flat_map(move |first| (first..rows).map(move |last| (first, last)))
}

/// What is known of a run of rows: the cost of its least plan when all places are open; what is left of it when those agreed by all the rows
/// are closed; and the place to take then, as an index among the places that are open then.
#[derive(Clone, Copy, Debug, PartialEq, Eq)]
pub struct Best {
    pub whole: usize,
    pub closed: usize,
    pub place: usize,
}

struct Counts<'t> {
    table: &'t Table,
    measure: Measure,
    known: Vec<Option<Best>>,
}

impl<'t> Counts<'t> {
    fn best(&mut self, rows: Range<usize>) -> Best {
        if rows.len() == 1 {
            return Best { whole: self.measure.row(&self.table.rows[rows.start]), closed: 0, place: 0 };
        }
        let key = rows.start * self.table.rows.len() + rows.end - 1;
        if let Some(best) = self.known[key] {
            return best;
        }
        let mut settled = Settled { measure: self.measure, agreed: 0, open: Vec::new() };
        for argument in 0..self.table.width {
            settled.settle(self.table.rows[rows.clone()].iter().map(|row| &row.arguments[argument]).collect());
        }
        // Rows that agree on everything have no place left: one leaf.
        let mut best = Best { whole: settled.agreed, closed: 0, place: 0 };
        for (place, column) in settled.open.iter().enumerate() {
            let closed = self.split(column, rows.start, settled.agreed);
            if place == 0 || closed < best.closed {
                best = Best { whole: settled.agreed + closed, closed, place };
            }
        }
        self.known[key] = Some(best);
        best
    }

    /// What a state costs whose rows hold `column` at the chosen place, the branches above it costing `above`.
    fn split(&mut self, column: &[&Term], first: usize, above: usize) -> usize {
        let mut sum = 0;
        let mut start = 0;
        let mut runs = 0;
        for end in 1..=column.len() {
            if end == column.len() || !column[end - 1].agrees(column[end]) {
                sum += self.best(first + start..first + end).whole - above;
                runs += 1;
                start = end;
            }
        }
        self.measure.figure(runs) + sum
    }
}

/// A run of rows with all the places that its rows agree on closed: what they weigh, and each open place's column of terms, left to right.
struct Settled<'t> {
    measure: Measure,
    agreed: usize,
    open: Vec<Vec<&'t Term>>,
}

impl<'t> Settled<'t> {
    fn settle(&mut self, column: Vec<&'t Term>) {
        if column.windows(2).any(|pair| !pair[0].agrees(pair[1])) {
            self.open.push(column);
            return;
        }
        self.agreed += self.measure.weight(column[0].cell(), &[]);
        for argument in 0..column[0].arguments().len() {
            self.settle(column.iter().map(|term| &term.arguments()[argument]).collect());
        }
    }
}

/// The builder's plan by 01's words alone: every place of every state is tried, whatever its rows agree on. For small tables.
pub fn least_by_search(table: &Table, measure: Measure) -> Plan {
    least_for_by_search(table, &Named::default(), measure)
}

/// The same by W-213's: every place that may be chosen.
pub fn least_for_by_search(table: &Table, named: &Named, measure: Measure) -> Plan {
    let mut search = Search { measure, named, known: HashMap::new() };
    grow(table, |open, rows| {
        leftmost_agreed(open, rows, named.choosable(open.first(rows))).unwrap_or_else(|| {
            let lists = rows.clone().map(|row| (0..open.places(rows)).map(|place| open.at(row, place)).collect()).collect();
            // No variable is met above several rows, and the place for a single row is taken before.
            search.cheapest(&lists, &[]).1
        })
    })
}

/// What is known of every run of rows, by the same search: first from the state where nothing is closed, then from the one where all places
/// that the rows agree on are closed.
pub fn every_run_by_search(table: &Table, measure: Measure) -> Vec<(usize, usize, Best)> {
    let mut search = Search { measure, named: &Named::default(), known: HashMap::new() };
    let of_run = |(first, last): (usize, usize)| {
        let mut lists: Lists = table.rows[first..=last].iter().map(|row| row.arguments.iter().collect()).collect();
        let whole = search.cheapest(&lists, &[]).0;
        while let Some(place) = (0..lists[0].len()).find(|&place| lists.windows(2).all(|pair| pair[0][place].agrees(pair[1][place]))) {
            lists = lists.iter().map(|row| closed(row, place)).collect();
        }
        let (closed, place) = search.cheapest(&lists, &[]);
        (first, last, Best { whole, closed, place })
    };
    runs(table.rows.len()).map(of_run).collect()
}

/// A state's rows, each as its terms at the open places.
pub(super) type Lists<'t> = Vec<Vec<&'t Term>>;

struct Search<'n> {
    measure: Measure,
    named: &'n Named,
    /// The least cost of a state and its leftmost place, by the addresses of the terms that are open in its first row, and its number of rows.
    /// What was met above is what is not open.
    known: HashMap<(Vec<*const Term>, usize), (usize, usize)>,
}

impl Search<'_> {
    fn cheapest(&mut self, rows: &Lists, met: &[u32]) -> (usize, usize) {
        if rows[0].is_empty() {
            return (0, 0);
        }
        let key = (rows[0].iter().map(|&term| term as *const Term).collect(), rows.len());
        if let Some(&known) = self.known.get(&key) {
            return known;
        }
        let costs = self.named.choosable(&rows[0]).into_iter().map(|place| (self.cost(rows, place, met), place));
        let found = costs.min().expect("a state that is no leaf has an open place");
        self.known.insert(key, found);
        found
    }

    fn cost(&mut self, rows: &Lists, place: usize, met: &[u32]) -> usize {
        let runs = rows.chunk_by(|above, below| above[place].agrees(below[place])).collect::<Vec<_>>();
        let mut sum = self.measure.figure(runs.len());
        for run in runs {
            let cell = run[0][place].cell();
            sum += self.measure.weight(cell, met);
            sum += self.cheapest(&run.iter().map(|row| closed(row, place)).collect(), &[met, &[cell]].concat()).0;
        }
        sum
    }
}

/// Every plan of a table that the check accepts, as cells. There are many even for few rows.
pub fn every_plan(table: &Table) -> Vec<Vec<u32>> {
    plans_below(&table.rows.iter().map(|row| row.arguments.iter().collect()).collect::<Lists>())
}

fn plans_below(rows: &[Vec<&Term>]) -> Vec<Vec<u32>> {
    let places = rows[0].len();
    if places == 0 {
        return vec![vec![rows.len() as u32]];
    }
    let taking = |place: usize| {
        let runs: Vec<_> = rows.chunk_by(|above, below| above[place].agrees(below[place])).collect();
        runs.iter().fold(vec![vec![place as u32, runs.len() as u32]], |begun, run| {
            let below = plans_below(&run.iter().map(|row| closed(row, place)).collect::<Lists>());
            let cell = run[0][place].cell();
            begun.iter().flat_map(|cells| below.iter().map(move |below| [cells, &[cell][..], below].concat())).collect()
        })
    };
    (0..places).flat_map(taking).collect()
}

/// The builder's plan for named columns out of the list of all plans: of those that the check for these columns accepts and that cost least, the
/// first one by what is taken at each state, from the first state on, a place that its rows agree on before others, and then by its index.
pub fn least_of_all(table: &Table, named: &Named, measure: Measure) -> Plan {
    fn taken(plan: &Plan, state: Range<usize>, places: &mut Vec<(bool, usize)>) {
        if let Some(branch) = plan.branches[state.clone()].first() {
            places.push((plan.at(state.clone()).count() > 1, branch.place()));
        }
        plan.at(state).for_each(|(_, below)| taken(plan, below, places));
    }
    let order = |plan: &Plan| {
        let mut places = Vec::new();
        taken(plan, plan.top(), &mut places);
        (measure.cost(plan), places)
    };
    let accepted = every_plan(table).into_iter().filter_map(|cells| check_for(table, named, &cells).ok());
    accepted.min_by_key(order).expect("every table has a plan")
}

pub(super) fn closed<'t>(row: &[&'t Term], place: usize) -> Vec<&'t Term> {
    let mut open = row[..place].to_vec();
    open.extend(row[place].arguments());
    open.extend(&row[place + 1..]);
    open
}
