//! Columns that are always filled in (02, W-213): the places that may be chosen, the least plan of this kind, and the kind by the order of columns
//! on every way down a plan.

use std::collections::{BTreeSet, HashMap};
use std::ops::Range;

use super::least::Measure;
use super::plan::{grow, Plan};
use super::read::Table;
use super::refusal::{Input, Number, Refusal};
use super::term::Term;

/// The places inside the named columns of a table, by the address of what stands there: a row's argument, and every term below it. Rows of one
/// state have the same places open, so any of them can be asked.
#[derive(Default)]
pub struct Named(BTreeSet<*const Term>);

impl Named {
    /// The columns of these numbers, in whatever order and however often.
    pub fn of(table: &Table, columns: &[u32]) -> Result<Named, Refusal> {
        let columns: BTreeSet<usize> = columns.iter().map(|&column| column as usize).collect();
        if columns.iter().any(|&column| column >= table.width) {
            return Err(Refusal { number: Number::Column, input: Input::Columns, place: 0 });
        }
        let mut named = Named::default();
        for row in &table.rows {
            columns.iter().for_each(|&column| named.add(&row.arguments[column]));
        }
        Ok(named)
    }

    fn add(&mut self, term: &Term) {
        self.0.insert(term);
        term.arguments().iter().for_each(|argument| self.add(argument));
    }

    /// The open places that may be chosen, where a row holds these terms: those inside named columns; all, where none is inside.
    pub fn choosable(&self, open: &[&Term]) -> Vec<usize> {
        let inside: Vec<usize> = (0..open.len()).filter(|&place| self.0.contains(&(open[place] as *const Term))).collect();
        if inside.is_empty() {
            (0..open.len()).collect()
        } else {
            inside
        }
    }

    /// Whether no column is named.
    pub fn is_empty(&self) -> bool {
        self.0.is_empty()
    }
}

/// The builder's plan of this kind.
pub fn least_for(table: &Table, named: &Named, measure: Measure) -> Plan {
    least_where(table, measure, |open| named.choosable(&firsts(open)))
}

/// What a state's rows hold at an open place.
pub type Held<'s, 't> = &'s [&'t Term];

/// What the first of them holds at each.
fn firsts<'t>(open: &[Held<'_, 't>]) -> Vec<&'t Term> {
    open.iter().map(|held| held[0]).collect()
}

/// The builder's plan where these places alone may be chosen: top-down from state to state, an agreed place taken at once, and a least cost kept
/// for every state that is met, whichever pair of rows it has.
pub fn least_where(table: &Table, measure: Measure, may: impl Fn(&[Held]) -> Vec<usize>) -> Plan {
    let mut states = States { measure, may, known: HashMap::new() };
    grow(table, |open, rows| {
        let held = |place| rows.clone().map(|row| open.at(row, place)).collect();
        let held: Vec<Vec<&Term>> = (0..open.places(rows)).map(held).collect();
        let held: Vec<Held> = held.iter().map(Vec::as_slice).collect();
        if rows.len() == 1 {
            (states.may)(&held)[0]
        } else {
            states.best(&held).1
        }
    })
}

struct States<M> {
    measure: Measure,
    may: M,
    /// The least cost of a state of several rows and the place to take, by the addresses of what its first row holds at the open places, and its
    /// number of rows.
    known: HashMap<(Vec<*const Term>, usize), (usize, usize)>,
}

impl<M: Fn(&[Held]) -> Vec<usize>> States<M> {
    fn best(&mut self, open: &[Held]) -> (usize, usize) {
        let key = (open.iter().map(|held| held[0] as *const Term).collect(), open.first().map_or(0, |held| held.len()));
        if let Some(&known) = self.known.get(&key) {
            return known;
        }
        let may = (self.may)(open);
        let found = match may.iter().find(|&&place| agree(open[place])) {
            Some(&place) => (self.cost(open, place), place),
            // No place at all: rows that agree on everything, one leaf.
            None => may.iter().map(|&place| (self.cost(open, place), place)).min().unwrap_or((0, 0)),
        };
        self.known.insert(key, found);
        found
    }

    /// What a state costs if this place is taken.
    fn cost(&mut self, open: &[Held], place: usize) -> usize {
        let (mut sum, mut runs, mut start) = (0, 0, 0);
        for run in open[place].chunk_by(|above, below| above.agrees(below)) {
            let rows = start..start + run.len();
            start = rows.end;
            sum += self.branch(&open.iter().map(|held| &held[rows.clone()]).collect::<Vec<_>>(), place);
            runs += 1;
        }
        self.measure.figure(runs) + sum
    }

    /// What the branch at a place costs, with all below it, for a run of rows.
    fn branch(&mut self, open: &[Held], place: usize) -> usize {
        let run = open[place];
        if run.len() == 1 {
            return alone(self.measure, open.iter().map(|held| held[0]), &mut Vec::new());
        }
        let argument = |number: usize| run.iter().map(|term| &term.arguments()[number]).collect();
        let arguments: Vec<Vec<&Term>> = (0..run[0].arguments().len()).map(argument).collect();
        let below: Vec<Held> = [&open[..place], &arguments.iter().map(Vec::as_slice).collect::<Vec<_>>(), &open[place + 1..]].concat();
        self.measure.weight(run[0].cell(), &[]) + self.best(&below).0
    }
}

/// Whether all the rows agree; a single one does.
pub fn agree(held: Held) -> bool {
    held.windows(2).all(|pair| pair[0].agrees(pair[1]))
}

/// What a single row costs from here on, whatever the order of its places. Above it no variable was met: of several rows none is agreed on.
fn alone<'t>(measure: Measure, terms: impl Iterator<Item = &'t Term>, met: &mut Vec<u32>) -> usize {
    let mut sum = 0;
    for term in terms {
        sum += measure.weight(term.cell(), met);
        met.push(term.cell());
        sum += alone(measure, term.arguments().iter(), met);
    }
    sum
}

/// Whether no place inside a named column is looked at below one outside, on any way down the plan: that says the same as that each place may be
/// chosen where it is, since every place is looked at in the end.
pub fn named_come_first(table: &Table, columns: &[u32], plan: &Plan) -> bool {
    named_first_from(columns, plan, plan.top(), &vec![1; table.width], false)
}

/// From a state on, by how many places are open in each column, and whether one outside was looked at above.
fn named_first_from(columns: &[u32], plan: &Plan, state: Range<usize>, open: &[usize], outside: bool) -> bool {
    plan.at(state).all(|(branch, below)| {
        let column = (0..open.len()).find(|&column| branch.place() < open[..=column].iter().sum()).expect("the place is open");
        let inside = columns.contains(&(column as u32));
        let mut left = open.to_vec();
        left[column] += branch.argument_count();
        left[column] -= 1;
        !(inside && outside) && named_first_from(columns, plan, below, &left, outside || !inside)
    })
}

#[cfg(test)]
mod tests {
    use super::*;
    use crate::model::least::{every_plan, least_by, least_for_by_search, least_of_all};
    use crate::model::plan::{check, check_for};
    use crate::model::read::read_table;
    use crate::notation::table;

    const TABLES: [&str; 6] = [
        "(a,c) (b,c) (a,d) (b,d)",
        "(a,b) (b,b) (c,b)",
        "(a,f1(a)) (b,f1(a)) (b,f1(b))",
        "(a,b,c) (a,c,c) (b,b,d)",
        "(f2(a,v0),v0) (f2(a,b),a) (f2(b,b),v0)",
        "(v0,v0,a) (b,v0,v0)",
    ];

    /// Every list of columns in order, none and all among them.
    fn lists(width: usize) -> Vec<Vec<u32>> {
        (0..1 << width).map(|set: u32| (0..width as u32).filter(|column| set >> column & 1 == 1).collect()).collect()
    }

    #[test]
    fn the_kind_in_two_ways() {
        for rows in TABLES {
            let table = read_table(&table(rows)).unwrap();
            for columns in lists(table.width) {
                let named = Named::of(&table, &columns).unwrap();
                for cells in every_plan(&table) {
                    let plan = check(&table, &cells).unwrap();
                    assert_eq!(check_for(&table, &named, &cells).is_ok(), named_come_first(&table, &columns, &plan), "{rows} {columns:?} {cells:?}");
                }
            }
        }
    }

    #[test]
    fn the_least_plan_in_four_ways() {
        for rows in TABLES {
            let table = read_table(&table(rows)).unwrap();
            for columns in lists(table.width) {
                let named = Named::of(&table, &columns).unwrap();
                for measure in [Measure::Branches, Measure::Work(0), Measure::Work(1), Measure::Work(2), Measure::Work(15)] {
                    let found = least_for(&table, &named, measure);
                    assert_eq!(found, least_for_by_search(&table, &named, measure), "{rows} {columns:?} {measure:?}");
                    assert_eq!(found, least_of_all(&table, &named, measure), "{rows} {columns:?} {measure:?}");
                    if columns.is_empty() || columns.len() == table.width {
                        assert_eq!(found, least_by(&table, measure), "{rows} {measure:?}");
                    }
                }
            }
        }
    }
}
