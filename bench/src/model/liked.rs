//! The plan that a list of goals likes best: of the least plans for every set of columns (02, W-213) the one by which the goals of a list (W-202)
//! try the fewest branches, all together; and the fewest that they try by any plan at all.

use std::collections::{BTreeMap, HashMap};

use super::columns::{least_for, Named};
use super::least::{closed, least_by, Lists, Measure};
use super::plan::Plan;
use super::read::{read_goal, read_table, Goal, Table};
use super::refusal::{Answer, Refusal};
use super::run::{renamed, FRESH};
use super::term::Term;
use super::unify::unifies;
use super::walk::walk;

/// What is found beside the plan: its columns, bit c for column c; the branches tried in all; and those by the plain plan.
#[repr(C)]
#[derive(Clone, Copy, Debug, Default, PartialEq, Eq)]
pub struct Liked {
    pub columns: usize,
    pub tried: usize,
    pub plain: usize,
}

/// How the branches that a goal tries are counted.
pub type Tried = fn(&Table, &Plan, &Goal) -> usize;

/// By a walk down the plan.
pub fn by_walk(_: &Table, plan: &Plan, goal: &Goal) -> usize {
    walk(plan, goal, &mut Vec::new())
}

/// The goals of a list that are accepted, each with how often it is listed. A list is a start and a count for each, and what is left over is none.
pub fn accepted(width: usize, cells: &[u32], list: &[usize]) -> Vec<(Goal, u128)> {
    let mut times: BTreeMap<(usize, usize), u128> = BTreeMap::new();
    list.chunks_exact(2).for_each(|goal| *times.entry((goal[0], goal[1])).or_default() += 1);
    let goal = |(start, count): (usize, usize)| read_goal(width, cells.get(start..)?.get(..count)?).ok();
    times.into_iter().filter_map(|(part, times)| Some((goal(part)?, times))).collect()
}

/// What goals try in all by a plan; a number of 64 bits goes no further than its largest.
fn total(table: &Table, plan: &Plan, goals: &[(Goal, u128)], tried: Tried) -> usize {
    let sum: u128 = goals.iter().map(|(goal, times)| times * tried(table, plan, goal) as u128).sum();
    usize::try_from(sum).unwrap_or(usize::MAX)
}

/// The least plans for every set of columns, by their bits, and what a list tries by each.
pub struct Sets {
    measure: Measure,
    pub plans: Vec<Plan>,
    pub totals: Vec<usize>,
}

impl Sets {
    pub fn new(table: &Table, measure: Measure, goals: &[(Goal, u128)], tried: Tried) -> Sets {
        let plan = |set: u32| {
            let columns: Vec<u32> = (0..table.width as u32).filter(|column| set >> column & 1 == 1).collect();
            match columns[..] {
                [] => least_by(table, measure),
                _ => least_for(table, &Named::of(table, &columns).expect("columns of the table"), measure),
            }
        };
        let plans: Vec<Plan> = (0..1 << table.width).map(plan).collect();
        let totals = plans.iter().map(|plan| total(table, plan, goals, tried)).collect();
        Sets { measure, plans, totals }
    }

    /// The set whose plan is liked best. The plain plan is that of none.
    pub fn best(&self) -> usize {
        (0..self.totals.len()).min_by_key(|&set| (self.totals[set], set)).expect("there are sets")
    }

    /// What the plan of a set costs.
    pub fn cost(&self, set: usize) -> usize {
        self.measure.cost(&self.plans[set])
    }

    pub fn liked(&self) -> Liked {
        let columns = self.best();
        Liked { columns, tried: self.totals[columns], plain: self.totals[0] }
    }
}

/// The sets for a record's table and figure.
pub fn sets(table: &[u32], figure: u32, cells: &[u32], list: &[usize], tried: Tried) -> Result<Sets, Refusal> {
    let measure = super::measure(figure)?;
    let table = read_table(table)?;
    Ok(Sets::new(&table, measure, &accepted(table.width, cells, list), tried))
}

/// Writes the plan that is liked best, and what was found; its cells and its cost.
pub fn lend(sets: &Result<Sets, Refusal>, room: &mut [u32], liked: &mut Liked) -> Answer {
    let sets = sets.as_ref().map_err(|&refusal| refusal)?;
    let cells = sets.plans[sets.best()].write();
    super::written(room, &cells)?;
    *liked = sets.liked();
    Ok((cells.len(), sets.cost(sets.best())))
}

/// The fewest branches that goals try by any plan of a table, by a search through all: a state's branches count once for each goal that unifies with
/// what is decided above it. For small tables.
pub fn fewest(table: &Table, goals: &[(Goal, u128)]) -> u128 {
    let goals = goals.iter().map(|(goal, times)| (renamed(goal), *times)).collect();
    let mut search = Search { table, goals, known: HashMap::new() };
    search.fewest(0, &table.rows.iter().map(|row| row.arguments.iter().collect()).collect())
}

struct Search<'t> {
    table: &'t Table,
    goals: Vec<(Vec<Term>, u128)>,
    /// By the addresses of the terms that are open in a state's first row, and its number of rows. What is decided is what is not open.
    known: HashMap<(Vec<*const Term>, usize), u128>,
}

impl Search<'_> {
    /// From a state on, by its first row's number and what its rows hold at the open places.
    fn fewest(&mut self, first: usize, rows: &Lists) -> u128 {
        let open: Vec<*const Term> = rows[0].iter().map(|&term| term as *const Term).collect();
        if open.is_empty() {
            return 0;
        }
        let key = (open, rows.len());
        if let Some(&known) = self.known.get(&key) {
            return known;
        }
        let goals = self.reach(first, &key.0);
        let tried = |place: usize| {
            let (mut sum, mut start) = (0, first);
            for run in rows.chunk_by(|above, below| above[place].agrees(below[place])) {
                sum += goals + self.fewest(start, &run.iter().map(|row| closed(row, place)).collect());
                start += run.len();
            }
            sum
        };
        let found = (0..rows[0].len()).map(tried).min().expect("an open place");
        self.known.insert(key, found);
        found
    }

    /// How many goals unify with what is decided of a row: the row itself with a fresh variable at each open place.
    fn reach(&self, row: usize, open: &[*const Term]) -> u128 {
        let mut fresh = FRESH;
        let decided: Vec<Term> = self.table.rows[row].arguments.iter().map(|term| opened(term, open, &mut fresh)).collect();
        self.goals.iter().filter(|(goal, _)| unifies(&decided, goal)).map(|(_, times)| times).sum()
    }
}

fn opened(term: &Term, open: &[*const Term], fresh: &mut u16) -> Term {
    match term {
        _ if open.contains(&(term as *const Term)) => {
            *fresh += 1;
            Term::Var(*fresh)
        }
        Term::Name(number, arguments) => Term::Name(*number, arguments.iter().map(|argument| opened(argument, open, fresh)).collect()),
        Term::Var(_) | Term::Number(_) => term.clone(),
    }
}

#[cfg(test)]
mod tests {
    use super::*;
    use crate::model::least::every_plan;
    use crate::model::plan::check;
    use crate::model::run::tried;
    use crate::notation::{goal, table};

    /// The goals one after another, and their list.
    fn listed(goals: &[&str]) -> (Vec<u32>, Vec<usize>) {
        let (mut cells, mut list) = (Vec::new(), Vec::new());
        for text in goals {
            let goal = goal(text);
            list.extend([cells.len(), goal.len()]);
            cells.extend(goal);
        }
        (cells, list)
    }

    const CASES: [(&str, &[&str]); 5] = [
        ("(a,b) (a,c)", &["(a,d)", "(a,d)", "(a,d)"]),
        ("(a,c) (b,c) (a,d) (b,d)", &["(a,v0)", "(v0,c)", "(b,d)", "(v0,v0)", "(c,c)"]),
        ("(a,f1(a)) (b,f1(a)) (b,f1(b))", &["(v0,f1(v0))", "(a,v0)", "(v0,v1)", "(b,b)", "(v0,f1(c))"]),
        ("(f2(a,v0),v0) (f2(a,b),a) (f2(b,b),v0)", &["(f2(v0,c),a)", "(v0,v0)", "(f2(b,v0),v1)", "(v0,f1(v1))"]),
        ("(a,b,c) (a,c,c) (b,b,d)", &["(v0,b,v1)", "(v0,v1,d)", "(a,b,v0)", "(v0,v0,v0)", "(c,v0,v1)"]),
    ];

    #[test]
    fn the_fewest_of_all_plans() {
        for (rows, goals) in CASES {
            let table = read_table(&table(rows)).unwrap();
            for count in 0..=goals.len() {
                let (cells, list) = listed(&goals[..count]);
                let goals = accepted(table.width, &cells, &list);
                let totals = every_plan(&table).into_iter().map(|plan| total(&table, &check(&table, &plan).unwrap(), &goals, tried));
                assert_eq!(fewest(&table, &goals), totals.min().unwrap() as u128, "{rows} {count}");
                for measure in [Measure::Branches, Measure::Work(0), Measure::Work(15)] {
                    let sets = Sets::new(&table, measure, &goals, tried);
                    assert!(fewest(&table, &goals) <= sets.liked().tried as u128 && sets.liked().tried <= sets.liked().plain);
                    assert_eq!(sets.totals, Sets::new(&table, measure, &goals, by_walk).totals);
                }
            }
        }
    }

    #[test]
    fn goals_of_a_list() {
        let (cells, mut list) = listed(&["(a,b)", "(v0)", "(c,v0)"]);
        list.extend([0, 2, 4, 2, usize::MAX, 1, 1, usize::MAX, 5, 0, 0]);
        let found: Vec<(usize, u128)> = accepted(2, &cells, &list).iter().map(|(goal, times)| (goal.variables, *times)).collect();
        assert_eq!(found, [(0, 2), (1, 1)]);
    }
}
