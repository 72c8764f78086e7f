//! What one branch takes: tables on which a run tries branches of one sort; and what rows that repeat a variable take.

use crate::cases::{Case, Measure};
use crate::make::{big, goals};

const ROWS: usize = 64;

/// A sort of branches: a table and a goal whose run tries every branch of the least plan.
pub struct Sort {
    name: &'static str,
    case: Case,
}

impl Sort {
    /// The walk, as `Case` measures it: all the branches at once.
    pub fn walk(&self) -> Measure<'_> {
        let walk = self.case.walks().pop().expect("one goal");
        Measure { name: self.name.to_string(), ..walk }
    }

    /// How many branches that is.
    pub fn tried(&self) -> usize {
        self.case.tried()
    }
}

/// Neighbouring rows agree in the first column at most, so that each row has branches of its own. The goals have a symbol there: the goal of
/// distinct variables is answered without a walk.
pub fn sorts() -> [Sort; 4] {
    let sort = |name, width, row: fn(u32) -> Vec<u32>, goal| Sort { name, case: Case::with_goal(table(width, row), goal) };
    [
        sort("the test fails", 1, |row| vec![flat(row)], vec![flat(ROWS as u32)]),
        sort("on below, flat and in front", 8, |row| [vec![FIRST], vec![flat(row); 7]].concat(), first_then_open(7)),
        // Every other branch is the argument of the name before it.
        sort("on below, a name and its argument", 4, |row| [vec![FIRST], [with_argument(row), flat(row)].repeat(3)].concat(), first_then_open(3)),
        sort("on below, a row's variable", 8, |_| first_then_open(7), first_then_open(7)),
    ]
}

/// The symbol that every row has in the first column.
const FIRST: u32 = 1 << 30 | ROWS as u32;

fn first_then_open(width: usize) -> Vec<u32> {
    [vec![FIRST], goals::open(width)].concat()
}

pub fn flat(number: u32) -> u32 {
    1 << 30 | number
}

pub fn with_argument(number: u32) -> u32 {
    1 << 30 | 1 << 16 | number
}

fn table(width: u32, row: impl Fn(u32) -> Vec<u32>) -> Vec<u32> {
    let mut cells = vec![width, ROWS as u32];
    cells.extend((0..ROWS as u32).flat_map(row));
    cells
}

/// Rows with one variable twice, and seven times, beside the same with all variables told apart: 64 rows each, and a goal of one sort.
pub struct Repeats {
    pub name: &'static str,
    /// Two meetings told apart, two of one variable, seven told apart, seven of one variable.
    cases: [Case; 4],
}

impl Repeats {
    pub fn walks(&self) -> [Measure<'_>; 4] {
        self.cases.each_ref().map(|case| case.walks().pop().expect("one goal"))
    }

    /// From the four walks: what a row's start takes besides its meetings, what a later meeting takes, and a variable that is told apart.
    pub fn parts(walks: [f64; 4]) -> [f64; 3] {
        let [two_apart, two, seven_apart, seven] = walks.map(|walk| walk / ROWS as f64);
        let (later, apart) = ((seven - two) / 5.0, (seven_apart - two_apart) / 5.0);
        [two - two_apart - (later - apart), later, apart]
    }
}

pub fn repeats() -> Vec<Repeats> {
    let sort = |name, term: &dyn Fn(u32) -> Vec<u32>| {
        let case = |count: u32, same: bool| {
            let row = move |_| [vec![FIRST], (0..count).map(|number| if same { 0 } else { number }).collect()].concat();
            let goal = [vec![FIRST], (0..count).flat_map(term).collect()].concat();
            Case::with_goal(table(count + 1, row), goal)
        };
        Repeats { name, cases: [case(2, false), case(2, true), case(7, false), case(7, true)] }
    };
    vec![
        sort("variables of the goal, each another", &|number| vec![number]),
        sort("names without arguments", &|_| vec![flat(1)]),
        sort("a variable and then names", &|number| vec![if number == 0 { 0 } else { flat(1) }]),
        sort("names of three arguments", &|_| vec![FIRST | 3 << 16, flat(1), flat(2), flat(3)]),
        sort("names one in another", &|_| vec![with_argument(1), with_argument(1), with_argument(1), flat(2)]),
    ]
}

/// 64 rows whose common instance with the goal has over a million cells each.
pub fn million() -> Case {
    let (table, goal) = big::million(ROWS);
    Case::with_goal(table, goal)
}

#[cfg(test)]
mod tests {
    use super::{million, repeats, sorts, Case};

    #[test]
    fn every_branch_is_tried() {
        assert_eq!(sorts().map(|sort| sort.tried()), [64, 449, 385, 449]);
        for sort in repeats() {
            assert_eq!(sort.cases.each_ref().map(Case::tried), [129, 129, 449, 449], "{}", sort.name);
        }
        assert_eq!(million().tried(), 1606);
    }
}
