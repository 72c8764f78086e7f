//! Families that are small enough to be compared whole: every table, goal and plan of a few cells over a few symbols, and every single damage to
//! some plans.

use super::{Comparison, FIGURES};
use crate::engine::Engine;
use crate::make::{goals, records};
use crate::model::least::least;
use crate::model::plan::grow;
use crate::model::read::read_table;

const A: u32 = 1 << 30 | 1;
const B: u32 = 1 << 30 | 2;
const F1: u32 = 1 << 30 | 1 << 16 | 1;
const NINE: u32 = 2 << 30 | 9;
const NONE: u32 = 3 << 30;

impl<E: Engine> Comparison<'_, E> {
    pub(super) fn small_families(&mut self) {
        self.short_tables();
        self.short_goals();
        self.short_plans();
        self.damaged_plans();
    }

    /// Every table of up to seven cells with width 1 and up to 3 rows, or with width 2 and up to 2; those accepted are built, checked and run.
    fn short_tables(&mut self) {
        for header in [[1, 1], [1, 2], [1, 3], [2, 1], [2, 2]] {
            words(&[0, 1, A, F1, NINE, NONE], 5, &mut |row_cells| {
                let table = [&header, row_cells].concat();
                self.read_table(&table);
                let Ok(read) = read_table(&table) else {
                    return;
                };
                self.search(&read);
                self.build(&table, &FIGURES);
                let (record, plan) = (records::holding(&mut self.random, &table), least(&read).write());
                self.check_plan(&record, &plan);
                self.run(&record, &plan, &goals::open(read.width), read.rows.len());
                self.run(&record, &plan, &vec![0; read.width], read.rows.len());
                self.replies(&record, &plan, &vec![0; read.width]);
            });
        }
        words(&[0, 1, 2, u32::MAX], 2, &mut |table| self.read_table(table));
    }

    /// Every goal of up to five cells for a table with repeated names, numbers and variables, and for one whose rows repeat their variables.
    fn short_goals(&mut self) {
        self.goals_for(&[2, 5, A, F1, 0, 0, 1, F1, A, NINE, F1, 0, A, F1, F1, A, A], 0);
        let repeating = [2, 6, 0, 0, F1, 0, 0, 0, F1, 0, F1, 0, F1, 0, F1, F1, 0, 0, A, 0];
        self.goals_for(&repeating, 0);
        self.goals_for(&repeating, 1);
    }

    /// By the plan that takes the place of this index at each state, or the last.
    fn goals_for(&mut self, table: &[u32], place: usize) {
        let read = read_table(table).expect("a sound table");
        let plan = grow(&read, |open, rows| place.min(open.places(rows) - 1)).write();
        let record = records::holding(&mut self.random, table);
        words(&[0, 1, 2, A, F1, NINE, NONE], 5, &mut |goal| {
            self.read_goal(&record, goal);
            self.run(&record, &plan, goal, read.rows.len());
            self.replies(&record, &plan, goal);
        });
    }

    /// Every plan of up to five cells for some small tables.
    fn short_plans(&mut self) {
        let tables: [(&[u32], [u32; 6]); 4] = [
            (&[1, 1, 0], [0, 1, 2, 3, A, NINE]),
            (&[1, 2, 0, 0], [0, 1, 2, 3, A, B]),
            (&[1, 2, A, NINE], [0, 1, 2, A, NINE, NONE]),
            (&[2, 2, A, B, A, A], [0, 1, 2, A, B, F1]),
        ];
        for (table, alphabet) in tables {
            let record = records::holding(&mut self.random, table);
            words(&alphabet, 5, &mut |plan| self.check_plan(&record, plan));
        }
    }

    /// Some plans cut at every place, and with every cell replaced by each of some others.
    fn damaged_plans(&mut self) {
        let tables: [&[u32]; 4] = [
            &[2, 3, A, B, B, A, A, A],
            &[1, 3, F1, A, F1, B, A],
            &[2, 4, 0, A, A, A, A, B, F1, 0, 1],
            &[3, 4, A, B, NINE, A, B, B, A, NINE, NINE, B, A, NINE],
        ];
        for table in tables {
            let read = read_table(table).expect("a sound table");
            let record = records::holding(&mut self.random, table);
            for last in [false, true] {
                let plan = grow(&read, |open, rows| if last { open.places(rows) - 1 } else { 0 }).write();
                for place in 0..plan.len() {
                    self.check_plan(&record, &plan[..place]);
                    for cell in [0, 1, 2, 3, 4, plan[place].wrapping_add(1), plan[place] ^ 1 << 16, A, B, F1, NINE, NONE, u32::MAX] {
                        let mut damaged = plan.clone();
                        damaged[place] = cell;
                        self.check_plan(&record, &damaged);
                        self.run(&record, &damaged, &goals::open(read.width), read.rows.len());
                    }
                }
                for cell in [0, A, u32::MAX] {
                    self.check_plan(&record, &[&plan[..], &[cell]].concat());
                }
            }
        }
    }
}

/// Every list of up to so many cells or bytes of an alphabet.
pub(crate) fn words<T: Copy>(alphabet: &[T], most: usize, visit: &mut impl FnMut(&[T])) {
    fn longer<T: Copy>(alphabet: &[T], left: usize, word: &mut Vec<T>, visit: &mut impl FnMut(&[T])) {
        visit(word);
        if left == 0 {
            return;
        }
        for &cell in alphabet {
            word.push(cell);
            longer(alphabet, left - 1, word, visit);
            word.pop();
        }
    }
    longer(alphabet, most, &mut Vec::new(), visit);
}
