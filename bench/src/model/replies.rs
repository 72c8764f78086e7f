//! What a hit says (02, W-203 and W-209), from those pages alone: equations between row and goal are solved one after another, and each solution
//! is put everywhere at once. It shares no unifier with the runs. It is held against the runs' unifier, applied to the goal. Equal terms are kept
//! once, so that a reply's cells are counted before any of them is written.

use std::collections::{BTreeSet, HashMap};

use super::read::{Goal, Table};
use super::refusal::{Answer, Input, Number, Refusal};
use super::term::Term;
use super::unify::Substitution;
use super::{plan, read, written};

/// Goal variables are moved apart from a row's, which are below 32.
const APART: u16 = 500;

/// The most cells of a reply.
pub const REPLY_CELLS: u64 = 1024;

/// What one row says: its cells, or how many it has where that is too many.
#[derive(Clone, Debug, PartialEq, Eq)]
pub enum Reply {
    Cells(Vec<u32>),
    Big(u64),
}

impl Reply {
    /// How many cells it has.
    pub fn length(&self) -> u64 {
        match self {
            Reply::Cells(cells) => cells.len() as u64,
            Reply::Big(length) => *length,
        }
    }
}

/// Writes the replies of all rows that unify with the goal, one after another; how many there are, and their cells.
pub fn replies(table: &[u32], plan: &[u32], goal: &[u32], room: &mut [u32]) -> Answer {
    let all = all(table, plan, goal)?;
    let cells = all.concat();
    written(room, &cells)?;
    Ok((all.len(), cells.len()))
}

/// The replies before any room is looked at: "Refusals: table, plan, goal", and BIG "exactly when a reply needs over 1,024 cells".
pub fn all(table: &[u32], plan: &[u32], goal: &[u32]) -> Result<Vec<Vec<u32>>, Refusal> {
    let cells = |reply| match reply {
        Reply::Cells(cells) => Ok(cells),
        Reply::Big(_) => Err(Refusal { number: Number::Big, input: Input::Goal, place: 0 }),
    };
    of_any_length(table, plan, goal)?.into_iter().map(cells).collect()
}

/// The same with no reply too long.
pub fn of_any_length(table: &[u32], plan: &[u32], goal: &[u32]) -> Result<Vec<Reply>, Refusal> {
    let table = read::read_table(table)?;
    plan::check(&table, plan)?;
    let goal = read::read_goal(table.width, goal)?;
    Ok(said(&table, &goal))
}

/// The reply of each row that unifies with the goal, from the top.
pub fn said(table: &Table, goal: &Goal) -> Vec<Reply> {
    table.rows.iter().filter_map(|row| common(&row.arguments, &goal.arguments)).collect()
}

/// The most general common instance, its variables numbered by first appearance; none where there is no common instance.
pub fn common(row: &[Term], goal: &[Term]) -> Option<Reply> {
    let mut terms = Terms::default();
    let row: Vec<usize> = row.iter().map(|term| terms.of(term)).collect();
    let mut made: Vec<usize> = goal.iter().map(|term| terms.of(&term.renamed(APART))).collect();
    let mut equations: BTreeSet<(usize, usize)> = row.into_iter().zip(made.iter().copied()).collect();
    while let Some((left, right)) = equations.pop_last() {
        let (variable, term) = if terms.is_variable(left) { (left, right) } else { (right, left) };
        if left == right {
        } else if terms.is_variable(variable) {
            if terms.stands_in(variable, term) {
                return None;
            }
            let mut put = Put { old: terms, new: Terms::default(), variable, term, images: HashMap::new() };
            equations = equations.iter().map(|&(left, right)| (put.image(left), put.image(right))).collect();
            made.iter_mut().for_each(|made| *made = put.image(*made));
            terms = put.new;
        } else if terms.cell(left) == terms.cell(right) {
            equations.extend(terms.arguments(left).iter().copied().zip(terms.arguments(right).iter().copied()));
        } else {
            return None;
        }
    }
    Some(terms.reply(&made))
}

/// Terms by number, equal ones once: a symbol's cell and the numbers of its arguments, which are below its own.
#[derive(Default)]
struct Terms {
    list: Vec<(u32, Vec<usize>)>,
    numbers: HashMap<(u32, Vec<usize>), usize>,
}

impl Terms {
    fn number(&mut self, cell: u32, arguments: Vec<usize>) -> usize {
        let next = self.list.len();
        let number = *self.numbers.entry((cell, arguments.clone())).or_insert(next);
        if number == next {
            self.list.push((cell, arguments));
        }
        number
    }

    fn of(&mut self, term: &Term) -> usize {
        let arguments = term.arguments().iter().map(|argument| self.of(argument)).collect();
        self.number(term.cell(), arguments)
    }

    fn cell(&self, term: usize) -> u32 {
        self.list[term].0
    }

    fn arguments(&self, term: usize) -> &[usize] {
        &self.list[term].1
    }

    fn is_variable(&self, term: usize) -> bool {
        self.cell(term) >> 30 == 0
    }

    /// Whether the variable is the term or a part of it.
    fn stands_in(&self, variable: usize, term: usize) -> bool {
        let mut holds = Vec::with_capacity(term + 1);
        for number in 0..=term {
            let held = number == variable || self.arguments(number).iter().any(|&argument| holds[argument]);
            holds.push(held);
        }
        holds[term]
    }

    /// These terms one after another, where they are not too many cells.
    fn reply(&self, terms: &[usize]) -> Reply {
        let mut lengths: Vec<u64> = Vec::with_capacity(self.list.len());
        for (_, arguments) in &self.list {
            lengths.push(1 + arguments.iter().map(|&argument| lengths[argument]).sum::<u64>());
        }
        let length = terms.iter().map(|&term| lengths[term]).sum();
        if length > REPLY_CELLS {
            return Reply::Big(length);
        }
        let mut cells = Vec::with_capacity(length as usize);
        terms.iter().for_each(|&term| self.write(term, &mut cells));
        number_variables(&mut cells);
        Reply::Cells(cells)
    }

    fn write(&self, term: usize, cells: &mut Vec<u32>) {
        cells.push(self.cell(term));
        self.arguments(term).iter().for_each(|&argument| self.write(argument, cells));
    }
}

/// A term put for a variable everywhere: the terms that are asked for, in a new list.
struct Put {
    old: Terms,
    new: Terms,
    variable: usize,
    term: usize,
    images: HashMap<usize, usize>,
}

impl Put {
    fn image(&mut self, term: usize) -> usize {
        let term = if term == self.variable { self.term } else { term };
        if let Some(&image) = self.images.get(&term) {
            return image;
        }
        let (cell, arguments) = self.old.list[term].clone();
        let arguments = arguments.into_iter().map(|argument| self.image(argument)).collect();
        let image = self.new.number(cell, arguments);
        self.images.insert(term, image);
        image
    }
}

/// By first appearance, from 0.
fn number_variables(cells: &mut [u32]) {
    let mut met = Vec::new();
    for cell in cells.iter_mut().filter(|cell| **cell >> 30 == 0) {
        if !met.contains(cell) {
            met.push(*cell);
        }
        *cell = met.iter().position(|other| other == cell).expect("it was met") as u32;
    }
}

/// Whether the reply is what the runs' unifier gives: "the goal with the hit's bindings filled in", and that an instance of row and goal; or as long
/// as that where it is too long.
pub fn holds(reply: &Reply, row: &[Term], goal: &[Term]) -> bool {
    let goal: Vec<Term> = goal.iter().map(|term| term.renamed(APART)).collect();
    let mut unifier = Substitution::default();
    if !unifier.unify_all(row, &goal) || unifier.cells(&goal) != reply.length() {
        return false;
    }
    let Reply::Cells(cells) = reply else {
        return reply.length() > REPLY_CELLS;
    };
    let filled: Vec<Term> = goal.iter().map(|term| unifier.applied(term)).collect();
    let mut written = Vec::new();
    filled.iter().for_each(|term| term.write(&mut written));
    number_variables(&mut written);
    written == *cells && is_instance(row, &filled) && is_instance(&goal, &filled)
}

/// Whether some terms in place of the variables of the first list, the same for the same variable, make it the second.
fn is_instance(general: &[Term], special: &[Term]) -> bool {
    fn matched<'t>(general: &[Term], special: &'t [Term], by: &mut Vec<(u16, &'t Term)>) -> bool {
        general.len() == special.len()
            && general.iter().zip(special).all(|(general, special)| match general {
                Term::Var(variable) => match by.iter().find(|(other, _)| other == variable) {
                    Some((_, term)) => *term == special,
                    None => {
                        by.push((*variable, special));
                        true
                    }
                },
                _ => general.cell() == special.cell() && matched(general.arguments(), special.arguments(), by),
            })
    }
    matched(general, special, &mut Vec::new())
}

#[cfg(test)]
mod tests {
    use super::*;
    use crate::make::big;
    use crate::model::least::least;
    use crate::model::read::{read_goal, read_table};

    #[test]
    fn lengths_without_writing() {
        let (table, goal) = big::million(64);
        let read = read_table(&table).expect("a sound table");
        let plan = least(&read).write();
        let replies = of_any_length(&table, &plan, &goal).expect("a sound plan and goal");
        assert_eq!(replies, vec![Reply::Big(1_864_131); 64]);
        assert!(holds(&replies[0], &read.rows[0].arguments, &read_goal(8, &goal).expect("a sound goal").arguments));
        assert_eq!(all(&table, &plan, &goal), Err(Refusal { number: Number::Big, input: Input::Goal, place: 0 }));
    }
}
