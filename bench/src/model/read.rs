//! The reading of tables and goals (01, "Tables and goals"; 02, W-208: no row without variables stands twice; W-209: a row may repeat a variable).

use super::refusal::{Input, Number, Refusal};
use super::term::{Symbol, Term};

/// The most cells of a row and of a goal.
pub const ROW_CELLS: usize = 32;
/// The most cells of a table.
pub const TABLE_CELLS: usize = 2050;
/// The most rows of a table.
pub const ROWS: usize = 64;

pub struct Table {
    pub width: usize,
    pub rows: Vec<Row>,
}

pub struct Row {
    /// The index of the row's first cell in the table.
    pub start: usize,
    /// The number of the row's cells.
    pub cells: usize,
    pub variables: usize,
    /// How many of its cells are a variable that stands before in the row.
    pub again: usize,
    pub arguments: Vec<Term>,
}

impl Row {
    /// The row with every variable another one.
    pub fn apart(&self) -> Row {
        fn told_apart(term: &Term, variables: &mut u16) -> Term {
            match term {
                Term::Var(_) => {
                    *variables += 1;
                    Term::Var(*variables - 1)
                }
                Term::Name(number, arguments) => Term::Name(*number, arguments.iter().map(|argument| told_apart(argument, variables)).collect()),
                Term::Number(value) => Term::Number(*value),
            }
        }
        let mut variables = 0;
        let arguments = self.arguments.iter().map(|argument| told_apart(argument, &mut variables)).collect();
        Row { variables: variables as usize, again: 0, arguments, ..*self }
    }
}

pub struct Goal {
    pub cells: usize,
    pub variables: usize,
    pub arguments: Vec<Term>,
}

/// Reads terms from left to right; one for a table, one for a goal.
struct Reader<'c> {
    input: Input,
    cells: &'c [u32],
    at: usize,
    /// Where a row that is not complete is LONG.
    long_at: usize,
    /// The variables met so far, in this row or goal, and how often one was met again.
    variables: u16,
    again: usize,
}

impl Reader<'_> {
    fn refusal(&self, number: Number) -> Refusal {
        Refusal { number, input: self.input, place: self.at }
    }

    fn terms(&mut self, count: usize) -> Result<Vec<Term>, Refusal> {
        let mut terms = Vec::with_capacity(count);
        for _ in 0..count {
            terms.push(self.term()?);
        }
        Ok(terms)
    }

    fn term(&mut self) -> Result<Term, Refusal> {
        if self.at == self.long_at {
            return Err(self.refusal(Number::Long));
        }
        let Some(&cell) = self.cells.get(self.at) else {
            return Err(self.refusal(Number::Short));
        };
        match Symbol::of(cell) {
            None => Err(self.refusal(Number::Cell)),
            Some(Symbol::Variable(number)) => {
                self.variable(number)?;
                self.at += 1;
                Ok(Term::Var(number))
            }
            Some(Symbol::Number(value)) => {
                self.at += 1;
                Ok(Term::Number(value))
            }
            Some(Symbol::Name { number, arguments }) => {
                self.at += 1;
                Ok(Term::Name(number, self.terms(arguments)?))
            }
        }
    }

    /// A variable is the next new one or one met before.
    fn variable(&mut self, number: u16) -> Result<(), Refusal> {
        if number > self.variables {
            return Err(self.refusal(Number::Fresh));
        }
        if number == self.variables {
            self.variables += 1;
        } else {
            self.again += 1;
        }
        Ok(())
    }

    fn nothing_left(&self) -> Result<(), Refusal> {
        if self.at < self.cells.len() {
            return Err(self.refusal(Number::Extra));
        }
        Ok(())
    }
}

pub fn read_table(cells: &[u32]) -> Result<Table, Refusal> {
    let refused = |number, place| Err(Refusal { number, input: Input::Table, place });
    if cells.len() < 2 || cells.len() > TABLE_CELLS {
        return refused(Number::Length, 0);
    }
    if !(1..=8).contains(&cells[0]) {
        return refused(Number::Width, 0);
    }
    if !(1..=64).contains(&cells[1]) {
        return refused(Number::Count, 1);
    }
    let width = cells[0] as usize;
    let mut rows = Vec::with_capacity(cells[1] as usize);
    let mut reader = Reader { input: Input::Table, cells, at: 2, long_at: 0, variables: 0, again: 0 };
    for _ in 0..cells[1] {
        let start = reader.at;
        reader.long_at = start + ROW_CELLS;
        (reader.variables, reader.again) = (0, 0);
        let arguments = reader.terms(width)?;
        if reader.variables == 0 && rows.iter().any(|row: &Row| row.arguments == arguments) {
            return refused(Number::Same, start);
        }
        rows.push(Row { start, cells: reader.at - start, variables: reader.variables as usize, again: reader.again, arguments });
    }
    reader.nothing_left()?;
    Ok(Table { width, rows })
}

/// The tests of a row beside others (02, W-207 and W-208), places from its start.
pub fn read_row(width: usize, others: &[Vec<u32>], cells: &[u32]) -> Result<(), Refusal> {
    let mut reader = Reader { input: Input::Table, cells, at: 0, long_at: ROW_CELLS, variables: 0, again: 0 };
    reader.terms(width)?;
    if reader.variables == 0 && others.iter().any(|other| *other == cells[..reader.at]) {
        return Err(Refusal { number: Number::Same, input: Input::Table, place: 0 });
    }
    reader.nothing_left()
}

/// A goal, read with its table's width.
pub fn read_goal(width: usize, cells: &[u32]) -> Result<Goal, Refusal> {
    if cells.is_empty() || cells.len() > ROW_CELLS {
        return Err(Refusal { number: Number::Length, input: Input::Goal, place: 0 });
    }
    let mut reader = Reader { input: Input::Goal, cells, at: 0, long_at: usize::MAX, variables: 0, again: 0 };
    let arguments = reader.terms(width)?;
    reader.nothing_left()?;
    Ok(Goal { cells: cells.len(), variables: reader.variables as usize, arguments })
}
