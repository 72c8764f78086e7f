//! Cells as terms: taken apart, and written as people read them.

use crate::cell::Symbol;
use std::fmt::{Display, Write};

/// The terms that stand one after another among some cells, each as its cells. A number that is no cell is a term of its own, and what is
/// not complete at the end is the last one.
///
/// ```
/// use dudowiej::{name, terms, variable};
///
/// let row = [name(6, 1), variable(0), name(1, 0)];
/// let parts: Vec<&[u32]> = terms(&row).collect();
/// assert_eq!(parts, [&row[..2], &row[2..]]);
/// ```
pub fn terms(cells: &[u32]) -> Terms<'_> {
    Terms { rest: cells }
}

/// What [`terms`] goes over.
#[derive(Debug, Clone)]
pub struct Terms<'c> {
    rest: &'c [u32],
}

impl<'c> Iterator for Terms<'c> {
    type Item = &'c [u32];

    fn next(&mut self) -> Option<&'c [u32]> {
        let (mut end, mut wanted) = (0, 1);
        while wanted > 0 && end < self.rest.len() {
            wanted += Symbol::of(self.rest[end]).map_or(0, Symbol::arguments) as usize;
            wanted -= 1;
            end += 1;
        }
        let (term, rest) = self.rest.split_at(end);
        self.rest = rest;
        (end > 0).then_some(term)
    }
}

/// Terms as Prolog writes them, with a comma and a blank between two: names by the words that are given for them, variables as `_0`, `_1`.
/// What is no cell is `?`.
///
/// ```
/// use dudowiej::{name, show, variable, whole};
///
/// let words = ["red", "bowl"];
/// let row = [whole(-1), name(1, 2), name(0, 0), variable(0), variable(1)];
/// assert_eq!(show(&row, |number| words[usize::from(number)]), "-1, bowl(red, _0), _1");
/// ```
pub fn show<W: Display>(cells: &[u32], word: impl Fn(u16) -> W) -> String {
    let mut text = String::new();
    // How many arguments are still to come, of each name whose bracket is open.
    let mut open: Vec<u32> = Vec::new();
    let mut between = "";
    for &cell in cells {
        text.push_str(between);
        between = ", ";
        let written = match Symbol::of(cell) {
            Some(Symbol::Variable(number)) => write!(text, "_{number}"),
            Some(Symbol::Name { number, .. }) => write!(text, "{}", word(number)),
            Some(Symbol::Whole(value)) => write!(text, "{value}"),
            None => write!(text, "?"),
        };
        written.expect("a string takes everything");
        match Symbol::of(cell).map_or(0, Symbol::arguments) {
            0 => close(&mut text, &mut open),
            arguments => {
                text.push('(');
                open.push(arguments);
                between = "";
            }
        }
    }
    text
}

/// A term has ended: so have the names whose last argument it is.
fn close(text: &mut String, open: &mut Vec<u32>) {
    while let Some(arguments) = open.last_mut() {
        *arguments -= 1;
        if *arguments > 0 {
            break;
        }
        open.pop();
        text.push(')');
    }
}
