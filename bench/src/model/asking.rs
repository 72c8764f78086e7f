//! Goals and answers as Prolog text (docs/FORMAT.md, "Goals and answers as Prolog text"): a goal is read by the grammar of facts and its names are
//! looked up word by word; an answer is printed by a function that calls itself for the arguments of a name.

use std::collections::HashMap;

use super::grammar::stops;
use super::read::read_goal;
use super::refusal::{Answer, Input, Number, Refusal};
use super::replies::REPLY_CELLS;
use super::term::Symbol;
use super::text::{facts, predicate, row, TEXT_BYTES};
use super::{no_room, written};

/// The most names of a table.
pub const NAMES: usize = 2048;
/// The most bytes of a goal: with a line feed and a full stop it is a text.
pub const GOAL_BYTES: usize = TEXT_BYTES - 2;

/// Writes the goal's cells and the names that the facts have not; the number of each.
pub fn read_goal_text(text: &[u8], names: &[u32], goal: &[u8], cells: &mut [u32], new: &mut [u32]) -> Answer {
    let read = read(text, names, goal)?;
    if cells.len() < read.cells.len() {
        return Err(no_room(read.cells.len()));
    }
    written(new, &read.new)?;
    written(cells, &read.cells)?;
    Ok((read.cells.len(), read.new.len()))
}

/// A goal's cells, and the places in its bytes of the names that the facts have not.
pub struct Read {
    pub cells: Vec<u32>,
    pub new: Vec<u32>,
}

/// The goal, before any room is looked at.
pub fn read(text: &[u8], names: &[u32], goal: &[u8]) -> Result<Read, Refusal> {
    if names.len() > NAMES {
        return Err(Refusal { number: Number::Length, input: Input::Table, place: 0 });
    }
    let refused = |number, place| Err(Refusal { number, input: Input::Text, place });
    if goal.len() > GOAL_BYTES {
        return refused(Number::Bytes, 0);
    }
    let whole = whole(goal)?;
    let asked = facts(&whole);
    let first = &asked[0];
    // "A term of the facts' predicate": of a text that is refused there is none.
    if asked.len() > 1 || predicate(text) != Some((first.name, first.width)) {
        return refused(Number::Other, first.start);
    }
    // A word that is listed twice has the number of its first place.
    let mut numbers: HashMap<&[u8], usize> = HashMap::new();
    for (number, &entry) in names.iter().enumerate() {
        numbers.entry(word(text, entry)).or_insert(number);
    }
    let mut new = Vec::new();
    let cells = row(first, |symbol| {
        let next = names.len() + new.len();
        let number = *numbers.entry(symbol.word).or_insert(next);
        if number == next {
            new.push(symbol.start as u32 | (symbol.word.len() as u32) << 16);
        }
        number as u32
    });
    read_goal(first.width, &cells)?;
    Ok(Read { cells, new })
}

/// "Final `.` allowed, not wanted": the goal itself where it is a text, and otherwise with a full stop on the next line. TEXT where neither is one.
pub fn whole(goal: &[u8]) -> Result<Vec<u8>, Refusal> {
    let Some(place) = stops(goal) else {
        return Ok(goal.to_vec());
    };
    let stopped = [goal, b"\n."].concat();
    if place == goal.len() && stops(&stopped).is_none() {
        return Ok(stopped);
    }
    Err(Refusal { number: Number::Text, input: Input::Text, place })
}

/// What an entry of a list says of a text, as far as the text goes.
pub fn word(text: &[u8], entry: u32) -> &[u8] {
    let (start, bytes) = ((entry & 0xffff) as usize, (entry >> 16) as usize);
    &text[start.min(text.len())..(start + bytes).min(text.len())]
}

/// Writes an answer in the facts' names and the goal's new ones; how many cells it has, and how many bytes.
pub fn put_answer(text: &[u8], names: &[u32], goal: &[u8], new: &[u32], cells: &[u32], room: &mut [u8]) -> Answer {
    if cells.len() as u64 > REPLY_CELLS {
        return Err(Refusal { number: Number::Big, input: Input::Goal, place: 0 });
    }
    let (predicate, width) = predicate(text).unwrap_or((b"", 1));
    let words = names.iter().map(|&entry| word(text, entry)).chain(new.iter().map(|&entry| word(goal, entry)));
    let mut said = Said { words: words.collect(), cells: cells.iter(), text: [predicate, b"("].concat() };
    if said.terms(width).is_some() {
        said.text.push(b')');
    }
    // What is left has no bracket and nothing between its terms.
    while said.terms(1).is_some() {}
    written(room, &said.text)?;
    Ok((cells.len(), said.text.len()))
}

struct Said<'a> {
    words: Vec<&'a [u8]>,
    cells: std::slice::Iter<'a, u32>,
    text: Vec<u8>,
}

impl Said<'_> {
    /// So many terms, `, ` between two of them; none where the cells end before.
    fn terms(&mut self, count: usize) -> Option<()> {
        for number in 0..count {
            if number > 0 {
                self.text.extend(b", ");
            }
            let cell = *self.cells.next()?;
            self.term(cell)?;
        }
        Some(())
    }

    fn term(&mut self, cell: u32) -> Option<()> {
        match Symbol::of(cell) {
            Some(Symbol::Variable(number)) => self.text.extend(format!("_{number}").bytes()),
            Some(Symbol::Number(value)) => self.text.extend(value.to_string().bytes()),
            Some(Symbol::Name { number, arguments }) => {
                self.text.extend(self.words.get(number as usize).copied().unwrap_or_default());
                if arguments > 0 {
                    self.text.push(b'(');
                    self.terms(arguments)?;
                    self.text.push(b')');
                }
            }
            None => {}
        }
        Some(())
    }
}
