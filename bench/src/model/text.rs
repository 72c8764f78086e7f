//! Tables from Prolog text (02, W-201 and W-206): what a text means as a table, and the refusals in order. Which bytes are a text is in `grammar`.

use std::collections::HashMap;

use super::grammar::stops;
use super::no_room;
use super::read::read_table;
use super::refusal::{Answer, Input, Number, Refusal};
use super::term::Term;

/// The most bytes of a text.
pub const TEXT_BYTES: usize = 65_535;

/// What a text says, before it is known whether that is a table of 01.
pub struct Loaded {
    pub cells: Vec<u32>,
    /// For each name in the order of their numbers: start in bits 15..0, bytes in bits 31..16.
    pub names: Vec<u32>,
}

/// Writes the table and the list of names; the number of each.
pub fn read_text(text: &[u8], cells: &mut [u32], names: &mut [u32]) -> Answer {
    let loaded = load(text)?;
    let room = |lent: &[u32], needed: &[u32]| if lent.len() < needed.len() { Err(no_room(needed.len())) } else { Ok(()) };
    room(cells, &loaded.cells)?;
    room(names, &loaded.names)?;
    read_table(&loaded.cells)?;
    cells[..loaded.cells.len()].copy_from_slice(&loaded.cells);
    names[..loaded.names.len()].copy_from_slice(&loaded.names);
    Ok((loaded.cells.len(), loaded.names.len()))
}

/// What the text says, or BYTES, TEXT or OTHER.
pub fn load(text: &[u8]) -> Result<Loaded, Refusal> {
    let facts = taken(text)?;
    let mut cells = vec![facts[0].width as u32, facts.len() as u32];
    let mut names = Names::default();
    for fact in &facts {
        cells.extend(row(fact, |symbol| names.number(symbol)));
    }
    Ok(Loaded { cells, names: names.list })
}

/// The predicate of a text's facts, and how many arguments it has; none where the text is refused.
pub fn predicate(text: &[u8]) -> Option<(&[u8], usize)> {
    taken(text).ok().map(|facts| (facts[0].name, facts[0].width))
}

/// The facts of a text, which are of one predicate and width; or BYTES, TEXT or OTHER.
fn taken(text: &[u8]) -> Result<Vec<Fact<'_>>, Refusal> {
    let refused = |number, place| Err(Refusal { number, input: Input::Text, place });
    if text.len() > TEXT_BYTES {
        return refused(Number::Bytes, 0);
    }
    if let Some(place) = stops(text) {
        return refused(Number::Text, place);
    }
    let facts = facts(text);
    let of_another = |fact: &&Fact| (fact.name, fact.width) != (facts[0].name, facts[0].width);
    if let Some(fact) = facts.iter().find(of_another) {
        return refused(Number::Other, fact.start);
    }
    Ok(facts)
}

/// The cells of a fact's arguments, by the numbers that its names have.
pub(super) fn row<'t>(fact: &Fact<'t>, mut number: impl FnMut(&Symbol<'t>) -> u32) -> Vec<u32> {
    let mut variables = Variables::default();
    let cell = |symbol: &Symbol<'t>| match symbol.word[0] {
        b'a'..=b'z' => 1 << 30 | (symbol.arguments as u32) << 16 | number(symbol),
        b'-' | b'0'..=b'9' => Term::Number(value(symbol.word)).cell(),
        _ => Term::Var(variables.number(symbol.word)).cell(),
    };
    fact.symbols.iter().map(cell).collect()
}

fn value(word: &[u8]) -> i16 {
    std::str::from_utf8(word).expect("a sign and digits").parse().expect("a number of 16 bits")
}

/// A name, variable or number inside a fact.
pub(super) struct Symbol<'t> {
    pub start: usize,
    pub word: &'t [u8],
    arguments: usize,
}

pub(super) struct Fact<'t> {
    pub start: usize,
    pub name: &'t [u8],
    pub width: usize,
    symbols: Vec<Symbol<'t>>,
}

/// The facts of bytes that are a text: words and marks, comments blanked out first.
pub(super) fn facts(text: &[u8]) -> Vec<Fact<'_>> {
    let mut facts = Vec::new();
    let mut symbols: Vec<Symbol> = Vec::new();
    // The symbols whose brackets are open; the first of a fact's symbols is its own name.
    let mut open: Vec<usize> = Vec::new();
    for (start, word) in words(text, &without_comments(text)) {
        match word[0] {
            b'(' => open.push(symbols.len() - 1),
            b',' => symbols[open[open.len() - 1]].arguments += 1,
            b')' => symbols[open.pop().expect("an open bracket")].arguments += 1,
            b'.' => {
                let inside = symbols.split_off(1);
                let own = symbols.pop().expect("the fact's name");
                facts.push(Fact { start: own.start, name: own.word, width: own.arguments, symbols: inside });
            }
            _ => symbols.push(Symbol { start, word, arguments: 0 }),
        }
    }
    facts
}

fn without_comments(text: &[u8]) -> Vec<u8> {
    let mut inside = false;
    let blanked = |&byte: &u8| {
        inside = (inside || byte == b'%') && byte != 10;
        if inside {
            b' '
        } else {
            byte
        }
    };
    text.iter().map(blanked).collect()
}

/// The words and the marks, each with its start; a minus sign belongs to the digits after it.
fn words<'t>(text: &'t [u8], plain: &[u8]) -> Vec<(usize, &'t [u8])> {
    let in_word = |byte: u8| byte.is_ascii_alphanumeric() || byte == b'_';
    let mut words = Vec::new();
    let mut at = 0;
    while at < plain.len() {
        let sign = usize::from(plain[at] == b'-');
        let bytes = (sign + plain[at + sign..].iter().take_while(|&&byte| in_word(byte)).count()).max(1);
        if !plain[at].is_ascii_whitespace() {
            words.push((at, &text[at..at + bytes]));
        }
        at += bytes;
    }
    words
}

/// Names numbered from 0 in order of first appearance.
#[derive(Default)]
struct Names<'t> {
    numbers: HashMap<&'t [u8], u32>,
    list: Vec<u32>,
}

impl<'t> Names<'t> {
    fn number(&mut self, symbol: &Symbol<'t>) -> u32 {
        let next = self.list.len() as u32;
        let number = *self.numbers.entry(symbol.word).or_insert(next);
        if number == next {
            self.list.push(symbol.start as u32 | (symbol.word.len() as u32) << 16);
        }
        number
    }
}

/// The variables of one fact; `_` is a fresh one each time.
#[derive(Default)]
struct Variables<'t> {
    numbers: HashMap<&'t [u8], u16>,
    count: u16,
}

impl<'t> Variables<'t> {
    fn number(&mut self, word: &'t [u8]) -> u16 {
        let next = self.count;
        let number = if word == b"_" { next } else { *self.numbers.entry(word).or_insert(next) };
        self.count += u16::from(number == next);
        number
    }
}
