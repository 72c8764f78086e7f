//! Goals as Prolog text, each for a text of facts with a list of names, sound and damaged; and cells that are to be said.

use super::names::{damage, Named};
use super::{goals, shared, texts, Alphabet};
use crate::model::asking::{word, NAMES};
use crate::model::read::{read_goal, read_table, Table};
use crate::model::term::Term;
use crate::model::text::{load, predicate, TEXT_BYTES};
use crate::random::Random;

/// A text of facts with the list of its own names, and the table that it is.
pub struct Facts {
    pub text: Vec<u8>,
    pub names: Vec<u32>,
    pub table: Table,
}

pub fn facts(random: &mut Random) -> Facts {
    loop {
        if let Some(facts) = facts_of(texts::sound(random)) {
            return facts;
        }
    }
}

/// None where the text is none, or no table.
pub fn facts_of(text: Vec<u8>) -> Option<Facts> {
    let loaded = load(&text).ok()?;
    let table = read_table(&loaded.cells).ok()?;
    Some(Facts { text, names: loaded.names, table })
}

/// The text and the list as they are; the text refused; or a list of other names: too few, too many, none, damaged.
pub fn any(random: &mut Random, facts: &Facts) -> (Vec<u8>, Vec<u32>) {
    let (mut text, mut names) = (facts.text.clone(), facts.names.clone());
    match random.below(16) {
        0 => texts::damage(random, &mut text),
        1 => text.extend(*random.pick(&[&b"\nq(a)."[..], b"\nq_(a,b).", b".", b"\np"])),
        2 if random.one_in(8) => text.resize(TEXT_BYTES + random.below(2), b' '),
        3 => names.truncate(random.below(names.len() + 1)),
        4 if !names.is_empty() => {
            let count = *random.pick(&[NAMES, NAMES + 1, NAMES + 2, 2 * NAMES]);
            names = names.iter().copied().cycle().take(count).collect();
        }
        5 | 6 => {
            let used = names.len();
            let mut named = Named { text, names };
            damage(random, &mut named, used);
            return (named.text, named.names);
        }
        _ => {}
    }
    (text, names)
}

/// A goal for the facts, two in three of them sound.
pub fn goal(random: &mut Random, facts: &Facts) -> Vec<u8> {
    let mut goal = printed(random, facts);
    match random.below(20) {
        0 => goal.truncate(random.below(goal.len() + 1)),
        1 | 2 => texts::damage(random, &mut goal),
        3 => texts::strange(random, &mut goal),
        4 => {
            let more = printed(random, facts);
            goal.extend(*random.pick(&[&b"\n"[..], b"\n.\n", b"."]));
            goal.extend(more);
        }
        _ => {}
    }
    goal
}

fn printed(random: &mut Random, facts: &Facts) -> Vec<u8> {
    let mut predicate = predicate(&facts.text).expect("a text").0.to_vec();
    let mut terms = terms(random, &facts.table);
    match random.below(30) {
        0 => predicate.push(b'p'),
        1 => predicate[0] = b'z',
        2 => terms.push(Term::Number(1)),
        3 if terms.len() > 1 => drop(terms.pop()),
        _ => {}
    }
    let words = facts.names.iter().map(|&entry| String::from_utf8_lossy(word(&facts.text, entry)).into_owned()).collect();
    texts::goal(random, &predicate, words, &terms)
}

/// A goal's terms, many of them of names that the facts have not, and some of about 32 cells.
fn terms(random: &mut Random, table: &Table) -> Vec<Term> {
    let (symbols, size) = match random.below(6) {
        0 => (3, *random.pick(&[31, 32, 32, 33, 33, 34, 50])),
        1 => (40, random.within(table.width..=32)),
        _ => {
            let goal = goals::any(random, table);
            return read_goal(table.width, &goal).expect("a sound goal").arguments;
        }
    };
    let mut terms = Alphabet { symbols, variable: 4 }.terms(random, table.width, size);
    shared(random, &mut terms);
    terms
}

/// Cells near those of an answer: cut, with one changed, with some behind them, or so many of any kind.
pub fn cells(random: &mut Random, answer: &[u32]) -> Vec<u32> {
    let mut cells = answer.to_vec();
    match random.below(6) {
        0 => cells.truncate(random.below(cells.len() + 1)),
        1 if !cells.is_empty() => {
            let place = random.below(cells.len());
            cells[place] = cell(random);
        }
        2 => {
            let more = random.within(1..=3);
            cells.extend((0..more).map(|_| cell(random)));
        }
        3 => {
            let count = random.below(12);
            cells = (0..count).map(|_| cell(random)).collect();
        }
        4 if random.one_in(4) => {
            let count = *random.pick(&[1023, 1024, 1024, 1025, 1025, 1026, 5000]);
            let some: Vec<u32> = (0..5).map(|_| cell(random)).collect();
            cells = (0..count).map(|place| some[place % 5]).collect();
        }
        _ => {}
    }
    cells
}

/// Any number, most of them cells; names with and without arguments, listed and not.
fn cell(random: &mut Random) -> u32 {
    let number = *random.pick(&[0, 1, 2, 5, 20, 2047, 2048, 65_535]);
    let any = random.number() as u32;
    match random.below(8) {
        0 => number,
        1 => 2 << 30 | any & 0xffff,
        2..=4 => 1 << 30 | (random.below(5) as u32) << 16 | number,
        5 => 1 << 30 | any & 0x000f_ffff,
        6 => number | *random.pick(&[3 << 30, 1 << 16, 1 << 29, 2 << 30 | 1 << 16]),
        _ => any,
    }
}
