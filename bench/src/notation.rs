//! 01's notation as cells: letters are names without arguments, f1 a name with one, v0 a variable, digits a number, which may have a minus sign.

use crate::model::term::Term;

/// The cell of a name, numbered by its letter.
pub fn name(letter: char, arguments: u32) -> u32 {
    1 << 30 | arguments << 16 | letter as u32
}

/// A table of rows such as "(a,b) (b,c)".
pub fn table(rows: &str) -> Vec<u32> {
    let rows: Vec<Vec<Term>> = rows.split(' ').map(terms).collect();
    let mut cells = vec![rows[0].len() as u32, rows.len() as u32];
    rows.iter().flatten().for_each(|term| term.write(&mut cells));
    cells
}

/// A goal such as "(a,v0)".
pub fn goal(text: &str) -> Vec<u32> {
    let mut cells = Vec::new();
    terms(text).iter().for_each(|term| term.write(&mut cells));
    cells
}

/// A plan such as "0 1 v0 1": digits are plain numbers here.
pub fn plan(text: &str) -> Vec<u32> {
    let cell = |word: &str| match word.split_at(1) {
        ("v", number) => number.parse().unwrap(),
        (letter, arguments) if letter.as_bytes()[0].is_ascii_alphabetic() => name(letter.chars().next().unwrap(), arguments.parse().unwrap_or(0)),
        _ => word.parse().unwrap(),
    };
    text.split(' ').map(cell).collect()
}

/// The terms between brackets.
fn terms(text: &str) -> Vec<Term> {
    let mut rest = text;
    let terms = arguments(&mut rest);
    assert_eq!(rest, "", "{text}");
    terms
}

fn arguments(rest: &mut &str) -> Vec<Term> {
    let mut terms = Vec::new();
    while rest.starts_with(['(', ',']) {
        *rest = &rest[1..];
        terms.push(term(rest));
    }
    *rest = rest.strip_prefix(')').unwrap();
    terms
}

fn term(rest: &mut &str) -> Term {
    let letter = rest.chars().next().unwrap();
    let digits = rest[1..].find(|c: char| !c.is_ascii_digit()).unwrap() + 1;
    let (word, after) = rest.split_at(digits);
    *rest = after;
    match letter {
        '-' | '0'..='9' => Term::Number(word.parse().unwrap()),
        'v' => Term::Var(word[1..].parse().unwrap()),
        _ if after.starts_with('(') => Term::Name(letter as u16, arguments(rest)),
        _ => Term::Name(letter as u16, Vec::new()),
    }
}
