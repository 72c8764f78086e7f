//! Accepted texts as files, each with its facts as the exported entry gave them, for other Prologs to read; and texts that are refused here
//! although they are Prolog. bench/prolog.sh does it all.

mod programs;

use std::fs::write;
use std::path::Path;

use crate::engine::{Engine, Exported};
use crate::make::texts;
use crate::model::read::TABLE_CELLS;
use crate::model::term::Symbol;
use crate::random::Random;
pub use programs::write_programs;

/// Writes FOLDER/t0.pl, t0.facts, .. for so many accepted texts, with their names in FOLDER/list; FOLDER/r0.pl, .. for the kinds of texts that are
/// refused, with `name kind` lines in FOLDER/kinds and their names in FOLDER/refused.
pub fn write_texts(folder: &Path, count: usize, seed: u64) {
    let put = |name: String, bytes: &[u8]| write(folder.join(&name), bytes).unwrap_or_else(|error| panic!("{name}: {error}"));
    let random = &mut Random::new(seed);
    for number in 0..count {
        let (text, facts) = loop {
            let text = texts::any(random);
            if let Some(facts) = facts(&text) {
                break (text, facts);
            }
        };
        put(format!("t{number}.pl"), &text);
        put(format!("t{number}.facts"), facts.as_bytes());
    }
    put("list".into(), (0..count).map(|number| format!("t{number}.\n")).collect::<String>().as_bytes());
    for (number, (kind, text)) in REFUSED.iter().enumerate() {
        assert!(facts(text).is_none(), "{kind} is accepted");
        put(format!("r{number}.pl"), text);
    }
    let kinds = REFUSED.iter().enumerate();
    put("kinds".into(), kinds.clone().map(|(number, (kind, _))| format!("r{number} {kind}\n")).collect::<String>().as_bytes());
    put("refused".into(), kinds.map(|(number, _)| format!("r{number}.\n")).collect::<String>().as_bytes());
}

/// Texts that are refused, by kind; most of them are Prolog by ISO/IEC 13211-1.
const REFUSED: [(&str, &[u8]); 33] = [
    ("a fact without arguments", b"p.\n"),
    ("a rule", b"p(a) :- q(b).\n"),
    ("a directive", b":- dynamic(p/1).\np(a).\n"),
    ("facts of two predicates", b"p(a).\nq(b).\n"),
    ("facts of two widths", b"p(a).\np(a,b).\n"),
    ("a quoted name", b"p('Red').\n"),
    ("a quoted name that needs no quotes", b"p('red').\n"),
    ("a name of graphic characters", b"p(+).\n"),
    ("an operator between arguments", b"p(a-b).\n"),
    ("an operator in front", b"p(- a).\n"),
    ("a space after a minus sign", b"p(- 1).\n"),
    ("a plus sign", b"p(+1).\n"),
    ("a number over 32,767", b"p(32768).\n"),
    ("a number below -32,768", b"p(-32769).\n"),
    ("a number with a point", b"p(1.5).\n"),
    ("a number of another base", b"p(0x1F).\n"),
    ("a character's code", b"p(0'a).\n"),
    ("digits in groups", b"p(1_000).\n"),
    ("a list", b"p([a,b]).\n"),
    ("an empty list", b"p([]).\n"),
    ("curly brackets", b"p({a}).\n"),
    ("a string in double quotes", b"p(\"a\").\n"),
    ("brackets around a term", b"p((a)).\n"),
    ("a name with five arguments inside", b"p(f(a,b,c,d,e)).\n"),
    ("nine arguments", b"p(a,b,c,d,e,f,g,h,i).\n"),
    ("a fact without variables twice", b"p(a).\np(b).\np(a).\n"),
    ("a comment between /* and */", b"p(a). /* c */\n"),
    ("a tab", b"p(\ta).\n"),
    ("a form feed", b"p(a).\x0c\n"),
    ("no layout between two facts", b"p(a).p(b).\n"),
    ("a space between name and bracket", b"p (a).\n"),
    ("a letter beyond ASCII in a name", b"p(caf\xe9).\n"),
    ("nothing but a comment", b"% p(a).\n"),
];

/// The facts of an accepted text, from cells and names: for each its width and its symbols, each before its arguments.
fn facts(text: &[u8]) -> Option<String> {
    let (mut cells, mut names) = (vec![0; TABLE_CELLS], vec![0; TABLE_CELLS]);
    let answer = Exported.read_text(text, &mut cells, &mut names);
    if answer & 0xff != 0 {
        return None;
    }
    let word = |number: u16| {
        let (start, bytes) = (names[number as usize] & 0xffff, names[number as usize] >> 16);
        text[start as usize..][..bytes as usize].escape_ascii().to_string()
    };
    let mut rest = &cells[2..(answer >> 16 & 0xffff) as usize];
    let mut facts = String::new();
    while !rest.is_empty() {
        facts += &symbols(cells[0] as usize, &mut rest, &word);
    }
    Some(facts)
}

/// A line for so many terms, which are taken off the cells: how many there are, and their symbols, each before its arguments.
fn symbols(width: usize, rest: &mut &[u32], word: &dyn Fn(u16) -> String) -> String {
    let mut line = format!("{width}:");
    let mut owed = width;
    while owed > 0 {
        let symbol = Symbol::of(rest[0]).expect("a term's cell");
        *rest = &rest[1..];
        owed -= 1;
        line += &match symbol {
            Symbol::Variable(number) => format!(" _{number}"),
            Symbol::Number(value) => format!(" {value}"),
            Symbol::Name { number, arguments } => {
                owed += arguments;
                format!(" {}/{arguments}", word(number))
            }
        };
    }
    line + "\n"
}
