//! Texts of facts (02, W-201): tables printed with layout and names of every kind, sound and damaged; and long ones.

use super::tables::{self, Kind};
use crate::model::read::{read_table, Row};
use crate::model::term::Term;
use crate::model::text::TEXT_BYTES;
use crate::random::Random;

/// A text that is a table, or nearly always one.
pub fn sound(random: &mut Random) -> Vec<u8> {
    let cells = if random.one_in(20) {
        tables::any(random)
    } else {
        let width = random.within(1..=8);
        let kind = *random.pick(&[Kind::Shop, Kind::Nested, Kind::Blank, Kind::Full(width), Kind::Small, Kind::Small, Kind::Chain]);
        let rows = random.within(1..=5);
        tables::sometimes_repeated(random, kind, rows)
    };
    print(random, &read_table(&cells).expect("a sound table").rows)
}

/// A text of any kind, about half of them tables.
pub fn any(random: &mut Random) -> Vec<u8> {
    let mut text = sound(random);
    match random.below(10) {
        0 => text.truncate(random.below(text.len() + 1)),
        1..=3 => damage(random, &mut text),
        4 => strange(random, &mut text),
        _ => {}
    }
    text
}

/// The table of a shop, printed as a shop would.
pub fn shop(random: &mut Random, rows: usize) -> Vec<u8> {
    plain(random, Kind::Shop, rows)
}

/// The same for a table of any kind.
pub fn plain(random: &mut Random, kind: Kind, rows: usize) -> Vec<u8> {
    let table = read_table(&tables::table(random, kind, rows)).expect("a sound table");
    let mut printer = Printer { naming: Naming::Shop, ..Printer::new(random, b"rule") };
    for row in &table.rows {
        printer.fact(row);
        printer.text.push(10);
    }
    printer.text
}

/// One byte changed, put in, left out, or two exchanged.
pub(super) fn damage(random: &mut Random, text: &mut Vec<u8>) {
    const BYTES: &[u8] = b"aZ_09.,()% \n\r\t'\"-:[]{}|!/*\0\x0c\x7f\x80\xe4\xff";
    let byte = if random.one_in(4) { random.number() as u8 } else { *random.pick(BYTES) };
    let place = random.below(text.len());
    match random.below(5) {
        0 => text.insert(place, byte),
        1 => {
            text.remove(place);
        }
        2 => {
            let other = random.below(text.len());
            text.swap(place, other);
        }
        _ => text[place] = byte,
    }
}

/// Something put in that is Prolog, or nearly.
pub(super) fn strange(random: &mut Random, text: &mut Vec<u8>) {
    const PIECES: [&[u8]; 26] = [
        b"f(a,b,c,d,e)",
        b"32768",
        b"32767",
        b"000032767",
        b"99999999999999999999",
        b"'a b'",
        b"[a]",
        b"-1",
        b"-32768",
        b"-000032769",
        b"- 1",
        b"--1",
        b"-a",
        b"+1",
        b"0x1F",
        b"0'a",
        b"1_000",
        b"1.5",
        b"X",
        b"_",
        b"p(a).",
        b" /* c */ ",
        b"\t",
        b"%",
        b"f(f(f(f(a))))",
        b",a",
    ];
    let piece = *random.pick(&PIECES);
    let place = random.below(text.len());
    // In the place of a term, so that it often fits, or anywhere.
    let term = text[place..].iter().position(|&byte| byte == b'(' || byte == b',').map(|found| place + found + 1);
    let place = if random.one_in(4) { place } else { term.unwrap_or(place) };
    let word = text[place..].iter().take_while(|byte| byte.is_ascii_alphanumeric() || **byte == b'_').count();
    text.splice(place..place + word, piece.iter().copied());
}

#[derive(Clone, Copy)]
enum Gaps {
    None,
    /// A space now and then.
    Spaces,
    /// Everything that is layout, often.
    All,
}

#[derive(Clone, Copy)]
enum Naming {
    /// `n12`.
    Numbered,
    /// Few and short words, some of which are Prolog's operators and directives.
    Words,
    /// Words that share their ends or their beginnings.
    Alike,
    /// What a shop might write.
    Shop,
    /// By a list of words; `new_12` for a number that it has not.
    Listed,
}

struct Printer<'r> {
    random: &'r mut Random,
    gaps: Gaps,
    naming: Naming,
    /// Whether a row's variables may share a name.
    twice: bool,
    predicate: Vec<u8>,
    listed: Vec<String>,
    /// What stands for each variable of a fact, by its number.
    words: Vec<(u16, String)>,
    text: Vec<u8>,
}

fn print(random: &mut Random, rows: &[Row]) -> Vec<u8> {
    let gaps = *random.pick(&[Gaps::None, Gaps::Spaces, Gaps::All]);
    let naming = *random.pick(&[Naming::Numbered, Naming::Words, Naming::Alike, Naming::Shop]);
    let predicate = random.pick(&[&b"p"[..], b"rule", b"a", b"dynamic", b"n1", b"fOO_1"]).to_vec();
    // One text in ten has a fact of another predicate or width, one in ten may repeat a variable.
    let (other, twice) = (random.one_in(10), random.one_in(10));
    let odd = random.below(rows.len());
    let mut printer = Printer { gaps, naming, twice, ..Printer::new(random, &predicate) };
    printer.gap();
    for (number, row) in rows.iter().enumerate() {
        if number > 0 {
            printer.blank();
            printer.gap();
        }
        printer.fact_or_other(row, other && number == odd);
    }
    printer.end();
    printer.text
}

/// A goal of these terms, its names by a list of words; with a full stop, layout or a comment behind it, or nothing.
pub fn goal(random: &mut Random, predicate: &[u8], listed: Vec<String>, terms: &[Term]) -> Vec<u8> {
    let gaps = *random.pick(&[Gaps::None, Gaps::Spaces, Gaps::All]);
    let mut printer = Printer { gaps, naming: Naming::Listed, listed, ..Printer::new(random, predicate) };
    printer.gap();
    printer.text.extend(predicate);
    printer.arguments(terms);
    if printer.random.one_in(3) {
        printer.gap();
        printer.text.push(b'.');
        // Layout, or what is no text any more.
        match printer.random.below(8) {
            0 => printer.text.extend(*printer.random.pick(&[&b"."[..], b"a", b" .", b"p(a)"])),
            1..=3 => printer.blank(),
            _ => {}
        }
    }
    printer.end();
    printer.text
}

impl<'r> Printer<'r> {
    fn new(random: &'r mut Random, predicate: &[u8]) -> Printer<'r> {
        let (gaps, naming, predicate) = (Gaps::None, Naming::Numbered, predicate.to_vec());
        Printer { random, gaps, naming, twice: false, predicate, listed: Vec::new(), words: Vec::new(), text: Vec::new() }
    }

    fn fact_or_other(&mut self, row: &Row, other: bool) {
        if !other {
            return self.fact(row);
        }
        let predicate = self.predicate.clone();
        let mut arguments = row.arguments.clone();
        match self.random.below(3) {
            0 => self.predicate.push(b'p'),
            1 => self.predicate[0] = b'z',
            _ => arguments.push(Term::Number(1)),
        }
        self.fact_of(&arguments);
        self.predicate = predicate;
    }

    fn fact(&mut self, row: &Row) {
        self.fact_of(&row.arguments);
    }

    fn fact_of(&mut self, arguments: &[Term]) {
        self.words.clear();
        self.text.extend(&self.predicate);
        self.arguments(arguments);
        self.gap();
        self.text.push(b'.');
    }

    fn arguments(&mut self, terms: &[Term]) {
        for (number, term) in terms.iter().enumerate() {
            self.text.push(if number == 0 { b'(' } else { b',' });
            self.gap();
            self.term(term);
            self.gap();
        }
        self.text.push(b')');
    }

    fn term(&mut self, term: &Term) {
        match term {
            Term::Var(number) => self.variable(*number),
            Term::Number(value) => self.number(*value),
            Term::Name(number, arguments) => {
                let word = self.word(*number as usize);
                self.text.extend(word.bytes());
                if !arguments.is_empty() {
                    self.arguments(arguments);
                }
            }
        }
    }

    fn word(&mut self, number: usize) -> String {
        const WORDS: [&str; 14] = ["a", "b", "f", "is", "mod", "dynamic", "rem", "aA", "a_", "a0", "e", "xor", "table", "end_of_file"];
        const SHOP: [&str; 10] = ["red", "blue", "white", "black", "ring", "brooch", "bowl", "pendant", "firing", "green"];
        match self.naming {
            Naming::Numbered => format!("n{number}"),
            Naming::Words => WORDS[number % WORDS.len()].to_string(),
            Naming::Alike => format!("{}aaaaaaaaaaaaaaaa{}", ["x", "xx", "y"][number % 3], ["", "b", "_1"][number / 3 % 3]),
            Naming::Listed => self.listed.get(number).cloned().unwrap_or_else(|| format!("new_{number}")),
            Naming::Shop => format!("{}{}", SHOP[number % SHOP.len()], ["", "s", "_light", "2"][number / SHOP.len() % 4]),
        }
    }

    /// A variable that stands twice has the same word each time; where that is `_`, it is no repetition.
    fn variable(&mut self, number: u16) {
        let word = match self.words.iter().find(|(other, _)| *other == number) {
            Some((_, word)) => word.clone(),
            None => self.new_word(number),
        };
        let shared = self.twice && self.random.one_in(2);
        self.text.extend(if shared { "X" } else { &word }.bytes());
    }

    fn new_word(&mut self, number: u16) -> String {
        let word = match self.random.below(5) {
            0 | 1 => "_".to_string(),
            2 => format!("_{number}"),
            3 => format!("V{number}"),
            _ => format!("Some_Long{number}x"),
        };
        self.words.push((number, word.clone()));
        word
    }

    fn number(&mut self, value: i16) {
        let value = match self.random.below(400) {
            0..=4 => 32_767,
            5..=9 => -32_768,
            10 => *self.random.pick(&[32_768, -32_769]),
            _ => i32::from(value),
        };
        // Zero too may have the sign.
        if value < 0 || value == 0 && self.random.one_in(4) {
            self.text.push(b'-');
        }
        let zeros = if self.random.one_in(6) { self.random.below(9) } else { 0 };
        self.text.extend(std::iter::repeat_n(b'0', zeros));
        self.text.extend(value.unsigned_abs().to_string().bytes());
    }

    fn gap(&mut self) {
        let often = match self.gaps {
            Gaps::None => return,
            Gaps::Spaces => {
                return if self.random.one_in(3) {
                    self.text.push(b' ')
                }
            }
            Gaps::All => 3,
        };
        while self.random.one_in(often) {
            self.blank();
        }
    }

    /// One piece of layout.
    fn blank(&mut self) {
        let all = matches!(self.gaps, Gaps::All);
        match self.random.below(if all { 5 } else { 2 }) {
            0 => self.text.push(b' '),
            1 => self.text.push(10),
            2 => self.text.push(13),
            3 => self.text.extend(b"\r\n"),
            _ => {
                self.comment();
                self.text.push(10);
            }
        }
    }

    /// A comment of any bytes, not ended.
    fn comment(&mut self) {
        self.text.push(b'%');
        for _ in 0..self.random.below(12) {
            let byte = if self.random.one_in(2) { self.random.number() as u8 } else { *self.random.pick(b" p(a).%\r'\"/*") };
            self.text.push(if byte == 10 { b'%' } else { byte });
        }
    }

    fn end(&mut self) {
        self.gap();
        match self.random.below(4) {
            0 => self.comment(),
            1 => self.text.push(10),
            _ => {}
        }
    }
}

/// Texts of fixed kinds that are long or at a bound, each with what it is.
pub fn long() -> Vec<(String, Vec<u8>)> {
    let mut texts: Vec<(String, Vec<u8>)> = Vec::new();
    let mut add = |name: String, text: Vec<u8>| texts.push((name, text));
    for rows in [1, 63, 64, 65, 66, 5000] {
        add(format!("{rows} facts"), b"p(a,X).\n".repeat(rows));
    }
    for width in [7, 8, 9, 10, 100, 2047, 2048, 2049, 32_000] {
        add(format!("{width} arguments"), fact(&vec!["a".to_string(); width]));
        add(format!("{width} variables"), fact(&vec!["_".to_string(); width]));
    }
    for depth in [30, 31, 32, 33, 2047, 2048, 2049, 21_843, 21_844] {
        add(format!("{depth} names one in another"), nested("f", depth));
    }
    for symbols in [2047, 2048, 2049, 9000] {
        add(format!("{symbols} names that differ"), fact(&different(symbols)));
        add(format!("{symbols} names that differ, 64 at most in a fact"), facts(&different(symbols), 64));
    }
    for rows in [64, 65] {
        // 32 cells in each row.
        add(format!("{rows} full rows"), facts(&(0..rows * 8).map(|argument| format!("f(a,b,c{})", argument / 8)).collect::<Vec<_>>(), 8));
        add(format!("{rows} full rows, all the same"), facts(&vec!["f(a,b,c)".to_string(); rows * 8], 8));
    }
    add("64 rows of 8 long names".into(), facts(&(0..512).map(|number| format!("{}{number}", "n".repeat(110))).collect::<Vec<_>>(), 8));
    for bytes in [TEXT_BYTES - 1, TEXT_BYTES, TEXT_BYTES + 1, 2 * TEXT_BYTES] {
        for (name, start, filling, end) in FILLED {
            add(format!("{name}, {bytes} bytes"), filled(bytes, start, filling, end));
        }
        add(format!("names that differ, {bytes} bytes"), different_in(bytes));
        add(format!("names in reverse, {bytes} bytes"), reversed_in(bytes));
    }
    texts
}

/// Kinds of texts that one filling again and again makes as long as is wished: start, filling, end.
pub const FILLED: [(&str, &[u8], &[u8], &[u8]); 23] = [
    ("spaces", b"", b" ", b""),
    ("spaces before a fact", b"", b" ", b"p(a)."),
    ("spaces after a fact", b"p(a).", b" ", b""),
    ("line ends inside a fact", b"p(a", b"\r\n", b")."),
    ("a comment", b"p(a).%", b"%c", b""),
    ("comments", b"p(a).\n", b"% a comment\n", b""),
    ("short comments inside a fact", b"p(", b"%\n", b"a)."),
    ("facts", b"p(a).", b"\np(a).", b"\n"),
    ("facts of which the last is another", b"p(a).", b"\np(a).", b"\nq(a)."),
    ("facts of another width at the end", b"p(a).", b"\np(b).", b"\np(a,a)."),
    ("one name again and again", b"p(a", b",a", b")."),
    ("one longer name again and again", b"p(abcdefgh", b",abcdefgh", b")."),
    ("one variable again and again", b"p(X", b",X", b")."),
    ("fresh variables", b"p(_", b",_", b")."),
    ("numbers", b"p(1", b",32767", b")."),
    ("numbers below zero", b"p(1", b",-32768", b")."),
    ("zeros", b"p(", b"0", b")."),
    ("a long name", b"p(", b"x", b")."),
    ("a long variable", b"p(_", b"X", b")."),
    ("a long predicate", b"p", b"x", b"(a)."),
    ("open brackets", b"p(", b"f(", b""),
    ("brackets with commas", b"p(a", b",f(a,a,a,f(a))", b")."),
    ("a tab after spaces", b"p(a).", b" ", b"\t"),
];

/// So many bytes; where the filling does not come out even, spaces stand before the text.
pub fn filled(bytes: usize, start: &[u8], filling: &[u8], end: &[u8]) -> Vec<u8> {
    let times = (bytes - start.len() - end.len()) / filling.len();
    padded(bytes, [start, &filling.repeat(times), end].concat())
}

/// `f` so often, one in another, as a fact's argument.
pub fn nested(name: &str, depth: usize) -> Vec<u8> {
    let open = format!("{name}(");
    [b"p(", open.repeat(depth).as_bytes(), b"a", ")".repeat(depth).as_bytes(), b")."].concat()
}

/// Names one in another, as many as so many bytes take.
pub fn nested_in(bytes: usize) -> Vec<u8> {
    padded(bytes, nested("f", (bytes - 5) / 3))
}

/// A fact of names that all differ, as many as so many bytes take.
pub fn different_in(bytes: usize) -> Vec<u8> {
    let mut rest = bytes - 5;
    let names: Vec<String> = (0..).map(word).take_while(|word| take(&mut rest, word.len() + 1)).collect();
    padded(bytes, fact(&names))
}

/// The same from the last to the first.
fn reversed_in(bytes: usize) -> Vec<u8> {
    let mut rest = bytes - 5;
    let mut names: Vec<String> = (0..).map(word).take_while(|word| take(&mut rest, word.len() + 1)).collect();
    names.reverse();
    padded(bytes, fact(&names))
}

/// Names of so many bytes each that differ in three bytes alone, which stand at this place in them.
pub fn alike_in(bytes: usize, each: usize, place: usize) -> Vec<u8> {
    let names: Vec<String> =
        (0..(bytes - 5) / (each + 1)).map(|number| format!("{}{}{}", "a".repeat(place), three(number), "a".repeat(each - place - 3))).collect();
    padded(bytes, fact(&names))
}

fn three(number: usize) -> String {
    let letter = |value: usize| (b'a' + (value % 26) as u8) as char;
    [number / 676, number / 26, number].map(letter).iter().collect()
}

fn take(rest: &mut usize, bytes: usize) -> bool {
    let fits = *rest >= bytes;
    *rest = rest.saturating_sub(bytes);
    fits
}

fn padded(bytes: usize, text: Vec<u8>) -> Vec<u8> {
    [vec![b' '; bytes.saturating_sub(text.len())], text].concat()
}

pub fn different(count: usize) -> Vec<String> {
    (0..count).map(word).collect()
}

/// The name of this number: all of one byte, then all of two, and so on.
fn word(number: usize) -> String {
    const LATER: &[u8; 63] = b"abcdefghijklmnopqrstuvwxyzABCDEFGHIJKLMNOPQRSTUVWXYZ0123456789_";
    let (mut left, mut count, mut bytes) = (number, 26, 1);
    while left >= count {
        left -= count;
        count *= LATER.len();
        bytes += 1;
    }
    let mut word = vec![0; bytes];
    for byte in word[1..].iter_mut().rev() {
        *byte = LATER[left % LATER.len()];
        left /= LATER.len();
    }
    word[0] = b'a' + left as u8;
    String::from_utf8(word).expect("letters and digits")
}

pub fn fact(arguments: &[String]) -> Vec<u8> {
    format!("p({}).", arguments.join(",")).into_bytes()
}

fn facts(arguments: &[String], width: usize) -> Vec<u8> {
    arguments.chunks(width).map(fact).collect::<Vec<_>>().join(&b'\n')
}

#[cfg(test)]
mod tests {
    use super::*;

    #[test]
    fn texts_have_the_bytes_they_should() {
        for bytes in [TEXT_BYTES, TEXT_BYTES + 1] {
            assert!(FILLED.iter().all(|(_, start, filling, end)| filled(bytes, start, filling, end).len() == bytes));
            let others = [different_in(bytes), reversed_in(bytes), nested_in(bytes), alike_in(bytes, 90, 40)];
            assert_eq!(others.map(|text| text.len()), [bytes; 4]);
        }
        let names = different(16_805);
        assert_eq!(names.iter().collect::<std::collections::HashSet<_>>().len(), names.len());
        assert_eq!(names.iter().map(|name| name.len() + 1).sum::<usize>(), 2 * 26 + 3 * 1638 + 4 * 15_141);
    }
}
