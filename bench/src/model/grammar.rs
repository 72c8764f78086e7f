//! The texts of 02's W-201 and W-206, as a grammar in rules and all its derivations followed at once: a set of stacks of what is still to come.
//!
//! ```text
//! text     = gap fact { gap1 fact } gap                     gap1: a gap of at least one byte
//! fact     = name "(" args ")" gap "."
//! args     = gap term gap { "," gap term gap }
//! term     = name | name "(" args ")" | variable | number   inside at most 4 arguments; a fact has any number of them
//! gap      = { space | line feed | carriage return | "%" { any byte but a line feed } ( line feed | the end of the text ) }
//! name     = a-z { a-z | A-Z | 0-9 | "_" }    variable = ( A-Z | "_" ) { the same }
//! number   = 0-9 { 0-9 }, at most 32,767, or "-" 0-9 { 0-9 }, at most 32,768 after the sign
//! ```
//!
//! Every stack that is kept can be completed, or stands beside one that can: so some text begins with the bytes read exactly where a stack is left.

/// What may be still to come: the grammar's words, and parts of them.
#[derive(Clone, Copy)]
enum Part {
    Fact,
    Facts,
    Args(Most),
    MoreArgs(Most),
    Term,
    /// The rest of a name or variable.
    Word,
    /// The rest of a number: the value of its digits so far, and the largest that they may have.
    Digits(u32, u32),
    Gap,
    Blank,
    /// The rest of a comment.
    Comment,
    /// One byte.
    One(Class),
    /// The end of the text.
    End,
}

use Part::*;

#[derive(Clone, Copy)]
enum Class {
    This(u8),
    NotLineFeed,
    Lower,
    UpperOrUnderline,
    WordByte,
    /// A digit after digits of this value, and the largest with it.
    Digit(u32, u32),
}

/// How many arguments may still come; None: any number.
type Most = Option<u8>;

const LARGEST: u32 = 32_767;
const LARGEST_BELOW_ZERO: u32 = 32_768;
const INSIDE: Most = Some(4);

const OPEN: Part = One(Class::This(b'('));
const CLOSE: Part = One(Class::This(b')'));
const MINUS: Part = One(Class::This(b'-'));
const COMMA: Part = One(Class::This(b','));
const STOP: Part = One(Class::This(b'.'));
const LINE_FEED: Part = One(Class::This(10));

/// The ways in which a part that is not one byte and not the end can go on.
fn ways(part: Part, way: &mut dyn FnMut(&[Part])) {
    let lower = One(Class::Lower);
    match part {
        Fact => way(&[lower, Word, OPEN, Args(None), CLOSE, Gap, STOP]),
        Facts => {
            way(&[Blank, Gap, Fact, Facts]);
            way(&[Gap, End]);
        }
        Args(most) => way(&[Gap, Term, Gap, MoreArgs(most.map(|most| most - 1))]),
        MoreArgs(most) => {
            way(&[]);
            if most != Some(0) {
                way(&[COMMA, Args(most)]);
            }
        }
        Term => {
            way(&[lower, Word]);
            way(&[lower, Word, OPEN, Args(INSIDE), CLOSE]);
            way(&[One(Class::UpperOrUnderline), Word]);
            way(&[One(Class::Digit(0, LARGEST))]);
            way(&[MINUS, One(Class::Digit(0, LARGEST_BELOW_ZERO))]);
        }
        Word => {
            way(&[]);
            way(&[One(Class::WordByte), Word]);
        }
        Digits(value, largest) => {
            way(&[]);
            way(&[One(Class::Digit(value, largest))]);
        }
        Gap => {
            way(&[]);
            way(&[Blank, Gap]);
        }
        Blank => {
            way(&[One(Class::This(b' '))]);
            way(&[LINE_FEED]);
            way(&[One(Class::This(13))]);
            way(&[One(Class::This(b'%')), Comment]);
        }
        Comment => {
            way(&[One(Class::NotLineFeed), Comment]);
            way(&[LINE_FEED]);
            way(&[End]);
        }
        One(_) | End => unreachable!("a byte or the end"),
    }
}

/// Whether the byte is of the class, and what is then still to come of it.
fn takes(class: Class, byte: u8) -> Option<Option<Part>> {
    let fits = match class {
        Class::This(this) => byte == this,
        Class::NotLineFeed => byte != 10,
        Class::Lower => byte.is_ascii_lowercase(),
        Class::UpperOrUnderline => byte.is_ascii_uppercase() || byte == b'_',
        Class::WordByte => byte.is_ascii_alphanumeric() || byte == b'_',
        Class::Digit(before, largest) => {
            let digit = byte.is_ascii_digit().then(|| u32::from(byte - b'0'))?;
            let value = 10 * before + digit;
            return (value <= largest).then_some(Some(Digits(value, largest)));
        }
    };
    fits.then_some(None)
}

/// Stacks that share what lies below; `None` is the empty one.
#[derive(Default)]
struct Stacks(Vec<(Part, Stack)>);

type Stack = Option<usize>;

impl Stacks {
    fn push(&mut self, part: Part, below: Stack) -> Stack {
        self.0.push((part, below));
        Some(self.0.len() - 1)
    }

    /// Goes on in every way until one byte or the end is on top, or nothing is left.
    fn unfold(&mut self, stack: Stack, tops: &mut Vec<Stack>) {
        match stack.map(|top| self.0[top]) {
            None | Some((One(_) | End, _)) => tops.push(stack),
            Some((part, below)) => ways(part, &mut |way| {
                let stack = way.iter().rev().fold(below, |stack, &part| self.push(part, stack));
                self.unfold(stack, tops);
            }),
        }
    }

    fn unfolded(&mut self, stacks: &[Stack]) -> Vec<Stack> {
        let mut tops = Vec::new();
        stacks.iter().for_each(|&stack| self.unfold(stack, &mut tops));
        tops
    }

    /// The stacks that take the byte, after it.
    fn after(&mut self, byte: u8, stacks: &[Stack]) -> Vec<Stack> {
        let mut after = Vec::new();
        for stack in self.unfolded(stacks) {
            let Some((One(class), below)) = stack.map(|top| self.0[top]) else {
                continue;
            };
            if let Some(rest) = takes(class, byte) {
                after.push(rest.map_or(below, |part| self.push(part, below)));
            }
        }
        after
    }

    /// Whether one of the stacks is done with at the end of the text.
    fn ended(&mut self, stacks: &[Stack]) -> bool {
        self.unfolded(stacks).into_iter().any(|stack| match stack.map(|top| self.0[top]) {
            None => true,
            Some((End, below)) => self.ended(&[below]),
            Some(_) => false,
        })
    }
}

/// None where the bytes are a text; otherwise the first byte, or the end, where no text could go on so.
pub fn stops(bytes: &[u8]) -> Option<usize> {
    let mut all = Stacks::default();
    let start = [Gap, Fact, Facts].into_iter().rev().fold(None, |stack, part| all.push(part, stack));
    let mut stacks = vec![start];
    for (place, &byte) in bytes.iter().enumerate() {
        stacks = all.after(byte, &stacks);
        if stacks.is_empty() {
            return Some(place);
        }
    }
    (!all.ended(&stacks)).then_some(bytes.len())
}

/// Whether the bytes are a text, by a function for each line of the grammar: a third reading, for the search below. Each function gives the place
/// after the longest such part.
pub fn is_text(bytes: &[u8]) -> bool {
    let mut at = fact(bytes, gap(bytes, 0));
    while let Some(end) = at {
        let next = gap(bytes, end);
        if next == bytes.len() {
            return true;
        }
        at = if next > end { fact(bytes, next) } else { None };
    }
    false
}

fn gap(bytes: &[u8], mut at: usize) -> usize {
    loop {
        match bytes.get(at) {
            Some(b' ' | 10 | 13) => at += 1,
            Some(b'%') => at = bytes[at..].iter().position(|&byte| byte == 10).map_or(bytes.len(), |line| at + line + 1),
            _ => return at,
        }
    }
}

fn fact(bytes: &[u8], at: usize) -> Option<usize> {
    bytes.get(at)?.is_ascii_lowercase().then_some(())?;
    let end = gap(bytes, args(bytes, word(bytes, at), usize::MAX)?);
    (bytes.get(end) == Some(&b'.')).then_some(end + 1)
}

fn word(bytes: &[u8], at: usize) -> usize {
    at + bytes[at..].iter().take_while(|&&byte| byte.is_ascii_alphanumeric() || byte == b'_').count()
}

/// Arguments with their brackets.
fn args(bytes: &[u8], at: usize, most: usize) -> Option<usize> {
    let mut at = at;
    for number in 0..most {
        let before = if number == 0 { b'(' } else { b',' };
        (bytes.get(at) == Some(&before)).then_some(())?;
        at = gap(bytes, term(bytes, gap(bytes, at + 1))?);
        if bytes.get(at) == Some(&b')') {
            return Some(at + 1);
        }
    }
    None
}

fn term(bytes: &[u8], at: usize) -> Option<usize> {
    let end = word(bytes, at);
    match bytes.get(at)? {
        b'a'..=b'z' if bytes.get(end) == Some(&b'(') => args(bytes, end, 4),
        b'a'..=b'z' | b'A'..=b'Z' | b'_' => Some(end),
        b'0'..=b'9' => digits(bytes, at, LARGEST),
        b'-' => digits(bytes, at + 1, LARGEST_BELOW_ZERO),
        _ => None,
    }
}

fn digits(bytes: &[u8], at: usize, largest: u32) -> Option<usize> {
    let end = word(bytes, at);
    let value: u128 = std::str::from_utf8(&bytes[at..end]).ok()?.parse().ok()?;
    (value <= largest.into()).then_some(end)
}

/// The place by its meaning, through all ends of up to six bytes: before it some text goes on so, with the byte there none does, or the text ends
/// and is none. Only for bytes of which eight at most are no comment: a text that begins so then has such an end.
pub fn stops_by_search(bytes: &[u8]) -> Option<usize> {
    if is_text(bytes) {
        return None;
    }
    (0..bytes.len()).find(|&place| !begins(&bytes[..=place])).or(Some(bytes.len()))
}

fn begins(bytes: &[u8]) -> bool {
    fn longer(text: &mut Vec<u8>, left: usize) -> bool {
        is_text(text)
            || left > 0
                && b"a0().\n".iter().any(|&byte| {
                    text.push(byte);
                    let found = longer(text, left - 1);
                    text.pop();
                    found
                })
    }
    longer(&mut bytes.to_vec(), 6)
}
