//! Goals and answers as Prolog text: examples with their answers written down, families of short goals, long ones and random ones, for texts of facts
//! and lists of names that are sound and refused; cells of any kind said; rooms of all sizes. The whole answer and the whole of each room are
//! compared, with cells or bytes on either side.

mod fixed;
mod tally;

use super::Asking;
use crate::compare::{lend, lend_two, small::words, MARGIN};
use crate::engine::Definition;
use crate::make::asked::{any, cells, facts, facts_of, goal, Facts};
use crate::make::texts;
use crate::model::asking::{put_answer, read, word, GOAL_BYTES, NAMES};
use crate::model::read::read_goal;
use crate::model::replies::{said, Reply};
use crate::model::term::Term;
use crate::model::text::{load, predicate, TEXT_BYTES};
use crate::random::Random;
pub use tally::Tally;

/// A byte of each sort that the grammar knows.
const SORTS: &[u8] = b"aX_1-(),. %\n";

/// Compares on what is written down, then on so many rounds of random texts and goals.
pub fn compare<A: Asking>(engine: &A, rounds: usize, seed: u64) -> Tally {
    let mut comparison = Comparison { engine, random: Random::new(seed), tally: Tally::default() };
    comparison.fixed();
    for _ in 0..rounds {
        comparison.round();
    }
    comparison.tally
}

/// Goes on with families of short goals, and with long goals and texts.
pub fn families<A: Asking>(engine: &A, tally: Tally, seed: u64) -> Tally {
    let mut comparison = Comparison { engine, random: Random::new(seed), tally };
    comparison.short();
    comparison.every_byte();
    comparison.long();
    comparison.tally
}

struct Comparison<'e, A: Asking> {
    engine: &'e A,
    random: Random,
    tally: Tally,
}

/// A text of facts with a list of names, and a goal's text.
#[derive(Clone, Copy)]
struct Asked<'a> {
    text: &'a [u8],
    names: &'a [u32],
    goal: &'a [u8],
}

impl<A: Asking> Comparison<'_, A> {
    /// Goals for a text of facts, each with what the rows say to it, or with other cells.
    fn round(&mut self) {
        let facts = facts(&mut self.random);
        for _ in 0..3 {
            let (text, names) = any(&mut self.random, &facts);
            let mut goal = goal(&mut self.random, &facts);
            if self.random.one_in(400) {
                goal = self.padded(goal);
            }
            let asked = Asked { text: &text, names: &names, goal: &goal };
            let (cells, new) = needed(asked);
            let (cells, new) = (self.room(cells), self.room(new));
            self.read(asked, cells, new);
            self.say_something(asked, &facts);
        }
    }

    /// About as many bytes as a goal may have, by layout before it or behind.
    fn padded(&mut self, goal: Vec<u8>) -> Vec<u8> {
        let bytes = GOAL_BYTES - 1 + self.random.below(4);
        let layout = vec![*self.random.pick(b" \n%"); bytes.saturating_sub(goal.len())];
        if layout.first() != Some(&b'%') && self.random.one_in(2) {
            return [layout, goal].concat();
        }
        [goal, layout].concat()
    }

    /// What a row says to the goal, the goal itself or a row; cells near these; with the goal's new names, or with others.
    fn say_something(&mut self, asked: Asked, facts: &Facts) {
        let row = self.random.pick(&facts.table.rows);
        let mut answer: Vec<u32> = Vec::new();
        row.arguments.iter().for_each(|term| term.write(&mut answer));
        let mut new = Vec::new();
        if let Ok(read) = read(asked.text, asked.names, asked.goal) {
            answer = self.reply(facts, &read.cells).unwrap_or(answer);
            new = read.new;
        }
        let answer = cells(&mut self.random, &answer);
        match self.random.below(12) {
            0 => new.truncate(self.random.below(new.len() + 1)),
            1 => new.push(self.random.number() as u32),
            2 => new = vec![u32::MAX, 0, 5 << 16],
            _ => {}
        }
        let bytes = said_in(asked, &new, &answer).len();
        let room = self.room(bytes);
        self.say(asked, &new, &answer, room);
        self.read_back(asked, &new, &answer);
    }

    /// One of the replies to a goal that is short enough, or the goal.
    fn reply(&mut self, facts: &Facts, goal: &[u32]) -> Option<Vec<u32>> {
        let read = read_goal(facts.table.width, goal).ok()?;
        let replies = said(&facts.table, &read).into_iter();
        let replies: Vec<Vec<u32>> = replies.filter_map(|reply| if let Reply::Cells(cells) = reply { Some(cells) } else { None }).collect();
        self.tally.met("replies of a goal", !replies.is_empty());
        Some(if replies.is_empty() { goal.to_vec() } else { self.random.pick(&replies).clone() })
    }

    /// An answer's text is read as its cells, by the names of both texts: those of the goal stand in a comment behind the facts.
    fn read_back(&mut self, asked: Asked, new: &[u32], answer: &[u32]) {
        let Some((_, width)) = predicate(asked.text) else {
            return;
        };
        let before = asked.text.len() + 2;
        let in_a_comment: Vec<u8> = asked.goal.iter().map(|&byte| if byte == 10 { b' ' } else { byte }).collect();
        let text = [asked.text, b"\n%", &in_a_comment].concat();
        let moved = new.iter().map(|&entry| entry.wrapping_add(before as u32));
        let names: Vec<u32> = asked.names.iter().copied().chain(moved).collect();
        if text.len() > TEXT_BYTES || !apart(&text, &names) || !is_answer(width, names.len(), answer) {
            return;
        }
        let said = said_in(asked, new, answer);
        let back = read(&text, &names, &said).map(|read| (read.cells, read.new));
        let describe = || format!("{} {answer:?}: {:?}", shown(&said), back.as_ref().ok());
        self.tally.own("answers read back as their cells", back.as_ref().is_ok_and(|(cells, new)| cells == answer && new.is_empty()), &describe);
        self.read(Asked { text: &text, names: &names, goal: &said }, answer.len(), 0);
    }

    /// Every goal of up to three bytes, alone and after beginnings.
    fn short(&mut self) {
        let text = b"p(a,1).";
        let beginnings: [&[u8]; 8] = [b"", b"p(", b"p(a", b"p(a,b)", b"p(X,X).", b"p(a,f(a,b,c", b"p(1,-3276", b"p(f(_,X) % c\n,"];
        for beginning in beginnings {
            words(SORTS, 3, &mut |end: &[u8]| {
                let goal = [beginning, end].concat();
                self.read(Asked { text, names: &[1 << 16 | 2], goal: &goal }, 8, 4);
            });
        }
    }

    /// A sound text of facts and a sound goal with every byte replaced by every other, and cut at every place.
    fn every_byte(&mut self) {
        let facts = facts_of(b"p(red,f(X,-1)). %c\np(_,b1).".to_vec()).expect("a table");
        let goal = b" p( f(red,b2,b2),_X ). %c";
        let answer = [1 << 30 | 1, 1 << 30 | 3 << 16, 0, 1, 1 << 30 | 3];
        for place in 0..facts.text.len() {
            for byte in 0..=u8::MAX {
                let mut text = facts.text.clone();
                text[place] = byte;
                let asked = Asked { text: &text, names: &facts.names, goal };
                self.read(asked, 5, 1);
                self.say(asked, &[2 << 16 | 9], &answer, 40);
            }
            self.read(Asked { text: &facts.text[..place], names: &facts.names, goal }, 5, 1);
        }
        for place in 0..goal.len() {
            for byte in 0..=u8::MAX {
                let mut goal = goal.to_vec();
                goal[place] = byte;
                self.read(Asked { text: &facts.text, names: &facts.names, goal: &goal }, 6, 2);
            }
            self.read(Asked { text: &facts.text, names: &facts.names, goal: &goal[..place] }, 6, 2);
        }
    }

    /// Goals and texts as long as may be and longer, each of one kind; and goals of few and of many symbols, each asked of itself.
    fn long(&mut self) {
        let names = [1 << 16 | 2];
        for (_, start, filling, end) in texts::FILLED {
            for bytes in [GOAL_BYTES, GOAL_BYTES + 1] {
                let goal = texts::filled(bytes, start, filling, end);
                self.read(Asked { text: b"p(a).", names: &names, goal: &goal }, 8, 8);
            }
            for bytes in [TEXT_BYTES, TEXT_BYTES + 1] {
                let text = texts::filled(bytes, start, filling, end);
                let asked = Asked { text: &text, names: &names, goal: b"p(a)" };
                self.read(asked, 8, 8);
                self.say(asked, &[], &[1 << 30], TEXT_BYTES + 9);
            }
        }
        for count in [31, 32, 33, 2047, 2048, 2049, 2050, 9000] {
            let different = texts::fact(&texts::different(count));
            for text in [texts::fact(&vec!["a".into(); count]), different, texts::nested("f", count - 1)] {
                let asked = Asked { text: &text, names: &[], goal: &text };
                self.rooms_of_all_sizes(asked);
            }
        }
    }

    /// Rooms of no size, one too small, of the size needed and larger.
    fn rooms_of_all_sizes(&mut self, asked: Asked) {
        let (cells, new) = needed(asked);
        for (cells, new) in [(0, 0), (cells.saturating_sub(1), new), (cells, new.saturating_sub(1)), (cells, new), (cells + 3, new + 3)] {
            self.read(asked, cells, new);
        }
    }

    /// Nearly always enough.
    fn room(&mut self, needed: usize) -> usize {
        match self.random.below(10) {
            0 => needed.saturating_sub(1),
            1 => self.random.below(needed + 1),
            2 => needed + self.random.within(1..=5),
            3 => needed + 100,
            4 if self.random.one_in(4) => 0,
            _ => needed,
        }
    }

    fn read(&mut self, asked: Asked, cells: usize, new: usize) {
        let Asked { text, names, goal } = asked;
        let lent = [cells, new].map(|room| (0..room + 2 * MARGIN).map(|_| self.random.number() as u32).collect());
        let (answer, left) = lend_two(&lent, |cells, new| self.engine.read_goal_text(text, names, goal, cells, new));
        let (expected, wanted) = lend_two(&lent, |cells, new| Definition.read_goal_text(text, names, goal, cells, new));
        let describe = || format!("text {} names {names:?} goal {} rooms {cells} and {new}", shown(text), shown(goal));
        self.tally.settle("read_goal_text", answer, expected, left == wanted, &describe);
        self.tally.was_read(asked, expected, cells);
        self.behind_the_facts(asked);
    }

    /// "As if it stood after the facts": by a text's own names a goal is read as one fact more of the text.
    fn behind_the_facts(&mut self, asked: Asked) {
        let Asked { text, names, goal } = asked;
        let (Ok(found), Ok(alone)) = (read(text, names, goal), load(text)) else {
            return;
        };
        let more = [text, b"\n", goal, b"\n"].concat();
        if alone.names != names || more.len() >= 5000 {
            return;
        }
        let same = load(&more).or_else(|_| load(&[&more[..], b"."].concat())).is_ok_and(|more| {
            let (known, new) = more.names.split_at(names.len());
            let new: Vec<u32> = new.iter().map(|entry| entry - (text.len() as u32 + 1)).collect();
            known == names && more.cells[alone.cells.len()..] == found.cells && new == found.new
        });
        self.tally.own("goals as one fact more of their text", same, &|| format!("text {} goal {}", shown(text), shown(goal)));
    }

    fn say(&mut self, asked: Asked, new: &[u32], answer: &[u32], room: usize) {
        let Asked { text, names, goal } = asked;
        let lent: Vec<u8> = (0..room + 2 * MARGIN).map(|_| self.random.number() as u8).collect();
        let (given, left) = lend(&lent, |room| self.engine.put_answer(text, names, goal, new, answer, room));
        let (expected, wanted) = lend(&lent, |room| Definition.put_answer(text, names, goal, new, answer, room));
        let describe = || {
            let goal = shown(goal);
            format!("text {} names {names:?} goal {goal} new {new:?} cells {answer:?} room {room}", shown(text))
        };
        self.tally.settle("put_answer", given, expected, left == wanted, &describe);
        self.tally.was_said(asked, new, answer, (expected, room));
        if let Some((predicate, width)) = predicate(text) {
            if let Ok(goal) = read_goal(width, answer) {
                let tree = tree(&[words_of(asked, new), vec![predicate.to_vec()]].concat(), &goal.arguments);
                self.tally.own("answers against trees", tree == said_in(asked, new, answer), &describe);
            }
        }
    }
}

/// A whole answer from its terms; the predicate is the last of the words.
fn tree(words: &[Vec<u8>], terms: &[Term]) -> Vec<u8> {
    fn joined(words: &[Vec<u8>], terms: &[Term]) -> Vec<u8> {
        terms.iter().map(|term| text(words, term)).collect::<Vec<_>>().join(&b", "[..])
    }
    fn text(words: &[Vec<u8>], term: &Term) -> Vec<u8> {
        match term {
            Term::Var(number) => format!("_{number}").into_bytes(),
            Term::Number(value) => value.to_string().into_bytes(),
            Term::Name(number, arguments) => {
                let word = words[..words.len() - 1].get(*number as usize).cloned().unwrap_or_default();
                if arguments.is_empty() {
                    return word;
                }
                [&word[..], b"(", &joined(words, arguments), b")"].concat()
            }
        }
    }
    [words.last().expect("the predicate"), &b"("[..], &joined(words, terms), b")"].concat()
}

/// The words of both lists.
fn words_of(asked: Asked, new: &[u32]) -> Vec<Vec<u8>> {
    let theirs = asked.names.iter().map(|&entry| word(asked.text, entry).to_vec());
    theirs.chain(new.iter().map(|&entry| word(asked.goal, entry).to_vec())).collect()
}

/// The words of a list are lower-case names, no two of them the same, and not too many.
fn apart(text: &[u8], names: &[u32]) -> bool {
    let mut words: Vec<&[u8]> = names.iter().map(|&entry| word(text, entry)).collect();
    let is_name =
        |word: &&[u8]| word.first().is_some_and(u8::is_ascii_lowercase) && word.iter().all(|byte| byte.is_ascii_alphanumeric() || *byte == b'_');
    let sound = words.iter().all(is_name);
    words.sort_unstable();
    sound && names.len() <= NAMES && words.windows(2).all(|two| two[0] != two[1])
}

/// A goal's cells, all names of which are listed.
fn is_answer(width: usize, names: usize, cells: &[u32]) -> bool {
    read_goal(width, cells).is_ok() && cells.iter().all(|cell| cell >> 30 != 1 || ((cell & 0xffff) as usize) < names)
}

/// The text of some cells; empty where they are too many.
fn said_in(asked: Asked, new: &[u32], cells: &[u32]) -> Vec<u8> {
    let needed = match put_answer(asked.text, asked.names, asked.goal, new, cells, &mut []) {
        Err(refusal) => refusal.place,
        Ok(_) => 0,
    };
    let mut room = vec![0; needed];
    let _ = put_answer(asked.text, asked.names, asked.goal, new, cells, &mut room);
    room
}

/// The cells and the new names of a goal, where it is one.
fn needed(asked: Asked) -> (usize, usize) {
    read(asked.text, asked.names, asked.goal).map_or((5, 2), |read| (read.cells.len(), read.new.len()))
}

fn shown(text: &[u8]) -> String {
    let start = text[..text.len().min(2000)].escape_ascii();
    format!("\"{start}\" of {} bytes", text.len())
}
