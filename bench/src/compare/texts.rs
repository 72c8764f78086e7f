//! Tables from Prolog text (02, W-201 and W-206): fixed cases with their answers, whole families of short texts, long texts, random ones.

mod fixed;

use super::small::words;
use super::{lend_two, Comparison, Entry, Met};
use crate::engine::{Definition, Engine};
use crate::make::texts;
use crate::model::grammar::{is_text, stops, stops_by_search};
use crate::model::read::read_table;
use crate::model::refusal::Number;
use crate::model::text::load;

/// A byte of each sort that the grammar knows.
const SORTS: &[u8] = b"aX_1-(),. %\n";

impl<E: Engine> Comparison<'_, E> {
    pub(super) fn fixed_texts(&mut self) {
        self.fixed();
        self.short_texts();
        self.every_byte();
        for (_, text) in texts::long() {
            self.rooms_of_all_sizes(&text);
        }
        self.searched();
    }

    pub(super) fn random_texts(&mut self, count: usize) {
        for _ in 0..count {
            let text = texts::any(&mut self.random);
            let (cells, names) = needed(&text);
            let (cells, names) = (self.text_room(cells, 2060), self.text_room(names, 2060));
            self.read_text(&text, cells, names);
        }
    }

    /// Nearly always enough.
    fn text_room(&mut self, needed: usize, most: usize) -> usize {
        match self.random.below(16) {
            0 => needed.saturating_sub(1),
            1 => self.random.below(needed + 1),
            2 => needed + self.random.within(1..=5),
            3 => most,
            _ => needed,
        }
    }

    /// Every text of up to four bytes; and of every sound beginning, how it may go on.
    fn short_texts(&mut self) {
        let beginnings: [&[u8]; 9] = [b"", b"p(", b"p(a", b"p(a)", b"p(a).", b"p(f(a,b,c", b"p(3276", b"p(-3276", b"p(f(_,X) % c\n,"];
        for beginning in beginnings {
            words(SORTS, 4, &mut |end: &[u8]| self.read_text(&[beginning, end].concat(), 8, 4));
        }
    }

    /// Sound texts with every byte replaced by every other, and cut at every place.
    fn every_byte(&mut self) {
        let sound: [&[u8]; 3] = [
            b"p(red,X,f(red,_,09)). % c\np(blue,_,9).",
            b" rule( f(g(A,b1,c_,_D),-32768) )\r\n.\r%x\np(h).",
            b"p(a,b,c,d,e,f(1,2,3,4),00032767,_)\n.%",
        ];
        for text in sound {
            for place in 0..text.len() {
                self.read_text(&text[..place], 20, 20);
                for byte in 0..=u8::MAX {
                    let mut changed = text.to_vec();
                    changed[place] = byte;
                    self.read_text(&changed, 20, 20);
                }
            }
        }
    }

    /// Rooms of no size, one too small, of the size needed and larger.
    fn rooms_of_all_sizes(&mut self, text: &[u8]) {
        let (cells, names) = needed(text);
        let lents =
            [(0, 0), (cells.saturating_sub(1), names), (cells, names.saturating_sub(1)), (cells, names), (cells + 3, names + 3), (40_000, 40_000)];
        for (cells, names) in lents {
            self.read_text(text, cells, names);
        }
    }

    /// The independent place of TEXT against a search through all ends: short texts, some of them damaged ones.
    fn searched(&mut self) {
        const SOUND: [&[u8]; 9] = [b"p(a).", b"p(f(a)).", b"p(X,1).", b"p(-0).", b"p(a) .", b"%\np(a).", b"p(%\na).", b"p(a). %", b"b(00,_)."];
        let mut texts: Vec<Vec<u8>> = Vec::new();
        words(SORTS, 2, &mut |text: &[u8]| texts.push(text.to_vec()));
        for _ in 0..500 {
            let mut text = self.random.pick(&SOUND).to_vec();
            for _ in 0..self.random.within(1..=2) {
                let place = self.random.below(text.len());
                text[place] = *self.random.pick(SORTS);
            }
            text.truncate(self.random.within(1..=8));
            texts.push(text);
        }
        for text in texts {
            let (place, found) = (stops(&text), stops_by_search(&text));
            self.tally.own("places of TEXT against a search through all ends", place == found, &|| format!("{place:?} {found:?} {}", shown(&text)));
            self.read_text(&text, 20, 20);
        }
    }

    pub(super) fn read_text(&mut self, text: &[u8], cells: usize, names: usize) {
        let lent = [cells, names].map(|room| self.lent(room));
        let (answer, left) = lend_two(&lent, |cells, names| self.exported.read_text(text, cells, names));
        let (expected, wanted) = lend_two(&lent, |cells, names| Definition.read_text(text, cells, names));
        let describe = || format!("text {} rooms {cells} and {names}", shown(text));
        self.tally.settle(Entry::ReadText, answer, expected, left == wanted, &describe);
        self.tally.text(expected, cells);
        let read = load(text).ok().filter(|_| expected & 0xff == 0).and_then(|loaded| read_table(&loaded.cells).ok());
        self.tally.meet(Met::Text, read.is_some_and(|read| read.rows.iter().any(|row| row.again > 0)));
        if text.len() < 1000 {
            let by_rules = expected & 0xff != Number::Text as u64;
            self.tally.own("texts by rules against a function for each line of the grammar", is_text(text) == by_rules, &describe);
        }
    }
}

/// The cells and names of a text, where it is one of facts for one predicate.
fn needed(text: &[u8]) -> (usize, usize) {
    load(text).map_or((10, 10), |loaded| (loaded.cells.len(), loaded.names.len()))
}

fn shown(text: &[u8]) -> String {
    let start = text[..text.len().min(2000)].escape_ascii();
    format!("\"{start}\" of {} bytes", text.len())
}
