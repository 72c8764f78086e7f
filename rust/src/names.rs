//! Texts of Prolog facts, and the names of a table.

use crate::cell::name;
use crate::entries;
use crate::goal::Goal;
use crate::limits::{GOAL_CELLS, TEXT_BYTES, TEXT_CELLS, TEXT_NAMES};
use crate::refusal::{Reason, Refusal};
use crate::terms::show;

/// What stands before a word that is no fact's.
const COMMENT: &[u8] = b"\n%";

/// Room for most answers' text.
const ANSWER_BYTES: usize = 1_024;

/// A table that was read from a text.
#[derive(Debug, Clone, PartialEq, Eq)]
pub struct Facts {
    /// The table's cells.
    pub table: Vec<u32>,
    /// Its names, by the words of the text.
    pub names: Names,
}

/// Makes a table of a text of Prolog facts. Each fact is a row; names are numbered from 0 in the order in which they first stand in the
/// text.
///
/// Refused are the text, BYTES, TEXT or OTHER, with places in its bytes, and then the table that it means, with places in that table's
/// cells.
///
/// ```
/// use dudowiej::{read_text, Reason};
///
/// let facts = read_text("p(red, X, f(red, _, 09)). % c\np(blue, _, 9).")?;
/// assert_eq!(facts.table.len(), 11);
/// assert_eq!(facts.names.words().collect::<Vec<_>>(), ["red", "f", "blue"]);
/// let refusal = read_text("p(a) p(b).").unwrap_err();
/// assert_eq!((refusal.reason, refusal.place), (Reason::Text, 5));
/// # Ok::<(), dudowiej::Refusal>(())
/// ```
pub fn read_text(text: impl AsRef<[u8]>) -> Result<Facts, Refusal> {
    let text = text.as_ref();
    let (mut table, mut list) = (vec![0; TEXT_CELLS], vec![0; TEXT_NAMES]);
    let (cells, names) = entries::read_text(text, &mut table, &mut list)?;
    table.truncate(cells);
    table.shrink_to_fit();
    Ok(Facts { table, names: Names { text: text.to_vec(), list: list[..names].to_vec() } })
}

/// Names by their numbers, each with its word; and where they are a text's, the predicate of its facts, in which goals are read and answers
/// said.
///
/// ```
/// use dudowiej::{name, Names};
///
/// let mut names = Names::from_words(["red", "ring"]).unwrap();
/// assert_eq!(names.cell("ring", 0), Some(name(1, 0)));
/// assert_eq!(names.word(0), Some("red"));
/// // A word for a row that is to come.
/// assert_eq!(names.cell("tray", 0), None);
/// assert_eq!(names.add("tray"), Some(2));
/// ```
#[derive(Debug, Clone, Default, PartialEq, Eq)]
pub struct Names {
    /// The text that the words stand in.
    text: Vec<u8>,
    /// Where each of them stands, as the library lists names: its start in bits 15 to 0, its bytes in bits 31 to 16.
    list: Vec<u32>,
}

impl Names {
    /// Words as the names 0, 1, 2 and so on; nothing where they have over 65,535 bytes together, two more counted for each.
    pub fn from_words<'w>(words: impl IntoIterator<Item = &'w str>) -> Option<Names> {
        let mut names = Names::default();
        for word in words {
            names.put(word)?;
        }
        Some(names)
    }

    /// The number of a word, which is put at the end if it is not there; nothing where there is no room for it, behind the text that the
    /// names are of ([`Names::from_words`]).
    pub fn add(&mut self, word: &str) -> Option<u16> {
        self.number(word).or_else(|| self.put(word))
    }

    /// A word is put in a comment of its own, so that facts before it stay the text that they are.
    fn put(&mut self, word: &str) -> Option<u16> {
        let number = u16::try_from(self.list.len()).ok()?;
        let start = self.text.len() + COMMENT.len();
        if start + word.len() > TEXT_BYTES {
            return None;
        }
        self.text.extend(COMMENT);
        self.text.extend(word.bytes());
        self.list.push((start | word.len() << 16) as u32);
        Some(number)
    }

    /// The word of a number; nothing where it is not listed.
    pub fn word(&self, number: u16) -> Option<&str> {
        self.list.get(usize::from(number)).map(|&entry| word_at(&self.text, entry))
    }

    /// The number of a word; nothing where it is not listed.
    pub fn number(&self, word: &str) -> Option<u16> {
        self.words().position(|listed| listed == word).map(|number| number as u16)
    }

    /// The cell of a word as a name with so many arguments, 0 to 4; nothing where it is not listed.
    pub fn cell(&self, word: &str, arguments: u32) -> Option<u32> {
        self.number(word).map(|number| name(number, arguments))
    }

    /// How many names there are.
    pub fn len(&self) -> usize {
        self.list.len()
    }

    /// Whether there is none.
    pub fn is_empty(&self) -> bool {
        self.list.is_empty()
    }

    /// The words, in the order of their numbers.
    pub fn words(&self) -> impl Iterator<Item = &str> {
        self.list.iter().map(|&entry| word_at(&self.text, entry))
    }

    /// Reads a goal in Prolog text, a term of the facts' predicate; a full stop after it is allowed and not wanted. Names that are not listed
    /// are numbered on from those that are, so that they fit no name of a row ([`Goal::new_names`]).
    ///
    /// Refused are LENGTH of the table, where over 2,048 names are listed; of the text BYTES, TEXT and OTHER, with places in its bytes; and
    /// then LENGTH of the goal, where it has over 32 cells. It is OTHER for every goal where these names are of no text.
    ///
    /// ```
    /// use dudowiej::{name, variable, whole, Reason, Record};
    ///
    /// let (record, names) = Record::from_text("rule(9, red, ring, soft). rule(_, _, _, medium).", 0)?;
    /// let goal = names.goal("rule(9, red, tray, Firing)")?;
    /// assert_eq!(goal[..], [whole(9), name(0, 0), name(4, 0), variable(0)]);
    /// assert_eq!(goal.new_names().collect::<Vec<_>>(), ["tray"]);
    /// let refusal = names.goal("rule(9, red").unwrap_err();
    /// assert_eq!((refusal.reason, refusal.place), (Reason::Text, 11));
    /// # Ok::<(), dudowiej::Refusal>(())
    /// ```
    pub fn goal(&self, text: impl AsRef<[u8]>) -> Result<Goal, Refusal> {
        let text = text.as_ref();
        let (mut cells, mut new) = ([0; GOAL_CELLS], [0; GOAL_CELLS]);
        let (cells_count, new_count) = entries::read_goal_text(&self.text, &self.list, text, &mut cells, &mut new)?;
        Ok(Goal::of_text(text, &cells[..cells_count], &new[..new_count]))
    }

    /// An answer to a goal as Prolog text, a term of the facts' predicate: what a row says to it, the goal itself, a row, or any cells.
    /// Names are those listed here and the goal's new ones, and variables `_0`, `_1`. What is no cell has no word, nor has a name that is in
    /// neither list.
    ///
    /// Refused is BIG, where there are over 1,024 cells, which no reply has.
    ///
    /// ```
    /// use dudowiej::{Plan, Record};
    ///
    /// let (record, names) = Record::from_text("rule(9, red, ring, soft). rule(_, _, _, medium).", 0)?;
    /// let goal = names.goal("rule(Urgency, red, tray, Firing)")?;
    /// for reply in record.replies(&Plan::build(&record).plan, &goal)?.iter() {
    ///     assert_eq!(names.say(&goal, reply)?, "rule(_0, red, tray, medium)");
    /// }
    /// assert_eq!(names.say(&goal, &goal)?, "rule(_0, red, tray, _1)");
    /// # Ok::<(), dudowiej::Refusal>(())
    /// ```
    pub fn say(&self, goal: &Goal, answer: &[u32]) -> Result<String, Refusal> {
        let mut room = vec![0; ANSWER_BYTES];
        let said = match self.say_in(goal, answer, &mut room) {
            Err(Refusal { reason: Reason::Room, place, .. }) => {
                room.resize(place, 0);
                self.say_in(goal, answer, &mut room)
            }
            said => said,
        };
        room.truncate(said?);
        Ok(String::from_utf8(room).expect("names, numbers and signs"))
    }

    /// The same in a lent room; the rest of the room is untouched. How many bytes there are.
    ///
    /// Refused are BIG, as there, and ROOM, with the bytes needed.
    pub fn say_in(&self, goal: &Goal, answer: &[u32], room: &mut [u8]) -> Result<usize, Refusal> {
        let (text, new) = goal.listed();
        entries::put_answer(&self.text, &self.list, text, new, answer, room).map(|(_, bytes)| bytes)
    }

    /// Terms as Prolog writes them, as by [`show`], by these names; a name that is not listed is `?`.
    pub fn show(&self, cells: &[u32]) -> String {
        show(cells, |number| self.word(number).unwrap_or("?"))
    }

    /// The text that the words stand in, and the list of their places in it.
    pub(crate) fn listed(&self) -> (&[u8], &[u32]) {
        (&self.text, &self.list)
    }
}

/// The word at a listed place.
pub(crate) fn word_at(text: &[u8], entry: u32) -> &str {
    let (start, bytes) = ((entry & 0xffff) as usize, (entry >> 16) as usize);
    std::str::from_utf8(&text[start..start + bytes]).expect("names are letters, digits and underscores")
}
