//! What is turned away: why, in which input, and where.

use std::error::Error;
use std::fmt;

macro_rules! reasons {
    ($($variant:ident = $number:literal, $name:literal, $words:literal;)*) => {
        /// Why an input is refused, by the numbers of docs/FORMAT.md, "What is turned away". Later reasons take the next numbers.
        #[derive(Debug, Clone, Copy, PartialEq, Eq, Hash)]
        #[repr(u8)]
        #[non_exhaustive]
        pub enum Reason {
            $(#[doc = concat!($name, ": ", $words, ".")] $variant = $number,)*
        }

        impl Reason {
            /// All reasons, in the order of their numbers.
            pub const ALL: &'static [Reason] = &[$(Reason::$variant,)*];

            /// The reason of a number; nothing where it is no reason's.
            pub const fn of_number(number: usize) -> Option<Reason> {
                match number {
                    $($number => Some(Reason::$variant),)*
                    _ => None,
                }
            }

            /// The reason's name, in capitals.
            pub const fn name(self) -> &'static str {
                match self { $(Reason::$variant => $name,)* }
            }

            /// What it means, in words.
            pub const fn words(self) -> &'static str {
                match self { $(Reason::$variant => $words,)* }
            }
        }
    };
}

reasons! {
    Length = 1, "LENGTH", "a table has 2 to 2,050 cells and at most 2,048 names, a goal 1 to 32 cells";
    Width = 2, "WIDTH", "a table has 1 to 8 columns";
    Count = 3, "COUNT", "a table has 1 to 64 rows";
    Long = 4, "LONG", "a row is not complete after 32 cells";
    Short = 5, "SHORT", "the cells end inside a row or the goal, or before a row";
    Cell = 6, "CELL", "this is no cell";
    Fresh = 7, "FRESH", "a variable's number is above the count of the variables so far";
    Twice = 8, "TWICE", "no longer given, since a row may repeat a variable";
    Extra = 9, "EXTRA", "there are cells after the last row, the goal or the plan";
    Size = 10, "SIZE", "a plan has at most 6,082 cells";
    Ends = 11, "ENDS", "the cells end before the plan is complete";
    Open = 12, "OPEN", "this index is not below the number of open places";
    Edges = 13, "EDGES", "this is not the number of branches at the place chosen";
    Label = 14, "LABEL", "this is not the cell of the branch's rows";
    Rows = 15, "ROWS", "this is not the leaf's number of rows";
    Room = 16, "ROOM", "the lent room is too small, and the place says how much is needed";
    Bytes = 17, "BYTES", "a text has at most 65,535 bytes, a goal's 65,533";
    Text = 18, "TEXT", "no text of facts, or no goal, goes on so";
    Other = 19, "OTHER", "a fact has another predicate or width than the first, or the goal is not one of theirs";
    Figure = 20, "FIGURE", "a figure is 0 to 15";
    Full = 21, "FULL", "the table has 64 rows already";
    Last = 22, "LAST", "the only row cannot be dropped";
    Index = 23, "INDEX", "there is no such row";
    Same = 24, "SAME", "a row without variables stands in the table already";
    Big = 25, "BIG", "a reply, or an answer that is to be written, has over 1,024 cells";
    Names = 26, "NAMES", "a listed place holds no lower-case name, two hold the same, or a name is not listed";
    Blocks = 27, "BLOCKS", "a file is one or more whole blocks of 512 bytes";
    Damage = 28, "DAMAGE", "this block has another number than its place, or a wrong check";
    Sizes = 29, "SIZES", "the sizes in the file do not give as many blocks as it has";
    Padding = 30, "PADDING", "a cell after the table and the plan is not 0";
    Head = 31, "HEAD", "nothing can be saved, since block 0 is missing or bad, or no table begins there";
    None = 32, "NONE", "nothing can be saved, since no row is kept";
    Column = 33, "COLUMN", "a named column is not below the table's width";
    Early = 34, "EARLY", "this index is outside the named columns while a place inside them is open";
}

impl Reason {
    /// The reason's number.
    pub const fn number(self) -> usize {
        self as usize
    }
}

/// Which input a refusal concerns. It prints as a word, such as `table`.
#[derive(Debug, Clone, Copy, PartialEq, Eq, Hash)]
#[non_exhaustive]
pub enum Input {
    /// The table's cells, or a row's.
    Table,
    /// The plan's cells.
    Plan,
    /// The goal's cells.
    Goal,
    /// The lent room.
    Room,
    /// The text's bytes.
    Text,
    /// The figure.
    Figure,
    /// The list of names.
    Names,
    /// The file's bytes.
    File,
    /// The list of columns.
    Columns,
}

impl Input {
    /// All inputs, in the order of their numbers, which are from 1.
    pub const ALL: &'static [Input] =
        &[Input::Table, Input::Plan, Input::Goal, Input::Room, Input::Text, Input::Figure, Input::Names, Input::File, Input::Columns];

    /// The input as a word.
    pub const fn word(self) -> &'static str {
        match self {
            Input::Table => "table",
            Input::Plan => "plan",
            Input::Goal => "goal",
            Input::Room => "room",
            Input::Text => "text",
            Input::Figure => "figure",
            Input::Names => "names",
            Input::File => "file",
            Input::Columns => "columns",
        }
    }
}

impl fmt::Display for Input {
    fn fmt(&self, to: &mut fmt::Formatter) -> fmt::Result {
        to.write_str(self.word())
    }
}

/// An input that was refused. Nothing was written or changed then.
///
/// It prints the input, the reason's name and number, the place, and what the reason means:
///
/// ```
/// use dudowiej::{Reason, Record};
///
/// let refusal = Record::work_out(&[2, 1, dudowiej::name(1, 0)], 0).unwrap_err();
/// assert_eq!((refusal.reason, refusal.place), (Reason::Short, 3));
/// assert_eq!(refusal.to_string(), "table refused, SHORT 5 at 3: the cells end inside a row or the goal, or before a row");
/// ```
#[derive(Debug, Clone, Copy, PartialEq, Eq, Hash)]
pub struct Refusal {
    /// Why.
    pub reason: Reason,
    /// Which input.
    pub input: Input,
    /// Where in it, from 0: a cell, or a byte of a text. Of ROOM it is how much is needed, of DAMAGE the block.
    pub place: usize,
}

impl fmt::Display for Refusal {
    fn fmt(&self, to: &mut fmt::Formatter) -> fmt::Result {
        let Refusal { reason, input, place } = self;
        write!(to, "{input} refused, {} {} at {place}: {}", reason.name(), reason.number(), reason.words())
    }
}

impl Error for Refusal {}

/// An answer taken apart: 2^16 · first + 2^32 · second, or of a refusal number + 2^8 · input + 2^16 · place.
pub(crate) fn apart(answer: u64) -> Result<(usize, usize), Refusal> {
    match (answer & 0xff) as usize {
        0 => Ok(((answer >> 16 & 0xffff) as usize, (answer >> 32) as usize)),
        number => Err(Refusal { reason: reason(number), input: input((answer >> 8 & 0xff) as usize), place: (answer >> 16) as usize }),
    }
}

/// What a goal of a list is answered by itself: its refusal's number is 0 where there is none.
pub(crate) fn goal_apart<T>(number: usize, place: usize, answer: T) -> Result<T, Refusal> {
    if number == 0 {
        return Ok(answer);
    }
    let reason = reason(number);
    let input = if reason == Reason::Room { Input::Room } else { Input::Goal };
    Err(Refusal { reason, input, place })
}

// The library gives no other numbers than these.

fn reason(number: usize) -> Reason {
    Reason::of_number(number).unwrap_or_else(|| panic!("the library that is linked is of another version: reason {number}"))
}

fn input(number: usize) -> Input {
    let known = number.checked_sub(1).and_then(|place| Input::ALL.get(place));
    *known.unwrap_or_else(|| panic!("the library that is linked is of another version: input {number}"))
}
