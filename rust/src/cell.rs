//! Cells: the 32-bit numbers that tables, goals and replies are made of.
//!
//! A term is the cell of its symbol and then its arguments, each a term. Variables and whole numbers have no arguments. A term says nothing
//! of its length: it ends where the last argument of its symbol ends.

/// A variable's cell. Variables have the numbers 0, 1, 2 and so on in the order in which they first appear, anew in each row and in each
/// goal.
pub const fn variable(number: u16) -> u32 {
    number as u32
}

/// The cell of a name with 0 to 4 arguments, which are the terms that follow it. Of more than 7 the lowest three bits count; with 5 to 7 it
/// is no cell, and is refused wherever it stands.
pub const fn name(number: u16, arguments: u32) -> u32 {
    1 << 30 | (arguments & 7) << 16 | number as u32
}

/// The cell of a whole number.
pub const fn whole(value: i16) -> u32 {
    2 << 30 | value as u16 as u32
}

/// The value of a whole number's cell.
pub const fn value(cell: u32) -> i16 {
    cell as i16
}

/// What a cell is.
///
/// ```
/// use dudowiej::{name, variable, whole, Symbol};
///
/// assert_eq!(Symbol::of(whole(-1)), Some(Symbol::Whole(-1)));
/// assert_eq!(Symbol::of(name(6, 1)), Some(Symbol::Name { number: 6, arguments: 1 }));
/// assert_eq!(Symbol::Variable(3).cell(), variable(3));
/// assert_eq!(Symbol::of(name(6, 5)), None);
/// ```
#[derive(Debug, Clone, Copy, PartialEq, Eq, Hash)]
pub enum Symbol {
    /// A variable, by its number.
    Variable(u16),
    /// A name, by its number and how many arguments it has. A name without arguments and that name with one are two symbols.
    Name {
        /// The name's number.
        number: u16,
        /// How many arguments it has, 0 to 4.
        arguments: u32,
    },
    /// A whole number, by its value.
    Whole(i16),
}

impl Symbol {
    /// The symbol of a cell; nothing where the number is no cell.
    pub const fn of(cell: u32) -> Option<Symbol> {
        let low = cell as u16;
        match (cell >> 30, cell >> 16 & 0x3fff) {
            (0, 0) => Some(Symbol::Variable(low)),
            (1, arguments @ 0..=4) => Some(Symbol::Name { number: low, arguments }),
            (2, 0) => Some(Symbol::Whole(value(cell))),
            _ => None,
        }
    }

    /// The symbol's cell.
    pub const fn cell(self) -> u32 {
        match self {
            Symbol::Variable(number) => variable(number),
            Symbol::Name { number, arguments } => name(number, arguments),
            Symbol::Whole(value) => whole(value),
        }
    }

    /// How many terms follow the cell as its arguments.
    pub const fn arguments(self) -> u32 {
        match self {
            Symbol::Name { arguments, .. } => arguments,
            _ => 0,
        }
    }
}
