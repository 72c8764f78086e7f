//! Cells and terms (01, "Cells"; 02, W-206: a number is signed).

/// What one cell says.
#[derive(Clone, Copy, Debug, PartialEq, Eq)]
pub enum Symbol {
    Variable(u16),
    Name { number: u16, arguments: usize },
    Number(i16),
}

impl Symbol {
    /// None for kind 3, for a bit set that must be zero and for over 4 arguments.
    pub fn of(cell: u32) -> Option<Symbol> {
        let number = cell as u16;
        let between = cell >> 16 & 0x3fff;
        match (cell >> 30, between) {
            (0, 0) => Some(Symbol::Variable(number)),
            (1, 0..=4) => Some(Symbol::Name { number, arguments: between as usize }),
            (2, 0) => Some(Symbol::Number(number as i16)),
            _ => None,
        }
    }
}

/// A term as a tree.
#[derive(Clone, Debug, PartialEq, Eq)]
pub enum Term {
    Var(u16),
    Name(u16, Vec<Term>),
    Number(i16),
}

impl Term {
    /// The cell of the term's own symbol.
    pub fn cell(&self) -> u32 {
        match self {
            Term::Var(number) => *number as u32,
            Term::Name(number, arguments) => 1 << 30 | (arguments.len() as u32) << 16 | *number as u32,
            Term::Number(value) => 2 << 30 | u32::from(*value as u16),
        }
    }

    pub fn arguments(&self) -> &[Term] {
        match self {
            Term::Name(_, arguments) => arguments,
            _ => &[],
        }
    }

    pub fn is_variable(&self) -> bool {
        matches!(self, Term::Var(_))
    }

    /// Whether two rows that hold these terms at a place agree there: the same name or the same number, never two variables.
    pub fn agrees(&self, other: &Term) -> bool {
        !self.is_variable() && self.cell() == other.cell()
    }

    /// The number of the term's cells.
    pub fn size(&self) -> usize {
        1 + self.arguments().iter().map(Term::size).sum::<usize>()
    }

    /// Writes the term's cells, each symbol before its arguments.
    pub fn write(&self, cells: &mut Vec<u32>) {
        cells.push(self.cell());
        for argument in self.arguments() {
            argument.write(cells);
        }
    }

    /// The term with every variable's number moved up.
    pub fn renamed(&self, by: u16) -> Term {
        match self {
            Term::Var(number) => Term::Var(number + by),
            Term::Name(number, arguments) => Term::Name(*number, arguments.iter().map(|a| a.renamed(by)).collect()),
            Term::Number(value) => Term::Number(*value),
        }
    }
}
