//! The two runs that are timed: a walk down a plan, and every row unified in turn. Plain and quick: nothing is copied, bindings and open places
//! are kept by reference and put back after each branch. Where a row repeats a variable, terms are unified as trees that may be without end, and
//! then it is looked whether they are. Both are compared with the definitions of `run`.

use std::ops::Range;

use super::plan::{Branch, Plan};
use super::read::{Goal, Row, ROW_CELLS};
use super::term::Term;

/// What stands at an open place: a part of the goal, or a variable that was made when a goal's variable was bound.
#[derive(Clone, Copy)]
enum Seen<'g> {
    Term(&'g Term),
    Made(usize),
}

/// What a variable is bound to: a symbol with the first of the variables made for its arguments, or what stood where it was met again.
#[derive(Clone, Copy)]
enum Bound<'g> {
    Symbol(Symbol),
    Seen(Seen<'g>),
}

#[derive(Clone, Copy)]
struct Symbol {
    cell: u32,
    arguments: usize,
}

/// What a place shows once variables are followed.
#[derive(Clone, Copy)]
enum Shown<'g> {
    Goal(&'g Term),
    Bound(Symbol),
    Unbound(usize),
}

struct Walk<'p, 'g> {
    plan: &'p Plan,
    /// By variable: the goal's first, then those made.
    bound: Vec<Option<Bound<'g>>>,
    /// The open places, the leftmost last: it is the one that is closed most often.
    open: Vec<Seen<'g>>,
    /// By variable of the one row that is left below a variable's branch: what stood where it was first met.
    met: [Option<Seen<'g>>; ROW_CELLS],
    tried: usize,
}

/// Walks the plan: the hit rows are added to `hits`, and the number of branches tried is given back.
pub fn walk(plan: &Plan, goal: &Goal, hits: &mut Vec<u8>) -> usize {
    let mut open = Vec::with_capacity(ROW_CELLS);
    open.extend(goal.arguments.iter().rev().map(Seen::Term));
    let mut walk = Walk { plan, bound: vec![None; goal.variables], open, met: [None; ROW_CELLS], tried: 0 };
    walk.state(plan.top(), 0..plan.rows, hits);
    walk.tried
}

impl<'g> Walk<'_, 'g> {
    /// A state, by its branches and rows. The open places and the bindings are left as they were found.
    fn state(&mut self, state: Range<usize>, rows: Range<usize>, hits: &mut Vec<u8>) {
        if state.is_empty() {
            hits.extend(rows.map(|row| row as u8));
            return;
        }
        let plan = self.plan;
        let at = self.open.len() - 1 - plan.branches[state.start].place();
        let shown = self.look(self.open[at]);
        for (branch, below) in plan.at(state) {
            self.tried += 1;
            match shown {
                _ if branch.is_variable() => self.variable(branch, below, at, hits),
                Shown::Goal(term) if term.cell() == branch.cell => self.below(branch, below, at, term.arguments().iter().rev().map(Seen::Term), hits),
                Shown::Bound(symbol) if symbol.cell == branch.cell => {
                    let made = symbol.arguments..symbol.arguments + branch.argument_count();
                    self.below(branch, below, at, made.rev().map(Seen::Made), hits)
                }
                Shown::Unbound(variable) => {
                    let made = self.bound.len()..self.bound.len() + branch.argument_count();
                    self.bound[variable] = Some(Bound::Symbol(Symbol { cell: branch.cell, arguments: made.start }));
                    self.bound.resize(made.end, None);
                    self.below(branch, below, at, made.clone().rev().map(Seen::Made), hits);
                    self.bound.truncate(made.start);
                    self.bound[variable] = None;
                }
                _ => {}
            }
        }
    }

    /// A row's variable: where it is met first, what stands there is kept; where it is met again, the two must unify.
    fn variable(&mut self, branch: &Branch, below: Range<usize>, at: usize, hits: &mut Vec<u8>) {
        let (number, seen) = (branch.cell as usize, self.open[at]);
        let Some(first) = self.met[number] else {
            self.met[number] = Some(seen);
            self.below(branch, below, at, [].into_iter(), hits);
            self.met[number] = None;
            return;
        };
        let mut meeting = Meeting::default();
        if self.unify(first, seen, &mut meeting) && self.is_finite(seen, &mut Vec::new(), &mut Vec::new()) {
            self.below(branch, below, at, [].into_iter(), hits);
        }
        meeting.bound.iter().for_each(|&variable| self.bound[variable] = None);
    }

    fn look(&self, mut seen: Seen<'g>) -> Shown<'g> {
        loop {
            let variable = match seen {
                Seen::Made(variable) => variable,
                Seen::Term(Term::Var(number)) => *number as usize,
                Seen::Term(term) => return Shown::Goal(term),
            };
            match self.bound[variable] {
                Some(Bound::Symbol(symbol)) => return Shown::Bound(symbol),
                Some(Bound::Seen(next)) => seen = next,
                None => return Shown::Unbound(variable),
            }
        }
    }

    /// Binds variables until the two are equal as trees, which may then be without end; what was bound is noted.
    fn unify(&mut self, left: Seen<'g>, right: Seen<'g>, meeting: &mut Meeting) -> bool {
        let (left, right) = (self.look(left), self.look(right));
        match (left, right) {
            (Shown::Unbound(variable), other) | (other, Shown::Unbound(variable)) => {
                let to = match other {
                    Shown::Unbound(other) if other == variable => return true,
                    Shown::Unbound(other) => Bound::Seen(Seen::Made(other)),
                    Shown::Goal(term) => Bound::Seen(Seen::Term(term)),
                    Shown::Bound(symbol) => Bound::Symbol(symbol),
                };
                self.bound[variable] = Some(to);
                meeting.bound.push(variable);
                true
            }
            _ if left.cell() != right.cell() => false,
            _ if left.count() == 0 || meeting.is_done(left.key(), right.key()) => true,
            _ => (0..left.count()).all(|argument| self.unify(left.argument(argument), right.argument(argument), meeting)),
        }
    }

    /// Whether no way down from the term comes back to a name on it. Names in `done` are finite.
    fn is_finite(&self, seen: Seen<'g>, way: &mut Vec<Key>, done: &mut Vec<Key>) -> bool {
        let shown = self.look(seen);
        if matches!(shown, Shown::Unbound(_)) || shown.count() == 0 || done.contains(&shown.key()) {
            return true;
        }
        if way.contains(&shown.key()) {
            return false;
        }
        way.push(shown.key());
        let finite = (0..shown.count()).all(|argument| self.is_finite(shown.argument(argument), way, done));
        way.pop();
        done.push(shown.key());
        finite
    }

    /// Goes down a branch whose test was passed: the place is closed, its arguments in its stead, and opened again afterwards.
    fn below(&mut self, branch: &Branch, below: Range<usize>, at: usize, arguments: impl ExactSizeIterator<Item = Seen<'g>>, hits: &mut Vec<u8>) {
        let seen = self.open.remove(at);
        let count = arguments.len();
        if count > 0 {
            self.open.splice(at..at, arguments);
        }
        self.state(below, branch.rows(), hits);
        self.open.drain(at..at + count);
        self.open.insert(at, seen);
    }
}

/// Which name with arguments: the goal's by its address, a bound one by its first argument.
#[derive(Clone, Copy, PartialEq, Eq)]
enum Key {
    Goal(*const Term),
    Bound(usize),
}

/// What came of one later meeting: the variables bound, and the pairs of names that were gone through.
#[derive(Default)]
struct Meeting {
    bound: Vec<usize>,
    done: Vec<[Key; 2]>,
}

impl Meeting {
    /// Whether the two were met before; they are met now.
    fn is_done(&mut self, left: Key, right: Key) -> bool {
        let done = left == right || self.done.contains(&[left, right]);
        self.done.push([left, right]);
        done
    }
}

impl<'g> Shown<'g> {
    /// A name's or number's cell.
    fn cell(self) -> u32 {
        match self {
            Shown::Goal(term) => term.cell(),
            Shown::Bound(symbol) => symbol.cell,
            Shown::Unbound(_) => unreachable!("a variable has no symbol"),
        }
    }

    /// How many arguments there are.
    fn count(self) -> usize {
        match self {
            Shown::Goal(term) => term.arguments().len(),
            Shown::Bound(symbol) if symbol.cell >> 30 == 1 => (symbol.cell >> 16 & 7) as usize,
            _ => 0,
        }
    }

    fn argument(self, number: usize) -> Seen<'g> {
        match self {
            Shown::Goal(term) => Seen::Term(&term.arguments()[number]),
            Shown::Bound(symbol) => Seen::Made(symbol.arguments + number),
            Shown::Unbound(_) => unreachable!("a variable has no argument"),
        }
    }

    fn key(self) -> Key {
        match self {
            Shown::Goal(term) => Key::Goal(term),
            Shown::Bound(symbol) => Key::Bound(symbol.arguments),
            Shown::Unbound(_) => unreachable!("a variable is no name"),
        }
    }
}

/// A term of the row or of the goal.
#[derive(Clone, Copy)]
enum Side<'t> {
    Row(&'t Term),
    Goal(&'t Term),
}

/// The bindings of a row's and of the goal's variables.
struct Bindings<'t> {
    row: [Option<Side<'t>>; ROW_CELLS],
    goal: [Option<Side<'t>>; ROW_CELLS],
    /// Of a row that repeats a variable: the pairs of names that were gone through.
    done: Option<Vec<[*const Term; 2]>>,
}

/// How a row stands to a goal: they unify; they would if terms had no end; they do not.
#[derive(Clone, Copy, Debug, PartialEq, Eq)]
pub enum Fit {
    Fits,
    WithoutEnd,
    Differs,
}

/// Unifies every row in turn: the hit rows are added to `hits`.
pub fn in_turn(rows: &[Row], goal: &Goal, hits: &mut Vec<u8>) {
    let mut bindings = Bindings { row: [None; ROW_CELLS], goal: [None; ROW_CELLS], done: None };
    for (number, row) in rows.iter().enumerate() {
        if bindings.fit(row, goal) == Fit::Fits {
            hits.push(number as u8);
        }
        bindings.goal[..goal.variables].fill(None);
        bindings.row[..row.variables].fill(None);
    }
}

/// How one row stands to a goal.
pub fn fit(row: &Row, goal: &Goal) -> Fit {
    Bindings { row: [None; ROW_CELLS], goal: [None; ROW_CELLS], done: None }.fit(row, goal)
}

impl<'t> Bindings<'t> {
    fn fit(&mut self, row: &'t Row, goal: &'t Goal) -> Fit {
        // A row that uses each of its variables once makes no binding that holds its own variable, and nothing is gone through twice.
        self.done = (row.again > 0).then(Vec::new);
        let mut arguments = row.arguments.iter().zip(&goal.arguments);
        if !arguments.all(|(r, g)| self.unify(Side::Row(r), Side::Goal(g))) {
            Fit::Differs
        } else if self.done.is_none() || self.is_finite(goal) {
            Fit::Fits
        } else {
            Fit::WithoutEnd
        }
    }

    /// The term with its variables followed.
    fn follow(&self, mut side: Side<'t>) -> Side<'t> {
        loop {
            let bound = match side {
                Side::Row(Term::Var(number)) => self.row[*number as usize],
                Side::Goal(Term::Var(number)) => self.goal[*number as usize],
                _ => return side,
            };
            match bound {
                Some(next) => side = next,
                None => return side,
            }
        }
    }

    /// No occurs check: of a row that repeats a variable, the bindings are looked through in the end.
    fn unify(&mut self, left: Side<'t>, right: Side<'t>) -> bool {
        let (left, right) = (self.follow(left), self.follow(right));
        match (left, right) {
            (Side::Row(Term::Var(a)), Side::Row(Term::Var(b))) | (Side::Goal(Term::Var(a)), Side::Goal(Term::Var(b))) if a == b => true,
            (Side::Row(Term::Var(variable)), term) | (term, Side::Row(Term::Var(variable))) => {
                self.row[*variable as usize] = Some(term);
                true
            }
            (Side::Goal(Term::Var(variable)), term) | (term, Side::Goal(Term::Var(variable))) => {
                self.goal[*variable as usize] = Some(term);
                true
            }
            _ => self.unify_symbols(left, right),
        }
    }

    fn unify_symbols(&mut self, left: Side<'t>, right: Side<'t>) -> bool {
        let (a, b) = (left.term(), right.term());
        if let Some(done) = &mut self.done {
            let pair = [a as *const Term, b];
            if a.cell() == b.cell() && done.contains(&pair) {
                return true;
            }
            done.push(pair);
        }
        let mut arguments = a.arguments().iter().zip(b.arguments());
        a.cell() == b.cell() && arguments.all(|(x, y)| self.unify(left.with(x), right.with(y)))
    }

    /// Whether no variable of the goal leads back to a name that it stands in: names without a way down to an unfinished one are finished until
    /// none is left, or none can be.
    fn is_finite(&self, goal: &'t Goal) -> bool {
        let mut names: Vec<Side<'t>> = Vec::new();
        goal.arguments.iter().for_each(|term| self.names_below(Side::Goal(term), &mut names));
        while !names.is_empty() {
            let before = names.len();
            let unfinished: Vec<*const Term> = names.iter().map(|name| name.term() as *const Term).collect();
            names.retain(|name| {
                let below = name.term().arguments().iter().map(|argument| self.follow(name.with(argument)).term());
                below.into_iter().any(|below| unfinished.contains(&(below as *const Term)))
            });
            if names.len() == before {
                return false;
            }
        }
        true
    }

    fn names_below(&self, side: Side<'t>, names: &mut Vec<Side<'t>>) {
        let side = self.follow(side);
        let is_new = !names.iter().any(|name| std::ptr::eq(name.term(), side.term()));
        if is_new && !side.term().arguments().is_empty() {
            names.push(side);
            side.term().arguments().iter().for_each(|argument| self.names_below(side.with(argument), names));
        }
    }
}

impl<'t> Side<'t> {
    fn term(self) -> &'t Term {
        match self {
            Side::Row(term) | Side::Goal(term) => term,
        }
    }

    fn with(self, term: &'t Term) -> Side<'t> {
        match self {
            Side::Row(_) => Side::Row(term),
            Side::Goal(_) => Side::Goal(term),
        }
    }
}
