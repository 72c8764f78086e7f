//! First-order unification as the textbooks have it: a substitution, and the occurs check. What a variable is bound to is a part of the terms
//! unified, by reference, and what stands at many places is gone through once: however long the common instance is, nothing of it is written out.

use std::collections::{BTreeMap, HashMap, HashSet};

use super::term::Term;

/// A substitution in triangular form: a variable's image may hold variables that are bound themselves.
#[derive(Clone, Default)]
pub struct Substitution<'t> {
    bound: BTreeMap<u16, &'t Term>,
    /// Names with arguments that were unified, or are being unified.
    done: HashSet<[*const Term; 2]>,
}

impl<'t> Substitution<'t> {
    /// The term itself, or what its variable is bound to in the end.
    fn image(&self, mut term: &'t Term) -> &'t Term {
        while let Term::Var(number) = term {
            match self.bound.get(number) {
                Some(bound) => term = bound,
                None => break,
            }
        }
        term
    }

    /// Whether the variable stands in the term; terms in `seen` are known not to hold it.
    fn occurs(&self, variable: u16, term: &'t Term, seen: &mut HashSet<*const Term>) -> bool {
        let term = self.image(term);
        match term {
            Term::Var(number) => *number == variable,
            Term::Name(_, arguments) if !arguments.is_empty() && seen.insert(term) => {
                arguments.iter().any(|argument| self.occurs(variable, argument, seen))
            }
            _ => false,
        }
    }

    /// Extends the substitution to a most general unifier of the two terms; false where there is none.
    pub fn unify(&mut self, left: &'t Term, right: &'t Term) -> bool {
        let (left, right) = (self.image(left), self.image(right));
        match (left, right) {
            (Term::Var(a), Term::Var(b)) if a == b => true,
            (Term::Var(variable), term) | (term, Term::Var(variable)) => {
                if self.occurs(*variable, term, &mut HashSet::new()) {
                    return false;
                }
                self.bound.insert(*variable, term);
                true
            }
            (Term::Number(a), Term::Number(b)) => a == b,
            (Term::Name(a, these), Term::Name(b, those)) if a == b && these.len() == those.len() => {
                these.is_empty() || !self.done.insert([left, right]) || self.unify_all(these, those)
            }
            _ => false,
        }
    }

    pub fn unify_all(&mut self, left: &'t [Term], right: &'t [Term]) -> bool {
        left.iter().zip(right).all(|(l, r)| self.unify(l, r))
    }

    /// The term with every bound variable replaced, until none is left.
    pub fn applied(&self, term: &'t Term) -> Term {
        match self.image(term) {
            Term::Name(number, arguments) => Term::Name(*number, arguments.iter().map(|argument| self.applied(argument)).collect()),
            leaf => leaf.clone(),
        }
    }

    /// How many cells the terms have then.
    pub fn cells(&self, terms: &'t [Term]) -> u64 {
        let known = &mut HashMap::new();
        terms.iter().map(|term| self.cells_of(term, known)).sum()
    }

    fn cells_of(&self, term: &'t Term, known: &mut HashMap<*const Term, u64>) -> u64 {
        let term = self.image(term);
        if let Some(&cells) = known.get(&(term as *const Term)) {
            return cells;
        }
        let cells = 1 + term.arguments().iter().map(|argument| self.cells_of(argument, known)).sum::<u64>();
        known.insert(term, cells);
        cells
    }
}

/// Whether a substitution makes the two lists of terms equal. Their variables are renamed apart by the caller.
pub fn unifies(left: &[Term], right: &[Term]) -> bool {
    Substitution::default().unify_all(left, right)
}
