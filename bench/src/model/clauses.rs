//! A plan handed back as Prolog (02, W-210; document 001, section 4), from those pages alone: what is decided on a straight run is kept as terms
//! with gaps, and the predicates are numbered before any clause is made.

use std::collections::HashSet;
use std::ops::Range;

use super::plan::{self, Plan};
use super::read::{self, Table};
use super::refusal::{Answer, Input, Number, Refusal};
use super::term::{Symbol, Term};
use super::unify::Substitution;
use super::written;

/// One clause: what stands in the head, and which predicate the body calls on the head's variables; a fact calls none.
#[derive(Clone, Debug, PartialEq, Eq)]
pub struct Clause {
    pub predicate: usize,
    pub head: Vec<Term>,
    pub called: Option<usize>,
}

/// Writes the program's text; the number of its clauses and of its bytes.
pub fn clauses(table: &[u32], plan: &[u32], text: &[u8], names: &[u32], room: &mut [u8]) -> Answer {
    let (program, words) = handed(table, plan, text, names)?;
    let text = said(&program, &words);
    written(room, &text)?;
    Ok((program.len(), text.len()))
}

/// The program and the words of the names, before any room is looked at: "Refusals, after table and plan: NAMES".
pub fn handed<'t>(table: &[u32], plan: &[u32], text: &'t [u8], names: &[u32]) -> Result<(Vec<Clause>, Vec<&'t [u8]>), Refusal> {
    let table = read::read_table(table)?;
    let plan = plan::check(&table, plan)?;
    let words = listed(&table, text, names).ok_or(Refusal { number: Number::Names, input: Input::Names, place: 0 })?;
    Ok((program(&plan, table.width), words))
}

/// The words of the names by number: "when a listed place holds no lower-case name, two hold the same, or the table has a name number not listed"
/// there are none.
fn listed<'t>(table: &Table, text: &'t [u8], names: &[u32]) -> Option<Vec<&'t [u8]>> {
    let words = names.iter().map(|&name| word(text, name)).collect::<Option<Vec<&[u8]>>>()?;
    let distinct: HashSet<&[u8]> = words.iter().copied().collect();
    let all_listed = table.rows.iter().flat_map(|row| &row.arguments).all(|term| highest(term).is_none_or(|number| number < words.len()));
    (distinct.len() == words.len() && all_listed).then_some(words)
}

/// The lower-case name at a listed place.
pub fn word(text: &[u8], name: u32) -> Option<&[u8]> {
    let (start, bytes) = ((name & 0xffff) as usize, (name >> 16) as usize);
    let word = text.get(start..start + bytes)?;
    let (first, later) = word.split_first()?;
    let is_name = first.is_ascii_lowercase() && later.iter().all(|&byte| byte.is_ascii_alphanumeric() || byte == b'_');
    is_name.then_some(word)
}

/// The highest number of a name in a term.
fn highest(term: &Term) -> Option<usize> {
    let own = if let Term::Name(number, _) = term { Some(*number as usize) } else { None };
    term.arguments().iter().map(highest).fold(own, Option::max)
}

/// What is known of an argument on the way down: nothing yet, or its symbol and what is known of that one's arguments.
#[derive(Clone)]
enum Known {
    Gap,
    Symbol(u32, Vec<Known>),
}

impl Known {
    /// The gaps from left to right.
    fn gaps<'k>(&'k mut self, found: &mut Vec<&'k mut Known>) {
        match self {
            Known::Gap => found.push(self),
            Known::Symbol(_, arguments) => arguments.iter_mut().for_each(|argument| argument.gaps(found)),
        }
    }

    /// As a term; the gaps are variables, numbered from the next one on.
    fn term(&self, next: &mut u16) -> Term {
        match self {
            Known::Gap => {
                *next += 1;
                Term::Var(*next - 1)
            }
            Known::Symbol(cell, arguments) => match Symbol::of(*cell).expect("a plan's cell") {
                Symbol::Variable(number) => Term::Var(number),
                Symbol::Number(value) => Term::Number(value),
                Symbol::Name { number, .. } => Term::Name(number, arguments.iter().map(|argument| argument.term(next)).collect()),
            },
        }
    }
}

fn gaps(arguments: &mut [Known]) -> Vec<&mut Known> {
    let mut found = Vec::new();
    arguments.iter_mut().for_each(|argument| argument.gaps(&mut found));
    found
}

/// The program of a plan: "a predicate for the first state and each with several branches, straight runs folded into heads". A predicate with all
/// that it calls stands before the next one that its caller calls, so that predicates stand in the order of their numbers.
pub fn program(plan: &Plan, width: usize) -> Vec<Clause> {
    let states = states(plan);
    // How many places are open at each of them; a caller stands before those it calls.
    let mut open = vec![0; states.len()];
    open[0] = width;
    let mut program = Vec::new();
    for predicate in 0..states.len() {
        for (branch, below) in plan.at(states[predicate].clone()) {
            let mut head = vec![Known::Gap; open[predicate]];
            decide(&mut head, branch.place(), branch.cell);
            let end = fold(plan, below, &mut head);
            let called = states.iter().position(|state| *state == end && !end.is_empty());
            if let Some(called) = called {
                open[called] = gaps(&mut head).len();
            }
            let mut next = 0;
            let head = head.iter().map(|known| known.term(&mut next)).collect();
            program.push(Clause { predicate, head, called });
        }
    }
    program
}

/// The first state and all with several branches, parents first.
fn states(plan: &Plan) -> Vec<Range<usize>> {
    let below = plan.branches.iter().enumerate().map(|(index, branch)| index + 1..branch.after());
    let several = below.filter(|state| plan.at(state.clone()).count() > 1);
    std::iter::once(plan.top()).chain(several).collect()
}

/// Down a straight run: where it ends, at a leaf or at a state with several branches.
fn fold(plan: &Plan, mut state: Range<usize>, head: &mut [Known]) -> Range<usize> {
    while plan.at(state.clone()).count() == 1 {
        let (branch, below) = plan.at(state).next().expect("there is one");
        decide(head, branch.place(), branch.cell);
        state = below;
    }
    state
}

fn decide(head: &mut [Known], place: usize, cell: u32) {
    let arguments = if let Some(Symbol::Name { arguments, .. }) = Symbol::of(cell) { arguments } else { 0 };
    *gaps(head).swap_remove(place) = Known::Symbol(cell, vec![Known::Gap; arguments]);
}

/// The text: a clause to a line.
pub fn said(program: &[Clause], words: &[&[u8]]) -> Vec<u8> {
    let mut text = Vec::new();
    for clause in program {
        atom(clause.predicate, &clause.head, words, &mut text);
        if let Some(called) = clause.called {
            text.extend(b" :- ");
            let mut variables = Vec::new();
            clause.head.iter().for_each(|term| appearing(term, &mut variables));
            atom(called, &variables, words, &mut text);
        }
        text.extend(b".\n");
    }
    text
}

/// The variables of a term, each once, by first appearance.
fn appearing(term: &Term, found: &mut Vec<Term>) {
    if term.is_variable() && !found.contains(term) {
        found.push(term.clone());
    }
    term.arguments().iter().for_each(|argument| appearing(argument, found));
}

fn atom(predicate: usize, arguments: &[Term], words: &[&[u8]], text: &mut Vec<u8>) {
    text.extend(format!("'P{predicate}'").bytes());
    bracketed(arguments, words, text);
}

fn bracketed(terms: &[Term], words: &[&[u8]], text: &mut Vec<u8>) {
    for (number, term) in terms.iter().enumerate() {
        text.extend(if number == 0 { &b"("[..] } else { b", " });
        match term {
            Term::Var(number) => text.extend(format!("_{number}").bytes()),
            Term::Number(value) => text.extend(value.to_string().bytes()),
            Term::Name(number, arguments) => {
                text.extend(words[*number as usize]);
                if !arguments.is_empty() {
                    bracketed(arguments, words, text);
                }
            }
        }
    }
    text.push(b')');
}

/// What the program answers to a goal, in clause order: a call is unified with each head in turn, with the occurs check, and a body's call is
/// answered before the next clause is tried. Each answer is the goal's terms, the goal's variables being the first so many.
pub fn answers(program: &[Clause], goal: &[Term]) -> Vec<Vec<Term>> {
    let mut answers = Vec::new();
    called(program, 0, goal, goal, 1, &mut answers);
    answers
}

/// Variables of a clause that is called so deep down are moved up by as many of these.
const APART: u16 = 1000;

fn called(program: &[Clause], predicate: usize, call: &[Term], goal: &[Term], depth: u16, answers: &mut Vec<Vec<Term>>) {
    for clause in program.iter().filter(|clause| clause.predicate == predicate) {
        let head: Vec<Term> = clause.head.iter().map(|term| term.renamed(depth * APART)).collect();
        let mut unifier = Substitution::default();
        if !unifier.unify_all(&head, call) {
            continue;
        }
        let goal: Vec<Term> = goal.iter().map(|term| unifier.applied(term)).collect();
        match clause.called {
            None => answers.push(goal),
            Some(next) => {
                let mut variables = Vec::new();
                head.iter().for_each(|term| appearing(term, &mut variables));
                let call: Vec<Term> = variables.iter().map(|variable| unifier.applied(variable)).collect();
                called(program, next, &call, &goal, depth + 1, answers);
            }
        }
    }
}
