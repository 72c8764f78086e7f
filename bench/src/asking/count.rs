//! Instructions of goals read from text and of answers written as such, on the texts of the five tables. `count` and `instructions` go together as
//! those of crate::count.

use std::hint::black_box;
use std::path::Path;

use super::Asking;
use crate::cases::{KINDS, SEED};
use crate::count::{measured, total};
use crate::engine::{Exported, Plain};
use crate::make::asked::{facts_of, Facts};
use crate::make::tables::Kind;
use crate::make::{goals, texts};
use crate::model::read::read_goal;
use crate::model::replies::{said, Reply};
use crate::random::Random;

const ROWS: usize = 64;
const GOALS: usize = 32;

/// More bytes than any of the answers has.
const ROOM: usize = 1 << 14;

/// A table's text, goals for it, half of them instances of rows and half rows with parts blank, and what its rows say to them. No goal has a name
/// that the facts have not.
struct Case {
    facts: Facts,
    goals: Vec<Vec<u8>>,
    replies: Vec<Vec<u32>>,
}

impl Case {
    fn new(kind: Kind) -> Case {
        let random = &mut Random::new(SEED);
        // A number may be printed as one that no text has, or as another row's.
        let facts = std::iter::repeat_with(|| texts::plain(random, kind, ROWS)).find_map(facts_of).expect("texts do not end");
        let (mut goals, mut replies) = (Vec::new(), Vec::new());
        while goals.len() < GOALS {
            let cells = if goals.len() % 2 == 0 { goals::instance(random, &facts.table) } else { goals::general(random, &facts.table) };
            if cells.iter().all(|cell| cell >> 30 != 1 || ((cell & 0xffff) as usize) < facts.names.len()) {
                let goal = read_goal(facts.table.width, &cells).expect("a sound goal");
                let short = |reply| if let Reply::Cells(cells) = reply { Some(cells) } else { None };
                replies.extend(said(&facts.table, &goal).into_iter().filter_map(short));
                let mut room = vec![0; ROOM];
                let answer = Plain.put_answer(&facts.text, &facts.names, &[], &[], &cells, &mut room);
                goals.push(room[..(answer >> 32) as usize].to_vec());
            }
        }
        Case { facts, goals, replies }
    }

    /// All goals read, a goal of no byte, all replies said, and an answer of no cell: the last of each pair scans the facts and does no more.
    fn works(&self) -> [Box<dyn FnMut() + '_>; 4] {
        let Facts { text, names, .. } = &self.facts;
        let read = |goals: &[Vec<u8>]| {
            let (mut cells, mut new) = ([0; 32], [0; 32]);
            for goal in goals {
                black_box(Exported.read_goal_text(text, names, black_box(goal), &mut cells, &mut new));
            }
        };
        let say = |replies: &[Vec<u32>], room: &mut [u8]| {
            for reply in replies {
                black_box(Exported.put_answer(text, names, &[], &[], black_box(reply), room));
            }
        };
        let (mut room, mut other) = (vec![0; ROOM], vec![0; ROOM]);
        [
            Box::new(move || read(&self.goals)),
            Box::new(move || read(&[Vec::new()])),
            Box::new(move || say(&self.replies, &mut room)),
            Box::new(move || say(&[Vec::new()], &mut other)),
        ]
    }

    /// The bytes of all answers.
    fn said(&self) -> usize {
        let Facts { text, names, .. } = &self.facts;
        let bytes = |reply: &Vec<u32>| (Plain.put_answer(text, names, &[], &[], reply, &mut vec![0; ROOM]) >> 32) as usize;
        self.replies.iter().map(bytes).sum()
    }
}

pub fn count() {
    for (_, kind) in KINDS {
        for mut work in Case::new(kind).works() {
            work();
            measured(&mut *work);
        }
    }
}

/// Prints the figures from callgrind's files FOLDER/count.1, count.2, ..
pub fn instructions(folder: &Path) {
    println!(
        "\nGoals and answers as text, {ROWS} rows: a call, the same with no goal or no cell, and what is left for each byte of the goal or answer"
    );
    println!(
        "{:<18}{:>7}{:>8}{:>12}{:>12}{:>8}{:>9}{:>8}{:>12}{:>12}{:>8}",
        "", "facts", "goal", "a goal", "no goal", "a byte", "answers", "bytes", "an answer", "no cell", "a byte"
    );
    for (place, (name, kind)) in KINDS.into_iter().enumerate() {
        let case = Case::new(kind);
        let [read, no_goal, say, no_cell] = [1, 2, 3, 4].map(|file| total(&folder.join(format!("count.{}", 4 * place + file))) as f64);
        let (goals, answers) = (case.goals.len() as f64, case.replies.len() as f64);
        let (goal, answer) = (case.goals.concat().len() as f64 / goals, case.said() as f64 / answers);
        let (read, say) = (read / goals, say / answers);
        let (by_goal, by_answer) = ((read - no_goal) / goal, (say - no_cell) / answer);
        let facts = case.facts.text.len();
        print!("{name:<18}{facts:>7}{goal:>8.1}{read:>12.0}{no_goal:>12.0}{by_goal:>8.1}");
        println!("{answers:>9}{answer:>8.1}{say:>12.0}{no_cell:>12.0}{by_answer:>8.1}");
    }
}
