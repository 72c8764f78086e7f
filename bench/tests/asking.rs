//! Goals and answers as Prolog text: what the program ask has stored, by each engine; and engines that are wrong in one thing each are found.

mod altered;

use altered::{answered, number, written};
use dudowiej_bench::asking::compare::{compare, families};
use dudowiej_bench::asking::Asking;
use dudowiej_bench::engine::{Definition, Exported, Plain};
use dudowiej_bench::make::asked::facts_of;
use dudowiej_bench::model::asking::word;
use dudowiej_bench::model::grammar::is_text;
use dudowiej_bench::model::read::read_goal;
use dudowiej_bench::model::replies::{said, Reply};
use dudowiej_bench::model::text::load;

const SHOP: &[u8] = include_bytes!("../../samples/shop.pl");
const BADGE: &[u8] = include_bytes!("../../samples/badge.pl");
const STORED: [&str; 2] = [include_str!("../../crates/ask/stdout"), include_str!("../../crates/ask_cases/stdout")];

const ENGINES: [&dyn Asking; 3] = [&Exported, &Plain, &Definition];

/// What rows say to a goal of text, as text.
fn answers(engine: &dyn Asking, text: &[u8], goal: &[u8]) -> Vec<String> {
    let facts = facts_of(text.to_vec()).expect("a table");
    let (mut cells, mut new) = ([0; 32], [0; 32]);
    let read = engine.read_goal_text(text, &facts.names, goal, &mut cells, &mut new);
    assert!(answered(read));
    let (cells, new) = (&cells[..(read >> 16 & 0xffff) as usize], &new[..(read >> 32) as usize]);
    let say = |reply| {
        let Reply::Cells(cells) = reply else {
            panic!("too long a reply");
        };
        let mut room = [0; 1000];
        let answer = engine.put_answer(text, &facts.names, goal, new, &cells, &mut room);
        assert_eq!((number(answer), answer >> 16 & 0xffff), (0, cells.len() as u64));
        String::from_utf8(room[..(answer >> 32) as usize].to_vec()).expect("letters and signs")
    };
    said(&facts.table, &read_goal(facts.table.width, cells).expect("a goal")).into_iter().map(say).collect()
}

/// The goals that ask has stored, `?- GOAL`, and the answers after each, `rule N, line L: ANSWER`.
#[test]
fn the_stored_answers_of_ask() {
    let mut count = 0;
    let stored = STORED.map(|stored| ["\n", stored].concat());
    for part in stored.iter().flat_map(|stored| stored.split("\n?- ").skip(1)) {
        let mut lines = part.lines();
        let goal = lines.next().expect("the goal's line");
        let stored: Vec<&str> = lines.map_while(|line| line.strip_prefix("rule ")?.split_once(": ").map(|(_, answer)| answer)).collect();
        let text = if goal.starts_with("badge") { BADGE } else { SHOP };
        for engine in ENGINES {
            assert_eq!(answers(engine, text, goal.as_bytes()), stored, "{goal}");
        }
        count += 1;
    }
    assert!(count > 15, "{count}");
}

#[test]
fn nothing_differs_and_all_is_met() {
    let tally = families(&Exported, compare(&Exported, 300, 1), 1);
    println!("{tally}");
    assert!(tally.passed());
}

type Read = fn(&[u8], &[u32], &[u8], &mut [u32], &mut [u32]) -> u64;
type Put = fn(&[u8], &[u32], &[u8], &[u32], &[u32], &mut [u8]) -> u64;

/// An engine that does something after, or in place of, the right thing.
struct Altered {
    read: Read,
    put: Put,
}

impl Asking for Altered {
    fn read_goal_text(&self, text: &[u8], names: &[u32], goal: &[u8], cells: &mut [u32], new: &mut [u32]) -> u64 {
        (self.read)(text, names, goal, cells, new)
    }
    fn put_answer(&self, text: &[u8], names: &[u32], goal: &[u8], new: &[u32], cells: &[u32], room: &mut [u8]) -> u64 {
        (self.put)(text, names, goal, new, cells, room)
    }
}

const READ: Read = |text, names, goal, cells, new| Plain.read_goal_text(text, names, goal, cells, new);
const PUT: Put = |text, names, goal, new, cells, room| Plain.put_answer(text, names, goal, new, cells, room);

#[track_caller]
fn misread(read: Read) {
    assert!(compare(&Altered { read, put: PUT }, 60, 1).differ() > 0);
}

#[track_caller]
fn missaid(put: Put) {
    assert!(compare(&Altered { read: READ, put }, 60, 1).differ() > 0);
}

/// A refusal of the goal's text.
fn of_text(number: u64, place: usize) -> u64 {
    number | 5 << 8 | (place as u64) << 16
}

const TEXT: u64 = 18;
const OTHER: u64 = 19;

#[test]
fn names_that_are_not_looked_up() {
    misread(|text, names, goal, cells, new| {
        // The text's own words are no others', so that all names are new.
        let nothing = vec![0; names.len()];
        READ(text, &nothing, goal, cells, new)
    });
    // A word that is listed twice has its last number.
    misread(|text, names, goal, cells, new| {
        let answer = READ(text, names, goal, cells, new);
        let last = |cell: u32| names.iter().rposition(|&entry| word(text, entry) == word(text, names[(cell & 0xffff) as usize]));
        let count = if answered(answer) { (answer >> 16 & 0xffff) as usize } else { 0 };
        for cell in cells[..count].iter_mut().filter(|cell| **cell >> 30 == 1 && ((**cell & 0xffff) as usize) < names.len()) {
            *cell = *cell & !0xffff | last(*cell).expect("it is listed") as u32;
        }
        answer
    });
}

#[test]
fn new_names_numbered_from_0_or_one_too_far() {
    misread(|text, names, goal, cells, new| then(READ(text, names, goal, cells, new), cells, |cell| renumbered(cell, names.len(), 0)));
    misread(|text, names, goal, cells, new| then(READ(text, names, goal, cells, new), cells, |cell| renumbered(cell, names.len(), names.len() + 1)));
}

/// Changes each cell of a goal that was read.
fn then(answer: u64, cells: &mut [u32], change: impl Fn(u32) -> u32) -> u64 {
    let count = if answered(answer) { (answer >> 16 & 0xffff) as usize } else { 0 };
    cells[..count].iter_mut().for_each(|cell| *cell = change(*cell));
    answer
}

/// New names, which are numbered from the first on, numbered from the second.
fn renumbered(cell: u32, first: usize, from: usize) -> u32 {
    let number = (cell & 0xffff) as usize;
    if cell >> 30 == 1 && number >= first {
        cell & !0xffff | (number - first + from) as u32
    } else {
        cell
    }
}

#[test]
fn start_and_bytes_exchanged() {
    misread(|text, names, goal, cells, new| {
        let answer = READ(text, names, goal, cells, new);
        let count = if answered(answer) { (answer >> 32) as usize } else { 0 };
        new[..count].iter_mut().for_each(|entry| *entry = entry.rotate_left(16));
        answer
    });
}

#[test]
fn one_variable_for_every_blank() {
    misread(|text, names, goal, cells, new| {
        let shared: Vec<u8> = goal.iter().enumerate().map(|(at, &byte)| if byte == b'_' && alone(goal, at) { b'B' } else { byte }).collect();
        READ(text, names, &shared, cells, new)
    });
}

/// Whether the byte is a word by itself.
fn alone(goal: &[u8], at: usize) -> bool {
    let in_word = |at: Option<usize>| at.and_then(|at| goal.get(at)).is_some_and(|byte| byte.is_ascii_alphanumeric() || *byte == b'_');
    !in_word(at.checked_sub(1)) && !in_word(Some(at + 1))
}

#[test]
fn full_stops_wanted_or_refused() {
    misread(|text, names, goal, cells, new| {
        let answer = READ(text, names, goal, cells, new);
        if answered(answer) && !is_text(goal) {
            of_text(TEXT, goal.len())
        } else {
            answer
        }
    });
    misread(|text, names, goal, cells, new| {
        let answer = READ(text, names, goal, cells, new);
        match goal.iter().position(|&byte| byte == b'.') {
            Some(place) if answered(answer) && is_text(goal) => of_text(TEXT, place),
            _ => answer,
        }
    });
    // On the goal's own last line, where a comment takes it in.
    misread(|text, names, goal, cells, new| {
        let stopped = [goal, b"."].concat();
        let whole = if is_text(&stopped) { &stopped } else { goal };
        let answer = READ(text, names, whole, cells, new);
        if answered(answer) && !is_text(whole) {
            return of_text(TEXT, goal.len());
        }
        answer
    });
}

#[test]
fn only_the_first_fact_read() {
    misread(|text, names, goal, cells, new| {
        let answer = READ(text, names, goal, cells, new);
        let first = goal.iter().position(|&byte| byte == b'.').map_or(goal, |stop| &goal[..stop]);
        if number(answer) == OTHER {
            READ(text, names, first, cells, new)
        } else {
            answer
        }
    });
}

#[test]
fn any_predicate_or_number_of_arguments_taken() {
    misread(|text, names, goal, cells, new| {
        let answer = READ(text, names, goal, cells, new);
        // The goal's own text in the facts' place.
        let own = [goal, b"\n."].concat();
        if number(answer) == OTHER {
            READ(&own, &[], goal, cells, new)
        } else {
            answer
        }
    });
}

#[test]
fn other_at_the_first_byte() {
    misread(|text, names, goal, cells, new| {
        let answer = READ(text, names, goal, cells, new);
        if number(answer) == OTHER {
            of_text(OTHER, 0)
        } else {
            answer
        }
    });
}

#[test]
fn the_facts_own_refusal() {
    misread(|text, names, goal, cells, new| {
        let answer = READ(text, names, goal, cells, new);
        match load(text) {
            Err(refusal) if number(answer) == OTHER => of_text(refusal.number as u64, refusal.place),
            _ => answer,
        }
    });
}

#[test]
fn limits_moved() {
    // Names: one fewer, and after the goal.
    misread(|text, names, goal, cells, new| if names.len() == 2048 { 1 | 1 << 8 } else { READ(text, names, goal, cells, new) });
    misread(|text, names, goal, cells, new| {
        let answer = READ(text, &names[..names.len().min(2048)], goal, cells, new);
        if names.len() > 2048 && answered(answer) {
            1 | 1 << 8
        } else {
            answer
        }
    });
    // Bytes: as many as a text has.
    misread(|text, names, goal, cells, new| {
        if goal.len() == 65_533 {
            return of_text(17, 0);
        }
        READ(text, names, goal, cells, new)
    });
    misread(|text, names, goal, cells, new| {
        let shorter = if goal.len() == 65_534 { &goal[1..] } else { goal };
        READ(text, names, shorter, cells, new)
    });
    // Cells: one fewer, or LONG for too many.
    misread(|text, names, goal, cells, new| {
        let answer = READ(text, names, goal, cells, new);
        if answered(answer) && answer >> 16 & 0xffff == 32 {
            1 | 3 << 8
        } else {
            answer
        }
    });
    misread(|text, names, goal, cells, new| {
        let answer = READ(text, names, goal, cells, new);
        if answer == 1 | 3 << 8 {
            4 | 3 << 8 | 32 << 16
        } else {
            answer
        }
    });
}

#[test]
fn rooms_of_a_goal() {
    // The new names' first.
    misread(|text, names, goal, cells, new| {
        let answer = READ(text, names, goal, &mut [0; 40], new);
        if number(answer) == 16 {
            answer
        } else {
            READ(text, names, goal, cells, new)
        }
    });
    // Cells written although there is no room for the names.
    misread(|text, names, goal, cells, new| {
        let (mut all, mut listed) = ([0; 40], [0; 40]);
        let answer = READ(text, names, goal, cells, new);
        let right = READ(text, names, goal, &mut all, &mut listed);
        let count = (right >> 16 & 0xffff) as usize;
        if number(answer) == 16 && cells.len() >= count {
            cells[..count].copy_from_slice(&all[..count]);
        }
        answer
    });
    // One more wanted, of each.
    misread(|text, names, goal, cells, new| {
        let less = cells.len().saturating_sub(1);
        READ(text, names, goal, &mut cells[..less], new)
    });
    misread(|text, names, goal, cells, new| {
        let less = new.len().saturating_sub(1);
        READ(text, names, goal, cells, &mut new[..less])
    });
    // The rest cleared.
    misread(|text, names, goal, cells, new| {
        let answer = READ(text, names, goal, cells, new);
        if answered(answer) {
            cells[(answer >> 16 & 0xffff) as usize..].fill(0);
        }
        answer
    });
}

/// Writes what is made of the right text.
fn changed(right: (u64, Vec<u8>), room: &mut [u8], change: impl Fn(String) -> String) -> u64 {
    let (answer, text) = right;
    // Some texts have bytes of any kind.
    let text: String = text.into_iter().map(char::from).collect();
    let text: Vec<u8> = change(text).chars().map(|byte| byte as u8).collect();
    if answered(answer) {
        written(room, &text, (answer >> 16 & 0xffff) as usize, text.len())
    } else {
        answer
    }
}

/// The right text, in room enough.
fn right(text: &[u8], names: &[u32], goal: &[u8], new: &[u32], cells: &[u32]) -> (u64, Vec<u8>) {
    let needed = PUT(text, names, goal, new, cells, &mut []);
    let mut room = vec![0; if number(needed) == 16 { (needed >> 16) as usize } else { 0 }];
    (PUT(text, names, goal, new, cells, &mut room), room)
}

#[test]
fn another_text() {
    missaid(|text, names, goal, new, cells, room| changed(right(text, names, goal, new, cells), room, |text| text.replace(", ", ",")));
    missaid(|text, names, goal, new, cells, room| changed(right(text, names, goal, new, cells), room, |text| text.replace("_0", "X0")));
    missaid(|text, names, goal, new, cells, room| changed(right(text, names, goal, new, cells), room, |text| text.replace('-', "")));
    missaid(|text, names, goal, new, cells, room| changed(right(text, names, goal, new, cells), room, |text| text + "."));
    // A bracket closed where terms are missing.
    missaid(|text, names, goal, new, cells, room| {
        changed(right(text, names, goal, new, cells), room, |text| if text.ends_with(", ") { text + ")" } else { text })
    });
}

#[test]
fn a_sign_for_what_has_no_word() {
    // A name in neither list, and a number that is no cell.
    missaid(|text, names, goal, new, cells, room| {
        let (text, goal) = ([text, b"%?"].concat(), [goal, b"?"].concat());
        let more: Vec<u32> = new.iter().copied().chain([1 << 16 | (goal.len() - 1) as u32]).collect();
        PUT(&text, names, &goal, &more, cells, room)
    });
    missaid(|text, names, goal, new, cells, room| {
        let cells: Vec<u32> = cells.iter().map(|&cell| if cell >> 30 == 3 { 0 } else { cell }).collect();
        PUT(text, names, goal, new, &cells, room)
    });
}

#[test]
fn names_of_the_other_text() {
    missaid(|text, names, _, new, cells, room| PUT(text, names, text, new, cells, room));
    missaid(|text, names, goal, new, cells, room| {
        let new_first: Vec<u32> = cells.iter().map(|&cell| renumbered(cell, names.len(), 0)).collect();
        PUT(text, names, goal, new, &new_first, room)
    });
    missaid(|text, names, goal, _, cells, room| PUT(text, names, goal, &[], cells, room));
}

#[test]
fn facts_that_are_refused_have_no_answer() {
    missaid(|text, names, goal, new, cells, room| match load(text) {
        Err(refusal) => of_text(refusal.number as u64, refusal.place),
        Ok(_) => PUT(text, names, goal, new, cells, room),
    });
}

#[test]
fn the_limit_of_an_answer() {
    missaid(|text, names, goal, new, cells, room| if cells.len() == 1024 { 25 | 3 << 8 } else { PUT(text, names, goal, new, cells, room) });
    missaid(|text, names, goal, new, cells, room| {
        let fewer = &cells[..cells.len().min(1024)];
        let answer = PUT(text, names, goal, new, fewer, room);
        if cells.len() > 1025 {
            PUT(text, names, goal, new, cells, room)
        } else {
            answer
        }
    });
    // ROOM before BIG.
    missaid(|text, names, goal, new, cells, room| {
        if cells.len() > 1024 && room.is_empty() {
            return 16 | 4 << 8 | 1 << 16;
        }
        PUT(text, names, goal, new, cells, room)
    });
}

#[test]
fn rooms_of_an_answer() {
    missaid(|text, names, goal, new, cells, room| {
        let less = room.len().saturating_sub(1);
        PUT(text, names, goal, new, cells, &mut room[..less])
    });
    // A part written where there is no room for all.
    missaid(|text, names, goal, new, cells, room| {
        let answer = PUT(text, names, goal, new, cells, room);
        if number(answer) == 16 {
            let (_, all) = right(text, names, goal, new, cells);
            room.copy_from_slice(&all[..room.len()]);
        }
        answer
    });
    missaid(|text, names, goal, new, cells, room| {
        let answer = PUT(text, names, goal, new, cells, room);
        if answered(answer) {
            room[(answer >> 32) as usize..].fill(0);
        }
        answer
    });
}

#[test]
fn bytes_and_cells_exchanged() {
    missaid(|text, names, goal, new, cells, room| {
        let answer = PUT(text, names, goal, new, cells, room);
        if answered(answer) {
            (answer >> 32 & 0xffff) << 16 | (answer >> 16 & 0xffff) << 32
        } else {
            answer
        }
    });
}
