//! Plans handed back as Prolog (02, W-210): the request's tables byte for byte by each engine, and engines that are wrong in one thing each are
//! found.

mod altered;

use altered::{answered, differs, number, written, Altered, Clauses, RIGHT};
use dudowiej_bench::compare::clauses::{lines, most_clauses, names, ACCEPTED, NAMES, REFUSED, SIZES, TEXT, WRITTEN};
use dudowiej_bench::compare::{clauses, Tally};
use dudowiej_bench::engine::{Definition, Engine, Exported, Plain};
use dudowiej_bench::make::names::letters;
use dudowiej_bench::make::records;
use dudowiej_bench::model::clauses::{handed, said, word, Clause};
use dudowiej_bench::model::least::least;
use dudowiej_bench::model::plan::grow;
use dudowiej_bench::model::read::read_table;
use dudowiej_bench::model::record::{table_in, Record};
use dudowiej_bench::model::term::Term;
use dudowiej_bench::model::text::load;
use dudowiej_bench::notation::table;

fn engines() -> [&'static dyn Engine; 3] {
    [&Exported, &Plain, &Definition]
}

/// The least plan by 01's measure.
fn plan_of(cells: &[u32]) -> Vec<u32> {
    least(&read_table(cells).expect("a sound table")).write()
}

#[test]
fn the_requests_tables() {
    for ((rows, text), (clauses, bytes)) in WRITTEN.into_iter().zip(SIZES) {
        let (cells, named, text) = (table(rows), letters(), lines(text));
        let (record, plan) = (records::worked_out(&cells, 0), plan_of(&cells));
        for engine in engines() {
            let lend = |room: &mut [u8]| engine.clauses(&record, &plan, &named.text, &named.names, room);
            let mut room = [7; 200];
            assert_eq!(lend(&mut room), clauses << 16 | bytes << 32, "{rows}");
            assert_eq!(String::from_utf8_lossy(&room[..text.len()]), String::from_utf8_lossy(&text));
            assert!(room[text.len()..].iter().all(|&byte| byte == 7));
            let mut exact = vec![7; text.len()];
            assert_eq!((lend(&mut exact), exact), (clauses << 16 | bytes << 32, text.clone()));
            let mut short = vec![7; text.len() - 1];
            assert_eq!(lend(&mut short), 16 | 4 << 8 | bytes << 16, "{rows}");
            assert!(short.iter().all(|&byte| byte == 7));
        }
    }
}

#[test]
fn the_requests_lists() {
    let cells = [1, 2, 1 << 30, 1 << 30 | 1];
    let (record, plan) = (records::worked_out(&cells, 0), plan_of(&cells));
    for engine in engines() {
        let mut room = [7; 100];
        for list in REFUSED {
            assert_eq!(engine.clauses(&record, &plan, TEXT, &names(list), &mut room), NAMES, "{list:?}");
            assert_eq!(room, [7; 100]);
        }
        for (list, text) in ACCEPTED.into_iter().zip(["'P0'(red).\n'P0'(blue).\n", "'P0'(red).\n'P0'(blue).\n", "'P0'(ed).\n'P0'(lu).\n"]) {
            assert_eq!(engine.clauses(&record, &plan, TEXT, &names(list), &mut room), 2 << 16 | (text.len() as u64) << 32, "{list:?}");
            assert_eq!(&room[..text.len()], text.as_bytes());
        }
    }
}

#[test]
fn the_shops_rules() {
    let text = std::fs::read(concat!(env!("CARGO_MANIFEST_DIR"), "/../samples/shop.pl")).expect("the sample is there");
    let loaded = load(&text).expect("a text");
    let record = records::worked_out(&loaded.cells, 0);
    for engine in engines() {
        let mut plan = vec![0; 6082];
        let built = engine.build_plan(&record, &mut plan);
        plan.truncate((built >> 16 & 0xffff) as usize);
        let mut room = vec![0; 131_072];
        assert_eq!(engine.clauses(&record, &plan, &text, &loaded.names, &mut room), 18 << 16 | 479 << 32);
        let said = String::from_utf8_lossy(&room[..479]);
        assert!(said.starts_with("'P0'(9, _0, _1, _2) :- 'P1'(_0, _1, _2).\n") && said.ends_with("\n'P6'(bowl(small)).\n"), "{said}");
    }
}

#[test]
fn at_most_127_clauses() {
    let (cells, named) = (most_clauses(), letters());
    let record = records::worked_out(&cells, 0);
    let plan = grow(&read_table(&cells).expect("a sound table"), |_, _| 0).write();
    for engine in engines() {
        let answer = engine.clauses(&record, &plan, &named.text, &named.names, &mut vec![0; 131_072]);
        assert_eq!(answer & 0xffff_ffff, 127 << 16);
    }
}

/// A list may be of no names at all, and the text of no bytes.
#[test]
fn no_names() {
    let cells = [2, 2, 0, 2 << 30 | 0xffff, 0, 0];
    let record = records::worked_out(&cells, 0);
    for engine in engines() {
        let mut room = [0; 100];
        let text = "'P0'(_0, -1).\n'P0'(_0, _0).\n";
        let answer = engine.clauses(&record, &plan_of(&cells), &[], &[], &mut room);
        assert_eq!((answer, &room[..text.len()]), (2 << 16 | (text.len() as u64) << 32, text.as_bytes()));
    }
}

/// A wrong way to hand a plan back.
fn found(wrong: Clauses) {
    differs(clauses(&Altered { clauses: wrong, ..RIGHT }, Tally::default(), 200, 1));
}

/// The right refusals of table, plan and names, but another program or text.
fn with_program(
    record: &Record,
    plan: &[u32],
    text: &[u8],
    names: &[u32],
    room: &mut [u8],
    change: impl FnOnce(Vec<Clause>, &[&[u8]]) -> (usize, Vec<u8>),
) -> u64 {
    let Ok((program, words)) = handed(table_in(record), plan, text, names) else {
        return Plain.clauses(record, plan, text, names, room);
    };
    let (count, text) = change(program, &words);
    written(room, &text, count, text.len())
}

/// Another program, said in the right way.
macro_rules! program {
    ($change:expr) => {
        found(|record, plan, text, names, room| {
            with_program(record, plan, text, names, room, |program, words| {
                let change: fn(Vec<Clause>) -> Vec<Clause> = $change;
                let changed = change(program);
                (changed.len(), said(&changed, words))
            })
        })
    };
}

/// The right program, said in another way.
macro_rules! text {
    ($change:expr) => {
        found(|record, plan, text, names, room| {
            with_program(record, plan, text, names, room, |program, words| {
                let change: fn(&str) -> String = $change;
                let said = String::from_utf8(said(&program, words)).expect("words in ASCII");
                (program.len(), change(&said).into_bytes())
            })
        })
    };
}

#[test]
fn a_right_one_passes() {
    let tally = clauses(&RIGHT, Tally::default(), 500, 1);
    assert_eq!(tally.differ(), 0, "{tally}");
}

#[test]
fn rows_one_by_one() {
    found(|record, plan, text, names, room| {
        with_program(record, plan, text, names, room, |_, words| {
            let rows = read_table(table_in(record)).expect("the table was accepted").rows;
            let facts: Vec<Clause> = rows.into_iter().map(|row| Clause { predicate: 0, head: row.arguments, called: None }).collect();
            (facts.len(), said(&facts, words))
        })
    });
}

#[test]
fn the_builders_plan_whatever_is_given() {
    found(|record, plan, text, names, room| {
        let other = read_table(table_in(record)).ok().filter(|_| answered(Plain.check_plan(record, plan))).map(|read| least(&read).write());
        Plain.clauses(record, other.as_deref().unwrap_or(plan), text, names, room)
    });
}

/// The predicates by other numbers.
fn renamed(mut program: Vec<Clause>, number: impl Fn(usize) -> usize) -> Vec<Clause> {
    for clause in &mut program {
        clause.predicate = number(clause.predicate);
        clause.called = clause.called.map(&number);
    }
    program
}

/// Which predicate is called as the how many-th, callers before what they call in clause order, level by level.
fn by_level(program: &[Clause]) -> Vec<usize> {
    let mut order = vec![0];
    let mut next = 0;
    while next < order.len() {
        let calls = program.iter().filter(|clause| clause.predicate == order[next]).filter_map(|clause| clause.called);
        order.extend(calls.collect::<Vec<_>>());
        next += 1;
    }
    order
}

#[test]
fn predicates_numbered_otherwise() {
    // The called one is the next always; its own number; numbers from one; level by level, in the text's order and in that of the numbers.
    program!(|mut program| {
        program.iter_mut().for_each(|clause| clause.called = clause.called.map(|_| clause.predicate + 1));
        program
    });
    program!(|mut program| {
        program.iter_mut().for_each(|clause| clause.called = clause.called.map(|_| clause.predicate));
        program
    });
    program!(|program| renamed(program, |number| number + 1));
    program!(|program| {
        let order = by_level(&program);
        renamed(program, |number| order.iter().position(|&other| other == number).expect("it is called"))
    });
    program!(|mut program| {
        let order = by_level(&program);
        program.sort_by_key(|clause| order.iter().position(|&other| other == clause.predicate));
        program
    });
}

/// The clauses with the variables of a head replaced by the head of each clause that is called.
fn unfolded(program: &[Clause], which: usize) -> Vec<Clause> {
    fn filled(term: &Term, by: &[Term]) -> Term {
        match term {
            Term::Var(number) => by[*number as usize].clone(),
            Term::Name(number, arguments) => Term::Name(*number, arguments.iter().map(|argument| filled(argument, by)).collect()),
            Term::Number(value) => Term::Number(*value),
        }
    }
    let mut made = Vec::new();
    for clause in program {
        match clause.called {
            Some(called) if called == which => {
                let below = program.iter().filter(|below| below.predicate == which);
                made.extend(below.map(|below| {
                    let head = clause.head.iter().map(|term| filled(term, &below.head)).collect();
                    Clause { predicate: clause.predicate, head, called: below.called }
                }));
            }
            _ if clause.predicate == which => {}
            _ => made.push(clause.clone()),
        }
    }
    renamed(made, |number| if number > which { number - 1 } else { number })
}

#[test]
fn straight_runs_folded_otherwise() {
    // A first state with one branch is no predicate.
    program!(|program| match &program[..] {
        [Clause { called: Some(1), .. }, Clause { predicate: 1, .. }, ..] => unfolded(&program, 1),
        _ => program,
    });
    // One variable for an argument that is known only in part.
    program!(|mut program| {
        for clause in program.iter_mut().filter(|clause| clause.called.is_some()) {
            clause.head.retain(|term| !term.arguments().iter().any(Term::is_variable));
        }
        program
    });
}

#[test]
fn clauses_in_another_order() {
    program!(|program| program.into_iter().rev().collect());
    program!(|mut program| {
        program.sort_by_key(|clause| (clause.predicate, clause.called.is_some()));
        program
    });
    program!(|mut program| {
        program.dedup();
        program
    });
    program!(|mut program| {
        program.pop();
        program
    });
}

/// The text with every variable's word changed: by its line, its number and whether it stands once in the line.
fn with_variables(text: &str, word: impl Fn(usize, usize, bool) -> String) -> String {
    let mut made = String::new();
    for (line_number, line) in text.lines().enumerate() {
        let all: Vec<&str> = line.split(|byte: char| !byte.is_ascii_alphanumeric() && byte != '_').filter(|word| word.starts_with('_')).collect();
        let mut rest = line;
        while let Some(place) = rest.find('_') {
            let inside = place > 0 && rest.as_bytes()[place - 1].is_ascii_alphanumeric();
            let bytes = 1 + rest[place + 1..].bytes().take_while(|byte| byte.is_ascii_alphanumeric() || *byte == b'_').count();
            let found = &rest[place..place + bytes];
            made += &rest[..place];
            made += &match found[1..].parse() {
                Ok(number) if !inside => word(line_number, number, all.iter().filter(|other| **other == found).count() == 1),
                _ => found.to_string(),
            };
            rest = &rest[place + bytes..];
        }
        made += rest;
        made += "\n";
    }
    made
}

#[test]
fn variables_said_otherwise() {
    // `_` for one that stands once; `X0`; from one on; each line's own; a row's variable told apart.
    text!(|text| with_variables(text, |_, number, once| if once { "_".to_string() } else { format!("_{number}") }));
    text!(|text| with_variables(text, |_, number, _| format!("X{number}")));
    text!(|text| with_variables(text, |_, number, _| format!("_{}", number + 1)));
    text!(|text| with_variables(text, |line, number, _| format!("_{}", 100 * line + number)));
    program!(|mut program| {
        fn apart(term: &mut Term, next: &mut u16) {
            match term {
                Term::Var(number) => {
                    *number = *next;
                    *next += 1;
                }
                Term::Name(_, arguments) => arguments.iter_mut().for_each(|argument| apart(argument, next)),
                Term::Number(_) => {}
            }
        }
        program.iter_mut().for_each(|clause| {
            let mut next = 0;
            clause.head.iter_mut().for_each(|term| apart(term, &mut next));
        });
        program
    });
}

#[test]
fn marks_put_otherwise() {
    text!(|text| text.replace(", ", ","));
    text!(|text| text.replace(" :- ", ":-"));
    text!(|text| text.replace(" :- ", " :-\n    "));
    text!(|text| text.replace('\n', "\r\n"));
    text!(|text| text.trim_end().to_string());
    text!(|text| text.replace('\'', ""));
    text!(|text| text.replace("'P", "'p"));
    text!(|text| format!("{text}\n"));
    text!(|text| format!(":- set_prolog_flag(occurs_check, true).\n{text}"));
}

#[test]
fn words_of_another_kind() {
    // The numbers of the names; a number's sixteen bits without their sign; words cut at 255 bytes.
    found(|record, plan, text, names, room| {
        with_program(record, plan, text, names, room, |program, words| {
            let numbers: Vec<String> = (0..words.len()).map(|number| format!("n{number}")).collect();
            let numbers: Vec<&[u8]> = numbers.iter().map(|word| word.as_bytes()).collect();
            (program.len(), said(&program, &numbers))
        })
    });
    text!(|text| {
        let mut made = text.to_string();
        for value in (-9..0).rev() {
            made = made.replace(&format!(" {value}"), &format!(" {}", value + 65_536)).replace(&format!("({value}"), &format!("({}", value + 65_536));
        }
        made
    });
    found(|record, plan, text, names, room| {
        with_program(record, plan, text, names, room, |program, words| {
            let cut: Vec<&[u8]> = words.iter().map(|word| &word[..word.len().min(255)]).collect();
            (program.len(), said(&program, &cut))
        })
    });
}

#[test]
fn values_of_another_kind() {
    // Exchanged; the bytes without what is past sixteen bits; branches for clauses; rows for clauses.
    found(|record, plan, text, names, room| match Plain.clauses(record, plan, text, names, room) {
        answer if answered(answer) => (answer >> 32 & 0xffff) << 16 | (answer >> 16 & 0xffff) << 32,
        answer => answer,
    });
    found(|record, plan, text, names, room| match Plain.clauses(record, plan, text, names, room) {
        answer if answered(answer) => answer & 0xffff_ffff_ffff,
        answer => answer,
    });
    found(|record, plan, text, names, room| match Plain.clauses(record, plan, text, names, room) {
        answer if answered(answer) => answer & !0xffff_0000 | Plain.check_plan(record, plan),
        answer => answer,
    });
    found(|record, plan, text, names, room| match Plain.clauses(record, plan, text, names, room) {
        answer if answered(answer) => answer & !0xffff_0000 | u64::from(table_in(record)[1]) << 16,
        answer => answer,
    });
}

/// As many bytes as the text has, where it is not refused for another reason.
fn needed(record: &Record, plan: &[u32], text: &[u8], names: &[u32]) -> Option<usize> {
    handed(table_in(record), plan, text, names).ok().map(|(program, words)| said(&program, &words).len())
}

#[test]
fn the_room_tested_otherwise() {
    // One byte short; wanted with one to spare; by sixteen bits; never.
    found(|record, plan, text, names, room| {
        let mut enough = vec![0; room.len() + 1];
        let answer = Plain.clauses(record, plan, text, names, &mut enough);
        if answered(answer) {
            let cut = room.len().min((answer >> 32) as usize);
            room[..cut].copy_from_slice(&enough[..cut]);
        }
        answer
    });
    found(|record, plan, text, names, room| match needed(record, plan, text, names) {
        Some(bytes) if bytes == room.len() => 16 | 4 << 8 | (bytes as u64) << 16,
        _ => Plain.clauses(record, plan, text, names, room),
    });
    found(|record, plan, text, names, room| match Plain.clauses(record, plan, text, names, room) {
        answer if number(answer) == 16 => answer & 0xffff_ffff,
        answer => answer,
    });
    found(|record, plan, text, names, room| match Plain.clauses(record, plan, text, names, room) {
        answer if number(answer) == 16 => 0,
        answer => answer,
    });
}

#[test]
fn what_is_written_otherwise() {
    // A refusal that writes: for want of room, of names, of a plan; a room cleared behind the text; nothing written.
    for wanted in [16, 26, 12] {
        let wrong: Clauses = match wanted {
            16 => |record, plan, text, names, room| writing(16, record, plan, text, names, room),
            26 => |record, plan, text, names, room| writing(26, record, plan, text, names, room),
            _ => |record, plan, text, names, room| writing(12, record, plan, text, names, room),
        };
        found(wrong);
    }
    found(|record, plan, text, names, room| {
        let answer = Plain.clauses(record, plan, text, names, room);
        if answered(answer) {
            room[(answer >> 32) as usize..].fill(0);
        }
        answer
    });
    found(|record, plan, text, names, room| Plain.clauses(record, plan, text, names, &mut room.to_vec()));
}

/// The first byte of the room is changed where this is refused.
fn writing(wanted: u64, record: &Record, plan: &[u32], text: &[u8], names: &[u32], room: &mut [u8]) -> u64 {
    let answer = Plain.clauses(record, plan, text, names, room);
    if let (true, [first, ..]) = (number(answer) == wanted, room) {
        *first = first.wrapping_add(1);
    }
    answer
}

/// Lists that are looked through again and again have no more entries than this.
const SHORT: usize = 200;

/// The answer where the list is right; where it is refused, what a list gives that another test leaves alone: each entry as this one says.
fn leniently(record: &Record, plan: &[u32], text: &[u8], names: &[u32], room: &mut [u8], lenient: impl Fn(usize, u32) -> Option<Vec<u8>>) -> u64 {
    let answer = Plain.clauses(record, plan, text, names, room);
    if answer != NAMES || names.len() > SHORT {
        return answer;
    }
    let of = |(number, &name): (usize, &u32)| word(text, name).map(<[u8]>::to_vec).or_else(|| lenient(number, name));
    let Some(words) = names.iter().enumerate().map(of).collect::<Option<Vec<Vec<u8>>>>() else {
        return NAMES;
    };
    // Each word once, so that they are listed.
    let mut bytes = Vec::new();
    let mut listed = Vec::new();
    for word in &words {
        if words.iter().filter(|other| *other == word).count() > 1 || bytes.len() > 65_535 {
            return NAMES;
        }
        listed.push((word.len() as u32) << 16 | bytes.len() as u32);
        bytes.extend(word);
    }
    Plain.clauses(record, plan, &bytes, &listed, room)
}

#[test]
fn a_list_accepted_that_is_none() {
    // Never refused: whatever is not there is said as a word of its own.
    found(|record, plan, text, names, room| match Plain.clauses(record, plan, text, names, room) {
        NAMES => {
            let named = letters();
            Plain.clauses(record, plan, &named.text, &named.names, room)
        }
        answer => answer,
    });
    // An entry that reaches past the text, one of no byte, one that begins with a capital; each said as a word that no text has.
    found(|record, plan, text, names, room| {
        leniently(record, plan, text, names, room, |number, name| {
            let past = (name & 0xffff) as usize + (name >> 16) as usize > text.len();
            past.then(|| format!("past_the_text{number}").into_bytes())
        })
    });
    found(|record, plan, text, names, room| {
        leniently(record, plan, text, names, room, |number, name| (name >> 16 == 0).then(|| format!("no_byte{number}").into_bytes()))
    });
    found(|record, plan, text, names, room| {
        leniently(record, plan, text, names, room, |number, name| {
            let first = text.get((name & 0xffff) as usize).copied().filter(|_| name >> 16 > 0);
            first.filter(u8::is_ascii_uppercase).map(|_| format!("upper{number}").into_bytes())
        })
    });
    // Two alike, next to each other and not.
    found(|record, plan, text, names, room| {
        let answer = Plain.clauses(record, plan, text, names, room);
        let words: Option<Vec<&[u8]>> = names.iter().map(|&name| word(text, name)).collect();
        match words {
            Some(words) if answer == NAMES && words.windows(2).all(|pair| pair[0] != pair[1]) => 1 << 16,
            _ => answer,
        }
    });
    // A number that is just not listed; an entry that no cell uses.
    found(|record, plan, text, names, room| {
        let answer = Plain.clauses(record, plan, text, names, room);
        let one_more = [text, b" quite_new"].concat();
        let listed = [names, &[9 << 16 | (text.len() as u32 + 1)]].concat();
        if answer == NAMES && text.len() < 65_000 {
            Plain.clauses(record, plan, &one_more, &listed, room)
        } else {
            answer
        }
    });
    found(|record, plan, text, names, room| {
        let used = (0..=names.len().min(SHORT)).find(|&count| Plain.clauses(record, plan, text, &names[..count], &mut []) != NAMES);
        Plain.clauses(record, plan, text, &names[..used.unwrap_or(names.len())], room)
    });
}

#[test]
fn a_list_refused_that_is_one() {
    // Always; parts of longer words; one longer than a table's names; words of the same bytes at their start; one that ends past byte 65,535.
    found(|record, plan, text, names, room| match Plain.clauses(record, plan, text, names, room) {
        answer if answered(answer) => NAMES,
        answer => answer,
    });
    found(|record, plan, text, names, room| {
        let answer = Plain.clauses(record, plan, text, names, &mut room.to_vec());
        let part = |name: &u32| {
            let end = (name & 0xffff) as usize + (name >> 16) as usize;
            text.get(end).is_some_and(|byte| byte.is_ascii_alphanumeric() || *byte == b'_')
        };
        if answered(answer) && names.iter().any(part) {
            NAMES
        } else {
            Plain.clauses(record, plan, text, names, room)
        }
    });
    found(|record, plan, text, names, room| match Plain.clauses(record, plan, text, names, &mut room.to_vec()) {
        answer if answered(answer) && names.len() > 2048 => NAMES,
        _ => Plain.clauses(record, plan, text, names, room),
    });
    found(|record, plan, text, names, room| {
        let answer = Plain.clauses(record, plan, text, names, &mut room.to_vec());
        let begins = |one: &[u8], other: &[u8]| one.len() < other.len() && other.starts_with(one);
        let alike = |one: &u32| names.iter().any(|other| begins(word(text, *one).unwrap_or(b"X"), word(text, *other).unwrap_or(b"Y")));
        if answered(answer) && names.len() < SHORT && names.iter().any(alike) {
            NAMES
        } else {
            Plain.clauses(record, plan, text, names, room)
        }
    });
    found(|record, plan, text, names, room| match Plain.clauses(record, plan, text, names, &mut room.to_vec()) {
        answer if answered(answer) && names.iter().any(|name| (name & 0xffff) + (name >> 16) > 65_535) => NAMES,
        _ => Plain.clauses(record, plan, text, names, room),
    });
}

#[test]
fn refusals_in_another_order() {
    // NAMES before the plan; ROOM before NAMES, by what is lent.
    found(|record, plan, text, names, room| match Plain.clauses(record, plan, text, names, room) {
        answer if answer >> 8 & 0xff == 2 && names.iter().any(|&name| word(text, name).is_none()) => NAMES,
        answer => answer,
    });
    found(|record, plan, text, names, room| match Plain.clauses(record, plan, text, names, room) {
        NAMES if room.is_empty() => 16 | 4 << 8 | 9 << 16,
        answer => answer,
    });
    // The table's refusal after NAMES.
    found(|record, plan, text, names, room| match Plain.clauses(record, plan, text, names, room) {
        answer if answer >> 8 & 0xff == 1 && names.iter().any(|&name| word(text, name).is_none()) => NAMES,
        answer => answer,
    });
}

#[test]
fn names_of_another_input_or_place() {
    found(|record, plan, text, names, room| match Plain.clauses(record, plan, text, names, room) {
        NAMES => 26 | 5 << 8,
        answer => answer,
    });
    found(|record, plan, text, names, room| match Plain.clauses(record, plan, text, names, room) {
        NAMES => NAMES | (names.iter().position(|&name| word(text, name).is_none()).unwrap_or(0) as u64) << 16,
        answer => answer,
    });
}
