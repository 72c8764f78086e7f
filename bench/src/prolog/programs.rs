//! Plans handed back as Prolog (02, W-210) as files, each with goals and the replies to them, for other Prologs to answer. bench/clauses.sh does it
//! all.

use std::fs::write;
use std::path::Path;

use super::symbols;
use crate::engine::{Engine, Exported};
use crate::make::{goals, plans, records, texts};
use crate::model::read::{read_table, Table, TABLE_CELLS};
use crate::model::record::Record;
use crate::model::term::Symbol;
use crate::random::Random;

/// As many bytes as any program of these texts has, and as many cells as the replies to a goal.
const PROGRAM: usize = 1 << 18;
const REPLIES: usize = 64 * 1024;

/// The goals for each table.
const GOALS: usize = 6;

/// A table from a text, as the exported entry gave it, and a plan for it.
struct Case {
    text: Vec<u8>,
    names: Vec<u32>,
    table: Table,
    record: Box<Record>,
    plan: Vec<u32>,
}

/// Writes FOLDER/c0.pl, .. for so many tables, with their names in FOLDER/list: the program's text. Beside it c0.goals and c0.replies, the goals one
/// to a line and what is answered to each; and in g0.goals and g0.replies those of them that need no occurs check.
pub fn write_programs(folder: &Path, count: usize, seed: u64) {
    let put = |name: String, bytes: &[u8]| write(folder.join(&name), bytes).unwrap_or_else(|error| panic!("{name}: {error}"));
    let random = &mut Random::new(seed);
    let (mut all, mut without, mut repeating) = (0, 0, 0);
    for number in 0..count {
        let case = Case::any(random);
        put(format!("c{number}.pl"), &case.program());
        let [mut asked, mut answered] = [(); 2].map(|()| [String::new(), String::new()]);
        let repeats = case.table.rows.iter().any(|row| row.again > 0);
        repeating += usize::from(repeats);
        for _ in 0..GOALS {
            let (goal, replies) = case.goal(random);
            // A row's variable is unified with two terms of the goal only where it stands twice, and a term that holds it needs a variable.
            let plain = !repeats || goal.iter().all(|cell| cell >> 30 != 0);
            all += 1;
            without += usize::from(plain);
            for kind in 0..1 + usize::from(plain) {
                asked[kind] += &format!("'P0'{}.\n", case.terms(&goal));
                answered[kind] += &replies;
            }
        }
        for (kind, letter) in ["c", "g"].iter().enumerate() {
            put(format!("{letter}{number}.goals"), asked[kind].as_bytes());
            put(format!("{letter}{number}.replies"), answered[kind].as_bytes());
        }
    }
    put("list".into(), (0..count).map(|number| format!("c{number}.\n")).collect::<String>().as_bytes());
    put("counts".into(), format!("{all} {without}\n").as_bytes());
    println!("{count} tables, {repeating} of them with a row that repeats a variable; {all} goals, {without} of them need no occurs check");
}

impl Case {
    /// Any table; in every third one a row repeats a variable.
    fn any(random: &mut Random) -> Case {
        let repeats = random.one_in(3);
        loop {
            let text = texts::sound(random);
            let (mut cells, mut names) = (vec![0; TABLE_CELLS], vec![0; TABLE_CELLS]);
            let answer = Exported.read_text(&text, &mut cells, &mut names);
            if answer & 0xff == 0 {
                cells.truncate((answer >> 16 & 0xffff) as usize);
                names.truncate((answer >> 32) as usize);
                let table = read_table(&cells).expect("the text was accepted");
                if repeats && table.rows.iter().all(|row| row.again == 0) {
                    continue;
                }
                let plan = plans::any(random, &table);
                return Case { text, names, record: records::worked_out(&cells, 0), table, plan };
            }
        }
    }

    fn program(&self) -> Vec<u8> {
        let mut room = vec![0; PROGRAM];
        let answer = Exported.clauses(&self.record, &self.plan, &self.text, &self.names, &mut room);
        assert_eq!(answer & 0xff, 0, "the plan is handed back");
        room.truncate((answer >> 32) as usize);
        room
    }

    /// A goal whose replies are not too long, and what is answered to it: a line for the goal, one for each reply.
    fn goal(&self, random: &mut Random) -> (Vec<u32>, String) {
        loop {
            let goal = goals::any(random, &self.table);
            let mut room = vec![0; REPLIES];
            let answer = Exported.replies(&self.record, &self.plan, &goal, &mut room);
            if answer & 0xff == 0 {
                let mut rest = &room[..(answer >> 32) as usize];
                let replies = (0..answer >> 16 & 0xffff).map(|_| symbols(self.table.width, &mut rest, &|number| self.word(number)));
                return (goal, "goal\n".to_string() + &replies.collect::<String>());
            }
        }
    }

    /// A name of a goal that the text does not have is another word.
    fn word(&self, number: u16) -> String {
        match self.names.get(number as usize) {
            Some(name) => String::from_utf8_lossy(&self.text[(name & 0xffff) as usize..][..(name >> 16) as usize]).into_owned(),
            None => format!("quite_new_{number}"),
        }
    }

    /// Terms between brackets.
    fn terms(&self, cells: &[u32]) -> String {
        let mut rest = cells;
        let terms: Vec<String> = (0..self.table.width).map(|_| self.term(&mut rest)).collect();
        format!("({})", terms.join(", "))
    }

    fn term(&self, rest: &mut &[u32]) -> String {
        let symbol = Symbol::of(rest[0]).expect("a goal's cell");
        *rest = &rest[1..];
        match symbol {
            Symbol::Variable(number) => format!("V{number}"),
            Symbol::Number(value) => value.to_string(),
            Symbol::Name { number, arguments: 0 } => self.word(number),
            Symbol::Name { number, arguments } => {
                let inside: Vec<String> = (0..arguments).map(|_| self.term(rest)).collect();
                format!("{}({})", self.word(number), inside.join(", "))
            }
        }
    }
}
