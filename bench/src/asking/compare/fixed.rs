//! Goals and answers with what they are written down: the examples of docs/FORMAT.md and of the header, and how they are read.

use super::{Asked, Asking, Comparison};
use crate::asking::compare::shown;
use crate::compare::{lend, lend_two, MARGIN};
use crate::engine::Definition;
use crate::model::text::load;

const TABLE: u64 = 1;
const GOAL: u64 = 3;
const ROOM: u64 = 4;
const TEXT: u64 = 5;

const LENGTH: u64 = 1;
const NO_ROOM: u64 = 16;
const BYTES: u64 = 17;
const NO_TEXT: u64 = 18;
const OTHER: u64 = 19;
const BIG: u64 = 25;

const RULES: &[u8] = b"rule(9, red, ring, soft). rule(_, _, _, medium).";

const WRITTEN_DOWN: &str = "goals and answers as they are written down";

fn refused(number: u64, input: u64, place: usize) -> u64 {
    number | input << 8 | (place as u64) << 16
}

fn v(number: u32) -> u32 {
    number
}

fn n(number: u32, arguments: u32) -> u32 {
    1 << 30 | arguments << 16 | number
}

fn i(bits: u32) -> u32 {
    2 << 30 | bits
}

impl<A: Asking> Comparison<'_, A> {
    pub(super) fn fixed(&mut self) {
        self.goals();
        self.no_goals();
        self.refused_facts();
        self.goal_rooms();
        self.answers();
        self.any_cells();
    }

    fn goals(&mut self) {
        self.reads(RULES, b"rule(9, red, tray, F)", &[i(9), n(0, 0), n(4, 0), v(0)], &[(13, 4)]);
        for goal in [&b"rule(9,red,ring,F)"[..], b"rule(9, red, ring, _).", b" % c\nrule(09,red\r,ring , F).% c", b"rule(9,red,ring,Firing) % rule("]
        {
            self.reads(RULES, goal, &[i(9), n(0, 0), n(1, 0), v(0)], &[]);
        }
        self.reads(RULES, b"rule(X,X,_,_)", &[v(0), v(0), v(1), v(2)], &[]);
        self.reads(RULES, b"rule(_X,Y,_X,_)", &[v(0), v(1), v(0), v(2)], &[]);
        // `f` and `f(a)` have one number; the predicate's own name is none of the facts'.
        self.reads(RULES, b"rule(f,f(soft),soft,f)", &[n(4, 0), n(4, 1), n(2, 0), n(2, 0), n(4, 0)], &[(5, 1)]);
        self.reads(RULES, b"rule(rule,b,-0,-32768)", &[n(4, 0), n(5, 0), i(0), i(32_768)], &[(5, 4), (10, 1)]);
        self.reads(b"p(p).", b"p(p)\n", &[n(0, 0)], &[]);
        // A text that is no table has a predicate all the same.
        self.reads(b"p(a). p(a).", b"p(X)", &[v(0)], &[]);
        self.reads(&b"p(a).\n".repeat(65), b"p(a)", &[n(0, 0)], &[]);
        self.reads(b"p(1,2,3,4,5,6,7,8,9).", b"p(1,2,3,4,5,6,7,8,_).", &[i(1), i(2), i(3), i(4), i(5), i(6), i(7), i(8), v(0)], &[]);
    }

    fn no_goals(&mut self) {
        let stops: [(usize, &[&[u8]]); 9] = [
            (0, &[b"", b".", b"Rule(a)", b"\t", b"?- rule(a)", b"9"]),
            (1, &[b" ", b"%", b"\n", b"r"]),
            (4, &[b"rule", b"rule (9)", b"rule.", b"rule\n"]),
            (5, &[b"rule(", b"rule('a')", b"rule()", b"% c\nr"]),
            (11, &[b"rule(9, red"]),
            (12, &[b"rule(9, red ring, F)", b"rule(9, red,", b"rule(9, red,\tring"]),
            (22, &[b"rule(9, red, ring, F)..", b"rule(9, red, ring, F).a", b"rule(9, red, ring, F).\t", b"rule(9, red, ring, F).rule(a)"]),
            (23, &[b"rule(9, red, ring, F). .", b"rule(9, red, ring, F). Rule"]),
            (27, &[b"rule(9, red, ring, F). rule"]),
        ];
        for (place, goals) in stops {
            for goal in goals {
                self.answers_to(RULES, goal, refused(NO_TEXT, TEXT, place));
            }
        }
        for goal in [&b"rul(1,2,3,4)"[..], b"rules(1,2,3,4)", b"rule(1,2,3)", b"rule(1,2,3,4,5)", b"rule(1,2,3,4).\nrule(1,2,3,4)"] {
            self.answers_to(RULES, goal, refused(OTHER, TEXT, 0));
            self.answers_to(RULES, &[b" %c\n", goal].concat(), refused(OTHER, TEXT, 4));
        }
        self.answers_to(RULES, b"rule(1,2,3,4). q(a). ", refused(OTHER, TEXT, 0));
        for bytes in [65_534, 65_535, 65_536, 200_000] {
            self.answers_to(RULES, &b" ".repeat(bytes), refused(BYTES, TEXT, 0));
        }
        let long = [&b" ".repeat(65_533 - 13)[..], b"rule(9,_,_,_)"].concat();
        self.answers_to(RULES, &long, 4 << 16);
        self.answers_to(RULES, &[&long[..], b"."].concat(), refused(BYTES, TEXT, 0));
        let nested = |names: usize| [b"rule(1,2,3,", &b"f(".repeat(names)[..], b"a", &b")".repeat(names)[..], b")"].concat();
        self.reads(RULES, &nested(28), &[vec![i(1), i(2), i(3)], vec![n(4, 1); 28], vec![n(5, 0)]].concat(), &[(11, 1), (67, 1)]);
        self.answers_to(RULES, &nested(29), refused(LENGTH, GOAL, 0));
        self.answers_to(RULES, &[&nested(29)[..], b", 5)"].concat(), refused(NO_TEXT, TEXT, 100));
    }

    /// Of facts that are refused every goal is another's; a list of too many names comes before all else.
    fn refused_facts(&mut self) {
        let long = [&b" ".repeat(65_531)[..], b"p(a)."].concat();
        for text in [&b""[..], b"p(a)", b"p(a). q(b).", b"p(a). p(a,b).", &long] {
            self.answers_to(text, b" p(a)", refused(OTHER, TEXT, 1));
            self.answers_to(text, b" p(a", refused(NO_TEXT, TEXT, 4));
        }
        for (count, answer) in [(2048, refused(NO_TEXT, TEXT, 0)), (2049, refused(LENGTH, TABLE, 0)), (70_000, refused(LENGTH, TABLE, 0))] {
            let names = vec![1 << 16 | 2; count];
            self.answered(Asked { text: b"p(a).", names: &names, goal: b"" }, (9, 9), answer);
            let longer = if count == 2048 { refused(BYTES, TEXT, 0) } else { answer };
            self.answered(Asked { text: b"p(a).", names: &names, goal: &b" ".repeat(65_534) }, (9, 9), longer);
        }
        // A word that is listed twice has its first number; a new one comes after all.
        let names = vec![1 << 16 | 2; 2048];
        self.reads_by(asked(b"p(a).", &names, b"p(a)"), &[n(0, 0)], &[]);
        self.reads_by(asked(b"p(a).", &names, b"p(b)"), &[n(2048, 0)], &[(2, 1)]);
        // Any entries will do, and what they hold need be no names.
        let entries = [3 << 16 | 1, 0, 1 << 16 | 9, 2 << 16 | 4, u32::MAX];
        self.reads_by(asked(b"p(a,bc).", &entries, b"p(b,f(a,bc))"), &[n(5, 0), n(6, 2), n(7, 0), n(3, 0)], &[(2, 1), (4, 1), (6, 1)]);
    }

    fn goal_rooms(&mut self) {
        let cases = [(0, 0, 5), (4, 0, 5), (4, 9, 5), (5, 0, 2), (5, 1, 2), (6, 1, 2)];
        for (cells, new, needed) in cases {
            self.answered(asked(RULES, &names(RULES), b"rule(f(X),a,X,f)."), (cells, new), refused(NO_ROOM, ROOM, needed));
        }
        self.answered(asked(RULES, &names(RULES), b"rule(1,2,3,4)"), (4, 0), 4 << 16);
        // Rooms come after the goal's length.
        let nested = [b"rule(1,2,3,", &b"f(".repeat(29)[..], b"a", &b")".repeat(29)[..], b")"].concat();
        self.answered(asked(RULES, &names(RULES), &nested), (0, 0), refused(LENGTH, GOAL, 0));
    }

    fn answers(&mut self) {
        let tray = b"rule(9, red, tray, F)";
        self.says(RULES, tray, &[i(9), n(0, 0), n(4, 0), n(3, 0)], b"rule(9, red, tray, medium)");
        self.says(RULES, b"rule(A,B,C,D)", &[v(0), v(1), v(0), n(2, 0)], b"rule(_0, _1, _0, soft)");
        let bowl = b"rule(-5, bowl(large, X), bowl, vase).";
        self.says(RULES, bowl, &[i(65_531), n(4, 2), n(5, 0), v(0), n(4, 0), n(6, 0)], b"rule(-5, bowl(large, _0), bowl, vase)");
        self.says(RULES, b"", &[i(32_768), i(32_767), v(65_535), i(0)], b"rule(-32768, 32767, _65535, 0)");
        let nested = [b"p(", &b"f(".repeat(1023)[..], b"_7", &b")".repeat(1023)[..], b")"].concat();
        self.says(b"p(f).", b"", &[vec![n(0, 1); 1023], vec![v(7)]].concat(), &nested);
    }

    /// What is no answer has a text too.
    fn any_cells(&mut self) {
        self.says(RULES, b"", &[], b"rule(");
        self.says(RULES, b"", &[i(1)], b"rule(1, ");
        self.says(RULES, b"", &[v(0), n(0, 2), v(1)], b"rule(_0, red(_1, ");
        self.says(RULES, b"", &[v(0), v(1), v(2), v(3), n(0, 0), n(1, 1), v(4), i(5)], b"rule(_0, _1, _2, _3)redring(_4)5");
        self.says(RULES, b"", &[3 << 30, 1 << 16, n(0, 5), n(4, 1), i(1 << 16), v(0)], b"rule(, , , ())_0");
        self.says(RULES, b"rule(tray,1,2,3)", &[n(4, 0), n(5, 0), n(65_535, 2), v(0), v(1), v(2)], b"rule(tray, , (_0, _1), _2)");
        // Facts that are refused have no predicate, and one bracket for one term; words are as far as the text goes.
        for text in [&b""[..], b"p(a)", b"p(a). q(b)."] {
            self.says(text, b"", &[v(0), v(1), n(0, 0)], b"(_0)_1");
        }
        let entries = [6 << 16 | 2, 9, 1 << 16 | 1000, u32::MAX, 2 << 16];
        let all: Vec<u32> = (0..6).map(|number| n(number, 0)).collect();
        self.said(asked(b"p(a,b,c,d,e,f).", &entries[..3], b"xyz"), &entries[3..], &all, b"p(a,b,c,, , , , xy, )");
        let many = vec![v(1); 1025];
        let text = [&b"p(_1)"[..], &b"_1".repeat(1023)].concat();
        self.says(b"p(a).", b"", &many[1..], &text);
        for room in [0, 9999] {
            let answer = Definition.put_answer(b"p(a).", &[], b"", &[], &many, &mut vec![0; room]);
            self.tally.own(WRITTEN_DOWN, answer == refused(BIG, GOAL, 0), &|| format!("{answer:#x}"));
            self.say(asked(b"p(a).", &[], b""), &[], &many, room);
        }
    }

    /// A goal's cells and new names, by the text's own names.
    fn reads(&mut self, text: &[u8], goal: &[u8], cells: &[u32], new: &[(u32, u32)]) {
        self.reads_by(asked(text, &names(text), goal), cells, new);
    }

    /// In rooms of exactly that size and in others.
    fn reads_by(&mut self, asked: Asked, cells: &[u32], new: &[(u32, u32)]) {
        let Asked { text, names, goal } = asked;
        let new: Vec<u32> = new.iter().map(|(start, bytes)| start | bytes << 16).collect();
        let with_margins = |written: &[u32]| [&[7; MARGIN], written, &[7; MARGIN]].concat();
        let lent = [vec![7; cells.len() + 2 * MARGIN], vec![7; new.len() + 2 * MARGIN]];
        let (answer, left) = lend_two(&lent, |cells, new| Definition.read_goal_text(text, names, goal, cells, new));
        let same = answer == (cells.len() as u64) << 16 | (new.len() as u64) << 32 && left == [with_margins(cells), with_margins(&new)];
        self.tally.own(WRITTEN_DOWN, same, &|| format!("{answer:#x} {left:?}: {}", shown(goal)));
        self.rooms_of_all_sizes(asked);
    }

    /// A refusal, by the text's own names and in room enough.
    fn answers_to(&mut self, text: &[u8], goal: &[u8], answer: u64) {
        self.answered(asked(text, &names(text), goal), (40, 40), answer);
    }

    fn answered(&mut self, asked: Asked, (cells, new): (usize, usize), answer: u64) {
        let given = Definition.read_goal_text(asked.text, asked.names, asked.goal, &mut vec![0; cells], &mut vec![0; new]);
        self.tally.own(WRITTEN_DOWN, given == answer, &|| format!("{given:#x} and not {answer:#x}: {}", shown(asked.goal)));
        self.read(asked, cells, new);
    }

    /// The text of some cells, by the text's own names and those of the goal, if it is one.
    fn says(&mut self, text: &[u8], goal: &[u8], cells: &[u32], wanted: &[u8]) {
        let names = names(text);
        let new = super::read(text, &names, goal).map_or(Vec::new(), |read| read.new);
        self.said(asked(text, &names, goal), &new, cells, wanted);
    }

    /// In rooms of exactly that size, of no size, one byte too small and larger.
    fn said(&mut self, asked: Asked, new: &[u32], cells: &[u32], wanted: &[u8]) {
        let lent = vec![b'-'; wanted.len() + 2 * MARGIN];
        let (answer, left) = lend(&lent, |room| Definition.put_answer(asked.text, asked.names, asked.goal, new, cells, room));
        let same = answer == (cells.len() as u64) << 16 | (wanted.len() as u64) << 32 && left == [&[b'-'; MARGIN], wanted, &[b'-'; MARGIN]].concat();
        self.tally.own(WRITTEN_DOWN, same, &|| format!("{answer:#x} {} and not {}", shown(&left), shown(wanted)));
        for room in [0, wanted.len() - 1, wanted.len(), wanted.len() + 1, wanted.len() + 1000] {
            self.say(asked, new, cells, room);
        }
    }
}

fn asked<'a>(text: &'a [u8], names: &'a [u32], goal: &'a [u8]) -> Asked<'a> {
    Asked { text, names, goal }
}

/// A text's own names; none where it is refused.
fn names(text: &[u8]) -> Vec<u32> {
    load(text).map_or(Vec::new(), |loaded| loaded.names)
}
