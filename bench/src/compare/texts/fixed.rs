//! Texts with their answers written down: how 02's W-201 and W-206 are read.

use super::{lend_two, shown, Comparison};
use crate::engine::{Definition, Engine};

const TABLE: u64 = 1;
const ROOM: u64 = 4;
const TEXT: u64 = 5;

const LENGTH: u64 = 1;
const WIDTH: u64 = 2;
const COUNT: u64 = 3;
const LONG: u64 = 4;
const NO_ROOM: u64 = 16;
const BYTES: u64 = 17;
const NO_TEXT: u64 = 18;
const OTHER: u64 = 19;
const SAME: u64 = 24;

fn refused(number: u64, input: u64, place: usize) -> u64 {
    number | input << 8 | (place as u64) << 16
}

fn v(number: u32) -> u32 {
    number
}

fn n(number: u32, arguments: u32) -> u32 {
    1 << 30 | arguments << 16 | number
}

fn i(bits: u32) -> u32 {
    2 << 30 | bits
}

impl<E: Engine> Comparison<'_, E> {
    pub(super) fn fixed(&mut self) {
        self.stops();
        self.others();
        self.rooms();
        self.tables();
        self.read();
    }

    fn stops(&mut self) {
        for byte in [b' ', b'%', b'a', 0, 255] {
            self.answers(&[byte].repeat(65_536), 9, 9, refused(BYTES, TEXT, 0));
        }
        self.answers(&b" ".repeat(65_535), 9, 9, refused(NO_TEXT, TEXT, 65_535));
        let stops: [(usize, &[&[u8]]); 10] = [
            (0, &[b"", b"P(a).", b".", b"\t", b"9(a).", b"_(a).", b":- p."]),
            (1, &[b"p", b"p.", b"p (a).", b"p-", b"%", b" "]),
            (2, &[b"p().", b"p('a').", b"p([]).", b"p(+1).", b"p(.).", b"p(,a).", b"p({a}).", b"p(\"a\").", b"p(\ta).", b"pp", b"p("]),
            (3, &[b"p(- 1).", b"p(--1).", b"p(-a).", b"p(-A).", b"p(-.", b"p(-", b"p(-%\n1).", b"p(a-1).", b"p(X-1)."]),
            (3, &[b"p(9a).", b"p(A(a)).", b"p(a", b"p(a.", b"p(0'a).", b"p(0x1).", b"p(1_000).", b"p(1.5).", b"p(a|b).", b"p(a+b)."]),
            (4, &[b"p(a)", b"p(f (a)).", b"p(a b).", b"p(a):-q.", b"p(f()).", b"p(a,).", b"p(a)\t.", b"p(a)p", b"p(A (a))."]),
            (5, &[b"p(a).p(b).", b"p(a).\t", b"p(a)..", b"p(a).a", b"p(a)\n\x0c."]),
            (6, &[b"p(32768).", b"p(a). .", b"p(65535).", b"p(99999).", b"p(a). P(b)."]),
            (7, &[b"p(-32769).", b"p(-65535).", b"p(-99999).", b"p(a,-32"]),
            (11, &[b"p(f(a,b,c,d,e)).", b"p(0000032768)."]),
        ];
        for (place, texts) in stops {
            for text in texts {
                self.answers(text, 9, 9, refused(NO_TEXT, TEXT, place));
            }
        }
        self.answers(b"p(a). q(b). !", 9, 9, refused(NO_TEXT, TEXT, 12));
        // A fact has any number of arguments, a name inside four; the end of a text ends a comment and nothing else.
        self.answers(b"p(a,b,c,d,e,f(a,b,c,d),g", 9, 9, refused(NO_TEXT, TEXT, 24));
        self.answers(b"p(a % ).", 9, 9, refused(NO_TEXT, TEXT, 8));
        self.answers(b"p(a %\r).", 9, 9, refused(NO_TEXT, TEXT, 8));
    }

    fn others(&mut self) {
        for text in [&b"p(a). q(b)."[..], b"p(a). pp(a).", b"p(a). p(a,b)."] {
            self.answers(text, 0, 0, refused(OTHER, TEXT, 6));
        }
        self.answers(b"p(a). p(b). q(c).", 9, 9, refused(OTHER, TEXT, 12));
        self.answers(b"p(a). q(b). p(c). r(a).", 9, 9, refused(OTHER, TEXT, 6));
        self.answers(b"p(a). q(b). q(c).", 9, 9, refused(OTHER, TEXT, 6));
        self.answers(b"p(a).%\n % \n q(b).", 9, 9, refused(OTHER, TEXT, 12));
    }

    fn rooms(&mut self) {
        self.answers(b"p(X,X).", 3, 0, refused(NO_ROOM, ROOM, 4));
        self.answers(b"p(X,X).", 3, 9, refused(NO_ROOM, ROOM, 4));
        self.answers(b"p(a,b,a).", 4, 0, refused(NO_ROOM, ROOM, 5));
        self.answers(b"p(a,b,a).", 5, 1, refused(NO_ROOM, ROOM, 2));
        self.answers(b"p(a,b,a).", 0, 0, refused(NO_ROOM, ROOM, 5));
        let many = fact(&["a"; 2049]);
        self.answers(&many, 2050, 9, refused(NO_ROOM, ROOM, 2051));
        self.answers(&many, 2051, 0, refused(NO_ROOM, ROOM, 1));
        self.answers(&many, 2051, 1, refused(LENGTH, TABLE, 0));
    }

    fn tables(&mut self) {
        self.answers(&fact(&["a"; 9]), 99, 9, refused(WIDTH, TABLE, 0));
        self.answers(&fact(&["a"; 2048]), 2050, 1, refused(WIDTH, TABLE, 0));
        self.answers(&b"p(a).\n".repeat(65), 99, 9, refused(COUNT, TABLE, 1));
        self.answers(&[b"p(", &b"f(".repeat(32)[..], b"a", &b")".repeat(32)[..], b")."].concat(), 99, 9, refused(LONG, TABLE, 34));
        self.answers(b"p(a). p(b). p(a). p(X).", 99, 9, refused(SAME, TABLE, 4));
        self.answers(b"p(32767). p(00000032767).", 99, 9, refused(SAME, TABLE, 3));
        self.answers(b"p(f(0),a). p(f(-00),a). p(X,X).", 99, 9, refused(SAME, TABLE, 5));
        self.answers(b"p(a). p(a).", 3, 9, refused(NO_ROOM, ROOM, 4));
    }

    fn read(&mut self) {
        self.reads(b"p(f,f(a)).", &[2, 1, n(0, 0), n(0, 1), n(1, 0)], &[(2, 1), (6, 1)]);
        let cells = [3, 2, n(0, 0), v(0), n(1, 3), n(0, 0), v(1), i(9), n(2, 0), v(0), i(9)];
        self.reads(b"p(red,X,f(red,_,09)). % c\np(blue,_,9).", &cells, &[(2, 3), (8, 1), (28, 4)]);
        self.reads(b"p(p).", &[1, 1, n(0, 0)], &[(2, 1)]);
        self.reads(b"p(_,_X,_Y,_).", &[4, 1, v(0), v(1), v(2), v(3)], &[]);
        // A variable twice is read; `_` twice is none (W-209).
        self.reads(b"p(X,X).", &[2, 1, v(0), v(0)], &[]);
        self.reads(b"p(_X,_X).", &[2, 1, v(0), v(0)], &[]);
        self.reads(b"p(_,X,_,X,_X,x).", &[6, 1, v(0), v(1), v(2), v(1), v(3), n(0, 0)], &[(13, 1)]);
        let cells = [3, 2, n(0, 0), v(0), n(1, 1), v(0), n(2, 0), v(0), n(3, 0)];
        self.reads(b"p(a,X,f(X)). p(b,_,c).", &cells, &[(2, 1), (6, 1), (15, 1), (19, 1)]);
        self.reads(b"p(X,Y,X). p(Y,X,Y).", &[3, 2, v(0), v(1), v(0), v(0), v(1), v(0)], &[]);
        self.reads(b"p(00000032767). p(00).", &[1, 2, i(32_767), i(0)], &[]);
        self.reads(b"p(-1,-32768,-0).", &[3, 1, i(65_535), i(32_768), i(0)], &[]);
        self.reads(b"p(32767). p(-7).", &[1, 2, i(32_767), i(65_529)], &[]);
        self.reads(b"p(-00,f(-007,-000032768)).", &[2, 1, i(0), n(0, 2), i(65_529), i(32_768)], &[(6, 1)]);
        self.reads(b"p(X). p(X).%", &[1, 2, v(0), v(0)], &[]);
        self.reads(b"\r\n %c\n  p( aB_9 , Ab )\r.%p(b,c).\r\np(ab,_)\n.", &[2, 2, n(0, 0), v(0), n(1, 0), v(0)], &[(11, 4), (36, 2)]);
        let nested = [b"p(", &b"f(".repeat(31)[..], b"a", &b")".repeat(31)[..], b")."].concat();
        let cells = [vec![1, 1], vec![n(0, 1); 31], vec![n(1, 0)]].concat();
        self.reads(&nested, &cells, &[(2, 1), (64, 1)]);
        self.reads(&b"p(a,_).\n".repeat(64), &[vec![2, 64], [n(0, 0), v(0)].repeat(64)].concat(), &[(2, 1)]);
        self.reads(&fact(&["0"; 8]), &[8, 1, i(0), i(0), i(0), i(0), i(0), i(0), i(0), i(0)], &[]);
    }

    /// A refusal that is written down.
    fn answers(&mut self, text: &[u8], cells: usize, names: usize, answer: u64) {
        let given = Definition.read_text(text, &mut vec![0; cells], &mut vec![0; names]);
        self.tally.own("texts against answers written down", given == answer, &|| format!("{given:#x} and not {answer:#x}: {}", shown(text)));
        self.read_text(text, cells, names);
    }

    /// A table and a list of names that are written down, in rooms of exactly that size and in larger ones.
    fn reads(&mut self, text: &[u8], cells: &[u32], names: &[(u32, u32)]) {
        let names: Vec<u32> = names.iter().map(|(start, bytes)| start | bytes << 16).collect();
        let room = |written: &[u32]| [&vec![7; 8], written, &vec![7; 8]].concat();
        let lent = [vec![7; cells.len() + 16], vec![7; names.len() + 16]];
        let (answer, left) = lend_two(&lent, |cells, names| Definition.read_text(text, cells, names));
        let wanted = (cells.len() as u64) << 16 | (names.len() as u64) << 32;
        let same = answer == wanted && left == [room(cells), room(&names)];
        self.tally.own("texts against answers written down", same, &|| format!("{answer:#x} {left:?}: {}", shown(text)));
        self.read_text(text, cells.len(), names.len());
        self.read_text(text, cells.len() + 5, names.len() + 5);
    }
}

fn fact(arguments: &[&str]) -> Vec<u8> {
    format!("p({}).", arguments.join(",")).into_bytes()
}
