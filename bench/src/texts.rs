//! The texts that are measured: a printed table, and texts as long as may be, each of one kind.

use std::hint::black_box;

use crate::cases::{Work, SEED};
use crate::engine::{Engine, Exported};
use crate::make::texts::{alike_in, different_in, filled, nested_in, shop, FILLED};
use crate::model::text::TEXT_BYTES;
use crate::random::Random;

/// Rooms that no text exceeds.
pub const ROOM: usize = 32_768;

/// Each text with its kind.
pub fn measured_texts() -> Vec<(String, Vec<u8>)> {
    let table = |rows| shop(&mut Random::new(SEED), rows);
    let mut texts = vec![("a printed table, 8 rows".into(), table(8)), ("a printed table, 64 rows".into(), table(64))];
    let kinds = FILLED.iter().filter(|(_, start, _, end)| !start.is_empty() && !end.ends_with(b"\t"));
    texts.extend(kinds.map(|(name, start, filling, end)| (name.to_string(), filled(TEXT_BYTES, start, filling, end))));
    texts.push(("names one in another".into(), nested_in(TEXT_BYTES)));
    texts.push(("names that differ".into(), different_in(TEXT_BYTES)));
    for each in [31, 90, 180, 360] {
        for (place, words) in [(0, "their first bytes"), (each / 2, "their middle"), (each - 3, "their last bytes")] {
            texts.push((format!("names of {each} bytes that differ in {words}"), alike_in(TEXT_BYTES, each, place)));
        }
    }
    texts
}

/// One call for the text.
pub fn reading(text: &[u8]) -> Work<'_> {
    let (mut cells, mut names) = (vec![0; ROOM], vec![0; ROOM]);
    let work = move || {
        black_box(Exported.read_text(black_box(text), &mut cells, &mut names));
    };
    Work { calls: 1, work: Box::new(work) }
}
