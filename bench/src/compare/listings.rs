//! The listing program against the independent listing, where it is built.

use std::io::Write;
use std::path::{Path, PathBuf};
use std::process::{Command, Stdio};

use crate::make::{damage, tables};
use crate::model::listing::listing;
use crate::random::Random;

/// The program, if there is one: target/bin/planlist of the repository.
pub fn program() -> Option<PathBuf> {
    let path = Path::new(env!("CARGO_MANIFEST_DIR")).join("../target/bin/planlist");
    path.exists().then_some(path)
}

/// Compares so many listings, and says how many differ.
pub fn compare(program: &Path, count: usize, seed: u64) -> usize {
    let random = &mut Random::new(seed);
    let differs = |_: &usize| {
        let bytes = bytes(random);
        let printed = printed_by(program, &bytes);
        let differs = printed != listing(&bytes).as_bytes();
        if differs {
            eprintln!("planlist: {} for {bytes:?}", String::from_utf8_lossy(&printed));
        }
        differs
    };
    (0..count).filter(differs).count()
}

/// A table's bytes, sound or damaged, whole or not, or too many.
fn bytes(random: &mut Random) -> Vec<u8> {
    let mut table = tables::any(random);
    if random.one_in(3) {
        damage::table(random, &mut table);
    }
    let mut bytes: Vec<u8> = table.iter().flat_map(|cell| cell.to_le_bytes()).collect();
    match random.below(12) {
        0 => bytes.truncate(random.below(bytes.len() + 1)),
        1 => bytes.resize(random.within(8198..=8206), 0),
        _ => {}
    }
    bytes
}

fn printed_by(program: &Path, bytes: &[u8]) -> Vec<u8> {
    let mut child = Command::new(program).stdin(Stdio::piped()).stdout(Stdio::piped()).spawn().expect("the program starts");
    let mut input = child.stdin.take().expect("its standard input is a pipe");
    // A program that has read enough may close its input before the end.
    let _ = input.write_all(bytes);
    drop(input);
    child.wait_with_output().expect("the program ends").stdout
}
