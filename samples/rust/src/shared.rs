//! What all the programs share: a file's bytes, and rules and refusals as the programs in C print them too.

use dudowiej::{show, Record, Refusal};
use std::fmt::Display;
use std::fs::File;
use std::io::Read;
use std::path::{Path, PathBuf};
use std::process::ExitCode;

/// The one argument names a file; its first bytes are handed on, and what is refused is said after the program's name.
pub fn with_file(program: &str, most: usize, work: impl FnOnce(&[u8]) -> Result<(), Refusal>) -> ExitCode {
    let paths: Vec<PathBuf> = std::env::args_os().skip(1).map(PathBuf::from).collect();
    let [path] = &paths[..] else {
        eprintln!("usage: {program} FILE");
        return ExitCode::from(2);
    };
    let Ok(bytes) = load(path, most) else {
        eprintln!("{program}: cannot read {}", path.display());
        return ExitCode::from(2);
    };
    if let Err(refusal) = work(&bytes) {
        eprintln!("{program}: {}", said(&refusal));
        return ExitCode::from(1);
    }
    ExitCode::SUCCESS
}

fn load(path: &Path, most: usize) -> std::io::Result<Vec<u8>> {
    let mut bytes = Vec::new();
    File::open(path)?.take(most as u64).read_to_end(&mut bytes)?;
    Ok(bytes)
}

/// A refusal without its words.
pub fn said(refusal: &Refusal) -> String {
    format!("{} refused, {} {} at {}", refusal.input, refusal.reason.name(), refusal.reason.number(), refusal.place)
}

/// A record's row, with the shop's words for its names. The library counts rows from 0, people count rules from 1.
pub fn rule<W: Display>(record: &Record, row: usize, word: impl Fn(u16) -> W) -> String {
    format!("rule {}: {}", row + 1, show(record.row(row).unwrap_or_default(), word))
}
