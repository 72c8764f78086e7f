//! Whether the drawing of layers in the README is that of crates.txt.
//!
//! The drawing is the fenced block of the README that has a line `| ground`. A line `| LAYER | CRATES | WORDS |` has crates of a layer, with `*`
//! behind one that is mathematics; a line without LAYER goes on with the layer above. Layers stand on one another, the ground at the bottom.

use std::collections::{BTreeMap, BTreeSet};

/// The crates of crates.txt, each with what it uses, and those whose line of words begins with `mathematics:`. What is used and not listed is the
/// kit's.
struct Crates<'a> {
    uses: BTreeMap<&'a str, Vec<&'a str>>,
    mathematics: BTreeSet<&'a str>,
}

/// How many crates there are, and what is wrong with the drawing, a line each: a crate that is missing, stands there more than once, has a wrong sign
/// or stands below one that it uses; and a name that is no crate's.
pub fn wrongs(readme: &str, crates: &str) -> (usize, Vec<String>) {
    let crates = read_crates(crates);
    let layers = read_drawing(readme);
    let mut wrongs = Vec::new();
    let mut places: BTreeMap<&str, Vec<usize>> = BTreeMap::new();
    for (height, (layer, words)) in layers.iter().enumerate() {
        for word in words {
            let name = word.trim_end_matches('*');
            places.entry(name).or_default().push(height);
            if !crates.uses.contains_key(name) {
                wrongs.push(format!("{name}: in {layer}, and unknown to crates.txt"));
            } else if (*word != name) != crates.mathematics.contains(name) {
                wrongs.push(format!("{name}: {} mathematics in crates.txt", if *word == name { "is" } else { "no" }));
            }
        }
    }
    for (name, used) in &crates.uses {
        let heights = places.get(name).map_or(&[][..], Vec::as_slice);
        if heights.len() != 1 {
            wrongs.push(format!("{name}: {} times in the drawing", heights.len()));
        }
        let above = |other: &&&str| places.get(**other).is_some_and(|others| heights.first().is_some_and(|height| *height < others[0]));
        wrongs.extend(used.iter().filter(above).map(|other| format!("{name}: below {other}, which it uses")));
    }
    (crates.uses.len(), wrongs)
}

/// Prints what is wrong, and then `N crates, M wrong`.
pub fn print(readme: &str, crates: &str) {
    let (count, wrongs) = wrongs(readme, crates);
    wrongs.iter().for_each(|line| println!("{line}"));
    println!("{count} crates, {} wrong", wrongs.len());
}

fn read_crates(text: &str) -> Crates<'_> {
    let mut crates = Crates { uses: BTreeMap::new(), mathematics: BTreeSet::new() };
    let mut said = "";
    for line in text.lines() {
        if let Some(words) = line.strip_prefix('#') {
            said = words.trim();
        } else if let Some((name, used)) = listed(line) {
            crates.uses.insert(name, used.split_whitespace().collect());
            if said.starts_with("mathematics:") {
                crates.mathematics.insert(name);
            }
        }
    }
    crates
}

/// The crate that a line of crates.txt lists, and what it uses. Behind the name may stand what is made of it, as `staticlib`.
pub fn listed(line: &str) -> Option<(&str, &str)> {
    let (name, used) = line.split_once(':').filter(|_| !line.starts_with('#'))?;
    Some((name.split_whitespace().next()?, used))
}

/// The layers from the ground up, each with the words in it.
fn read_drawing(readme: &str) -> Vec<(&str, Vec<&str>)> {
    let mut layers: Vec<(&str, Vec<&str>)> = Vec::new();
    let blocks = readme.split("```").skip(1).step_by(2);
    for line in blocks.filter(|block| block.contains("\n| ground ")).flat_map(str::lines) {
        let mut parts = line.split('|').skip(1).map(str::trim);
        if let (Some(layer), Some(words)) = (parts.next(), parts.next()) {
            if !layer.is_empty() {
                layers.push((layer, Vec::new()));
            }
            if let Some((_, all)) = layers.last_mut() {
                all.extend(words.split_whitespace());
            }
        }
    }
    layers.reverse();
    layers
}
