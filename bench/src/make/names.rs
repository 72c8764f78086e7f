//! Texts with lists of names (02, W-210): entries anywhere in any bytes, sound and damaged.

use std::collections::HashSet;

use crate::model::clauses::word;
use crate::random::Random;

/// Some bytes, and for each name its start in them in bits 15..0 and its bytes in bits 31..16.
#[derive(Clone)]
pub struct Named {
    pub text: Vec<u8>,
    pub names: Vec<u32>,
}

/// One entry of a list.
pub fn entry(start: usize, bytes: usize) -> u32 {
    (bytes as u32) << 16 | start as u32
}

impl Named {
    /// Names with nothing between them, in this order.
    pub fn of(words: &[String]) -> Named {
        let mut named = Named { text: Vec::new(), names: Vec::new() };
        words.iter().for_each(|word| named.add(word.as_bytes()));
        named
    }

    /// Adds bytes to the text, and an entry for them.
    fn add(&mut self, bytes: &[u8]) {
        self.names.push(entry(self.text.len(), bytes.len()));
        self.text.extend(bytes);
    }

    /// The most bytes of a listed name.
    pub fn longest(&self) -> usize {
        self.names.iter().map(|name| (name >> 16) as usize).max().unwrap_or(0)
    }
}

/// The letters by their numbers, as in crate::notation; all other numbers below are listed too.
pub fn letters() -> Named {
    let word = |number: u8| if number.is_ascii_lowercase() { (number as char).to_string() } else { format!("n{number}") };
    Named::of(&(0..=b'z').map(word).collect::<Vec<_>>())
}

/// So many names that differ, most of them parts of longer words, in any order.
pub fn sound(random: &mut Random, count: usize) -> Named {
    const BYTES: &[u8] = b"aabcdefghijklmnopqrstuvwxyzAZ09__ ,.'\n\xe9";
    // Few letters make words alike.
    let few = random.one_in(3);
    let most = *random.pick(&[2, 6, 6, 6, 320]);
    let before = if random.one_in(16) { 60_000 } else { 0 };
    let mut named = Named { text: vec![b'.'; before], names: Vec::new() };
    let mut met = HashSet::new();
    while named.names.len() < count {
        // Bytes are added until there are names enough.
        for _ in 0..8 {
            named.text.push(if few && random.one_in(2) { *random.pick(b"ab") } else { *random.pick(BYTES) });
        }
        if most > 6 && random.one_in(8) {
            named.text.extend(std::iter::repeat_n(*random.pick(b"az_"), 300));
        }
        for _ in 0..4 {
            let from = named.text.len().saturating_sub(600).max(before);
            let start = random.within(from..=named.text.len() - 1);
            let longest = named.text[start..].iter().take_while(|&&byte| byte.is_ascii_alphanumeric() || byte == b'_').count();
            let entry = entry(start, random.within(1..=most).min(longest));
            if named.names.len() < count && word(&named.text, entry).is_some_and(|word| met.insert(word.to_vec())) {
                named.names.push(entry);
            }
        }
    }
    for place in (1..named.names.len()).rev() {
        let other = random.below(place + 1);
        named.names.swap(place, other);
    }
    named
}

/// Damages a list of which so many entries are used: an entry is changed or put behind the others, or the list is cut.
pub fn damage(random: &mut Random, named: &mut Named, used: usize) {
    match random.below(12) {
        0 | 1 => {
            let length = if random.one_in(2) { used.saturating_sub(1) } else { random.below(named.names.len() + 1) };
            named.names.truncate(length);
        }
        2 => drop(named.text.pop()),
        3 => named.text.truncate(random.below(named.text.len() + 1)),
        4 | 5 => {
            let wrong = no_name(random, named);
            named.names.push(wrong);
        }
        _ => {
            let wrong = no_name(random, named);
            let place = random.below(named.names.len() + 1);
            match named.names.get_mut(place) {
                Some(name) => *name = wrong,
                None => named.names.push(wrong),
            }
        }
    }
}

/// An entry that is no name, or one that is listed already.
fn no_name(random: &mut Random, named: &mut Named) -> u32 {
    const WRONG: [&[u8]; 12] = [b"X", b"Xa", b"_", b"_a", b"9", b"9a", b"a b", b"ab.", b"a\xe9", b"'a'", b" a", b"a\n"];
    let end = named.text.len();
    match random.below(8) {
        // Past the text by one byte, by any number, and by as many as can be.
        0 => entry(end.min(0xffff), 1),
        1 => {
            named.text.extend(b"abc");
            let start = named.text.len().min(65_538) - 3;
            entry(start, named.text.len() - start + 1)
        }
        2 => {
            let any = random.number() as u32;
            *random.pick(&[u32::MAX, entry(0xffff, 1), entry(0, 0xffff), any])
        }
        // No byte.
        3 => entry(*random.pick(&[0, end.min(0xffff), (end + 1).min(0xffff)]), 0),
        // One that is listed, at the same place or at another.
        4 | 5 if !named.names.is_empty() => {
            let listed = *random.pick(&named.names);
            match word(&named.text, listed).map(<[u8]>::to_vec) {
                Some(copy) if random.one_in(2) && end < 0xffff => {
                    named.text.extend(&copy);
                    entry(end, copy.len())
                }
                _ => listed,
            }
        }
        _ if end < 0xffff => {
            let wrong = *random.pick(&WRONG);
            named.text.extend(wrong);
            entry(end, wrong.len())
        }
        _ => 0,
    }
}
