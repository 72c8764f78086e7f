//! What a reader must believe, counted: the definitions that the statements of crate demands are made of, in files and lines.
//!
//! It goes by names. The page is every definition of `crates/demands/specs`, and what `crates/demands/src/lib.rt` names of other crates' `specs/`.
//! From a definition it goes on to each name in it that its file defines, or takes from `specs/` of a crate; what is `declared` there is a type of
//! the crate's `src/`. Names of the kit are not followed. A variable that is called like a definition counts as it, so that this is rather too much
//! than too little.

use std::collections::{BTreeMap, BTreeSet};
use std::path::Path;

/// Definitions, the files that they stand in, and their lines with the comments before them, blank ones left out.
#[derive(Clone, Copy, Debug, Default, PartialEq, Eq)]
pub struct Size {
    pub definitions: usize,
    pub files: usize,
    pub lines: usize,
}

/// What must be believed: the page itself, and what stands below it; and of each file its size.
pub struct Believed {
    pub page: Size,
    pub below: Size,
    pub files: BTreeMap<String, Size>,
}

const PAGE: &str = "crates/demands/";

/// The path of a file, and a name that it defines.
type Place = (String, String);

/// A definition, or several that refer to one another: their lines, and how many they are.
struct Block {
    lines: Vec<String>,
    definitions: usize,
}

/// A file: its blocks, the block of each name, where the names that it takes are defined, and the files and types that have another name in it.
#[derive(Default)]
struct File {
    blocks: Vec<Block>,
    names: BTreeMap<String, usize>,
    taken: BTreeMap<String, Place>,
    aliases: BTreeMap<String, (String, Option<String>)>,
}

type Files = BTreeMap<String, File>;

/// What the page names, followed to the end, in the repository with this top folder. It fails at a name that is nowhere defined.
pub fn believed(top: &Path) -> Result<Believed, String> {
    let mut files = Files::new();
    let mut open = page(top, &mut files)?;
    let mut met = BTreeSet::new();
    while let Some((path, name)) = open.pop() {
        load(top, &path, &mut files)?;
        let file = &files[&path];
        if let Some(&block) = file.names.get(&name) {
            if met.insert((path.clone(), block)) {
                open.extend(named(&path, file, &file.blocks[block]));
            }
        } else {
            open.push(file.taken.get(&name).ok_or_else(|| format!("{path}: {name} is not defined there"))?.clone());
        }
    }
    Ok(sizes(&files, &met))
}

/// Prints a line for each file, and then the page and what stands below it in the README's words.
pub fn print(top: &Path) {
    let believed = believed(top).unwrap_or_else(|error| panic!("{error}"));
    for (path, size) in &believed.files {
        println!("{:4} definitions {:5} lines  {path}", size.definitions, size.lines);
    }
    println!("the page: {}", words(believed.page));
    println!("below it: {}", words(believed.below));
}

/// A size as the README says it.
pub fn words(size: Size) -> String {
    format!("{} definitions, {} lines in {} files", grouped(size.definitions), grouped(size.lines), grouped(size.files))
}

fn grouped(number: usize) -> String {
    if number < 1000 {
        number.to_string()
    } else {
        format!("{},{:03}", number / 1000, number % 1000)
    }
}

/// Every definition of the page, and those of other crates that the functions name which tie it to the entries.
fn page(top: &Path, files: &mut Files) -> Result<Vec<Place>, String> {
    let mut places = Vec::new();
    for entry in std::fs::read_dir(top.join(PAGE).join("specs")).map_err(|error| format!("{PAGE}specs: {error}"))? {
        let path = format!("{PAGE}specs/{}", entry.map_err(|error| error.to_string())?.file_name().to_string_lossy());
        load(top, &path, files)?;
        places.extend(files[&path].names.keys().map(|name| (path.clone(), name.clone())));
    }
    let ties = format!("{PAGE}src/lib.rt");
    load(top, &ties, files)?;
    places.extend(files[&ties].taken.values().filter(|(path, _)| path.contains("/specs/")).cloned());
    Ok(places)
}

fn load(top: &Path, path: &str, files: &mut Files) -> Result<(), String> {
    if !files.contains_key(path) {
        let text = std::fs::read_to_string(top.join(path)).map_err(|error| format!("{path}: {error}"))?;
        files.insert(path.to_string(), read_file(path, &text));
    }
    Ok(())
}

fn read_file(path: &str, text: &str) -> File {
    let mut file = File::default();
    for lines in cut(text) {
        let code: Vec<&str> = lines.iter().copied().filter(|line| !is_comment(line)).collect();
        let first = code.first().copied().unwrap_or("");
        let used = ["pub ", "ghost "].iter().fold(first, |line, word| line.strip_prefix(word).unwrap_or(line));
        if used.starts_with("use ") {
            take(path, &code.join(" ")[first.len() - used.len() + 4..], &mut file);
        } else {
            add_block(&lines, &code, &mut file);
        }
    }
    file
}

fn is_comment(line: &str) -> bool {
    ["--", "//", "#["].iter().any(|mark| line.trim_start().starts_with(mark))
}

/// The lines of a text without blank ones, cut before each head and the comments before it. A head stands at the margin, which is two blanks
/// further in inside a module. Other lines at the margin go on with what is above: in `specs/` those that begin with a name, in `src/` brackets.
fn cut(text: &str) -> Vec<Vec<&str>> {
    const HEADS: [&str; 14] =
        ["abbrev", "unfoldable", "pub", "record", "data", "mutual", "module", "use", "ghost", "fn", "mod", "struct", "enum", "const"];
    let (mut blocks, mut comments): (Vec<Vec<&str>>, Vec<&str>) = (Vec::new(), Vec::new());
    let mut module = false;
    for line in text.lines().filter(|line| !line.is_empty()) {
        module = if line.starts_with(' ') { module } else { line.starts_with("module ") };
        let line = if module { line.strip_prefix("  ").unwrap_or(line) } else { line };
        let word = line.split(' ').next().unwrap_or("");
        if is_comment(line) && !line.starts_with(' ') {
            comments.push(line);
            continue;
        }
        if HEADS.contains(&word) || blocks.is_empty() {
            blocks.push(Vec::new());
        }
        let block = blocks.last_mut().expect("one was pushed");
        block.append(&mut comments);
        block.push(line);
    }
    blocks
}

/// A block with its names: those that it defines, and the constructors of a type, which stand for the type.
fn add_block(lines: &[&str], code: &[&str], file: &mut File) {
    let Some(first) = code.first() else { return };
    let inner = |line: &&str| line.strip_prefix("  ").and_then(defined).map(str::to_string);
    let mut names: Vec<String> = if first.ends_with("mutual") {
        code[1..].iter().filter_map(inner).collect()
    } else {
        defined(first).map(str::to_string).into_iter().collect()
    };
    let definitions = names.len();
    if code.iter().any(|line| line.contains("data ")) {
        let parts = code[1..].iter().filter_map(|line| line.split_once(" : ")).filter(|(names, _)| !names.contains(['(', '{', '→']));
        names.extend(
            parts.flat_map(|(names, _)| names.split_whitespace()).filter(|word| !["pub", "data", "record"].contains(word)).map(str::to_string),
        );
    }
    if definitions > 0 {
        file.names.extend(names.into_iter().map(|name| (name, file.blocks.len())));
        file.blocks.push(Block { lines: lines.iter().map(|line| line.to_string()).collect(), definitions });
    }
}

/// The name that a line defines, if it does: a type's, or one with its own type behind it.
fn defined(line: &str) -> Option<&str> {
    let mut words = line.split([' ', '{']).skip_while(|word| ["abbrev", "unfoldable", "pub"].contains(word));
    let first = words.next().filter(|word| !word.is_empty())?;
    if ["record", "data", "struct", "enum"].contains(&first) {
        return words.next();
    }
    (words.next() == Some(":")).then_some(first)
}

/// What a line takes: types of code, names in braces, or a file or a type under another name.
fn take(path: &str, used: &str, file: &mut File) {
    let used = used.trim_end_matches(';');
    if let Some((owner, types)) = used.split_once("::") {
        let own = path.split('/').nth(1).unwrap_or("");
        let owner = if ["super", "crate"].contains(&owner) { own } else { owner };
        for name in in_braces(types) {
            file.taken.insert(name.to_string(), (format!("crates/{owner}/src/lib.rt"), name.to_string()));
        }
    } else if let Some((module, alias)) = used.split_once(" as ") {
        module_of(module).map(|module| file.aliases.insert(alias.to_string(), module));
    } else if let Some((from, of_type)) = used.split_once(".{").and_then(|(module, _)| module_of(module)) {
        for name in in_braces(&used[used.find('{').unwrap_or(0)..]) {
            file.taken.insert(name.to_string(), (from.clone(), of_type.clone().unwrap_or(name.to_string())));
        }
    }
}

fn in_braces(names: &str) -> impl Iterator<Item = &str> {
    names.split([',', '{', '}']).map(str::trim).filter(|name| !name.is_empty())
}

/// The file of a module, where it is one of ours; and the type, where the module is a declared type or its variants.
fn module_of(module: &str) -> Option<(String, Option<String>)> {
    let (name, rest) = module.strip_prefix("Rattle.")?.split_once(".specs.").filter(|(name, _)| *name != "std")?;
    let folder = format!("crates/{name}");
    let Some(declared) = rest.strip_prefix("declared.") else {
        return Some((format!("{folder}/specs/{}.antt", rest.replace('.', "/")), None));
    };
    let declared = declared.trim_end_matches(".TheVariants");
    let (file, name) = declared.rsplit_once('.').unwrap_or(("lib", declared));
    Some((format!("{folder}/src/{}.rt", file.replace('.', "/")), Some(name.to_string())))
}

/// The names in a block that lead on: its file's own, and what the file takes. Names of fields do not.
fn named(path: &str, file: &File, block: &Block) -> Vec<Place> {
    let mut places = Vec::new();
    let code: Vec<&str> = block.lines.iter().map(String::as_str).filter(|line| !is_comment(line)).collect();
    for part in code.join("\n").split(['{', ';', '\n']) {
        let words: Vec<&str> = part.split(|c: char| c.is_whitespace() || "()},<>[]&".contains(c)).filter(|word| !word.is_empty()).collect();
        let field = words.len() > 1 && (words[1] == "=" || words[0] == "pub" && !["data", "record", "struct", "enum"].contains(&words[1]));
        for word in &words[if field { 2 } else { 0 }..] {
            if file.names.contains_key(*word) {
                places.push((path.to_string(), word.to_string()));
            } else if let Some(place) = file.taken.get(*word) {
                places.push(place.clone());
            } else if let Some((first, name)) = word.split_once('.') {
                if let Some((from, of_type)) = file.aliases.get(first) {
                    places.push((from.clone(), of_type.clone().unwrap_or(name.to_string())));
                // otherwise a value's field
                } else if file.names.contains_key(first) {
                    places.push((path.to_string(), first.to_string()));
                } else {
                    places.extend(file.taken.get(first).cloned());
                }
            }
        }
    }
    places
}

fn sizes(files: &Files, met: &BTreeSet<(String, usize)>) -> Believed {
    let mut by_file: BTreeMap<String, Size> = BTreeMap::new();
    for (path, block) in met {
        let block = &files[path].blocks[*block];
        let size = by_file.entry(path.clone()).or_insert(Size { files: 1, ..Size::default() });
        size.definitions += block.definitions;
        size.lines += block.lines.len();
    }
    let sum = |page: bool| {
        let sizes = by_file.iter().filter(|(path, _)| path.starts_with(PAGE) == page).map(|(_, size)| size);
        sizes.fold(Size::default(), |all, size| Size {
            definitions: all.definitions + size.definitions,
            files: all.files + size.files,
            lines: all.lines + size.lines,
        })
    };
    Believed { page: sum(true), below: sum(false), files: by_file }
}
