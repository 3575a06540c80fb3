//! Each public function of a proved library is named by at least four wrong programs: edits in its crate's must-fail/ or audit/ that change
//! its body, the enum whose numbers it answers with, or a private function which it calls. Edits that come to the same text are one wrong
//! program, and the function of a public trait is named by those of all its impls. Whether the checker refuses them is tried by `rt ci` and
//! `tools/audit`.
use std::collections::{BTreeMap, BTreeSet};
use std::fs;
use std::path::{Path, PathBuf};

const NEEDED: usize = 4;

struct Function {
    file: String,
    name: String,
    public: bool,
    of_trait: bool,
    from: usize,
    text: String,
}

fn files(folder: &Path, ending: &str) -> Vec<PathBuf> {
    let mut found = Vec::new();
    for entry in fs::read_dir(folder).into_iter().flatten() {
        let path = entry.expect("an entry").path();
        if path.is_dir() {
            found.extend(files(&path, ending));
        } else if path.to_string_lossy().ends_with(ending) {
            found.push(path);
        }
    }
    found.sort();
    found
}

/// The name of the function that a line declares.
fn declared(line: &str) -> Option<&str> {
    let (before, after) = line.split_once("fn ")?;
    let words = before.split_whitespace().all(|w| ["pub", "pub(crate)", "const", "extern", "\"C\""].contains(&w));
    words.then(|| &after[..after.find(['(', '<']).unwrap_or(0)]).filter(|name| !name.is_empty())
}

/// Whether a text ends within an item that begins so.
fn within(before: &str, item: &str) -> bool {
    before.rsplit("\n}").next().is_some_and(|last| last.contains(item))
}

/// The functions of a crate, each with its text up to the next one.
fn functions(source: &Path) -> Vec<Function> {
    let mut found: Vec<Function> = Vec::new();
    for path in files(source, ".rt") {
        let file = format!("src/{}", path.strip_prefix(source).expect("below src").display());
        let mut at = 0;
        let text = fs::read_to_string(&path).expect("a source");
        for line in text.split_inclusive('\n') {
            if let Some(name) = declared(line) {
                let of_trait = within(&text[..at], "pub trait ");
                let public = of_trait || line.trim_start().starts_with("pub ");
                found.push(Function { file: file.clone(), name: name.to_string(), public, of_trait, from: at, text: String::new() });
            }
            if let Some(last) = found.last_mut().filter(|f| f.file == file) {
                last.text.push_str(line);
            }
            at += line.len();
        }
    }
    found
}

/// Whether a function's text, its own declaration left out, calls one of this name.
fn calls(caller: &Function, name: &str) -> bool {
    let body = &caller.text[caller.text.find('(').unwrap_or(0)..];
    let starts = |i: usize| !body[..i].ends_with(|c: char| c.is_alphanumeric() || c == '_');
    // of a function for several kinds the kind may stand between its name and what it is given
    body.match_indices(name).any(|(i, _)| starts(i) && (body[i + name.len()..].starts_with('(') || body[i + name.len()..].starts_with("::<")))
}

/// The places of the functions that one reaches within its crate, its own first; of a trait's, those of its impls too.
fn reached(all: &[Function], start: usize) -> Vec<usize> {
    let mut seen = vec![start];
    if all[start].of_trait {
        seen.extend((0..all.len()).filter(|&i| i != start && all[i].name == all[start].name));
    }
    let mut next = 0;
    while next < seen.len() {
        for i in 0..all.len() {
            if !seen.contains(&i) && calls(&all[seen[next]], &all[i].name) {
                seen.push(i);
            }
        }
        next += 1;
    }
    seen
}

/// The places of the functions that an edit changes.
fn changed(all: &[Function], folder: &Path, edit: &str) -> BTreeSet<usize> {
    let mut file = "";
    let mut places = BTreeSet::new();
    for line in edit.lines() {
        if let Some(named) = line.strip_prefix("file: ") {
            file = named;
        } else if let Some(old) = line.strip_prefix("old: ").filter(|_| file.starts_with("src/")) {
            let text = fs::read_to_string(folder.join(file)).expect(file);
            let at = text.find(old).unwrap_or_else(|| panic!("{} lacks {old}", folder.join(file).display()));
            let before = |f: &&Function| f.file == file && f.from <= at + old.len() - old.trim_start().len();
            // the numbers of an enum in front of all functions are those that the first one answers with
            let numbers = within(&text[..at], "pub enum ");
            let place = all.iter().filter(before).count().checked_sub(1).or(numbers.then_some(0));
            places.extend(place.map(|n| {
                let first = all.iter().position(|f| f.file == file).expect(file);
                first + n
            }));
        }
    }
    places
}

/// What the files that an edit changes become: two edits that come to the same are one wrong program.
fn program(folder: &Path, edit: &str) -> BTreeMap<String, String> {
    let (mut file, mut old) = ("", "");
    let mut texts = BTreeMap::new();
    for line in edit.lines() {
        if let Some(named) = line.strip_prefix("file: ") {
            file = named;
        } else if let Some(text) = line.strip_prefix("old: ") {
            old = text;
        } else if let Some(new) = line.strip_prefix("new: ") {
            let text = texts.entry(file.to_string()).or_insert_with(|| fs::read_to_string(folder.join(file)).expect(file));
            *text = text.replacen(old, new, 1);
        }
    }
    texts
}

#[test]
fn four_for_each_public_function() {
    let crates = Path::new(env!("CARGO_MANIFEST_DIR")).join("../../crates");
    let mut counted = 0;
    let mut short = Vec::new();
    for entry in fs::read_dir(&crates).expect("crates") {
        let folder = entry.expect("an entry").path();
        if !folder.join("src/lib.rt").exists() {
            continue;
        }
        let all = functions(&folder.join("src"));
        let edits = files(&folder.join("must-fail"), ".edit").into_iter().chain(files(&folder.join("audit"), ".edit"));
        let edits: Vec<String> = edits.map(|e| fs::read_to_string(e).expect("an edit")).collect();
        let changes: Vec<_> = edits.iter().map(|e| (changed(&all, &folder, e), program(&folder, e))).collect();
        for i in (0..all.len()).filter(|&i| all[i].public) {
            let reach = reached(&all, i);
            let reaches = changes.iter().filter(|(places, _)| places.iter().any(|p| reach.contains(p)));
            let wrong = reaches.map(|(_, program)| program).collect::<BTreeSet<_>>().len();
            println!("{} {}: {wrong}", folder.file_name().expect("a name").to_string_lossy(), all[i].name);
            counted += 1;
            if wrong < NEEDED {
                short.push(format!("{}: {} has {wrong}", folder.display(), all[i].name));
            }
        }
    }
    assert!(counted > 100, "{counted} public functions found");
    assert!(short.is_empty(), "fewer than {NEEDED} wrong programs: {short:#?}");
}
