//! What the repository has: its crates with their names, by kind, and the words that occur in its files.
use std::collections::{BTreeMap, BTreeSet};
use std::path::{Path, PathBuf};
use std::{fs, io};

/// Words of the tools, of the language and of the header of V4L2, which need not occur in a file. Sorted.
const ALLOWED: [&str; 11] = [
    "callgrind",
    "cargo",
    "cc",
    "ensures",
    "memcpy",
    "memmove",
    "memset",
    "requires",
    "rt",
    "v4l2_pix_format",
    "valgrind",
];

/// The folders whose words are known, besides `crates`.
const FOLDERS: [&str; 5] = [".ci", "bench", "include", "tests", "tools"];

/// The folders in which cargo and rt leave what they make.
pub const BUILT: [&str; 2] = ["out", "target"];

/// This program is not searched: its list of words and its tests would make every name in them known.
const OWN: &str = "tools/check";

pub type Names = BTreeSet<String>;

/// A type of the code (`enum`, `struct`, `type`, `const`), with its cases or fields.
pub struct Type {
    kind: String,
    name: String,
    parts: Names,
}

#[derive(Default)]
pub struct Crate {
    /// The names that each file of `specs` and each file at the top of `proofs` defines, by its path in the crate.
    files: BTreeMap<String, Names>,
    functions: Names,
    types: Vec<Type>,
    edits: Names,
    program: bool,
}

pub struct Index {
    pub root: PathBuf,
    pub crates: BTreeMap<String, Crate>,
    words: Names,
    file_names: Names,
}

/// Whether a name is meant: `kept-..` and `kept-*` mean every name that begins so.
fn fits(name: &str, meant: &str) -> bool {
    let start = meant.strip_suffix("..").or(meant.strip_suffix('*'));
    start.map_or(name == meant, |start| name.starts_with(start))
}

fn any_fits(names: &Names, meant: &str) -> bool {
    names.iter().any(|name| fits(name, meant))
}

/// A name of the language: what a backticked word has to look like to be looked up.
pub fn is_name(word: &str) -> bool {
    let start = word.strip_suffix("..").or(word.strip_suffix('*')).unwrap_or(word);
    start.len() > 1
        && start.starts_with(|c: char| c.is_ascii_alphabetic())
        && start.chars().all(|c| c.is_ascii_alphanumeric() || "_-".contains(c))
}

/// The name that a line of a definition file defines, at the top or in a section: `abbrev pub name : ..`, `pub record Name ..`,
/// a field or a constructor `name : ..`.
fn defined(line: &str) -> Option<&str> {
    let mut words = line.split_whitespace().skip_while(|w| ["abbrev", "pub", "unfoldable"].contains(w));
    let (first, second) = (words.next()?, words.next()?);
    match first {
        "data" | "record" | "ruleset" => Some(second),
        _ => (second == ":" && first.starts_with(char::is_alphabetic)).then_some(first),
    }
}

/// The identifier that a text begins with.
fn identifier(text: &str) -> &str {
    let end = text.find(|c: char| !c.is_alphanumeric() && c != '_').unwrap_or(text.len());
    &text[..end]
}

/// A line without its comment, which may name what is no more.
fn code<'a>(line: &'a str, path: &Path) -> &'a str {
    let mark = match path.extension().and_then(|e| e.to_str()) {
        Some("antt") => "--",
        Some("rt" | "rs") => "//",
        _ => return line,
    };
    // `--` may also end a name's part, so only one at the start of a word begins a comment
    let comment =
        line.match_indices(mark).find(|(at, _)| line[..*at].chars().next_back().is_none_or(char::is_whitespace));
    comment.map_or(line, |(at, _)| &line[..at])
}

/// The files of a folder, in order; none where there is no such folder.
pub fn list(folder: &Path) -> Vec<PathBuf> {
    let entries = fs::read_dir(folder).into_iter().flatten().flatten();
    let mut paths: Vec<PathBuf> = entries.map(|e| e.path()).collect();
    paths.sort();
    paths
}

pub fn file_name(path: &Path) -> String {
    path.file_name().unwrap_or_default().to_string_lossy().into_owned()
}

fn stem(path: &Path) -> String {
    path.file_stem().unwrap_or_default().to_string_lossy().into_owned()
}

impl Type {
    fn of_line(line: &str) -> Option<Type> {
        let mut words = line.split_whitespace().skip_while(|w| *w == "pub");
        let kind = words.next().filter(|w| ["const", "enum", "struct", "type"].contains(w))?;
        Some(Type { kind: kind.into(), name: identifier(words.next()?).into(), parts: Names::new() })
    }
}

impl Crate {
    fn read(folder: &Path) -> io::Result<Crate> {
        let mut it = Crate { program: folder.join("src/main.rt").exists(), ..Crate::default() };
        for part in ["specs", "proofs"] {
            for path in list(&folder.join(part)).iter().filter(|p| p.is_file()) {
                let text = fs::read_to_string(path)?;
                let names = text.lines().filter_map(|l| defined(code(l, path))).map(String::from).collect();
                it.files.insert(format!("{part}/{}", file_name(path)), names);
            }
        }
        for path in list(&folder.join("src")).iter().filter(|p| p.is_file()) {
            it.read_code(&fs::read_to_string(path)?, path);
        }
        it.edits = list(&folder.join("must-fail")).iter().map(|p| stem(p)).collect();
        Ok(it)
    }

    fn read_code(&mut self, text: &str, path: &Path) {
        let mut in_type = false;
        for line in text.lines().map(|l| code(l, path)) {
            if let Some(found) = Type::of_line(line) {
                in_type = line.trim_end().ends_with('{');
                self.types.push(found);
            } else if line.starts_with('}') {
                in_type = false;
            } else if in_type {
                let part = identifier(line.trim_start().trim_start_matches("pub "));
                self.types.last_mut().expect("a type was begun").parts.insert(part.into());
            } else if let Some((_, rest)) = line.split_once("fn ").filter(|(before, _)| !before.starts_with(' ')) {
                self.functions.insert(identifier(rest).into());
            }
        }
    }

    fn defines(&self, folder: &str, name: &str) -> bool {
        self.files.iter().any(|(file, names)| file.starts_with(folder) && any_fits(names, name))
    }

    /// Whether a file of the crate, `Rules.antt` or `specs/Rules.antt`, defines the name.
    pub fn defines_in(&self, file: &str, name: &str) -> bool {
        self.files.iter().any(|(path, names)| Path::new(path).ends_with(file) && any_fits(names, name))
    }

    fn has_part(&self, name: &str) -> bool {
        self.types.iter().any(|t| any_fits(&t.parts, name))
    }

    fn has_type(&self, name: &str) -> bool {
        self.types.iter().any(|t| fits(&t.name, name))
    }

    /// Whether the crate has a name of a kind.
    pub fn has(&self, kind: &str, name: &str) -> bool {
        match kind {
            "definition" => self.defines("specs/", name),
            "law" => self.defines("proofs/", name),
            "contract" | "claim" => any_fits(&self.functions, name),
            "edit" => any_fits(&self.edits, name),
            "enum" | "struct" => self.types.iter().any(|t| t.kind == kind && fits(&t.name, name)),
            "case" => self.has_part(name) || self.defines("specs/", name),
            "field" => self.has_part(name) || self.defines("", name),
            "figure" => any_fits(&self.functions, name) || self.defines("", name),
            // any name at all
            _ => ["figure", "edit", "case"].iter().any(|kind| self.has(kind, name)) || self.has_type(name),
        }
    }
}

impl Index {
    pub fn read(root: &Path) -> io::Result<Index> {
        let table = fs::read_to_string(root.join("crates.txt"))?;
        // `NAME: ..`, or `NAME staticlib: ..`
        let heads = table.lines().filter(|l| !l.starts_with('#')).filter_map(|l| Some(l.split_once(':')?.0));
        let names = heads.filter_map(|head| head.split_whitespace().next());
        let mut it = Index {
            root: root.into(),
            crates: BTreeMap::new(),
            words: ALLOWED.map(String::from).into(),
            file_names: Names::new(),
        };
        for name in names {
            it.crates.insert(name.into(), Crate::read(&root.join("crates").join(name))?);
            it.words.insert(name.into());
        }
        for folder in FOLDERS.iter().chain(&["crates"]) {
            it.read_words(&root.join(folder))?;
        }
        Ok(it)
    }

    fn read_words(&mut self, folder: &Path) -> io::Result<()> {
        for path in list(folder) {
            self.words.insert(stem(&path));
            self.file_names.insert(file_name(&path));
            if path.is_dir() {
                if !BUILT.iter().any(|name| path.ends_with(name)) && path != self.root.join(OWN) {
                    self.read_words(&path)?;
                }
            } else if !["edit", "lock", "md"].iter().any(|e| path.extension().is_some_and(|x| x == *e)) {
                // an edit has wrong code in it, and a document is what is checked
                let text = String::from_utf8_lossy(&fs::read(&path)?).into_owned();
                for line in text.lines().map(|l| code(l, &path)) {
                    let words = line.split(|c: char| !c.is_ascii_alphanumeric() && !"_-".contains(c));
                    self.words.extend(words.map(|w| w.trim_matches('-').to_string()));
                }
            }
        }
        Ok(())
    }

    pub fn is_crate(&self, name: &str) -> bool {
        self.crates.contains_key(name)
    }

    pub fn is_program(&self, name: &str) -> bool {
        self.crates.get(name).is_some_and(|c| c.program)
    }

    pub fn knows_word(&self, word: &str) -> bool {
        any_fits(&self.words, word)
    }

    pub fn knows_file(&self, name: &str) -> bool {
        self.file_names.contains(name)
    }

    /// The crates that have a name of a kind.
    pub fn owners(&self, kind: &str, name: &str) -> Vec<&str> {
        self.crates.iter().filter(|(_, c)| c.has(kind, name)).map(|(n, _)| n.as_str()).collect()
    }

    /// Whether `a::b` is a function or a type `b` of a crate `a`, or a case `b` of a type `a`.
    pub fn has_member(&self, a: &str, b: &str) -> bool {
        match self.crates.get(a) {
            Some(c) => c.functions.contains(b) || c.has_type(b),
            None => self.crates.values().flat_map(|c| &c.types).any(|t| t.name == a && t.parts.contains(b)),
        }
    }
}
