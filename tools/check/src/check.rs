//! The checks of a document against the index.
use crate::document::{blocks, links, quotes, Block, Is};
use crate::groups::{mentions, Mention, Place};
use crate::index::{file_name, is_name, list, Index, BUILT};
use std::collections::BTreeMap;
use std::fs;
use std::path::{Path, PathBuf};

/// Where a path of the repository begins.
const TOPS: [&str; 7] = [".ci", "bench", "crates", "docs", "include", "tests", "tools"];

pub struct Checker<'a> {
    pub index: &'a Index,
    /// a line for each fault, and how many names were looked up
    pub faults: Vec<String>,
    pub names: usize,
}

/// Whether a name fits a pattern, in which `*` is any text.
fn fits(pattern: &str, name: &str) -> bool {
    match pattern.split_once('*') {
        None => pattern == name,
        Some((start, rest)) => name.strip_prefix(start).is_some_and(|tail| {
            tail.char_indices().map(|(at, _)| at).chain([tail.len()]).any(|at| fits(rest, &tail[at..]))
        }),
    }
}

/// Whether something is at a path with patterns, seen from a folder.
fn exists(folder: &Path, path: &str) -> bool {
    let (first, rest) = path.split_once('/').unwrap_or((path, ""));
    if !first.contains('*') {
        let next = folder.join(first);
        return if rest.is_empty() { next.exists() } else { exists(&next, rest) };
    }
    let next: Vec<PathBuf> = list(folder).into_iter().filter(|p| fits(first, &file_name(p))).collect();
    next.iter().any(|p| rest.is_empty() || exists(p, rest))
}

/// Whether a text has these lines, one after the other.
fn has_lines(text: &str, lines: &[String]) -> bool {
    let all: Vec<&str> = text.lines().collect();
    all.windows(lines.len()).any(|part| part.iter().zip(lines).all(|(a, b)| a == b))
}

impl Checker<'_> {
    /// Checks the document at a path of the repository.
    pub fn document(&mut self, path: &str, text: &str) {
        for block in blocks(text) {
            let said = mentions(&block.tokens, block.cell, &|name| self.index.is_crate(name));
            let groups = said.iter().filter_map(|m| Some((m.line, self.mention(m)?)));
            let mut faults: Vec<(usize, String)> = groups.collect();
            faults.extend(self.ticks(path, &block));
            let label = block.label.map_or(String::new(), |l| format!("{l}: "));
            self.faults.extend(faults.iter().map(|(line, fault)| format!("{path}:{line}: {label}{fault}")));
        }
        for (line, target) in links(text) {
            let file = target.split('#').next().unwrap_or_default();
            if !file.is_empty() && !file.contains("://") && !self.beside(path).join(file).exists() {
                self.faults.push(format!("{path}:{line}: there is no {file}"));
            }
        }
    }

    fn beside(&self, document: &str) -> PathBuf {
        self.index.root.join(Path::new(document).parent().unwrap_or(Path::new("")))
    }

    fn mention(&self, m: &Mention) -> Option<String> {
        let (kind, name) = (m.kind, &m.name);
        match &m.place {
            _ if kind == "crate" => (!self.index.is_crate(name)).then(|| format!("{name} is no crate")),
            _ if kind == "program" => (!self.index.is_program(name)).then(|| format!("{name} is no program")),
            Place::Unnamed => Some(format!("no crate is named for {kind} {name}")),
            Place::Anywhere => self.index.owners(kind, name).is_empty().then(|| format!("no crate has {kind} {name}")),
            // a crate that is none is a fault of its own
            Place::Crate(owner) => {
                let missing = !self.index.crates.get(owner)?.has(kind, name);
                missing.then(|| format!("{owner} has no {kind} {name}{}", self.elsewhere(kind, name)))
            }
            Place::File(owner, file) => {
                let missing = !self.index.crates.get(owner)?.defines_in(file, name);
                missing.then(|| format!("{file} of {owner} has no {name}"))
            }
        }
    }

    /// Where a name is that is not where it should be.
    fn elsewhere(&self, kind: &str, name: &str) -> String {
        match self.index.owners(kind, name).as_slice() {
            [] => String::new(),
            owners => format!(" (it is in {})", owners.join(", ")),
        }
    }

    /// What is wrong with the backticked words of a block by themselves.
    fn ticks(&mut self, document: &str, block: &Block) -> Vec<(usize, String)> {
        let mut faults = Vec::new();
        for (n, token) in block.tokens.iter().enumerate() {
            let Is::Tick(text) = &token.is else { continue };
            // the name of a crate that is planned: **open** (`crate`)
            if n > 1 && block.tokens[n - 2].is == Is::Word("**open**".into()) {
                continue;
            }
            let alone = !text.contains(' ');
            for word in text.split(' ').map(|w| w.trim_end_matches([':', ',', ';'])) {
                faults.extend(self.word(document, word, alone).map(|fault| (token.line, fault)));
            }
        }
        faults
    }

    /// A word in backticks: a path and `a::b` are looked up wherever they stand, a plain name where it stands alone.
    fn word(&mut self, document: &str, word: &str, alone: bool) -> Option<String> {
        let is_file = [".antt", ".py", ".rs", ".rt"].iter().any(|e| word.ends_with(e));
        let fault = if word.contains("::") {
            let parts: Vec<&str> = word.split("::").collect();
            let wrong = parts.windows(2).find(|p| is_name(p[0]) && !self.index.has_member(p[0], p[1]));
            wrong.map(|p| format!("{} has no {}", p[0], p[1]))
        } else if word.contains('/') {
            (!self.path_exists(document, word)?).then(|| format!("there is no {word}"))
        } else if alone && is_file {
            (!self.index.knows_file(word)).then(|| format!("there is no file {word}"))
        } else if alone && is_name(word) {
            (!self.index.knows_word(word)).then(|| format!("nothing is called {word}"))
        } else {
            return None;
        };
        self.names += 1;
        fault
    }

    /// Whether a path exists, in the repository or seen from the document; nothing if it is no path of the repository.
    fn path_exists(&self, document: &str, word: &str) -> Option<bool> {
        let beside = self.beside(document);
        let first = word.split('/').next()?;
        if word.split('/').any(|part| BUILT.contains(&part)) {
            return None;
        }
        if !TOPS.contains(&first) && (first.starts_with('.') || !beside.join(first).is_dir()) {
            return None;
        }
        let pattern = ["NAME", "LABEL", "FUNCTION"].iter().fold(word.to_string(), |p, holder| p.replace(holder, "*"));
        let pattern = pattern.trim_end_matches('/');
        Some(exists(&self.index.root, pattern) || exists(&beside, pattern))
    }

    /// Every chunk of a quoted block stands in a file of specs or src, and in the file named above the block if one is.
    pub fn quotes(&mut self, path: &str, text: &str) {
        let folders = list(&self.index.root.join("crates")).into_iter().flat_map(|c| [c.join("specs"), c.join("src")]);
        let files = folders.flat_map(|f| list(&f));
        let texts: BTreeMap<PathBuf, String> =
            files.filter_map(|f| Some((f.clone(), fs::read_to_string(f).ok()?))).collect();
        for quote in quotes(text) {
            let words = quote.above.split('`').skip(1).step_by(2);
            let named: Vec<PathBuf> =
                words.map(|w| self.index.root.join(w)).filter(|p| texts.contains_key(p)).collect();
            for (line, chunk) in &quote.chunks {
                let mut places = texts.iter().filter(|(p, _)| named.is_empty() || named.contains(p));
                if !places.any(|(_, text)| has_lines(text, chunk)) {
                    let place = if named.is_empty() {
                        "no file of specs or src has"
                    } else {
                        "the file named above does not have"
                    };
                    self.faults.push(format!("{path}:{line}: {place} these lines: {}", chunk[0]));
                }
                self.names += 1;
            }
        }
    }

    /// Under the heading Crates every crate has one row, and every row is a crate.
    pub fn crate_table(&mut self, path: &str, text: &str) {
        let section = text.lines().zip(1..).skip_while(|(l, _)| l.trim_start_matches('#').trim() != "Crates").skip(1);
        let rows = section.take_while(|(l, _)| !l.starts_with('#'));
        let mut seen: BTreeMap<&str, usize> = BTreeMap::new();
        for (name, line) in rows.filter_map(|(l, n)| Some((l.strip_prefix("| `")?.split('`').next()?, n))) {
            if !self.index.is_crate(name) {
                self.faults.push(format!("{path}:{line}: {name} is no crate"));
            }
            if let Some(first) = seen.insert(name, line) {
                self.faults.push(format!("{path}:{line}: {name} has a row already, in line {first}"));
            }
        }
        let missing = self.index.crates.keys().filter(|name| !seen.contains_key(name.as_str()));
        self.faults.extend(missing.map(|name| format!("{path}: the table of crates has no row for {name}")));
    }
}
