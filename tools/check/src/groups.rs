//! The grammar in which a text names what is in a crate:
//!
//! ```text
//! `CRATE` definitions `a`, `b` at `Case`, contract `c`; laws `d` (`field`, `field`), `e` of proofs/File.antt; edit `f` of `CRATE`
//! ```
//!
//! A crate before a word of a kind holds for what follows, until another is named; `of` a crate holds for the names just before it.
use crate::document::{Is, Token};
use crate::index::is_name;

/// The words that say of what kind the names behind them are, each as the kind and as the plural.
const KINDS: [(&str, &str); 11] = [
    ("case", "cases"),
    ("claim", "claims"),
    ("contract", "contracts"),
    ("definition", "definitions"),
    ("edit", "edits"),
    ("enum", "enums"),
    ("field", "fields"),
    ("figure", "figures"),
    ("law", "laws"),
    ("program", "programs"),
    ("struct", "structs"),
];

#[derive(Clone, Debug, PartialEq)]
pub enum Place {
    Crate(String),
    /// a crate, and a file of it
    File(String, String),
    /// any crate will do
    Anywhere,
    /// there should be a crate, and none is named
    Unnamed,
}

/// A name of a kind that is said to be somewhere. The kind is one of the above, "name" (any of them) or "crate".
#[derive(Debug, PartialEq)]
pub struct Mention {
    pub line: usize,
    pub kind: &'static str,
    pub name: String,
    pub place: Place,
}

struct Parser<'a> {
    tokens: &'a [Token],
    is_crate: &'a dyn Fn(&str) -> bool,
    cell: bool,
    current: Option<String>,
    found: Vec<Mention>,
}

/// What a block names. In a table a crate has to be named; a paragraph may speak of "the law `x`" wherever it is.
pub fn mentions(tokens: &[Token], cell: bool, is_crate: &dyn Fn(&str) -> bool) -> Vec<Mention> {
    let mut parser = Parser { tokens, is_crate, cell, current: None, found: Vec::new() };
    parser.run(0, tokens.len());
    parser.found
}

/// The crate of a path `crates/NAME/..`.
fn crate_of_path(path: &str) -> Option<&str> {
    path.strip_prefix("crates/")?.split('/').next()
}

impl<'a> Parser<'a> {
    fn tick(&self, at: usize) -> Option<&'a str> {
        match &self.tokens.get(at)?.is {
            Is::Tick(text) => Some(text),
            _ => None,
        }
    }

    fn name(&self, at: usize) -> Option<&'a str> {
        self.tick(at).filter(|t| is_name(t))
    }

    fn word(&self, at: usize) -> &'a str {
        match self.tokens.get(at).map(|t| &t.is) {
            Some(Is::Word(word)) => word,
            _ => "",
        }
    }

    fn mark(&self, at: usize, mark: char) -> bool {
        self.tokens.get(at).is_some_and(|t| t.is == Is::Mark(mark))
    }

    fn kind(&self, at: usize) -> Option<&'static str> {
        let word = self.word(at).to_lowercase();
        KINDS.iter().find(|(one, many)| word == *one || word == *many).map(|(one, _)| *one)
    }

    /// A name right before a word of a kind: a crate, or what stands where a crate should.
    fn heads(&self, at: usize) -> Option<&'a str> {
        let fits = |name: &&str| self.kind(at + 1).is_some() && ((self.is_crate)(name) || self.name(at + 2).is_some());
        self.name(at).filter(fits)
    }

    fn mention(&self, at: usize, kind: &'static str, place: Place) -> Mention {
        Mention { line: self.tokens[at].line, kind, name: self.name(at).unwrap_or_default().into(), place }
    }

    fn run(&mut self, mut at: usize, end: usize) {
        while at < end {
            if let Some(head) = self.heads(at) {
                self.found.push(self.mention(at, "crate", Place::Anywhere));
                self.current = Some(head.into());
                at += 1;
            } else if let (Some(kind), Some(_)) = (self.kind(at), self.name(at + 1)) {
                at = self.list(kind, at + 1);
            } else if self.name(at).is_some() {
                at = self.list("name", at);
            } else {
                at += 1;
            }
        }
    }

    /// A list of names of one kind, from the first one on; what follows it is returned.
    fn list(&mut self, kind: &'static str, mut at: usize) -> usize {
        // the names of which it is not told yet where they are
        let mut open: Vec<Mention> = Vec::new();
        let usual = match &self.current {
            _ if kind == "program" => Place::Anywhere,
            Some(name) => Place::Crate(name.clone()),
            None if self.cell => Place::Unnamed,
            None => Place::Anywhere,
        };
        loop {
            open.push(self.mention(at, kind, usual.clone()));
            at += 1;
            while let Some(next) = self.addition(kind, at, &mut open) {
                at = next;
            }
            match self.next_name(at) {
                Some(next) if self.heads(next).is_none() => at = next,
                _ => break,
            }
        }
        // a name without a kind is looked up only where a crate or a file is told
        if kind != "name" {
            self.found.append(&mut open);
        }
        at
    }

    /// What may follow a name of a list: something in brackets, `at` a case, or `of` a crate or a file.
    fn addition(&mut self, kind: &'static str, at: usize, open: &mut Vec<Mention>) -> Option<usize> {
        match self.word(at) {
            "at" if self.name(at + 1).is_some() => Some(self.cases(at + 1)),
            "of" | "in" => self.owner(kind, at, open),
            _ if self.mark(at, '(') => self.bracket(kind, at, open),
            _ => None,
        }
    }

    /// The place of the next name of a list, behind a comma, `and` or `or`.
    fn next_name(&self, at: usize) -> Option<usize> {
        let comma = at + usize::from(self.mark(at, ','));
        let next = comma + usize::from(["and", "or"].contains(&self.word(comma)));
        self.name(next).filter(|_| next > at).map(|_| next)
    }

    /// The cases at which a definition is meant, which can be those of any crate.
    fn cases(&mut self, mut at: usize) -> usize {
        self.found.push(self.mention(at, "case", Place::Anywhere));
        while self.word(at + 1) == "and" && self.name(at + 2).is_some() {
            at += 2;
            self.found.push(self.mention(at, "case", Place::Anywhere));
        }
        at + 1
    }

    /// Brackets after a name: its fields if there are names alone in them, else a text of its own.
    fn bracket(&mut self, kind: &'static str, at: usize, open: &mut Vec<Mention>) -> Option<usize> {
        let mut depth = 0;
        let close = (at..self.tokens.len()).find(|n| {
            depth += i32::from(self.mark(*n, '(')) - i32::from(self.mark(*n, ')'));
            depth == 0
        })?;
        let mut fields = vec![at + 1];
        while let Some(next) = self.next_name(fields[fields.len() - 1] + 1) {
            fields.push(next);
        }
        if self.name(at + 1).is_some() && fields[fields.len() - 1] + 1 == close {
            // the record that a law gives is defined among the laws
            let kind = if ["law", "name"].contains(&kind) { kind } else { "field" };
            let place = open.last().map_or(Place::Anywhere, |m| m.place.clone());
            open.extend(fields.iter().map(|n| self.mention(*n, kind, place.clone())));
        } else {
            let current = self.current.clone();
            self.run(at + 1, close);
            self.current = current;
        }
        Some(close + 1)
    }

    /// The crate or path at a place, as the name of the crate.
    fn crate_at(&self, at: usize) -> Option<&'a str> {
        let tick = self.tick(at)?;
        crate_of_path(tick).or(Some(tick)).filter(|name| (self.is_crate)(name))
    }

    /// `of` or `in`: crates for all names that have none yet, or a file of the crate for the last of them.
    fn owner(&mut self, kind: &'static str, mut at: usize, open: &mut Vec<Mention>) -> Option<usize> {
        let file = self.tick(at + 1).unwrap_or(self.word(at + 1));
        if let (Some(current), true) = (&self.current, file.ends_with(".antt") && !file.starts_with("crates/")) {
            let place = Place::File(current.clone(), file.into());
            self.found.extend(open.pop().map(|m| Mention { place, ..m }));
            return Some(at + 2);
        }
        let mut owners = Vec::new();
        // `of` one crate `and` another, `and of` another
        while let Some(owner) = self.crate_at(at + 1) {
            owners.push(owner);
            at += 2;
            let of = at + usize::from(self.word(at + 1) == "of");
            if self.word(at) != "and" || self.crate_at(of + 1).is_none() {
                break;
            }
            at = of;
        }
        if owners.is_empty() {
            // where a kind is told, what the names are `of` has to be a crate
            self.name(at + 1).filter(|_| kind != "name" && self.word(at) == "of")?;
            self.found.push(self.mention(at + 1, "crate", Place::Anywhere));
            open.clear();
            return Some(at + 2);
        }
        for m in open.drain(..) {
            let at_owner = |o: &&str| Mention { name: m.name.clone(), place: Place::Crate(o.to_string()), ..m };
            self.found.extend(owners.iter().map(at_owner));
        }
        Some(at)
    }
}

#[cfg(test)]
mod tests {
    use super::*;
    use crate::document::tokens;

    /// What a cell says, as "kind name place" with a comma between; the crates are `ore`, `tin` and `zinc`.
    fn said(text: &str, cell: bool) -> String {
        let is_crate = |name: &str| ["ore", "tin", "zinc"].contains(&name);
        let shown = |m: Mention| match m.place {
            Place::Crate(owner) => format!("{} {} {owner}", m.kind, m.name),
            Place::File(owner, file) => format!("{} {} {owner}/{file}", m.kind, m.name),
            place => format!("{} {} {place:?}", m.kind, m.name),
        };
        let found =
            mentions(&tokens(text, 1), cell, &is_crate).into_iter().filter(|m| m.kind != "crate" || !is_crate(&m.name));
        found.map(shown).collect::<Vec<_>>().join(", ")
    }

    #[test]
    fn a_crate_holds_until_another_is_named() {
        let text = "`ore` definitions `aa`, `bb`, contract `cc`; in a request: `tin` law `dd`; edit `ee`";
        assert_eq!(said(text, true), "definition aa ore, definition bb ore, contract cc ore, law dd tin, edit ee tin");
        assert_eq!(said("`ore` definitions `aa`, `tin` definition `bb`", true), "definition aa ore, definition bb tin");
        assert_eq!(said("`ore` definitions as in S-3; edits `ee`", true), "edit ee ore");
    }

    #[test]
    fn of_a_crate_holds_for_the_names_before_it() {
        let text = "`ore` contract `cc`; edits `aa`, `bb` of `tin`, `dd` of `zinc`, `ee`; law `ff`";
        let all = "contract cc ore, edit aa tin, edit bb tin, edit dd zinc, edit ee ore, law ff ore";
        assert_eq!(said(text, true), all);
        assert_eq!(said("the laws `kept-..` of `ore` and `tin`", true), "law kept-.. ore, law kept-.. tin");
        assert_eq!(said("over `aa` and `bb` of `ore`, and `cc`", true), "name aa ore, name bb ore");
        assert_eq!(said("`aa` in `crates/tin/specs/`", false), "name aa tin");
    }

    #[test]
    fn brackets_hold_fields_or_a_text() {
        let text = "`ore` laws `aa` (`bb`, `cc`), `dd`; claim `ee` (`ff`)";
        assert_eq!(said(text, true), "law aa ore, law bb ore, law cc ore, law dd ore, claim ee ore, field ff ore");
        let text = "`ore` definitions `aa` (the answer is `Done`, by `tin` law `xx`), `bb`";
        assert_eq!(said(text, true), "law xx tin, definition aa ore, definition bb ore");
    }

    #[test]
    fn cases_and_files() {
        let text = "`ore` definitions `aa` at `Xx` and `Yy`, `bb`, contract `cc`, `dd` of proofs/Dd.antt (5 cases)";
        let all = "case Xx Anywhere, case Yy Anywhere, definition aa ore, definition bb ore, contract dd ore/proofs/Dd.antt, contract cc ore";
        assert_eq!(said(text, true), all);
    }

    #[test]
    fn a_crate_has_to_be_named_in_a_table() {
        assert_eq!(said("as F-1; edit `aa`; program `pp`", true), "edit aa Unnamed, program pp Anywhere");
        assert_eq!(said("The law `aa` says that `bb` holds", false), "law aa Anywhere");
        assert_eq!(said("`gold` law `aa`", true), "crate gold Anywhere, law aa gold");
        assert_eq!(said("`ore` edit `aa` of `gold`", true), "crate gold Anywhere");
    }
}
