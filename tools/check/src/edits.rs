//! Whether each must-fail edit fits its crate: the file is there, and has the text that is replaced exactly once. rt says so too, but only
//! when the gate comes to the edit.
use crate::index;
use std::fs;
use std::path::Path;

/// What does not fit in one edit; `read` gives a file of its crate. Replacements are made one after the other.
fn misfit(edit: &str, read: impl Fn(&str) -> Option<String>) -> Option<String> {
    let mut file = String::new();
    let mut text = None;
    let mut old = "";
    for line in edit.lines() {
        if let Some(name) = line.strip_prefix("file: ") {
            file = name.to_string();
            text = read(name);
            if text.is_none() {
                return Some(format!("there is no {name}"));
            }
        } else if let Some(rest) = line.strip_prefix("old: ") {
            old = rest;
        } else if let Some(rest) = line.strip_prefix("new:") {
            let found = text.as_ref().map_or(0, |text| text.matches(old).count());
            if old.is_empty() || found != 1 {
                return Some(format!("{file} has {found} times: {old}"));
            }
            text = text.map(|text| text.replacen(old, rest.strip_prefix(' ').unwrap_or(rest), 1));
        }
    }
    (old.is_empty()).then(|| "it replaces nothing".into())
}

/// How many edits there are, and a line for each that does not fit.
pub fn check(root: &Path) -> (usize, Vec<String>) {
    let mut count = 0;
    let mut faults = Vec::new();
    for folder in index::list(&root.join("crates")) {
        for path in index::list(&folder.join("must-fail")) {
            count += 1;
            let edit = fs::read_to_string(&path).unwrap_or_default();
            if let Some(fault) = misfit(&edit, |name| fs::read_to_string(folder.join(name)).ok()) {
                faults.push(format!("{}: {fault}", path.strip_prefix(root).unwrap_or(&path).display()));
            }
        }
    }
    (count, faults)
}

#[cfg(test)]
mod tests {
    use super::misfit;

    fn said(edit: &str) -> String {
        misfit(edit, |name| (name == "src/lib.rt").then(|| "one two two three".into())).unwrap_or_default()
    }

    #[test]
    fn an_edit_fits_where_its_text_is_found_once() {
        assert_eq!(said("file: src/lib.rt\nold: one\nnew: four"), "");
        assert_eq!(said("file: src/lib.rt\nold: one\nnew:"), "");
        assert_eq!(said("file: src/lib.rt\nold: two\nnew: four"), "src/lib.rt has 2 times: two");
        assert_eq!(said("file: src/lib.rt\nold: five\nnew: four"), "src/lib.rt has 0 times: five");
        assert_eq!(said("file: src/main.rt\nold: one\nnew: four"), "there is no src/main.rt");
        assert_eq!(said("file: src/lib.rt"), "it replaces nothing");
    }

    #[test]
    fn a_second_replacement_sees_the_first() {
        assert_eq!(said("file: src/lib.rt\nold: one\nnew: six\nold: six\nnew: one"), "");
        assert_eq!(said("file: src/lib.rt\nold: one\nnew: six\nold: one\nnew: six"), "src/lib.rt has 0 times: one");
    }
}
