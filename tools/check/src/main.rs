//! Checks that what the documents of the repository name is where they say, and that the must-fail edits fit their files: `names DIRECTORY`.
//! A line for each fault, or one line if there is none.
mod check;
mod document;
mod edits;
mod groups;
mod index;

use check::Checker;
use index::Index;
use std::path::Path;
use std::process::ExitCode;
use std::{env, fs, io};

const CLAIMS: &str = "docs/CLAIMS.md";
const README: &str = "README.md";
const NEEDED: [&str; 4] = ["docs/TRACEABILITY.md", CLAIMS, "docs/DECISIONS.md", README];
const FURTHER: [&str; 5] =
    ["docs/ARCHITECTURE.md", "docs/GATE.md", "tools/README.md", "tests/README.md", "bench/README.md"];

/// The documents, by their paths in the repository.
fn documents(root: &Path) -> Vec<String> {
    let landings =
        index::list(&root.join("docs/landings")).into_iter().filter(|p| p.extension().is_some_and(|e| e == "md"));
    let further = FURTHER.iter().filter(|p| root.join(p).exists());
    let mut out: Vec<String> = NEEDED.iter().chain(further).map(|p| p.to_string()).collect();
    out.extend(landings.map(|p| format!("docs/landings/{}", index::file_name(&p))));
    out
}

fn run(root: &Path) -> io::Result<bool> {
    let index = Index::read(root)?;
    let mut checker = Checker { index: &index, faults: Vec::new(), names: 0 };
    let documents = documents(root);
    for path in &documents {
        let text = fs::read_to_string(root.join(path)).map_err(|e| io::Error::new(e.kind(), format!("{path}: {e}")))?;
        checker.document(path, &text);
        match path.as_str() {
            CLAIMS => checker.quotes(path, &text),
            README => checker.crate_table(path, &text),
            _ => {}
        }
    }
    let (edits, misfits) = edits::check(root);
    for fault in checker.faults.iter().chain(&misfits) {
        println!("{fault}");
    }
    let right = checker.faults.is_empty() && misfits.is_empty();
    if right {
        let (names, documents) = (checker.names, documents.len());
        println!(
            "names: {names} names in {documents} documents, all where the text says; {edits} edits, all of which fit"
        );
    }
    Ok(right)
}

fn main() -> ExitCode {
    let root = env::args().nth(1).unwrap_or(".".into());
    match run(Path::new(&root)) {
        Ok(true) => ExitCode::SUCCESS,
        Ok(false) => ExitCode::FAILURE,
        Err(error) => {
            println!("names: {error}");
            ExitCode::FAILURE
        }
    }
}
