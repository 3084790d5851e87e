//! A document as blocks of words: the cells of its tables, and its paragraphs. Code blocks are left out.

#[derive(Clone, Debug, PartialEq)]
pub enum Is {
    /// in backticks
    Tick(String),
    Word(String),
    /// a bracket or a sign between words
    Mark(char),
}

#[derive(Clone, Debug)]
pub struct Token {
    pub line: usize,
    pub is: Is,
}

pub struct Block {
    /// a cell of a table, or else a paragraph
    pub cell: bool,
    /// the id of the row
    pub label: Option<String>,
    pub tokens: Vec<Token>,
}

/// A code block of the kind `text`.
pub struct Quote {
    /// the nearest line above it that is not empty, if it is the next or the next but one
    pub above: String,
    /// its parts between blank lines, each with the line where it begins
    pub chunks: Vec<(usize, Vec<String>)>,
}

fn push_word(word: &mut String, line: usize, out: &mut Vec<Token>) {
    let bare = word.trim_end_matches('.');
    if !bare.is_empty() {
        out.push(Token { line, is: Is::Word(bare.into()) });
    }
    if bare.len() < word.len() {
        out.push(Token { line, is: Is::Mark('.') });
    }
    word.clear();
}

pub fn tokens(text: &str, mut line: usize) -> Vec<Token> {
    let (mut out, mut word) = (Vec::new(), String::new());
    let mut chars = text.chars();
    while let Some(c) = chars.next() {
        if c != '`' && !c.is_whitespace() && !"()[],;:".contains(c) {
            word.push(c);
            continue;
        }
        push_word(&mut word, line, &mut out);
        if c == '`' {
            let tick: String = chars.by_ref().take_while(|c| *c != '`').collect();
            out.push(Token { line, is: Is::Tick(tick.replace('\n', " ")) });
            line += tick.matches('\n').count();
        } else if c == '\n' {
            line += 1;
        } else if !c.is_whitespace() {
            out.push(Token { line, is: Is::Mark(c) });
        }
    }
    push_word(&mut word, line, &mut out);
    out
}

/// The cells of a row of a table. A bar in backticks is part of a cell.
fn cells(row: &str) -> Vec<String> {
    let mut out = vec![String::new()];
    let mut in_tick = false;
    for c in row.trim().trim_matches('|').chars() {
        in_tick ^= c == '`';
        match c {
            '|' if !in_tick => out.push(String::new()),
            _ => out.last_mut().expect("never empty").push(c),
        }
    }
    out
}

/// `RW-7`: the id of a row.
fn is_id(text: &str) -> bool {
    text.contains('-')
        && text.ends_with(|c: char| c.is_ascii_digit())
        && text.chars().all(|c| c == '-' || c.is_ascii_alphanumeric())
}

/// Whether a line begins a paragraph whatever stands before it: a heading, or an entry of a list.
fn begins(line: &str) -> bool {
    let bare = line.trim_start();
    let number = bare.trim_start_matches(|c: char| c.is_ascii_digit());
    bare.starts_with("- ") || bare.starts_with('#') || (number.len() < bare.len() && number.starts_with(". "))
}

pub fn blocks(text: &str) -> Vec<Block> {
    let mut out = Vec::new();
    let mut paragraph: Option<(usize, String)> = None;
    let (mut fenced, mut after_blank) = (false, true);
    // an empty line at the end closes the last paragraph
    for (line, n) in text.lines().chain([""]).zip(1..) {
        let fence = line.starts_with("```");
        let indented = line.starts_with("    ") && after_blank;
        let row = line.starts_with('|');
        if fence || fenced || indented || row || line.trim().is_empty() || begins(line) {
            if let Some((start, text)) = paragraph.take() {
                out.push(Block { cell: false, label: None, tokens: tokens(&text, start) });
            }
        }
        fenced ^= fence;
        // a code block by its indentation goes on as it began
        after_blank = line.trim().is_empty() || indented;
        if row && !fenced {
            let cells = cells(line);
            let label = Some(cells[0].trim().to_string()).filter(|id| is_id(id));
            out.extend(cells.iter().map(|c| Block { cell: true, label: label.clone(), tokens: tokens(c, n) }));
        } else if !fence && !fenced && !indented && !line.trim().is_empty() {
            let (_, text) = paragraph.get_or_insert((n, String::new()));
            text.push_str(line);
            text.push('\n');
        }
    }
    out
}

pub fn quotes(text: &str) -> Vec<Quote> {
    let lines: Vec<&str> = text.lines().collect();
    let mut out = Vec::new();
    for start in (0..lines.len()).filter(|n| lines[*n] == "```text") {
        let above = lines[start.saturating_sub(2)..start].iter().rev().find(|l| !l.is_empty());
        let mut chunks: Vec<(usize, Vec<String>)> = Vec::new();
        for n in (start + 1..lines.len()).take_while(|n| lines[*n] != "```").filter(|n| !lines[*n].is_empty()) {
            match chunks.last_mut().filter(|_| n > start + 1 && !lines[n - 1].is_empty()) {
                Some((_, chunk)) => chunk.push(lines[n].into()),
                None => chunks.push((n + 1, vec![lines[n].into()])),
            }
        }
        out.push(Quote { above: above.unwrap_or(&"").to_string(), chunks });
    }
    out
}

/// The targets of the links `[..](target)`, with their lines.
pub fn links(text: &str) -> Vec<(usize, &str)> {
    let of_line = |(line, n)| str::split(line, "](").skip(1).filter_map(move |l: &str| Some((n, l.split_once(')')?.0)));
    text.lines().zip(1..).flat_map(of_line).collect()
}
