//! How often each call gave each number, and which answers and verdicts were seen, for both streams apart.

use crate::judge::{Judged, JUDGED};
use crate::mapped::{Found, Mapped, MAPPED};
use crate::model::bytes::word;
use crate::model::words::{type_at, ALL, DQBUF, QBUF, QUERYBUF, S_FMT, TRY_FMT};
use crate::recorder::{Arrived, CAPTIONS, PICTURES, STREAMS};
use crate::session::Change;
use crate::tops::{Top, TOPS};
use crate::walk::{Asked, ASKED};
use std::fmt;

/// The numbers that can be given back. 75 needs 255 maps of one buffer, or 2^63 - 1 accepted arrivals in one run: these come
/// since some runs are made old.
pub const NUMBERS: [u32; 8] = [0, 11, 14, 16, 22, 25, 34, 75];

const ANSWERS: [&str; 5] = ["refused", "ignored", "damaged", "dropped", "stored"];
const VERDICTS: [&str; 4] = ["RUNNING", "BLANK", "GAPS", "COMPLETE"];
const NAMES: [&str; 2] = ["pictures", "captions"];

/// What is seen of runs that were made old: a number that went back to 0, and the verdicts on their films.
#[derive(Clone, Copy)]
pub enum Aged {
    BackToZero,
    Complete,
    Gaps,
}

const AGED: [&str; 3] = ["back to number 0", "COMPLETE", "GAPS"];

/// The calls that tell the flags of a buffer, and the flags that each can tell.
const FLAGS: [(u32, u32, &str); 10] = [
    (QUERYBUF, 0, "QUERYBUF 0"),
    (QUERYBUF, 1, "QUERYBUF 1"),
    (QUERYBUF, 2, "QUERYBUF 2"),
    (QUERYBUF, 3, "QUERYBUF 3"),
    (QUERYBUF, 4, "QUERYBUF 4"),
    (QUERYBUF, 5, "QUERYBUF 5"),
    (QBUF, 2, "QBUF 2"),
    (QBUF, 3, "QBUF 3"),
    (DQBUF, 0, "DQBUF 0"),
    (DQBUF, 1, "DQBUF 1"),
];

/// The calls that ask for sizes.
const SIZING: [(u32, &str); 2] = [(S_FMT, "S_FMT"), (TRY_FMT, "TRY_FMT")];

/// The numbers that a call can give back with type 1, or with no type in its argument, and with type 6, in the order of
/// the table of words. Any other type is refused.
type Expected = (&'static [u32], &'static [u32]);
const EXPECTED: [Expected; 18] = [
    (&[0, 14, 22], &[]),                  // QUERYCAP
    (&[0, 14, 22], &[14, 22]),            // ENUM_FMT
    (&[0, 14, 22], &[0, 14, 22]),         // G_FMT
    (&[0, 14, 16, 22], &[0, 14, 16, 22]), // S_FMT
    (&[0, 14, 22], &[0, 14, 22]),         // TRY_FMT
    (&[0, 14, 16, 22], &[0, 14, 16, 22]), // REQBUFS
    (&[0, 14, 22], &[0, 14, 22]),         // QUERYBUF
    (&[0, 14, 22], &[0, 14, 22]),         // QBUF
    (&[0, 11, 14, 22], &[0, 11, 14, 22]), // DQBUF
    (&[0, 14, 22], &[0, 14, 22]),         // STREAMON
    (&[0, 14, 22], &[0, 14, 22]),         // STREAMOFF
    (&[0, 14, 22], &[]),                  // G_CTRL
    (&[0, 14, 16, 22, 34], &[]),          // S_CTRL
    (&[0, 14, 22], &[]),                  // QUERYCTRL
    (&[0, 14, 22], &[14, 22]),            // CROPCAP
    (&[0, 14, 22], &[14, 22]),            // G_CROP
    (&[0, 14, 22], &[14, 22]),            // S_CROP
    (&[14, 22], &[0, 14, 22]),            // G_SLICED_VBI_CAP
];

/// Where a DQBUF finds the stream that has nothing wrong in its argument, and the numbers that it can give there.
#[derive(Clone, Copy)]
pub enum Stream {
    Running,
    Stopped,
    NoBuffers,
}

const DEQUEUES: [(&str, &[u32]); 3] = [("DQBUF in run", &[0, 11]), ("- stopped", &[22]), ("- no buffers", &[22])];

type Row = [u64; NUMBERS.len()];

/// What was seen of one stream.
#[derive(Default, Clone)]
struct Seen {
    requests: [Row; 18],
    dequeues: [Row; 3],
    /// Arrivals by the number given back, and by answer.
    arrivals: Row,
    answers: [u64; 5],
    verdicts: [u64; 4],
    aged: [u64; AGED.len()],
    /// Maps and unmaps by the number given back, and what else is seen of them.
    changes: [Row; 2],
    mapped: [u64; MAPPED.len()],
    flags: [u64; FLAGS.len()],
}

#[derive(Default, Clone)]
pub struct Coverage {
    pub calls: u64,
    pub sessions: u64,
    /// Pictures, with the calls that name no type, and captions.
    streams: [Seen; 2],
    /// Requests, arrivals and maps of a type that names no stream, or whose argument ends before the type.
    other_requests: Row,
    other_arrivals: Row,
    other_changes: Row,
    unknown: Row,
    openings: Row,
    planes: Row,
    /// What the caption frames of a run were like.
    judged: [u64; JUDGED.len()],
    /// Where the sizes lay that accepted calls asked for.
    asked: [[u64; ASKED.len()]; SIZING.len()],
    /// Where the tops lay that the crops told by G_CROP were made of.
    tops: [u64; TOPS.len()],
    /// Numbers, answers and verdicts that no rule knows.
    strange: u64,
}

/// The place of the stream that a type names.
fn place(kind: u32) -> Option<usize> {
    STREAMS.iter().position(|known| *known == kind)
}

/// The type that a request names: 1 for a word that has none in its argument, nothing if the argument ends before it.
fn named(request: u32, argument: &[u8]) -> Option<u32> {
    match type_at(request) {
        None => Some(PICTURES),
        Some(at) => (argument.len() >= at + 4).then(|| word(argument, at)),
    }
}

impl Coverage {
    fn count(row: &mut Row, strange: &mut u64, number: u32) {
        match NUMBERS.iter().position(|known| *known == number) {
            Some(column) => row[column] += 1,
            None => *strange += 1,
        }
    }

    pub fn opening(&mut self, number: u32) {
        Coverage::count(&mut self.openings, &mut self.strange, number);
    }

    /// A request with its argument as it was asked, and the number given back.
    pub fn request(&mut self, word: u32, argument: &[u8], number: u32) {
        let known = ALL.iter().position(|(known, _)| *known == word);
        let row = match (known, named(word, argument).and_then(place)) {
            (Some(call), Some(stream)) => &mut self.streams[stream].requests[call],
            (Some(_), None) => &mut self.other_requests,
            (None, _) => &mut self.unknown,
        };
        Coverage::count(row, &mut self.strange, number);
    }

    /// A DQBUF with nothing wrong in its argument.
    pub fn dequeue(&mut self, kind: u32, stream: Stream, number: u32) {
        if let Some(place) = place(kind) {
            Coverage::count(&mut self.streams[place].dequeues[stream as usize], &mut self.strange, number);
        }
    }

    pub fn arrival(&mut self, kind: u32, arrived: Arrived) {
        let number = if arrived.answer == 0 { arrived.number } else { 0 };
        let Some(place) = place(kind) else {
            return Coverage::count(&mut self.other_arrivals, &mut self.strange, number);
        };
        let seen = &mut self.streams[place];
        Coverage::count(&mut seen.arrivals, &mut self.strange, number);
        match seen.answers.get_mut(arrived.answer as usize) {
            Some(count) => *count += 1,
            None => self.strange += 1,
        }
    }

    /// A caption frame that arrived in a run.
    pub fn judged(&mut self, judged: Judged) {
        for ((known, _), count) in JUDGED.iter().zip(&mut self.judged) {
            *count += u64::from(*known == judged);
        }
    }

    /// A size that an accepted S_FMT or TRY_FMT of pictures asked for.
    pub fn asked(&mut self, word: u32, asked: Asked) {
        for ((call, _), counts) in SIZING.iter().zip(&mut self.asked) {
            for ((known, _), count) in ASKED.iter().zip(counts) {
                *count += u64::from(*call == word && *known == asked);
            }
        }
    }

    /// The top that a crop was made of, which an accepted G_CROP tells.
    pub fn top(&mut self, top: Top) {
        for ((known, _), count) in TOPS.iter().zip(&mut self.tops) {
            *count += u64::from(*known == top);
        }
    }

    pub fn plane(&mut self, number: u32) {
        Coverage::count(&mut self.planes, &mut self.strange, number);
    }

    pub fn verdict(&mut self, kind: u32, verdict: u32) {
        let counts = place(kind).map(|place| &mut self.streams[place].verdicts);
        match counts.and_then(|counts| counts.get_mut(verdict as usize)) {
            Some(count) => *count += 1,
            None => self.strange += 1,
        }
    }

    pub fn aged(&mut self, kind: u32, aged: Aged) {
        if let Some(place) = place(kind) {
            self.streams[place].aged[aged as usize] += 1;
        }
    }

    /// A map or unmap, and the number given back.
    pub fn change(&mut self, change: Change, kind: u32, number: u32) {
        let row = match place(kind) {
            Some(place) => &mut self.streams[place].changes[change as usize],
            None => &mut self.other_changes,
        };
        Coverage::count(row, &mut self.strange, number);
    }

    /// The same, and what stood at its place.
    pub fn found(&mut self, change: Change, kind: u32, found: Found, number: u32) {
        self.change(change, kind, number);
        if let Some(mapped) = Mapped::by(change, found) {
            self.mapped(kind, mapped);
        }
    }

    pub fn mapped(&mut self, kind: u32, mapped: Mapped) {
        let Some(place) = place(kind) else { return };
        for ((known, _), count) in MAPPED.iter().zip(&mut self.streams[place].mapped) {
            *count += u64::from(*known == mapped);
        }
    }

    /// The flags that an accepted call tells of a buffer.
    pub fn flags(&mut self, word: u32, kind: u32, flags: u32) {
        let column = FLAGS.iter().position(|(call, known, _)| (*call, *known) == (word, flags));
        match (place(kind), column) {
            (Some(place), Some(column)) => self.streams[place].flags[column] += 1,
            _ => self.strange += 1,
        }
    }

    /// The numbers given back to requests, arrivals and maps, and the answers to arrivals, on one line.
    pub fn in_short(&self) -> String {
        let of_stream = |seen| {
            let Seen { requests, arrivals, changes, .. }: &Seen = seen;
            requests.iter().chain([arrivals]).chain(changes)
        };
        let others = [&self.unknown, &self.other_requests, &self.other_arrivals, &self.other_changes];
        let rows: Vec<&Row> = self.streams.iter().flat_map(of_stream).chain(others).collect();
        let numbers = NUMBERS.iter().enumerate();
        let numbers = numbers.map(|(column, number)| (number.to_string(), rows.iter().map(|row| row[column]).sum()));
        let sums = std::array::from_fn::<u64, 5, _>(|i| self.streams.iter().map(|seen| seen.answers[i]).sum());
        let answers = ANSWERS.iter().map(|name| name.to_string()).zip(sums);
        let texts: Vec<String> =
            numbers.chain(answers).map(|(name, count): (_, u64)| format!("{name}: {count}")).collect();
        texts.join(", ")
    }

    /// All rows with their names, and the numbers that each may have.
    fn rows(&self) -> Vec<(String, &Row, &'static [u32])> {
        let mut rows = Vec::new();
        for ((seen, kind), stream) in self.streams.iter().zip(STREAMS).zip(NAMES) {
            for (call, ((word, name), (pictures, captions))) in ALL.iter().zip(EXPECTED).enumerate() {
                let expected = if kind == PICTURES { pictures } else { captions };
                let name = if kind == CAPTIONS { format!("{name} 6") } else { name.to_string() };
                // A word that names no type is no call of the second stream.
                if kind == PICTURES || type_at(*word).is_some() {
                    rows.push((name, &seen.requests[call], expected));
                }
            }
            for (row, (name, expected)) in seen.dequeues.iter().zip(DEQUEUES) {
                rows.push((name.to_string(), row, expected));
            }
            rows.push((format!("{stream} arrive"), &seen.arrivals, &[0, 14, 22, 75]));
            rows.push((format!("{stream} map"), &seen.changes[Change::Map as usize], &[0, 22, 75]));
            rows.push((format!("{stream} unmap"), &seen.changes[Change::Unmap as usize], &[0, 22]));
        }
        rows.push(("other types".into(), &self.other_requests, &[14, 22]));
        rows.push(("- arrive".into(), &self.other_arrivals, &[22]));
        rows.push(("- map, unmap".into(), &self.other_changes, &[22]));
        rows.push(("unknown word".into(), &self.unknown, &[22, 25]));
        rows.push(("opening".into(), &self.openings, &[0, 22]));
        rows.push(("plane".into(), &self.planes, &[0, 22]));
        rows
    }

    /// The counts that are no numbers given back, by stream and name.
    fn lists(&self) -> Vec<(String, Vec<(&'static str, u64)>)> {
        let mut lists = Vec::new();
        for (seen, stream) in self.streams.iter().zip(NAMES) {
            lists.push((format!("{stream}, arrivals"), ANSWERS.into_iter().zip(seen.answers).collect()));
            lists.push((format!("{stream}, verdicts"), VERDICTS.into_iter().zip(seen.verdicts).collect()));
            lists.push((format!("{stream}, old runs"), AGED.into_iter().zip(seen.aged).collect()));
            let mapped = MAPPED.iter().map(|(_, name)| *name).zip(seen.mapped).collect();
            lists.push((format!("{stream}, maps"), mapped));
            lists.push((format!("{stream}, flags"), FLAGS.iter().map(|(_, _, name)| *name).zip(seen.flags).collect()));
        }
        let judged = JUDGED.iter().map(|(_, name)| *name).zip(self.judged).collect();
        lists.push(("captions, frames of a run".into(), judged));
        for ((_, call), counts) in SIZING.iter().zip(self.asked) {
            lists.push((format!("{call}, sizes asked"), ASKED.iter().map(|(_, name)| *name).zip(counts).collect()));
        }
        lists.push(("G_CROP, tops".into(), TOPS.iter().map(|(_, name)| *name).zip(self.tops).collect()));
        lists
    }

    /// What should have been seen and was not.
    pub fn missing(&self) -> Vec<String> {
        let mut missing = Vec::new();
        for (name, row, expected) in self.rows() {
            for (number, count) in NUMBERS.iter().zip(row) {
                if expected.contains(number) && *count == 0 {
                    missing.push(format!("{name} never gave {number}"));
                }
                if !expected.contains(number) && *count > 0 {
                    missing.push(format!("{name} gave {number}, which no rule allows"));
                }
            }
        }
        for (list, counts) in self.lists() {
            for (name, _) in counts.into_iter().filter(|(_, count)| *count == 0) {
                missing.push(format!("{list}: {name} was never seen"));
            }
        }
        if self.strange > 0 {
            missing.push(format!("{} answers that no rule knows", self.strange));
        }
        missing
    }
}

impl fmt::Display for Coverage {
    fn fmt(&self, f: &mut fmt::Formatter) -> fmt::Result {
        write!(f, "{:<18}", "")?;
        for number in NUMBERS {
            write!(f, "{number:>9}")?;
        }
        for (name, row, _) in self.rows() {
            write!(f, "\n{name:<18}")?;
            for count in row {
                write!(f, "{count:>9}")?;
            }
        }
        for (list, counts) in self.lists() {
            write!(f, "\n{list}:")?;
            for (name, count) in counts {
                write!(f, "  {name} {count}")?;
            }
        }
        Ok(())
    }
}
