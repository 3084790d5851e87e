//! What the calls of the packing were like: which flaws came, how many lines, of which services, on which bits.

use super::judge::{all, places, Judged, Said};
use super::Way;
use std::fmt;

const WAYS: [(Way, &str); 2] = [(Way::Write, "written"), (Way::Read, "read")];

const SERVICES: [(u32, &str); 4] =
    [(0x0001, "Teletext B"), (0x0400, "VPS"), (0x1000, "Caption 525"), (0x4000, "WSS 625")];

/// Of one way. The services and the bits are those of accepted calls.
#[derive(Clone)]
struct Counts {
    judged: Vec<u64>,
    services: [u64; 4],
    bits: [u64; 36],
}

#[derive(Clone)]
pub struct Seen {
    pub calls: u64,
    ways: [Counts; 2],
}

impl Default for Seen {
    fn default() -> Seen {
        let counts = |(way, _)| Counts { judged: vec![0; all(way).count()], services: [0; 4], bits: [0; 36] };
        Seen { calls: 0, ways: WAYS.map(counts) }
    }
}

impl Seen {
    pub fn call(&mut self, way: Way, judged: Judged) {
        self.calls += 1;
        for ((known, _), count) in all(way).zip(&mut self.ways[way as usize].judged) {
            *count += u64::from(known == judged);
        }
    }

    /// The lines of an accepted call.
    pub fn said(&mut self, way: Way, lines: &[Said]) {
        let counts = &mut self.ways[way as usize];
        for (field, line, id, _) in lines {
            for ((known, _), count) in SERVICES.iter().zip(&mut counts.services) {
                *count += u64::from(known == id);
            }
            counts.bits[(18 * field + line - 6) as usize] += 1;
        }
    }

    /// The counts that have names of their own, by way.
    fn lists(&self) -> Vec<(String, Vec<(&'static str, u64)>)> {
        let mut lists = Vec::new();
        for ((way, name), counts) in WAYS.into_iter().zip(&self.ways) {
            let judged = all(way).map(|(_, name)| name).zip(counts.judged.iter().copied());
            let services = SERVICES.iter().map(|(_, name)| *name).zip(counts.services);
            lists.push((format!("packing, {name}"), judged.collect()));
            lists.push((format!("packing, services {name}"), services.collect()));
        }
        lists
    }

    /// What should have been seen and was not.
    pub fn missing(&self) -> Vec<String> {
        let mut missing = Vec::new();
        for (list, counts) in self.lists() {
            for (name, _) in counts.into_iter().filter(|(_, count)| *count == 0) {
                missing.push(format!("{list}: {name} was never seen"));
            }
        }
        for ((_, name), counts) in WAYS.into_iter().zip(&self.ways) {
            for ((field, line), _) in places().zip(counts.bits).filter(|(_, count)| *count == 0) {
                missing.push(format!("line {line} of field {field} was never {name}"));
            }
        }
        missing
    }
}

impl fmt::Display for Seen {
    fn fmt(&self, f: &mut fmt::Formatter) -> fmt::Result {
        for (list, counts) in self.lists() {
            write!(f, "{list}:")?;
            for (name, count) in counts {
                write!(f, "  {name} {count}")?;
            }
            writeln!(f)?;
        }
        let least = self.ways.each_ref().map(|counts| counts.bits.into_iter().min().unwrap_or(0));
        write!(f, "packing, each of the 36 lines:  {} times written  {} times read, or more", least[0], least[1])
    }
}
