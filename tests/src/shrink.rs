//! Makes a session that shows a difference as short and as plain as it can be while it still shows one.

use crate::model::services::RECORD;
use crate::runner::Difference;
use crate::session::{Age, Arrival, Frame, Session, Step};

/// No more than this many sessions are tried.
const TRIES: usize = 30_000;

struct Shrinker<F> {
    fails: F,
    best: Session,
    difference: Difference,
    tries: usize,
}

/// The shortest failing session found, and its difference. `fails` runs a session and says how it differs.
pub fn shrink<F>(session: &Session, difference: Difference, fails: F) -> (Session, Difference)
where
    F: FnMut(&Session) -> Option<Difference>,
{
    let mut shrinker = Shrinker { fails, best: session.clone(), difference, tries: 0 };
    shrinker.cut_tail();
    loop {
        let removed = shrinker.remove_steps();
        let simpler = shrinker.simplify_steps();
        if !removed && !simpler {
            break;
        }
    }
    (shrinker.best, shrinker.difference)
}

impl<F: FnMut(&Session) -> Option<Difference>> Shrinker<F> {
    /// Keeps a candidate if it fails too.
    fn consider(&mut self, candidate: Session) -> bool {
        if self.tries >= TRIES {
            return false;
        }
        self.tries += 1;
        match (self.fails)(&candidate) {
            Some(difference) => {
                self.best = candidate;
                self.difference = difference;
                self.cut_tail();
                true
            }
            None => false,
        }
    }

    /// Steps after the one that differs have no part in it.
    fn cut_tail(&mut self) {
        self.best.steps.truncate(self.difference.step + 1);
    }

    /// Removes large parts first, then single steps.
    fn remove_steps(&mut self) -> bool {
        let mut shorter = false;
        let mut part = self.best.steps.len().div_ceil(2).max(1);
        loop {
            let mut from = 0;
            while from < self.best.steps.len() {
                let mut candidate = self.best.clone();
                let to = (from + part).min(candidate.steps.len());
                candidate.steps.drain(from..to);
                if self.consider(candidate) {
                    shorter = true;
                } else {
                    from += part;
                }
            }
            if part == 1 {
                return shorter;
            }
            part = part.div_ceil(2);
        }
    }

    fn simplify_steps(&mut self) -> bool {
        let mut simpler = false;
        if self.best.before != 0 {
            simpler |= self.consider(Session { before: 0, ..self.best.clone() });
        }
        let mut place = 0;
        while place < self.best.steps.len() {
            simpler |= match self.best.steps[place] {
                Step::Request { .. } => self.simplify_request(place),
                Step::Arrival(_) => self.simplify_arrival(place) | self.drop_records(place),
                Step::Open { .. } => self.simplify_opening(place),
                Step::Plane { .. } => false,
                Step::Map(_) | Step::Unmap(_) => self.map_less_often(place),
                Step::Age(age) => self.simplify_age(place, age) | self.age_further(place),
            };
            place += 1;
        }
        simpler
    }

    /// Considers the best session with one step changed.
    fn consider_step(&mut self, place: usize, change: impl FnOnce(&mut Step)) -> bool {
        let mut candidate = self.best.clone();
        match candidate.steps.get_mut(place) {
            Some(step) => change(step),
            None => return false,
        }
        self.consider(candidate)
    }

    /// Zeroes the words of an argument, one after the other.
    fn simplify_request(&mut self, place: usize) -> bool {
        let mut simpler = false;
        let length = match &self.best.steps[place] {
            Step::Request { argument, .. } => argument.len(),
            _ => 0,
        };
        for from in (0..length).step_by(4) {
            let to = (from + 4).min(length);
            let zero = match &self.best.steps.get(place) {
                Some(Step::Request { argument, .. }) => argument[from..to].iter().all(|byte| *byte == 0),
                _ => true,
            };
            if !zero {
                simpler |= self.consider_step(place, |step| {
                    if let Step::Request { argument, .. } = step {
                        argument[from..to].fill(0);
                    }
                });
            }
        }
        simpler
    }

    /// Plain times, plain bytes, no bytes.
    fn simplify_arrival(&mut self, place: usize) -> bool {
        let Step::Arrival(now) = self.best.steps[place].clone() else {
            return false;
        };
        let mut simpler = false;
        let mut attempt = |wanted: bool, change: &dyn Fn(&mut Arrival)| {
            if wanted {
                simpler |= self.consider_step(place, |step| {
                    if let Step::Arrival(arrival) = step {
                        change(arrival);
                    }
                });
            }
        };
        attempt(now.seconds != 0, &|arrival| arrival.seconds = 0);
        attempt(now.microseconds != 0, &|arrival| arrival.microseconds = 0);
        attempt(now.frame.seed > 1, &|arrival| arrival.frame.seed = 1);
        attempt(now.frame.length != 0, &|arrival| arrival.frame = Frame::plain(0, arrival.frame.seed));
        simpler
    }

    /// Takes away the records of a frame, one after the other.
    fn drop_records(&mut self, place: usize) -> bool {
        let mut simpler = false;
        let mut at = 0;
        while let Some(Step::Arrival(arrival)) = self.best.steps.get(place) {
            if at >= arrival.frame.heads.len() {
                break;
            }
            let dropped = self.consider_step(place, |step| {
                if let Step::Arrival(Arrival { frame, .. }) = step {
                    frame.heads.remove(at);
                    frame.length = frame.length.saturating_sub(RECORD);
                }
            });
            simpler |= dropped;
            at += usize::from(!dropped);
        }
        simpler
    }

    /// Once, or half as often, or one time less.
    fn map_less_often(&mut self, place: usize) -> bool {
        let mut simpler = false;
        while let Some(Step::Map(now) | Step::Unmap(now)) = self.best.steps.get(place).cloned() {
            let fewer = [1, now.times / 2, now.times - 1].into_iter().filter(|times| (1..now.times).contains(times));
            let mut shorter = fewer.map(|times| {
                self.consider_step(place, |step| {
                    if let Step::Map(mapping) | Step::Unmap(mapping) = step {
                        mapping.times = times;
                    }
                })
            });
            if !shorter.any(|shorter| shorter) {
                break;
            }
            simpler = true;
        }
        simpler
    }

    /// Nothing damaged, nothing dropped.
    fn simplify_age(&mut self, place: usize, age: Age) -> bool {
        let mut simpler = false;
        if age.damaged != 0 {
            simpler |= self.consider_step(place, |step| {
                if let Step::Age(age) = step {
                    age.damaged = 0;
                }
            });
        }
        if age.dropped != 0 {
            simpler |= self.consider_step(place, |step| {
                if let Step::Age(age) = step {
                    age.dropped = 0;
                }
            });
        }
        simpler
    }

    /// As long as it can be: the run comes one arrival further by itself, and the next arrival is left out.
    fn age_further(&mut self, place: usize) -> bool {
        let mut simpler = false;
        while let Some(candidate) = self.one_further(place) {
            if !self.consider(candidate) {
                break;
            }
            simpler = true;
        }
        simpler
    }

    fn one_further(&self, place: usize) -> Option<Session> {
        let mut candidate = self.best.clone();
        let Some(Step::Age(age)) = candidate.steps.get_mut(place) else { return None };
        age.accepted = age.accepted.saturating_add(1);
        let kind = age.kind;
        let arrives = |step: &Step| matches!(step, Step::Arrival(arrival) if arrival.kind == kind);
        let behind = candidate.steps[place..].iter().position(arrives)?;
        candidate.steps.remove(place + behind);
        Some(candidate)
    }

    /// Zeroes the texts of a sheet, and takes away a control at the end.
    fn simplify_opening(&mut self, place: usize) -> bool {
        let mut simpler = false;
        let Step::Open { sheet, .. } = self.best.steps[place].clone() else {
            return false;
        };
        if sheet.len() >= 116 && sheet[32..116].iter().any(|byte| *byte != 0) {
            simpler |= self.consider_step(place, |step| {
                if let Step::Open { sheet, .. } = step {
                    sheet[32..116].fill(0);
                }
            });
        }
        while self.drop_last_control(place) {
            simpler = true;
        }
        simpler
    }

    fn drop_last_control(&mut self, place: usize) -> bool {
        let Some(Step::Open { sheet, .. }) = self.best.steps.get(place) else {
            return false;
        };
        if sheet.len() < 32 + 68 || sheet[28] == 0 || sheet[29..32] != [0; 3] {
            return false;
        }
        self.consider_step(place, |step| {
            if let Step::Open { sheet, .. } = step {
                sheet[28] -= 1;
                sheet.truncate(sheet.len() - 68);
            }
        })
    }
}
