//! How old a run grows past all calls, and what became of the arrivals that are added to it.

use crate::model::RUN_LIMIT;
use crate::random::Random;
use crate::session::Age;

/// How many numbers there are: after so many arrivals they go back to 0.
const TURN: u64 = 1 << 32;

/// A run that has accepted `now` comes to a count from which a few arrivals lead past an edge.
pub fn age(random: &mut Random, kind: u32, now: u64) -> Age {
    let accepted = count(random);
    let lost = lost(random, accepted.saturating_sub(now));
    let damaged = random.pick(&[0, lost / 2, lost]);
    Age { kind, accepted, damaged, dropped: lost - damaged }
}

/// At most a few below a count at which the numbers go back to 0, most often the first one, or below the limit.
fn count(random: &mut Random) -> u64 {
    let edge = match random.below(8) {
        0..=2 => TURN,
        3 => TURN * random.pick(&[2, 3, 256, 1 << 20, (1 << 31) - 1]),
        _ => RUN_LIMIT,
    };
    edge - random.pick(&[0, 1, 1, 2, 2, 3, 4, 6])
}

/// How many of these were damaged or dropped: mostly none, else a few, any number, or so many that a verdict by reduced counts
/// would be wrong.
fn lost(random: &mut Random, all: u64) -> u64 {
    let turns = all / TURN;
    let whole_turns = if turns == 0 { all } else { TURN * (1 + random.draw() % turns) };
    match random.below(8) {
        0..=3 => 0,
        4 => all.min(random.between(1, 3) as u64),
        5 => random.draw() % (all + 1),
        // Reduced, none was lost; or none was handed over.
        6 => whole_turns,
        _ => all - whole_turns,
    }
}
