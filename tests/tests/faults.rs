//! The runner finds every faulty copy of the model, and shrinks what it found to a few steps.

use tollgutter_tests::coverage::Coverage;
use tollgutter_tests::faulty::{Fault, Faulty, FAULTS};
use tollgutter_tests::model::Device;
use tollgutter_tests::runner::{Difference, Runner};
use tollgutter_tests::session::Session;
use tollgutter_tests::{generate, random, show, shrink};

const MOST_SESSIONS: u64 = 4000;
const MOST_STEPS: usize = 12;

fn difference(session: &Session, fault: Fault) -> Option<Difference> {
    let mut unused = Coverage::default();
    Runner::default().run(session, &mut Device::closed(), &mut Faulty::new(fault), &mut unused).err()
}

/// The first session that shows the fault.
fn find(fault: Fault) -> Option<(u64, Session, Difference)> {
    (0..MOST_SESSIONS).find_map(|index| {
        let session = generate::session(random::mix(index));
        difference(&session, fault).map(|found| (index, session, found))
    })
}

#[test]
fn every_fault_is_found_and_shrunk() {
    for fault in FAULTS {
        let Some((index, session, found)) = find(fault) else { panic!("{fault:?} was not found") };
        let (short, found) = shrink::shrink(&session, found, |candidate| difference(candidate, fault));
        let text = show::report(&short, &found);
        println!("{fault:?}: found in session {index}, {} steps\n{text}\n", short.steps.len());
        assert!(short.steps.len() <= MOST_STEPS, "{fault:?} needs {} steps:\n{text}", short.steps.len());
        assert!(difference(&short, fault).is_some(), "{fault:?}: the shrunk session no longer fails");
        assert!(text.contains("expected"), "{fault:?}: the report says what was expected");
    }
}

/// Without a fault nothing is found, and the sessions reach every answer.
#[test]
fn the_model_equals_itself() {
    let mut coverage = Coverage::default();
    let mut runner = Runner::default();
    let (mut left, mut right) = (Device::closed(), Device::closed());
    for index in 0..MOST_SESSIONS {
        let session = generate::session(random::mix(index));
        let outcome = runner.run(&session, &mut left, &mut right, &mut coverage);
        assert!(outcome.is_ok(), "session {index}: {outcome:?}");
    }
    assert!(coverage.missing().is_empty(), "{:?}", coverage.missing());
}

/// A seed gives the same session every time.
#[test]
fn sessions_can_be_made_again() {
    for index in 0..50 {
        let seed = random::mix(index);
        let text = |session: &Session| session.steps.iter().map(show::step).collect::<Vec<_>>();
        assert_eq!(text(&generate::session(seed)), text(&generate::session(seed)));
    }
}
