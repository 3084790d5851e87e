//! Rules that the model and the generators keep by themselves.

use tollgutter_tests::draft::Draft;
use tollgutter_tests::generate::{self, damage, sheets};
use tollgutter_tests::model::words::{self, ALL};
use tollgutter_tests::model::{self, Device};
use tollgutter_tests::random::{self, Random};
use tollgutter_tests::recorder::*;
use tollgutter_tests::session::{Age, Step};

/// Every known word has the letter V, and the argument that it names is the one that the model takes.
#[test]
fn words_name_their_sizes() {
    for (word, name) in ALL {
        assert_eq!(word >> 8 & 0xff, 0x56, "{name}");
        let (_, mut device) = model::open(&Draft::bench().bytes(), [0, 0]);
        for length in 0..300 {
            let number = device.request(word, &mut vec![0; length]);
            assert_eq!(number == 14, length != words::size(word), "{name} with {length} bytes");
        }
    }
}

/// Sheets that are drafted as good are taken, at the shortest and the longest length too.
#[test]
fn good_drafts_are_good() {
    let mut random = Random::new(1);
    let mut lengths = Vec::new();
    for _ in 0..3000 {
        for draft in [sheets::small(&mut random), sheets::limits(&mut random)] {
            let bytes = draft.bytes();
            assert_eq!(model::open(&bytes, [0, 0]).0, 0, "{bytes:?}");
            lengths.push(bytes.len());
        }
    }
    assert_eq!(lengths.iter().min(), Some(&220));
    assert_eq!(lengths.iter().max(), Some(&2684));
}

/// Damaged sheets are refused, but for the few whose change hit a free byte.
#[test]
fn damaged_sheets_are_mostly_refused() {
    let mut random = Random::new(2);
    let refused = (0..5000).filter(|_| model::open(&damage::damaged(&mut random), [0, 0]).0 == 22).count();
    assert!(refused > 4000, "{refused}");
}

/// Each of the two memories may have 2^30 bytes and no more.
#[test]
fn memory_has_a_limit() {
    let sheet = Draft::bench().bytes();
    let most = 1 << 30;
    for (lengths, number) in [
        ([most, most], 0),
        ([most + 1, most], 22),
        ([most, most + 1], 22),
        ([0, u64::MAX], 22),
        ([u64::MAX, 0], 22),
        ([0, 0], 0),
    ] {
        assert_eq!(model::open(&sheet, lengths).0, number, "{lengths:?}");
    }
}

/// A refused or write-only request leaves the argument of the model as it was.
#[test]
fn refusals_leave_the_argument() {
    let mut device = Device::closed();
    for index in 0..2000 {
        for step in generate::session(random::mix(index)).steps {
            match step {
                Step::Open { sheet, lengths } => _ = device.open(&sheet, lengths),
                Step::Request { word, argument } => {
                    let mut lent = argument.clone();
                    let number = Recorder::request(&mut device, word, &mut lent);
                    assert!(number == 0 && word >> 30 != 1 || lent == argument);
                }
                _ => {}
            }
        }
    }
}

/// What is added to a run brings it to the count that is told and no further, whatever it had before.
#[test]
fn an_old_run_has_the_count_that_is_told() {
    let counts = [0, 1, 5, 1 << 32, model::RUN_LIMIT - 1, model::RUN_LIMIT];
    for accepted in counts {
        for (damaged, dropped) in counts.into_iter().flat_map(|damaged| counts.map(|dropped| (damaged, dropped))) {
            let age = Age { kind: PICTURES, accepted, damaged, dropped };
            for now in counts {
                let past = age.past(now);
                assert_eq!(now + past.accepted(), accepted.max(now));
                assert!(past.damaged <= damaged && past.dropped <= dropped);
            }
        }
    }
}

/// Sessions make runs of both streams old, up to the limit and not past it, and lose no more arrivals than are added.
#[test]
fn sessions_make_runs_old() {
    let steps = (0..2000).flat_map(|index| generate::session(random::mix(index)).steps);
    let ages: Vec<Age> = steps.filter_map(|step| if let Step::Age(age) = step { Some(age) } else { None }).collect();
    for kind in STREAMS {
        for edge in [1 << 32, model::RUN_LIMIT] {
            let near = |age: &&Age| age.kind == kind && edge - 6 <= age.accepted && age.accepted <= edge;
            assert!(ages.iter().filter(near).count() > 50, "type {kind} about {edge}");
        }
    }
    assert!(ages.iter().all(|age| age.accepted <= model::RUN_LIMIT && age.damaged + age.dropped <= age.accepted));
}

/// After 2^63 - 1 accepted arrivals the run takes no more; the count is set here, since nobody can wait for it.
#[test]
fn a_run_has_a_limit() {
    let refused = Arrived { answer: REFUSED, number: 75, buffer: 0 };
    for (kind, other) in [(PICTURES, CAPTIONS), (CAPTIONS, PICTURES)] {
        let (_, mut device) = model::open(&Draft::bench().bytes(), [1 << 20, 1 << 20]);
        let mut memory = vec![0; 1 << 20];
        for kind in STREAMS {
            let stream = device.opened_mut().and_then(|opened| opened.stream_mut(kind)).expect("a stream of this type");
            stream.grant(1);
            stream.start();
        }
        let stream = device.opened_mut().and_then(|opened| opened.stream_mut(kind)).expect("a stream of this type");
        assert_eq!(model::RUN_LIMIT, 9_223_372_036_854_775_807);
        stream.run.accepted = model::RUN_LIMIT - 1;
        assert_eq!(device.arrival(kind, &mut memory, &[1], 0, 0).answer, DAMAGED);
        assert_eq!(device.arrival(kind, &mut memory, &[1], 0, 0), refused);
        assert_eq!(device.arrival(other, &mut memory, &[1], 0, 0).answer, DAMAGED);
        assert_eq!(device.verdict(kind), RUNNING);
    }
}
