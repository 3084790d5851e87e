//! What the model answers to each step of a session, in words.

use crate::model::Device;
use crate::recorder::{Recorder, STREAMS};
use crate::session::{made_length, Change, Lent, Mapping, Session, Step};
use crate::show;

/// One text for each step: the step, the answer, and the verdicts after it.
pub fn trace(session: &Session) -> Vec<String> {
    let mut device = Device::closed();
    let mut memories = [Vec::new(), Vec::new()];
    let mut texts = Vec::new();
    for step in &session.steps {
        let answer = match step {
            Step::Open { sheet, lengths } => {
                memories = lengths.map(|length| vec![0; made_length(length)]);
                device.open(sheet, *lengths).to_string()
            }
            Step::Request { word, argument } => {
                Recorder::request(&mut device, *word, &mut argument.clone()).to_string()
            }
            Step::Arrival(arrival) => {
                let mut other = match arrival.lent {
                    Lent::Other(length) => vec![0; length],
                    _ => Vec::new(),
                };
                let lent = match arrival.memory() {
                    Some(place) => &mut memories[place],
                    None => &mut other,
                };
                let (frame, time) = (arrival.frame.bytes(), (arrival.seconds, arrival.microseconds));
                format!("{:?}", device.arrival(arrival.kind, lent, &frame, time.0, time.1))
            }
            Step::Map(mapping) => numbers(&mut device, mapping, Change::Map),
            Step::Unmap(mapping) => numbers(&mut device, mapping, Change::Unmap),
            Step::Age(age) => match device.accepted(age.kind) {
                None => "none, since no run is on".into(),
                Some(now) => {
                    device.age(age.kind, age.past(now));
                    format!("none, with {:?} added", age.past(now))
                }
            },
            Step::Plane { frame_length, plane } => format!("{:?}", Recorder::plane(&device, *frame_length, *plane)),
        };
        let [pictures, captions] = STREAMS.map(|kind| device.verdict(kind));
        let verdicts = format!("verdict {pictures} on pictures and {captions} on captions");
        texts.push(format!("{}\n        answer {answer}, then {verdicts}", show::step(step)));
    }
    texts
}

/// The numbers of one call made many times over, each told once if it comes again right after.
fn numbers(device: &mut Device, mapping: &Mapping, change: Change) -> String {
    let mut numbers: Vec<u32> = (0..mapping.times).map(|_| mapping.once(change, device)).collect();
    numbers.dedup();
    numbers.iter().map(u32::to_string).collect::<Vec<_>>().join(" and then ")
}
