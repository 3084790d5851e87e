//! What can be told from the calls alone. For each stream two queues are kept on paper, as the requirements describe them,
//! and every stored frame, every dequeue, refused or not, the verdict and the sum of a run's arrivals are held against them; and
//! for each buffer its maps are counted, against which every map and unmap, the flags, and each request for buffers are held.
//! A stream's paper knows that stream's calls and no others. Nothing here looks into a device, so the model is tested as
//! strictly as the library.

use std::collections::VecDeque;
use tollgutter_tests::ask::ask;
use tollgutter_tests::judge::judge;
use tollgutter_tests::model::bytes::{signed, word};
use tollgutter_tests::model::words::*;
use tollgutter_tests::model::Device;
use tollgutter_tests::recorder::*;
use tollgutter_tests::session::{made_length, Arrival, Change, Lent, Mapping, Step};
use tollgutter_tests::{generate, random};

const SESSIONS: u64 = 3000;

/// A run accepts so many arrivals, and gives them so many numbers.
const LIMIT: u64 = 9_223_372_036_854_775_807;
const NUMBERS: u64 = 4_294_967_296;

/// An arrival that found a buffer.
struct Found {
    index: u32,
    number: u32,
    seconds: i32,
    microseconds: i32,
    frame: Vec<u8>,
}

/// What is told from the calls of one list that are about one stream.
#[derive(Default)]
struct Paper {
    kind: u32,
    /// Whether the last opening was accepted.
    opened: bool,
    /// What the last accepted S_FMT answered, or opening set: 204 bytes, zeros if there are no services.
    format: Vec<u8>,
    incoming: VecDeque<u32>,
    outgoing: VecDeque<Found>,
    streaming: bool,
    buffers: u32,
    /// Accepted maps less accepted unmaps of each buffer, since the buffers were granted.
    maps: Vec<u32>,
    accepted: u64,
    handed_over: u64,
    damaged: u64,
    dropped: u64,
    discarded: u64,
}

impl Paper {
    fn new(kind: u32, opened: bool, format: Vec<u8>) -> Paper {
        Paper { kind, opened, format, ..Paper::default() }
    }

    /// The image size, or the io size.
    fn frame_size(&self) -> usize {
        word(&self.format, if self.kind == PICTURES { 24 } else { 104 }) as usize
    }

    fn stop(&mut self) {
        if self.streaming {
            self.discarded = self.outgoing.len() as u64;
        }
        self.streaming = false;
        self.incoming.clear();
        self.outgoing.clear();
    }

    fn start(&mut self) {
        if !self.streaming {
            self.streaming = true;
            (self.accepted, self.handed_over, self.damaged, self.dropped, self.discarded) = (0, 0, 0, 0, 0);
        }
    }

    /// Arrivals that nobody saw.
    fn age(&mut self, past: Past) {
        self.accepted += past.accepted();
        self.handed_over += past.handed;
        self.damaged += past.damaged;
        self.dropped += past.dropped;
    }

    /// A request about this stream, with its argument before and after.
    fn told(&mut self, request: u32, before: &[u8], number: u32, after: &[u8], memory: &[u8]) {
        match request {
            DQBUF => self.waits(before, number),
            REQBUFS => self.asked(before, number),
            _ => {}
        }
        if number == 0 {
            self.request(request, before, after, memory);
        }
    }

    /// An accepted request, with its argument before and after.
    fn request(&mut self, request: u32, before: &[u8], after: &[u8], memory: &[u8]) {
        match request {
            S_FMT => self.format = after.to_vec(),
            QBUF => self.incoming.push_back(word(before, 0)),
            STREAMON => self.start(),
            STREAMOFF => self.stop(),
            REQBUFS => {
                self.stop();
                self.buffers = word(after, 0);
                self.maps = vec![0; self.buffers as usize];
            }
            DQBUF => self.dequeue(after, memory),
            _ => {}
        }
        if matches!(request, QUERYBUF | QBUF | DQBUF) {
            assert_eq!(word(after, 12), self.flags(word(after, 0)));
        }
        // The answer names the stream that was asked.
        assert!(type_at(request).is_none_or(|at| word(after, at) == self.kind));
    }

    /// What a client may read from the number of a DQBUF: 11 says that a run is on and that there are buffers. Outside a run
    /// every one of the right length gives 22, in a run one with nothing wrong in it gives 0 or 11.
    fn waits(&self, argument: &[u8], number: u32) {
        assert!(number != 11 || self.streaming && self.buffers > 0, "11 while there is nothing to wait for");
        if !self.streaming {
            assert_eq!(number, 22);
        } else if word(argument, 48) == 1 {
            assert!(matches!(number, 0 | 11));
        }
    }

    /// A request for buffers gives 16 while a buffer is mapped, whatever the count, and in a run, unless the count is 0.
    fn asked(&self, argument: &[u8], number: u32) {
        let mapped = self.maps.iter().any(|count| *count > 0);
        let busy = mapped || self.streaming && word(argument, 0) > 0;
        let expected = match busy {
            _ if !self.opened || word(argument, 8) != 1 => 22,
            true => 16,
            false => 0,
        };
        assert_eq!(number, expected);
    }

    /// What is told of a buffer: in which queue it is, and whether it is mapped.
    fn flags(&self, index: u32) -> u32 {
        let incoming = self.incoming.contains(&index);
        let outgoing = self.outgoing.iter().any(|found| found.index == index);
        u32::from(self.maps[index as usize] > 0) + 2 * u32::from(incoming) + 4 * u32::from(outgoing)
    }

    /// The buffer whose slot this is, by the frame size that the stream told and the buffers that it granted.
    fn buffer_at(&self, mapping: &Mapping) -> Option<usize> {
        let slot = self.frame_size().next_multiple_of(4096);
        (0..self.maps.len()).find(|index| (mapping.offset as usize, mapping.length as usize) == (index * slot, slot))
    }

    /// A map or unmap, and the number given back.
    fn changed(&mut self, change: Change, mapping: &Mapping, number: u32) {
        let Some(count) = self.buffer_at(mapping).map(|index| &mut self.maps[index]) else {
            return assert_eq!(number, 22, "no buffer stands there");
        };
        let (expected, after) = match (change, *count) {
            (Change::Map, 255) => (75, 255),
            (Change::Map, before) => (0, before + 1),
            (Change::Unmap, 0) => (22, 0),
            (Change::Unmap, before) => (0, before - 1),
        };
        assert_eq!(number, expected);
        *count = after;
    }

    fn dequeue(&mut self, answer: &[u8], memory: &[u8]) {
        let found = self.outgoing.pop_front().expect("a dequeue with nothing outgoing");
        self.handed_over += 1;
        assert_eq!(word(answer, 0), found.index);
        assert_eq!(word(answer, 44), found.number);
        assert_eq!((signed(answer, 20), signed(answer, 24)), (found.seconds, found.microseconds));
        assert_eq!(word(answer, 8) as usize, found.frame.len());
        let from = word(answer, 52) as usize;
        assert!(memory[from..from + found.frame.len()] == found.frame, "the frame no longer stands in its slot");
    }

    /// An arrival while streaming that was not refused.
    fn arrival(&mut self, one: &Arrival, frame: &[u8], arrived: Arrived) {
        assert!(self.accepted < LIMIT, "accepted past the limit");
        let number = (self.accepted % NUMBERS) as u32;
        self.accepted += 1;
        let whole = match self.kind {
            PICTURES => frame.len() == self.frame_size() && (0..1_000_000).contains(&one.microseconds),
            _ => judge(&self.format, frame, one.microseconds).is_whole(),
        };
        if !whole {
            self.damaged += 1;
            assert_eq!(arrived.answer, DAMAGED);
        } else if let Some(index) = self.incoming.pop_front() {
            assert_eq!(arrived, Arrived { answer: STORED, number, buffer: index });
            let (seconds, microseconds) = (one.seconds, one.microseconds);
            self.outgoing.push_back(Found { index, number, seconds, microseconds, frame: frame.to_vec() });
        } else {
            self.dropped += 1;
            assert_eq!(arrived.answer, DROPPED);
        }
    }

    fn check(&self, verdict: u32) {
        let told = self.handed_over + self.outgoing.len() as u64 + self.damaged + self.dropped + self.discarded;
        assert_eq!(self.accepted, told);
        let expected = match (self.streaming, self.handed_over) {
            (true, _) => RUNNING,
            (false, 0) => BLANK,
            (false, all) if all == self.accepted => COMPLETE,
            _ => GAPS,
        };
        assert_eq!(verdict, expected);
    }
}

/// Only a stored frame writes, and only its own bytes at the start of its slot.
fn check_memory(before: &[u8], after: &[u8], arrived: Arrived, frame: &[u8], frame_size: usize) {
    if arrived.answer != STORED {
        assert!(before == after, "memory changed");
        return;
    }
    let from = arrived.buffer as usize * frame_size.next_multiple_of(4096);
    let to = from + frame.len();
    assert!(before[..from] == after[..from] && after[from..to] == *frame && before[to..] == after[to..]);
}

/// The place of the stream that a request names: nothing if its argument has another length, or names none.
fn place_of(request: u32, argument: &[u8]) -> Option<usize> {
    let at = type_at(request).filter(|_| argument.len() == size(request))?;
    STREAMS.iter().position(|kind| *kind == word(argument, at))
}

fn session<R: Recorder>(device: &mut R, seed: u64) {
    let mut papers = STREAMS.map(|kind| Paper::new(kind, false, vec![0; 204]));
    let mut memories = [Vec::new(), Vec::new()];
    device.scramble(0);
    for step in generate::session(seed).steps {
        match &step {
            Step::Open { sheet, lengths } => {
                let opened = device.open(sheet, *lengths) == 0;
                memories = lengths.map(|length| vec![0; made_length(length)]);
                let format = ask(device, G_FMT, &[(0, PICTURES)]).1;
                papers = [Paper::new(PICTURES, opened, format), Paper::new(CAPTIONS, opened, vec![0; 204])];
            }
            Step::Request { word, argument } => {
                let mut after = argument.clone();
                let number = device.request(*word, &mut after);
                match place_of(*word, argument) {
                    Some(place) => papers[place].told(*word, argument, number, &after, &memories[place]),
                    None => assert!(number > 11 || number == 0 && type_at(*word).is_none(), "no stream is named"),
                }
            }
            Step::Arrival(one) => {
                // Another memory of the right length would stand for the memory itself: left out here.
                if one.lent == Lent::Own {
                    arrival(device, &mut papers, one, &mut memories);
                }
            }
            Step::Plane { .. } => {}
            Step::Map(mapping) => change(device, &mut papers, Change::Map, mapping),
            Step::Unmap(mapping) => change(device, &mut papers, Change::Unmap, mapping),
            Step::Age(age) => {
                for paper in papers.iter_mut().filter(|paper| paper.kind == age.kind && paper.streaming) {
                    let past = age.past(paper.accepted);
                    device.age(age.kind, past);
                    paper.age(past);
                }
            }
        }
        for paper in &papers {
            paper.check(device.verdict(paper.kind));
        }
    }
}

/// Maps or unmaps; a type that names no stream is refused.
fn change<R: Recorder>(device: &mut R, papers: &mut [Paper; 2], change: Change, mapping: &Mapping) {
    for _ in 0..mapping.times {
        let number = mapping.once(change, device);
        match papers.iter_mut().find(|paper| paper.kind == mapping.kind) {
            Some(paper) => paper.changed(change, mapping, number),
            None => assert_eq!(number, 22),
        }
    }
}

fn arrival<R: Recorder>(device: &mut R, papers: &mut [Paper; 2], one: &Arrival, memories: &mut [Vec<u8>; 2]) {
    let frame = one.frame.bytes();
    let Some(place) = STREAMS.iter().position(|kind| *kind == one.kind) else {
        let arrived = device.arrival(one.kind, &mut memories[0], &frame, one.seconds, one.microseconds);
        assert_eq!(arrived, Arrived { answer: REFUSED, number: 22, buffer: 0 });
        return;
    };
    let (paper, memory) = (&mut papers[place], &mut memories[place]);
    let before = memory.clone();
    let arrived = device.arrival(one.kind, memory, &frame, one.seconds, one.microseconds);
    check_memory(&before, memory, arrived, &frame, paper.frame_size());
    match arrived.answer {
        REFUSED if arrived.number == 75 => assert!(paper.streaming && paper.accepted == LIMIT, "75 below the limit"),
        REFUSED => {}
        IGNORED => assert!(!paper.streaming),
        _ => {
            assert!(paper.streaming);
            paper.arrival(one, &frame, arrived);
        }
    }
}

fn histories<R: Recorder>(mut device: R) {
    for index in 0..SESSIONS {
        session(&mut device, random::mix(index));
    }
}

#[test]
fn the_model_agrees_with_the_paper() {
    histories(Device::closed());
}

#[cfg(feature = "library")]
#[test]
fn the_library_agrees_with_the_paper() {
    histories(tollgutter_tests::ffi::Device::zeroed());
}
