//! A stream: its buffers, the two queues, and the run that fills them. Pictures and captions have one each.

use super::bytes::{put, put_signed};
use super::numbers::{refuse, Outcome, EFAULT, EINVAL, EOVERFLOW};
use super::{plain, refused, RUN_LIMIT};
use crate::recorder::{Arrived, BLANK, COMPLETE, DAMAGED, DROPPED, GAPS, IGNORED, RUNNING, STORED};

pub const MOST: usize = 32;

/// A buffer can be mapped this often at once and no more.
pub const MOST_MAPS: u8 = 255;

/// The flag of a buffer that is mapped.
pub const MAPPED: u32 = 1;

/// Indices in the order in which they came, at most 32 of them.
#[derive(Clone, Copy, Default)]
pub struct Queue {
    items: [u8; MOST],
    first: usize,
    count: usize,
}

impl Queue {
    pub fn len(&self) -> usize {
        self.count
    }

    pub fn is_empty(&self) -> bool {
        self.count == 0
    }

    /// Puts an index last. A buffer is in at most one queue, so there is always room.
    #[inline]
    pub fn put(&mut self, index: usize) {
        self.items[(self.first + self.count) % MOST] = index as u8;
        self.count += 1;
    }

    /// Takes the first index out.
    #[inline]
    pub fn take(&mut self) -> Option<usize> {
        if self.count == 0 {
            return None;
        }
        let index = self.items[self.first];
        self.first = (self.first + 1) % MOST;
        self.count -= 1;
        Some(index as usize)
    }

    /// All indices, the oldest first.
    pub fn indices(&self) -> impl Iterator<Item = usize> + '_ {
        (0..self.count).map(|place| self.items[(self.first + place) % MOST] as usize)
    }
}

/// The frame that an outgoing buffer holds.
#[derive(Clone, Copy)]
pub struct Frame {
    pub number: u32,
    pub used: u32,
    pub seconds: i32,
    pub microseconds: i32,
}

/// Where a buffer is: in exactly one of these.
#[derive(Clone, Copy, Default)]
pub enum Place {
    #[default]
    Dequeued,
    Incoming,
    Outgoing(Frame),
}

/// The last run, or the present one while streaming.
#[derive(Clone, Copy, Default)]
pub struct Run {
    pub accepted: u64,
    pub handed_over: u64,
}

/// The number of an arrival before which the run accepted so many: it has 32 bits, and the count goes on.
#[inline]
fn number_after(accepted: u64) -> u32 {
    (accepted % (1 << 32)) as u32
}

pub struct Stream {
    /// The buffer type that names it.
    pub kind: u32,
    /// The length of its memory, as told at opening.
    pub memory_length: u64,
    /// The bytes that its longest frame has: the image size, or the io size.
    pub frame_size: u32,
    pub streaming: bool,
    pub run: Run,
    pub granted: usize,
    pub places: [Place; MOST],
    /// How often each buffer is mapped.
    pub maps: [u8; MOST],
    pub incoming: Queue,
    pub outgoing: Queue,
}

impl Stream {
    /// No buffers, and no run so far.
    pub fn new(kind: u32, memory_length: u64, frame_size: u32) -> Stream {
        Stream {
            kind,
            memory_length,
            frame_size,
            streaming: false,
            run: Run::default(),
            granted: 0,
            places: [Place::Dequeued; MOST],
            maps: [0; MOST],
            incoming: Queue::default(),
            outgoing: Queue::default(),
        }
    }

    /// A buffer takes the frame size, rounded up to 4,096.
    #[inline]
    pub fn slot(&self) -> u64 {
        (self.frame_size as u64 + 4095) & !4095
    }

    /// How many buffers the memory holds; none if there is nothing to hold.
    #[inline]
    pub fn fitting(&self) -> u64 {
        self.memory_length.checked_div(self.slot()).unwrap_or(0)
    }

    /// Ends the run, if there is one, and empties both queues. The buffers stay, all dequeued.
    pub fn stop(&mut self) {
        self.streaming = false;
        self.incoming = Queue::default();
        self.outgoing = Queue::default();
        self.places = [Place::Dequeued; MOST];
    }

    /// Begins a run; one that is under way goes on.
    pub fn start(&mut self) {
        if !self.streaming {
            self.streaming = true;
            self.run = Run::default();
        }
    }

    /// The buffer whose slot this is: all of it, and nothing more.
    #[inline]
    fn buffer_at(&self, offset: u32, length: u32) -> Option<usize> {
        let (offset, slot) = (u64::from(offset), self.slot());
        if slot == 0 || u64::from(length) != slot || offset % slot != 0 {
            return None;
        }
        let index = (offset / slot) as usize;
        (index < self.granted).then_some(index)
    }

    /// A client has one more map of a buffer.
    #[inline]
    pub fn map(&mut self, offset: u32, length: u32) -> Outcome {
        let index = self.buffer_at(offset, length).ok_or(EINVAL)?;
        refuse(self.maps[index] == MOST_MAPS, EOVERFLOW)?;
        self.maps[index] += 1;
        Ok(())
    }

    /// A client has one map fewer.
    #[inline]
    pub fn unmap(&mut self, offset: u32, length: u32) -> Outcome {
        let index = self.buffer_at(offset, length).ok_or(EINVAL)?;
        refuse(self.maps[index] == 0, EINVAL)?;
        self.maps[index] -= 1;
        Ok(())
    }

    /// Some buffer is mapped: no buffer may be given away.
    #[inline]
    pub fn is_mapped(&self) -> bool {
        self.maps != [0; MOST]
    }

    /// Replaces the buffers, of which none is mapped, by this many new ones, all dequeued.
    pub fn grant(&mut self, count: usize) {
        self.stop();
        self.granted = count;
    }

    /// Of the last run: BLANK if nothing was handed over, COMPLETE if everything was, else GAPS.
    pub fn verdict(&self) -> u32 {
        if self.streaming {
            RUNNING
        } else if self.run.handed_over == 0 {
            BLANK
        } else if self.run.handed_over == self.run.accepted {
            COMPLETE
        } else {
            GAPS
        }
    }

    /// What QUERYBUF and QBUF say of a buffer.
    #[inline]
    pub fn describe(&self, index: usize, argument: &mut [u8; 68]) {
        match self.places[index] {
            Place::Dequeued => self.answer(index, 0, None, argument),
            Place::Incoming => self.answer(index, 2, None, argument),
            Place::Outgoing(frame) => self.answer(index, 4, Some(frame), argument),
        }
    }

    /// The 68 bytes about a buffer. The flags also tell whether it is mapped; bytes used, time and number stand there only if it
    /// holds a frame.
    #[inline]
    pub fn answer(&self, index: usize, flags: u32, frame: Option<Frame>, argument: &mut [u8; 68]) {
        *argument = [0; 68];
        put(argument, 0, index as u32);
        put(argument, 4, self.kind);
        put(argument, 12, if self.maps[index] > 0 { flags | MAPPED } else { flags });
        put(argument, 16, 1);
        if let Some(frame) = frame {
            put(argument, 8, frame.used);
            put_signed(argument, 20, frame.seconds);
            put_signed(argument, 24, frame.microseconds);
            put(argument, 44, frame.number);
        }
        put(argument, 48, 1);
        put(argument, 52, (index as u64 * self.slot()) as u32);
        put(argument, 56, self.slot() as u32);
    }

    /// A frame arrives. Whether its bytes are whole, `is_whole` says; its microseconds must be part of a second.
    #[inline]
    pub fn arrival(
        &mut self,
        memory: &mut [u8],
        frame: &[u8],
        (seconds, microseconds): (i32, i32),
        is_whole: impl FnOnce(&[u8]) -> bool,
    ) -> Arrived {
        if memory.len() as u64 != self.memory_length {
            return refused(EFAULT);
        }
        if !self.streaming {
            return plain(IGNORED);
        }
        if self.run.accepted >= RUN_LIMIT {
            return refused(EOVERFLOW);
        }
        // Every arrival of the run takes a number, damaged and dropped ones too.
        let number = number_after(self.run.accepted);
        self.run.accepted += 1;
        if !(0..=999_999).contains(&microseconds) || !is_whole(frame) {
            return plain(DAMAGED);
        }
        let Some(index) = self.incoming.take() else {
            return plain(DROPPED);
        };
        // Only as many bytes are written as the frame has: a frame of lines may be shorter than the frame size.
        let start = index * self.slot() as usize;
        memory[start..start + frame.len()].copy_from_slice(frame);
        let used = frame.len() as u32;
        self.places[index] = Place::Outgoing(Frame { number, used, seconds, microseconds });
        self.outgoing.put(index);
        Arrived { answer: STORED, number, buffer: index as u32 }
    }
}
