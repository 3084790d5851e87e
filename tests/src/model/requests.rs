//! The eighteen requests. Each checks type, then memory, then index or id, then the rest, and only then writes.

use super::buffers::{Place, Stream, MOST};
use super::bytes::{put, put_signed, signed, word};
use super::control::{self, BUTTON};
use super::crop::Rectangle;
use super::format::Picture;
use super::numbers::{refuse, Outcome, EAGAIN, EBUSY, EFAULT, EINVAL, ENOTTY};
use super::services::{Lines, OFFERED};
use super::words::*;
use super::Opened;
use crate::recorder::{CAPTIONS, PICTURES};

/// The argument as an array, if it is as long as the word says.
#[inline]
fn sized<const N: usize>(argument: &mut [u8]) -> Result<&mut [u8; N], u32> {
    argument.try_into().map_err(|_| EFAULT)
}

/// The type at this place must be 1, video capture, where a call is about pictures alone.
#[inline]
fn check_type(argument: &[u8], at: usize) -> Outcome {
    refuse(word(argument, at) != PICTURES, EINVAL)
}

/// The kind of memory at this place must be 1, mapped.
#[inline]
fn check_memory(argument: &[u8], at: usize) -> Outcome {
    refuse(word(argument, at) != 1, EINVAL)
}

/// The index of a buffer that exists.
#[inline]
fn buffer(stream: &Stream, argument: &[u8; 68]) -> Result<usize, u32> {
    let index = word(argument, 0) as usize;
    refuse(index >= stream.granted, EINVAL)?;
    Ok(index)
}

impl Opened {
    pub fn request(&mut self, word: u32, argument: &mut [u8]) -> Outcome {
        match word {
            QUERYCAP => self.querycap(sized(argument)?),
            ENUM_FMT => self.enum_fmt(sized(argument)?),
            G_FMT => self.g_fmt(sized(argument)?),
            S_FMT => self.s_fmt(sized(argument)?),
            TRY_FMT => self.try_fmt(sized(argument)?),
            REQBUFS => self.reqbufs(sized(argument)?),
            QUERYBUF => self.querybuf(sized(argument)?),
            QBUF => self.qbuf(sized(argument)?),
            DQBUF => self.dqbuf(sized(argument)?),
            STREAMON => self.streamon(sized(argument)?),
            STREAMOFF => self.streamoff(sized(argument)?),
            G_CTRL => self.g_ctrl(sized(argument)?),
            S_CTRL => self.s_ctrl(sized(argument)?),
            QUERYCTRL => self.queryctrl(sized(argument)?),
            CROPCAP => self.cropcap(sized(argument)?),
            G_CROP => self.g_crop(sized(argument)?),
            S_CROP => self.s_crop(sized(argument)?),
            G_SLICED_VBI_CAP => g_sliced_vbi_cap(sized(argument)?),
            _ => Err(ENOTTY),
        }
    }

    fn querycap(&self, argument: &mut [u8; 104]) -> Outcome {
        let identity = &self.sheet.identity;
        argument[0..16].copy_from_slice(&identity.driver);
        argument[16..48].copy_from_slice(&identity.card);
        argument[48..80].copy_from_slice(&identity.bus);
        put(argument, 80, identity.version);
        put(argument, 84, 0x0400_0041);
        argument[88..].fill(0);
        Ok(())
    }

    fn enum_fmt(&self, argument: &mut [u8; 64]) -> Outcome {
        check_type(argument, 4)?;
        let index = word(argument, 0) as usize;
        let format = self.sheet.formats.get(index).ok_or(EINVAL)?;
        // The index and the type stay as they were asked.
        put(argument, 8, 0);
        argument[12..44].copy_from_slice(&format.description);
        put(argument, 44, format.code);
        argument[48..].fill(0);
        Ok(())
    }

    /// The stream that the type at this place names.
    #[inline]
    fn named(&mut self, argument: &[u8], at: usize) -> Result<&mut Stream, u32> {
        self.stream_mut(word(argument, at)).ok_or(EINVAL)
    }

    fn g_fmt(&self, argument: &mut [u8; 204]) -> Outcome {
        match word(argument, 0) {
            PICTURES => self.picture.answer(argument),
            CAPTIONS => self.lines.answer(argument),
            _ => return Err(EINVAL),
        }
        Ok(())
    }

    fn try_fmt(&self, argument: &mut [u8; 204]) -> Outcome {
        match word(argument, 0) {
            PICTURES => Picture::nearest(&self.sheet, argument).answer(argument),
            CAPTIONS => Lines::negotiated(argument).answer(argument),
            _ => return Err(EINVAL),
        }
        Ok(())
    }

    /// The format of a stream cannot change while that stream has buffers.
    fn s_fmt(&mut self, argument: &mut [u8; 204]) -> Outcome {
        let stream = self.named(argument, 0)?;
        refuse(stream.granted > 0, EBUSY)?;
        if stream.kind == PICTURES {
            self.picture = Picture::nearest(&self.sheet, argument);
            self.pictures.frame_size = self.picture.image_size;
            self.picture.answer(argument);
        } else {
            self.lines = Lines::negotiated(argument);
            self.captions.frame_size = self.lines.io_size();
            self.lines.answer(argument);
        }
        Ok(())
    }

    /// Grants the least of the count, 32, and what the memory holds. A count of 0 also stops a run. While a buffer of the stream is
    /// mapped, no count is granted and no run is stopped.
    fn reqbufs(&mut self, argument: &mut [u8; 20]) -> Outcome {
        let stream = self.named(argument, 4)?;
        check_memory(argument, 8)?;
        refuse(stream.is_mapped(), EBUSY)?;
        let count = word(argument, 0);
        refuse(count > 0 && stream.streaming, EBUSY)?;
        let granted = stream.fitting().min(count as u64).min(MOST as u64);
        stream.grant(granted as usize);
        put(argument, 0, granted as u32);
        argument[12..].fill(0);
        Ok(())
    }

    fn querybuf(&self, argument: &mut [u8; 68]) -> Outcome {
        let stream = self.stream(word(argument, 4)).ok_or(EINVAL)?;
        let index = buffer(stream, argument)?;
        stream.describe(index, argument);
        Ok(())
    }

    /// Only a dequeued buffer can be queued; it becomes the youngest incoming one.
    fn qbuf(&mut self, argument: &mut [u8; 68]) -> Outcome {
        let stream = self.named(argument, 4)?;
        check_memory(argument, 48)?;
        let index = buffer(stream, argument)?;
        refuse(!matches!(stream.places[index], Place::Dequeued), EINVAL)?;
        stream.places[index] = Place::Incoming;
        stream.incoming.put(index);
        stream.describe(index, argument);
        Ok(())
    }

    /// Hands over the oldest outgoing buffer. In a run an attempt that finds none is to be made again, and is not counted;
    /// outside of one there is nothing to wait for.
    fn dqbuf(&mut self, argument: &mut [u8; 68]) -> Outcome {
        let stream = self.named(argument, 4)?;
        check_memory(argument, 48)?;
        refuse(stream.granted == 0 || !stream.streaming, EINVAL)?;
        let index = stream.outgoing.take().ok_or(EAGAIN)?;
        let frame = match stream.places[index] {
            Place::Outgoing(frame) => Some(frame),
            _ => None,
        };
        stream.places[index] = Place::Dequeued;
        stream.run.handed_over += 1;
        stream.answer(index, 0, frame, argument);
        Ok(())
    }

    fn streamon(&mut self, argument: &[u8; 4]) -> Outcome {
        let stream = self.named(argument, 0)?;
        refuse(stream.granted == 0, EINVAL)?;
        stream.start();
        Ok(())
    }

    /// Stops, streaming or not, with buffers or without.
    fn streamoff(&mut self, argument: &[u8; 4]) -> Outcome {
        self.named(argument, 0)?.stop();
        Ok(())
    }

    fn g_ctrl(&self, argument: &mut [u8; 8]) -> Outcome {
        let place = control::find(&self.sheet.controls, word(argument, 0)).ok_or(EINVAL)?;
        self.sheet.controls[place].may_get()?;
        put_signed(argument, 4, self.values[place]);
        Ok(())
    }

    /// Keeps and answers the nearest grid value; a button keeps nothing and leaves the argument.
    fn s_ctrl(&mut self, argument: &mut [u8; 8]) -> Outcome {
        let place = control::find(&self.sheet.controls, word(argument, 0)).ok_or(EINVAL)?;
        let control = &self.sheet.controls[place];
        let value = signed(argument, 4);
        control.may_set(value)?;
        if control.kind != BUTTON {
            self.values[place] = control.nearest(value);
            put_signed(argument, 4, self.values[place]);
        }
        Ok(())
    }

    /// The answer is the sheet's record, whose id has bit 31 clear.
    fn queryctrl(&self, argument: &mut [u8; 68]) -> Outcome {
        let control = control::query(&self.sheet.controls, word(argument, 0)).ok_or(EINVAL)?;
        *argument = control.record;
        Ok(())
    }

    fn cropcap(&self, argument: &mut [u8; 44]) -> Outcome {
        check_type(argument, 0)?;
        self.sheet.bounds.write(argument, 4);
        self.sheet.default.write(argument, 20);
        put(argument, 36, self.sheet.aspect[0]);
        put(argument, 40, self.sheet.aspect[1]);
        Ok(())
    }

    fn g_crop(&self, argument: &mut [u8; 20]) -> Outcome {
        check_type(argument, 0)?;
        self.crop.write(argument, 4);
        Ok(())
    }

    /// Write-only: what was kept is seen by G_CROP.
    fn s_crop(&mut self, argument: &[u8; 20]) -> Outcome {
        check_type(argument, 0)?;
        self.crop = Rectangle::read(argument, 4).taken(&self.sheet.bounds);
        Ok(())
    }
}

/// What is offered is the same for every device: the type, 6 alone, stays as it was asked.
fn g_sliced_vbi_cap(argument: &mut [u8; 116]) -> Outcome {
    refuse(word(argument, 100) != CAPTIONS, EINVAL)?;
    OFFERED.write(argument, 0);
    argument[104..].fill(0);
    Ok(())
}
