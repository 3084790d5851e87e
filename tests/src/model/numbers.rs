//! The numbers given back.

pub const DONE: u32 = 0;
pub const EAGAIN: u32 = 11;
pub const EFAULT: u32 = 14;
pub const EBUSY: u32 = 16;
pub const EINVAL: u32 = 22;
pub const ENOTTY: u32 = 25;
pub const ERANGE: u32 = 34;
pub const EOVERFLOW: u32 = 75;

/// What a call comes to: done, or refused with a number.
pub type Outcome = Result<(), u32>;

#[inline]
pub fn number(outcome: Outcome) -> u32 {
    match outcome {
        Ok(()) => DONE,
        Err(number) => number,
    }
}

/// Refuses with this number if the case is there.
#[inline]
pub fn refuse(case: bool, number: u32) -> Outcome {
    if case {
        Err(number)
    } else {
        Ok(())
    }
}
