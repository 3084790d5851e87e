//! Controls: what the sheet says of one, and the value that a wish becomes.

use super::bytes::{signed, word};
use super::numbers::{refuse, Outcome, EBUSY, EINVAL, ERANGE};

pub const INTEGER: u32 = 1;
pub const BOOLEAN: u32 = 2;
pub const MENU: u32 = 3;
pub const BUTTON: u32 = 4;

pub const DISABLED: u32 = 1;
pub const GRABBED: u32 = 2;
pub const READ_ONLY: u32 = 4;

/// Set in the id of QUERYCTRL to ask for the next control.
pub const NEXT: u32 = 0x8000_0000;

/// One control of the sheet, and its record as it stands there.
#[derive(Clone, Copy)]
pub struct Control {
    pub id: u32,
    pub kind: u32,
    pub minimum: i32,
    pub maximum: i32,
    pub step: i32,
    pub initial: i32,
    pub flags: u32,
    pub record: [u8; 68],
}

impl Control {
    pub fn read(record: &[u8; 68]) -> Control {
        Control {
            id: word(record, 0),
            kind: word(record, 4),
            minimum: signed(record, 40),
            maximum: signed(record, 44),
            step: signed(record, 48),
            initial: signed(record, 52),
            flags: word(record, 56),
            record: *record,
        }
    }

    /// A disabled control and a button cannot be read.
    #[inline]
    pub fn may_get(&self) -> Outcome {
        refuse(self.flags & DISABLED != 0 || self.kind == BUTTON, EINVAL)
    }

    /// A control can be set if it is neither disabled nor read-only, then not grabbed, then if the value is in range;
    /// a button has no range.
    #[inline]
    pub fn may_set(&self, value: i32) -> Outcome {
        refuse(self.flags & (DISABLED | READ_ONLY) != 0, EINVAL)?;
        refuse(self.flags & GRABBED != 0, EBUSY)?;
        refuse(self.kind != BUTTON && !(self.minimum..=self.maximum).contains(&value), ERANGE)
    }

    /// The grid value nearest to a value in range, the one nearer the minimum on a tie.
    #[inline]
    pub fn nearest(&self, value: i32) -> i32 {
        let step = self.step as u32;
        let over = value.abs_diff(self.minimum) % step;
        let under = step - over;
        if over <= under {
            value - over as i32
        } else {
            value + under as i32
        }
    }
}

/// The place of the control with this id; ids rise.
#[inline]
pub fn find(controls: &[Control], id: u32) -> Option<usize> {
    controls.binary_search_by_key(&id, |control| control.id).ok()
}

/// The control that QUERYCTRL speaks of: the one with this id, or with bit 31 set the next higher one.
#[inline]
pub fn query(controls: &[Control], id: u32) -> Option<&Control> {
    if id & NEXT == 0 {
        return find(controls, id).map(|place| &controls[place]);
    }
    let place = controls.partition_point(|control| control.id <= id & !NEXT);
    controls.get(place)
}
