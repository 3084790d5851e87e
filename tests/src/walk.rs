//! The nearest size by a walk of all sizes that the sheet allows, told from the bytes of the sheet and of the request. It says
//! the same as the model, in another way: so the model's arithmetic is tested too, and it is known what was asked for.

use crate::model::bytes::word;

/// Where a size that is asked for lies among those that are allowed.
#[derive(Clone, Copy, Debug, PartialEq)]
pub enum Asked {
    BelowLeast,
    Least,
    /// One of those between the least and the greatest.
    Allowed,
    NearerLower,
    HalfWay,
    NearerUpper,
    Greatest,
    AboveGreatest,
}

pub const ASKED: [(Asked, &str); 8] = [
    (Asked::BelowLeast, "below the least"),
    (Asked::Least, "the least"),
    (Asked::Allowed, "allowed"),
    (Asked::NearerLower, "nearer the lower"),
    (Asked::HalfWay, "half way"),
    (Asked::NearerUpper, "nearer the upper"),
    (Asked::Greatest, "the greatest"),
    (Asked::AboveGreatest, "above the greatest"),
];

/// The sizes of one direction, as the sheet has them.
#[derive(Clone, Copy, Default)]
pub struct Grid {
    least: u32,
    greatest: u32,
    step: u32,
}

impl Grid {
    /// Widths and heights of a good sheet.
    pub fn both(sheet: &[u8]) -> [Grid; 2] {
        let geometry = word(sheet, 16) as usize;
        [geometry, geometry + 12].map(|at| Grid {
            least: word(sheet, at),
            greatest: word(sheet, at + 4),
            step: word(sheet, at + 8),
        })
    }

    /// The first of all sizes, from the least up, that none is nearer than.
    pub fn walk(&self, asked: u32) -> u32 {
        let all = (self.least..=self.greatest).step_by(self.step as usize);
        all.min_by_key(|size| size.abs_diff(asked)).expect("a good sheet allows a size")
    }

    pub fn place(&self, asked: u32) -> Asked {
        if asked < self.least {
            return Asked::BelowLeast;
        }
        if asked > self.greatest {
            return Asked::AboveGreatest;
        }
        match 2 * ((asked - self.least) % self.step) {
            _ if asked == self.least => Asked::Least,
            _ if asked == self.greatest => Asked::Greatest,
            0 => Asked::Allowed,
            twice if twice < self.step => Asked::NearerLower,
            twice if twice == self.step => Asked::HalfWay,
            _ => Asked::NearerUpper,
        }
    }
}
