//! The top of a crop by a walk of the lines of the bounds, told from the bytes of the sheet, of S_CROP and of G_CROP. It says
//! the same as the model, in another way: so the model's arithmetic is tested too, and it is known what was asked for.

use crate::model::bytes::{signed, word};

/// Where the top that a crop was made of lies.
#[derive(Clone, Copy, Debug, PartialEq)]
pub enum Top {
    /// No S_CROP since the opening: the default's, an even or an odd number of lines below that of the bounds.
    DefaultEven,
    DefaultOdd,
    AboveBounds,
    Even,
    Odd,
    /// Too far down: the last at which the crop lies inside is an even or an odd number of lines below.
    PastEven,
    PastOdd,
}

pub const TOPS: [(Top, &str); 7] = [
    (Top::DefaultEven, "default, even"),
    (Top::DefaultOdd, "default, odd"),
    (Top::AboveBounds, "above the bounds"),
    (Top::Even, "even"),
    (Top::Odd, "odd"),
    (Top::PastEven, "past an even last"),
    (Top::PastOdd, "past an odd last"),
];

/// The lines of the bounds, and the top that the present crop was made of.
#[derive(Clone, Copy, Default)]
pub struct Lines {
    first: i32,
    count: i32,
    asked: i32,
    /// Whether an S_CROP asked for it, not the default.
    set: bool,
}

impl Lines {
    /// Those of a good sheet, after its opening.
    pub fn of(sheet: &[u8]) -> Lines {
        let geometry = word(sheet, 16) as usize;
        let [first, count, asked] = [32, 40, 48].map(|at| signed(sheet, geometry + at));
        Lines { first, count, asked, set: false }
    }

    /// An S_CROP was accepted.
    pub fn set(&mut self, argument: &[u8]) {
        (self.asked, self.set) = (signed(argument, 8), true);
    }

    /// The last place at which a crop of this height lies inside.
    fn last(&self, height: i32) -> i32 {
        self.first + self.count - height
    }

    /// Of the places inside, the nearest to the one asked for; of those an even number of lines below the bounds' top, the last
    /// up to there.
    pub fn walk(&self, height: i32) -> i32 {
        let inside = self.first..=self.last(height);
        let nearest = inside.min_by_key(|place| place.abs_diff(self.asked)).expect("a crop lies inside its bounds");
        (self.first..=nearest).step_by(2).last().expect("the bounds' own top is one of them")
    }

    pub fn place(&self, height: i32) -> Top {
        let last = self.last(height);
        let even = |place: i32| (place.abs_diff(self.first)).is_multiple_of(2);
        match self.asked {
            top if !self.set => {
                if even(top) {
                    Top::DefaultEven
                } else {
                    Top::DefaultOdd
                }
            }
            top if top < self.first => Top::AboveBounds,
            top if top > last => {
                if even(last) {
                    Top::PastEven
                } else {
                    Top::PastOdd
                }
            }
            top => {
                if even(top) {
                    Top::Even
                } else {
                    Top::Odd
                }
            }
        }
    }
}
