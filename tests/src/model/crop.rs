//! Rectangles, and how a wish is brought inside the bounds.

use super::bytes::{put_signed, signed};

#[derive(Clone, Copy)]
pub struct Rectangle {
    pub left: i32,
    pub top: i32,
    pub width: i32,
    pub height: i32,
}

impl Rectangle {
    #[inline]
    pub fn read(bytes: &[u8], at: usize) -> Rectangle {
        Rectangle {
            left: signed(bytes, at),
            top: signed(bytes, at + 4),
            width: signed(bytes, at + 8),
            height: signed(bytes, at + 12),
        }
    }

    #[inline]
    pub fn write(&self, bytes: &mut [u8], at: usize) {
        put_signed(bytes, at, self.left);
        put_signed(bytes, at + 4, self.top);
        put_signed(bytes, at + 8, self.width);
        put_signed(bytes, at + 12, self.height);
    }

    /// What S_CROP makes of this wish.
    #[inline]
    pub fn taken(&self, bounds: &Rectangle) -> Rectangle {
        self.inside(bounds).fields_apart(bounds)
    }

    /// The size comes into 1..bounds first; then the place moves as little as is needed to lie inside.
    #[inline]
    pub fn inside(&self, bounds: &Rectangle) -> Rectangle {
        let width = self.width.clamp(1, bounds.width);
        let height = self.height.clamp(1, bounds.height);
        Rectangle {
            left: self.left.clamp(bounds.left, bounds.left + bounds.width - width),
            top: self.top.clamp(bounds.top, bounds.top + bounds.height - height),
            width,
            height,
        }
    }

    /// Inside the bounds, this moves up by a line if the lines between its top and theirs are odd in number (A4).
    #[inline]
    pub fn fields_apart(self, bounds: &Rectangle) -> Rectangle {
        Rectangle { top: bounds.top + (self.top - bounds.top) / 2 * 2, ..self }
    }

    /// True if all of this lies inside `outer`, whatever the numbers are.
    pub fn lies_inside(&self, outer: &Rectangle) -> bool {
        let fits = |start: i32, size: i32, outer_start: i32, outer_size: i32| {
            start >= outer_start && start as i64 + size as i64 <= outer_start as i64 + outer_size as i64
        };
        fits(self.left, self.width, outer.left, outer.width) && fits(self.top, self.height, outer.top, outer.height)
    }
}
