//! Independent tests of the capture device: a model written from the requirements, sessions of random calls, a runner
//! that compares two devices step by step, and the shrinking of a session that shows a difference.

pub mod ask;
pub mod coverage;
pub mod draft;
pub mod faulty;
pub mod fields;
pub mod generate;
pub mod guarded;
pub mod judge;
pub mod mapped;
pub mod model;
pub mod packing;
pub mod random;
pub mod recorder;
pub mod runner;
pub mod session;
pub mod show;
pub mod shrink;
pub mod tops;
pub mod trace;
pub mod walk;

#[cfg(feature = "library")]
pub mod anything;
#[cfg(feature = "library")]
pub mod each_word;
#[cfg(feature = "library")]
pub mod ffi;
