//! What a call of a detector takes and answers, as `mizgaure.h` lays it out.
use crate::fault::whole;

/// An entry above the diagonal.
#[repr(C)]
#[derive(Clone, Copy, Debug, Default, PartialEq, Eq)]
pub struct Tap {
    pub re: i16,
    pub im: i16,
}

/// A received sample.
#[repr(C)]
#[derive(Clone, Copy, Debug, Default, PartialEq, Eq)]
pub struct Sample {
    pub re: i32,
    pub im: i32,
}

/// A point of a constellation.
#[repr(C)]
#[derive(Clone, Copy, Debug, Default, PartialEq, Eq)]
pub struct Point {
    pub i: i8,
    pub q: i8,
}

/// The triangular channel R of a subcarrier: the diagonal r11 r22 .. and the entries above it, row by row. With N_SS streams the first
/// N_SS of the diagonal count, and the first N_SS * (N_SS - 1) / 2 entries: r12; then r12 r13 r23; then r12 r13 r14 r23 r24 r34.
#[repr(C)]
#[derive(Clone, Copy, Debug, Default, PartialEq, Eq)]
pub struct Channel {
    pub diagonal: [u16; 4],
    pub above: [Tap; 6],
}

/// What was received on the rows of R. The first N_SS count.
#[repr(C)]
#[derive(Clone, Copy, Debug, Default, PartialEq, Eq)]
pub struct Received {
    pub samples: [Sample; 4],
}

/// What was found for a subcarrier: the point x of each stream, zeros behind them, and the squared distance |y - R x|^2 in two words.
/// Nothing is scaled: without noise y is R x, at distance 0.
#[repr(C)]
#[derive(Clone, Copy, Debug, Default, PartialEq, Eq)]
pub struct Hit {
    pub points: [Point; 4],
    pub low: u64,
    pub high: u64,
}

impl Hit {
    /// The squared distance, below 2^66.
    pub fn distance(&self) -> u128 {
        whole(self.low, self.high)
    }
}

/// A sum of squared distances in two words.
#[repr(C)]
#[derive(Clone, Copy, Debug, Default, PartialEq, Eq)]
pub struct Distance {
    pub low: u64,
    pub high: u64,
}

impl Distance {
    /// The sum as one number.
    pub fn whole(&self) -> u128 {
        whole(self.low, self.high)
    }
}
