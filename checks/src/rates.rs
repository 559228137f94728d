//! The tables of the standard that the checks need: rates, subcarriers, constellations and pilots.

/// A point: I and Q.
pub type Point = (i8, i8);

/// A bandwidth and an MCS.
#[derive(Clone, Copy, PartialEq, Eq, Debug)]
pub struct Rate {
    /// 40 MHz.
    pub wide: bool,
    pub mcs: u8,
}

/// The pilots' polarity: 1 or -1, by the scrambler's sequence from the state of all ones.
pub(crate) const POLARITY: [i8; 127] = {
    let mut signs = [1; 127];
    let mut state = 0x7f_u8;
    let mut at = 0;
    while at < signs.len() {
        let next = (state >> 6 ^ state >> 3) & 1;
        state = (state << 1 | next) & 0x7f;
        if next == 1 {
            signs[at] = -1;
        }
        at += 1;
    }
    signs
};

/// The levels of 64-QAM; those of smaller constellations are in the middle.
pub(crate) const LEVELS: [i8; 8] = [-7, -5, -3, -1, 1, 3, 5, 7];

impl Rate {
    pub fn of(bandwidth: u8, mcs: u8) -> Self {
        Rate { wide: bandwidth == 1, mcs }
    }

    /// One of the 64.
    pub fn numbered(number: usize) -> Self {
        Rate { wide: number / 32 % 2 == 1, mcs: (number % 32) as u8 }
    }

    pub fn streams(self) -> usize {
        usize::from(self.mcs / 8) + 1
    }

    fn way(self) -> usize {
        usize::from(self.mcs % 8)
    }

    /// The bits of a label.
    pub fn bits(self) -> usize {
        [1, 2, 2, 4, 4, 6, 6, 6][self.way()]
    }

    fn encoders(self) -> u32 {
        if self.wide && [21, 22, 23, 28, 29, 30, 31].contains(&self.mcs) { 2 } else { 1 }
    }

    /// The number of symbols of a frame of a number of octets.
    pub fn symbols(self, length: u16) -> u32 {
        let of_a_stream =
            if self.wide { [54, 108, 162, 216, 324, 432, 486, 540] } else { [26, 52, 78, 104, 156, 208, 234, 260] };
        let bits = 16 + 8 * u32::from(length) + 6 * self.encoders();
        bits.div_ceil(of_a_stream[self.way()] * self.streams() as u32)
    }

    pub fn carriers(self) -> usize {
        if self.wide { 114 } else { 56 }
    }

    /// The subcarriers of the pilots.
    pub fn pilots(self) -> &'static [usize] {
        if self.wide { &[5, 33, 47, 66, 80, 108] } else { &[7, 21, 34, 48] }
    }

    /// The number of the pilot on a subcarrier, or none where it carries data.
    pub fn pilot_on(self, carrier: usize) -> Option<usize> {
        self.pilots().iter().position(|pilot| *pilot == carrier)
    }

    /// The value of a pilot of a symbol on a stream, counted from 0.
    pub fn pilot(self, symbol: u32, pilot: usize, stream: usize) -> Point {
        let sign = POLARITY[(symbol as usize + 3) % 127];
        let is_turned = (symbol as usize + pilot + stream + 1).is_multiple_of(self.pilots().len());
        (if is_turned { -sign } else { sign }, 0)
    }

    /// The levels of I, ascending.
    pub fn levels(self) -> &'static [i8] {
        match self.bits() {
            1 | 2 => &LEVELS[3..5],
            4 => &LEVELS[2..6],
            _ => &LEVELS,
        }
    }

    /// The constellation, ordered by I and then Q.
    pub fn constellation(self) -> Vec<Point> {
        let of_q = if self.bits() == 1 { &[0] } else { self.levels() };
        self.levels().iter().flat_map(|i| of_q.iter().map(|q| (*i, *q))).collect()
    }

    /// How many vectors the grid of a data subcarrier has.
    pub fn vectors(self) -> u64 {
        1 << (self.bits() * self.streams())
    }

    /// The octets of a triangle.
    pub fn triangle(self) -> usize {
        2 * self.streams() * self.streams()
    }
}

#[cfg(test)]
mod tests {
    use super::*;

    #[test]
    fn tables() {
        assert_eq!(Rate::of(0, 0).symbols(100), 32);
        assert_eq!(Rate::of(1, 31).symbols(65535), 243);
        let signs: Vec<_> = (0..2).flat_map(|n| (0..4).map(move |k| Rate::of(0, 0).pilot(n, k, 0).0)).collect();
        assert_eq!(signs, [1, 1, 1, -1, -1, -1, 1, -1]);
        // Round the end of the polarity's sequence.
        let wide = Rate::of(1, 31);
        let values =
            [(123, 0, 0), (123, 2, 0), (123, 5, 3), (124, 5, 2), (124, 5, 3)].map(|(n, k, s)| wide.pilot(n, k, s).0);
        assert_eq!(values, [-1, 1, 1, -1, 1]);
        assert_eq!(Rate::of(0, 3).constellation().len(), 16);
        assert_eq!(Rate::of(0, 0).constellation(), [(-1, 0), (1, 0)]);
    }
}
