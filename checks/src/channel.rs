//! The channel of a subcarrier.
use crate::rates::Point;

/// The channel of a subcarrier, as a capture has it.
pub struct Channel {
    pub diagonal: Vec<i64>,
    /// Row by row, what stands to the right of the diagonal.
    above: Vec<Vec<(i64, i64)>>,
}

impl Channel {
    /// The channel of a number of streams whose triangle the octets are, row by row.
    pub fn of(streams: usize, octets: &[u8]) -> Self {
        let mut numbers = octets.chunks_exact(2).map(|pair| u16::from_be_bytes([pair[0], pair[1]]));
        let mut channel = Channel { diagonal: Vec::new(), above: Vec::new() };
        for row in 0..streams {
            channel.diagonal.push(numbers.next().unwrap().into());
            let mut part = || i64::from(numbers.next().unwrap() as i16);
            channel.above.push((row + 1..streams).map(|_| (part(), part())).collect());
        }
        channel
    }

    /// What is received of points without noise.
    pub fn sent(&self, points: &[Point]) -> Vec<(i64, i64)> {
        let row = |(row, entries): (usize, &Vec<(i64, i64)>)| {
            let scaled = (self.diagonal[row] * i64::from(points[row].0), self.diagonal[row] * i64::from(points[row].1));
            entries.iter().zip(&points[row + 1..]).fold(scaled, |sum, ((re, im), (i, q))| {
                let (i, q) = (i64::from(*i), i64::from(*q));
                (sum.0 + re * i - im * q, sum.1 + im * i + re * q)
            })
        };
        self.above.iter().enumerate().map(row).collect()
    }
}
