//! Where the coded bits of a symbol stand among its labels, and what the decoded bits of a frame come to.
use crate::capturing::{Head, bits_of};
use crate::decoding::{Kept, period};

/// Where a coded bit of a symbol stands: the label, and how many of its bits stand behind it.
#[derive(Clone, Copy)]
pub struct Spot {
    pub label: u16,
    pub shift: u8,
    pub lost: bool,
}

/// How the frames of a rate are coded.
pub struct Chain {
    /// The places of a symbol's coded bits, for each encoder.
    pub spots: Vec<Vec<Spot>>,
    /// The bits of a label.
    pub bits: u32,
    /// The labels of a symbol.
    pub labels: usize,
    pub period: &'static [Kept],
}

impl Chain {
    pub fn of(head: &Head) -> Chain {
        let labels = if head.wide { 108 } else { 52 } * head.streams();
        Chain { spots: table(head), bits: bits_of(head.mcs % 8).0, labels, period: period(pattern(head.mcs)).unwrap() }
    }

    /// The steps of each codeword of a frame of a number of octets.
    pub fn steps(&self, length: u16) -> usize {
        (8 * usize::from(length) + 16) / self.spots.len() + 6
    }

    /// The coded bits that are kept of a codeword.
    pub fn kept(&self, steps: usize) -> usize {
        let kept_of = |kept: &Kept| if *kept == Kept::Both { 2 } else { 1 };
        let of_all: usize = self.period.iter().map(kept_of).sum();
        steps / self.period.len() * of_all + self.period[..steps % self.period.len()].iter().map(kept_of).sum::<usize>()
    }
}

pub fn encoders(head: &Head) -> usize {
    if head.wide && matches!(head.mcs, 21 | 22 | 23 | 28..=31) { 2 } else { 1 }
}

pub fn pattern(mcs: u8) -> &'static str {
    match bits_of(mcs % 8) {
        (_, 1, 2) => "half",
        (_, 2, 3) => "two_thirds",
        (_, 3, 4) => "three_quarters",
        _ => "five_sixths",
    }
}

/// The places of a symbol's coded bits, for each encoder.
fn table(head: &Head) -> Vec<Vec<Spot>> {
    let (bits, ..) = bits_of(head.mcs % 8);
    let bits = bits as usize;
    let streams = head.streams();
    let encoders = encoders(head);
    let (carriers, columns, rows, rotation) = if head.wide { (108, 18, 6 * bits, 29) } else { (52, 13, 4 * bits, 11) };
    let coded = carriers * bits;
    let s = (bits / 2).max(1);
    let data: Vec<u8> = (0..head.carriers()).filter(|carrier| head.pilot_of(*carrier).is_none()).collect();
    let mut spots = vec![vec![Spot { label: 0, shift: 0, lost: false }; coded * streams / encoders]; encoders];
    for stream in 0..streams {
        for k in 0..coded {
            let encoder = k / s % encoders;
            let bit = stream * s + streams * s * (k / (encoders * s)) + k % s;
            let i = rows * (k % columns) + k / columns;
            let j = s * (i / s) + (i + coded - columns * i / coded) % s;
            let turned = (2 * stream % 3 + 3 * (stream / 3)) * rotation * bits;
            let r = (j + 4 * coded - turned) % coded;
            let lost = head.erased >> data[r / bits] & 1 == 1;
            spots[encoder][bit] = Spot { label: (r / bits * streams + stream) as u16, shift: (bits - 1 - r % bits) as u8, lost };
        }
    }
    spots
}

/// The same without what is erased: the label of each coded bit, and how many of its bits stand behind it.
pub fn places(head: &Head) -> Vec<Vec<(u16, u8)>> {
    table(head).iter().map(|spots| spots.iter().map(|spot| (spot.label, spot.shift)).collect()).collect()
}

/// Appends what the bits of a frame come to, which are descrambled in place.
pub fn push_outcome(text: &mut Vec<u8>, bits: &mut [bool]) {
    if bits[..7].iter().all(|bit| !bit) {
        text.extend_from_slice(b" seed zero\n");
        return;
    }
    let mut state = bits[..7].iter().fold(0u8, |state, bit| state << 1 | u8::from(*bit));
    for bit in &mut bits[7..] {
        let next = (state >> 6 ^ state >> 3) & 1;
        state = (state << 1 | next) & 0x7f;
        *bit ^= next == 1;
    }
    text.extend_from_slice(b" octets ");
    for octet in bits[16..].chunks_exact(8) {
        let value = octet.iter().rev().fold(0u8, |value, bit| value << 1 | u8::from(*bit));
        text.extend([value >> 4, value & 15].map(|half| b"0123456789abcdef"[usize::from(half)]));
    }
    text.push(b'\n');
}
