//! Frames of clause 18, and what they come to behind the simulator's channel.
use crate::expected::Words;
use crate::random::Random;
use crate::rates::{LEVELS, POLARITY, Point};
use crate::walking::{Cursor, Fault};

/// A rate: the bits of a label, the data bits of a symbol, and of the steps of one period which of A and B are kept.
struct Rate {
    label: usize,
    data: usize,
    kept: &'static [(bool, bool)],
}

const HALF: &[(bool, bool)] = &[(true, true)];
const TWO_THIRDS: &[(bool, bool)] = &[(true, true), (true, false)];
const THREE_QUARTERS: &[(bool, bool)] = &[(true, true), (true, false), (false, true)];

const RATES: [Rate; 8] = [
    Rate { label: 1, data: 24, kept: HALF },
    Rate { label: 1, data: 36, kept: THREE_QUARTERS },
    Rate { label: 2, data: 48, kept: HALF },
    Rate { label: 2, data: 72, kept: THREE_QUARTERS },
    Rate { label: 4, data: 96, kept: HALF },
    Rate { label: 4, data: 144, kept: THREE_QUARTERS },
    Rate { label: 6, data: 192, kept: TWO_THIRDS },
    Rate { label: 6, data: 216, kept: THREE_QUARTERS },
];

/// The subcarriers, and the indexes of the pilots among them.
const CARRIERS: usize = 52;
const PILOTS: [usize; 4] = [5, 19, 32, 46];

/// A frame as it stands in a file.
struct Frame<'a> {
    index: u8,
    seed: u8,
    octets: &'a [u8],
}

impl Frame<'_> {
    fn rate(&self) -> &'static Rate {
        &RATES[usize::from(self.index)]
    }

    fn symbols(&self) -> usize {
        (22 + 8 * self.octets.len()).div_ceil(self.rate().data)
    }

    /// The scrambled DATA bits with the six tail bits zero again.
    fn scrambled(&self) -> Vec<bool> {
        let mut bits = vec![false; 16];
        bits.extend(self.octets.iter().flat_map(|octet| (0..8).map(move |n| octet >> n & 1 == 1)));
        let tail = bits.len();
        bits.resize(self.symbols() * self.rate().data, false);
        // Bit i of the seed is s(-1-i).
        let mut s: Vec<bool> = (0..7).rev().map(|i| self.seed >> i & 1 == 1).collect();
        for bit in &mut bits {
            let next = s[s.len() - 7] ^ s[s.len() - 4];
            s.push(next);
            *bit ^= next;
        }
        bits[tail..tail + 6].fill(false);
        bits
    }

    /// The coded bits that are kept.
    fn coded(&self) -> Vec<bool> {
        let bits = self.scrambled();
        let at = |t: usize, back: usize| t >= back && bits[t - back];
        let mut coded = Vec::new();
        for (t, kept) in (0..bits.len()).zip(self.rate().kept.iter().cycle()) {
            let a = at(t, 0) ^ at(t, 2) ^ at(t, 3) ^ at(t, 5) ^ at(t, 6);
            let b = at(t, 0) ^ at(t, 1) ^ at(t, 2) ^ at(t, 3) ^ at(t, 6);
            coded.extend([(kept.0, a), (kept.1, b)].iter().filter(|(kept, _)| *kept).map(|(_, bit)| bit));
        }
        coded
    }

    /// The points, in the order symbol, subcarrier.
    fn points(&self) -> Vec<Point> {
        let label = self.rate().label;
        let share = 48 * label;
        let s = (label / 2).max(1);
        let mut points = Vec::new();
        for (symbol, bits) in self.coded().chunks_exact(share).enumerate() {
            let mut placed = vec![false; share];
            for (k, bit) in bits.iter().enumerate() {
                let i = share / 16 * (k % 16) + k / 16;
                placed[s * (i / s) + (i + share - 16 * i / share) % s] = *bit;
            }
            let mut labels = placed.chunks_exact(label);
            for carrier in 0..CARRIERS {
                points.push(match PILOTS.iter().position(|pilot| *pilot == carrier) {
                    Some(pilot) => {
                        let sign = POLARITY[(symbol + 1) % POLARITY.len()];
                        (if pilot == 3 { -sign } else { sign }, 0)
                    }
                    None => point(labels.next().unwrap()),
                });
            }
        }
        points
    }
}

/// The level of the bits of an axis, of which the first says the sign, and each further one whether to turn round.
fn level(bits: &[bool]) -> i8 {
    let mut place = 0;
    let mut is_high = false;
    for bit in bits {
        is_high ^= bit;
        place = 2 * place + usize::from(is_high);
    }
    LEVELS[4 - (1 << (bits.len() - 1)) + place]
}

fn point(label: &[bool]) -> Point {
    match label.split_at(label.len().div_ceil(2)) {
        (i, []) => (level(i), 0),
        (i, q) => (level(i), level(q)),
    }
}

/// A file of random frames, mostly short ones.
pub fn file(random: &mut Random) -> Vec<u8> {
    let frames = if random.once_in(50) { 0 } else { random.one_of(&[1, 1, 1, 2, 2, 3]) };
    let mut octets = b"LGTX\x01".to_vec();
    octets.extend((frames as u16).to_be_bytes());
    for _ in 0..frames {
        let length = if random.once_in(60) { 4095 } else { random.between(1, 60) as usize };
        octets.push(random.below(8) as u8);
        octets.extend((length as u16).to_be_bytes());
        octets.push(random.between(1, 127) as u8);
        octets.extend(random.octets(length));
    }
    octets
}

/// A capture of random frames: what is sent of some, with noise, or small numbers with many ties, or extremes.
pub fn capture(random: &mut Random) -> Vec<u8> {
    let (seed, noise) = (random.draw(), random.one_of(&[0, 8, 60, 400]));
    let mut octets = passed(&file(random), seed, noise).expect("a file that is made is whole");
    if random.once_in(2) {
        return octets;
    }
    let small = random.once_in(2);
    let heads = octets.clone();
    let mut at = 7;
    while at < heads.len() {
        let length = usize::from(u16::from_be_bytes([heads[at + 1], heads[at + 2]]));
        let symbols = (22 + 8 * length).div_ceil(RATES[usize::from(heads[at])].data);
        let (diagonals, samples) = octets[at + 3..].split_at_mut(2 * CARRIERS);
        for diagonal in diagonals.chunks_exact_mut(2) {
            let any = random.draw() as u16;
            let value = if small { any % 9 } else { random.one_of(&[0, 1, 255, 65534, 65535, any]) };
            diagonal.copy_from_slice(&value.to_be_bytes());
        }
        for part in samples[..8 * CARRIERS * symbols].chunks_exact_mut(4) {
            let any = random.draw() as i32;
            let value = if small { any % 7 } else { random.one_of(&[0, 1, -1, i32::MIN, i32::MAX, any]) };
            part.copy_from_slice(&value.to_be_bytes());
        }
        at += 3 + 2 * CARRIERS + 8 * CARRIERS * symbols;
    }
    octets
}

fn frames(octets: &[u8]) -> Result<Vec<Frame<'_>>, Fault> {
    let mut cursor = Cursor { octets, at: 0 };
    for wanted in b"LGTX" {
        cursor.octet("BadMagic", |octet| octet == *wanted)?;
    }
    cursor.octet("BadVersion", |octet| octet == 1)?;
    let mut frames = Vec::new();
    for _ in 0..cursor.number("", |_| true)? {
        let index = cursor.octet("BadMcs", |octet| octet < 8)?;
        let length = cursor.number("BadLength", |number| (1..4096).contains(&number))?;
        let seed = cursor.octet("BadSeed", |octet| (1..128).contains(&octet))?;
        frames.push(Frame { index, seed, octets: cursor.take(length.into())? });
    }
    if cursor.at < octets.len() { Err(cursor.fault("Trailing", cursor.at)) } else { Ok(frames) }
}

/// The capture that a file of frames comes to, or the file's first fault.
pub fn passed(octets: &[u8], seed: u64, noise: u16) -> Result<Vec<u8>, Fault> {
    let frames = frames(octets)?;
    let mut words = Words::new(seed);
    let mut made = b"LGCP\x01".to_vec();
    made.extend((frames.len() as u16).to_be_bytes());
    for frame in frames {
        made.push(frame.index);
        made.extend((frame.octets.len() as u16).to_be_bytes());
        let diagonals: Vec<u16> = (0..CARRIERS).map(|_| 64 + words.below(192) as u16).collect();
        made.extend(diagonals.iter().flat_map(|diagonal| diagonal.to_be_bytes()));
        for (place, (i, q)) in frame.points().into_iter().enumerate() {
            for level in [i, q] {
                let added = words.below(2 * u32::from(noise) + 1) as i32 - i32::from(noise);
                made.extend((i32::from(diagonals[place % CARRIERS]) * i32::from(level) + added).to_be_bytes());
            }
        }
    }
    Ok(made)
}

#[cfg(test)]
mod tests {
    use super::*;

    // The octet a5 with seed 127 at 6 Mbit/s: the first points, and the capture's first diagonals and samples.
    #[test]
    fn one_octet() {
        let made = passed(b"LGTX\x01\x00\x01\x00\x00\x01\x7f\xa5", 42, 0).unwrap();
        assert_eq!(made.len(), 946);
        assert_eq!(made[..18], *b"LGCP\x01\x00\x01\x00\x00\x01\x00\xf7\x00\x49\x00\xf0\x00\x53");
        let frame = Frame { index: 0, seed: 127, octets: &[0xa5] };
        let signs: Vec<i8> = frame.points()[..6].iter().map(|point| point.0).collect();
        assert_eq!(signs, [-1, 1, 1, -1, 1, 1]);
    }
}
