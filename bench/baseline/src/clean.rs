//! Words with few wrong places, at once: the received bits stand in two planes, A and B, a bit a step; an input is guessed from
//! them without feedback, and single wrong places are taken out of it. Where its coded bits are then the received ones but for
//! places that lie far enough apart, and it ends in six zeros, it is the only nearest input.
use crate::chain::Spot;
use crate::decoding::{Kept, lanes};
use std::arch::x86_64::*;

mod guessing;
mod peeling;
mod register;

use guessing::{BLOCK, Guess, is_kept};
use peeling::Peeling;

/// A puncturing pattern, and how its words are decoded.
pub struct Pattern {
    period: &'static [Kept],
    guess: Guess,
    peeling: Peeling,
}

impl Pattern {
    pub fn new(period: &'static [Kept]) -> Pattern {
        Pattern { period, guess: Guess::new(period), peeling: Peeling::new(period) }
    }
}

/// A received word in planes, and its input. The words of steps begin at 1; word 0 is 0, as are the bits behind the last step.
pub struct Word {
    steps: usize,
    planes: [Vec<u64>; 2],
    pub input: Vec<u64>,
    /// Where the coded bits of the guess aren't the received ones.
    wrong: [Vec<u64>; 2],
}

impl Word {
    pub fn new() -> Word {
        Word { steps: 0, planes: [Vec::new(), Vec::new()], input: Vec::new(), wrong: [Vec::new(), Vec::new()] }
    }

    /// Room for a word, and for a symbol behind it.
    pub fn open(&mut self, steps: usize, more: usize) {
        self.steps = steps;
        let words = 1 + (steps + more).div_ceil(64).next_multiple_of(BLOCK) + 1;
        for plane in &mut self.planes {
            plane.clear();
            plane.resize(words, 0);
        }
        self.input.clear();
        self.input.resize(words, 0);
    }

    /// Clears what came behind the last step.
    pub fn cut(&mut self) {
        for plane in &mut self.planes {
            plane[1 + self.steps / 64] &= (1 << (self.steps % 64)) - 1;
            plane[2 + self.steps / 64..].fill(0);
        }
    }

    /// Whether the guess is an input that ends in six zeros.
    fn is_ended(&self) -> bool {
        let end = self.steps - 6;
        self.input[1 + end / 64] >> (end % 64) == 0 && self.input[2 + end / 64..].iter().all(|word| *word == 0)
    }

    /// Guesses the input; the distance, if it is the only nearest one.
    pub fn guess(&mut self, pattern: &Pattern) -> Option<u32> {
        let Pattern { guess, peeling, .. } = pattern;
        // A word before the blocks, and one behind them, up to which nothing is guessed.
        let words = (1 + self.steps / 64).next_multiple_of(BLOCK) + 2;
        let input = &mut self.input[..words];
        for wrong in &mut self.wrong {
            wrong.resize(words, 0);
            wrong[words - 1] = 0;
        }
        let wrong = guess.all(&self.planes, input, &mut self.wrong, peeling.most)?;
        if wrong > 0 {
            peeling.peel(input, &mut self.wrong);
        }
        if !self.is_ended() {
            return None;
        }
        if wrong == 0 {
            return Some(0);
        }
        guess.compare(&self.planes, &self.input[..words], &mut self.wrong);
        peeling.count(&self.wrong)
    }

    /// Finds the first nearest input, and answers its distance.
    pub fn decode(&mut self, pattern: &Pattern, choices: &mut Vec<u64>) -> u32 {
        if let Some(distance) = self.guess(pattern) {
            return distance;
        }
        // Each word is written, so what was left there may stay.
        if choices.len() < self.steps {
            choices.resize(self.steps, 0);
        }
        let p = pattern.period.len();
        let (mut at, mut phase) = (self.steps, self.steps % p);
        let [a, b] = &self.planes;
        let distance = lanes::backwards_by_rows(&mut choices[..self.steps], || {
            at -= 1;
            phase = if phase == 0 { p - 1 } else { phase - 1 };
            let bit = |plane: &[u64]| 1 + (plane[1 + at / 64] >> (at % 64) & 1) as usize;
            match pattern.period[phase] {
                Kept::Both => 3 * bit(a) + bit(b),
                Kept::A => 3 * bit(a),
                Kept::B => bit(b),
            }
        });
        let mut state = 0;
        for (choices, into) in choices[..self.steps].chunks(64).zip(&mut self.input[1..]) {
            *into = 0;
            for (at, word) in choices.iter().enumerate() {
                let bit = word >> state & 1;
                *into |= bit << at;
                state = state >> 1 | bit << 5;
            }
        }
        self.input[2 + (self.steps - 1) / 64..].fill(0);
        distance
    }
}

/// Sixteen octets of a symbol's labels, each of which goes to the step that the mask says.
struct Window {
    from: usize,
    mask: [u8; 16],
}

/// Sixteen steps of a plane: how many windows, and which bit of a label each step takes.
struct Steps {
    windows: usize,
    bits: [u8; 16],
}

/// How a plane is gathered from a symbol's labels.
struct Plane {
    steps: Vec<Steps>,
    windows: Vec<Window>,
}

/// How an encoder's bits are gathered.
pub struct Gather {
    /// The steps of a symbol.
    pub steps: usize,
    planes: [Plane; 2],
}

/// Labels have so many octets behind the last one.
pub const BEHIND: usize = 16;

impl Gather {
    pub fn new(spots: &[Spot], period: &[Kept]) -> Gather {
        let mut of_planes: [Vec<Option<Spot>>; 2] = [Vec::new(), Vec::new()];
        let mut left = spots.iter();
        while !left.as_slice().is_empty() {
            let kept = period[of_planes[0].len() % period.len()];
            of_planes[0].push(if kept == Kept::B { None } else { left.next().copied() });
            of_planes[1].push(if kept == Kept::A { None } else { left.next().copied() });
        }
        let steps = of_planes[0].len();
        assert_eq!(steps % period.len(), 0);
        Gather { steps, planes: of_planes.map(|spots| Plane::new(&spots)) }
    }

    /// Appends a symbol's bits behind a number of steps.
    pub fn append(&self, labels: &[u8], at: usize, word: &mut Word) {
        for (plane, into) in self.planes.iter().zip(&mut word.planes) {
            // SAFETY: SSSE3 is part of x86-64-v2, for which this is built.
            unsafe { plane.append(labels, at, into) }
        }
    }
}

impl Plane {
    fn new(spots: &[Option<Spot>]) -> Plane {
        let mut plane = Plane { steps: Vec::new(), windows: Vec::new() };
        for spots in spots.chunks(16) {
            let mut left: Vec<(usize, usize)> = (0..spots.len()).filter_map(|n| spots[n].map(|spot| (usize::from(spot.label), n))).collect();
            left.sort();
            let before = plane.windows.len();
            while let Some(&(from, _)) = left.first() {
                let mut mask = [0x80; 16];
                left.retain(|(label, n)| {
                    if *label < from + 16 {
                        mask[*n] = (label - from) as u8;
                    }
                    *label >= from + 16
                });
                plane.windows.push(Window { from, mask });
            }
            // What is punctured is 0 where its bit is awaited.
            let bits = std::array::from_fn(|n| spots.get(n).copied().flatten().map_or(1, |spot| 1 << spot.shift));
            plane.steps.push(Steps { windows: plane.windows.len() - before, bits });
        }
        plane
    }

    #[target_feature(enable = "ssse3")]
    fn append(&self, labels: &[u8], mut at: usize, into: &mut [u64]) {
        let mut windows = self.windows.iter();
        for steps in &self.steps {
            let mut octets = _mm_setzero_si128();
            for window in windows.by_ref().take(steps.windows) {
                let from: &[u8; 16] = labels[window.from..window.from + 16].try_into().unwrap();
                // SAFETY: both are sixteen octets.
                let (from, mask) = unsafe { (_mm_loadu_si128(from.as_ptr().cast()), _mm_loadu_si128(window.mask.as_ptr().cast())) };
                octets = _mm_or_si128(octets, _mm_shuffle_epi8(from, mask));
            }
            // SAFETY: sixteen octets.
            let bits = unsafe { _mm_loadu_si128(steps.bits.as_ptr().cast()) };
            let found = u64::from(_mm_movemask_epi8(_mm_cmpeq_epi8(_mm_and_si128(octets, bits), bits)) as u16);
            into[1 + at / 64] |= found << (at % 64);
            into[2 + at / 64] |= found >> 1 >> (63 - at % 64);
            at += 16;
        }
    }
}

/// The checksum of a line: a codeword of a number of steps, with so many of a million places wrong, decoded from planes.
pub fn run(words: &[String]) -> Option<u64> {
    let [kind, pattern, steps, wrong, count] = words else {
        return None;
    };
    if kind != "planes_decode" {
        return None;
    }
    let period = crate::decoding::period(pattern)?;
    let (pattern, mut choices) = (Pattern::new(period), Vec::new());
    let mut word = received(period, steps.parse().ok()?, wrong.parse().ok()?, 1).0;
    let mut checksum = 0u64;
    for left in (0..count.parse::<u32>().ok()?).rev() {
        checksum = checksum.wrapping_add(word.decode(&pattern, &mut choices).into());
        if left == 0 {
            checksum = word.input.iter().fold(checksum, |sum, word| (sum ^ word).wrapping_mul(0x100_0000_01b3));
        }
    }
    Some(checksum)
}

/// A random codeword with some places wrong: its planes, and the list of its kept places.
fn received(period: &'static [Kept], steps: usize, wrong: u64, seed: u64) -> (Word, Vec<Option<bool>>) {
    let mut random = crate::random::Random::new(seed);
    let input: Vec<bool> = (0..steps).map(|step| random.draw() & 1 == 1 && step + 6 < steps).collect();
    let mut sent = crate::sending::coded(input.into_iter(), period, 2 * steps);
    crate::sending::flip(&mut sent, wrong, &mut random);
    let (mut word, mut left) = (Word::new(), sent.iter());
    word.open(steps, 64);
    for step in 0..steps {
        for plane in (0..2).filter(|plane| is_kept(period, step, *plane)) {
            word.planes[plane][1 + step / 64] |= u64::from(*left.next().unwrap()) << (step % 64);
        }
    }
    (word, sent.into_iter().map(Some).collect())
}

#[cfg(test)]
mod tests {
    use super::*;
    use crate::decoding::{forwards, plain};

    #[test]
    fn words_are_decoded_as_by_the_plain_program() {
        for name in ["half", "two_thirds", "three_quarters", "five_sixths"] {
            let period = crate::decoding::period(name).unwrap();
            let pattern = Pattern::new(period);
            let mut guessed = 0;
            for (seed, wrong) in (1..40).flat_map(|seed| [0, 1000, 5000, 20_000, 300_000].map(|wrong| (seed, wrong))) {
                let (mut word, list) = received(period, 6 + 17 * seed as usize, wrong, seed);
                let steps = word.steps;
                let mut choices = vec![0; steps];
                let wanted = plain::backwards(&list, period, &mut choices);
                let input = forwards(&choices);
                guessed += u32::from(word.guess(&pattern).is_some());
                assert_eq!(word.decode(&pattern, &mut Vec::new()), wanted, "{name} {seed} {wrong}");
                for (step, bit) in input.iter().enumerate() {
                    assert_eq!(word.input[1 + step / 64] >> (step % 64) & 1 == 1, *bit, "{name} {seed} {wrong} {step}");
                }
            }
            assert!(guessed >= 60, "{name} {guessed}");
        }
    }
}
