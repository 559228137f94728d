//! Words with few wrong places: each one that stands alone is taken out of the guess, and a bucket that leaks says whether what is
//! left lies so far apart that no other input is as near.
use super::guessing::{TAPS, has, inverses, is_kept};
use crate::decoding::Kept;

/// What one wrong place does to a guess, from its step on: the input bits that it flips, and the coded bits that are wrong then.
struct Single {
    /// The step in its period.
    phase: usize,
    /// How many steps behind it the first coded bit is wrong.
    first: usize,
    input: u64,
    wrong: [u64; 2],
}

/// What a wrong place pours into the bucket.
const POUR: u32 = 480;

/// How a puncturing pattern's words with few wrong places are decoded.
pub struct Peeling {
    singles: Vec<Single>,
    period: usize,
    /// What leaks out of the bucket at each step.
    leak: u32,
    /// Where it is full. A way that leaves the input and comes back after n steps differs from it at (brim - leak + leak n) / 240
    /// places or more, and below the brim fewer than half as many of them are wrong.
    brim: u32,
    /// How many steps may be wrong before it isn't worth while: so many, and so many of 64.
    pub most: (u32, u32),
}

impl Peeling {
    pub fn new(period: &[Kept]) -> Peeling {
        let p = period.len();
        let inverses = inverses(period);
        let places = (0..p).flat_map(|phase| [0, 1].map(|plane| (phase, plane))).filter(|(phase, plane)| is_kept(period, *phase, *plane));
        let singles = places.map(|(phase, plane)| {
            let input = (0..48).filter(|delay| has(inverses[(phase + delay) % p], plane, *delay)).fold(0, |sum, delay| sum | 1 << delay);
            let wrong = [0, 1].map(|of| {
                let coded = (0..7).filter(|delay| TAPS[of] >> delay & 1 == 1).fold(u64::from(of == plane), |sum, delay| sum ^ input << delay);
                (0..64).filter(|step| is_kept(period, phase + step, of)).fold(0, |sum, step| sum | coded & 1 << step)
            });
            Single { phase, first: (wrong[0] | wrong[1]).trailing_zeros() as usize, input, wrong }
        });
        let (leak, brim, most) = match p {
            1 => (73, 1201, (64, 8)),
            2 => (32, 1120, (64, 6)),
            3 => (21, 651, (64, 5)),
            _ => (10, 660, (64, 4)),
        };
        Peeling { singles: singles.collect(), period: p, leak, brim, most }
    }

    /// The single wrong place that leaves the fewest wrong bits from its own step on, of those whose first wrong bit is that of
    /// a step, and its own step; none where all leave as many as there are.
    #[inline(always)]
    fn best(&self, wrong: &[Vec<u64>; 2], step: usize) -> Option<(&Single, usize)> {
        let ones = |[a, b]: [u64; 2]| a.count_ones() + b.count_ones();
        let gain = |single: &Single, at: usize| {
            let now = [window(&wrong[0], at), window(&wrong[1], at)];
            ones(now).saturating_sub(ones([now[0] ^ single.wrong[0], now[1] ^ single.wrong[1]]))
        };
        let mut best = (0, None);
        for single in self.singles.iter().filter(|single| step >= single.first && (step - single.first) % self.period == single.phase) {
            let gain = gain(single, step - single.first);
            if gain > best.0 {
                best = (gain, Some((single, step - single.first)));
            }
        }
        best.1
    }

    /// Takes single wrong places out of a guess.
    #[inline(never)]
    pub fn peel(&self, input: &mut [u64], wrong: &mut [Vec<u64>; 2]) {
        for word in 1..input.len() - 1 {
            let mut left = u64::MAX;
            for _ in 0..64 {
                let seen = (wrong[0][word] | wrong[1][word]) & left;
                if seen == 0 {
                    break;
                }
                let step = seen.trailing_zeros();
                left = u64::MAX << step;
                match self.best(wrong, 64 * (word - 1) + step as usize) {
                    Some((single, at)) => {
                        flip(input, at, single.input);
                        flip(&mut wrong[0], at, single.wrong[0]);
                        flip(&mut wrong[1], at, single.wrong[1]);
                    }
                    None => left <<= 1,
                }
            }
        }
    }

    /// The number of wrong places, if the bucket never comes to its brim.
    #[inline(never)]
    pub fn count(&self, wrong: &[Vec<u64>; 2]) -> Option<u32> {
        let (mut level, mut last, mut count) = (0u32, 0, 0);
        for (word, (a, b)) in wrong[0].iter().zip(&wrong[1]).enumerate() {
            let mut left = a | b;
            while left != 0 {
                let bit = left.trailing_zeros();
                left &= left - 1;
                let (step, here) = (64 * word as u32 + bit, (a >> bit & 1) as u32 + (b >> bit & 1) as u32);
                level = level.saturating_sub(self.leak * (step - last)) + POUR * here;
                if level >= self.brim {
                    return None;
                }
                (last, count) = (step, count + here);
            }
        }
        Some(count)
    }
}

/// The 64 bits from a step on; words of steps begin at 1.
#[inline(always)]
fn window(bits: &[u64], step: usize) -> u64 {
    let (word, bit) = (1 + step / 64, step % 64);
    bits[word] >> bit | bits[word + 1] << 1 << (63 - bit)
}

#[inline(always)]
fn flip(bits: &mut [u64], step: usize, by: u64) {
    let (word, bit) = (1 + step / 64, step % 64);
    bits[word] ^= by << bit;
    bits[word + 1] ^= by >> 1 >> (63 - bit);
}
