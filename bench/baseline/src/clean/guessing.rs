//! The guess: each input bit as a sum of received bits of its step and of steps before it, and where its coded bits differ from
//! what was received.
use super::register::{Register, WORDS};
use crate::decoding::Kept;

/// The delays that a generator taps: bit k is delay k.
pub const TAPS: [u128; 2] = [0b110_1101, 0b100_1111];

/// Words that are worked on together, in so many registers.
pub const BLOCK: usize = REGISTERS * WORDS;
const REGISTERS: usize = 4;

/// The octets of a row: the last word of the block before, and a block.
const ROW: usize = 8 * (1 + BLOCK);

/// A plane by 0 to 7 steps delayed, in octets: further delays are whole octets, so that each one is a load.
struct Rows([u8; 16 * ROW]);

/// Some of the bits that are added up, all for the same steps.
struct Group {
    /// The steps of word w are those of the mask of w modulo the period, which is repeated.
    masks: [u64; 24],
    /// Where the delayed planes begin among the rows.
    terms: Vec<usize>,
}

/// The guess of a puncturing pattern.
pub struct Guess {
    groups: Vec<Group>,
    /// Which rows are read: bit 8 plane + delay.
    rows: u32,
    /// The places of a word that are kept.
    kept: [[u64; 24]; 2],
    period: usize,
}

pub fn is_kept(period: &[Kept], step: usize, plane: usize) -> bool {
    period[step % period.len()] != if plane == 0 { Kept::B } else { Kept::A }
}

/// A sum of received bits: which ones (bit 2 k + plane for delay k), and which input bits it comes to (bit k for delay k).
#[derive(Clone, Copy)]
struct Sum {
    of: u128,
    input: u128,
}

/// The received bits that add up to the input bit of a step, as few as were found, from as few past steps as possible.
fn inverse(period: &[Kept], phase: usize) -> u128 {
    let step = phase + 60 * period.len();
    for delays in 1..48 {
        let (mut basis, mut nothing): (Vec<Sum>, Vec<u128>) = (Vec::new(), Vec::new());
        for delay in 0..delays {
            for plane in (0..2).filter(|plane| is_kept(period, step - delay, *plane)) {
                let mut sum = Sum { of: 1 << (2 * delay + plane), input: TAPS[plane] << delay };
                for known in &basis {
                    if sum.input >> (127 - known.input.leading_zeros()) & 1 == 1 {
                        sum = Sum { of: sum.of ^ known.of, input: sum.input ^ known.input };
                    }
                }
                if sum.input == 0 {
                    nothing.push(sum.of);
                    continue;
                }
                let top = 127 - sum.input.leading_zeros();
                for known in &mut basis {
                    if known.input >> top & 1 == 1 {
                        *known = Sum { of: known.of ^ sum.of, input: known.input ^ sum.input };
                    }
                }
                basis.push(sum);
            }
        }
        let newest = basis.iter().find(|sum| sum.input == 1);
        if let Some(found) = newest {
            let count = nothing.len().min(12);
            let with = |chosen: u32| (0..count).filter(|n| chosen >> n & 1 == 1).fold(found.of, |sum, n| sum ^ nothing[n]);
            return (0..1 << count).map(with).min_by_key(|sum| sum.count_ones()).unwrap();
        }
    }
    unreachable!()
}

/// The inverse of each phase.
pub fn inverses(period: &[Kept]) -> Vec<u128> {
    (0..period.len()).map(|phase| inverse(period, phase)).collect()
}

/// Whether the inverse of a phase adds up the bit of a plane and of a delay.
pub fn has(inverse: u128, plane: usize, delay: usize) -> bool {
    inverse >> (2 * delay + plane) & 1 == 1
}

/// The words of a register of a block of words.
#[inline(always)]
fn register(words: &[u64; BLOCK], i: usize) -> Register {
    Register::of(words[WORDS * i..WORDS * (i + 1)].try_into().unwrap())
}

impl Rows {
    #[inline(always)]
    fn at(&self, from: usize) -> [Register; REGISTERS] {
        let octets: &[u8; 8 * BLOCK] = self.0[from..from + 8 * BLOCK].try_into().unwrap();
        std::array::from_fn(|i| Register::of_octets(octets[8 * WORDS * i..8 * WORDS * (i + 1)].try_into().unwrap()))
    }

    #[inline(always)]
    fn put(&mut self, row: usize, words: impl Fn(usize) -> Register) {
        let octets: &mut [u8; ROW] = (&mut self.0[ROW * row..ROW * (row + 1)]).try_into().unwrap();
        octets.copy_within(8 * BLOCK.., 0);
        for (i, into) in octets[8..].chunks_exact_mut(8 * WORDS).enumerate() {
            words(i).put_octets(into.try_into().unwrap());
        }
    }

    /// The next block of a plane, by each delay that is asked for.
    #[inline(always)]
    fn fill(&mut self, plane: usize, asked: u32, now: &[u64; BLOCK], before: &[u64; BLOCK]) {
        if asked & 1 != 0 {
            self.put(8 * plane, |i| register(now, i));
        }
        macro_rules! fill {
            ($($delay:literal)*) => {
                $(if asked >> $delay & 1 != 0 {
                    self.put(8 * plane + $delay, |i| register(now, i).delayed::<$delay, { 64 - $delay }>(register(before, i)));
                })*
            };
        }
        fill!(1 2 3 4 5 6 7);
    }
}

impl Guess {
    pub fn new(period: &[Kept]) -> Guess {
        let p = period.len();
        let inverses = inverses(period);
        let masks = |is_in: &dyn Fn(usize) -> bool| {
            std::array::from_fn(|word| (0..64).filter(|bit| is_in(64 * (word % p) + bit)).fold(0, |mask, bit| mask | 1 << bit))
        };
        let (mut groups, mut rows): (Vec<Group>, u32) = (Vec::new(), 0);
        for delay in 0..48 {
            for plane in 0..2 {
                if !inverses.iter().any(|inverse| has(*inverse, plane, delay)) {
                    continue;
                }
                let row = 8 * plane + delay % 8;
                rows |= 1 << row;
                let term = ROW * row + 8 - delay / 8;
                let masks = masks(&|step| has(inverses[step % p], plane, delay));
                match groups.iter_mut().find(|group| group.masks == masks) {
                    Some(group) => group.terms.push(term),
                    None => groups.push(Group { masks, terms: vec![term] }),
                }
            }
        }
        let kept = [0, 1].map(|plane| masks(&|step| is_kept(period, step, plane)));
        Guess { groups, rows, kept, period: p }
    }

    /// The guess of a block whose planes stand in the rows.
    #[inline(always)]
    fn of(&self, rows: &Rows, phase: usize) -> [Register; REGISTERS] {
        let mut guess = [Register::zero(); REGISTERS];
        for group in &self.groups {
            let mut sum = [Register::zero(); REGISTERS];
            for from in &group.terms {
                let row = rows.at(*from);
                sum = std::array::from_fn(|i| sum[i] ^ row[i]);
            }
            let masks: &[u64; BLOCK] = group.masks[phase..phase + BLOCK].try_into().unwrap();
            guess = std::array::from_fn(|i| guess[i] ^ sum[i] & register(masks, i));
        }
        guess
    }

    /// Where the coded bits of a block of the input aren't the received ones, and whether there are any.
    #[inline(always)]
    fn wrong(&self, phase: usize, at: usize, planes: &[Vec<u64>; 2], input: &[u64], wrong: &mut [Vec<u64>; 2]) -> bool {
        let (now, before, a, b) = (block(input, at), block(input, at - 1), block(&planes[0], at), block(&planes[1], at));
        let kept = [0, 1].map(|plane| -> &[u64; BLOCK] { self.kept[plane][phase..phase + BLOCK].try_into().unwrap() });
        let [into_a, into_b] = wrong.each_mut().map(|wrong| -> &mut [u64; BLOCK] { (&mut wrong[at..at + BLOCK]).try_into().unwrap() });
        let mut any = Register::zero();
        for i in 0..REGISTERS {
            let (now, before) = (register(now, i), register(before, i));
            let both = now ^ now.delayed::<2, 62>(before) ^ now.delayed::<3, 61>(before) ^ now.delayed::<6, 58>(before);
            let wrong_a = (both ^ now.delayed::<5, 59>(before) ^ register(a, i)) & register(kept[0], i);
            let wrong_b = (both ^ now.delayed::<1, 63>(before) ^ register(b, i)) & register(kept[1], i);
            wrong_a.put((&mut into_a[WORDS * i..WORDS * (i + 1)]).try_into().unwrap());
            wrong_b.put((&mut into_b[WORDS * i..WORDS * (i + 1)]).try_into().unwrap());
            any = any | wrong_a | wrong_b;
        }
        !any.is_zero()
    }

    /// Guesses an input, and says where its coded bits aren't the received ones, and at how many steps. It ends early, and
    /// answers none, where more steps are wrong than a number and a share of 64 of those so far. Words of steps begin at 1.
    #[inline(never)]
    pub fn all(&self, planes: &[Vec<u64>; 2], input: &mut [u64], wrong: &mut [Vec<u64>; 2], most: (u32, u32)) -> Option<u32> {
        let mut rows = Rows([0; 16 * ROW]);
        let (mut phase, mut count) = (0, 0);
        for at in (1..input.len() - 1).step_by(BLOCK) {
            for (plane, bits) in planes.iter().enumerate() {
                rows.fill(plane, self.rows >> (8 * plane), block(bits, at), block(bits, at - 1));
            }
            for (words, into) in self.of(&rows, phase).into_iter().zip(input[at..at + BLOCK].chunks_exact_mut(WORDS)) {
                words.put(into.try_into().unwrap());
            }
            if self.wrong(phase, at, planes, input, wrong) {
                count += (at..at + BLOCK).map(|at| (wrong[0][at] | wrong[1][at]).count_ones()).sum::<u32>();
                if count > most.0 + most.1 * (at + BLOCK) as u32 {
                    return None;
                }
            }
            phase = (phase + BLOCK) % self.period;
        }
        Some(count)
    }

    /// Where the coded bits of an input aren't the received ones, up to the last block.
    #[inline(never)]
    pub fn compare(&self, planes: &[Vec<u64>; 2], input: &[u64], wrong: &mut [Vec<u64>; 2]) {
        let mut phase = 0;
        for at in (1..input.len() - 1).step_by(BLOCK) {
            self.wrong(phase, at, planes, input, wrong);
            phase = (phase + BLOCK) % self.period;
        }
        wrong.iter_mut().for_each(|wrong| *wrong.last_mut().unwrap() = 0);
    }
}

#[inline(always)]
fn block(bits: &[u64], at: usize) -> &[u64; BLOCK] {
    bits[at..at + BLOCK].try_into().unwrap()
}
