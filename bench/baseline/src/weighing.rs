//! What `radio soft` writes: the line of each frame, decoded by the weights of its bits.
use crate::capturing::Head;
use crate::chain::{Chain, push_outcome};
use crate::decoding::{A_OF_ZERO, B_OF_ZERO, Kept, forwards};
use crate::detecting::{self, Job};
use crate::receiving::{Account, push_number};
use crate::results::label;
use std::arch::x86_64::*;
use std::io::Write;

/// The largest size of a weight.
const LARGEST: i128 = 65535;

/// Which searches the weights of a job take.
#[derive(Clone, Copy, PartialEq)]
pub enum Searches {
    /// Those of both halves for each bit, which are the jobs of `radio soft`.
    Both,
    /// That of the whole job, which is that of one half for each bit, and those of the other halves.
    Other,
}

pub struct Weighed<W> {
    sink: W,
    searches: Searches,
    text: Vec<u8>,
    chain: Option<Chain>,
    made_for: Option<(bool, u8, u128)>,
    /// In the order symbol, data subcarrier, stream, bit.
    weights: Vec<i32>,
    /// The place of the next symbol's weights.
    at: usize,
    received: Vec<i32>,
    choices: Vec<u64>,
}

/// The levels of an axis of a number of bits on which one of them has a value.
fn levels(bits: u32, bit: u32, value: bool) -> u8 {
    (0..1u8 << bits).filter(|place| ((place ^ place >> 1) >> (bits - 1 - bit) & 1 == 1) == value).fold(0, |mask, place| mask | 1 << place)
}

/// The distance of the half in which a bit of a stream's label has a value.
#[inline(always)]
fn distance_of_half(half: &mut Job, stream: usize, bits: u32, bit: u32, value: bool) -> u128 {
    let full = half.axes[stream];
    let of_i = bits.div_ceil(2);
    if bit < of_i {
        half.axes[stream].i.mask = levels(of_i, bit, value);
    } else {
        half.axes[stream].q.mask = levels(bits - of_i, bit - of_i, value);
    }
    let (_, distance) = detecting::found(half);
    half.axes[stream] = full;
    distance
}

fn weight(zero: u128, one: u128) -> i32 {
    (zero as i128 - one as i128).clamp(-LARGEST, LARGEST) as i32
}

/// The weight of a bit of a stream, by the searches of both halves.
pub fn weight_of_bit(job: &Job, stream: usize, bits: u32, bit: u32) -> i32 {
    let mut half = *job;
    let mut distance = |value| distance_of_half(&mut half, stream, bits, bit, value);
    weight(distance(false), distance(true))
}

impl<W: Write> Weighed<W> {
    pub fn new(sink: W, searches: Searches) -> Self {
        Weighed {
            sink,
            searches,
            text: Vec::new(),
            chain: None,
            made_for: None,
            weights: Vec::new(),
            at: 0,
            received: Vec::new(),
            choices: Vec::new(),
        }
    }

    fn decode(&mut self, encoder: usize, steps: usize) -> (Vec<bool>, u64) {
        let chain = self.chain.as_ref().unwrap();
        let kept = chain.kept(steps);
        let (spots, bits) = (&chain.spots[encoder], chain.bits as usize);
        self.received.clear();
        self.received.reserve(kept + spots.len());
        for weights in self.weights.chunks_exact(chain.labels * bits) {
            if self.received.len() >= kept {
                break;
            }
            // An erased subcarrier's weights were left 0.
            self.received.extend(spots.iter().map(|spot| weights[usize::from(spot.label) * bits + bits - 1 - usize::from(spot.shift)]));
        }
        self.received.truncate(kept);
        self.choices.clear();
        self.choices.resize(steps, 0);
        let cost = backwards(&self.received, chain.period, &mut self.choices);
        (forwards(&self.choices), cost)
    }
}

impl<W: Write> Account for Weighed<W> {
    fn begin(&mut self, head: &Head) {
        let rate = (head.wide, head.mcs, head.erased);
        if self.made_for != Some(rate) {
            self.chain = Some(Chain::of(head));
            self.made_for = Some(rate);
        }
        let chain = self.chain.as_ref().unwrap();
        self.weights.clear();
        self.weights.resize(chain.labels * chain.bits as usize * head.symbols() as usize, 0);
        self.at = 0;
    }

    fn hear(&mut self, data: Option<usize>, job: &Job) {
        let Some(number) = data else { return };
        let bits = self.chain.as_ref().unwrap().bits;
        let streams = usize::from(job.streams);
        let per_job = streams * bits as usize;
        let mut into = self.weights[self.at + number * per_job..][..per_job].iter_mut();
        let mut half = *job;
        let whole = (self.searches == Searches::Other).then(|| detecting::found(job));
        for stream in 0..streams {
            for bit in 0..bits {
                let mut distance = |value| match &whole {
                    Some((points, distance)) if (label(&points[stream], bits) >> (bits - 1 - bit) & 1 == 1) == value => *distance,
                    _ => distance_of_half(&mut half, stream, bits, bit, value),
                };
                *into.next().unwrap() = weight(distance(false), distance(true));
            }
        }
    }

    fn end_symbol(&mut self) {
        let chain = self.chain.as_ref().unwrap();
        self.at += chain.labels * chain.bits as usize;
    }

    fn end(&mut self, head: &Head) {
        let chain = self.chain.as_ref().unwrap();
        let (encoders, steps) = (chain.spots.len(), chain.steps(head.length));
        let mut bits = vec![false; (steps - 6) * encoders];
        let mut sum = 0;
        for encoder in 0..encoders {
            let (input, cost) = self.decode(encoder, steps);
            sum += cost;
            for (bit, from) in bits[encoder..].iter_mut().step_by(encoders).zip(input) {
                *bit = from;
            }
        }
        self.text.clear();
        self.text.extend_from_slice(b"soft ");
        push_number(&mut self.text, head.frame.into());
        self.text.extend_from_slice(b" cost ");
        push_number(&mut self.text, sum.into());
        push_outcome(&mut self.text, &mut bits);
        self.sink.write_all(&self.text).unwrap();
    }

    fn last(&mut self, line: &str) {
        self.sink.write_all(line.as_bytes()).unwrap();
    }
}

/// The least cost, and a word of choices for each step: bit n is state n's.
pub(crate) fn backwards(received: &[i32], period: &'static [Kept], choices: &mut [u64]) -> u64 {
    // SAFETY: SSE4.1 is part of x86-64-v2, for which this is built.
    unsafe { backwards_by_lanes(received, period, choices) }
}

/// The states 2k and 2k + 1 have the same two successors, k and k + 32, and what one of them costs on the one way the
/// other costs on the other. Costs are kept modulo 2^32, as none is 2^31 above another.
#[target_feature(enable = "sse4.1")]
fn backwards_by_lanes(received: &[i32], period: &'static [Kept], choices: &mut [u64]) -> u64 {
    let steps = choices.len();
    let picks: [__m128i; 8] = std::array::from_fn(|i| {
        let pick = |lane: usize| {
            let state = 2 * (4 * i + lane);
            let number = 2 * (A_OF_ZERO >> state & 1) + (B_OF_ZERO >> state & 1);
            (0x0302_0100 + 0x0404_0404 * number) as i32
        };
        _mm_set_epi32(pick(3), pick(2), pick(1), pick(0))
    });
    let mut left = received;
    let mut phase = steps % period.len();
    let mut costs = [_mm_setzero_si128(); 16];
    let mut total = 0u64;
    for at in (0..steps).rev() {
        phase = if phase == 0 { period.len() - 1 } else { phase - 1 };
        let n = left.len();
        let (a, b) = match period[phase] {
            Kept::Both => (left[n - 2], left[n - 1]),
            Kept::A => (left[n - 1], 0),
            Kept::B => (0, left[n - 1]),
        };
        left = &left[..n - if period[phase] == Kept::Both { 2 } else { 1 }];
        let (a0, a1, b0, b1) = (a.max(0), (-a).max(0), b.max(0), (-b).max(0));
        let ways = _mm_set_epi32(a1 + b1, a1 + b0, a0 + b1, a0 + b0);
        let others = _mm_shuffle_epi32::<0b00_01_10_11>(ways);
        let before = _mm_cvtsi128_si32(costs[0]);
        let zero = _mm_setzero_si128();
        let mut next = [zero; 16];
        let mut signs = [zero; 16];
        for i in 0..8 {
            let (p, q) = (_mm_shuffle_epi8(ways, picks[i]), _mm_shuffle_epi8(others, picks[i]));
            let (mut even, mut odd) = (_mm_add_epi32(costs[i], p), _mm_add_epi32(costs[i], q));
            if steps - at > 6 {
                let of_even = _mm_sub_epi32(_mm_add_epi32(costs[i + 8], q), even);
                let of_odd = _mm_sub_epi32(_mm_add_epi32(costs[i + 8], p), odd);
                signs[2 * i] = _mm_unpacklo_epi32(of_even, of_odd);
                signs[2 * i + 1] = _mm_unpackhi_epi32(of_even, of_odd);
                even = _mm_add_epi32(even, _mm_min_epi32(of_even, zero));
                odd = _mm_add_epi32(odd, _mm_min_epi32(of_odd, zero));
            }
            next[2 * i] = _mm_unpacklo_epi32(even, odd);
            next[2 * i + 1] = _mm_unpackhi_epi32(even, odd);
        }
        costs = next;
        choices[at] = signs.chunks_exact(4).enumerate().fold(0, |word, (place, signs)| {
            let octets = _mm_packs_epi16(_mm_packs_epi32(signs[0], signs[1]), _mm_packs_epi32(signs[2], signs[3]));
            word | u64::from(_mm_movemask_epi8(octets) as u16) << (16 * place)
        });
        total = total.wrapping_add_signed(_mm_cvtsi128_si32(costs[0]).wrapping_sub(before).into());
    }
    total
}
