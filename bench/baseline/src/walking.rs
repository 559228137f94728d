//! All weights of a job by one walk: for each bit the least distances of both halves are kept together, and a branch is entered
//! only where it could still better one of them that its vectors are in. Weights are cut at 65535, so nothing counts that is
//! that much farther than the nearest vector.
use crate::detecting::{Job, Point, target};

/// The largest size of a weight.
const LARGEST: u64 = 65535;

/// No distance of samples below this size comes near 2^64.
const LIMIT: u32 = 1 << 28;

/// Whether the walk's numbers can hold a job's distances.
pub fn fits(job: &Job) -> bool {
    job.y[..usize::from(job.streams)].iter().all(|y| y.re.unsigned_abs() < LIMIT && y.im.unsigned_abs() < LIMIT)
}

/// The bit of a level's label, the first one first.
const fn bit(bits: usize, place: usize, number: usize) -> usize {
    (place ^ place >> 1) >> (bits - 1 - number) & 1
}

/// How many levels up the nearest one is that has another bit there, where the target is below the level (0) or above it (1).
const ACROSS: [[[[i64; 8]; 2]; 3]; 4] = {
    let mut table = [[[[0; 8]; 2]; 3]; 4];
    let mut n = 0;
    while n < 4 * 3 * 2 * 8 {
        let (bits, number, side, place) = (n / 48, n / 16 % 3, n / 8 % 2, n % 8);
        if number < bits && place < 1 << bits {
            let mut far = 1;
            while table[bits][number][side][place] == 0 {
                let mut turn = 0;
                // At the same number of levels the side of the target is nearer.
                while turn < 2 && table[bits][number][side][place] == 0 {
                    let up = if turn == side { -far } else { far };
                    let at = place as i64 + up;
                    if at >= 0 && at < 1 << bits && bit(bits, at as usize, number) != bit(bits, place, number) {
                        table[bits][number][side][place] = up;
                    }
                    turn += 1;
                }
                far += 1;
            }
        }
        n += 1;
    }
    table
};

#[inline(always)]
fn square(gap: i64) -> u64 {
    gap.unsigned_abs() * gap.unsigned_abs()
}

/// The place of the nearest level, and what it leaves of the target.
#[inline(always)]
fn nearest<const BITS: usize>(target: i64, d: i64) -> (usize, i64) {
    let (mut place, mut gap) = (0, target);
    for left in (0..BITS).rev() {
        let is_above = gap > 0;
        place = 2 * place + usize::from(is_above);
        gap += if is_above { -(d << left) } else { d << left };
    }
    (place, gap)
}

/// All levels of a coordinate, nearest first: two ends that move apart, and what their next levels leave.
#[derive(Clone, Copy)]
struct Levels {
    below: i32,
    above: i32,
    size: i32,
    of_below: i64,
    of_above: i64,
    apart: i64,
}

impl Levels {
    #[inline(always)]
    fn new<const BITS: usize>(target: i64, d: i64) -> Levels {
        let (place, gap) = nearest::<BITS>(target, d);
        Levels { below: place as i32 - 1, above: place as i32, size: 1 << BITS, of_below: gap + 2 * d, of_above: gap, apart: 2 * d }
    }

    #[inline(always)]
    fn next(&mut self) -> Option<(usize, u64)> {
        let has_above = self.above < self.size;
        if has_above && (self.below < 0 || self.of_above.abs() <= self.of_below.abs()) {
            let level = (self.above as usize, square(self.of_above));
            self.above += 1;
            self.of_above -= self.apart;
            return Some(level);
        }
        if self.below < 0 {
            return None;
        }
        let level = (self.below as usize, square(self.of_below));
        self.below -= 1;
        self.of_below += self.apart;
        Some(level)
    }
}

/// The least distances of one coordinate's halves, by bit and value.
#[derive(Clone, Copy)]
struct Leasts {
    of: [[u64; 2]; 3],
    /// For each level the largest of those that its bits are in.
    level: [u64; 8],
    /// The largest of all.
    all: u64,
}

impl Leasts {
    fn new<const BITS: usize>() -> Leasts {
        let none = if BITS == 0 { 0 } else { u64::MAX };
        Leasts { of: [[u64::MAX; 2]; 3], level: [none; 8], all: none }
    }

    #[inline(always)]
    fn settle<const BITS: usize>(&mut self) {
        self.all = 0;
        for place in 0..1 << BITS {
            let mut largest = 0;
            for number in 0..BITS {
                largest = largest.max(self.of[number][bit(BITS, place, number)]);
            }
            self.level[place] = largest;
            self.all = self.all.max(largest);
        }
    }

    /// Takes the distance of a vector with a level there.
    #[inline(always)]
    fn take<const BITS: usize>(&mut self, place: usize, distance: u64) {
        if BITS > 0 && distance < self.level[place] {
            for number in 0..BITS {
                let least = &mut self.of[number][bit(BITS, place, number)];
                *least = distance.min(*least);
            }
            self.settle::<BITS>();
        }
    }

    /// Takes those of the nearest level and, for each of its bits, of the nearest one with another bit. Says whether any fell.
    #[inline(always)]
    fn take_all<const BITS: usize>(&mut self, place: usize, gap: i64, d: i64, others: u64) -> bool {
        let (mut fell, side) = (false, usize::from(gap > 0));
        for number in 0..BITS {
            let own = bit(BITS, place, number);
            let across = others + square(gap - 2 * d * ACROSS[BITS][number][side][place]);
            for (value, distance) in [(own, others + square(gap)), (1 - own, across)] {
                let least = &mut self.of[number][value];
                fell |= distance < *least;
                *least = distance.min(*least);
            }
        }
        if fell {
            self.settle::<BITS>();
        }
        fell
    }
}

/// A walk from the last stream to the first.
struct Walk<'a, const OF_I: usize, const OF_Q: usize> {
    job: &'a Job,
    points: [Point; 4],
    i: [Leasts; 4],
    q: [Leasts; 4],
    /// The largest of those of the streams before each.
    before: [u64; 5],
    /// From here on no distance counts.
    end: u64,
}

fn level(bits: usize, place: usize) -> i8 {
    2 * place as i8 - ((1 << bits) - 1) as i8
}

impl<const OF_I: usize, const OF_Q: usize> Walk<'_, OF_I, OF_Q> {
    /// The first stream, whose parts don't depend on each other. Answers the least distance.
    #[inline(always)]
    fn first(&mut self, partial: u64, (re, im): (i64, i64)) -> u64 {
        let d = i64::from(self.job.d[0]);
        let ((i, of_i), (q, of_q)) = (nearest::<OF_I>(re, d), nearest::<OF_Q>(im, d));
        let distance = partial + square(of_i) + square(of_q);
        if distance >= self.end {
            return distance;
        }
        self.end = self.end.min(distance.saturating_add(LARGEST));
        if distance < self.before[1] {
            let fell = self.i[0].take_all::<OF_I>(i, of_i, d, partial + square(of_q));
            if self.q[0].take_all::<OF_Q>(q, of_q, d, partial + square(of_i)) || fell {
                self.before[1] = self.i[0].all.max(self.q[0].all);
            }
        }
        distance
    }

    /// Stream k, below chosen points at a distance. `path` is at least what each bit chosen there has as its least. Answers the
    /// least distance below, as far as it counts.
    fn go(&mut self, k: usize, partial: u64, mut path: u64) -> u64 {
        let d = i64::from(self.job.d[k]);
        let (re, im) = target(self.job, k, &self.points);
        let (mut of_q, of_i) = (Levels::new::<OF_Q>(im, d), Levels::new::<OF_I>(re, d));
        let nearest_i = square(of_i.of_above);
        let mut found = u64::MAX;
        // What the streams behind the second one leave of the first row.
        let entry = (i64::from(self.job.above[0].0), i64::from(self.job.above[0].1));
        self.points[k] = Point { i: 0, q: 0 };
        let row = if k == 1 { target(self.job, 0, &self.points) } else { (0, 0) };
        while let Some((q, cost)) = of_q.next() {
            let of_row = partial + cost;
            let bound = of_row + nearest_i;
            if bound >= self.end {
                break;
            }
            let mut rest = path.max(self.q[k].level[q]);
            if bound >= self.before[k].max(rest).max(self.i[k].all) {
                if bound >= self.q[k].all {
                    break;
                }
                continue;
            }
            let mut least = u64::MAX;
            let mut of_i = of_i;
            while let Some((i, cost)) = of_i.next() {
                let distance = of_row + cost;
                if distance >= self.end {
                    break;
                }
                let child = rest.max(self.i[k].level[i]);
                if distance >= self.before[k].max(child) {
                    if distance >= self.i[k].all {
                        break;
                    }
                    continue;
                }
                let point = Point { i: level(OF_I, i), q: level(OF_Q, q) };
                let below = if k == 1 {
                    let (i, q) = (i64::from(point.i), i64::from(point.q));
                    self.first(distance, (row.0 - (entry.0 * i - entry.1 * q), row.1 - (entry.1 * i + entry.0 * q)))
                } else {
                    self.points[k] = point;
                    self.go(k - 1, distance, child)
                };
                least = least.min(below);
                rest = rest.min(below);
                self.i[k].take::<OF_I>(i, below);
            }
            self.q[k].take::<OF_Q>(q, least);
            found = found.min(least);
            path = path.min(least);
        }
        self.before[k + 1] = self.before[k].max(self.i[k].all).max(self.q[k].all);
        found
    }
}

fn weight([zero, one]: [u64; 2]) -> i32 {
    let size = zero.abs_diff(one).min(LARGEST) as i32;
    if zero < one { -size } else { size }
}

/// The weight of a coordinate of two levels that depends on no other: (target + d)² - (target - d)², cut.
#[inline(always)]
fn of_two(target: i64, d: i64) -> i32 {
    (4 * target * d).clamp(-(LARGEST as i64), LARGEST as i64) as i32
}

/// The weights of a coordinate that depends on no other.
#[inline(always)]
fn alone<const BITS: usize>(target: i64, d: i64, into: &mut [i32]) {
    if BITS == 1 {
        into[0] = of_two(target, d);
        return;
    }
    let (place, gap) = nearest::<BITS>(target, d);
    let side = usize::from(gap > 0);
    for (number, into) in into.iter_mut().enumerate().take(BITS) {
        let size = (square(gap - 2 * d * ACROSS[BITS][number][side][place]) - square(gap)).min(LARGEST) as i32;
        *into = if bit(BITS, place, number) == 1 { size } else { -size };
    }
}

#[inline(never)]
fn walked<const OF_I: usize, const OF_Q: usize>(job: &Job, into: &mut [i32]) {
    let n = usize::from(job.streams);
    if n == 1 {
        let (d, y) = (i64::from(job.d[0]), job.y[0]);
        let (of_i, of_q) = into.split_at_mut(OF_I);
        alone::<OF_I>(y.re.into(), d, of_i);
        alone::<OF_Q>(y.im.into(), d, of_q);
        return;
    }
    let mut walk = Walk::<OF_I, OF_Q> {
        job,
        points: [Point::default(); 4],
        i: [Leasts::new::<OF_I>(); 4],
        q: [Leasts::new::<OF_Q>(); 4],
        before: [0, u64::MAX, u64::MAX, u64::MAX, u64::MAX],
        end: u64::MAX,
    };
    walk.go(n - 1, 0, 0);
    for (k, into) in into.chunks_exact_mut(OF_I + OF_Q).enumerate().take(n) {
        for (number, into) in into.iter_mut().enumerate() {
            *into = weight(if number < OF_I { walk.i[k].of[number] } else { walk.q[k].of[number - OF_I] });
        }
    }
}

/// The weights of a full grid's job, in the order stream, bit.
#[inline(never)]
pub fn weights(job: &Job, bits: u32, into: &mut [i32]) {
    match bits {
        1 if job.streams == 1 => into[0] = of_two(job.y[0].re.into(), job.d[0].into()),
        1 => walked::<1, 0>(job, into),
        2 => walked::<1, 1>(job, into),
        4 => walked::<2, 2>(job, into),
        _ => walked::<3, 3>(job, into),
    }
}

/// The checksum of a line: all weights of 256 jobs, so often.
pub fn run(words: &[String]) -> Option<u64> {
    let [kind, streams, modulation, noise, count] = words else {
        return None;
    };
    if kind != "weights" {
        return None;
    }
    let streams: usize = streams.parse().ok()?;
    let (bits, i, q) = match modulation.as_str() {
        "bpsk" => (1, 2, 1),
        "qpsk" => (2, 2, 2),
        "qam16" => (4, 4, 4),
        "qam64" => (6, 8, 8),
        _ => return None,
    };
    let noise: u64 = noise.parse().ok()?;
    let mut random = crate::random::Random::new(1);
    let jobs: Vec<Job> = (0..256).map(|_| crate::detecting::made(&mut random, streams, i, q, noise, false)).collect();
    let mut into = [0; 24];
    let mut checksum = 0u64;
    for _ in 0..count.parse::<u32>().ok()? {
        for job in &jobs {
            let into = &mut into[..streams * bits as usize];
            weights(job, bits, into);
            checksum = into.iter().fold(checksum, |sum, weight| (sum ^ *weight as u64).wrapping_mul(0x100_0000_01b3));
        }
    }
    Some(checksum)
}

#[cfg(test)]
mod tests {
    use super::*;
    use crate::detecting::{Complex, made};
    use crate::random::Random;
    use crate::weighing::weight_of_bit;

    #[test]
    fn a_walk_has_the_weights_of_the_halves() {
        let mut random = Random::new(7);
        for (bits, i, q, most) in [(1, 2, 1, 4), (2, 2, 2, 4), (4, 4, 4, 3), (6, 8, 8, 2)] {
            for streams in 1..=most {
                let families = [(0, false, 0), (8, false, 0), (60, false, 0), (200, true, 0), (60, true, 1), (8, false, 2), (8, true, 3), (200, false, 4)];
                for (noise, is_small, family) in families {
                    for _ in 0..4 {
                        let mut job = made(&mut random, streams, i, q, noise, is_small);
                        match family {
                            1 => job.d[streams - 1] = 0,
                            2 => job.y = [Complex { re: 0, im: 0 }; 4],
                            3 => job.d = [0; 4],
                            4 => job.d[0] = 65535,
                            _ => {}
                        }
                        let mut into = [0; 24];
                        weights(&job, bits, &mut into);
                        for (place, weight) in into[..streams * bits as usize].iter().enumerate() {
                            let (stream, bit) = (place / bits as usize, (place % bits as usize) as u32);
                            assert_eq!(*weight, weight_of_bit(&job, stream, bits, bit), "{streams} {bits} {noise} {family} {place}");
                        }
                    }
                }
            }
        }
    }
}
