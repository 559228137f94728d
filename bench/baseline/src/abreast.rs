//! Detection of the jobs of a symbol side by side, a lane for each subcarrier: successive rounding of all lanes at once, and
//! for each lane whether no other vector can be as near. Lanes where one could are left to the search, one by one.
//!
//! The loop over lanes has a straight body, so that the compiler makes vectors of it: rows and entries are written out.
//! Numbers of 32 bits may wrap round, but a gap that is below 2^14 is the true one, since a remainder is at most 2^31 + 2^22 in
//! size; a lane with a greater gap is left to the search. Diagonals are below 2^14.
use crate::detecting::{self, Complex, Job, Point};
use crate::random::Random;

/// As many as a symbol of 40 MHz has data subcarriers, and whole vectors.
pub const LANES: usize = 112;

/// Diagonals from here on don't fit.
pub const LIMIT: u16 = 1 << 14;

/// The channel of a frame. A lane without a subcarrier has diagonals of 1 and no entries.
#[repr(align(64))]
pub struct Channel {
    diagonal: [[i32; LANES]; 4],
    re: [[i32; LANES]; 6],
    im: [[i32; LANES]; 6],
}

/// The samples of a symbol.
#[repr(align(64))]
pub struct Heard {
    pub re: [[i32; LANES]; 4],
    pub im: [[i32; LANES]; 4],
}

/// What was found: the labels of a lane's streams in an octet each, the first one lowest; the distance; and `spare`, which is
/// above 0 where all other vectors are farther.
#[repr(align(64))]
pub struct Found {
    pub labels: [u32; LANES],
    pub distance: [u32; LANES],
    pub spare: [i32; LANES],
}

impl Channel {
    pub fn new() -> Box<Channel> {
        Box::new(Channel { diagonal: [[1; LANES]; 4], re: [[0; LANES]; 6], im: [[0; LANES]; 6] })
    }

    /// Puts the channel of a job into a lane.
    pub fn set(&mut self, lane: usize, job: &Job) {
        let n = usize::from(job.streams);
        for (row, d) in self.diagonal.iter_mut().zip(job.d).take(n) {
            row[lane] = d.into();
        }
        for (entry, (re, im)) in job.above.iter().enumerate().take(n * (n - 1) / 2) {
            self.re[entry][lane] = (*re).into();
            self.im[entry][lane] = (*im).into();
        }
    }
}

impl Heard {
    /// Samples at which each lane without a subcarrier rounds to a level at no cost.
    pub fn new(bits: u32) -> Box<Heard> {
        Box::new(Heard { re: [[1; LANES]; 4], im: [[if bits == 1 { 0 } else { 1 }; LANES]; 4] })
    }
}

impl Found {
    pub fn new() -> Box<Found> {
        Box::new(Found { labels: [0; LANES], distance: [0; LANES], spare: [0; LANES] })
    }
}

/// A coordinate's level, the size of what it leaves, its Gray bits, and how far the target is from where another level begins.
struct Rounded {
    level: i32,
    gap: u32,
    gray: i32,
    room: i32,
}

/// From how large a gap on a lane is left to the search, whatever its diagonal.
const WIDE: u32 = 0x3fff;

/// Folds the target at the middle of the levels that are left, until two of them are one.
#[inline(always)]
fn rounded<const BITS: u32>(target: i32, d: i32) -> Rounded {
    if BITS == 0 {
        return Rounded { level: 0, gap: target.unsigned_abs(), gray: 0, room: i32::MAX };
    }
    let below = target >> 31;
    let size = target.wrapping_abs();
    let (mut left, mut gray, mut level) = (size, 1 + below, 1);
    let mut inside = 0;
    if BITS == 3 {
        let folded = left.wrapping_sub(4 * d);
        inside = folded >> 31;
        gray = 2 * gray - inside;
        left = folded.wrapping_abs();
    }
    if BITS > 1 {
        let folded = left.wrapping_sub(2 * d);
        let inner = folded >> 31;
        gray = 2 * gray - inner;
        left = folded.wrapping_abs();
        level = 3 + 2 * inner;
    }
    if BITS == 3 {
        level = 4 + ((level ^ inside) - inside);
    }
    let gap = left.wrapping_sub(d).unsigned_abs();
    // Nothing lies behind the outer one of two levels.
    let room = if BITS == 1 { (size as u32).min(d as u32) as i32 } else { d - gap.min(d as u32) as i32 };
    Rounded { level: (level ^ below) - below, gap, gray, room }
}

/// A lane on its way from the last row to the first.
#[derive(Clone, Copy)]
struct Lane {
    i: [i32; 4],
    q: [i32; 4],
    labels: u32,
    distance: u32,
    spare: i32,
}

#[inline(always)]
fn lesser(a: i32, b: i32) -> i32 {
    if a < b { a } else { b }
}

impl Lane {
    /// Takes an entry's part out of a sample.
    #[inline(always)]
    fn without<const OF_Q: u32>(&self, (re, im): (i32, i32), (r_re, r_im): (i32, i32), l: usize) -> (i32, i32) {
        let (i, q) = (self.i[l], self.q[l]);
        let (re, im) = (re.wrapping_sub(r_re.wrapping_mul(i)), im.wrapping_sub(r_im.wrapping_mul(i)));
        if OF_Q == 0 { (re, im) } else { (re.wrapping_add(r_im.wrapping_mul(q)), im.wrapping_sub(r_re.wrapping_mul(q))) }
    }

    /// Rounds a row. All other vectors are farther where each row's margin is above what the rows before it cost.
    #[inline(always)]
    fn round<const OF_I: u32, const OF_Q: u32>(&mut self, k: usize, (re, im): (i32, i32), d: i32) {
        let (of_i, of_q) = (rounded::<OF_I>(re, d), rounded::<OF_Q>(im, d));
        let top = if OF_I == 1 { WIDE } else { d as u32 };
        let (i, q) = (of_i.gap.min(top) as i32, of_q.gap.min(if OF_Q < 2 { WIDE } else { top }) as i32);
        let mut margin = (4 * d).wrapping_mul(lesser(of_i.room, of_q.room));
        if OF_I == 1 {
            let is_wide = i == WIDE as i32 || q == WIDE as i32;
            margin = if is_wide { 0 } else { margin };
        }
        let cost = i * i + q * q;
        self.spare = lesser(self.spare.wrapping_sub(cost), margin);
        self.distance = self.distance.wrapping_add(cost as u32);
        self.labels = self.labels << 8 | (of_i.gray << OF_Q | of_q.gray) as u32;
        (self.i[k], self.q[k]) = (of_i.level, of_q.level);
    }
}

/// Detects the lanes below a number of them, and says how many are left to the search.
#[inline(always)]
fn detect<const N: usize, const OF_I: u32, const OF_Q: u32>(channel: &Channel, heard: &Heard, count: usize, found: &mut Found) -> u32 {
    let mut failed = 0;
    for at in 0..count.next_multiple_of(16).min(LANES) {
        let mut lane = Lane { i: [0; 4], q: [0; 4], labels: 0, distance: 0, spare: i32::MAX };
        // Entry k, l of n streams stands at (2n - 1 - k) k / 2 + l - k - 1.
        macro_rules! row {
            ($k:literal $(, $l:literal)*) => {
                if $k < N {
                    #[allow(unused_mut)]
                    let mut y = (heard.re[$k][at], heard.im[$k][at]);
                    $(if $l < N {
                        let entry = (2 * N - 1 - $k) * $k / 2 + $l - $k - 1;
                        y = lane.without::<OF_Q>(y, (channel.re[entry][at], channel.im[entry][at]), $l);
                    })*
                    lane.round::<OF_I, OF_Q>($k, y, channel.diagonal[$k][at]);
                }
            };
        }
        row!(3);
        row!(2, 3);
        row!(1, 2, 3);
        row!(0, 1, 2, 3);
        found.labels[at] = lane.labels;
        found.distance[at] = lane.distance;
        found.spare[at] = lane.spare;
        failed += u32::from(lane.spare <= 0);
    }
    failed
}

macro_rules! kinds {
    ($($name:ident $streams:literal $bits:literal $of_i:literal $of_q:literal;)*) => {
        $(#[inline(never)]
        fn $name(channel: &Channel, heard: &Heard, count: usize, found: &mut Found) -> u32 {
            detect::<$streams, $of_i, $of_q>(channel, heard, count, found)
        })*

        /// Detects a symbol, and says how many lanes are left to the search.
        pub type Detect = fn(&Channel, &Heard, usize, &mut Found) -> u32;

        /// The way of a number of streams and of bits of a label.
        pub fn way(streams: usize, bits: u32) -> Detect {
            match (streams, bits) {
                $(($streams, $bits) => $name,)*
                _ => unreachable!(),
            }
        }
    };
}

kinds! {
    one_bpsk 1 1 1 0; one_qpsk 1 2 1 1; one_16 1 4 2 2; one_64 1 6 3 3;
    two_bpsk 2 1 1 0; two_qpsk 2 2 1 1; two_16 2 4 2 2; two_64 2 6 3 3;
    three_bpsk 3 1 1 0; three_qpsk 3 2 1 1; three_16 3 4 2 2; three_64 3 6 3 3;
    four_bpsk 4 1 1 0; four_qpsk 4 2 1 1; four_16 4 4 2 2; four_64 4 6 3 3;
}

/// The distances of the lanes that aren't left to the search.
pub fn sum(found: &Found, count: usize) -> u64 {
    let (mut low, mut high) = (0u32, 0u32);
    for (distance, spare) in found.distance[..count].iter().zip(&found.spare[..count]) {
        // All ones where it counts.
        let taken = distance & -i32::from(*spare > 0) as u32;
        low = low.wrapping_add(taken & 0xffff);
        high = high.wrapping_add(taken >> 16);
    }
    u64::from(low) + (u64::from(high) << 16)
}

/// The labels of a vector in an octet each, the first stream lowest.
pub fn labels(points: &[Point; 4], streams: usize, bits: u32) -> u32 {
    points[..streams].iter().rev().fold(0, |labels, point| labels << 8 | u32::from(crate::results::label(point, bits)))
}

/// The checksum of a line: 256 jobs, detected so often, in lanes, from samples that stand ready (`lanes`) or from a capture's
/// octets (`octets`).
pub fn run(words: &[String]) -> Option<u64> {
    let [kind, streams, modulation, noise, count] = words else {
        return None;
    };
    if kind != "lanes" && kind != "octets" {
        return None;
    }
    let streams: usize = streams.parse().ok()?;
    let (bits, i_levels, q_levels) = match modulation.as_str() {
        "bpsk" => (1, 2, 1),
        "qpsk" => (2, 2, 2),
        "qam16" => (4, 4, 4),
        "qam64" => (6, 8, 8),
        _ => return None,
    };
    let noise: u64 = noise.parse().ok()?;
    let count: u32 = count.parse().ok()?;
    let mut random = Random::new(1);
    let jobs: Vec<Job> = (0..256).map(|_| detecting::made(&mut random, streams, i_levels, q_levels, noise, false)).collect();
    let mut blocks = Vec::new();
    for jobs in jobs.chunks(LANES) {
        let (mut channel, mut heard, mut octets) = (Channel::new(), Heard::new(bits), Vec::new());
        for (lane, job) in jobs.iter().enumerate() {
            channel.set(lane, job);
            for (k, y) in job.y[..streams].iter().enumerate() {
                (heard.re[k][lane], heard.im[k][lane]) = (y.re, y.im);
                octets.extend(y.re.to_be_bytes());
                octets.extend(y.im.to_be_bytes());
            }
        }
        blocks.push((jobs, channel, heard, octets));
    }
    let (way, mut found) = (way(streams, bits), Found::new());
    let mut checksum = 0u64;
    for left in (0..count).rev() {
        for (jobs, channel, heard, octets) in &mut blocks {
            if kind == "octets" {
                hear(streams, octets, 0, heard);
            }
            let failed = way(channel, heard, jobs.len(), &mut found);
            checksum = checksum.wrapping_add(sum(&found, jobs.len()));
            for (lane, job) in jobs.iter().enumerate().take(if failed > 0 { LANES } else { 0 }) {
                if found.spare[lane] <= 0 {
                    let (points, distance) = detecting::found(job);
                    found.labels[lane] = labels(&points, streams, bits);
                    checksum = checksum.wrapping_add(distance as u64);
                }
            }
            if left == 0 {
                let folded = |sum: u64, labels: &u32| (sum ^ u64::from(*labels)).wrapping_mul(0x100_0000_01b3);
                checksum = found.labels[..jobs.len()].iter().fold(checksum, folded);
            }
        }
    }
    Some(checksum)
}

#[inline(always)]
fn hear_in<const N: usize>(octets: &[u8], from: usize, heard: &mut Heard) {
    for (at, part) in octets.chunks_exact(8 * N).enumerate().take(LANES - from) {
        for k in 0..N {
            heard.re[k][from + at] = i32::from_be_bytes(part[8 * k..8 * k + 4].try_into().unwrap());
            heard.im[k][from + at] = i32::from_be_bytes(part[8 * k + 4..8 * k + 8].try_into().unwrap());
        }
    }
}

/// Puts the samples of neighbouring subcarriers into lanes.
pub fn hear(streams: usize, octets: &[u8], from: usize, heard: &mut Heard) {
    match streams {
        1 => hear_in::<1>(octets, from, heard),
        2 => hear_in::<2>(octets, from, heard),
        3 => hear_in::<3>(octets, from, heard),
        _ => hear_in::<4>(octets, from, heard),
    }
}

/// The samples of a lane, for the search.
pub fn fill(job: &mut Job, heard: &Heard, lane: usize) {
    let n = usize::from(job.streams);
    for (k, y) in job.y.iter_mut().enumerate().take(n) {
        *y = Complex { re: heard.re[k][lane], im: heard.im[k][lane] };
    }
}

#[cfg(test)]
mod tests {
    use super::*;

    /// A job with numbers of all sizes, many of them at ties.
    fn changed(random: &mut Random, job: &mut Job, family: u64) {
        for k in 0..usize::from(job.streams) {
            match family {
                0 => {}
                1 => job.y[k] = Complex { re: 0, im: 0 },
                2 => job.d[k] = 0,
                3 => job.d[k] = LIMIT - 1,
                4 => job.d[k] = 1 + (random.draw() % 8) as u16,
                5 => job.y[k] = Complex { re: i32::MIN, im: i32::MAX },
                6 => job.y[k] = Complex { re: (random.draw() as i32) << 1, im: (random.draw() as i32) << 1 },
                7 => job.y[k].re = 2 * i32::from(job.d[k]) * (random.draw() % 5) as i32,
                _ => job.above = [(i16::MIN, i16::MAX); 6],
            }
        }
    }

    #[test]
    fn lanes_that_pass_have_what_the_search_finds() {
        let mut random = Random::new(5);
        let mut passed = 0;
        for (bits, i, q) in [(1, 2, 1), (2, 2, 2), (4, 4, 4), (6, 8, 8)] {
            for streams in 1..5 {
                for (family, noise) in [0, 1, 2, 3, 4, 5, 6, 7, 8].into_iter().flat_map(|family| [0, 8, 60, 200].map(|noise| (family, noise))) {
                    let (mut channel, mut heard, mut found) = (Channel::new(), Heard::new(bits), Found::new());
                    let jobs: Vec<Job> = (0..16)
                        .map(|lane| {
                            let mut job = detecting::made(&mut random, streams, i, q, noise, false);
                            changed(&mut random, &mut job, family);
                            channel.set(lane, &job);
                            for k in 0..streams {
                                (heard.re[k][lane], heard.im[k][lane]) = (job.y[k].re, job.y[k].im);
                            }
                            job
                        })
                        .collect();
                    way(streams, bits)(&channel, &heard, jobs.len(), &mut found);
                    for (lane, job) in jobs.iter().enumerate().filter(|(lane, _)| found.spare[*lane] > 0) {
                        let (points, distance) = detecting::found(job);
                        assert_eq!(found.labels[lane], labels(&points, streams, bits), "{streams} {bits} {family}");
                        assert_eq!(u128::from(found.distance[lane]), distance, "{streams} {bits} {family}");
                        passed += 1;
                    }
                }
            }
        }
        assert!(passed > 1000, "{passed}");
    }
}
