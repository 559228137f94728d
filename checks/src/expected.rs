//! What the program has to write for a file, as far as it can be said without a second receiver.
use crate::channel::Channel;
use crate::making::CHEAP;
use crate::rates::{Point, Rate};
use crate::walking::{Frame, Walk};

/// The sums of the distances of a frame's jobs.
#[derive(Clone, Copy, Default, PartialEq, Eq, Debug)]
pub struct Sums {
    pub data: u128,
    pub pilot: u128,
}

/// The capture of version 2 that a whole capture comes to.
pub fn upgraded(walk: &Walk, octets: &[u8]) -> Vec<u8> {
    let mut made = octets[..7].to_vec();
    made[4] = 2;
    for frame in &walk.frames {
        made.extend_from_slice(&octets[frame.start..frame.start + 4]);
        for triangle in &frame.triangles {
            made.push(triangle.is_none().into());
            if let Some(at) = triangle {
                made.extend_from_slice(&octets[*at..at + frame.rate.triangle()]);
            }
        }
        made.extend_from_slice(&octets[frame.body..frame.end]);
    }
    made
}

/// The file of the simulator's sample frames for a seed: frames of one rate and one number of octets.
pub fn sample_frames(seed: u64, count: u16, rate: Rate, length: u16) -> Vec<u8> {
    let mut words = Words::new(seed);
    let mut made = b"HTTX\x01".to_vec();
    made.extend(count.to_be_bytes());
    for _ in 0..count {
        made.extend([rate.wide.into(), rate.mcs]);
        made.extend(length.to_be_bytes());
        made.push(1 + words.below(127) as u8);
        made.extend((0..length).map(|_| words.below(256) as u8));
    }
    made
}

/// The text of `rx` on a capture in which every frame comes back with its octets and the least distances are the noise:
/// for a whole file of frames, and the sums of the noise.
pub fn returned(walk: &Walk, octets: &[u8], sums: &[Sums]) -> String {
    let mut text = String::new();
    for (number, (frame, sums)) in walk.frames.iter().zip(sums).enumerate() {
        let hex: String = octets[frame.body..frame.end].iter().map(|octet| format!("{octet:02x}")).collect();
        text += &format!("frame {number} data {} pilot {} code 0 octets {hex}\n", sums.data, sums.pilot);
    }
    text + &walk.last_line() + "\n"
}

/// The capture that a whole file of symbols comes to in the simulator's channel, and the sums of its noise.
pub fn passed(walk: &Walk, octets: &[u8], seed: u64, noise: u16) -> (Vec<u8>, Vec<Sums>) {
    let mut words = Words::new(seed);
    let mut made = b"HTCP\x01".to_vec();
    made.extend(walk.count.to_be_bytes());
    let sums = walk.frames.iter().map(|frame| pass(frame, octets, noise, &mut words, &mut made)).collect();
    (made, sums)
}

fn pass(frame: &Frame, octets: &[u8], noise: u16, words: &mut Words, made: &mut Vec<u8>) -> Sums {
    let (rate, streams) = (frame.rate, frame.rate.streams());
    made.extend_from_slice(&octets[frame.start..frame.start + 4]);
    let begin = made.len();
    for _ in 0..rate.carriers() {
        for row in 0..streams {
            made.extend((64 + words.below(192) as u16).to_be_bytes());
            for _ in 2 * (row + 1)..2 * streams {
                made.extend((words.below(129) as i16 - 64).to_be_bytes());
            }
        }
    }
    let triangles = made[begin..].to_vec();
    let mut sums = Sums::default();
    let points = octets[frame.body..frame.end]
        .chunks_exact(2)
        .map(|octets| (octets[0] as i8, octets[1] as i8))
        .collect::<Vec<_>>();
    for symbol in points.chunks_exact(streams * rate.carriers()) {
        let carriers = symbol.chunks_exact(streams).zip(triangles.chunks_exact(rate.triangle()));
        for (carrier, (points, triangle)) in carriers.enumerate() {
            for sent in Channel::of(streams, triangle).sent(points) {
                for part in [sent.0, sent.1] {
                    let added = words.below(2 * u32::from(noise) + 1) as i64 - i64::from(noise);
                    made.extend(((part + added) as i32).to_be_bytes());
                    let sum = if rate.pilot_on(carrier).is_some() { &mut sums.pilot } else { &mut sums.data };
                    *sum += u128::from(added.unsigned_abs().pow(2));
                }
            }
        }
    }
    sums
}

/// The simulator's words: PCG XSH RR 64/32 on stream 54.
pub(crate) struct Words(u64);

impl Words {
    pub fn new(seed: u64) -> Self {
        let mut words = Words(seed.wrapping_add(109));
        words.step();
        words
    }

    fn step(&mut self) {
        self.0 = self.0.wrapping_mul(6_364_136_223_846_793_005).wrapping_add(109);
    }

    pub fn below(&mut self, bound: u32) -> u32 {
        let z = self.0;
        self.step();
        (((z >> 18 ^ z) >> 27) as u32).rotate_right((z >> 59) as u32) % bound
    }
}

/// A job: a channel and what was received.
struct Job {
    channel: Channel,
    received: Vec<(i64, i64)>,
}

impl Job {
    fn residuals(&self, points: &[Point]) -> impl Iterator<Item = i64> {
        let sent = self.channel.sent(points);
        self.received
            .iter()
            .zip(sent)
            .flat_map(|(y, sent)| [y.0 - sent.0, y.1 - sent.1])
            .collect::<Vec<_>>()
            .into_iter()
    }

    fn distance(&self, points: &[Point]) -> u128 {
        self.residuals(points).map(|part| u128::from(part.unsigned_abs()).pow(2)).sum()
    }

    /// Whether the vector is the first nearest of the constellation, as far as this can be found out quickly: by a walk
    /// over a small grid; by the sizes of what is left over, where every other vector is farther by them; and otherwise
    /// among the vectors that differ in one stream.
    fn is_first_nearest(&self, points: &[Point], distance: u128, constellation: &[Point]) -> bool {
        if (constellation.len() as u64).pow(points.len() as u32) <= CHEAP {
            return self
                .walk(&mut Vec::new(), points.len(), constellation)
                .is_some_and(|(nearest, _)| nearest == points);
        }
        let has_large_diagonals = self.channel.diagonal.iter().all(|diagonal| *diagonal >= 64);
        if has_large_diagonals && self.residuals(points).all(|part| part.abs() <= 8) {
            return true;
        }
        let mut other = points.to_vec();
        (0..points.len()).all(|stream| {
            let is_fine = constellation.iter().all(|point| {
                other[stream] = *point;
                let farther = self.distance(&other);
                farther > distance || farther == distance && other.as_slice() >= points
            });
            other[stream] = points[stream];
            is_fine
        })
    }

    /// The first nearest vector that begins with these points, by trying all.
    fn walk(&self, begun: &mut Vec<Point>, streams: usize, constellation: &[Point]) -> Option<(Vec<Point>, u128)> {
        if begun.len() == streams {
            return Some((begun.clone(), self.distance(begun)));
        }
        let mut best: Option<(Vec<Point>, u128)> = None;
        for point in constellation {
            begun.push(*point);
            let found = self.walk(begun, streams, constellation);
            begun.pop();
            if let Some(found) = found
                && best.as_ref().is_none_or(|best| found.1 < best.1)
            {
                best = Some(found);
            }
        }
        best
    }
}

/// What the job lines of a capture say: the sums of each frame, and the distance and the points of each data job.
pub struct Found {
    pub sums: Vec<Sums>,
    pub data: Vec<(u128, Vec<Point>)>,
}

/// Checks the job lines of a capture, and gives what they say.
pub fn check_jobs(walk: &Walk, octets: &[u8], lines: &[&str]) -> Result<Found, String> {
    let mut lines = lines.iter();
    let mut found = Found { sums: Vec::new(), data: Vec::new() };
    for (number, frame) in walk.frames.iter().enumerate() {
        let (rate, streams) = (frame.rate, frame.rate.streams());
        let constellation = rate.constellation();
        let mut sums = Sums::default();
        let mut at = frame.body;
        for symbol in 0..frame.symbols {
            for (carrier, triangle) in frame.present() {
                let line =
                    lines.next().ok_or_else(|| format!("the line of job {number} {symbol} {carrier} is missing"))?;
                let received = octets[at..at + 8 * streams].chunks_exact(8).map(sample).collect();
                at += 8 * streams;
                let channel = Channel::of(streams, &octets[triangle..triangle + rate.triangle()]);
                let job = Job { channel, received };
                let (distance, points) = parse(line, &format!("job {number} {symbol} {carrier} "), streams)
                    .ok_or(format!("'{line}' isn't the line of job {number} {symbol} {carrier}"))?;
                let is_right = distance == job.distance(&points)
                    && match rate.pilot_on(carrier) {
                        Some(pilot) => {
                            points.iter().enumerate().all(|(stream, point)| *point == rate.pilot(symbol, pilot, stream))
                        }
                        None => {
                            points.iter().all(|point| constellation.contains(point))
                                && job.is_first_nearest(&points, distance, &constellation)
                        }
                    };
                if !is_right {
                    return Err(format!("'{line}' is wrong"));
                }
                if rate.pilot_on(carrier).is_some() {
                    sums.pilot += distance;
                } else {
                    sums.data += distance;
                    found.data.push((distance, points));
                }
            }
        }
        found.sums.push(sums);
    }
    match lines.next() {
        Some(line) => Err(format!("'{line}' is too much")),
        None => Ok(found),
    }
}

pub(crate) fn sample(octets: &[u8]) -> (i64, i64) {
    let part = |at: usize| i64::from(i32::from_be_bytes(octets[at..at + 4].try_into().unwrap()));
    (part(0), part(4))
}

/// The distance and the points of a job line that begins so. Numbers are written in one way alone.
fn parse(line: &str, begin: &str, streams: usize) -> Option<(u128, Vec<Point>)> {
    let mut words = line.strip_prefix(begin)?.split(' ');
    let distance = number(words.next()?)?;
    let mut points = Vec::with_capacity(streams);
    for _ in 0..streams {
        points.push((level(words.next()?)?, level(words.next()?)?));
    }
    words.next().is_none().then_some((distance, points))
}

/// A decimal number without leading zeros.
pub fn number(word: &str) -> Option<u128> {
    let number: u128 = word.parse().ok()?;
    (number.to_string() == word).then_some(number)
}

fn level(word: &str) -> Option<i8> {
    let level: i8 = word.parse().ok()?;
    (level.to_string() == word).then_some(level)
}

/// What a frame was found to hold.
#[derive(Clone, PartialEq, Eq, Debug)]
pub enum Outcome<'a> {
    SeedZero,
    Hex(&'a str),
}

/// The Hamming distance and the outcome of the line of a frame, whose sums are as given. None where the line isn't so.
pub fn frame_line<'a>(
    line: &'a str,
    number_of_frame: usize,
    frame: &Frame,
    sums: &Sums,
) -> Option<(u128, Outcome<'a>)> {
    let begin = format!("frame {number_of_frame} data {} pilot {} code ", sums.data, sums.pilot);
    let (code, outcome) = line.strip_prefix(&begin)?.split_once(' ')?;
    let code = number(code)?;
    if outcome == "seed zero" {
        return Some((code, Outcome::SeedZero));
    }
    let hex = outcome.strip_prefix("octets ")?;
    let is_hex = hex.len() == 2 * usize::from(frame.length)
        && hex.bytes().all(|digit| matches!(digit, b'0'..=b'9' | b'a'..=b'f'));
    is_hex.then_some((code, Outcome::Hex(hex)))
}
