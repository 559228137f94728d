//! What `radio lchannel` and `radio lrx` do, in plain Rust: clause 18 frames read whole, sent, and passed through the
//! simulator's channel; and captures of such frames received as they come. And files of random frames to try it on.
use crate::chain::{Chain, Spot};
use crate::decoding::period;
use crate::detecting::{Axes, Complex, Job, Ladder};
use crate::random::Random;
use crate::receiving::{Account, Fault, Input};
use crate::results::Results;
use crate::sending::{Words, coded, flip, input, level, output, scrambled};
use std::io::{BufReader, Read, Write};

/// The bits of a label, the data bits of a symbol and the coding rate of each rate.
pub const RATES: [(usize, usize, &str); 8] = [
    (1, 24, "half"),
    (1, 36, "three_quarters"),
    (2, 48, "half"),
    (2, 72, "three_quarters"),
    (4, 96, "half"),
    (4, 144, "three_quarters"),
    (6, 192, "two_thirds"),
    (6, 216, "three_quarters"),
];

pub const PILOTS: [usize; 4] = [5, 19, 32, 46];

/// The polarity of the pilots, 127 symbols of it: true where it is negative.
pub fn polarity() -> Vec<bool> {
    scrambled(127, &[], 0, 127)
}

/// For each label bit in turn the coded bit of the symbol that stands there.
fn sources(label_bits: usize) -> Vec<usize> {
    let share = 48 * label_bits;
    let s = (label_bits / 2).max(1);
    let mut sources = vec![0; share];
    for k in 0..share {
        let i = share / 16 * (k % 16) + k / 16;
        sources[s * (i / s) + (i + share - 16 * i / share) % s] = k;
    }
    sources
}

fn point(label: u8, bits: usize) -> (i32, i32) {
    match bits {
        1 => (level(label, 1).into(), 0),
        bits => {
            let axis = bits / 2;
            let (i, q) = (label >> axis, label & ((1 << axis) - 1));
            (level(i, axis as u32).into(), level(q, axis as u32).into())
        }
    }
}

fn lchannel(noise: u16, wrong: u64) {
    let octets = input();
    let mut random = Random::new(2);
    let frames = u16::from_be_bytes([octets[5], octets[6]]);
    let mut made = b"LGCP\x01".to_vec();
    made.extend(frames.to_be_bytes());
    let mut words = Words::new(42);
    let polarity = polarity();
    let spread = 2 * u32::from(noise) + 1;
    let mut at = 7;
    for _ in 0..frames {
        let (label_bits, data_bits, rate) = RATES[usize::from(octets[at])];
        let length = usize::from(u16::from_be_bytes([octets[at + 1], octets[at + 2]]));
        made.extend(&octets[at..at + 3]);
        let psdu = &octets[at + 4..at + 4 + length];
        let symbols = (22 + 8 * length).div_ceil(data_bits);
        let bits = scrambled(octets[at + 3], psdu, 6, symbols * data_bits);
        at += 4 + length;
        let sources = sources(label_bits);
        let mut code = coded(bits.into_iter(), period(rate).unwrap(), symbols * sources.len());
        if wrong > 0 {
            flip(&mut code, wrong, &mut random);
        }
        let diagonals: Vec<i32> = (0..52).map(|_| 64 + (words.draw() % 192) as i32).collect();
        for diagonal in &diagonals {
            made.extend((*diagonal as u16).to_be_bytes());
        }
        for (symbol, bits) in code.chunks_exact(sources.len()).enumerate() {
            let sign = if polarity[(symbol + 1) % 127] { -1 } else { 1 };
            let mut labels = sources.chunks_exact(label_bits);
            for (carrier, diagonal) in diagonals.iter().enumerate() {
                let (i, q) = match PILOTS.iter().position(|pilot| *pilot == carrier) {
                    Some(3) => (-sign, 0),
                    Some(_) => (sign, 0),
                    None => {
                        let places = labels.next().unwrap();
                        point(places.iter().fold(0, |label, place| label << 1 | u8::from(bits[*place])), label_bits)
                    }
                };
                for part in [i, q] {
                    let sample = diagonal * part + (words.draw() % spread) as i32 - i32::from(noise);
                    made.extend(sample.to_be_bytes());
                }
            }
        }
    }
    output(&made);
}

/// How the frames of a rate are coded.
pub fn chain(index: u8) -> Chain {
    let (bits, _, pattern) = RATES[usize::from(index)];
    let mut spots = vec![Spot { label: 0, shift: 0, lost: false }; 48 * bits];
    for (place, k) in sources(bits).into_iter().enumerate() {
        spots[k] = Spot { label: (place / bits) as u16, shift: (bits - 1 - place % bits) as u8, lost: false };
    }
    Chain { spots: vec![spots], bits: bits as u32, labels: 48, period: period(pattern).unwrap() }
}

fn ladder(size: u8) -> Ladder {
    Ladder { size, mask: ((1u16 << size) - 1) as u8 }
}

/// Both axes of a data subcarrier.
fn axes(bits: usize) -> Axes {
    match bits {
        1 => Axes { i: ladder(2), q: ladder(1) },
        bits => Axes { i: ladder(1 << (bits / 2)), q: ladder(1 << (bits / 2)) },
    }
}

fn receive<R: Read, W: Write>(source: R, results: &mut Results<W>) -> Result<u16, Fault> {
    let mut input = Input { source, at: 0 };
    for wanted in *b"LGCP" {
        input.octet("BadMagic", |octet| octet == wanted)?;
    }
    input.octet("BadVersion", |octet| octet == 1)?;
    let frames = input.pair()?;
    let negative = polarity();
    let mut made_for = None;
    for frame in 0..frames {
        let index = input.octet("BadMcs", |octet| octet < 8)?;
        let length = input.pair()?;
        if length == 0 || length > 4095 {
            return Err(Fault::Bad("BadLength", input.at - 2));
        }
        let mut diagonals = [0; 104];
        input.fill(&mut diagonals)?;
        let (bits, data_bits, _) = RATES[usize::from(index)];
        let symbols = (22 + 8 * usize::from(length)).div_ceil(data_bits);
        if made_for != Some(index) {
            results.set(chain(index));
            made_for = Some(index);
        }
        let mut jobs: Vec<(Job, Option<usize>)> = Vec::with_capacity(52);
        let mut data = 0;
        for (carrier, octets) in diagonals.chunks_exact(2).enumerate() {
            let mut job = Job { streams: 1, ..Job::default() };
            job.d[0] = u16::from_be_bytes([octets[0], octets[1]]);
            job.axes[0] = axes(bits);
            let is_pilot = PILOTS.contains(&carrier);
            jobs.push((job, (!is_pilot).then_some(data)));
            data += usize::from(!is_pilot);
        }
        results.open(symbols);
        for symbol in 0..symbols {
            let mut samples = [0; 416];
            input.fill(&mut samples)?;
            let is_negative = negative[(symbol + 1) % 127];
            for (carrier, ((job, data), octets)) in jobs.iter_mut().zip(samples.chunks_exact(8)).enumerate() {
                let read = crate::capturing::sample(octets);
                job.y[0] = Complex { re: read.re, im: read.im };
                if data.is_none() {
                    let mask = if is_negative != (carrier == PILOTS[3]) { 1 } else { 2 };
                    job.axes[0] = Axes { i: Ladder { size: 2, mask }, q: ladder(1) };
                }
                results.hear(*data, job);
            }
            results.end_symbol();
        }
        results.close(frame, length);
    }
    input.end()?;
    Ok(frames)
}

/// Receives a capture of clause 18 frames from a source.
pub fn receive_on<R: Read, W: Write>(source: R, sink: W) {
    let mut results = Results::new(sink);
    match receive(source, &mut results) {
        Ok(frames) => results.last(&format!("end {frames} frames\n")),
        Err(Fault::Bad(kind, offset)) => results.last(&format!("refused {kind} at {offset}\n")),
        Err(Fault::Read) => {}
    }
}

/// Writes a file of a number of frames of random octets.
fn write_frames(frames: u16, rate: u8, length: u16) {
    let mut random = Random::new(1);
    let mut made = b"LGTX\x01".to_vec();
    made.extend(frames.to_be_bytes());
    for _ in 0..frames {
        made.push(rate);
        made.extend(length.to_be_bytes());
        made.push(1 + (random.draw() % 127) as u8);
        made.extend((0..length).map(|_| random.draw() as u8));
    }
    output(&made);
}

/// Whether the words are a command or a file to be written.
pub fn run(words: &[String]) -> bool {
    let number = |at: usize, default: u64| words.get(at).and_then(|word| word.parse().ok()).unwrap_or(default);
    match words.first().map(String::as_str) {
        // The noise, and how many of a million coded bits are sent wrong.
        Some("lchannel") => lchannel(number(1, 0) as u16, number(2, 0)),
        Some("lrx") => receive_on(BufReader::new(std::io::stdin().lock()), std::io::stdout().lock()),
        // The number of frames, the index of the rate and the length.
        Some("lframes") => write_frames(number(1, 1) as u16, number(2, 0) as u8, number(3, 1500) as u16),
        _ => return false,
    }
    true
}
