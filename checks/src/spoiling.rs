//! Valid files, spoiled at random.
use crate::making::CHEAP;
use crate::random::Random;
use crate::walking::{Format, Frame, Walk};

/// Spoils a file, and says how. `other` is a file from which pieces are taken. A capture stays cheap to detect.
pub fn spoil(random: &mut Random, format: Format, octets: &[u8], other: &[u8]) -> (Vec<u8>, &'static str) {
    for _ in 0..8 {
        let (spoiled, how) = try_once(random, format, octets, other);
        if format != Format::Capture || is_cheap(octets, &spoiled) {
            return (spoiled, how);
        }
    }
    cut(random, octets)
}

fn try_once(random: &mut Random, format: Format, octets: &[u8], other: &[u8]) -> (Vec<u8>, &'static str) {
    match random.below(10) {
        0 => cut(random, octets),
        1..=2 => flip(random, octets),
        3..=4 => field(random, format, octets),
        5 => count(random, octets),
        6 => append(random, octets, other),
        7 => splice(random, octets, other),
        8 => shift(random, octets),
        _ => noise(random, octets),
    }
}

/// Spoils a file of certificates, mostly in the first records.
pub fn spoil_certificates(random: &mut Random, octets: &[u8]) -> Vec<u8> {
    let mut spoiled = octets.to_vec();
    let reach = if random.once_in(4) { octets.len() } else { octets.len().min(200) };
    match random.below(8) {
        0 => return cut(random, octets).0,
        1 => return append(random, octets, octets).0,
        2 => return shift(random, octets).0,
        // The number of records.
        3 => spoiled[5 + random.below(8)] ^= 1 << random.below(8),
        4..=5 => {
            let any = random.octet();
            spoiled[random.below(reach)] = random.one_of(&[0, 1, 2, 3, 4, 255, any]);
        }
        // A mark of the last record, mostly.
        6 => *spoiled.last_mut().unwrap() ^= 1,
        _ => {
            for _ in 0..random.between(1, 3) {
                spoiled[random.below(reach)] ^= 1 << random.below(8);
            }
        }
    }
    spoiled
}

/// Spoils a file of clause 18 frames, mostly in the head of its first frame.
pub fn spoil_legacy(random: &mut Random, octets: &[u8]) -> Vec<u8> {
    let mut spoiled = octets.to_vec();
    match random.below(8) {
        0 => return cut(random, octets).0,
        1 => return append(random, octets, octets).0,
        2 => return shift(random, octets).0,
        3 => return count(random, octets).0,
        4 => return flip(random, octets).0,
        _ => {
            let any = random.octet();
            let at = random.below(octets.len().min(11));
            spoiled[at] = random.one_of(&[0, 1, 7, 8, 15, 16, 127, 128, 255, any]);
        }
    }
    spoiled
}

fn cut(random: &mut Random, octets: &[u8]) -> (Vec<u8>, &'static str) {
    let kept = if random.once_in(4) { random.below(octets.len().min(20)) } else { random.below(octets.len()) };
    (octets[..kept].to_vec(), "cut off")
}

fn flip(random: &mut Random, octets: &[u8]) -> (Vec<u8>, &'static str) {
    let mut spoiled = octets.to_vec();
    for _ in 0..random.between(1, 3) {
        let reach = if random.once_in(3) { spoiled.len().min(16) } else { spoiled.len() };
        let at = random.below(reach);
        spoiled[at] ^= 1 << random.below(8);
    }
    (spoiled, "with bits flipped")
}

/// Sets a field of a frame's head, or an octet of its body, to some value.
fn field(random: &mut Random, format: Format, octets: &[u8]) -> (Vec<u8>, &'static str) {
    let mut spoiled = octets.to_vec();
    let walk = Walk::of(format, octets);
    if walk.frames.is_empty() {
        return count(random, octets);
    }
    let frame = &walk.frames[random.below(walk.frames.len())];
    let at = frame.start + random.one_of(&[0, 1, 1, 2, 3, 3, 4, 5]);
    let any = random.octet();
    let value = random.one_of(&[0, 1, 2, 3, 31, 32, 127, 128, 255, any]);
    spoiled[at.min(octets.len() - 1)] = value;
    if random.once_in(4) {
        let inside = random.below(octets.len());
        spoiled[inside] = value;
    }
    (spoiled, "with a field changed")
}

/// Changes the number of frames.
fn count(random: &mut Random, octets: &[u8]) -> (Vec<u8>, &'static str) {
    let mut spoiled = octets.to_vec();
    let count = u16::from_be_bytes([octets[5], octets[6]]);
    let value: u16 = random.one_of(&[0, count.wrapping_sub(1), count + 1, count + 2, 255, 256, 65535]);
    spoiled[5..7].copy_from_slice(&value.to_be_bytes());
    (spoiled, "with another count")
}

fn append(random: &mut Random, octets: &[u8], other: &[u8]) -> (Vec<u8>, &'static str) {
    let mut spoiled = octets.to_vec();
    match random.below(3) {
        0 => spoiled.push(random.octet()),
        1 => spoiled.extend_from_slice(other),
        _ => spoiled.extend_from_slice(octets),
    }
    (spoiled, "with more behind it")
}

fn splice(random: &mut Random, octets: &[u8], other: &[u8]) -> (Vec<u8>, &'static str) {
    let mut spoiled = octets[..random.below(octets.len())].to_vec();
    spoiled.extend_from_slice(&other[random.below(other.len())..]);
    (spoiled, "spliced with another")
}

/// Takes octets out, or puts some in.
fn shift(random: &mut Random, octets: &[u8]) -> (Vec<u8>, &'static str) {
    let at = random.below(octets.len());
    let mut spoiled = octets[..at].to_vec();
    let count = random.one_of(&[1, 2, 4, 8]);
    if random.once_in(2) {
        let until = (at + count).min(octets.len());
        spoiled.extend_from_slice(&octets[until..]);
    } else {
        spoiled.extend(random.octets(count));
        spoiled.extend_from_slice(&octets[at..]);
    }
    (spoiled, "with its octets shifted")
}

/// Random octets, mostly behind a good beginning.
fn noise(random: &mut Random, octets: &[u8]) -> (Vec<u8>, &'static str) {
    let mut spoiled = octets[..random.one_of(&[0, 4, 5, 7, 11]).min(octets.len())].to_vec();
    let count = random.below(300);
    spoiled.extend(random.octets(count));
    (spoiled, "replaced by noise")
}

/// Whether each frame with a large grid stands in the valid file at the same place and with as large a grid, and few
/// octets of its jobs are changed.
fn is_cheap(octets: &[u8], spoiled: &[u8]) -> bool {
    let walk = Walk::of(Format::Capture, octets);
    let stands = |frame: &Frame| {
        let is_same = |other: &&Frame| {
            let place = |frame: &Frame| (frame.start, frame.body, frame.rate.streams());
            place(other) == place(frame) && other.rate.vectors() > CHEAP
        };
        let (from, end) = (frame.start + 4, frame.body + frame.symbols as usize * frame.symbol_size());
        let changed = || octets[from..end].iter().zip(&spoiled[from..end]).filter(|(one, two)| one != two).count();
        walk.frames.iter().find(is_same).is_some_and(|other| end <= other.end && changed() <= 3)
    };
    Walk::of(Format::Capture, spoiled).frames.iter().all(|frame| frame.rate.vectors() <= CHEAP || stands(frame))
}
