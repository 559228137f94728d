//! Small valid files of every format, made at random.
use crate::channel::Channel;
use crate::random::Random;
use crate::rates::{Point, Rate};
use crate::walking::Format;

/// Jobs whose grid has more vectors than this are made easy: their channel has no small diagonal and their samples are
/// those of a vector with little noise. Where the diagonals are 0, or the samples far outside of the grid, the search
/// may walk the whole grid, which takes seconds for a job of four streams in 64-QAM.
pub const CHEAP: u64 = 256;

/// Jobs with a diagonal of this or more aren't found in lanes.
const LANES_END: u16 = 1 << 14;

/// A valid file of the format, whose first frame has the rate.
pub fn file(random: &mut Random, format: Format, first: Rate) -> Vec<u8> {
    let version = if format == Format::Capture { random.one_of(&[1, 2]) } else { 1 };
    let frames = if random.once_in(50) { 0 } else { random.one_of(&[1, 1, 1, 2, 2, 3]) };
    let mut octets = format.magic().to_vec();
    octets.push(version);
    octets.extend((frames as u16).to_be_bytes());
    for frame in 0..frames {
        let rate = if frame == 0 { first } else { Rate::numbered(random.below(64)) };
        let length = length(random, rate);
        octets.extend([rate.wide.into(), rate.mcs]);
        octets.extend(length.to_be_bytes());
        match format {
            Format::Frames => {
                let any = random.between(1, 127) as u8;
                octets.push(random.one_of(&[1, 64, 127, any]));
                octets.extend(random.octets(length.into()));
            }
            Format::Symbols => symbols(random, rate, length, &mut octets),
            Format::Capture => capture(random, rate, length, version, &mut octets),
        }
    }
    octets
}

/// A length of few symbols.
fn length(random: &mut Random, rate: Rate) -> u16 {
    let longest = if rate.bits() == 1 { 8 } else { 24 };
    if random.once_in(40) { random.between(60, 120) as u16 } else { random.between(1, longest) as u16 }
}

fn vector(random: &mut Random, rate: Rate, symbol: u32, carrier: usize) -> Vec<Point> {
    match rate.pilot_on(carrier) {
        Some(pilot) => (0..rate.streams()).map(|stream| rate.pilot(symbol, pilot, stream)).collect(),
        None => {
            let constellation = rate.constellation();
            (0..rate.streams()).map(|_| random.one_of(&constellation)).collect()
        }
    }
}

fn symbols(random: &mut Random, rate: Rate, length: u16, octets: &mut Vec<u8>) {
    for symbol in 0..rate.symbols(length) {
        for carrier in 0..rate.carriers() {
            octets.extend(vector(random, rate, symbol, carrier).iter().flat_map(|(i, q)| [*i as u8, *q as u8]));
        }
    }
}

/// What a frame of a capture holds.
#[derive(Clone, Copy, PartialEq)]
enum Content {
    /// Points, sent through channels without small diagonals, with little noise.
    Sent,
    /// Small numbers, so that many vectors are as near.
    Ties,
    /// Ends of the types, and anything.
    Extremes,
}

/// The octets of a triangle.
fn triangle(random: &mut Random, streams: usize, content: Content) -> Vec<u8> {
    let is_wide = random.once_in(4);
    let mut octets = Vec::new();
    for row in 0..streams {
        octets.extend(diagonal(random, content, is_wide).to_be_bytes());
        for _ in 2 * (row + 1)..2 * streams {
            octets.extend(entry(random, content, is_wide).to_be_bytes());
        }
    }
    octets
}

fn diagonal(random: &mut Random, content: Content, is_wide: bool) -> u16 {
    match content {
        Content::Sent if is_wide => {
            let any = random.between(64, 65535) as u16;
            random.one_of(&[LANES_END - 1, LANES_END, 65535, any])
        }
        Content::Sent => random.between(64, 255) as u16,
        Content::Ties => random.between(0, 8) as u16,
        Content::Extremes => {
            let any = random.draw() as u16;
            random.one_of(&[0, 0, 1, 255, LANES_END - 1, LANES_END, 65534, 65535, any])
        }
    }
}

/// A part of an entry above the diagonal.
fn entry(random: &mut Random, content: Content, is_wide: bool) -> i16 {
    let any = random.draw() as i16;
    match content {
        Content::Sent if is_wide => any,
        Content::Sent => random.between(-64, 64) as i16,
        Content::Ties => random.between(-2, 2) as i16,
        Content::Extremes => random.one_of(&[0, 1, -1, i16::MIN, i16::MAX, any]),
    }
}

fn capture(random: &mut Random, rate: Rate, length: u16, version: u8, octets: &mut Vec<u8>) {
    let contents = [Content::Sent, Content::Ties, Content::Extremes];
    let content = if rate.vectors() <= CHEAP { random.one_of(&contents) } else { Content::Sent };
    let noise = random.one_of(&[0, 1, 8]);
    let erased = if version == 2 { erased(random, rate) } else { 0 };
    let mut channels = Vec::new();
    for carrier in 0..rate.carriers() {
        let is_erased = erased >> carrier & 1 == 1;
        if version == 2 {
            octets.push(is_erased.into());
        }
        if !is_erased {
            let triangle = triangle(random, rate.streams(), content);
            channels.push((carrier, Channel::of(rate.streams(), &triangle)));
            octets.extend(triangle);
        }
    }
    for symbol in 0..rate.symbols(length) {
        for (carrier, channel) in &channels {
            let sent = channel.sent(&vector(random, rate, symbol, *carrier));
            for (re, im) in sent {
                for part in [re, im] {
                    octets.extend(sample(random, content, part as i32, noise).to_be_bytes());
                }
            }
        }
    }
}

fn sample(random: &mut Random, content: Content, part: i32, noise: i64) -> i32 {
    match content {
        Content::Sent => part + random.between(-noise, noise) as i32,
        Content::Ties => random.between(-6, 6) as i32,
        Content::Extremes => {
            let any = random.draw() as i32;
            random.one_of(&[0, 1, -1, i32::MIN, i32::MAX, part, any])
        }
    }
}

/// The erased subcarriers of a frame: bit c is that of subcarrier c. At least one is present.
fn erased(random: &mut Random, rate: Rate) -> u128 {
    let all = (1 << rate.carriers()) - 1;
    let pilots: u128 = rate.pilots().iter().map(|carrier| 1 << carrier).sum();
    let chosen = u128::from(random.draw()) << 64 | u128::from(random.draw());
    let sparse = chosen & (chosen >> 3) & (chosen >> 7);
    let one = 1 << random.below(rate.carriers());
    let wanted = random.one_of(&[
        0,
        one,
        sparse,
        chosen,
        pilots,
        all & !pilots,
        all & !one,
        all & !(1 << (rate.carriers() - 1)),
    ]);
    if wanted & all == all { 0 } else { wanted & all }
}

#[cfg(test)]
mod tests {
    use super::*;
    use crate::walking::Walk;

    #[test]
    fn whole() {
        for number in 0..2_000 {
            let mut random = Random::of_input(1, number);
            for format in [Format::Frames, Format::Symbols, Format::Capture] {
                let octets = file(&mut random, format, Rate::numbered(number as usize));
                let walk = Walk::of(format, &octets);
                assert_eq!(walk.fault, None, "{format:?} {number}");
                assert_eq!(walk.whole(), usize::from(walk.count));
            }
        }
    }
}
