//! Bundles of captures, made and spoiled at random.
use crate::making::{self, CHEAP};
use crate::random::Random;
use crate::rates::Rate;
use crate::spoiling;
use crate::walking::Format;

/// A capture of cheap jobs, or what became of one, or no capture at all.
fn lane(random: &mut Random) -> Vec<u8> {
    let rate = loop {
        let rate = Rate::numbered(random.below(64));
        if rate.vectors() <= CHEAP || random.once_in(4) {
            break rate;
        }
    };
    let octets = making::file(random, Format::Capture, rate);
    match random.below(10) {
        0..=5 => octets,
        6 => Vec::new(),
        7 => {
            let count = random.below(30);
            random.octets(count)
        }
        _ => spoiling::spoil(random, Format::Capture, &octets, b"HTCP").0,
    }
}

/// A bundle of 1 to 16 captures.
pub fn file(random: &mut Random) -> Vec<u8> {
    let count = random.one_of(&[1, 1, 2, 3, 5, 16]);
    let mut octets = b"HTMB\x01".to_vec();
    octets.push(count);
    for _ in 0..count {
        let lane = lane(random);
        octets.extend((lane.len() as u32).to_be_bytes());
        octets.extend(lane);
    }
    octets
}

/// Spoils a bundle, mostly in its head and its sizes.
pub fn spoil(random: &mut Random, octets: &[u8]) -> Vec<u8> {
    let mut spoiled = octets.to_vec();
    match random.below(6) {
        0 => spoiled.truncate(random.below(octets.len())),
        1 => spoiled.push(random.octet()),
        2 => spoiled[5] = random.one_of(&[0, 17, 255, octets[5].wrapping_add(1), octets[5].wrapping_sub(1)]),
        // The first size, by a little or by much.
        3 => spoiled[9] = spoiled[9].wrapping_add(random.one_of(&[1, 2, 255])),
        4 => spoiled[6] = random.octet(),
        _ => {
            let at = random.below(octets.len().min(10));
            spoiled[at] ^= 1 << random.below(8);
        }
    }
    spoiled
}
