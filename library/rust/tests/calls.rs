//! Values that the standard and arithmetic say, and faults.
use mizgaure::*;

#[test]
fn calls() {
    assert_eq!(version(), VERSION);
    let mut bits = [false; 127];
    scramble(127, &mut bits).unwrap();
    assert_eq!(bits[..8], [false, false, false, false, true, true, true, false]); // clause 18.3.5.5
    assert_eq!(recover(&bits[..7]), Ok(127));
    let channel = Channel { diagonal: [10, 10, 0, 0], above: [Tap { re: 1, im: 2 }; 6] };
    let sample = |re, im| Sample { re, im };
    let received = Received { samples: [sample(7, -11), sample(-7, 10), sample(0, 0), sample(0, 0)] };
    let hit = nearest(Rate { bandwidth: 0, mcs: 9 }, &channel, &received).unwrap();
    assert_eq!((hit.points[0], hit.points[1], hit.distance()), (Point { i: 1, q: -1 }, Point { i: -1, q: 1 }, 9));
    let mut hits = [Hit::default(); 3];
    detect_symbols(Rate { bandwidth: 0, mcs: 9 }, &[channel], &[received; 3], Outputs { hits: &mut hits, ..Outputs::default() }).unwrap();
    assert_eq!(hits, [hit; 3]);
    let input: Vec<bool> = (0..606).map(|k| k < 600 && k * k % 7 < 3).collect();
    let (mut coded, mut found) = ([false; 728], [false; 606]);
    encode(3, &input, &mut coded).unwrap();
    let mut places: Vec<u8> = coded.iter().map(|bit| *bit as u8).collect();
    places[100] ^= 1;
    places[300] = 255;
    assert_eq!(decode(3, &places, &mut found), Ok(1));
    assert_eq!(found[..], input[..]);
    let mut weights: Vec<i32> = coded.iter().map(|bit| if *bit { 10 } else { -10 }).collect();
    weights[100] *= -1;
    weights[700] = 0;
    found.fill(false);
    assert_eq!(soft_decode(3, &weights, &mut found), Ok(10));
    assert_eq!(found[..], input[..]);
}

#[test]
fn faults() {
    let rate = Rate { bandwidth: 2, mcs: 0 };
    assert_eq!(scramble(0, &mut [false]), Err(Fault::NoSeed));
    assert_eq!(encode(4, &[true], &mut [false; 2]), Err(Fault::NoPattern));
    assert_eq!(decode(0, &[0; 11], &mut [false; 6]), Err(Fault::BadLength));
    assert_eq!(transmit(rate, 1, &[1], &mut []), Err(Fault::NoRate));
    assert_eq!(nearest(rate, &Channel::default(), &Received::default()), Err(Fault::NoRate));
    assert_eq!(rx(b"HT"), Err(Fault::Refused { kind: Kind::Truncated, offset: 2 }));
}

#[test]
fn certificates() {
    let rate = Rate { bandwidth: 0, mcs: 0 };
    let channel = Channel { diagonal: [10, 0, 0, 0], ..Channel::default() };
    let mut received = Received::default();
    received.samples[0] = Sample { re: 3, im: -4 };
    let (mut hit, marks) = certify_job(rate, &channel, &received).unwrap();
    assert_eq!((hit.distance(), &marks[..]), (65, &[true, false, true][..]));
    assert_eq!(check_job(rate, &channel, &received, &hit, &marks), Ok(()));
    let flaw = |hit: &Hit, marks: &[bool]| check_job(rate, &channel, &received, hit, marks);
    // The faults of docs/CERTIFICATES.md.
    assert_eq!(flaw(&hit, &[false]), Err(Fault::NotCertified { flaw: Flaw::Early, at: 0 }));
    assert_eq!(flaw(&hit, &[true, false]), Err(Fault::NotCertified { flaw: Flaw::Short, at: 2 }));
    assert_eq!(flaw(&hit, &[true, false, true, true]), Err(Fault::NotCertified { flaw: Flaw::Long, at: 3 }));
    hit.low = 64;
    assert_eq!(check_job(rate, &channel, &received, &hit, &marks), Err(Fault::NotCertified { flaw: Flaw::WrongDistance, at: 65 }));
    let other = Hit { points: [Point { i: -1, q: 0 }, Point::default(), Point::default(), Point::default()], low: 185, high: 0 };
    assert_eq!(flaw(&other, &[true; 3]), Err(Fault::NotCertified { flaw: Flaw::Better, at: 2 }));
    hit = Hit { points: [Point::default(); 4], low: 65, high: 0 };
    assert_eq!(flaw(&hit, &marks), Err(Fault::NotCertified { flaw: Flaw::OffGrid, at: 1 }));
    assert_eq!(check_job(Rate { bandwidth: 0, mcs: 32 }, &channel, &received, &hit, &marks), Err(Fault::NoRate));
    assert_eq!(certify_job(Rate { bandwidth: 0, mcs: 32 }, &channel, &received), Err(Fault::NoRate));
    assert_eq!(legacy_decode_frame(0, &[0; 96], &mut [0]), Err(Fault::NoSeed));
    // Without a channel all vectors of three streams of 64-QAM are as far, so no level is cut, and the marks don't fit at the first try.
    let far = Received { samples: [Sample { re: i32::MIN, im: i32::MIN }; 4] };
    let rate = Rate { bandwidth: 1, mcs: 23 };
    let (hit, marks) = certify_job(rate, &Channel::default(), &far).unwrap();
    assert_eq!(hit.distance(), 3 << 63);
    assert!(marks.len() > 256 && marks.iter().all(|mark| *mark));
    assert_eq!(check_job(rate, &Channel::default(), &far, &hit, &marks), Ok(()));
}

/// The squared distance of two streams, by its definition.
fn distance(channel: &Channel, received: &Received, [first, second]: [Point; 2]) -> i64 {
    let part = |of: i8| i64::from(of);
    let (re, im) = (i64::from(channel.above[0].re), i64::from(channel.above[0].im));
    let [top, bottom, ..] = received.samples;
    let rows = [
        i64::from(top.re) - i64::from(channel.diagonal[0]) * part(first.i) - re * part(second.i) + im * part(second.q),
        i64::from(top.im) - i64::from(channel.diagonal[0]) * part(first.q) - re * part(second.q) - im * part(second.i),
        i64::from(bottom.re) - i64::from(channel.diagonal[1]) * part(second.i),
        i64::from(bottom.im) - i64::from(channel.diagonal[1]) * part(second.q),
    ];
    rows.iter().map(|row| row * row).sum()
}

/// Hits, labels, sums and weights of two streams of QPSK, whose 16 vectors are all tried in the order that decides ties.
#[test]
fn all_vectors() {
    let rate = Rate { bandwidth: 0, mcs: 9 };
    let mut state = 1u32;
    let mut draw = |range: i32| {
        state = state.wrapping_mul(1664525).wrapping_add(1013904223);
        (state >> 16) as i32 % (2 * range + 1) - range
    };
    let channels: Vec<Channel> = (0..5)
        .map(|k| Channel { diagonal: [k, 9, 0, 0], above: [Tap { re: draw(9) as i16, im: draw(9) as i16 }; 6] })
        .collect();
    let mut sample = |_| Sample { re: draw(20), im: draw(20) };
    let received: Vec<Received> = (0..50).map(|_| Received { samples: [0, 1, 2, 3].map(&mut sample) }).collect();
    let (mut hits, mut weights) = (vec![Hit::default(); 50], vec![0; 200]);
    let (mut labels, mut sums) = (vec![0; 100], vec![Distance::default(); 10]);
    detect_symbols(rate, &channels, &received, Outputs { hits: &mut hits, labels: &mut labels, sums: &mut sums }).unwrap();
    weigh_symbols(rate, &channels, &received, &mut weights).unwrap();
    // QPSK: the first bit of a label is 1 where I is, the second one where Q is (clause 20.3.11.9).
    let bits: Vec<[bool; 4]> = (0..16).map(|k| [8, 4, 2, 1].map(|bit| k & bit != 0)).collect();
    let points = |[a, b, c, d]: [bool; 4]| {
        let part = |bit: bool| if bit { 1 } else { -1 };
        [Point { i: part(a), q: part(b) }, Point { i: part(c), q: part(d) }]
    };
    for (k, received) in received.iter().enumerate() {
        let far = |label: &&[bool; 4]| distance(&channels[k % 5], received, points(**label));
        let first = bits.iter().min_by_key(far).unwrap();
        assert_eq!((hits[k].points[..2].to_vec(), hits[k].distance()), (points(*first).to_vec(), far(&first) as u128));
        assert_eq!(Ok(hits[k]), nearest(rate, &channels[k % 5], received));
        assert_eq!(labels[2 * k..2 * k + 2], first.chunks(2).map(|pair| 2 * u8::from(pair[0]) + u8::from(pair[1])).collect::<Vec<_>>());
        for bit in 0..4 {
            let least = |value: bool| bits.iter().filter(|label| label[bit] == value).map(|label| far(&label)).min().unwrap();
            assert_eq!(i64::from(weights[4 * k + bit]), (least(false) - least(true)).clamp(-65535, 65535));
        }
    }
    for (sum, hits) in sums.iter().zip(hits.chunks(5)) {
        assert_eq!(sum.whole(), hits.iter().map(Hit::distance).sum());
    }
    // What is left out is left out alone.
    let (mut again, mut twice) = (vec![9; 100], vec![Distance::default(); 10]);
    detect_symbols(rate, &channels, &received, Outputs { labels: &mut again, ..Outputs::default() }).unwrap();
    detect_symbols(rate, &channels, &received, Outputs { sums: &mut twice, ..Outputs::default() }).unwrap();
    assert_eq!((&again, &twice), (&labels, &sums));
    let mut all = |rate, channels: &[Channel], received: &[Received], [h, l, s]: [usize; 3]| {
        detect_symbols(rate, channels, received, Outputs { hits: &mut hits[h..], labels: &mut labels[l..], sums: &mut sums[s..] })
    };
    assert_eq!(all(rate, &channels, &received, [50, 100, 10]), Ok(()));
    assert_eq!(all(rate, &[], &received, [0; 3]), Err(Fault::BadLength));
    assert_eq!(all(rate, &channels, &received[1..], [1, 2, 0]), Err(Fault::BadLength));
    for wrong in [[1, 0, 0], [0, 1, 0], [0, 50, 0], [0, 0, 1]] {
        assert_eq!(all(rate, &channels, &received, wrong), Err(Fault::BadLength));
    }
    assert_eq!(all(Rate { bandwidth: 2, mcs: 9 }, &channels, &received, [0; 3]), Err(Fault::NoRate));
    assert_eq!((again, twice), (labels, sums));
    assert_eq!(weigh_symbols(rate, &channels, &received, &mut weights[1..]), Err(Fault::BadLength));
    assert_eq!(weigh_symbols(Rate { bandwidth: 0, mcs: 32 }, &channels, &received, &mut weights), Err(Fault::NoRate));
}

/// A distance of 66 bits is whole: without a channel all vectors are as far, and eight squares of 2^31 are 2^65.
#[test]
fn the_farthest() {
    let far = Received { samples: [Sample { re: i32::MIN, im: i32::MIN }; 4] };
    let hit = nearest(Rate { bandwidth: 1, mcs: 31 }, &Channel::default(), &far).unwrap();
    assert_eq!((hit.points, hit.distance()), ([Point { i: -7, q: -7 }; 4], 1 << 65));
}

/// The structs are laid out as the header says.
#[test]
fn layouts() {
    use std::mem::{align_of, offset_of, size_of};
    assert_eq!([size_of::<Tap>(), size_of::<Sample>(), size_of::<Point>(), size_of::<Channel>()], [4, 8, 2, 32]);
    assert_eq!([size_of::<Received>(), size_of::<Hit>(), align_of::<Hit>()], [32, 24, align_of::<u64>()]);
    assert_eq!([offset_of!(Channel, above), offset_of!(Hit, low), offset_of!(Hit, high)], [8, 8, 16]);
}

/// Sizes of tables 20-30 to 20-44: N_DBPS, N_CBPS and N_ES.
#[test]
fn sizes() {
    for (bandwidth, mcs, data_bits, coded_bits, encoders) in [
        (0, 0, 26, 52, 1), (0, 7, 260, 312, 1), (0, 15, 520, 624, 1), (0, 31, 1040, 1248, 1), (1, 0, 54, 108, 1), (1, 7, 540, 648, 1),
        (1, 20, 972, 1296, 1), (1, 21, 1296, 1944, 2), (1, 28, 1296, 1728, 2), (1, 31, 2160, 2592, 2),
    ] {
        let rate = Rate { bandwidth, mcs };
        assert_eq!((rate.data_bits(), rate.coded_bits(), rate.encoders()), (data_bits, coded_bits, encoders), "{rate:?}");
    }
    let rate = Rate { bandwidth: 0, mcs: 0 };
    assert_eq!((rate.symbols(1), rate.subcarriers(), rate.data_subcarriers()), (2, 56, 52));
    assert_eq!(Rate { bandwidth: 1, mcs: 13 }.subcarriers(), 114);
    assert_eq!([0, 1, 2, 3].map(|pattern| sent(pattern, 30)), [Ok(60), Ok(45), Ok(40), Ok(36)]); // 30 steps at 1/2, 2/3, 3/4 and 5/6
    assert_eq!(sent(4, 30), Err(Fault::NoPattern));
}

fn bits(digits: &str) -> Vec<bool> {
    digits.chars().filter(|digit| *digit != ' ').map(|digit| digit == '1').collect()
}

/// The octet a5 from its bits to its points and back (docs/CHAIN.md).
#[test]
fn one_octet() {
    let rate = Rate { bandwidth: 0, mcs: 0 };
    let mut data = bits("0000000000000000 10100101 000000 0000000000000000000000");
    scramble(127, &mut data).unwrap();
    data[24..30].fill(false); // the tail is set to zero again
    assert_eq!(data, bits("00001110 11110010 01101100 00000010 00100110 00101110 1011"));
    let (mut first, mut whole) = (vec![false; 52], vec![true; 52]);
    split(rate, &data, &mut first, &mut []).unwrap();
    join(rate, &first, &[], &mut whole).unwrap();
    assert_eq!((&first, &whole), (&data, &data)); // one encoder gets all
    let mut coded = vec![false; 104];
    encode(0, &first, &mut coded).unwrap();
    let symbols = [
        "00000000 11100101 11110011 10100100 10111000 00010001 0010", "01110000 11011111 11110000 10001111 01001101 01110000 0100",
    ];
    assert_eq!(coded, [bits(symbols[0]), bits(symbols[1])].concat());
    let interleaved = [
        "0110 0000 0100 0110 0101 0100 0110 0000 1011 1110 1110 0101 0000", "0101 1100 1111 1111 0111 0110 0100 0010 1000 1000 0011 1110 1000",
    ];
    let (mut to, mut from) = ([0; 52], [0; 52]);
    places(rate, 1, &mut to).unwrap();
    origins(rate, 1, &mut from).unwrap();
    let mut sent = vec![Point::default(); 112];
    transmit(rate, 127, &[0xa5], &mut sent).unwrap();
    let mut all = Vec::new();
    for (n, symbol) in sent.chunks(56).enumerate() {
        let (mut laid, mut back) = (vec![false; 52], vec![false; 52]);
        lay(rate, &coded[52 * n..52 * n + 52], &[], &mut laid).unwrap();
        gather(rate, &laid, &mut back, &mut []).unwrap();
        assert_eq!((&laid[..], &back[..]), (&coded[52 * n..52 * n + 52], &coded[52 * n..52 * n + 52])); // one stream gets all
        let wanted = bits(interleaved[n]);
        for k in 0..52 {
            assert_eq!(wanted[usize::from(to[k])], laid[k]);
            assert_eq!(usize::from(from[usize::from(to[k])]), k);
        }
        let (mut mapped, mut signs) = (vec![Point::default(); 52], [0; 4]);
        points(1, &wanted.iter().map(|bit| *bit as u8).collect::<Vec<_>>(), &mut mapped).unwrap();
        pilots(rate, n as u32, 1, &mut signs).unwrap();
        assert_eq!(signs, [[1, 1, 1, -1], [-1, -1, 1, -1]][n]);
        for (at, i) in rate.pilot_subcarriers().iter().zip(signs) {
            mapped.insert(*at, Point { i, q: 0 });
        }
        assert_eq!(symbol, mapped);
        all.extend(wanted);
    }
    let mut octets = [0];
    let mut labels: Vec<u8> = all.iter().map(|bit| *bit as u8).collect();
    let mut weights: Vec<i32> = all.iter().map(|bit| if *bit { 5 } else { -5 }).collect();
    assert_eq!((decode_frame(rate, 0, &labels, &mut octets), octets), (Ok(0), [0xa5]));
    assert_eq!((soft_frame(rate, 0, &weights, &mut octets), octets), (Ok(0), [0xa5]));
    // The first label stands for bit 0 of the codeword, and counts for nothing where its subcarrier is erased.
    labels[0] ^= 1;
    weights[0] *= -1;
    assert_eq!((decode_frame(rate, 0, &labels, &mut octets), octets), (Ok(1), [0xa5]));
    assert_eq!((decode_frame(rate, 1, &labels, &mut octets), octets), (Ok(0), [0xa5]));
    assert_eq!((soft_frame(rate, 0, &weights, &mut octets), octets), (Ok(5), [0xa5]));
    assert_eq!((soft_frame(rate, 1, &weights, &mut octets), octets), (Ok(0), [0xa5]));
}

/// The first points of the octet a5 with seed 127 at other rates (docs/CHAIN.md).
#[test]
fn points_of_other_rates() {
    for (bandwidth, mcs, wanted) in [
        (0, 1, [(-1, 1), (1, -1), (-1, 1), (-1, 1)]), (0, 3, [(-1, 3), (-1, -1), (-3, -3), (1, 1)]),
        (0, 7, [(-7, 7), (-7, 5), (-7, 7), (3, 7)]), (1, 31, [(-5, 3), (5, -5), (-7, 5), (-1, 7)]),
    ] {
        let rate = Rate { bandwidth, mcs };
        let mut sent = vec![Point::default(); rate.symbols(1) * rate.subcarriers() * rate.streams()];
        transmit(rate, 127, &[0xa5], &mut sent).unwrap();
        assert_eq!(sent[..4], wanted.map(|(i, q)| Point { i, q }), "{rate:?}");
    }
}

/// A frame of two encoders, four streams and three symbols comes back.
#[test]
fn frames_come_back() {
    let rate = Rate { bandwidth: 1, mcs: 31 };
    let octets: Vec<u8> = (0..700).map(|k| (17 * k + 3) as u8).collect();
    assert_eq!(rate.symbols(700), 3); // 5628 bits in symbols of 2160
    let mut sent = vec![Point::default(); 3 * 114 * 4];
    transmit(rate, 93, &octets, &mut sent).unwrap();
    let is_pilot = |k: usize| rate.pilot_subcarriers().contains(&(k / 4 % 114));
    let data: Vec<Point> = sent.iter().enumerate().filter(|(k, _)| !is_pilot(*k)).map(|(_, point)| *point).collect();
    let mut heard = vec![0; data.len()];
    labels(6, &data, &mut heard).unwrap();
    let mut found = vec![0; 700];
    assert_eq!(decode_frame(rate, 0, &heard, &mut found), Ok(0));
    assert_eq!(found, octets);
    let weights: Vec<i32> =
        heard.iter().flat_map(|label| (0..6).rev().map(move |bit| if label >> bit & 1 == 1 { 5 } else { -5 })).collect();
    found.fill(0);
    assert_eq!(soft_frame(rate, 0, &weights, &mut found), Ok(0));
    assert_eq!(found, octets);
    // Subcarrier 113 is above the low word: a wrong label there counts for nothing once it is erased.
    let last = heard.len() - 1;
    heard[last] ^= 1;
    assert_eq!(decode_frame(rate, 1 << 113, &heard, &mut found), Ok(0));
    assert_eq!(found, octets);
}

/// Two encoders get a bit each in turn, and s = 3 bits of 64-QAM go to a stream at a time (clauses 20.3.11.5 and 20.3.11.8.2).
#[test]
fn encoders_and_streams() {
    let rate = Rate { bandwidth: 1, mcs: 31 };
    let pattern: Vec<bool> = (0..2592).map(|k| k * k % 11 < 4).collect();
    let (mut first, mut second, mut back) = (vec![false; 1296], vec![false; 1296], vec![false; 2592]);
    split(rate, &pattern, &mut first, &mut second).unwrap();
    assert!((0..1296).all(|k| first[k] == pattern[2 * k] && second[k] == pattern[2 * k + 1]));
    join(rate, &first, &second, &mut back).unwrap();
    assert_eq!(back, pattern);
    lay(rate, &first, &second, &mut back).unwrap();
    for k in 0..2592 {
        let encoder = if k / 12 % 2 == 0 { &first } else { &second };
        assert_eq!(back[k / 3 % 4 * 648 + k / 12 * 3 + k % 3], encoder[k / 24 * 12 + k % 12]);
    }
    let (mut one, mut two) = (vec![false; 1296], vec![false; 1296]);
    gather(rate, &back, &mut one, &mut two).unwrap();
    assert_eq!((one, two), (first.clone(), second.clone()));
    let (lone, none) = (Rate { bandwidth: 0, mcs: 31 }, Rate { bandwidth: 1, mcs: 32 });
    assert_eq!(split(none, &pattern, &mut first, &mut second), Err(Fault::NoRate));
    assert_eq!(split(rate, &pattern[1..], &mut first, &mut second), Err(Fault::BadLength));
    assert_eq!(split(lone, &pattern, &mut first, &mut second), Err(Fault::BadLength));
    assert_eq!(join(none, &first, &second, &mut back), Err(Fault::NoRate));
    assert_eq!(join(rate, &first, &second[1..], &mut back), Err(Fault::BadLength));
    assert_eq!(lay(none, &first, &second, &mut back), Err(Fault::NoRate));
    assert_eq!(lay(rate, &first, &[], &mut back), Err(Fault::BadLength));
    assert_eq!(gather(none, &back, &mut first, &mut second), Err(Fault::NoRate));
    assert_eq!(gather(rate, &back[1..], &mut first, &mut second), Err(Fault::BadLength));
}

/// The formula of clause 20.3.11.8.3 for BPSK at 20 MHz, and tables 18-11 and 20-29.
#[test]
fn places_and_points() {
    let rate = Rate { bandwidth: 0, mcs: 0 };
    let (mut to, mut from) = ([0; 52], [0; 52]);
    places(rate, 1, &mut to).unwrap();
    origins(rate, 1, &mut from).unwrap();
    assert!((0..52).all(|k| usize::from(to[k]) == 4 * (k % 13) + k / 13 && usize::from(from[usize::from(to[k])]) == k));
    for call in [places, origins] {
        assert_eq!(call(Rate { bandwidth: 2, mcs: 0 }, 1, &mut to), Err(Fault::NoRate));
        assert_eq!(call(rate, 0, &mut to), Err(Fault::NoStream));
        assert_eq!(call(rate, 2, &mut to), Err(Fault::NoStream));
        assert_eq!(call(rate, 1, &mut to[1..]), Err(Fault::BadLength));
    }
    let (mut made, mut back) = ([Point::default(); 3], [0; 3]);
    points(6, &[0b100_000, 0b000_000, 0b111_111], &mut made).unwrap();
    assert_eq!(made, [Point { i: 7, q: -7 }, Point { i: -7, q: -7 }, Point { i: 3, q: 3 }]);
    labels(6, &made, &mut back).unwrap();
    assert_eq!(back, [0b100_000, 0b000_000, 0b111_111]);
    assert_eq!(points(3, &back, &mut made), Err(Fault::NoModulation));
    assert_eq!(points(6, &back, &mut made[1..]), Err(Fault::BadLength));
    assert_eq!(points(4, &back, &mut made), Err(Fault::NoLabel));
    assert_eq!(labels(0, &made, &mut back), Err(Fault::NoModulation));
    assert_eq!(labels(6, &made, &mut back[1..]), Err(Fault::BadLength));
    assert_eq!(labels(4, &made, &mut back), Err(Fault::NoPoint));
    let mut signs = [7; 4];
    assert_eq!(pilots(Rate { bandwidth: 2, mcs: 0 }, 0, 1, &mut signs), Err(Fault::NoRate));
    assert_eq!(pilots(rate, 0, 2, &mut signs), Err(Fault::NoStream));
    assert_eq!(pilots(rate, 0, 1, &mut signs[1..]), Err(Fault::BadLength));
    assert_eq!(signs, [7; 4]);
}

/// Clauses 18.3.5.7 and 18.3.5.9 at 6 Mbit/s, and the octet a5 there and back.
#[test]
fn clause_18() {
    let (mut to, mut from, mut signs) = ([0; 48], [0; 48], [0; 4]);
    legacy_places(0, &mut to).unwrap();
    legacy_origins(0, &mut from).unwrap();
    assert!((0..48).all(|k| usize::from(to[k]) == 3 * (k % 16) + k / 16 && usize::from(from[usize::from(to[k])]) == k));
    legacy_pilots(0, &mut signs).unwrap();
    assert_eq!(signs, [1, 1, 1, -1]);
    legacy_pilots(3, &mut signs).unwrap();
    assert_eq!(signs, [-1, -1, -1, 1]);
    let mut sent = [Point::default(); 104];
    legacy_transmit(0, 127, &[0xa5], &mut sent).unwrap();
    let is_pilot = |k: usize| [5, 19, 32, 46].contains(&(k % 52)); // -21, -7, 7 and 21 of -26 to 26 without 0
    let data = sent.iter().enumerate().filter(|(k, _)| !is_pilot(*k));
    let mut labels: Vec<u8> = data.map(|(_, point)| u8::from(point.i == 1)).collect(); // in BPSK a label is 1 where I is
    let mut octets = [0];
    assert_eq!((legacy_decode_frame(0, &labels, &mut octets), octets), (Ok(0), [0xa5]));
    labels[7] ^= 1;
    assert_eq!((legacy_decode_frame(0, &labels, &mut octets), octets), (Ok(1), [0xa5]));
    assert_eq!(legacy_decode_frame(8, &labels, &mut octets), Err(Fault::NoRate));
    assert_eq!(legacy_decode_frame(0, &labels[1..], &mut octets), Err(Fault::BadLength));
    assert_eq!(legacy_decode_frame(0, &[], &mut []), Err(Fault::BadLength));
    for call in [legacy_places, legacy_origins] {
        assert_eq!(call(8, &mut to), Err(Fault::NoRate));
        assert_eq!(call(0, &mut to[1..]), Err(Fault::BadLength));
    }
    assert_eq!(legacy_pilots(0, &mut signs[1..]), Err(Fault::BadLength));
    assert_eq!(legacy_transmit(8, 127, &[0xa5], &mut sent), Err(Fault::NoRate));
    assert_eq!(legacy_transmit(0, 128, &[0xa5], &mut sent), Err(Fault::NoSeed));
    assert_eq!(legacy_transmit(0, 127, &[0xa5], &mut sent[1..]), Err(Fault::BadLength));
}

/// What is answered with a fault is as it was.
#[test]
fn nothing_is_written_at_a_fault() {
    let rate = Rate { bandwidth: 0, mcs: 1 };
    let (mut marked, mut octets, mut sent) = ([true; 14], [85; 10], [Point { i: 85, q: 85 }; 112]);
    assert_eq!(scramble(128, &mut marked), Err(Fault::NoSeed));
    assert_eq!(recover(&[false; 7]), Err(Fault::NoSeed));
    assert_eq!(recover(&[true; 6]), Err(Fault::BadLength));
    assert_eq!(encode(0, &[true; 6], &mut marked), Err(Fault::BadLength));
    assert_eq!(decode(4, &[0; 28], &mut marked), Err(Fault::NoPattern));
    assert_eq!(decode(0, &[0; 10], &mut marked[..5]), Err(Fault::BadLength));
    assert_eq!(soft_decode(4, &[0; 28], &mut marked), Err(Fault::NoPattern));
    assert_eq!(soft_decode(0, &[0; 27], &mut marked), Err(Fault::BadLength));
    assert_eq!(decode_frame(Rate { bandwidth: 2, mcs: 1 }, 0, &[0; 104], &mut octets), Err(Fault::NoRate));
    assert_eq!(decode_frame(rate, 0, &[0; 103], &mut octets), Err(Fault::BadLength));
    assert_eq!(decode_frame(rate, 0, &[0; 104], &mut octets), Err(Fault::NoSeed)); // the codeword of zeros has no seed
    assert_eq!(soft_frame(Rate { bandwidth: 0, mcs: 32 }, 0, &[0; 208], &mut octets), Err(Fault::NoRate));
    assert_eq!(soft_frame(rate, 0, &[0; 104], &mut octets), Err(Fault::BadLength));
    assert_eq!(soft_frame(rate, 0, &[0; 208], &mut octets), Err(Fault::NoSeed));
    assert_eq!(transmit(rate, 0, &octets, &mut sent), Err(Fault::NoSeed));
    assert_eq!(transmit(rate, 1, &[], &mut sent), Err(Fault::BadLength));
    assert_eq!(transmit(rate, 1, &octets, &mut sent[1..]), Err(Fault::BadLength));
    assert_eq!((marked, octets, sent), ([true; 14], [85; 10], [Point { i: 85, q: 85 }; 112]));
}
