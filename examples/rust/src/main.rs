//! A detector of one's own beside the proved one: a frame on two streams passes a channel with noise, and where cancelling the streams
//! one after another finds other points than the reference, the reference's are nearer.
//!
//!     MIZGAURE_LIB=folder-of-libmizgaure.a cargo run
use mizgaure::{detect_symbols, transmit, Channel, Hit, Outputs, Point, Rate, Received, Sample, Tap};

/// The detector under test, for 16-QAM: the last stream first, its part taken away, then the other one.
fn cancel(channel: &Channel, received: &Received) -> [Point; 2] {
    let level = |part: i32, scale: i32| (2 * (part + 4 * scale).div_euclid(2 * scale) - 3).clamp(-3, 3);
    let slice = |sample: Sample, scale: u16| Point { i: level(sample.re, scale.into()) as i8, q: level(sample.im, scale.into()) as i8 };
    let [top, bottom, ..] = received.samples;
    let second = slice(bottom, channel.diagonal[1]);
    let (i, q, Tap { re, im }) = (i32::from(second.i), i32::from(second.q), channel.above[0]);
    let left = Sample { re: top.re - i32::from(re) * i + i32::from(im) * q, im: top.im - i32::from(re) * q - i32::from(im) * i };
    [slice(left, channel.diagonal[0]), second]
}

/// The squared distance of a pair of points.
fn distance(channel: &Channel, received: &Received, [first, second]: [Point; 2]) -> u128 {
    let part = |of: i8| i64::from(of);
    let (Tap { re, im }, [r11, r22, ..]) = (channel.above[0], channel.diagonal.map(i64::from));
    let (re, im, [top, bottom, ..]) = (i64::from(re), i64::from(im), received.samples);
    let rows = [
        i64::from(top.re) - r11 * part(first.i) - re * part(second.i) + im * part(second.q),
        i64::from(top.im) - r11 * part(first.q) - re * part(second.q) - im * part(second.i),
        i64::from(bottom.re) - r22 * part(second.i),
        i64::from(bottom.im) - r22 * part(second.q),
    ];
    rows.iter().map(|row| (row * row) as u128).sum()
}

fn main() -> Result<(), mizgaure::Fault> {
    let rate = Rate { bandwidth: 0, mcs: 11 }; // 20 MHz, two streams of 16-QAM at rate 1/2: 208 data bits a symbol
    let mut sent = vec![Point::default(); 9 * 56 * 2]; // the points of pilots stand among them, and are detected as data here
    transmit(rate, 93, &[0x5a; 230], &mut sent)?;
    let channel = Channel { diagonal: [100, 40, 0, 0], above: [Tap { re: 60, im: -30 }; 6] };
    let mut state = 1u32;
    let mut noise = || { state = state.wrapping_mul(1664525).wrapping_add(1013904223); (state >> 16) as i32 % 61 - 30 };
    let received: Vec<Received> = sent.chunks(2).map(|x| {
        let (i, q) = (i32::from(x[1].i), i32::from(x[1].q));
        let top = Sample { re: 100 * i32::from(x[0].i) + 60 * i + 30 * q + noise(), im: 100 * i32::from(x[0].q) + 60 * q - 30 * i + noise() };
        Received { samples: [top, Sample { re: 40 * i + noise(), im: 40 * q + noise() }, Sample::default(), Sample::default()] }
    }).collect();
    let mut hits = vec![Hit::default(); received.len()];
    detect_symbols(rate, &[channel; 56], &received, Outputs { hits: &mut hits, ..Outputs::default() })?;
    let own: Vec<_> = received.iter().map(|y| cancel(&channel, y)).collect();
    let worse = hits.iter().zip(&own).zip(&received).filter(|((hit, own), y)| distance(&channel, y, **own) > hit.distance()).count();
    let nearer = hits.iter().zip(&own).zip(&received).filter(|((hit, own), y)| distance(&channel, y, **own) < hit.distance()).count();
    println!("{} vectors: {worse} where cancelling is farther than the reference, {nearer} where it is nearer", hits.len());
    assert!(worse > 0 && nearer == 0);
    Ok(())
}
