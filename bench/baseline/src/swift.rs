//! What `radio rx`, `radio detect`, `radio soft` and `radio lrx` do, by the fast ways: a symbol's jobs side by side, all weights
//! of a job by one walk, and words in planes, of which clean ones are guessed. The texts are those of the plain commands.
use crate::abreast::{self, Channel, Detect, Found, Heard};
use crate::capturing::{Head, bits_of, sample, triangle_of};
use crate::chain::Chain;
use crate::clean::{BEHIND, Gather, Pattern, Word};
use crate::decoding::{forwards, lanes};
use crate::detecting::{self, Axes, Complex, Job, Ladder, Point, target};
use crate::legacy;
use crate::receiving::{Fault, Input, push_number};
use crate::walking;
use crate::weighing;
use std::io::{BufReader, Read, Write};

/// Data subcarriers that are neighbours: the place of the first one's octets, its lane, its number, and how many they are.
struct Run {
    octets: usize,
    lane: usize,
    number: usize,
    count: usize,
}

struct Pilot {
    octets: usize,
    carrier: u8,
    number: usize,
    job: Job,
}

struct Data {
    job: Job,
    carrier: u8,
}

/// The subcarriers of a frame, and what was found of a symbol.
struct Plan {
    streams: usize,
    bits: u32,
    way: Detect,
    fits: bool,
    channel: Box<Channel>,
    heard: Box<Heard>,
    found: Box<Found>,
    data: Vec<Data>,
    runs: Vec<Run>,
    pilots: Vec<Pilot>,
    /// The octets of a symbol.
    width: usize,
    /// The distances of lanes that were left to the search, by lane.
    left: Vec<(usize, u128)>,
}

fn axes(bits: u32) -> Axes {
    let full = |levels: u8| Ladder { size: levels, mask: ((1u16 << levels) - 1) as u8 };
    match bits {
        1 => Axes { i: full(2), q: full(1) },
        bits => Axes { i: full(1 << (bits / 2)), q: full(1 << (bits / 2)) },
    }
}

impl Plan {
    fn new(streams: usize, bits: u32) -> Plan {
        Plan {
            streams,
            bits,
            way: abreast::way(streams, bits),
            fits: true,
            channel: Channel::new(),
            heard: Heard::new(bits),
            found: Found::new(),
            data: Vec::new(),
            runs: Vec::new(),
            pilots: Vec::new(),
            width: 0,
            left: Vec::new(),
        }
    }

    /// One more subcarrier: with the number of its data, or of its pilot.
    fn add(&mut self, carrier: u8, mut job: Job, data: Option<usize>, pilot: usize) {
        let octets = self.width;
        self.width += 8 * self.streams;
        let Some(number) = data else {
            self.pilots.push(Pilot { octets, carrier, number: pilot, job });
            return;
        };
        job.axes = [axes(self.bits); 4];
        self.fits &= job.d[..self.streams].iter().all(|d| *d < abreast::LIMIT);
        let lane = self.data.len();
        self.channel.set(lane, &job);
        self.data.push(Data { job, carrier });
        match self.runs.last_mut() {
            Some(run) if run.octets + 8 * self.streams * run.count == octets && run.number + run.count == number => run.count += 1,
            _ => self.runs.push(Run { octets, lane, number, count: 1 }),
        }
    }

    /// Detects a symbol's data subcarriers.
    fn detect(&mut self, octets: &[u8]) {
        let (streams, lanes) = (self.streams, self.data.len());
        for run in &self.runs {
            abreast::hear(streams, &octets[run.octets..run.octets + 8 * streams * run.count], run.lane, &mut self.heard);
        }
        self.left.clear();
        if !self.fits {
            self.found.spare[..lanes].fill(0);
        } else if (self.way)(&self.channel, &self.heard, lanes, &mut self.found) == 0 {
            return;
        }
        for (lane, data) in self.data.iter_mut().enumerate() {
            if self.found.spare[lane] <= 0 {
                abreast::fill(&mut data.job, &self.heard, lane);
                let (points, distance) = detecting::found(&data.job);
                self.found.labels[lane] = abreast::labels(&points, streams, self.bits);
                self.left.push((lane, distance));
            }
        }
    }

    /// The distance of a pilot whose streams sent -1 (true) or 1.
    fn pilot(&mut self, at: usize, octets: &[u8], negative: [bool; 4]) -> u128 {
        let Pilot { octets: from, job, .. } = &mut self.pilots[at];
        set_samples(job, &octets[*from..]);
        let points = negative.map(|is_negative| Point { i: if is_negative { -1 } else { 1 }, q: 0 });
        let square = |gap: i64| u128::from(gap.unsigned_abs() * gap.unsigned_abs());
        (0..self.streams).fold(0, |sum, k| {
            let (re, im) = target(job, k, &points);
            sum + square(re - i64::from(job.d[k]) * i64::from(points[k].i)) + square(im)
        })
    }
}

fn set_samples(job: &mut Job, octets: &[u8]) {
    for (y, part) in job.y[..usize::from(job.streams)].iter_mut().zip(octets.chunks_exact(8)) {
        let read = sample(part);
        *y = Complex { re: read.re, im: read.im };
    }
}

/// What becomes of a frame.
trait Account {
    fn begin(&mut self, key: (bool, u8, u128), chain: &dyn Fn() -> Chain, symbols: usize);
    fn hear(&mut self, plan: &mut Plan, place: (u16, usize), octets: &[u8], negative: &dyn Fn(usize) -> [bool; 4]);
    fn end(&mut self, frame: u16, length: u16);
    fn last(&mut self, line: &str);
}

/// Bits of labels, gathered and decoded.
struct Coding {
    chain: Chain,
    pattern: Pattern,
    gathers: Vec<Gather>,
    has_lost: bool,
}

impl Coding {
    fn new(chain: Chain) -> Coding {
        let gathers = chain.spots.iter().map(|spots| Gather::new(spots, chain.period)).collect();
        let has_lost = chain.spots.iter().flatten().any(|spot| spot.lost);
        Coding { pattern: Pattern::new(chain.period), gathers, has_lost, chain }
    }
}

/// The text of `rx` and `lrx`.
struct Results<W> {
    sink: W,
    text: Vec<u8>,
    made_for: Option<(bool, u8, u128)>,
    coding: Option<Coding>,
    labels: Vec<u8>,
    at: usize,
    data_sum: u128,
    pilot_sum: u128,
    words: [Word; 2],
    choices: Vec<u64>,
    packed: Vec<u64>,
}

fn put_labels<const N: usize>(words: &[u32], into: &mut [u8]) {
    for (word, into) in words.iter().zip(into.chunks_exact_mut(N)) {
        into.copy_from_slice(&word.to_le_bytes()[..N]);
    }
}

/// Bits of one word in every second place.
fn spread(half: u32) -> u64 {
    let mut word = u64::from(half);
    for (by, mask) in [
        (16, 0x0000_ffff_0000_ffff),
        (8, 0x00ff_00ff_00ff_00ff),
        (4, 0x0f0f_0f0f_0f0f_0f0f),
        (2, 0x3333_3333_3333_3333),
        (1, 0x5555_5555_5555_5555),
    ] {
        word = (word | word << by) & mask;
    }
    word
}

const HEX: [[u8; 2]; 256] = {
    let mut table = [[0; 2]; 256];
    let mut n = 0;
    while n < 256 {
        table[n] = [b"0123456789abcdef"[n >> 4], b"0123456789abcdef"[n & 15]];
        n += 1;
    }
    table
};

/// Appends what a frame's bits come to, 64 of them in a word, the first one lowest.
fn push_outcome(text: &mut Vec<u8>, packed: &mut [u64], length: usize) {
    // The scrambler repeats itself after so many bits.
    const PERIOD: u32 = 127;
    let mut sequence = u128::from(packed[0] & 0x7f);
    if sequence == 0 {
        text.extend_from_slice(b" seed zero\n");
        return;
    }
    for n in 7..PERIOD {
        sequence |= ((sequence >> (n - 7) ^ sequence >> (n - 4)) & 1) << n;
    }
    let mut turn = 0;
    for word in packed.iter_mut() {
        *word ^= (sequence >> turn | sequence << 1 << (126 - turn)) as u64;
        turn = (turn + 64) % PERIOD;
    }
    text.extend_from_slice(b" octets ");
    let from = text.len();
    text.resize(from + 2 * length, 0);
    let words = packed.iter().zip(packed[1..].iter().chain(&[0])).map(|(word, next)| word >> 16 | next << 48);
    for (into, word) in text[from..].chunks_mut(16).zip(words) {
        for (into, octet) in into.chunks_exact_mut(2).zip(word.to_le_bytes()) {
            into.copy_from_slice(&HEX[usize::from(octet)]);
        }
    }
    text.push(b'\n');
}

impl<W: Write> Results<W> {
    fn new(sink: W) -> Self {
        Results {
            sink,
            text: Vec::new(),
            made_for: None,
            coding: None,
            labels: Vec::new(),
            at: 0,
            data_sum: 0,
            pilot_sum: 0,
            words: [Word::new(), Word::new()],
            choices: Vec::new(),
            packed: Vec::new(),
        }
    }

    /// Decodes an encoder's word, and answers the distance.
    fn decode(&mut self, encoder: usize, steps: usize) -> u32 {
        let coding = self.coding.as_ref().unwrap();
        let chain = &coding.chain;
        let (word, gather) = (&mut self.words[encoder], &coding.gathers[encoder]);
        word.open(steps, gather.steps + 64);
        if coding.has_lost {
            let list: Vec<Option<bool>> = self.labels[..self.labels.len() - BEHIND]
                .chunks_exact(chain.labels)
                .flat_map(|labels| chain.spots[encoder].iter().map(|spot| (!spot.lost).then_some(labels[usize::from(spot.label)] >> spot.shift & 1 == 1)))
                .take(chain.kept(steps))
                .collect();
            self.choices.clear();
            self.choices.resize(steps, 0);
            let distance = lanes::backwards(&list, chain.period, &mut self.choices);
            for (step, bit) in forwards(&self.choices).into_iter().enumerate() {
                word.input[1 + step / 64] |= u64::from(bit) << (step % 64);
            }
            return distance;
        }
        let symbols = steps.div_ceil(gather.steps);
        for symbol in 0..symbols {
            gather.append(&self.labels[symbol * chain.labels..], symbol * gather.steps, word);
        }
        word.cut();
        word.decode(&coding.pattern, &mut self.choices)
    }
}

impl<W: Write> Account for Results<W> {
    fn begin(&mut self, key: (bool, u8, u128), chain: &dyn Fn() -> Chain, symbols: usize) {
        if self.made_for != Some(key) {
            self.coding = Some(Coding::new(chain()));
            self.made_for = Some(key);
        }
        let labels = self.coding.as_ref().unwrap().chain.labels;
        self.labels.resize(labels * symbols + BEHIND, 0);
        self.at = 0;
        (self.data_sum, self.pilot_sum) = (0, 0);
    }

    fn hear(&mut self, plan: &mut Plan, _: (u16, usize), octets: &[u8], negative: &dyn Fn(usize) -> [bool; 4]) {
        plan.detect(octets);
        self.data_sum += u128::from(abreast::sum(&plan.found, plan.data.len())) + plan.left.iter().map(|(_, distance)| distance).sum::<u128>();
        for run in &plan.runs {
            let words = &plan.found.labels[run.lane..run.lane + run.count];
            let into = &mut self.labels[self.at + run.number * plan.streams..];
            match plan.streams {
                1 => put_labels::<1>(words, into),
                2 => put_labels::<2>(words, into),
                3 => put_labels::<3>(words, into),
                _ => put_labels::<4>(words, into),
            }
        }
        for at in 0..plan.pilots.len() {
            self.pilot_sum += plan.pilot(at, octets, negative(plan.pilots[at].number));
        }
        self.at += self.coding.as_ref().unwrap().chain.labels;
    }

    fn end(&mut self, frame: u16, length: u16) {
        let chain = &self.coding.as_ref().unwrap().chain;
        let (encoders, steps) = (chain.spots.len(), chain.steps(length));
        let code: u32 = (0..encoders).map(|encoder| self.decode(encoder, steps)).sum();
        self.packed.clear();
        if encoders == 1 {
            self.packed.extend_from_slice(&self.words[0].input[1..2 + steps / 64]);
        } else {
            for (first, second) in self.words[0].input[1..].iter().zip(&self.words[1].input[1..]).take(1 + steps / 64) {
                self.packed.push(spread(*first as u32) | spread(*second as u32) << 1);
                self.packed.push(spread((first >> 32) as u32) | spread((second >> 32) as u32) << 1);
            }
        }
        self.text.clear();
        self.text.extend_from_slice(b"frame ");
        push_number(&mut self.text, frame.into());
        for (word, number) in [(" data ", self.data_sum), (" pilot ", self.pilot_sum), (" code ", code.into())] {
            self.text.extend_from_slice(word.as_bytes());
            push_number(&mut self.text, number);
        }
        push_outcome(&mut self.text, &mut self.packed, length.into());
        self.sink.write_all(&self.text).unwrap();
    }

    fn last(&mut self, line: &str) {
        self.sink.write_all(line.as_bytes()).unwrap();
    }
}

/// A short text in a row of octets, and how long it is. Rows are put whole, and what is put next begins where the text ends.
#[derive(Clone, Copy)]
struct Short<const N: usize> {
    octets: [u8; N],
    length: u8,
}

impl<const N: usize> Short<N> {
    fn of(text: &[u8]) -> Self {
        let mut short = Short { octets: [0; N], length: text.len() as u8 };
        short.octets[..text.len()].copy_from_slice(text);
        short
    }
}

/// Numbers below this have their digits in a table.
const SMALL: usize = 1000;

/// Room for a line: `job`, numbers of 5, 5 and 3 digits, a distance of 39, and four points; and for what a row reaches beyond it.
const LINE: usize = 128;

/// The lines of a symbol: so far, and where the next one goes.
struct Page {
    octets: Vec<u8>,
    at: usize,
}

impl Page {
    #[inline(always)]
    fn put<const N: usize>(&mut self, text: &Short<N>) {
        self.octets[self.at..self.at + N].copy_from_slice(&text.octets);
        self.at += usize::from(text.length);
    }

    fn put_text(&mut self, text: &[u8]) {
        self.octets[self.at..self.at + text.len()].copy_from_slice(text);
        self.at += text.len();
    }
}

/// The text of `detect`.
struct Lines<W> {
    sink: W,
    page: Page,
    /// The text of a large number.
    digits: Vec<u8>,
    /// The subcarriers' numbers, each with a space behind it.
    carriers: Vec<Short<4>>,
    /// The small distances.
    numbers: Vec<Short<4>>,
    /// A point's text by its label.
    points: [Short<8>; 64],
    made_for: u32,
}

fn level_text(text: &mut Vec<u8>, level: i8) {
    text.extend_from_slice(if level < 0 { b" -" } else { b" " });
    text.push(b'0' + level.unsigned_abs());
}

impl<W: Write> Lines<W> {
    fn new(sink: W) -> Self {
        let carriers = (0..114).map(|carrier| Short::of(format!("{carrier} ").as_bytes())).collect();
        let numbers = (0..SMALL).map(|number| Short::of(number.to_string().as_bytes())).collect();
        let page = Page { octets: Vec::new(), at: 0 };
        Lines { sink, page, digits: Vec::new(), carriers, numbers, points: [Short::of(b""); 64], made_for: 0 }
    }

    #[inline(always)]
    fn begin_line(&mut self, prefix: &Short<16>, carrier: u8, distance: u128) {
        self.page.put(prefix);
        self.page.put(&self.carriers[usize::from(carrier)]);
        if distance < SMALL as u128 {
            self.page.put(&self.numbers[distance as usize]);
        } else {
            self.digits.clear();
            push_number(&mut self.digits, distance);
            self.page.put_text(&self.digits);
        }
    }

    fn set_points(&mut self, bits: u32) {
        let of_q = bits / 2;
        let of_i = bits - of_q;
        let level = |gray: u8, bits: u32| if bits == 0 { 0 } else { crate::sending::level(gray, bits) };
        for label in 0..1u8 << bits {
            let mut text = Vec::new();
            level_text(&mut text, level(label >> of_q, of_i));
            level_text(&mut text, level(label & ((1 << of_q) - 1), of_q));
            self.points[usize::from(label)] = Short::of(&text);
        }
        self.made_for = bits;
    }

    /// The lines of data subcarriers from a lane to another.
    #[inline(always)]
    fn put_lanes<const STREAMS: usize>(&mut self, plan: &Plan, prefix: &Short<16>, lanes: std::ops::Range<usize>, left: &mut usize) {
        for lane in lanes {
            let distance = match plan.left.get(*left) {
                Some((at, distance)) if *at == lane => {
                    *left += 1;
                    *distance
                }
                _ => plan.found.distance[lane].into(),
            };
            self.begin_line(prefix, plan.data[lane].carrier, distance);
            for label in &plan.found.labels[lane].to_le_bytes()[..STREAMS] {
                self.page.put(&self.points[usize::from(label & 63)]);
            }
            self.page.put(&Short { octets: *b"\n", length: 1 });
        }
    }

    /// A pilot's line.
    fn put_pilot(&mut self, plan: &mut Plan, at: usize, prefix: &Short<16>, octets: &[u8], signs: [bool; 4]) {
        let distance = plan.pilot(at, octets, signs);
        self.begin_line(prefix, plan.pilots[at].carrier, distance);
        for is_negative in &signs[..plan.streams] {
            self.page.put_text(if *is_negative { b" -1 0" } else { b" 1 0" });
        }
        self.page.put_text(b"\n");
    }
}

impl<W: Write> Account for Lines<W> {
    fn begin(&mut self, _: (bool, u8, u128), _: &dyn Fn() -> Chain, _: usize) {}

    fn hear(&mut self, plan: &mut Plan, (frame, symbol): (u16, usize), octets: &[u8], negative: &dyn Fn(usize) -> [bool; 4]) {
        if self.made_for != plan.bits {
            self.set_points(plan.bits);
        }
        plan.detect(octets);
        let prefix = Short::of(format!("job {frame} {symbol} ").as_bytes());
        self.page.at = 0;
        self.page.octets.resize(LINE * (plan.data.len() + plan.pilots.len() + 1), 0);
        let (mut lane, mut left) = (0, 0);
        for pilot in 0..=plan.pilots.len() {
            let carrier = plan.pilots.get(pilot).map_or(u8::MAX, |pilot| pilot.carrier);
            let lanes = lane..lane + plan.data[lane..].iter().take_while(|data| data.carrier < carrier).count();
            lane = lanes.end;
            match plan.streams {
                1 => self.put_lanes::<1>(plan, &prefix, lanes, &mut left),
                2 => self.put_lanes::<2>(plan, &prefix, lanes, &mut left),
                3 => self.put_lanes::<3>(plan, &prefix, lanes, &mut left),
                _ => self.put_lanes::<4>(plan, &prefix, lanes, &mut left),
            }
            if pilot < plan.pilots.len() {
                let signs = negative(plan.pilots[pilot].number);
                self.put_pilot(plan, pilot, &prefix, octets, signs);
            }
        }
        self.sink.write_all(&self.page.octets[..self.page.at]).unwrap();
    }

    fn end(&mut self, _: u16, _: u16) {}

    fn last(&mut self, line: &str) {
        self.sink.write_all(line.as_bytes()).unwrap();
    }
}

/// The text of `soft`.
struct Weighed<W> {
    sink: W,
    text: Vec<u8>,
    made_for: Option<(bool, u8, u128)>,
    chain: Option<Chain>,
    /// In the order symbol, data subcarrier, stream, bit.
    weights: Vec<i32>,
    at: usize,
    received: Vec<i32>,
    choices: Vec<u64>,
}

impl<W> Weighed<W> {
    fn new(sink: W) -> Self {
        Weighed {
            sink,
            text: Vec::new(),
            made_for: None,
            chain: None,
            weights: Vec::new(),
            at: 0,
            received: Vec::new(),
            choices: Vec::new(),
        }
    }
}

impl<W: Write> Account for Weighed<W> {
    fn begin(&mut self, key: (bool, u8, u128), chain: &dyn Fn() -> Chain, symbols: usize) {
        if self.made_for != Some(key) {
            self.chain = Some(chain());
            self.made_for = Some(key);
        }
        let chain = self.chain.as_ref().unwrap();
        // Those of erased subcarriers stay 0.
        self.weights.clear();
        self.weights.resize(chain.labels * chain.bits as usize * symbols, 0);
        self.at = 0;
    }

    fn hear(&mut self, plan: &mut Plan, _: (u16, usize), octets: &[u8], _: &dyn Fn(usize) -> [bool; 4]) {
        let (bits, width) = (plan.bits, 8 * plan.streams);
        let per_job = plan.streams * bits as usize;
        for run in &plan.runs {
            for at in 0..run.count {
                let job = &mut plan.data[run.lane + at].job;
                set_samples(job, &octets[run.octets + at * width..]);
                let into = &mut self.weights[self.at + (run.number + at) * per_job..][..per_job];
                if walking::fits(job) {
                    walking::weights(job, bits, into);
                    continue;
                }
                for (place, into) in into.iter_mut().enumerate() {
                    *into = weighing::weight_of_bit(job, place / bits as usize, bits, place as u32 % bits);
                }
            }
        }
        let chain = self.chain.as_ref().unwrap();
        self.at += chain.labels * chain.bits as usize;
    }

    fn end(&mut self, frame: u16, length: u16) {
        let chain = self.chain.as_ref().unwrap();
        let (encoders, steps, bits) = (chain.spots.len(), chain.steps(length), chain.bits as usize);
        let mut packed = vec![0u64; (encoders * steps).div_ceil(64) + 1];
        let mut sum = 0;
        for (encoder, spots) in chain.spots.iter().enumerate() {
            self.received.clear();
            for weights in self.weights.chunks_exact(chain.labels * bits) {
                self.received.extend(spots.iter().map(|spot| weights[usize::from(spot.label) * bits + bits - 1 - usize::from(spot.shift)]));
            }
            self.received.truncate(chain.kept(steps));
            // Each word is written, so what was left there may stay.
            if self.choices.len() < steps {
                self.choices.resize(steps, 0);
            }
            sum += weighing::backwards(&self.received, chain.period, &mut self.choices[..steps]);
            let mut state = 0;
            for (step, word) in self.choices[..steps].iter().enumerate() {
                let (bit, place) = (word >> state & 1, encoders * step + encoder);
                packed[place / 64] |= bit << (place % 64);
                state = state >> 1 | bit << 5;
            }
        }
        self.text.clear();
        self.text.extend_from_slice(b"soft ");
        push_number(&mut self.text, frame.into());
        self.text.extend_from_slice(b" cost ");
        push_number(&mut self.text, sum.into());
        push_outcome(&mut self.text, &mut packed, length.into());
        self.sink.write_all(&self.text).unwrap();
    }

    fn last(&mut self, line: &str) {
        self.sink.write_all(line.as_bytes()).unwrap();
    }
}

fn receive<R: Read, A: Account>(source: R, account: &mut A) -> Result<u16, Fault> {
    let mut input = Input { source, at: 0 };
    for wanted in *b"HTCP" {
        input.octet("BadMagic", |octet| octet == wanted)?;
    }
    let version = input.octet("BadVersion", |octet| octet == 1 || octet == 2)?;
    let frames = input.pair()?;
    let mut samples = vec![0; 3648];
    for frame in 0..frames {
        let wide = input.octet("BadBandwidth", |octet| octet < 2)? == 1;
        let mcs = input.octet("BadMcs", |octet| octet < 32)?;
        let length = input.pair()?;
        if length == 0 {
            return Err(Fault::Bad("BadLength", input.at - 2));
        }
        let mut head = Head { frame, wide, mcs, length, erased: 0 };
        let streams = head.streams();
        let mut plan = Plan::new(streams, bits_of(mcs % 8).0);
        let mut number = 0;
        for carrier in 0..head.carriers() {
            let pilot = head.pilot_of(carrier);
            let data = pilot.is_none().then_some(number);
            number += usize::from(pilot.is_none());
            if version == 2 {
                let is_last = carrier + 1 == head.carriers() && plan.width == 0;
                if input.octet("BadErased", |octet| octet == 0 || octet == 1 && !is_last)? == 1 {
                    head.erased |= 1 << carrier;
                    continue;
                }
            }
            let mut octets = [0; 32];
            input.fill(&mut octets[..2 * streams * streams])?;
            let triangle = triangle_of(streams, &octets);
            let mut job = Job { streams: streams as u8, d: triangle.diagonal, ..Job::default() };
            for (entry, tap) in job.above.iter_mut().zip(triangle.above) {
                *entry = (tap.re, tap.im);
            }
            plan.add(carrier, job, data, pilot.unwrap_or(0));
        }
        let symbols = head.symbols() as usize;
        account.begin((wide, mcs, head.erased), &|| Chain::of(&head), symbols);
        for symbol in 0..symbols {
            input.fill(&mut samples[..plan.width])?;
            account.hear(&mut plan, (frame, symbol), &samples, &|pilot| head.pilot_grid(symbol as u32, pilot).axes.map(|(i, _)| i.mask == 1));
        }
        account.end(frame, length);
    }
    input.end()?;
    Ok(frames)
}

fn receive_legacy<R: Read, A: Account>(source: R, account: &mut A) -> Result<u16, Fault> {
    let mut input = Input { source, at: 0 };
    for wanted in *b"LGCP" {
        input.octet("BadMagic", |octet| octet == wanted)?;
    }
    input.octet("BadVersion", |octet| octet == 1)?;
    let frames = input.pair()?;
    let polarity = legacy::polarity();
    let mut samples = [0; 416];
    for frame in 0..frames {
        let index = input.octet("BadMcs", |octet| octet < 8)?;
        let length = input.pair()?;
        if length == 0 || length > 4095 {
            return Err(Fault::Bad("BadLength", input.at - 2));
        }
        let mut diagonals = [0; 104];
        input.fill(&mut diagonals)?;
        let (bits, data_bits, _) = legacy::RATES[usize::from(index)];
        let mut plan = Plan::new(1, bits as u32);
        let mut number = 0;
        for (carrier, octets) in diagonals.chunks_exact(2).enumerate() {
            let mut job = Job { streams: 1, ..Job::default() };
            job.d[0] = u16::from_be_bytes([octets[0], octets[1]]);
            let pilot = legacy::PILOTS.iter().position(|pilot| *pilot == carrier);
            plan.add(carrier as u8, job, pilot.is_none().then_some(number), pilot.unwrap_or(0));
            number += usize::from(pilot.is_none());
        }
        let symbols = (22 + 8 * usize::from(length)).div_ceil(data_bits);
        account.begin((false, index, 0), &|| legacy::chain(index), symbols);
        for symbol in 0..symbols {
            input.fill(&mut samples)?;
            // The last pilot has the other sign.
            account.hear(&mut plan, (frame, symbol), &samples, &|pilot| [polarity[(symbol + 1) % 127] != (pilot == 3); 4]);
        }
        account.end(frame, length);
    }
    input.end()?;
    Ok(frames)
}

fn ended<A: Account>(mut account: A, read: impl FnOnce(&mut A) -> Result<u16, Fault>) {
    match read(&mut account) {
        Ok(frames) => account.last(&format!("end {frames} frames\n")),
        Err(Fault::Bad(kind, offset)) => account.last(&format!("refused {kind} at {offset}\n")),
        Err(Fault::Read) => {}
    }
}

fn run_on<R: Read, W: Write>(command: &str, source: R, sink: W) -> bool {
    match command {
        "rx" => ended(Results::new(sink), |account| receive(source, account)),
        "lrx" => ended(Results::new(sink), |account| receive_legacy(source, account)),
        "detect" => ended(Lines::new(sink), |account| receive(source, account)),
        "soft" => ended(Weighed::new(sink), |account| receive(source, account)),
        _ => return false,
    }
    true
}

/// Whether the words are `swift` and a command.
pub fn run(words: &[String]) -> bool {
    match words {
        [swift, command] if swift == "swift" => run_on(command, BufReader::new(std::io::stdin().lock()), std::io::stdout().lock()),
        _ => false,
    }
}

#[cfg(test)]
mod tests {
    use super::run_on;
    use crate::tests::vectors;

    #[test]
    fn the_texts_are_those_of_the_vectors() {
        for (command, ending) in [("rx", "htcp"), ("detect", "htcp"), ("soft", "htcp"), ("lrx", "lgcp"), ("rx", "upgraded"), ("soft", "upgraded")] {
            let vectors = vectors(ending, command);
            assert!(!vectors.is_empty(), "{command}");
            for (name, octets, due) in vectors {
                let mut text = Vec::new();
                run_on(command, &octets[..], &mut text);
                assert!(text == due, "{command} on {name}");
            }
        }
    }
}
