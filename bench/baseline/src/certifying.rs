//! What `radio certify` and `radio check` do, in plain Rust: a capture is read whole, its data jobs are counted, and each
//! is detected and certified as it is gone through; a file of certificates is checked record by record as it comes.
use crate::capturing::{Head, sample, triangle_of};
use crate::detecting::{self, Complex, Job, Point};
use crate::receiving::{self, Account, Fault, Input, push_number};
use std::io::{BufReader, Read, Write};

/// How many octets of output are put together.
const BLOCK: usize = 16384;

fn square(gap: i64) -> u128 {
    let size = gap.unsigned_abs();
    u128::from(size * size)
}

/// The levels of a full ladder, ascending.
#[inline(always)]
fn levels(ladder: detecting::Ladder) -> impl Iterator<Item = i64> {
    let top = i64::from(ladder.size) - 1;
    (0..i64::from(ladder.size)).map(move |place| 2 * place - top)
}

/// What is done at each level of a walk: whether it goes on behind it. `partial` is the distance so far.
trait Marks {
    fn level(&mut self, partial: u128) -> Result<bool, Stop>;
    /// A level that completes a vector.
    fn leaf(&mut self, partial: u128, points: &[Point; 4]) -> Result<(), Stop>;
}

#[derive(Clone, Copy)]
enum Stop {
    Early(u64),
    Better(u64),
    Short(u64),
}

/// Goes through the levels of the first streams, this many, where those of the others are chosen.
fn walk<M: Marks>(job: &Job, left: usize, points: &mut [Point; 4], partial: u128, marks: &mut M) -> Result<(), Stop> {
    let k = left - 1;
    let d = i64::from(job.d[k]);
    let (re, im) = detecting::target(job, k, points);
    for q in levels(job.axes[k].q) {
        let first = partial + square(im - d * q);
        if !marks.level(first)? {
            continue;
        }
        for i in levels(job.axes[k].i) {
            let both = first + square(re - d * i);
            points[k] = Point { i: i as i8, q: q as i8 };
            if k == 0 {
                marks.leaf(both, points)?;
            } else if marks.level(both)? {
                walk(job, k, points, both, marks)?;
            }
        }
    }
    Ok(())
}

/// Writes marks for a vector that is the first nearest one.
struct Writing<'a> {
    distance: u128,
    text: &'a mut Vec<u8>,
}

impl Marks for Writing<'_> {
    #[inline(always)]
    fn level(&mut self, partial: u128) -> Result<bool, Stop> {
        let is_open = partial <= self.distance;
        self.text.push(is_open.into());
        Ok(is_open)
    }

    #[inline(always)]
    fn leaf(&mut self, partial: u128, _: &[Point; 4]) -> Result<(), Stop> {
        self.text.push((partial <= self.distance).into());
        Ok(())
    }
}

/// Reads marks, and judges them.
struct Judging<'a> {
    marks: &'a [u8],
    at: usize,
    streams: usize,
    points: [Point; 4],
    distance: u128,
}

impl Judging<'_> {
    #[inline(always)]
    fn next(&mut self, partial: u128) -> Result<bool, Stop> {
        let Some(mark) = self.marks.get(self.at) else { return Err(Stop::Short(self.at as u64)) };
        self.at += 1;
        if *mark == 0 && partial <= self.distance {
            return Err(Stop::Early(self.at as u64 - 1));
        }
        Ok(*mark == 1)
    }
}

impl Marks for Judging<'_> {
    #[inline(always)]
    fn level(&mut self, partial: u128) -> Result<bool, Stop> {
        self.next(partial)
    }

    #[inline(always)]
    fn leaf(&mut self, partial: u128, points: &[Point; 4]) -> Result<(), Stop> {
        let is_open = self.next(partial)?;
        let pairs = |points: &[Point; 4]| points.map(|point| (point.i, point.q));
        if is_open
            && (partial < self.distance
                || partial == self.distance && pairs(points)[..self.streams] < pairs(&self.points)[..self.streams])
        {
            return Err(Stop::Better(self.at as u64 - 1));
        }
        Ok(())
    }
}

/// Certifies each data job.
struct Certificates<W> {
    sink: W,
    text: Vec<u8>,
    modulation: u8,
    streams: usize,
}

impl<W: Write> Certificates<W> {
    fn put(&mut self) {
        self.sink.write_all(&self.text).unwrap();
        self.text.clear();
    }
}

impl<W: Write> Account for Certificates<W> {
    fn begin(&mut self, head: &Head) {
        self.modulation = [0, 1, 1, 2, 2, 3, 3, 3][usize::from(head.mcs % 8)];
        self.streams = head.streams();
    }

    fn hear(&mut self, data: Option<usize>, job: &Job) {
        let (points, distance) = detecting::found(job);
        if data.is_none() {
            return;
        }
        let n = self.streams;
        self.text.extend_from_slice(&[self.modulation, n as u8]);
        let mut at = 0;
        for k in 0..n {
            self.text.extend_from_slice(&job.d[k].to_be_bytes());
            for (re, im) in &job.above[at..at + n - 1 - k] {
                self.text.extend_from_slice(&re.to_be_bytes());
                self.text.extend_from_slice(&im.to_be_bytes());
            }
            at += n - 1 - k;
        }
        for y in &job.y[..n] {
            self.text.extend_from_slice(&y.re.to_be_bytes());
            self.text.extend_from_slice(&y.im.to_be_bytes());
        }
        for point in &points[..n] {
            self.text.extend_from_slice(&[point.i as u8, point.q as u8]);
        }
        self.text.extend_from_slice(&distance.to_be_bytes());
        let place = self.text.len();
        self.text.extend_from_slice(&[0; 4]);
        let mut marks = Writing { distance, text: &mut self.text };
        let _ = walk(job, n, &mut [Point::default(); 4], 0, &mut marks);
        let count = (self.text.len() - place - 4) as u32;
        self.text[place..place + 4].copy_from_slice(&count.to_be_bytes());
        if self.text.len() >= BLOCK {
            self.put();
        }
    }

    fn end_symbol(&mut self) {}

    fn end(&mut self, _: &Head) {}

    fn last(&mut self, _: &str) {
        self.put();
    }
}

/// The data jobs of a capture, none where it isn't whole.
fn data_jobs(octets: &[u8]) -> Option<u64> {
    let version = *octets.get(4)?;
    let mut at = 7;
    let mut jobs = 0;
    for frame in 0..u16::from_be_bytes(octets.get(5..7)?.try_into().ok()?) {
        let start = octets.get(at..at + 4)?;
        let length = u16::from_be_bytes([start[2], start[3]]);
        let head = Head { frame, wide: start[0] == 1, mcs: start[1], length, erased: 0 };
        at += 4;
        let (mut present, mut data) = (0, 0);
        for carrier in 0..head.carriers() {
            if version == 2 {
                at += 1;
                if *octets.get(at - 1)? == 1 {
                    continue;
                }
            }
            at += 2 * head.streams() * head.streams();
            present += 1;
            data += u64::from(head.pilot_of(carrier).is_none());
        }
        at += head.symbols() as usize * present * 8 * head.streams();
        jobs += u64::from(head.symbols()) * data;
    }
    (at == octets.len()).then_some(jobs)
}

fn certify() {
    let mut octets = Vec::new();
    std::io::stdin().lock().read_to_end(&mut octets).unwrap();
    let jobs = data_jobs(&octets).expect("the capture isn't whole");
    let mut text = Vec::with_capacity(2 * BLOCK);
    text.extend_from_slice(b"HTCT\x01");
    text.extend_from_slice(&jobs.to_be_bytes());
    let certificates = Certificates { sink: std::io::stdout().lock(), text, modulation: 0, streams: 1 };
    receiving::run_on(octets.as_slice(), certificates);
}

/// A record, read into the same room each time.
#[derive(Default)]
struct Record {
    job: Job,
    points: [Point; 4],
    distance: u128,
    marks: Vec<u8>,
}

enum Verdict {
    Yes,
    OffGrid(u8),
    WrongDistance(u128),
    Stopped(Stop),
    Long(u64),
}

/// The full constellation of a modulation.
fn axes(modulation: u8) -> detecting::Axes {
    let ladder = |size: u32| detecting::Ladder { size: size as u8, mask: ((1u32 << size) - 1) as u8 };
    let (i, q) = [(2, 1), (2, 2), (4, 4), (8, 8)][usize::from(modulation)];
    detecting::Axes { i: ladder(i), q: ladder(q) }
}

impl Record {
    fn read<R: Read>(&mut self, input: &mut Input<R>) -> Result<(), Fault> {
        let modulation = input.octet("BadModulation", |octet| octet < 4)?;
        let streams = input.octet("BadStreams", |octet| (1..=4).contains(&octet))?;
        let n = usize::from(streams);
        let mut octets = [0; 92];
        input.fill(&mut octets[..2 * n * n + 8 * n + 2 * n + 20])?;
        let triangle = triangle_of(n, &octets);
        self.job.streams = streams;
        self.job.axes = [axes(modulation); 4];
        self.job.d = triangle.diagonal;
        for (entry, tap) in self.job.above.iter_mut().zip(triangle.above) {
            *entry = (tap.re, tap.im);
        }
        let rest = &octets[2 * n * n..];
        for (y, octets) in self.job.y.iter_mut().zip(rest[..8 * n].chunks_exact(8)) {
            let read = sample(octets);
            *y = Complex { re: read.re, im: read.im };
        }
        let rest = &rest[8 * n..];
        for (point, octets) in self.points.iter_mut().zip(rest[..2 * n].chunks_exact(2)) {
            *point = Point { i: octets[0] as i8, q: octets[1] as i8 };
        }
        let rest = &rest[2 * n..];
        self.distance = u128::from_be_bytes(rest[..16].try_into().unwrap());
        let count = u32::from_be_bytes(rest[16..20].try_into().unwrap());
        if count > 1 << 25 {
            return Err(Fault::Bad("BadLength", input.at - 4));
        }
        self.marks.clear();
        let mut left = count as usize;
        while left > 0 {
            let from = self.marks.len();
            let part = left.min(BLOCK);
            self.marks.resize(from + part, 0);
            let at = input.at;
            let filled = input.fill(&mut self.marks[from..]);
            let came = if let Err(Fault::Bad(_, end)) = filled { (end - at) as usize } else { part };
            if let Some(bad) = self.marks[from..from + came].iter().position(|mark| *mark > 1) {
                return Err(Fault::Bad("BadMark", at + bad as u64));
            }
            filled?;
            left -= part;
        }
        Ok(())
    }

    fn check(&self) -> Verdict {
        let n = usize::from(self.job.streams);
        let is_of = |ladder: detecting::Ladder, level: i8| levels(ladder).any(|other| other == i64::from(level));
        for (k, point) in self.points[..n].iter().enumerate() {
            if !is_of(self.job.axes[k].i, point.i) || !is_of(self.job.axes[k].q, point.q) {
                return Verdict::OffGrid(k as u8 + 1);
            }
        }
        let own: u128 = (0..n)
            .map(|k| {
                let (re, im) = detecting::target(&self.job, k, &self.points);
                let d = i64::from(self.job.d[k]);
                square(re - d * i64::from(self.points[k].i)) + square(im - d * i64::from(self.points[k].q))
            })
            .sum();
        if own != self.distance {
            return Verdict::WrongDistance(own);
        }
        let mut marks = Judging { marks: &self.marks, at: 0, streams: n, points: self.points, distance: own };
        match walk(&self.job, n, &mut [Point::default(); 4], 0, &mut marks) {
            Err(stop) => Verdict::Stopped(stop),
            Ok(()) if marks.at < self.marks.len() => Verdict::Long(marks.at as u64),
            Ok(()) => Verdict::Yes,
        }
    }
}

fn check_records<R: Read, W: Write>(input: &mut Input<R>, text: &mut Vec<u8>, sink: &mut W) -> Result<(), Fault> {
    for wanted in *b"HTCT" {
        input.octet("BadMagic", |octet| octet == wanted)?;
    }
    input.octet("BadVersion", |octet| octet == 1)?;
    let mut octets = [0; 8];
    input.fill(&mut octets)?;
    let count = u64::from_be_bytes(octets);
    if count > 1 << 37 {
        return Err(Fault::Bad("BadLength", 5));
    }
    let mut record = Record::default();
    let mut held = 0;
    for number in 0..count {
        record.read(input)?;
        text.extend_from_slice(b"job ");
        push_number(text, number.into());
        let (name, at): (&[u8], u128) = match record.check() {
            Verdict::Yes => (b"", 0),
            Verdict::OffGrid(stream) => (b"OffGrid", stream.into()),
            Verdict::WrongDistance(other) => (b"WrongDistance", other),
            Verdict::Stopped(Stop::Early(index)) => (b"Early", index.into()),
            Verdict::Stopped(Stop::Better(index)) => (b"Better", index.into()),
            Verdict::Stopped(Stop::Short(count)) => (b"Short", count.into()),
            Verdict::Long(index) => (b"Long", index.into()),
        };
        if name.is_empty() {
            held += 1;
            text.extend_from_slice(b" yes\n");
        } else {
            text.extend_from_slice(b" no ");
            text.extend_from_slice(name);
            text.extend_from_slice(b" at ");
            push_number(text, at);
            text.push(b'\n');
        }
        if text.len() >= BLOCK {
            sink.write_all(text).unwrap();
            text.clear();
        }
    }
    input.end()?;
    text.extend_from_slice(b"end ");
    push_number(text, count.into());
    text.extend_from_slice(b" jobs yes ");
    push_number(text, held);
    text.push(b'\n');
    Ok(())
}

fn check() {
    let mut text = Vec::with_capacity(2 * BLOCK);
    let mut sink = std::io::stdout().lock();
    let mut input = Input { source: BufReader::new(std::io::stdin().lock()), at: 0 };
    if let Err(Fault::Bad(kind, offset)) = check_records(&mut input, &mut text, &mut sink) {
        text.extend_from_slice(format!("refused {kind} at {offset}\n").as_bytes());
    }
    sink.write_all(&text).unwrap();
}

/// Whether the words are one of both commands.
pub fn run(words: &[String]) -> bool {
    match words.first().map(String::as_str) {
        Some("certify") => certify(),
        Some("check") => check(),
        _ => return false,
    }
    true
}
