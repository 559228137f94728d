//! Files of certificates: made of a capture and the lines of `detect`, and judged, by the rules of docs/CERTIFICATES.md.
use crate::channel::Channel;
use crate::expected::sample;
use crate::rates::{LEVELS, Point};
use crate::walking::{Cursor, Fault, Walk};

const MAGIC: &[u8; 4] = b"HTCT";

/// The most records of a file, and the most marks of a record.
const RECORDS: u64 = 1 << 37;
const MARKS: u32 = 1 << 25;

/// A job, and what is claimed of it.
struct Record {
    bits: usize,
    channel: Channel,
    received: Vec<(i64, i64)>,
    points: Vec<Point>,
    distance: u128,
}

/// What a walk does where it has gone through a level.
enum Step {
    /// Above the claimed distance: nothing behind it can be as near.
    Cut,
    Open,
}

impl Record {
    /// The levels of a coordinate: of I, or of Q.
    fn levels(&self, is_q: bool) -> &'static [i8] {
        match self.bits {
            1 if is_q => &[0],
            1 | 2 => &LEVELS[3..5],
            4 => &LEVELS[2..6],
            _ => &LEVELS,
        }
    }

    fn streams(&self) -> usize {
        self.points.len()
    }

    /// The distance of a vector.
    fn distance_of(&self, points: &[Point]) -> u128 {
        let sent = self.channel.sent(points);
        let parts = self.received.iter().zip(sent).flat_map(|(y, sent)| [y.0 - sent.0, y.1 - sent.1]);
        parts.map(|part| u128::from(part.unsigned_abs()).pow(2)).sum()
    }

    /// What a coordinate adds to the distance where it and all behind it are as in the points. What stands in front of it
    /// has no part in that.
    fn added(&self, points: &[Point], (stream, is_q): (usize, bool)) -> u128 {
        let (received, sent) = (self.received[stream], self.channel.sent(points)[stream]);
        let part = if is_q { received.1 - sent.1 } else { received.0 - sent.0 };
        u128::from(part.unsigned_abs()).pow(2)
    }

    /// Goes through the walk: at each level, from the last coordinate to the first, `mark` is told the distance so far,
    /// and, where the level completes a vector, the vector; it says whether the walk goes on behind the level.
    fn walk<E>(&self, mark: &mut impl FnMut(u128, Option<&[Point]>) -> Result<Step, E>) -> Result<(), E> {
        self.walk_from(2 * self.streams(), &mut vec![(0, 0); self.streams()], 0, mark)
    }

    fn walk_from<E>(
        &self,
        left: usize,
        points: &mut Vec<Point>,
        sum: u128,
        mark: &mut impl FnMut(u128, Option<&[Point]>) -> Result<Step, E>,
    ) -> Result<(), E> {
        let Some(coordinate) = left.checked_sub(1) else { return Ok(()) };
        let (stream, is_q) = (coordinate / 2, coordinate % 2 == 1);
        for level in self.levels(is_q) {
            if is_q {
                points[stream].1 = *level
            } else {
                points[stream].0 = *level
            }
            let sum = sum + self.added(points, (stream, is_q));
            if let Step::Open = mark(sum, (coordinate == 0).then_some(points.as_slice()))? {
                self.walk_from(coordinate, points, sum, mark)?;
            }
        }
        if is_q {
            points[stream].1 = 0
        } else {
            points[stream].0 = 0
        }
        Ok(())
    }

    /// The marks of a certificate that holds.
    fn marks(&self) -> Vec<u8> {
        let mut marks = Vec::new();
        let walked: Result<(), ()> = self.walk(&mut |sum, _| {
            let is_open = sum <= self.distance;
            marks.push(is_open.into());
            Ok(if is_open { Step::Open } else { Step::Cut })
        });
        walked.expect("nothing stops this walk");
        marks
    }

    /// What is said of the record: that it holds, or the first fault.
    fn verdict(&self, marks: &[u8]) -> String {
        match self.check(marks) {
            Ok(()) => "yes".to_string(),
            Err((name, number)) => format!("no {name} at {number}"),
        }
    }

    fn check(&self, marks: &[u8]) -> Result<(), (&'static str, u128)> {
        let is_of_grid = |(i, q): &Point| self.levels(false).contains(i) && self.levels(true).contains(q);
        if let Some(stream) = self.points.iter().position(|point| !is_of_grid(point)) {
            return Err(("OffGrid", stream as u128 + 1));
        }
        let own = self.distance_of(&self.points);
        if own != self.distance {
            return Err(("WrongDistance", own));
        }
        let mut at = 0;
        self.walk(&mut |sum, vector| {
            let Some(mark) = marks.get(at) else { return Err(("Short", marks.len() as u128)) };
            let place = at as u128;
            at += 1;
            let is_nearer = |vector: &[Point]| sum < own || sum == own && vector < self.points.as_slice();
            match vector {
                _ if *mark == 0 && sum <= own => Err(("Early", place)),
                _ if *mark == 0 => Ok(Step::Cut),
                Some(vector) if is_nearer(vector) => Err(("Better", place)),
                _ => Ok(Step::Open),
            }
        })?;
        if at < marks.len() { Err(("Long", at as u128)) } else { Ok(()) }
    }

    /// Takes a record, and what is said of it.
    fn take(cursor: &mut Cursor) -> Result<String, Fault> {
        let modulation = cursor.octet("BadModulation", |octet| octet < 4)?;
        let streams = usize::from(cursor.octet("BadStreams", |octet| (1..=4).contains(&octet))?);
        let channel = Channel::of(streams, cursor.take(2 * streams * streams)?);
        let received = cursor.take(8 * streams)?.chunks_exact(8).map(sample).collect();
        let points = cursor.take(2 * streams)?.chunks_exact(2).map(|pair| (pair[0] as i8, pair[1] as i8)).collect();
        let distance = u128::from_be_bytes(cursor.take(16)?.try_into().unwrap());
        let at = cursor.at;
        let count = u32::from_be_bytes(cursor.take(4)?.try_into().unwrap());
        if count > MARKS {
            return Err(cursor.fault("BadLength", at));
        }
        let begin = cursor.at;
        for _ in 0..count {
            cursor.octet("BadMark", |octet| octet < 2)?;
        }
        let record = Record { bits: [1, 2, 4, 6][usize::from(modulation)], channel, received, points, distance };
        Ok(record.verdict(&cursor.octets[begin..cursor.at]))
    }
}

/// What `check` writes for octets, and the first fault where they are no file.
pub fn checked(octets: &[u8]) -> (String, Option<Fault>) {
    let mut text = String::new();
    let fault = check_records(&mut Cursor { octets, at: 0 }, &mut text).err();
    if let Some(Fault { kind, offset }) = fault {
        text += &format!("refused {kind} at {offset}\n");
    }
    (text, fault)
}

fn check_records(cursor: &mut Cursor, text: &mut String) -> Result<(), Fault> {
    for wanted in MAGIC {
        cursor.octet("BadMagic", |octet| octet == *wanted)?;
    }
    cursor.octet("BadVersion", |octet| octet == 1)?;
    let at = cursor.at;
    let count = u64::from_be_bytes(cursor.take(8)?.try_into().unwrap());
    if count > RECORDS {
        return Err(cursor.fault("BadLength", at));
    }
    let mut held = 0;
    for number in 0..count {
        let verdict = Record::take(cursor)?;
        held += u64::from(verdict == "yes");
        *text += &format!("job {number} {verdict}\n");
    }
    if cursor.at < cursor.octets.len() {
        return Err(cursor.fault("Trailing", cursor.at));
    }
    *text += &format!("end {count} jobs yes {held}\n");
    Ok(())
}

/// The file of certificates of a whole capture, whose data jobs were found to have these distances and points in order.
pub fn certified(walk: &Walk, octets: &[u8], found: &[(u128, Vec<Point>)]) -> Vec<u8> {
    let mut found = found.iter();
    let (mut count, mut records) = (0_u64, Vec::new());
    for frame in &walk.frames {
        let (rate, streams) = (frame.rate, frame.rate.streams());
        let mut at = frame.body;
        for _ in 0..frame.symbols {
            for (carrier, triangle) in frame.present() {
                let (triangle, samples) =
                    (&octets[triangle..triangle + rate.triangle()], &octets[at..at + 8 * streams]);
                at += samples.len();
                if rate.pilot_on(carrier).is_some() {
                    continue;
                }
                let (distance, points) = found.next().expect("a job has no line");
                let record = Record {
                    bits: rate.bits(),
                    channel: Channel::of(streams, triangle),
                    received: samples.chunks_exact(8).map(sample).collect(),
                    points: points.clone(),
                    distance: *distance,
                };
                let marks = record.marks();
                let modulation = [1, 2, 4, 6].iter().position(|bits| *bits == rate.bits()).unwrap();
                records.extend([modulation as u8, streams as u8]);
                records.extend(triangle.iter().chain(samples));
                records.extend(points.iter().flat_map(|(i, q)| [*i as u8, *q as u8]));
                records.extend(distance.to_be_bytes());
                records.extend((marks.len() as u32).to_be_bytes());
                records.extend(marks);
                count += 1;
            }
        }
    }
    let mut made = MAGIC.to_vec();
    made.push(1);
    made.extend(count.to_be_bytes());
    made.extend(records);
    made
}

#[cfg(test)]
mod tests {
    use super::*;
    use crate::program::top;
    use crate::walking::Format;
    use std::fs;
    use std::path::PathBuf;

    fn files(ending: &str) -> Vec<PathBuf> {
        let all = fs::read_dir(top().join("vectors/certificates")).unwrap();
        let mut files: Vec<_> = all.map(|entry| entry.unwrap().path()).collect();
        files.retain(|path| path.extension().is_some_and(|it| it == ending));
        assert!(files.len() >= 16, "{ending}");
        files
    }

    #[test]
    fn vectors() {
        for path in files("htct") {
            let (text, _) = checked(&fs::read(&path).unwrap());
            assert_eq!(text, fs::read_to_string(path.with_extension("check")).unwrap(), "{}", path.display());
        }
    }

    /// The claimed distances and points of a whole file.
    fn claims(mut octets: &[u8]) -> Vec<(u128, Vec<Point>)> {
        let mut claims = Vec::new();
        let mut take = |count: usize| {
            let taken;
            (taken, octets) = octets.split_at(count);
            taken
        };
        let count = u64::from_be_bytes(take(13)[5..].try_into().unwrap());
        for _ in 0..count {
            let streams = usize::from(take(2)[1]);
            take(2 * streams * streams + 8 * streams);
            let points = take(2 * streams).chunks_exact(2).map(|pair| (pair[0] as i8, pair[1] as i8)).collect();
            let distance = u128::from_be_bytes(take(16).try_into().unwrap());
            let marks = u32::from_be_bytes(take(4).try_into().unwrap());
            take(marks as usize);
            claims.push((distance, points));
        }
        claims
    }

    #[test]
    fn captures() {
        for path in files("htcp") {
            let octets = fs::read(&path).unwrap();
            let wanted = fs::read(path.with_extension("htct")).unwrap();
            let walk = Walk::of(Format::Capture, &octets);
            let made = certified(&walk, &octets, &claims(&wanted));
            assert!(made == wanted, "{}", path.display());
        }
    }
}
