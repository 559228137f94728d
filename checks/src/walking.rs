//! The formats of files, walked through field by field: which frames stand in the octets, and the first fault.
use crate::rates::{Point, Rate};

/// A format of files.
#[derive(Clone, Copy, PartialEq, Eq, Debug)]
pub enum Format {
    /// Frames, HTTX.
    Frames,
    /// Symbols, HTSY.
    Symbols,
    /// Captures, HTCP.
    Capture,
}

impl Format {
    pub fn magic(self) -> &'static [u8; 4] {
        match self {
            Format::Frames => b"HTTX",
            Format::Symbols => b"HTSY",
            Format::Capture => b"HTCP",
        }
    }
}

/// The first fault of octets.
#[derive(Clone, Copy, PartialEq, Eq, Debug)]
pub struct Fault {
    pub kind: &'static str,
    pub offset: usize,
}

/// A frame as far as it stands in the octets.
#[derive(Debug)]
pub struct Frame {
    pub rate: Rate,
    pub length: u16,
    /// Where it begins.
    pub start: usize,
    /// Where it ends, or would end.
    pub end: usize,
    /// In a capture, the offset of the triangle of each subcarrier, or none where it is erased.
    pub triangles: Vec<Option<usize>>,
    /// Where the samples, points or octets begin.
    pub body: usize,
    /// How many of its symbols are whole.
    pub symbols: u32,
    pub is_whole: bool,
}

impl Frame {
    /// The subcarriers that are present.
    pub fn present(&self) -> impl Iterator<Item = (usize, usize)> {
        self.triangles.iter().enumerate().filter_map(|(carrier, triangle)| triangle.map(|at| (carrier, at)))
    }

    /// The octets of a symbol of a capture.
    pub fn symbol_size(&self) -> usize {
        8 * self.rate.streams() * self.present().count()
    }
}

/// What stands in octets.
#[derive(Debug)]
pub struct Walk {
    pub version: u8,
    pub count: u16,
    /// The frames whose heads are whole; in a capture, whose triangles are.
    pub frames: Vec<Frame>,
    pub fault: Option<Fault>,
}

impl Walk {
    pub fn of(format: Format, octets: &[u8]) -> Self {
        let mut walk = Walk { version: 0, count: 0, frames: Vec::new(), fault: None };
        walk.fault = walk.go(format, Cursor { octets, at: 0 }).err();
        walk
    }

    /// The line that comes last, without its line feed.
    pub fn last_line(&self) -> String {
        match self.fault {
            None => format!("end {} frames", self.count),
            Some(Fault { kind, offset }) => format!("refused {kind} at {offset}"),
        }
    }

    /// How many frames are whole.
    pub fn whole(&self) -> usize {
        self.frames.iter().filter(|frame| frame.is_whole).count()
    }

    fn go(&mut self, format: Format, mut cursor: Cursor) -> Result<(), Fault> {
        for wanted in format.magic() {
            cursor.octet("BadMagic", |octet| octet == *wanted)?;
        }
        let last_version = if format == Format::Capture { 2 } else { 1 };
        self.version = cursor.octet("BadVersion", |octet| (1..=last_version).contains(&octet))?;
        self.count = cursor.number("", |_| true)?;
        for _ in 0..self.count {
            self.frame(format, &mut cursor)?;
        }
        if cursor.at < cursor.octets.len() { Err(cursor.fault("Trailing", cursor.at)) } else { Ok(()) }
    }

    fn frame(&mut self, format: Format, cursor: &mut Cursor) -> Result<(), Fault> {
        let start = cursor.at;
        let bandwidth = cursor.octet("BadBandwidth", |octet| octet < 2)?;
        let mcs = cursor.octet("BadMcs", |octet| octet < 32)?;
        let length = cursor.number("BadLength", |number| number > 0)?;
        let rate = Rate::of(bandwidth, mcs);
        let mut frame =
            Frame { rate, length, start, end: 0, triangles: Vec::new(), body: 0, symbols: 0, is_whole: false };
        match format {
            Format::Frames => {
                cursor.octet("BadSeed", |octet| (1..128).contains(&octet))?;
            }
            Format::Symbols => {}
            Format::Capture => frame.triangles = triangles(self.version, rate, cursor)?,
        }
        frame.body = cursor.at;
        self.frames.push(frame);
        let frame = self.frames.last_mut().unwrap();
        match format {
            Format::Frames => {
                frame.end = frame.body + usize::from(length);
                cursor.take(usize::from(length))?;
            }
            Format::Symbols => {
                frame.end = frame.body + 2 * rate.symbols(length) as usize * rate.carriers() * rate.streams();
                for symbol in 0..rate.symbols(length) {
                    points(rate, symbol, cursor)?;
                    frame.symbols += 1;
                }
            }
            Format::Capture => {
                frame.end = frame.body + rate.symbols(length) as usize * frame.symbol_size();
                for _ in 0..rate.symbols(length) {
                    cursor.take(frame.symbol_size())?;
                    frame.symbols += 1;
                }
            }
        }
        frame.is_whole = true;
        Ok(())
    }
}

fn triangles(version: u8, rate: Rate, cursor: &mut Cursor) -> Result<Vec<Option<usize>>, Fault> {
    let mut triangles = Vec::with_capacity(rate.carriers());
    for carrier in 0..rate.carriers() {
        let may_be_erased = carrier + 1 < rate.carriers() || triangles.iter().any(Option::is_some);
        let is_erased =
            version == 2 && cursor.octet("BadErased", |octet| octet == 0 || octet == 1 && may_be_erased)? == 1;
        triangles.push((!is_erased).then_some(cursor.at));
        if !is_erased {
            cursor.take(rate.triangle())?;
        }
    }
    Ok(triangles)
}

fn points(rate: Rate, symbol: u32, cursor: &mut Cursor) -> Result<(), Fault> {
    let constellation = rate.constellation();
    for carrier in 0..rate.carriers() {
        for stream in 0..rate.streams() {
            let at = cursor.at;
            let octets = cursor.take(2)?;
            let point: Point = (octets[0] as i8, octets[1] as i8);
            let (kind, is_good) = match rate.pilot_on(carrier) {
                Some(pilot) => ("BadPilot", point == rate.pilot(symbol, pilot, stream)),
                None => ("BadPoint", constellation.contains(&point)),
            };
            if !is_good {
                return Err(cursor.fault(kind, at));
            }
        }
    }
    Ok(())
}

/// Octets, and how far they were gone through.
pub(crate) struct Cursor<'a> {
    pub octets: &'a [u8],
    pub at: usize,
}

impl<'a> Cursor<'a> {
    pub fn fault(&self, kind: &'static str, offset: usize) -> Fault {
        Fault { kind, offset }
    }

    pub fn take(&mut self, count: usize) -> Result<&'a [u8], Fault> {
        let taken = self.octets.get(self.at..self.at + count).ok_or(self.fault("Truncated", self.octets.len()))?;
        self.at += count;
        Ok(taken)
    }

    pub fn octet(&mut self, kind: &'static str, is_good: impl Fn(u8) -> bool) -> Result<u8, Fault> {
        let at = self.at;
        let octet = self.take(1)?[0];
        if is_good(octet) { Ok(octet) } else { Err(self.fault(kind, at)) }
    }

    pub fn number(&mut self, kind: &'static str, is_good: impl Fn(u16) -> bool) -> Result<u16, Fault> {
        let at = self.at;
        let octets = self.take(2)?;
        let number = u16::from_be_bytes([octets[0], octets[1]]);
        if is_good(number) { Ok(number) } else { Err(self.fault(kind, at)) }
    }
}
