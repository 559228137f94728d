//! Why a call did nothing.
use crate::c;
use std::fmt;

/// Why a call did nothing, by the names of `mizgaure.h`.
#[derive(Clone, Copy, Debug, PartialEq, Eq)]
pub enum Fault {
    /// Memory ran out.
    NoMemory,
    /// The bandwidth and the MCS index name no rate.
    NoRate,
    /// The puncturing pattern is above 3.
    NoPattern,
    /// The seed is outside 1 to 127, or the bits are those of no seed.
    NoSeed,
    /// A slice has another length than the call asks for.
    BadLength,
    /// The rate has no such spatial stream.
    NoStream,
    /// The output is longer than its slice: so many octets suffice.
    NoRoom { size: u64 },
    /// The input is no file of its format: the kind of the first fault, and the offset of the field at fault, or the input's length
    /// where it ends early.
    Refused { kind: Kind, offset: u64 },
    /// No constellation has labels of so many bits: there are 1, 2, 4 and 6.
    NoModulation,
    /// A label has more bits than those of the constellation.
    NoLabel,
    /// A point is off the constellation.
    NoPoint,
    /// The certificate doesn't hold: what is wrong with it, and the number that goes with that.
    NotCertified { flaw: Flaw, at: u128 },
}

impl fmt::Display for Fault {
    fn fmt(&self, f: &mut fmt::Formatter<'_>) -> fmt::Result {
        match self {
            Fault::NoRoom { size } => write!(f, "NoRoom: {size} octets suffice"),
            Fault::Refused { kind, offset } => write!(f, "refused {kind:?} at {offset}"),
            Fault::NotCertified { flaw, at } => write!(f, "{flaw:?} at {at}"),
            _ => write!(f, "{self:?}"),
        }
    }
}

impl std::error::Error for Fault {}

/// The kinds of refusals (docs/FORMATS.md), by the numbers that the library has for them.
#[derive(Clone, Copy, Debug, PartialEq, Eq)]
#[repr(u32)]
pub enum Kind {
    BadMagic = 1,
    BadVersion = 2,
    BadBandwidth = 3,
    BadMcs = 4,
    BadLength = 5,
    Truncated = 6,
    Trailing = 7,
    BadSeed = 8,
    BadPoint = 9,
    BadPilot = 10,
    BadErased = 11,
    BadModulation = 12,
    BadStreams = 13,
    BadMark = 14,
    BadCount = 15,
}

impl Kind {
    /// All kinds, in the order of their numbers.
    pub const ALL: [Kind; 15] = [
        Kind::BadMagic, Kind::BadVersion, Kind::BadBandwidth, Kind::BadMcs, Kind::BadLength, Kind::Truncated, Kind::Trailing,
        Kind::BadSeed, Kind::BadPoint, Kind::BadPilot, Kind::BadErased, Kind::BadModulation, Kind::BadStreams, Kind::BadMark,
        Kind::BadCount,
    ];
}

/// What is wrong with a certificate (docs/CERTIFICATES.md), by the numbers that the library has for it.
#[derive(Clone, Copy, Debug, PartialEq, Eq)]
#[repr(u32)]
pub enum Flaw {
    /// A point is off its constellation; the stream goes with it.
    OffGrid = 1,
    /// The claimed distance isn't that of the points, which goes with it.
    WrongDistance = 2,
    /// A mark cuts a level whose distance isn't above the claimed one; the mark goes with it, as with all that follow.
    Early = 3,
    /// A mark completes another vector, which is nearer, or as near and before.
    Better = 4,
    /// The walk wants more marks.
    Short = 5,
    /// The walk is over before this mark.
    Long = 6,
}

impl Flaw {
    /// All flaws, in the order of their numbers.
    pub const ALL: [Flaw; 6] = [Flaw::OffGrid, Flaw::WrongDistance, Flaw::Early, Flaw::Better, Flaw::Short, Flaw::Long];
}

/// A number of two words.
pub(crate) fn whole(low: u64, high: u64) -> u128 {
    u128::from(low) | u128::from(high) << 64
}

/// The numbers of answers from which a caller here learns more.
pub(crate) const NO_ROOM: u32 = 7;
pub(crate) const REFUSED: u32 = 8;
pub(crate) const NOT_CERTIFIED: u32 = 12;

/// What an answer says that carries nothing else.
pub(crate) fn done(answer: u32) -> Result<(), Fault> {
    Err(match answer {
        0 => return Ok(()),
        1 => Fault::NoMemory,
        2 => Fault::NoRate,
        3 => Fault::NoPattern,
        4 => Fault::NoSeed,
        5 => Fault::BadLength,
        6 => Fault::NoStream,
        9 => Fault::NoModulation,
        10 => Fault::NoLabel,
        11 => Fault::NoPoint,
        _ => unreachable!("this call has no fault {answer}"),
    })
}

/// What a refusal says.
pub(crate) fn refused(refusal: &c::Refusal) -> Fault {
    Fault::Refused { kind: Kind::ALL[refusal.kind as usize - 1], offset: refusal.offset }
}

/// What a flaw says.
pub(crate) fn not_certified(flaw: &c::Flaw) -> Fault {
    Fault::NotCertified { flaw: Flaw::ALL[flaw.kind as usize - 1], at: whole(flaw.low, flaw.high) }
}
