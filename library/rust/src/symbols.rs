//! The interleaver, the constellations and the pilots.
use crate::c;
use crate::fault::{done, Fault};
use crate::jobs::Point;
use crate::rate::Rate;

/// The place behind the interleaver of each of the N_CBPSS bits of a symbol of a stream, which counts from 1: bit k goes to `places[k]`
/// (clause 20.3.11.8.3). The places from c * N_BPSCS on are the label of data subcarrier c. `NoRate`; `NoStream`; `BadLength` unless there
/// are N_CBPSS places.
pub fn places(rate: Rate, stream: u8, places: &mut [u16]) -> Result<(), Fault> {
    // SAFETY: each pointer is that of as many values as the length behind it says, and what is written overlaps nothing else.
    done(unsafe { c::mizgaure_places(rate.bandwidth, rate.mcs, stream, places.as_mut_ptr(), places.len()) })
}

/// The inverse: at place r stands bit `origins[r]`. Faults as in `places`.
pub fn origins(rate: Rate, stream: u8, origins: &mut [u16]) -> Result<(), Fault> {
    // SAFETY: as above.
    done(unsafe { c::mizgaure_origins(rate.bandwidth, rate.mcs, stream, origins.as_mut_ptr(), origins.len()) })
}

/// The points of labels of 1, 2, 4 or 6 bits, whose first bit is the most significant one (clause 20.3.11.9). `NoModulation`; `BadLength`
/// unless there are as many points as labels; `NoLabel`.
pub fn points(bits: u8, labels: &[u8], points: &mut [Point]) -> Result<(), Fault> {
    // SAFETY: as above.
    done(unsafe { c::mizgaure_points(bits, labels.as_ptr(), labels.len(), points.as_mut_ptr(), points.len()) })
}

/// The inverse: the labels of points. `NoModulation`; `BadLength` unless there are as many labels as points; `NoPoint`.
pub fn labels(bits: u8, points: &[Point], labels: &mut [u8]) -> Result<(), Fault> {
    // SAFETY: as above.
    done(unsafe { c::mizgaure_labels(bits, points.as_ptr(), points.len(), labels.as_mut_ptr(), labels.len()) })
}

/// The values, 1 or -1, of the N_SP pilots of a symbol of the data field on a stream, which counts from 1, upwards in frequency (clause
/// 20.3.11.10). The pattern over pilots and streams is the project's own; docs/CHAIN.md says where it is the standard's too. `NoRate`;
/// `NoStream`; `BadLength` unless there are N_SP values.
pub fn pilots(rate: Rate, symbol: u32, stream: u8, values: &mut [i8]) -> Result<(), Fault> {
    // SAFETY: as above.
    done(unsafe { c::mizgaure_pilots(rate.bandwidth, rate.mcs, symbol, stream, values.as_mut_ptr(), values.len()) })
}
