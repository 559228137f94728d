//! How bits are shared out among encoders and streams.
use crate::c;
use crate::fault::{done, Fault};
use crate::rate::Rate;

/// Shares the scrambled bits out among the encoders: bit N_ES * i + j is bit i of encoder j (clause 20.3.11.5). `NoRate`; `BadLength` unless
/// N_ES * `first.len()` is `bits.len()`, and `second` is as long as `first` with two encoders and empty with one; `NoMemory`.
pub fn split(rate: Rate, bits: &[bool], first: &mut [bool], second: &mut [bool]) -> Result<(), Fault> {
    // SAFETY: each pointer is that of as many values as the length behind it says, and what is written overlaps nothing else.
    done(unsafe {
        c::mizgaure_split(
            rate.bandwidth, rate.mcs, bits.as_ptr(), bits.len(), first.as_mut_ptr(), first.len(), second.as_mut_ptr(),
            second.len(),
        )
    })
}

/// The inverse: puts the bits of the encoders together again. Faults as in `split`.
pub fn join(rate: Rate, first: &[bool], second: &[bool], bits: &mut [bool]) -> Result<(), Fault> {
    // SAFETY: as above.
    done(unsafe {
        c::mizgaure_join(
            rate.bandwidth, rate.mcs, first.as_ptr(), first.len(), second.as_ptr(), second.len(), bits.as_mut_ptr(), bits.len(),
        )
    })
}

/// Lays the coded bits of a symbol on the spatial streams: the N_CBPSS bits of stream 1, then those of stream 2, and so on (clause
/// 20.3.11.8.2). `NoRate`; `BadLength` unless there are N_CBPS bits, N_CBPS / N_ES of the first encoder, and as many of the second where
/// there are two, 0 where there is one; `NoMemory`.
pub fn lay(rate: Rate, first: &[bool], second: &[bool], bits: &mut [bool]) -> Result<(), Fault> {
    // SAFETY: as above.
    done(unsafe {
        c::mizgaure_lay(
            rate.bandwidth, rate.mcs, first.as_ptr(), first.len(), second.as_ptr(), second.len(), bits.as_mut_ptr(), bits.len(),
        )
    })
}

/// The inverse: gathers each encoder's bits of a symbol from the streams. Faults as in `lay`.
pub fn gather(rate: Rate, bits: &[bool], first: &mut [bool], second: &mut [bool]) -> Result<(), Fault> {
    // SAFETY: as above.
    done(unsafe {
        c::mizgaure_gather(
            rate.bandwidth, rate.mcs, bits.as_ptr(), bits.len(), first.as_mut_ptr(), first.len(), second.as_mut_ptr(),
            second.len(),
        )
    })
}
