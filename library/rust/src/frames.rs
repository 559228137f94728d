//! Whole frames (clause 20.3.11).
use crate::c;
use crate::fault::{done, whole, Fault};
use crate::jobs::Point;
use crate::rate::Rate;

/// The points that are sent for a PSDU of 1 to 65535 octets, N_SYM * N_ST * N_SS of them, in the order symbol, subcarrier (pilots too),
/// stream (clause 20.3.11). A pilot's value v is the point (v, 0). `NoRate`; `NoSeed`; `BadLength`; `NoMemory`.
pub fn transmit(rate: Rate, seed: u8, octets: &[u8], points: &mut [Point]) -> Result<(), Fault> {
    // SAFETY: each pointer is that of as many values as the length behind it says, and what is written overlaps nothing else.
    done(unsafe {
        c::mizgaure_transmit(rate.bandwidth, rate.mcs, seed, octets.as_ptr(), octets.len(), points.as_mut_ptr(), points.len())
    })
}

/// The low and the high word.
fn halves(number: u128) -> (u64, u64) {
    (number as u64, (number >> 64) as u64)
}

/// The labels of a frame to the octets of its PSDU by hard decisions, and at how many places that aren't erased the coded bits of the
/// answer differ (clauses 20.3.11.2 to 20.3.11.6 backwards). The labels are N_SYM * N_SD * N_SS octets in the order symbol, data subcarrier,
/// stream; bits of an octet above the label's count for nothing. Bit c of `erased` is set where subcarrier c (pilots count) is erased. The
/// PSDU has `octets.len()` octets, 1 to 65535. `NoRate`; `BadLength`; `NoMemory`; `NoSeed` where the bits of SERVICE give no seed.
pub fn decode_frame(rate: Rate, erased: u128, labels: &[u8], octets: &mut [u8]) -> Result<u32, Fault> {
    let ((low, high), mut differences) = (halves(erased), 0);
    // SAFETY: as above.
    done(unsafe {
        c::mizgaure_decode_frame(
            rate.bandwidth, rate.mcs, low, high, labels.as_ptr(), labels.len(), octets.as_mut_ptr(), octets.len(),
            &mut differences,
        )
    })?;
    Ok(differences)
}

/// The same by weights, N_SYM * N_CBPS of them in the order symbol, data subcarrier, stream, bit, and what the coded bits of the answer
/// cost. Faults as in `decode_frame`.
pub fn soft_frame(rate: Rate, erased: u128, weights: &[i32], octets: &mut [u8]) -> Result<u128, Fault> {
    let ((low, high), mut cost) = (halves(erased), c::Cost::default());
    // SAFETY: as above.
    done(unsafe {
        c::mizgaure_soft_frame(
            rate.bandwidth, rate.mcs, low, high, weights.as_ptr(), weights.len(), octets.as_mut_ptr(), octets.len(), &mut cost,
        )
    })?;
    Ok(whole(cost.low, cost.high))
}
