//! Frames of clause 18. Rates are 0 to 7, for 6, 9, 12, 18, 24, 36, 48 and 54 Mbit/s. N_DBPS is 24 36 48 72 96 144 192 216, N_BPSC
//! 1 1 2 2 4 4 6 6, and N_CBPS = 48 * N_BPSC. A PSDU of n octets takes N_SYM = (22 + 8 * n) / N_DBPS symbols, rounded up.
use crate::c;
use crate::fault::{done, Fault};
use crate::jobs::Point;

/// The points that are sent for a PSDU of 1 to 4095 octets at a rate of clause 18, 0 to 7 for 6 to 54 Mbit/s: N_SYM * 52 of them, in the
/// order symbol, subcarrier (clause 18.3.5). `NoRate`; `NoSeed`; `BadLength`; `NoMemory`.
pub fn legacy_transmit(rate: u8, seed: u8, octets: &[u8], points: &mut [Point]) -> Result<(), Fault> {
    // SAFETY: each pointer is that of as many values as the length behind it says, and what is written overlaps nothing else.
    done(unsafe { c::mizgaure_legacy_transmit(rate, seed, octets.as_ptr(), octets.len(), points.as_mut_ptr(), points.len()) })
}

/// The labels of a frame of clause 18, N_SYM * 48 octets in the order symbol, data subcarrier, to the octets of its PSDU by hard decisions,
/// and at how many places the coded bits of the answer differ (clauses 18.3.5.2 to 18.3.5.8 backwards). Bits of a label above its own count
/// for nothing. The PSDU has `octets.len()` octets, 1 to 4095. Rates are 0 to 7, for 6 to 54 Mbit/s. `NoRate`; `BadLength`; `NoMemory`;
/// `NoSeed` where the bits of SERVICE give no seed.
pub fn legacy_decode_frame(rate: u8, labels: &[u8], octets: &mut [u8]) -> Result<u32, Fault> {
    let mut differences = 0;
    // SAFETY: as above.
    done(unsafe {
        c::mizgaure_legacy_decode_frame(
            rate, labels.as_ptr(), labels.len(), octets.as_mut_ptr(), octets.len(), &mut differences,
        )
    })?;
    Ok(differences)
}

/// The place behind the interleaver of each of the N_CBPS bits of a symbol of clause 18 (clause 18.3.5.7). `NoRate`; `BadLength`.
pub fn legacy_places(rate: u8, places: &mut [u16]) -> Result<(), Fault> {
    // SAFETY: as above.
    done(unsafe { c::mizgaure_legacy_places(rate, places.as_mut_ptr(), places.len()) })
}

/// The inverse: at place r stands bit `origins[r]`. Faults as in `legacy_places`.
pub fn legacy_origins(rate: u8, origins: &mut [u16]) -> Result<(), Fault> {
    // SAFETY: as above.
    done(unsafe { c::mizgaure_legacy_origins(rate, origins.as_mut_ptr(), origins.len()) })
}

/// The values, 1 or -1, of the 4 pilots of a symbol of clause 18 (clause 18.3.5.9). Symbols count from 0, behind SIGNAL. `BadLength`.
pub fn legacy_pilots(symbol: u32, values: &mut [i8]) -> Result<(), Fault> {
    // SAFETY: as above.
    done(unsafe { c::mizgaure_legacy_pilots(symbol, values.as_mut_ptr(), values.len()) })
}
