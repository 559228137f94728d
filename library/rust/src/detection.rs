//! Detection (clause 20.3.11.9): points, weights and certificates of data subcarriers.
use crate::c;
use crate::fault::{done, not_certified, Fault, NOT_CERTIFIED, NO_ROOM};
use crate::jobs::{Channel, Distance, Hit, Received};
use crate::rate::Rate;

/// The vector of a data subcarrier that is nearest to what was received. Of several as near it is the first one: on the lowest stream
/// where they differ, the one with the lower I, and at equal I the one with the lower Q. `NoRate`.
pub fn nearest(rate: Rate, channel: &Channel, received: &Received) -> Result<Hit, Fault> {
    let mut found = Hit::default();
    // SAFETY: each pointer is that of a whole value, and the one that is written overlaps no other.
    done(unsafe { c::mizgaure_nearest(rate.bandwidth, rate.mcs, channel, received, &mut found) })?;
    Ok(found)
}

/// What [`detect_symbols`] writes. Each part is whole, or empty where it is left out, as in
/// `Outputs { labels: &mut labels, ..Outputs::default() }`.
#[derive(Debug, Default)]
pub struct Outputs<'a> {
    /// As many as samples: what was found, sample by sample.
    pub hits: &'a mut [Hit],
    /// N_SS for each sample, in the order symbol, subcarrier, stream (that of `decode_frame`): the labels of the points that were found,
    /// of N_BPSCS bits each, those that `labels` answers for them (clause 20.3.11.9).
    pub labels: &'a mut [u8],
    /// One for each symbol: the sum of the squared distances of its hits.
    pub sums: &'a mut [Distance],
}

/// The nearest vectors, as of [`nearest`], of any number of symbols of `channels.len()` data subcarriers. Received samples stand symbol by
/// symbol, and sample k meets channel k % `channels.len()`. `NoRate`; `BadLength` unless there is a channel, the samples are a multiple of
/// the channels, and each output is empty or as long as [`Outputs`] says.
pub fn detect_symbols(rate: Rate, channels: &[Channel], received: &[Received], into: Outputs<'_>) -> Result<(), Fault> {
    let Outputs { hits, labels, sums } = into;
    // SAFETY: each pointer is that of as many values as the length behind it says, and those that are written overlap no other.
    done(unsafe {
        c::mizgaure_detect_symbols(
            rate.bandwidth, rate.mcs, channels.as_ptr(), channels.len(), received.as_ptr(), received.len(), hits.as_mut_ptr(),
            hits.len(), labels.as_mut_ptr(), labels.len(), sums.as_mut_ptr(), sums.len(),
        )
    })
}

/// The weights of the label bits of such symbols, in the order symbol, subcarrier, stream, bit (the order of `soft_frame`): the least
/// squared distance where the bit is 0 less the least one where it is 1, cut to -65535 to 65535; so positive where a 1 is likelier.
/// `NoRate`; `BadLength` unless there is a channel, the samples are a multiple of the channels, and there are N_SS * N_BPSCS weights for
/// each sample.
pub fn weigh_symbols(rate: Rate, channels: &[Channel], received: &[Received], weights: &mut [i32]) -> Result<(), Fault> {
    // SAFETY: as in `detect_symbols`.
    done(unsafe {
        c::mizgaure_weigh_symbols(
            rate.bandwidth, rate.mcs, channels.as_ptr(), channels.len(), received.as_ptr(), received.len(), weights.as_mut_ptr(),
            weights.len(),
        )
    })
}

/// The certificate of a data subcarrier (docs/CERTIFICATES.md): its hit, and the marks of a walk that shows that no vector is nearer,
/// `true` where a level is open. `NoRate`; `NoMemory`.
pub fn certify_job(rate: Rate, channel: &Channel, received: &Received) -> Result<(Hit, Vec<bool>), Fault> {
    let (mut hit, mut marks) = (Hit::default(), vec![false; 256]);
    loop {
        let mut size = 0;
        // SAFETY: as in `detect_symbols`.
        let answer = unsafe {
            c::mizgaure_certify_job(
                rate.bandwidth, rate.mcs, channel, received, &mut hit, marks.as_mut_ptr(), marks.len(), &mut size,
            )
        };
        if answer == NO_ROOM {
            marks.resize(size as usize, false);
            continue;
        }
        done(answer)?;
        marks.truncate(size as usize);
        return Ok((hit, marks));
    }
}

/// Checks a certificate without a search, whoever made it: the hit is the first nearest vector with its distance if this is `Ok`. The
/// first N_SS points of the hit count. `NoRate`; `NoMemory`; `NotCertified`, and the first flaw is said.
pub fn check_job(rate: Rate, channel: &Channel, received: &Received, hit: &Hit, marks: &[bool]) -> Result<(), Fault> {
    let mut flaw = c::Flaw::default();
    // SAFETY: as in `detect_symbols`.
    let answer = unsafe {
        c::mizgaure_check_job(rate.bandwidth, rate.mcs, channel, received, hit, marks.as_ptr(), marks.len(), &mut flaw)
    };
    if answer == NOT_CERTIFIED { Err(not_certified(&flaw)) } else { done(answer) }
}
