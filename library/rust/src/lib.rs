//! The calls of `mizgaure.h`, over slices and with a [`Result`]: the layers of the reference receiver of IEEE Std 802.11-2012, each a
//! proved function of `libmizgaure`. docs/LIBRARY.md says what is proved of them; this crate, which hands them slices, is tested and
//! not proved. Clauses named here are those of the standard.
//!
//! ```
//! use mizgaure::{nearest, Channel, Point, Rate, Received, Sample, Tap};
//!
//! let mut channel = Channel { diagonal: [10, 10, 0, 0], ..Channel::default() };
//! channel.above[0] = Tap { re: 1, im: 2 };
//! let mut received = Received::default();
//! received.samples[0] = Sample { re: 7, im: -11 };
//! received.samples[1] = Sample { re: -7, im: 10 };
//! let hit = nearest(Rate { bandwidth: 0, mcs: 9 }, &channel, &received)?; // 20 MHz, two streams of QPSK
//! assert_eq!((hit.points[0], hit.points[1], hit.distance()), (Point { i: 1, q: -1 }, Point { i: -1, q: 1 }, 9));
//! # Ok::<(), mizgaure::Fault>(())
//! ```
//!
//! A call that answers a [`Fault`] did nothing: what it would write is then as it was. Where several faults are there the answer is the
//! one that its comment names first. A call keeps nothing once it has answered, and starts no thread, locks nothing and waits for
//! nothing, so any number of threads may call at a time. No call may be made from a signal handler, or from the forked child of a
//! process with threads.
//!
//! Bits are `bool`. A puncturing pattern is 0 to 3 for the coding rates 1/2, 2/3, 3/4 and 5/6 (clause 20.3.11.6). Spatial streams count
//! from 1, all else from 0. Points are on the grid of odd numbers: K_MOD (clause 20.3.11.9) is left to the channel.
mod c;
mod chain;
mod detection;
mod encoders;
mod fault;
mod frames;
mod jobs;
mod legacy;
mod rate;
mod symbols;
mod texts;

pub use chain::{decode, encode, recover, scramble, sent, soft_decode};
pub use detection::{certify_job, check_job, detect_symbols, nearest, weigh_symbols, Outputs};
pub use encoders::{gather, join, lay, split};
pub use fault::{Fault, Flaw, Kind};
pub use frames::{decode_frame, soft_frame, transmit};
pub use jobs::{Channel, Distance, Hit, Point, Received, Sample, Tap};
pub use legacy::{legacy_decode_frame, legacy_origins, legacy_pilots, legacy_places, legacy_transmit};
pub use rate::Rate;
pub use symbols::{labels, origins, pilots, places, points};
pub use texts::{
    certify, check, check_into, check_size, detect, detect_into, detect_size, legacy_pass, lrx, lrx_into, lrx_size, many, many_into,
    many_size, pass, rx, rx_into, rx_size, soft, soft_into, soft_size, tx, upgrade,
};

/// The version of the calls that are declared here: MIZGAURE_VERSION of the header.
pub const VERSION: u32 = 5;

/// The version of the library that is linked: it has the calls of this crate if it is [`VERSION`].
pub fn version() -> u32 {
    // SAFETY: the call takes nothing.
    unsafe { c::mizgaure_version() }
}
