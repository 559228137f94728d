//! Whole inputs in memory: the texts and files of the program's commands.
//!
//! Each call is `Refused` where its input is no file of its format, and `NoMemory` where memory runs out. Those with `_into` put the text at
//! the front of a slice and answer its length, `NoRoom` where it is longer: a slice that is used again costs no new memory, and with as many
//! octets as the call with `_size` says it is long enough, for `many` where each capture of the bundle is whole. The others make a vector for what they write.
use crate::c::{self, Refusal};
use crate::fault::{done, refused, Fault, NO_ROOM, REFUSED};

/// A call that takes an input and writes a text or a file.
enum Call {
    Plain(unsafe extern "C" fn(*const u8, usize, *mut u8, usize, *mut u64, *mut Refusal) -> u32),
    /// Behind a seed and the noise.
    Passing(unsafe extern "C" fn(u64, u16, *const u8, usize, *mut u8, usize, *mut u64, *mut Refusal) -> u32, u64, u16),
}

impl Call {
    /// Makes the call, and answers how many octets it wrote.
    ///
    /// # Safety
    ///
    /// `into` is that of `room` octets that may be written and overlap nothing else.
    unsafe fn make(&self, input: &[u8], into: *mut u8, room: usize) -> Result<usize, Fault> {
        let (of, n, mut size, mut refusal) = (input.as_ptr(), input.len(), 0, Refusal::default());
        let answer = match self {
            Call::Plain(call) => call(of, n, into, room, &mut size, &mut refusal),
            Call::Passing(call, seed, noise) => call(*seed, *noise, of, n, into, room, &mut size, &mut refusal),
        };
        match answer {
            NO_ROOM => Err(Fault::NoRoom { size }),
            REFUSED => Err(refused(&refusal)),
            _ => done(answer).map(|()| size as usize),
        }
    }

    fn slice(&self, input: &[u8], into: &mut [u8]) -> Result<usize, Fault> {
        // SAFETY: a slice that may be written is apart from all others.
        unsafe { self.make(input, into.as_mut_ptr(), into.len()) }
    }

    /// In a vector that has room for so many octets, or for fewer where these are more than there is, and then for those that it needs.
    fn vector(&self, input: &[u8], size: u64) -> Result<Vec<u8>, Fault> {
        let mut written = Vec::new();
        if written.try_reserve_exact(size.try_into().unwrap_or(usize::MAX)).is_err() {
            written.try_reserve_exact(some(input) as usize).map_err(|_| Fault::NoMemory)?;
        }
        loop {
            // SAFETY: the vector's room is its own, and the call only writes there.
            match unsafe { self.make(input, written.as_mut_ptr(), written.capacity()) } {
                Err(Fault::NoRoom { size }) => written.try_reserve_exact(size as usize).map_err(|_| Fault::NoMemory)?,
                made => {
                    // SAFETY: so many octets were written.
                    unsafe { written.set_len(made?) };
                    written.shrink_to_fit();
                    return Ok(written);
                }
            }
        }
    }
}

/// Room to begin with where no size is known that suffices.
fn some(input: &[u8]) -> u64 {
    4096 + 8 * input.len() as u64
}

const DETECT: Call = Call::Plain(c::mizgaure_detect);
const RX: Call = Call::Plain(c::mizgaure_rx);
const SOFT: Call = Call::Plain(c::mizgaure_soft);
const LRX: Call = Call::Plain(c::mizgaure_lrx);
const MANY: Call = Call::Plain(c::mizgaure_many);
const CHECK: Call = Call::Plain(c::mizgaure_check);

/// The text of `radio detect` for a capture (HTCP).
pub fn detect(capture: &[u8]) -> Result<Vec<u8>, Fault> {
    DETECT.vector(capture, detect_size(capture))
}

/// The same into a slice.
pub fn detect_into(capture: &[u8], text: &mut [u8]) -> Result<usize, Fault> {
    DETECT.slice(capture, text)
}

/// A number of octets that suffices for the text of `detect`, whatever the capture holds: 6 for each of its own. As in all of these calls
/// any octets may be given, and the answer is `u64::MAX` where the size has more than 64 bits.
pub fn detect_size(capture: &[u8]) -> u64 {
    // SAFETY: the pointer is that of as many octets as the length behind it says.
    unsafe { c::mizgaure_detect_size(capture.as_ptr(), capture.len()) }
}

/// The text of `radio rx` for a capture (HTCP).
pub fn rx(capture: &[u8]) -> Result<Vec<u8>, Fault> {
    RX.vector(capture, rx_size(capture))
}

/// The same into a slice.
pub fn rx_into(capture: &[u8], text: &mut [u8]) -> Result<usize, Fault> {
    RX.slice(capture, text)
}

/// A number of octets that suffices for the text of `rx`: 32 and half of the capture's own, rounded down, but at a capture of version 2
/// 32 and the less of 17 for each of its own and 131177 for each frame. `u64::MAX` from 2^59 octets on.
pub fn rx_size(capture: &[u8]) -> u64 {
    // SAFETY: as above.
    unsafe { c::mizgaure_rx_size(capture.as_ptr(), capture.len()) }
}

/// The text of `radio soft` for a capture (HTCP).
pub fn soft(capture: &[u8]) -> Result<Vec<u8>, Fault> {
    SOFT.vector(capture, soft_size(capture))
}

/// The same into a slice.
pub fn soft_into(capture: &[u8], text: &mut [u8]) -> Result<usize, Fault> {
    SOFT.slice(capture, text)
}

/// A number of octets that suffices for the text of `soft`, as `rx_size`.
pub fn soft_size(capture: &[u8]) -> u64 {
    // SAFETY: as above.
    unsafe { c::mizgaure_soft_size(capture.as_ptr(), capture.len()) }
}

/// The text of `radio lrx` for a capture of clause 18 frames (LGCP).
pub fn lrx(capture: &[u8]) -> Result<Vec<u8>, Fault> {
    LRX.vector(capture, lrx_size(capture))
}

/// The same into a slice.
pub fn lrx_into(capture: &[u8], text: &mut [u8]) -> Result<usize, Fault> {
    LRX.slice(capture, text)
}

/// A number of octets that suffices for the text of `lrx`: 32 and half of the capture's own, rounded down.
pub fn lrx_size(capture: &[u8]) -> u64 {
    // SAFETY: as above.
    unsafe { c::mizgaure_lrx_size(capture.as_ptr(), capture.len()) }
}

/// The text of `radio many` for a bundle of captures (HTMB).
pub fn many(bundle: &[u8]) -> Result<Vec<u8>, Fault> {
    MANY.vector(bundle, many_size(bundle))
}

/// The same into a slice.
pub fn many_into(bundle: &[u8], text: &mut [u8]) -> Result<usize, Fault> {
    MANY.slice(bundle, text)
}

/// A number of octets that suffices for the text of `many` where each capture of the bundle is whole: 17 for each of its own.
pub fn many_size(bundle: &[u8]) -> u64 {
    // SAFETY: as above.
    unsafe { c::mizgaure_many_size(bundle.as_ptr(), bundle.len()) }
}

/// The file of certificates (HTCT) of `radio certify` for a capture (HTCP).
pub fn certify(capture: &[u8]) -> Result<Vec<u8>, Fault> {
    Call::Plain(c::mizgaure_certify).vector(capture, some(capture))
}

/// The text of `radio check` for a file of certificates (HTCT).
pub fn check(file: &[u8]) -> Result<Vec<u8>, Fault> {
    CHECK.vector(file, check_size(file))
}

/// The same into a slice.
pub fn check_into(file: &[u8], text: &mut [u8]) -> Result<usize, Fault> {
    CHECK.slice(file, text)
}

/// A number of octets that suffices for the text of `check`: 16 and 2 for each of the file's own.
pub fn check_size(file: &[u8]) -> u64 {
    // SAFETY: as above.
    unsafe { c::mizgaure_check_size(file.as_ptr(), file.len()) }
}

/// The file of symbols (HTSY) of `radio tx` for a file of frames (HTTX).
pub fn tx(frames: &[u8]) -> Result<Vec<u8>, Fault> {
    Call::Plain(c::mizgaure_tx).vector(frames, some(frames))
}

/// The capture of version 2 of `radio upgrade` for a capture (HTCP) of either version.
pub fn upgrade(capture: &[u8]) -> Result<Vec<u8>, Fault> {
    Call::Plain(c::mizgaure_upgrade).vector(capture, some(capture))
}

/// The capture (HTCP) of `radio channel` for a file of symbols (HTSY), with its seed, and with noise from -`noise` to `noise` in each part
/// of a sample (docs/SIMULATOR.md).
pub fn pass(seed: u64, noise: u16, symbols: &[u8]) -> Result<Vec<u8>, Fault> {
    Call::Passing(c::mizgaure_pass, seed, noise).vector(symbols, some(symbols))
}

/// The capture (LGCP) of `radio lchannel` for a file of clause 18 frames (LGTX), as `pass`.
pub fn legacy_pass(seed: u64, noise: u16, frames: &[u8]) -> Result<Vec<u8>, Fault> {
    Call::Passing(c::mizgaure_legacy_pass, seed, noise).vector(frames, some(frames))
}
