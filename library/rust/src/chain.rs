//! The scrambler and the convolutional code.
use crate::c;
use crate::fault::{done, Fault};

/// Adds the scrambling sequence of a seed, 1 to 127, to the bits, which descrambles too. Bit i of the seed is the delay element x^(i+1)
/// (clause 18.3.5.5). `NoSeed`.
pub fn scramble(seed: u8, bits: &mut [bool]) -> Result<(), Fault> {
    // SAFETY: each pointer is that of as many values as the length behind it says, and what is written overlaps nothing else.
    done(unsafe { c::mizgaure_scramble(seed, bits.as_mut_ptr(), bits.len()) })
}

/// The seed whose sequence begins with these 7 bits (clause 18.3.5.5). `BadLength` unless there are 7; `NoSeed` where all are 0.
pub fn recover(bits: &[bool]) -> Result<u8, Fault> {
    let mut seed = 0;
    // SAFETY: as above.
    done(unsafe { c::mizgaure_recover(bits.as_ptr(), bits.len(), &mut seed) })?;
    Ok(seed)
}

/// How many coded bits are kept of so many steps: `steps` + ceil(`steps` / p), where p is 1, 2, 3 or 5 for the patterns 0 to 3 (clause
/// 20.3.11.6). `NoPattern`. This is computed here.
pub fn sent(pattern: u8, steps: usize) -> Result<usize, Fault> {
    let period = *[1, 2, 3, 5].get(usize::from(pattern)).ok_or(Fault::NoPattern)?;
    steps.checked_add(steps.div_ceil(period)).ok_or(Fault::BadLength)
}

/// The convolutional code, punctured, a step for each bit of the input (clauses 18.3.5.6 and 20.3.11.6). The tail is part of the input.
/// `NoPattern`; `BadLength` unless there are `sent(pattern, input.len())` coded bits; `NoMemory`.
pub fn encode(pattern: u8, input: &[bool], coded: &mut [bool]) -> Result<(), Fault> {
    // SAFETY: as above.
    done(unsafe { c::mizgaure_encode(pattern, input.as_ptr(), input.len(), coded.as_mut_ptr(), coded.len()) })
}

/// Backwards, by hard decisions: of the inputs of `input.len()` bits whose last six are 0, the first of those whose codeword differs from
/// `received` at the fewest places, and at how many. Of two inputs the first has the 0 at the first bit where they differ. A received
/// place is 0, 1, or any other octet where it is erased, which counts for nothing. `NoPattern`; `BadLength` unless the input has 6 to
/// 524302 bits and there are `sent(pattern, input.len())` places; `NoMemory`.
pub fn decode(pattern: u8, received: &[u8], input: &mut [bool]) -> Result<u32, Fault> {
    let mut distance = 0;
    // SAFETY: as above.
    done(unsafe {
        c::mizgaure_decode(pattern, received.as_ptr(), received.len(), input.as_mut_ptr(), input.len(), &mut distance)
    })?;
    Ok(distance)
}

/// The same by weights: positive where a 1 is likelier, negative where a 0 is, 0 where nothing is known. What is least is the cost, which
/// is answered: the sum of the sizes of the weights that speak against the codeword. Faults as in `decode`.
pub fn soft_decode(pattern: u8, weights: &[i32], input: &mut [bool]) -> Result<u64, Fault> {
    let mut cost = 0;
    // SAFETY: as above.
    done(unsafe {
        c::mizgaure_soft_decode(pattern, weights.as_ptr(), weights.len(), input.as_mut_ptr(), input.len(), &mut cost)
    })?;
    Ok(cost)
}
