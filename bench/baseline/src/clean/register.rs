//! Words of 64 steps side by side in a register, of AVX2 where the program is built for it.
use std::ops::{BitAnd, BitOr, BitXor};

#[cfg(target_feature = "avx2")]
mod of {
    pub use std::arch::x86_64::__m256i as Words;
    use std::arch::x86_64::_mm256_testz_si256;
    pub use std::arch::x86_64::{
        _mm256_and_si256 as and, _mm256_loadu_si256 as load, _mm256_or_si256 as or, _mm256_setzero_si256 as zero, _mm256_slli_epi64 as left,
        _mm256_srli_epi64 as right, _mm256_storeu_si256 as store, _mm256_xor_si256 as xor,
    };
    pub fn is_zero(words: Words) -> bool {
        // SAFETY: AVX is there.
        unsafe { _mm256_testz_si256(words, words) == 1 }
    }
}

#[cfg(not(target_feature = "avx2"))]
mod of {
    pub use std::arch::x86_64::__m128i as Words;
    use std::arch::x86_64::_mm_testz_si128;
    pub use std::arch::x86_64::{
        _mm_and_si128 as and, _mm_loadu_si128 as load, _mm_or_si128 as or, _mm_setzero_si128 as zero, _mm_slli_epi64 as left,
        _mm_srli_epi64 as right, _mm_storeu_si128 as store, _mm_xor_si128 as xor,
    };
    pub fn is_zero(words: Words) -> bool {
        // SAFETY: SSE4.1 is part of x86-64-v2, for which this is built.
        unsafe { _mm_testz_si128(words, words) == 1 }
    }
}

/// The words of a register.
pub const WORDS: usize = size_of::<of::Words>() / 8;

#[derive(Clone, Copy)]
pub struct Register(of::Words);

// SAFETY, of all of them: what they need is part of what this is built for, and whole registers are read and written.
impl Register {
    #[inline(always)]
    pub fn zero() -> Register {
        Register(unsafe { of::zero() })
    }

    #[inline(always)]
    pub fn of(words: &[u64; WORDS]) -> Register {
        Register(unsafe { of::load(words.as_ptr().cast()) })
    }

    #[inline(always)]
    pub fn of_octets(octets: &[u8; 8 * WORDS]) -> Register {
        Register(unsafe { of::load(octets.as_ptr().cast()) })
    }

    #[inline(always)]
    pub fn put(self, into: &mut [u64; WORDS]) {
        unsafe { of::store(into.as_mut_ptr().cast(), self.0) }
    }

    #[inline(always)]
    pub fn put_octets(self, into: &mut [u8; 8 * WORDS]) {
        unsafe { of::store(into.as_mut_ptr().cast(), self.0) }
    }

    /// The bits by some steps delayed, where those of the words before are given; `REST` is what the delay lacks to 64.
    #[inline(always)]
    pub fn delayed<const DELAY: i32, const REST: i32>(self, before: Register) -> Register {
        Register(unsafe { of::or(of::left(self.0, DELAY), of::right(before.0, REST)) })
    }

    #[inline(always)]
    pub fn is_zero(self) -> bool {
        of::is_zero(self.0)
    }
}

impl BitXor for Register {
    type Output = Register;
    #[inline(always)]
    fn bitxor(self, other: Register) -> Register {
        Register(unsafe { of::xor(self.0, other.0) })
    }
}

impl BitAnd for Register {
    type Output = Register;
    #[inline(always)]
    fn bitand(self, other: Register) -> Register {
        Register(unsafe { of::and(self.0, other.0) })
    }
}

impl BitOr for Register {
    type Output = Register;
    #[inline(always)]
    fn bitor(self, other: Register) -> Register {
        Register(unsafe { of::or(self.0, other.0) })
    }
}
