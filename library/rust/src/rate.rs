//! The rates of clause 20.6 and the sizes that they have.

/// The bandwidth, 0 for 20 and 1 for 40 MHz, and the MCS index, 0 to 31 (clause 20.6). With others the calls answer `NoRate`, and the
/// sizes below mean nothing.
#[derive(Clone, Copy, Debug, PartialEq, Eq)]
pub struct Rate {
    pub bandwidth: u8,
    pub mcs: u8,
}

impl Rate {
    /// N_SS, the spatial streams: 1 to 4.
    pub const fn streams(self) -> usize {
        self.mcs as usize / 8 + 1
    }

    /// N_BPSCS, the bits of a label: 1, 2, 4 or 6.
    pub const fn bits(self) -> usize {
        [1, 2, 2, 4, 4, 6, 6, 6][self.mcs as usize % 8]
    }

    /// N_ST, the subcarriers of a symbol, pilots included.
    pub const fn subcarriers(self) -> usize {
        self.data_subcarriers() + self.pilot_subcarriers().len()
    }

    /// N_SD, the data subcarriers of a symbol.
    pub const fn data_subcarriers(self) -> usize {
        if self.bandwidth == 0 { 52 } else { 108 }
    }

    /// The numbers of the N_SP pilot subcarriers among the N_ST, upwards in frequency.
    pub const fn pilot_subcarriers(self) -> &'static [usize] {
        if self.bandwidth == 0 { &[7, 21, 34, 48] } else { &[5, 33, 47, 66, 80, 108] }
    }

    /// N_CBPSS, the coded bits of a symbol on a stream.
    pub const fn coded_bits_per_stream(self) -> usize {
        self.data_subcarriers() * self.bits()
    }

    /// N_CBPS, the coded bits of a symbol.
    pub const fn coded_bits(self) -> usize {
        self.streams() * self.coded_bits_per_stream()
    }

    /// The puncturing pattern, 0 to 3 for the coding rates 1/2, 2/3, 3/4 and 5/6.
    pub const fn pattern(self) -> u8 {
        [0, 0, 2, 0, 2, 1, 2, 3][self.mcs as usize % 8]
    }

    /// N_DBPS, the data bits of a symbol.
    pub const fn data_bits(self) -> usize {
        let (kept, of) = [(1, 2), (2, 3), (3, 4), (5, 6)][self.pattern() as usize];
        self.coded_bits() * kept / of
    }

    /// N_ES, the encoders: 2 at 40 MHz for the MCS 21 to 23 and 28 to 31, otherwise 1.
    pub const fn encoders(self) -> usize {
        if self.bandwidth == 1 && matches!(self.mcs, 21..=23 | 28..=31) { 2 } else { 1 }
    }

    /// N_SYM, the symbols of a PSDU of so many octets, 1 to 65535.
    pub const fn symbols(self, octets: usize) -> usize {
        (16 + 8 * octets + 6 * self.encoders()).div_ceil(self.data_bits())
    }
}
