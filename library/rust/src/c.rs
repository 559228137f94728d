//! The declarations of `mizgaure.h`. `library/tests/declared.py` compares them with it.
use crate::jobs::{Channel, Distance, Hit, Point, Received};

/// Where an input is refused, and the number of the fault's kind.
#[repr(C)]
#[derive(Default)]
pub struct Refusal {
    pub offset: u64,
    pub kind: u32,
}

/// What is wrong with a certificate: the number of its kind, and the number that goes with it in two words.
#[repr(C)]
#[derive(Default)]
pub struct Flaw {
    pub low: u64,
    pub high: u64,
    pub kind: u32,
}

/// A cost in two words.
#[repr(C)]
#[derive(Default)]
pub struct Cost {
    pub low: u64,
    pub high: u64,
}

extern "C" {
    pub fn mizgaure_version() -> u32;

    pub fn mizgaure_nearest(bandwidth: u8, mcs: u8, channel: *const Channel, received: *const Received, found: *mut Hit) -> u32;
    pub fn mizgaure_detect_symbols(
        bandwidth: u8, mcs: u8, channels: *const Channel, channels_n: usize, received: *const Received, received_n: usize,
        hits: *mut Hit, hits_n: usize, labels: *mut u8, labels_n: usize, sums: *mut Distance, sums_n: usize,
    ) -> u32;
    pub fn mizgaure_weigh_symbols(
        bandwidth: u8, mcs: u8, channels: *const Channel, channels_n: usize, received: *const Received, received_n: usize,
        weights: *mut i32, n: usize,
    ) -> u32;
    pub fn mizgaure_certify_job(
        bandwidth: u8, mcs: u8, channel: *const Channel, received: *const Received, found: *mut Hit, marks: *mut bool,
        marks_n: usize, size: *mut u64,
    ) -> u32;
    pub fn mizgaure_check_job(
        bandwidth: u8, mcs: u8, channel: *const Channel, received: *const Received, hit: *const Hit, marks: *const bool,
        marks_n: usize, flaw: *mut Flaw,
    ) -> u32;

    pub fn mizgaure_scramble(seed: u8, bits: *mut bool, n: usize) -> u32;
    pub fn mizgaure_recover(bits: *const bool, n: usize, seed: *mut u8) -> u32;
    pub fn mizgaure_split(
        bandwidth: u8, mcs: u8, bits: *const bool, n: usize, first: *mut bool, first_n: usize, second: *mut bool, second_n: usize,
    ) -> u32;
    pub fn mizgaure_join(
        bandwidth: u8, mcs: u8, first: *const bool, first_n: usize, second: *const bool, second_n: usize, bits: *mut bool, n: usize,
    ) -> u32;
    pub fn mizgaure_encode(pattern: u8, input: *const bool, n: usize, coded: *mut bool, coded_n: usize) -> u32;
    pub fn mizgaure_decode(pattern: u8, received: *const u8, n: usize, input: *mut bool, steps: usize, distance: *mut u32) -> u32;
    pub fn mizgaure_soft_decode(pattern: u8, weights: *const i32, n: usize, input: *mut bool, steps: usize, cost: *mut u64) -> u32;
    pub fn mizgaure_lay(
        bandwidth: u8, mcs: u8, first: *const bool, first_n: usize, second: *const bool, second_n: usize, bits: *mut bool, n: usize,
    ) -> u32;
    pub fn mizgaure_gather(
        bandwidth: u8, mcs: u8, bits: *const bool, n: usize, first: *mut bool, first_n: usize, second: *mut bool, second_n: usize,
    ) -> u32;
    pub fn mizgaure_places(bandwidth: u8, mcs: u8, stream: u8, places: *mut u16, n: usize) -> u32;
    pub fn mizgaure_origins(bandwidth: u8, mcs: u8, stream: u8, origins: *mut u16, n: usize) -> u32;
    pub fn mizgaure_points(bits: u8, labels: *const u8, n: usize, points: *mut Point, points_n: usize) -> u32;
    pub fn mizgaure_labels(bits: u8, points: *const Point, n: usize, labels: *mut u8, labels_n: usize) -> u32;
    pub fn mizgaure_pilots(bandwidth: u8, mcs: u8, symbol: u32, stream: u8, values: *mut i8, n: usize) -> u32;

    pub fn mizgaure_transmit(
        bandwidth: u8, mcs: u8, seed: u8, octets: *const u8, n: usize, points: *mut Point, points_n: usize,
    ) -> u32;
    pub fn mizgaure_decode_frame(
        bandwidth: u8, mcs: u8, erased_low: u64, erased_high: u64, labels: *const u8, n: usize, octets: *mut u8, octets_n: usize,
        differences: *mut u32,
    ) -> u32;
    pub fn mizgaure_soft_frame(
        bandwidth: u8, mcs: u8, erased_low: u64, erased_high: u64, weights: *const i32, n: usize, octets: *mut u8, octets_n: usize,
        cost: *mut Cost,
    ) -> u32;

    pub fn mizgaure_legacy_transmit(rate: u8, seed: u8, octets: *const u8, n: usize, points: *mut Point, points_n: usize) -> u32;
    pub fn mizgaure_legacy_decode_frame(
        rate: u8, labels: *const u8, n: usize, octets: *mut u8, octets_n: usize, differences: *mut u32,
    ) -> u32;
    pub fn mizgaure_legacy_places(rate: u8, places: *mut u16, n: usize) -> u32;
    pub fn mizgaure_legacy_origins(rate: u8, origins: *mut u16, n: usize) -> u32;
    pub fn mizgaure_legacy_pilots(symbol: u32, values: *mut i8, n: usize) -> u32;

    pub fn mizgaure_detect(capture: *const u8, n: usize, text: *mut u8, text_n: usize, size: *mut u64, refusal: *mut Refusal) -> u32;
    pub fn mizgaure_rx(capture: *const u8, n: usize, text: *mut u8, text_n: usize, size: *mut u64, refusal: *mut Refusal) -> u32;
    pub fn mizgaure_soft(capture: *const u8, n: usize, text: *mut u8, text_n: usize, size: *mut u64, refusal: *mut Refusal) -> u32;
    pub fn mizgaure_lrx(capture: *const u8, n: usize, text: *mut u8, text_n: usize, size: *mut u64, refusal: *mut Refusal) -> u32;
    pub fn mizgaure_many(bundle: *const u8, n: usize, text: *mut u8, text_n: usize, size: *mut u64, refusal: *mut Refusal) -> u32;
    pub fn mizgaure_certify(capture: *const u8, n: usize, file: *mut u8, file_n: usize, size: *mut u64, refusal: *mut Refusal) -> u32;
    pub fn mizgaure_check(file: *const u8, n: usize, text: *mut u8, text_n: usize, size: *mut u64, refusal: *mut Refusal) -> u32;
    pub fn mizgaure_tx(frames: *const u8, n: usize, symbols: *mut u8, symbols_n: usize, size: *mut u64, refusal: *mut Refusal) -> u32;
    pub fn mizgaure_upgrade(capture: *const u8, n: usize, newer: *mut u8, newer_n: usize, size: *mut u64, refusal: *mut Refusal) -> u32;
    pub fn mizgaure_pass(
        seed: u64, noise: u16, symbols: *const u8, n: usize, capture: *mut u8, capture_n: usize, size: *mut u64,
        refusal: *mut Refusal,
    ) -> u32;
    pub fn mizgaure_legacy_pass(
        seed: u64, noise: u16, frames: *const u8, n: usize, capture: *mut u8, capture_n: usize, size: *mut u64,
        refusal: *mut Refusal,
    ) -> u32;

    pub fn mizgaure_detect_size(capture: *const u8, n: usize) -> u64;
    pub fn mizgaure_rx_size(capture: *const u8, n: usize) -> u64;
    pub fn mizgaure_soft_size(capture: *const u8, n: usize) -> u64;
    pub fn mizgaure_lrx_size(capture: *const u8, n: usize) -> u64;
    pub fn mizgaure_many_size(bundle: *const u8, n: usize) -> u64;
    pub fn mizgaure_check_size(file: *const u8, n: usize) -> u64;
}
