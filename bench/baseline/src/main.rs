//! The lines of `ht_bench` in plain Rust, to compare with. It prints the same checksums.
fn main() {
    baseline::run(&std::env::args().skip(1).collect::<Vec<_>>());
}
