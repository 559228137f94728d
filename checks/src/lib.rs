//! What the checks share: the built program and its runs, the formats read anew from docs/FORMATS.md, files made and
//! spoiled at random, and what the program has to write for them. Nothing here is proved, and nothing of the product's
//! crates is used; the lines of `soft`, `lrx` and `many` are those of the plain receiver in bench/baseline.
pub mod bundles;
pub mod certificates;
pub mod channel;
pub mod expected;
pub mod legacy;
pub mod making;
pub mod options;
pub mod program;
pub mod random;
pub mod rates;
pub mod side_by_side;
pub mod spoiling;
mod system;
pub mod walking;
