//! Games for the comparison and the benchmark, and how they become the given Rust's types. Each module uses those above it alone.

pub mod random;

pub mod columns;

mod case;

pub mod adapt;
pub mod generate;
pub mod shaped;

pub mod lent;

pub mod eights;
pub mod kept;
pub mod returning;

pub use case::Case;
