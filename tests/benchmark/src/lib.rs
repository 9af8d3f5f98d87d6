//! The Rust sides of the benchmark, the loop that feeds them, and the inputs.

pub mod fast;
pub mod feed;
#[cfg(feature = "driver")]
pub mod image;
#[cfg(feature = "driver")]
pub mod linked;
#[cfg(feature = "driver")]
pub mod rows;
pub mod sides;
pub mod workload;
