//! What the proved library is timed beside: two plate makers in plain Rust, one
//! with the proved library's loops, and a listing; and the sheets that all are
//! timed on.

pub mod baseline;
pub mod listing;
pub mod masks;
pub mod plate;
#[cfg(feature = "proved")]
pub mod proved;
pub mod sheets;
mod table;

#[cfg(test)]
mod tests;
