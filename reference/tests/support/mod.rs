//! What the comparison needs besides its cases.

pub mod coverage;
pub mod programs;
mod witness;
