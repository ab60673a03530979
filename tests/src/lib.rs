//! The comparison side of the tests: a second program for PROFIBUS telegrams,
//! written from document 01 alone, and the seeded samples on which it and the
//! library are run against each other, for their answers and for their speed.

#![forbid(unsafe_code)]
#![warn(missing_docs)]

pub mod random;
pub mod reference;
pub mod samples;
pub mod speed;
