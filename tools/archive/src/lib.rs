//! The library's C functions and those of its probes behind safe ones, with the number of a refusal and all that a call writes as they
//! are in C: the comparison looks at what a refused call leaves in lent memory. Programs use the crate of bindings/rust instead.

// links the library
use ::riftkettle as _;

pub mod probes;
pub mod riftkettle;
