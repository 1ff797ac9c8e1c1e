//! The desk: what people around the sealed library need beside its numbers, outside of it. A subcommand is a module; every number comes
//! from the library.
pub mod arguments;
pub mod check;
pub mod decimal;
pub mod dots;
pub mod draw;
pub mod grid;
pub mod joints;
pub mod points;
