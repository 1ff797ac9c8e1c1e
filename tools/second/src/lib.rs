//! Documents 01 and 02 a second time, in plain Rust: a road as nested lists and as lent memory, the second admission, the second reader,
//! the rows of tracks and of dots, exact arithmetic, and a generator of numbers, roads, job texts, tracks and station lists. It shares
//! nothing with the library.
pub mod admission;
pub mod arguments;
pub mod dots;
pub mod exact;
pub mod fault;
pub mod generate;
pub mod limits;
pub mod model;
pub mod random;
pub mod reader;
pub mod texts;
pub mod tracks;
