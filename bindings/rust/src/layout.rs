//! The constants of `include/riftkettle.h`, without its prefix: the version, the places of a road in lent memory, and sizes. The header
//! says what a table's columns are. The refusals' numbers are [`Refusal`](crate::Refusal)'s.

// `include/riftkettle.h` says what each is.
#![allow(missing_docs)]

pub const VERSION: &str = "2.1.0";
pub const VERSION_MAJOR: u32 = 2;
pub const VERSION_MINOR: u32 = 1;
pub const VERSION_PATCH: u32 = 0;

// ---- a road: elements of the two slices
pub const WORDS: usize = 1891;
pub const NUMBERS: usize = 8449;

// ---- places in `numbers`
pub const LENGTH: usize = 0;
pub const GEOM: usize = 1;
pub const ELEV: usize = 449;
pub const BANK: usize = 769;
pub const OFFSET: usize = 1089;
pub const TSHIFT: usize = 1409;
pub const SECTION: usize = 1729;
pub const EXTENT: usize = 1745;
pub const HEIGHT: usize = 4305;
pub const PROFILE: usize = 5841;
pub const SHAPE: usize = 5857;
pub const CUBIC: usize = 7137;
pub const SPAN: usize = 7937;

// ---- places in `words`
pub const GEOMS: usize = 0;
pub const ELEVS: usize = 1;
pub const BANKS: usize = 2;
pub const OFFSETS: usize = 3;
pub const TSHIFTS: usize = 4;
pub const SECTIONS: usize = 5;
pub const PROFILES: usize = 6;
pub const KIND: usize = 7;
pub const LANES: usize = 71;
pub const LANE: usize = 119;
pub const SHAPES: usize = 1271;
pub const STRIP: usize = 1303;
pub const MARKS: usize = 1347;
pub const MARK: usize = 1379;

// ---- elements a line
pub const CUBIC_STRIDE: usize = 5;
pub const GEOM_STRIDE: usize = 7;
pub const HEIGHT_STRIDE: usize = 3;
pub const LANES_STRIDE: usize = 3;
pub const LANE_STRIDE: usize = 6;
pub const SHAPES_STRIDE: usize = 2;
pub const STRIP_STRIDE: usize = 11;
pub const SPAN_STRIDE: usize = 2;
pub const MARKS_STRIDE: usize = 2;
pub const MARK_STRIDE: usize = 2;

// ---- slices besides the road's: numbers an item, and as many as any road or track needs
pub const SAMPLE_STRIDE: usize = 4;
pub const SAMPLES: usize = 8000;
pub const BORDER_STRIDE: usize = 3;
pub const BORDERS: usize = 36;
pub const STATIONS: usize = 512;
pub const DOTS: usize = 65536;
pub const POINT_STRIDE: usize = 3;
pub const TRACK: usize = 1536;

// ---- reading
pub const TEXT: usize = 65536;
pub const WANTS: usize = 32;
