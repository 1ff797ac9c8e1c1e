//! The published Rust, asked through plain types, with the stand-ins of documents 01 and 02 in it. The three published files are not
//! part of the repository: build.rs takes them from outside, holds them against their pinned sums and patches a copy.

#[allow(dead_code)]
mod coords {
    include!(concat!(env!("OUT_DIR"), "/coords.rs"));
}
#[allow(dead_code)]
mod geometry {
    include!(concat!(env!("OUT_DIR"), "/geometry.rs"));
}
#[allow(dead_code)]
mod road {
    include!(concat!(env!("OUT_DIR"), "/road.rs"));
}

pub mod dots;
pub mod oracle;
pub mod own;
pub mod second_program;
pub mod stand_ins;
pub mod tracks;

// What the published files name of others. None of it has behaviour that is compared.
pub mod crg {
    #[derive(Debug, Clone, Copy, PartialEq)]
    pub struct RefPoint {
        pub s: f64,
        pub x: f64,
        pub y: f64,
        pub heading: f64,
        pub z: f64,
        pub grade: f64,
        pub bank: f64,
        pub bank_rate: f64,
    }
}

#[derive(Debug, Clone, Copy, PartialEq, Eq, Hash)]
pub enum Direction {
    Forward,
    Backward,
}

#[derive(Debug, Clone, Copy, PartialEq, Eq, Hash)]
pub struct LaneId(pub usize);

#[derive(Debug, Clone, Copy, PartialEq, Eq, Hash)]
pub struct RoadMarkId(pub usize);
