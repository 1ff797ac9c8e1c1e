//! Road surface points and poses for marking carts: the verified library Riftkettle, from Rust. Metres and radians.
//!
//! [`Road`] owns the memory of a road and has a method for every call on one. The functions at the root are the same calls on slices of
//! the caller's, and those on a track line, a line of points: [`track_project`] tells how far a dot lies from it, [`track_pose`] and
//! [`track_tangents`] where it runs. [`ffi`] has the C interface as it is; `include/riftkettle.h` is the reference for all three.
//!
//! A call returns its answer or a [`Refusal`]. It allocates nothing, keeps nothing between calls, and is sound for slices of every length
//! and content.
//!
//! The floating-point environment must be the usual one at each call; [`environment`] tests it.
//!
//! ```
//! use riftkettle::{Refusal, Road};
//!
//! assert!(riftkettle::environment());
//! let job = std::fs::read("../../examples/jobs/lanes_width.job").unwrap();
//! let mut road = Box::new(Road::new());
//! road.read(&job)?;
//! for (s, t) in road.wants() {
//!     let point = road.surface(s, t)?;
//!     println!("{s} {t}: {} {} {}", point.x, point.y, point.z);
//! }
//! assert_eq!(road.surface(road.length() + 1.0, 0.0), Err(Refusal::Station));
//! # Ok::<(), Refusal>(())
//! ```
//!
//! # A code that no refusal has
//!
//! The C interface returns 0 or the number of a refusal. Should it return anything else, the archive that was linked is not the one of
//! this crate's version, and no answer of it can be trusted: the call panics. With the archive of this version that cannot happen.
#![no_std]
#![warn(missing_docs)]

// without SSE2 (x86_64-unknown-none) Rust passes an f64 otherwise than the archive takes it
#[cfg(not(all(target_arch = "x86_64", target_feature = "sse2")))]
compile_error!("Riftkettle is a library for x86-64 with SSE2");

mod answers;
mod calls;
mod environment;
pub mod ffi;
pub mod layout;
mod refusal;
mod road;
mod tracks;

pub use answers::{Axes, Border, Borders, Located, Pose, Projection, Station, SurfacePoint, TrackPose};
pub use calls::{
    Lent, admit, axes, borders, cos, counts, dots, hypot, lane_named, lane_surface, left_lanes, locate, narrow, pose, read, root,
    root32, samples, sin, station, surface, tan,
};
pub use environment::environment;
pub use layout::VERSION;
pub use refusal::Refusal;
pub use road::Road;
pub use tracks::{track_pose, track_project, track_tangents};
