use core::fmt;
use core::mem::MaybeUninit;

use crate::answers::{Axes, Borders, Located, Pose, Station, SurfacePoint};
use crate::calls::{self, Lent};
use crate::layout::{BORDERS, LENGTH, NUMBERS, SAMPLE_STRIDE, SAMPLES, WANTS, WORDS};
use crate::refusal::Refusal;

/// A road with its samples and wants, in memory of its own: about 136 kB and no allocation.
///
/// A `static` takes no stack at all, and no room in the program's file, since a new road is zeros:
///
/// ```
/// use std::sync::Mutex;
/// use riftkettle::Road;
///
/// static ROAD: Mutex<Road> = Mutex::new(Road::new());
/// ```
///
/// A box takes the heap. A debug build makes the road on the stack first and copies it there, so that `Box::new(Road::new())` needs some
/// 270 kB of stack for a moment; [`Road::new_in`] needs none:
///
/// ```
/// use riftkettle::Road;
///
/// let mut boxed: Box<Road> = Box::new(Road::new());
/// let leaked: &'static mut Road = Road::new_in(Box::leak(Box::new_uninit()));
/// ```
///
/// Until a road is read or put in by hand there is none, and calls refuse [`Refusal::Structure`].
#[derive(Clone)]
pub struct Road {
    words: [u16; WORDS],
    numbers: [f64; NUMBERS],
    wants: [u64; WANTS],
    want_count: usize,
    samples: [f64; SAMPLES],
    made: usize,
}

impl Road {
    /// No road yet: zeros.
    pub const fn new() -> Self {
        Self { words: [0; WORDS], numbers: [0.0; NUMBERS], wants: [0; WANTS], want_count: 0, samples: [0.0; SAMPLES], made: 0 }
    }

    /// No road yet, made where it is to stay, so that no stack is needed for it.
    pub fn new_in(room: &mut MaybeUninit<Self>) -> &mut Self {
        // SAFETY: the room is borrowed mutably, and zeros are a value of every field.
        unsafe {
            room.as_mut_ptr().write_bytes(0, 1);
            room.assume_init_mut()
        }
    }

    /// Reads a job text (`docs/JOB-TEXT.md`) and makes the road's samples. After a refusal there is no road.
    ///
    /// Refuses as [`read`](crate::read).
    pub fn read(&mut self, text: &[u8]) -> Result<(), Refusal> {
        self.made = 0;
        self.want_count = 0;
        self.want_count = calls::read(text, &mut self.words, &mut self.numbers, &mut self.wants)?;
        self.make_samples() // never refuses here: what was read is admitted, and there is room for the samples of every road
    }

    /// Makes the samples of a road that was put in by hand. After a refusal there are none.
    ///
    /// Refuses as [`samples`](crate::samples).
    pub fn make_samples(&mut self) -> Result<(), Refusal> {
        self.made = 0;
        let road = Lent { words: &self.words, numbers: &self.numbers };
        self.made = calls::samples(road, &mut self.samples)?;
        Ok(())
    }

    /// The words, to put a road in by hand (the places are in [`layout`](crate::layout)). The samples made before are dropped; a road with
    /// spirals needs [`make_samples`](Self::make_samples).
    pub fn words_mut(&mut self) -> &mut [u16; WORDS] {
        self.made = 0;
        &mut self.words
    }

    /// The numbers, likewise.
    pub fn numbers_mut(&mut self) -> &mut [f64; NUMBERS] {
        self.made = 0;
        &mut self.numbers
    }

    /// The road, for a call on slices.
    pub fn lent(&self) -> Lent<'_> {
        Lent { words: &self.words, numbers: &self.numbers }
    }

    /// The samples that were made, four numbers each.
    pub fn samples(&self) -> &[f64] {
        &self.samples[..self.made * SAMPLE_STRIDE]
    }

    /// The wants that were read: `s` and `t` of each.
    pub fn wants(&self) -> impl ExactSizeIterator<Item = (f64, f64)> + '_ {
        self.wants.as_chunks().0[..self.want_count].iter().map(|&[s, t]| (f64::from_bits(s), f64::from_bits(t)))
    }

    /// The road's length, 0 where there is no road.
    pub fn length(&self) -> f64 {
        self.numbers[LENGTH]
    }

    /// [`admit`](crate::admit).
    pub fn admit(&self) -> Result<(), Refusal> {
        calls::admit(self.lent())
    }

    /// [`pose`](crate::pose).
    pub fn pose(&self, geometry: usize, s: f64) -> Result<Pose, Refusal> {
        calls::pose(self.lent(), self.samples(), geometry, s)
    }

    /// [`borders`](crate::borders), in a list of their own, with the lanes' ids.
    pub fn borders(&self, s: f64) -> Result<Borders, Refusal> {
        let mut list = [0.0; BORDERS];
        let lanes = calls::borders(self.lent(), s, &mut list)?;
        Ok(Borders::of(&list, lanes, calls::left_lanes(self.lent(), s)))
    }

    /// [`lane_named`](crate::lane_named).
    pub fn lane_named(&self, s: f64, t: f64) -> Result<Option<i32>, Refusal> {
        calls::lane_named(self.lent(), s, t)
    }

    /// [`station`](crate::station).
    pub fn station(&self, s: f64) -> Result<Station, Refusal> {
        calls::station(self.lent(), self.samples(), s)
    }

    /// [`axes`](crate::axes).
    pub fn axes(&self, s: f64) -> Result<Axes, Refusal> {
        calls::axes(self.lent(), self.samples(), s)
    }

    /// [`surface`](crate::surface).
    pub fn surface(&self, s: f64, t: f64) -> Result<SurfacePoint, Refusal> {
        calls::surface(self.lent(), self.samples(), s, t)
    }

    /// [`lane_surface`](crate::lane_surface).
    pub fn lane_surface(&self, id: i32, s: f64, t: f64) -> Result<SurfacePoint, Refusal> {
        calls::lane_surface(self.lent(), self.samples(), id, s, t)
    }

    /// [`locate`](crate::locate).
    pub fn locate(&self, x: f64, y: f64, guess: f64) -> Result<Located, Refusal> {
        calls::locate(self.lent(), self.samples(), x, y, guess)
    }

    /// [`dots`](crate::dots), into a list of the caller's: they may be 65,536.
    pub fn dots(&self, section: usize, lane: i32, spacing: f32, stations: &[f64], list: &mut [f64]) -> Result<usize, Refusal> {
        calls::dots(self.lent(), self.samples(), section, lane, spacing, stations, list)
    }
}

impl Default for Road {
    fn default() -> Self {
        Self::new()
    }
}

impl fmt::Debug for Road {
    fn fmt(&self, f: &mut fmt::Formatter<'_>) -> fmt::Result {
        let Self { want_count, made, .. } = self;
        f.debug_struct("Road")
            .field("length", &self.length())
            .field("wants", want_count)
            .field("samples", made)
            .finish_non_exhaustive()
    }
}
