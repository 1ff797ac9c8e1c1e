use core::fmt;

/// Why a call gives no answer. The numbers are those of the C interface; later versions may add some.
#[repr(u32)]
#[non_exhaustive]
#[derive(Debug, Clone, Copy, PartialEq, Eq, Hash)]
pub enum Refusal {
    /// A line of the job text breaks its form.
    Form = 1,
    /// The text, or a table of it, is too long, or a slice to read it into is too short.
    Capacity = 2,
    /// The road's counts, references or order are wrong, or its slice is too short.
    Structure = 3,
    /// A number of the road is not finite or outside its limit.
    Range = 4,
    /// The road's spirals need over 2,000 samples.
    SampleBudget = 5,
    /// The lent samples are fewer than the road needs.
    SampleSpace = 6,
    /// `s` is outside 0..length; the guess is not finite.
    Station = 7,
    /// `t` is outside -80..80.
    Offset = 8,
    /// `x` or `y` is outside -2,000,000..2,000,000.
    Target = 9,
    /// The section at `s`, or the section named, has no lane of that id.
    Lane = 10,
    /// The lent list is shorter than the section's lanes.
    BorderSpace = 11,
    /// The value is outside -80..80.
    CountRange = 12,
    /// The track is not 2 to 512 points of three f32, or the lent list is shorter than it.
    TrackCount = 13,
    /// A coordinate of the track or of the point is outside -2,000,000..2,000,000.
    TrackRange = 14,
    /// The spacing is outside 0.1..100.
    Spacing = 15,
    /// The stations are not 2 to 512 rising ones of the section, or their line is no track.
    StationList = 16,
    /// The lent list is shorter than the dots kept, or the line has over 65,536 multiples.
    DotSpace = 17,
}

impl Refusal {
    /// All of them, by number.
    pub const ALL: &'static [Self] = &[
        Self::Form,
        Self::Capacity,
        Self::Structure,
        Self::Range,
        Self::SampleBudget,
        Self::SampleSpace,
        Self::Station,
        Self::Offset,
        Self::Target,
        Self::Lane,
        Self::BorderSpace,
        Self::CountRange,
        Self::TrackCount,
        Self::TrackRange,
        Self::Spacing,
        Self::StationList,
        Self::DotSpace,
    ];

    /// Its number in the C interface, 1 to 17.
    pub const fn number(self) -> u32 {
        self as u32
    }

    /// The refusal of that number.
    pub const fn from_number(number: u32) -> Option<Self> {
        match number {
            1..=17 => Some(Self::ALL[number as usize - 1]),
            _ => None,
        }
    }

    /// The words of `include/riftkettle.h`.
    const fn words(self) -> &'static str {
        match self {
            Self::Form => "a line of the job text breaks its form",
            Self::Capacity => "the text, or a table of it, is too long, or a slice to read it into is too short",
            Self::Structure => "the road's counts, references or order are wrong, or its slice is too short",
            Self::Range => "a number of the road is not finite or outside its limit",
            Self::SampleBudget => "the road's spirals need over 2,000 samples",
            Self::SampleSpace => "the lent samples are fewer than the road needs",
            Self::Station => "s is outside 0..length; the guess is not finite",
            Self::Offset => "t is outside -80..80",
            Self::Target => "x or y is outside -2,000,000..2,000,000",
            Self::Lane => "the section at s, or the section named, has no lane of that id",
            Self::BorderSpace => "the lent list is shorter than the section's lanes",
            Self::CountRange => "the value is outside -80..80",
            Self::TrackCount => "the track is not 2 to 512 points of three f32, or the lent list is shorter than it",
            Self::TrackRange => "a coordinate of the track or of the point is outside -2,000,000..2,000,000",
            Self::Spacing => "the spacing is outside 0.1..100",
            Self::StationList => "the stations are not 2 to 512 rising ones of the section, or their line is no track",
            Self::DotSpace => "the lent list is shorter than the dots kept, or the line has over 65,536 multiples",
        }
    }
}

/// The header's words and the number: `t is outside -80..80 (refusal 8)`.
impl fmt::Display for Refusal {
    fn fmt(&self, f: &mut fmt::Formatter<'_>) -> fmt::Result {
        write!(f, "{} (refusal {})", self.words(), self.number())
    }
}

impl core::error::Error for Refusal {}
