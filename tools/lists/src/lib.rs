//! What the makers of lists share.
pub mod draft;
pub mod laid;

/// The word that is written for a number of an answer: zeros alike, NaNs alike.
pub fn pattern(x: f64) -> u64 {
    if x == 0.0 {
        0
    } else if x.is_nan() {
        0x7ff8_0000_0000_0000
    } else {
        x.to_bits()
    }
}
