use core::arch::asm;

/// Whether the floating-point environment of this thread is the one that every call needs: rounding to nearest, no flushing of
/// subnormals to zero (neither flush-to-zero nor denormals-are-zero), all exceptions masked. Any other was seen to change an answer or
/// to trap. A program starts with it, unless C code in it is linked with `-ffast-math`.
#[must_use]
pub fn environment() -> bool {
    const MASKS: u32 = 0x1f80;
    const ROUNDING: u32 = 0x6000;
    const FLUSH: u32 = 0x8040;
    let mut control = 0_u32;
    // SAFETY: stmxcsr writes these four bytes and nothing else.
    unsafe { asm!("stmxcsr [{}]", in(reg) &raw mut control, options(nostack, preserves_flags)) };
    control & (MASKS | ROUNDING | FLUSH) == MASKS
}
