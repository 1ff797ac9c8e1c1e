//! The test of the floating-point environment, in each environment that the header names.
use std::arch::asm;

use riftkettle::environment;

/// What `environment` answers while the control register holds `control`.
fn in_environment(control: u32) -> bool {
    let mut before = 0_u32;
    // SAFETY: the register is put back before any arithmetic.
    unsafe {
        asm!("stmxcsr [{}]", in(reg) &raw mut before, options(nostack));
        asm!("ldmxcsr [{}]", in(reg) &raw const control, options(nostack));
        let answer = environment();
        asm!("ldmxcsr [{}]", in(reg) &raw const before, options(nostack));
        answer
    }
}

#[test]
fn the_usual_one_alone() {
    assert!(environment());
    assert!(in_environment(0x1f80));
    assert!(in_environment(0x1fbf), "exceptions met before are no part of it");
    let masks = (7..13).map(|bit| 0x1f80 & !(1 << bit));
    let rounding = [0x2000, 0x4000, 0x6000].map(|bits| 0x1f80 | bits);
    let flushing = [0x8000, 0x0040].map(|bit| 0x1f80 | bit);
    for control in masks.chain(rounding).chain(flushing) {
        assert!(!in_environment(control), "{control:#x}");
    }
}
