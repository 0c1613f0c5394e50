//! Hides values from the compiler; std's own `black_box` is of a later Rust than Debian's.

/// Hands the value back; the compiler must take it for any value, and all memory for changed.
#[inline(always)]
pub fn black_box<T>(mut x: T) -> T {
    unsafe { core::arch::asm!("/* {0} */", in(reg) &mut x as *mut T, options(nostack, preserves_flags)) };
    x
}
