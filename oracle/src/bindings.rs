//! The archive's calls as C sees them, and nothing else. build.rs sets `cfg(vx_NAME)` for each
//! that libvolmeixi.a defines; of the others, the function here hands back `None`.

#![allow(unexpected_cfgs)]

macro_rules! archive {
    ($($name:ident($($arg:ty),*) -> $back:ty;)*) => { $(
        pub fn $name() -> Option<unsafe extern "C" fn($($arg),*) -> $back> {
            #[cfg($name)]
            {
                extern "C" {
                    fn $name($(_: $arg),*) -> $back;
                }
                Some($name)
            }
            #[cfg(not($name))]
            None
        }
    )* };
}

type Read = *const f64;
type Write = *mut f64;
type Count = *mut usize;
type Counts = *const usize;
/// A bool of C, as the byte that it is.
type Mark = *mut u8;

// A buffer is its first place and its length; a matrix of two rows and a single result are their
// first place alone. A call on a form takes n and the stride first.
archive! {
    vx_abs(f64) -> f64;
    vx_abs1(f64) -> f64;
    vx_abs2(f64) -> f64;
    vx_recip(f64) -> f64;
    vx_mul_pow2(f64, f64) -> f64;
    vx_fmax(f64, f64) -> f64;
    vx_fmin(f64, f64) -> f64;
    vx_sqrt(f64) -> f64;
    vx_hypot(f64, f64) -> f64;
    vx_norm_l2(Read, usize) -> f64;
    vx_rotg(f64, f64, Write, Write, Write) -> ();
    vx_adjoint(f64, f64, Write, Write) -> ();
    vx_apply(f64, f64, f64, f64, Write, Write) -> ();
    vx_make_householder_in_place(f64, Write, usize, Write, Write, Write, Write) -> usize;
    vx_lahqr_schur22(
        f64, f64, f64, f64, Write, Write, Write, Write, Write, Write, Write, Write, Write, Write
    ) -> usize;
    vx_lasy2(Read, Read, Read, Write, Write) -> ();
    vx_schur_swap(usize, usize, Write, usize, Write, usize, usize, usize, usize, Count, Count) -> usize;
    vx_reorder_schur(usize, usize, Write, usize, Write, usize, usize, usize, Count, Count, Count) -> usize;
    vx_reorder_schur_stopping(
        usize, usize, Write, usize, Write, usize, usize, usize, Mark, Count, Count, Count
    ) -> usize;
    vx_reorder_schur_list(
        usize, usize, Write, usize, Write, usize, Counts, usize, Count, usize
    ) -> usize;
    vx_block_values(usize, usize, Read, usize, Write, usize, Write, usize) -> usize;
    vx_standardised_values(usize, usize, Read, usize, Write, usize, Write, usize) -> usize;
    vx_evd_from_real_schur(usize, usize, Read, usize, Write, usize) -> usize;
}
