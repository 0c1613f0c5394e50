//! The archive's calls as C sees them: a buffer is its first place and its length, a single result a
//! reference. What each gives is said in bindings/c/volmeixi.h.

// No call here keeps a pointer, and none reads or writes past a given length.
extern "C" {
    pub fn vx_abs(x: f64) -> f64;
    pub fn vx_abs1(x: f64) -> f64;
    pub fn vx_abs2(x: f64) -> f64;
    pub fn vx_recip(x: f64) -> f64;
    pub fn vx_mul_pow2(x: f64, p: f64) -> f64;
    pub fn vx_fmax(p: f64, q: f64) -> f64;
    pub fn vx_fmin(p: f64, q: f64) -> f64;
    pub fn vx_sqrt(x: f64) -> f64;
    pub fn vx_hypot(p: f64, q: f64) -> f64;
    pub fn vx_norm_l2(x: *const f64, x_len: usize) -> f64;
    pub fn vx_rotg(p: f64, q: f64, c: &mut f64, s: &mut f64, r: &mut f64);
    pub fn vx_adjoint(c: f64, s: f64, new_c: &mut f64, new_s: &mut f64);
    pub fn vx_apply(c: f64, s: f64, x: f64, y: f64, new_x: &mut f64, new_y: &mut f64);
    pub fn vx_make_householder_in_place(
        head: f64,
        tail: *mut f64,
        tail_len: usize,
        new_head: &mut f64,
        tau: &mut f64,
        head_with_beta_inv: &mut f64,
        norm: &mut f64,
    ) -> usize;
    pub fn vx_lahqr_schur22(
        a: f64,
        b: f64,
        c: f64,
        d: f64,
        new_a: &mut f64,
        new_b: &mut f64,
        new_c: &mut f64,
        new_d: &mut f64,
        re1: &mut f64,
        im1: &mut f64,
        re2: &mut f64,
        im2: &mut f64,
        cs: &mut f64,
        sn: &mut f64,
    ) -> usize;
    pub fn vx_lasy2(tl: &[f64; 4], tr: &[f64; 4], b: &[f64; 4], x: &mut [f64; 4], scale: &mut f64);
    pub fn vx_schur_swap(
        n: usize,
        ld: usize,
        t: *mut f64,
        t_len: usize,
        u: *mut f64,
        u_len: usize,
        j0: usize,
        n1: usize,
        n2: usize,
        swaps: &mut usize,
        declined: &mut usize,
    ) -> usize;
    pub fn vx_reorder_schur(
        n: usize,
        ld: usize,
        t: *mut f64,
        t_len: usize,
        u: *mut f64,
        u_len: usize,
        from: usize,
        to: usize,
        landed: &mut usize,
        swaps: &mut usize,
        declined: &mut usize,
    ) -> usize;
    pub fn vx_reorder_schur_stopping(
        n: usize,
        ld: usize,
        t: *mut f64,
        t_len: usize,
        u: *mut f64,
        u_len: usize,
        from: usize,
        to: usize,
        stopped: &mut bool,
        here: &mut usize,
        swaps: &mut usize,
        declined: &mut usize,
    ) -> usize;
    pub fn vx_reorder_schur_list(
        n: usize,
        ld: usize,
        t: *mut f64,
        t_len: usize,
        u: *mut f64,
        u_len: usize,
        moves: *const usize,
        moves_len: usize,
        results: *mut usize,
        results_len: usize,
    ) -> usize;
    pub fn vx_block_values(
        n: usize,
        ld: usize,
        t: *const f64,
        t_len: usize,
        re: *mut f64,
        re_len: usize,
        im: *mut f64,
        im_len: usize,
    ) -> usize;
    pub fn vx_standardised_values(
        n: usize,
        ld: usize,
        t: *const f64,
        t_len: usize,
        re: *mut f64,
        re_len: usize,
        im: *mut f64,
        im_len: usize,
    ) -> usize;
    pub fn vx_evd_from_real_schur(n: usize, ld: usize, t: *const f64, t_len: usize, v: *mut f64, v_len: usize)
    -> usize;
}
