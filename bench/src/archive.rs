//! The archives that are timed, ours and another, each copied to all places of a cache line by
//! bench/places: where a linker happens to put a function is then no part of a figure.

/// The copies of an archive, two for each place of a line.
pub const PLACES: usize = 8;

/// A call that writes the values of a form's blocks.
type ValuesCall = unsafe extern "C" fn(usize, usize, *const f64, usize, *mut f64, usize, *mut f64, usize) -> usize;
/// The move that stops.
type StoppingCall = unsafe extern "C" fn(
    usize,
    usize,
    *mut f64,
    usize,
    *mut f64,
    usize,
    usize,
    usize,
    *mut bool,
    *mut usize,
    *mut usize,
    *mut usize,
) -> usize;

/// The call that takes a list of moves.
type ListCall = unsafe extern "C" fn(
    usize,
    usize,
    *mut f64,
    usize,
    *mut f64,
    usize,
    *const usize,
    usize,
    *mut usize,
    usize,
) -> usize;

/// The calls that are linked of ours alone: the other archive may be of before them.
struct Newer {
    standardised_values: ValuesCall,
    reorder_schur_stopping: StoppingCall,
    reorder_schur_list: ListCall,
}

/// The calls of one copy.
pub struct Archive {
    reorder_schur: unsafe extern "C" fn(
        usize,
        usize,
        *mut f64,
        usize,
        *mut f64,
        usize,
        usize,
        usize,
        *mut usize,
        *mut usize,
        *mut usize,
    ) -> usize,
    evd_from_real_schur: unsafe extern "C" fn(usize, usize, *const f64, usize, *mut f64, usize) -> usize,
    block_values: ValuesCall,
    make_householder_in_place:
        unsafe extern "C" fn(f64, *mut f64, usize, *mut f64, *mut f64, *mut f64, *mut f64) -> usize,
    sqrt: unsafe extern "C" fn(f64) -> f64,
    hypot: unsafe extern "C" fn(f64, f64) -> f64,
    newer: Option<Newer>,
}

macro_rules! copy {
    ($name:expr, $newer:expr) => {{
        extern "C" {
            #[link_name = concat!("vx_reorder_schur_", $name)]
            fn reorder_schur(
                n: usize,
                ld: usize,
                t: *mut f64,
                t_len: usize,
                u: *mut f64,
                u_len: usize,
                from: usize,
                to: usize,
                landed: *mut usize,
                swaps: *mut usize,
                declined: *mut usize,
            ) -> usize;
            #[link_name = concat!("vx_evd_from_real_schur_", $name)]
            fn evd_from_real_schur(
                n: usize,
                ld: usize,
                t: *const f64,
                t_len: usize,
                v: *mut f64,
                v_len: usize,
            ) -> usize;
            #[link_name = concat!("vx_block_values_", $name)]
            fn block_values(
                n: usize,
                ld: usize,
                t: *const f64,
                t_len: usize,
                re: *mut f64,
                re_len: usize,
                im: *mut f64,
                im_len: usize,
            ) -> usize;
            #[link_name = concat!("vx_make_householder_in_place_", $name)]
            fn make_householder_in_place(
                head: f64,
                tail: *mut f64,
                tail_len: usize,
                new_head: *mut f64,
                tau: *mut f64,
                head_with_beta_inv: *mut f64,
                norm: *mut f64,
            ) -> usize;
            #[link_name = concat!("vx_sqrt_", $name)]
            fn sqrt(x: f64) -> f64;
            #[link_name = concat!("vx_hypot_", $name)]
            fn hypot(p: f64, q: f64) -> f64;
        }
        Archive {
            reorder_schur,
            evd_from_real_schur,
            block_values,
            make_householder_in_place,
            sqrt,
            hypot,
            newer: $newer,
        }
    }};
}

macro_rules! newer {
    ($name:expr) => {{
        extern "C" {
            #[link_name = concat!("vx_standardised_values_", $name)]
            fn standardised_values(
                n: usize,
                ld: usize,
                t: *const f64,
                t_len: usize,
                re: *mut f64,
                re_len: usize,
                im: *mut f64,
                im_len: usize,
            ) -> usize;
            #[link_name = concat!("vx_reorder_schur_stopping_", $name)]
            fn reorder_schur_stopping(
                n: usize,
                ld: usize,
                t: *mut f64,
                t_len: usize,
                u: *mut f64,
                u_len: usize,
                from: usize,
                to: usize,
                stopped: *mut bool,
                here: *mut usize,
                swaps: *mut usize,
                declined: *mut usize,
            ) -> usize;
            #[link_name = concat!("vx_reorder_schur_list_", $name)]
            fn reorder_schur_list(
                n: usize,
                ld: usize,
                t: *mut f64,
                t_len: usize,
                u: *mut f64,
                u_len: usize,
                moves: *const usize,
                moves_len: usize,
                results: *mut usize,
                results_len: usize,
            ) -> usize;
        }
        Some(Newer { standardised_values, reorder_schur_stopping, reorder_schur_list })
    }};
}

macro_rules! not_linked {
    ($name:expr) => {
        None
    };
}

macro_rules! copies {
    ($name:literal, $newer:ident: $($place:literal)*) => {
        [$(copy!(concat!($name, "_", $place), $newer!(concat!($name, "_", $place)))),*]
    };
}

pub static OURS: [Archive; PLACES] = copies!("ours", newer: 0 1 2 3 4 5 6 7);
/// What ours is timed beside by `bench/run beside`; else ours once more, and not called.
pub static OTHER: [Archive; PLACES] = copies!("other", not_linked: 0 1 2 3 4 5 6 7);

impl Archive {
    /// The number and the counts: landed, swaps, declined.
    #[inline(always)]
    pub fn reorder(
        &self,
        n: usize,
        ld: usize,
        t: &mut [f64],
        u: &mut [f64],
        from: usize,
        to: usize,
    ) -> (usize, [usize; 3]) {
        let [mut landed, mut swaps, mut declined] = [0; 3];
        let number = unsafe {
            (self.reorder_schur)(
                n,
                ld,
                t.as_mut_ptr(),
                t.len(),
                u.as_mut_ptr(),
                u.len(),
                from,
                to,
                &mut landed,
                &mut swaps,
                &mut declined,
            )
        };
        (number, [landed, swaps, declined])
    }

    /// The move that stops: the number, whether it has stopped, and the counts: here, swaps, declined.
    /// Panics on the other archive.
    #[inline(always)]
    pub fn reorder_stopping(
        &self,
        n: usize,
        ld: usize,
        t: &mut [f64],
        u: &mut [f64],
        from: usize,
        to: usize,
    ) -> (usize, bool, [usize; 3]) {
        let (mut stopped, [mut here, mut swaps, mut declined]) = (false, [0; 3]);
        let number = unsafe {
            (self.newer().reorder_schur_stopping)(
                n,
                ld,
                t.as_mut_ptr(),
                t.len(),
                u.as_mut_ptr(),
                u.len(),
                from,
                to,
                &mut stopped,
                &mut here,
                &mut swaps,
                &mut declined,
            )
        };
        (number, stopped, [here, swaps, declined])
    }

    /// A list of moves, from and to of each in turn, by one call: the number. Writes four results a move:
    /// its number, landed, swaps, declined. Panics on the other archive.
    #[inline(always)]
    pub fn reorder_list(
        &self,
        n: usize,
        ld: usize,
        t: &mut [f64],
        u: &mut [f64],
        moves: &[usize],
        results: &mut [usize],
    ) -> usize {
        unsafe {
            (self.newer().reorder_schur_list)(
                n,
                ld,
                t.as_mut_ptr(),
                t.len(),
                u.as_mut_ptr(),
                u.len(),
                moves.as_ptr(),
                moves.len(),
                results.as_mut_ptr(),
                results.len(),
            )
        }
    }

    #[inline(always)]
    pub fn vectors(&self, n: usize, ld: usize, t: &[f64], v: &mut [f64]) -> usize {
        unsafe { (self.evd_from_real_schur)(n, ld, t.as_ptr(), t.len(), v.as_mut_ptr(), v.len()) }
    }

    #[inline(always)]
    pub fn values(&self, n: usize, ld: usize, t: &[f64], re: &mut [f64], im: &mut [f64]) -> usize {
        unsafe { (self.block_values)(n, ld, t.as_ptr(), t.len(), re.as_mut_ptr(), re.len(), im.as_mut_ptr(), im.len()) }
    }

    /// Panics on the other archive.
    #[inline(always)]
    pub fn standardised(&self, n: usize, ld: usize, t: &[f64], re: &mut [f64], im: &mut [f64]) -> usize {
        let call = self.newer().standardised_values;
        unsafe { call(n, ld, t.as_ptr(), t.len(), re.as_mut_ptr(), re.len(), im.as_mut_ptr(), im.len()) }
    }

    #[inline(always)]
    fn newer(&self) -> &Newer {
        self.newer.as_ref().expect("these calls are linked of ours alone")
    }

    /// The results beside the head: tau, head_with_beta_inv, norm.
    #[inline(always)]
    pub fn reflect(&self, head: &mut f64, tail: &mut [f64], [tau, inverse, norm]: &mut [f64; 3]) -> usize {
        unsafe { (self.make_householder_in_place)(*head, tail.as_mut_ptr(), tail.len(), head, tau, inverse, norm) }
    }

    #[inline(always)]
    pub fn sqrt(&self, x: f64) -> f64 {
        unsafe { (self.sqrt)(x) }
    }

    #[inline(always)]
    pub fn hypot(&self, p: f64, q: f64) -> f64 {
        unsafe { (self.hypot)(p, q) }
    }
}
