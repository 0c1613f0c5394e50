//! A LAPACK opened while the program runs, so that two of them can be timed in one process.

use std::ffi::{CStr, CString};
use std::mem::MaybeUninit;
use std::os::raw::{c_char, c_int, c_void};

type Int<'a> = &'a c_int;
type Dtrexc = unsafe extern "C" fn(
    compq: *const c_char,
    n: Int,
    t: *mut f64,
    ldt: Int,
    q: *mut f64,
    ldq: Int,
    ifst: &mut c_int,
    ilst: &mut c_int,
    work: *mut f64,
    info: &mut c_int,
    len: usize,
);
type Dtrevc3 = unsafe extern "C" fn(
    side: *const c_char,
    howmny: *const c_char,
    select: *mut c_int,
    n: Int,
    t: *const f64,
    ldt: Int,
    vl: *mut f64,
    ldvl: Int,
    vr: *mut f64,
    ldvr: Int,
    mm: Int,
    m: &mut c_int,
    work: *mut f64,
    lwork: Int,
    info: &mut c_int,
    len: usize,
    len2: usize,
);
type Dlarfg = unsafe extern "C" fn(n: Int, alpha: &mut f64, x: *mut f64, incx: Int, tau: &mut f64);
type Dlanv2 = unsafe extern "C" fn(
    a: &mut f64,
    b: &mut f64,
    c: &mut f64,
    d: &mut f64,
    rt1r: &mut f64,
    rt1i: &mut f64,
    rt2r: &mut f64,
    rt2i: &mut f64,
    cs: &mut f64,
    sn: &mut f64,
);
extern "C" {
    fn dlopen(path: *const c_char, flags: c_int) -> *mut c_void;
    fn dlsym(library: *mut c_void, name: *const c_char) -> *mut c_void;
    fn dlerror() -> *const c_char;
}
/// Everything is bound at once, and first within the library itself (RTLD_NOW | RTLD_DEEPBIND).
const FLAGS: c_int = 2 | 8;

#[derive(Clone, Copy)]
pub struct Lapack {
    dtrexc: Dtrexc,
    dtrevc3: Dtrevc3,
    dlarfg: Dlarfg,
    dlanv2: Dlanv2,
}

const MOST: usize = 64;

impl Lapack {
    /// Opens the files in their order; the last has LAPACK's routines, those before it what it needs.
    pub fn open(paths: &str) -> Result<Lapack, String> {
        let mut library = std::ptr::null_mut();
        for path in paths.split(':') {
            let name = CString::new(path).map_err(|e| e.to_string())?;
            library = unsafe { dlopen(name.as_ptr(), FLAGS) };
            if library.is_null() {
                return Err(unsafe { CStr::from_ptr(dlerror()) }.to_string_lossy().into_owned());
            }
        }
        let find = |name: &str| {
            let text = CString::new(name).map_err(|e| e.to_string())?;
            match unsafe { dlsym(library, text.as_ptr()) } {
                place if place.is_null() => Err(format!("{paths} has no {name}")),
                place => Ok(place),
            }
        };
        // The types above are LAPACK's own.
        unsafe {
            Ok(Lapack {
                dtrexc: std::mem::transmute::<*mut c_void, Dtrexc>(find("dtrexc_")?),
                dtrevc3: std::mem::transmute::<*mut c_void, Dtrevc3>(find("dtrevc3_")?),
                dlarfg: std::mem::transmute::<*mut c_void, Dlarfg>(find("dlarfg_")?),
                dlanv2: std::mem::transmute::<*mut c_void, Dlanv2>(find("dlanv2_")?),
            })
        }
    }

    /// A move; hands back INFO. Rows count from 0. LAPACK only writes to its work space first, so it is
    /// not filled here, which would be timed too.
    pub fn reorder(&self, n: usize, ld: usize, t: &mut [f64], u: &mut [f64], from: usize, to: usize) -> c_int {
        let mut work = MaybeUninit::<[f64; MOST]>::uninit();
        let (size, stride, mut ifst, mut ilst, mut info) =
            (n as c_int, ld as c_int, from as c_int + 1, to as c_int + 1, 0);
        let wanted = if u.is_empty() { b'N' } else { b'V' } as c_char;
        unsafe {
            (self.dtrexc)(
                &wanted,
                &size,
                t.as_mut_ptr(),
                &stride,
                u.as_mut_ptr(),
                &stride,
                &mut ifst,
                &mut ilst,
                work.as_mut_ptr().cast(),
                &mut info,
                1,
            );
        }
        info
    }

    /// The vectors by dtrevc3, the routine that LAPACK's own drivers call.
    pub fn vectors(&self, n: usize, ld: usize, t: &[f64], v: &mut [f64]) -> c_int {
        let mut work = MaybeUninit::<[f64; 3 * MOST]>::uninit();
        let mut select = MaybeUninit::<[c_int; MOST]>::uninit();
        let (size, stride, lwork, mut m, mut info, mut none) = (n as c_int, ld as c_int, 3 * n as c_int, 0, 0, [0.0]);
        unsafe {
            (self.dtrevc3)(
                &(b'R' as c_char),
                &(b'A' as c_char),
                select.as_mut_ptr().cast(),
                &size,
                t.as_ptr(),
                &stride,
                none.as_mut_ptr(),
                &1,
                v.as_mut_ptr(),
                &stride,
                &size,
                &mut m,
                work.as_mut_ptr().cast(),
                &lwork,
                &mut info,
                1,
                1,
            );
        }
        info
    }

    /// The values of a form's blocks, by dlanv2 on a copy of each 2-block.
    pub fn standardised(&self, n: usize, ld: usize, t: &[f64], re: &mut [f64], im: &mut [f64]) {
        let at = |i: usize, j: usize| t[i + ld * j];
        let mut i = 0;
        while i < n {
            if i + 1 == n || at(i + 1, i) == 0.0 {
                (re[i], im[i]) = (at(i, i), 0.0);
                i += 1;
                continue;
            }
            let [mut a, mut b, mut c, mut d] = [at(i, i), at(i, i + 1), at(i + 1, i), at(i + 1, i + 1)];
            let [mut re1, mut im1, mut re2, mut im2, mut cs, mut sn] = [0.0; 6];
            unsafe {
                (self.dlanv2)(&mut a, &mut b, &mut c, &mut d, &mut re1, &mut im1, &mut re2, &mut im2, &mut cs, &mut sn)
            }
            (re[i], im[i], re[i + 1], im[i + 1]) = (re1, im1, re2, im2);
            i += 2;
        }
    }

    /// A reflection. LAPACK's head and tail are ours up to rounding, its tau is one over ours.
    pub fn reflect(&self, head: &mut f64, tail: &mut [f64], tau: &mut f64) {
        unsafe { (self.dlarfg)(&(tail.len() as c_int + 1), head, tail.as_mut_ptr(), &1, tau) }
    }
}
