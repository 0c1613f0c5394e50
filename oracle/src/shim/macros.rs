//! The macros that the Rust's text uses: `assert!(all(..))`, `stack_mat!`, `zip!` and its kin.

macro_rules! assert_all {
    (all($($test:expr),* $(,)?)) => { $(::core::assert!($test);)* };
    ($test:expr $(,)?) => { ::core::assert!($test) };
}

/// A window of zeros with a view of it under the given name.
macro_rules! stack_mat {
    ($name:ident, $rows:expr, $cols:expr, $T:ty) => {
        let mut window: [$T; $rows * $cols] = ::core::array::from_fn(|_| zero::<$T>());
        let mut $name = $crate::shim::MatMut::from_slice(&mut window, $rows, $cols);
    };
}

macro_rules! zip {
    ($($view:expr),*) => { $crate::shim::Zipped(($($crate::shim::IntoPlaces::places($view),)*)) };
}

macro_rules! unzip {
    ($($part:pat),*) => { ($($part,)*) };
}

macro_rules! zip_type {
    ($($part:ty),* $(,)?) => { ($($part,)*) };
}

pub(crate) use {assert_all as assert, stack_mat, unzip, zip, zip as z, zip_type as Zip};
