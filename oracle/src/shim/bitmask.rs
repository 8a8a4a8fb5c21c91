//! Stands in for the unpublished `bitmask.rs`: the set operators and bit formats that set.rs and
//! experiment.rs ask for are used nowhere here, so the macros make nothing.

macro_rules! set_operators {
    ($($set:tt)*) => {};
}

macro_rules! bit_formats {
    ($($set:tt)*) => {};
}

pub(crate) use {bit_formats, set_operators};
