//! Of the crate `cfg_if`, what upstream's dlmalloc needs of it here: the system that is none.
#![no_std]

/// The last arm.
#[macro_export]
macro_rules! cfg_if {
    ($(if #[$test:meta] { $($not:tt)* } else)+ { $($last:tt)* }) => { $($last)* };
}
