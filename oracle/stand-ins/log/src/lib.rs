//! A stand-in for the crate log. As with no logger set, nothing is formatted or written.
#![no_std]

#[macro_export]
macro_rules! warn {
    ($($text:tt)*) => {
        if false {
            let _ = ::core::format_args!($($text)*);
        }
    };
}
