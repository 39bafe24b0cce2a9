//! What tests have: their error, and checks that take the runtime first.

/// Why a test failed: any error, or a text.
pub type Fail = ::alloc::boxed::Box<dyn core::error::Error>;

macro_rules! assert_eq {
    ($rt:expr; $($rest:tt)*) => {{
        let _ = &$rt;
        ::core::assert_eq!($($rest)*)
    }};
    ($($rest:tt)*) => { ::core::assert_eq!($($rest)*) };
}
