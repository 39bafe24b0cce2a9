//! Macros that take an allocator or a handle first.

macro_rules! vec {
    (in $alloc:expr; $value:expr; $count:expr) => {{
        let mut list = $crate::support::rattle_std::vec::Vec::new($alloc);
        list.resize($count, $value).map(|()| list)
    }};
    (in $alloc:expr; $($value:expr),* $(,)?) => {{
        $crate::support::rattle_std::iterate::CollectIn::collect_in(::core::iter::IntoIterator::into_iter([$($value),*]), $alloc)
    }};
    (in $alloc:expr) => {
        $crate::support::rattle_std::vec::Vec::with_capacity($alloc, 0)
    };
}

macro_rules! format {
    (in $alloc:expr; $($format:tt)*) => {{
        let mut text = $crate::support::rattle_std::string::String::new($alloc);
        text.write_fmt(::core::format_args!($($format)*)).map(|()| text)
    }};
}

macro_rules! assert {
    ($rt:expr; $($rest:tt)*) => {{
        let _ = &$rt;
        ::core::assert!($($rest)*)
    }};
    ($($rest:tt)*) => { ::core::assert!($($rest)*) };
}

macro_rules! assert_ne {
    ($rt:expr; $($rest:tt)*) => {{
        let _ = &$rt;
        ::core::assert_ne!($($rest)*)
    }};
    ($($rest:tt)*) => { ::core::assert_ne!($($rest)*) };
}

macro_rules! panic {
    ($rt:expr; $($rest:tt)*) => {{
        let _ = &$rt;
        ::core::panic!($($rest)*)
    }};
    ($($rest:tt)*) => { ::core::panic!($($rest)*) };
}

macro_rules! println {
    ($rt:expr; $($format:tt)*) => {{
        let _ = &$rt;
        ::std::println!($($format)*);
        $crate::support::rattle_std::io::Result::Ok(())
    }};
}

macro_rules! eprintln {
    ($rt:expr; $($format:tt)*) => {{
        let _ = &$rt;
        ::std::eprintln!($($format)*);
        $crate::support::rattle_std::io::Result::Ok(())
    }};
}
