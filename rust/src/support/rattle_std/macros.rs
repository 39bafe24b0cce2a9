//! Macros that take an allocator first.

macro_rules! vec {
    (in $alloc:expr; $value:expr; $count:expr) => {{
        let mut list = $crate::support::rattle_std::vec::Vec::new($alloc);
        list.resize($count, $value).map(|()| list)
    }};
}
