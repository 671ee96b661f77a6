//! Macros that are passed a runtime or an allocator first, and else are Rust's.

/// Makes `$main`, which takes the runtime, the program's beginning. Rust's own beginning is passed
/// by: it puts `/dev/null` in the place of a standard stream that is closed, where a write fails.
#[macro_export]
macro_rules! begin {
    ($main:path) => {
        #[unsafe(no_mangle)]
        pub extern "C" fn main(count: i32, words: *const *const u8) -> i32 {
            $crate::sys::keep_words(count, words);
            $crate::sys::ignore_closed_pipes();
            $crate::process::Ended::status($main($crate::rt::HostRuntime))
        }
    };
}
/// What a proof holds always.
#[macro_export]
macro_rules! prove {
    ($($rest:tt)*) => { $crate::rust::debug_assert!($($rest)*) };
}
#[macro_export]
macro_rules! vec {
    (in $alloc:expr; $value:expr; $count:expr) => { $crate::vec::Vec::filled($alloc, $value, $count) };
    (in $alloc:expr; $($value:expr),* $(,)?) => { $crate::vec::Vec::of($alloc, [$($value),*]) };
    ($($rest:tt)*) => { $crate::rust::vec![$($rest)*] };
}
#[macro_export]
macro_rules! format {
    (in $alloc:expr; $($rest:tt)*) => {
        $crate::string::String::formatted($alloc, $crate::rust::format_args!($($rest)*))
    };
    ($($rest:tt)*) => { $crate::rust::format!($($rest)*) };
}
#[macro_export]
macro_rules! print {
    ($rt:expr; $($rest:tt)*) => { $crate::io::tell(&$rt, 1, $crate::rust::format_args!($($rest)*)) };
    ($($rest:tt)*) => { $crate::rust::print!($($rest)*) };
}
#[macro_export]
macro_rules! println {
    ($rt:expr; $($rest:tt)*) => { $crate::io::tell_line(&$rt, 1, $crate::rust::format_args!($($rest)*)) };
    ($($rest:tt)*) => { $crate::rust::println!($($rest)*) };
}
#[macro_export]
macro_rules! eprint {
    ($rt:expr; $($rest:tt)*) => { $crate::io::tell(&$rt, 2, $crate::rust::format_args!($($rest)*)) };
    ($($rest:tt)*) => { $crate::rust::eprint!($($rest)*) };
}
#[macro_export]
macro_rules! eprintln {
    ($rt:expr; $($rest:tt)*) => { $crate::io::tell_line(&$rt, 2, $crate::rust::format_args!($($rest)*)) };
    ($($rest:tt)*) => { $crate::rust::eprintln!($($rest)*) };
}
#[macro_export]
macro_rules! assert {
    ($rt:expr; $($rest:tt)*) => {{ let _ = &$rt; $crate::rust::assert!($($rest)*) }};
    ($($rest:tt)*) => { $crate::rust::assert!($($rest)*) };
}
#[macro_export]
macro_rules! assert_eq {
    ($rt:expr; $($rest:tt)*) => {{ let _ = &$rt; $crate::rust::assert_eq!($($rest)*) }};
    ($($rest:tt)*) => { $crate::rust::assert_eq!($($rest)*) };
}
#[macro_export]
macro_rules! panic {
    ($rt:expr; $($rest:tt)*) => {{ let _ = &$rt; $crate::rust::panic!($($rest)*) }};
    ($($rest:tt)*) => { $crate::rust::panic!($($rest)*) };
}
