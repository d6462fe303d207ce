//! The independent implementation under C names, for the fuzzer's harness.

#[macro_use]
#[path = "../tests/independent/programs/compare/entries.rs"]
mod entries;

use independent::{Answer, Book, BookAnswer, NextStrength, Numbers, Run, Sizes, Trial};

/// A length of 0 goes with any pointer.
unsafe fn slice<'a, T>(start: *const T, length: usize) -> &'a [T] {
    if length == 0 {
        &[]
    } else {
        // SAFETY: the harness lends `length` items from `start` on.
        unsafe { std::slice::from_raw_parts(start, length) }
    }
}

/// A call from C, by the one on slices.
macro_rules! exported {
    ($name:ident($($first:ident: $first_type:ty),*) [$($list:ident $length:ident: $item:ty),*]
     ($($then:ident: $then_type:ty),*) [$($buffer:ident $room:ident)?] -> $answer:ty) => {
        #[export_name = concat!("independent_", stringify!($name))]
        unsafe extern "C" fn $name(
            $($first: $first_type,)*
            $($list: *const $item, $length: usize,)*
            $($then: $then_type,)*
            $($buffer: *mut u8, $room: usize,)?
        ) -> $answer {
            // SAFETY: the harness lends each pointer with its own length; its buffer is never null.
            unsafe {
                independent::$name(
                    $($first,)*
                    $(slice($list, $length),)*
                    $($then,)*
                    $(std::slice::from_raw_parts_mut($buffer, $room),)?
                )
            }
        }
    };
}

calls!(exported);

#[no_mangle]
extern "C" fn independent_next_strength(k1: f64, l1: f64, k2: f64, l2: f64) -> NextStrength {
    independent::next_strength(Trial { k: k1, l: l1 }, Trial { k: k2, l: l2 })
}
