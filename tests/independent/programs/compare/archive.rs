//! The proved program's C entries.

#[macro_use]
#[path = "entries.rs"]
mod entries;

use independent::{Answer, Book, BookAnswer, NextStrength, Numbers, Run, Sizes, Trial};

/// A call on slices, by the archive's.
macro_rules! imported {
    ($name:ident($($first:ident: $first_type:ty),*) [$($list:ident $length:ident: $item:ty),*]
     ($($then:ident: $then_type:ty),*) [$($buffer:ident $room:ident)?] -> $answer:ty) => {
        pub fn $name(
            $($first: $first_type,)*
            $($list: &[$item],)*
            $($then: $then_type,)*
            $($buffer: &mut [u8],)?
        ) -> $answer {
            extern "C" {
                #[link_name = concat!("pechuvo_", stringify!($name))]
                fn call(
                    $($first: $first_type,)*
                    $($list: *const $item, $length: usize,)*
                    $($then: $then_type,)*
                    $($buffer: *mut u8, $room: usize,)?
                ) -> $answer;
            }
            // SAFETY: each pointer is lent with its own length for the time of the call.
            unsafe {
                call(
                    $($first,)*
                    $($list.as_ptr(), $list.len(),)*
                    $($then,)*
                    $($buffer.as_mut_ptr(), $buffer.len(),)?
                )
            }
        }
    };
}

calls!(imported);

pub fn next_strength(first: Trial, second: Trial) -> NextStrength {
    extern "C" {
        fn pechuvo_next_strength(k1: f64, l1: f64, k2: f64, l2: f64) -> NextStrength;
    }
    // SAFETY: the numbers are handed over by value.
    unsafe { pechuvo_next_strength(first.k, first.l, second.k, second.l) }
}
