//! The structs are laid out as a C compiler lays out those of include/pechuvo.h.

use super::{Answer, Book, BookAnswer, Next, Numbers, Run, Sizes};
use std::any::type_name;
use std::fmt::Write;
use std::mem::{offset_of, size_of};

/// The name of a field's type, from a function that reads the field.
fn type_of<S, T>(_: fn(&S) -> &T) -> String {
    let name = type_name::<T>();
    name.rsplit("::").next().unwrap_or(name).to_lowercase()
}

/// A struct's line, name and size, then a line for each field: name, offset, type.
macro_rules! lay_out {
    ($text:ident, $name:literal, $type:ident, $($field:ident)*) => {
        writeln!($text, "{} {}", $name, size_of::<$type>()).unwrap();
        $(
            let of_type = type_of::<$type, _>(|all| &all.$field);
            writeln!($text, "{}.{} {} {}", $name, stringify!($field), offset_of!($type, $field), of_type).unwrap();
        )*
    };
}

fn layouts() -> String {
    let mut text = String::new();
    lay_out!(text, "pechuvo_answer", Answer, number place);
    lay_out!(text, "pechuvo_run", Run, reports bytes);
    lay_out!(text, "pechuvo_sizes", Sizes, number place balance_rows side_rows jump_rows strength_rows columns
        field_bytes multipliers_bytes both_bytes);
    lay_out!(text, "pechuvo_book", Book, lower_there upper_there lower_numerator lower_denominator upper_numerator
        upper_denominator count);
    lay_out!(text, "pechuvo_book_answer", BookAnswer, number place book);
    lay_out!(text, "pechuvo_numbers", Numbers, number place field multipliers l n w m open_rows);
    lay_out!(text, "pechuvo_next", Next, number place strength);
    text
}

#[test]
#[ignore = "asks for PECHUVO_LAYOUT, a file that tests/bindings/run makes"]
fn agrees_with_the_header() {
    let name =
        std::env::var("PECHUVO_LAYOUT").expect("PECHUVO_LAYOUT names the layouts that C has");
    let expected = std::fs::read_to_string(&name).unwrap_or_else(|error| panic!("{name}: {error}"));
    assert_eq!(layouts(), expected);
}
