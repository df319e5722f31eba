// Prints the listing of the Rust interface. It is compiled behind the text of the interface itself (src/lib.rs), and with a main
// function that asks for each declaration in turn (ask_rust.awk makes it): sizes, places, types and values are the compiler's.

use std::any::type_name;
use std::mem::{align_of, offset_of, size_of};

/// The name of a type, without the crate.
fn shown<T>() -> &'static str {
    type_name::<T>().rsplit("::").next().unwrap_or_default()
}

/// Prints a field and gives its size.
fn print_field<S, F>(name: &str, place: usize, _get: fn(&S) -> &F) -> usize {
    println!("field {} at {place:03}: {name}, {}, {} bytes", shown::<S>(), shown::<F>(), size_of::<F>());
    size_of::<F>()
}

fn print_struct<S>(used: usize) {
    let padding = size_of::<S>() - used;
    println!("struct {}: {} bytes, aligned to {}, padding {padding}", shown::<S>(), size_of::<S>(), align_of::<S>());
}

/// `$used` counts the bytes of the fields so far.
macro_rules! field {
    ($used:ident, $structure:ident, $field:ident) => {
        $used += print_field(stringify!($field), offset_of!($structure, $field), |s: &$structure| &s.$field);
    };
}

macro_rules! structure {
    ($used:ident, $structure:ident) => {
        print_struct::<$structure>($used);
        $used = 0;
    };
}
