//! Structs' sizes, alignments and offsets as Rust has them, in the words of `lines.h`, beside those
//! that a C compiler makes of the header.

use crate::in_c::ran;

/// The lines are by hand what Rust has, and what the C program of this name prints.
pub fn check(program: &str, in_rust: &str, by_hand: &str) {
    assert_eq!(in_rust, by_hand, "as Rust lays them out");
    if let Some(in_c) = ran(program, &[]) {
        assert_eq!(in_c, by_hand, "as C lays them out");
    }
}

pub fn size_of_field<Whole, Field>(_: fn(&Whole) -> &Field) -> usize {
    size_of::<Field>()
}

macro_rules! lines {
    ($name:literal, $whole:ty, $($field:ident),+) => {{
        let (size, align) = (size_of::<$whole>(), align_of::<$whole>());
        let mut lines = format!("{}: {size} bytes, aligned to {align}\n", $name);
        $(
            let size = $crate::lines::size_of_field(|whole: &$whole| &whole.$field);
            let place = std::mem::offset_of!($whole, $field);
            let field = stringify!($field);
            lines += &format!("{}.{field}: {size} bytes at {place}\n", $name);
        )+
        lines
    }};
}

pub(crate) use lines;
