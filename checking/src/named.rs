//! Plain enums whose values have a name to print and can be gone through.

macro_rules! named {
    ($(#[$about:meta])* $name:ident { $($value:ident => $words:literal),+ $(,)? }) => {
        $(#[$about])*
        #[derive(Clone, Copy, Debug, PartialEq, Eq, PartialOrd, Ord)]
        pub enum $name { $($value),+ }

        impl $name {
            pub const ALL: &'static [$name] = &[$($name::$value),+];

            pub fn words(self) -> &'static str {
                match self { $($name::$value => $words),+ }
            }
        }
    };
}

pub(crate) use named;
