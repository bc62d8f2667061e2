/// Declares a type for the numbers of the C library that have names. A later library may use numbers that have no names
/// here.
macro_rules! numbers {
    (
        $(#[$type_doc:meta])*
        $type:ident($number:ty)
        $($(#[$doc:meta])* $name:ident = $value:expr;)*
    ) => {
        $(#[$type_doc])*
        #[derive(Clone, Copy, PartialEq, Eq, PartialOrd, Ord, Hash)]
        pub struct $type($number);

        impl $type {
            $($(#[$doc])* pub const $name: Self = Self($value);)*

            pub(crate) const fn new(number: $number) -> Self {
                Self(number)
            }

            /// Returns the number in the C library.
            #[must_use]
            pub const fn number(self) -> $number {
                self.0
            }

            /// Returns the name of the constant with this number.
            pub(crate) fn known_name(self) -> Option<&'static str> {
                match self {
                    $(Self::$name => Some(stringify!($name)),)*
                    _ => None,
                }
            }
        }

        impl std::fmt::Debug for $type {
            fn fmt(&self, f: &mut std::fmt::Formatter<'_>) -> std::fmt::Result {
                match self.known_name() {
                    Some(name) => write!(f, "{}::{}", stringify!($type), name),
                    None => write!(f, "{}({})", stringify!($type), self.0),
                }
            }
        }
    };
}

/// Declares a type of positions in a text.
macro_rules! position {
    ($(#[$doc:meta])* $name:ident) => {
        $(#[$doc])*
        #[derive(Clone, Copy, Debug, Default, PartialEq, Eq, PartialOrd, Ord, Hash)]
        pub struct $name(pub usize);

        impl std::fmt::Display for $name {
            fn fmt(&self, f: &mut std::fmt::Formatter<'_>) -> std::fmt::Result {
                self.0.fmt(f)
            }
        }

        /// Overflows as `usize` does: panics in debug builds.
        impl std::ops::Add<usize> for $name {
            type Output = Self;

            fn add(self, count: usize) -> Self {
                Self(self.0 + count)
            }
        }

        /// Overflows as `usize` does: panics in debug builds.
        impl std::ops::Sub<usize> for $name {
            type Output = Self;

            fn sub(self, count: usize) -> Self {
                Self(self.0 - count)
            }
        }

        /// The distance between two positions. Overflows as `usize` does: panics in debug builds.
        impl std::ops::Sub for $name {
            type Output = usize;

            fn sub(self, start: Self) -> usize {
                self.0 - start.0
            }
        }
    };
}
