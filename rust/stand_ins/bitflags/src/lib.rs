//! Stand-in for the crate `bitflags`: the macro, with the functions that the supplied files call.

/// Declares a struct of named bits.
#[macro_export]
macro_rules! bitflags {
    (
        $(#[$outer:meta])*
        $vis:vis struct $Flags:ident: $Bits:ty {
            $( $(#[$inner:meta])* const $NAME:ident = $value:expr; )*
        }
    ) => {
        $(#[$outer])*
        $vis struct $Flags($Bits);

        impl $Flags {
            $( $(#[$inner])* pub const $NAME: Self = Self($value); )*

            const ALL_NAMED: $Bits = 0 $( | $value )*;

            pub const fn empty() -> Self {
                Self(0)
            }

            pub const fn bits(&self) -> $Bits {
                self.0
            }

            pub const fn from_bits_retain(bits: $Bits) -> Self {
                Self(bits)
            }

            pub const fn from_bits_truncate(bits: $Bits) -> Self {
                Self(bits & Self::ALL_NAMED)
            }

            pub const fn contains(&self, other: Self) -> bool {
                self.0 & other.0 == other.0
            }

            pub const fn union(self, other: Self) -> Self {
                Self(self.0 | other.0)
            }

            pub const fn intersection(self, other: Self) -> Self {
                Self(self.0 & other.0)
            }
        }

        impl ::std::ops::BitOr for $Flags {
            type Output = Self;

            fn bitor(self, other: Self) -> Self {
                self.union(other)
            }
        }
    };
}
