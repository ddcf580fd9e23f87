#![no_std]
//! Stand-in for `bitflags`: one struct per call, bits kept as they are.

/// Declares flag types. Transparent over their integer, since the Rust puts
/// them into a union that must stay one byte long.
#[macro_export]
macro_rules! bitflags {
    (
        $(#[$outer:meta])*
        $vis:vis struct $name:ident: $bits:ty {
            $(
                $(#[$inner:meta])*
                const $flag:ident = $value:expr;
            )*
        }
    ) => {
        $(#[$outer])*
        #[repr(transparent)]
        $vis struct $name($bits);

        impl $name {
            $(
                $(#[$inner])*
                pub const $flag: Self = Self($value);
            )*

            /// The flags of these bits, unknown ones kept.
            pub const fn from_bits_retain(bits: $bits) -> Self {
                Self(bits)
            }

            /// The bits, unknown ones among them.
            pub const fn bits(&self) -> $bits {
                self.0
            }

            /// Whether every bit of `other` is set.
            pub const fn contains(&self, other: Self) -> bool {
                self.0 & other.0 == other.0
            }
        }
    };
}
