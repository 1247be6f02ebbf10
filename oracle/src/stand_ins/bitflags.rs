//! Stands for the macro of the crate `bitflags`, as far as `prim_graph.rs` uses it: a number whose bits have names.

#[macro_export]
macro_rules! bitflags {
    (
        $(#[$about:meta])*
        $vis:vis struct $Flags:ident: $Number:ty {
            $($(#[$about_flag:meta])* const $FLAG:ident = $bits:expr;)*
        }
    ) => {
        $(#[$about])*
        $vis struct $Flags($Number);

        impl $Flags {
            $($(#[$about_flag])* pub const $FLAG: Self = Self($bits);)*

            pub const fn empty() -> Self {
                Self(0)
            }

            /// Flags of any bits, also of bits that have no name.
            pub const fn from_bits_retain(bits: $Number) -> Self {
                Self(bits)
            }

            pub const fn union(self, other: Self) -> Self {
                Self(self.0 | other.0)
            }

            pub const fn contains(self, other: Self) -> bool {
                self.0 & other.0 == other.0
            }

            pub const fn intersects(self, other: Self) -> bool {
                self.0 & other.0 != 0
            }
        }

        impl std::ops::BitOr for $Flags {
            type Output = Self;
            fn bitor(self, other: Self) -> Self {
                self.union(other)
            }
        }

        impl std::ops::BitOrAssign for $Flags {
            fn bitor_assign(&mut self, other: Self) {
                self.0 |= other.0;
            }
        }

        impl std::ops::BitAnd for $Flags {
            type Output = Self;
            fn bitand(self, other: Self) -> Self {
                Self(self.0 & other.0)
            }
        }

        impl std::ops::Sub for $Flags {
            type Output = Self;
            fn sub(self, other: Self) -> Self {
                Self(self.0 & !other.0)
            }
        }

        $crate::set_root_fields! {}
    };
}
