//! The macro `bitflags!`, as far as `ObservableOrders` and `FunctionFlags` use it.

#[macro_export]
macro_rules! bitflags {
    (
        $(#[$struct_attribute:meta])*
        $visibility:vis struct $name:ident: $bits:ty {
            $(
                $(#[$flag_attribute:meta])*
                const $flag:ident = $value:expr;
            )*
        }
    ) => {
        $(#[$struct_attribute])*
        $visibility struct $name($bits);

        impl $name {
            $(
                $(#[$flag_attribute])*
                pub const $flag: Self = Self($value);
            )*

            pub const fn empty() -> Self {
                Self(0)
            }

            pub const fn all() -> Self {
                Self(0 $(| $value)*)
            }

            pub const fn bits(self) -> $bits {
                self.0
            }

            pub const fn from_bits_truncate(bits: $bits) -> Self {
                Self(bits & Self::all().0)
            }

            pub const fn is_empty(self) -> bool {
                self.0 == 0
            }

            pub const fn contains(self, other: Self) -> bool {
                self.0 & other.0 == other.0
            }
        }

        impl ::core::ops::BitOr for $name {
            type Output = Self;

            fn bitor(self, other: Self) -> Self {
                Self(self.0 | other.0)
            }
        }

        impl ::core::ops::BitOrAssign for $name {
            fn bitor_assign(&mut self, other: Self) {
                self.0 |= other.0;
            }
        }
    };
}
