//! A stand-in for the crate bitflags: what the crate acpi asks of its flag types.
#![no_std]

#[macro_export]
macro_rules! bitflags {
    (
        $(#[$outer:meta])*
        pub struct $name:ident: $number:ty {
            $( $(#[$inner:meta])* const $flag:ident = $value:expr; )*
        }
    ) => {
        $(#[$outer])*
        pub struct $name($number);

        impl $name {
            $( $(#[$inner])* pub const $flag: Self = Self($value); )*

            const KNOWN: $number = 0 $( | $value )*;

            pub const fn from_bits_truncate(bits: $number) -> Self {
                Self(bits & Self::KNOWN)
            }

            pub const fn bits(&self) -> $number {
                self.0
            }

            pub const fn contains(&self, other: Self) -> bool {
                self.0 & other.0 == other.0
            }

            pub const fn difference(self, other: Self) -> Self {
                Self(self.0 & !other.0)
            }

            pub const fn is_empty(&self) -> bool {
                self.0 == 0
            }
        }
    };
}
