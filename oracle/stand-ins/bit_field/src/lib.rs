//! A stand-in for the crate bit_field: the two readers that the crate acpi asks for.
#![no_std]

use core::ops::Range;

pub trait BitField {
    fn get_bit(&self, bit: usize) -> bool;
    fn get_bits(&self, bits: Range<usize>) -> Self;
}

macro_rules! fields {
    ($($number:ty)*) => {
        $(
            impl BitField for $number {
                fn get_bit(&self, bit: usize) -> bool {
                    assert!(bit < <$number>::BITS as usize);
                    (*self >> bit) % 2 == 1
                }

                fn get_bits(&self, bits: Range<usize>) -> Self {
                    assert!(bits.start < bits.end && bits.end <= <$number>::BITS as usize);
                    let above = <$number>::BITS as usize - bits.end;
                    *self << above >> above >> bits.start
                }
            }
        )*
    };
}

fields! { u8 u16 u32 u64 }
