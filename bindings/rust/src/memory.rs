use crate::{error::found, sdt::Signature, sys, AcpiResult};

/// A part of physical memory, and where in the image it stands.
#[derive(Clone, Copy, Debug, PartialEq, Eq)]
#[repr(C)]
pub struct Range {
    /// The physical address of its first byte.
    pub physical_start: u64,
    /// Its number of bytes.
    pub length: u64,
    /// The offset of its first byte in the image.
    pub offset: u64,
}

/// Physical memory as far as the caller lends it. This stands where the crate `acpi` has an
/// `AcpiHandler`: instead of a callback that maps, a slice and a list of what it shows.
#[derive(Clone, Copy, Debug)]
pub struct Memory<'m> {
    image: &'m [u8],
    ranges: &'m [Range],
}

impl<'m> Memory<'m> {
    /// Tests the ranges and keeps both slices. The ranges are at most 64, ascend by their physical
    /// start, do not overlap, lie inside the image and end at 2^64 or below; else
    /// [`WrongRanges`](crate::AcpiError::WrongRanges).
    ///
    /// Nothing can test whether the ranges are true of the machine: a structure is looked for where
    /// they say that it is.
    pub fn new(image: &'m [u8], ranges: &'m [Range]) -> AcpiResult<Memory<'m>> {
        let memory = Memory { image, ranges };
        // SAFETY: both slices are lent as they are.
        let number = unsafe {
            sys::tablewalk_ranges(
                image.as_ptr(),
                image.len(),
                memory.range_words(),
                memory.range_length(),
            )
        };
        found(number, Signature::XSDT)?;
        Ok(memory)
    }

    /// The whole slice that was lent.
    pub fn image(&self) -> &'m [u8] {
        self.image
    }

    /// The list of ranges that was lent.
    pub fn ranges(&self) -> &'m [Range] {
        self.ranges
    }

    /// A range is its three numbers in order, so the list is the flat list that the archive reads.
    fn range_words(&self) -> *const u64 {
        self.ranges.as_ptr().cast()
    }

    fn range_length(&self) -> usize {
        self.ranges.len() * 3
    }
}

/// Asks a function of the archive about an image: `ask!(memory, function, arguments; out)`.
macro_rules! ask {
    ($memory:expr, $function:ident $(, $argument:expr)*; $out:expr) => {{
        let memory: &$crate::Memory = $memory;
        let out: &mut [u64] = $out;
        // SAFETY: every pointer and its length are those of one slice, and `out` is borrowed alone.
        unsafe {
            $crate::sys::$function(
                memory.image().as_ptr(),
                memory.image().len(),
                memory.ranges().as_ptr().cast(),
                memory.ranges().len() * 3,
                $($argument,)*
                out.as_mut_ptr(),
                out.len(),
            )
        }
    }};
}

/// Asks a function of the archive about a table: `ask_table!(bytes, function, arguments; out)`.
macro_rules! ask_table {
    ($bytes:expr, $function:ident $(, $argument:expr)*; $out:expr) => {{
        let bytes: &[u8] = $bytes;
        let out: &mut [u64] = $out;
        // SAFETY: every pointer and its length are those of one slice, and `out` is borrowed alone.
        unsafe {
            $crate::sys::$function(bytes.as_ptr(), bytes.len(), $($argument,)* out.as_mut_ptr(), out.len())
        }
    }};
}

pub(crate) use {ask, ask_table};
