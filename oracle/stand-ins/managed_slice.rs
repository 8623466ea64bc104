//! A stand-in for the module managed_slice of the crate acpi, whose text is not at hand:
//! a slice of a length that is known when it is made, held by an allocator.

use crate::{AcpiError, AcpiResult};
use alloc::vec::Vec;
use core::{
    alloc::Allocator,
    marker::PhantomData,
    ops::{Deref, DerefMut},
};

#[derive(Debug, Clone)]
pub struct ManagedSlice<'a, T, A>
where
    A: Allocator,
{
    values: Vec<T, A>,
    _lifetime: PhantomData<&'a ()>,
}

impl<T, A> ManagedSlice<'_, T, A>
where
    A: Allocator,
{
    /// Room for `length` values. All bytes are zero until the caller writes them, which
    /// is a value of every type that the crate keeps in such a slice.
    pub fn new_in(length: usize, allocator: A) -> AcpiResult<Self> {
        let mut values = Vec::new_in(allocator);
        values.try_reserve_exact(length).map_err(|_| AcpiError::AllocError)?;
        // SAFETY: the room for `length` values was reserved on the line above.
        unsafe {
            core::ptr::write_bytes::<T>(values.as_mut_ptr(), 0, length);
            values.set_len(length);
        }
        Ok(Self {
            values,
            _lifetime: PhantomData,
        })
    }
}

impl<T, A> Deref for ManagedSlice<'_, T, A>
where
    A: Allocator,
{
    type Target = [T];

    fn deref(&self) -> &[T] {
        &self.values
    }
}

impl<T, A> DerefMut for ManagedSlice<'_, T, A>
where
    A: Allocator,
{
    fn deref_mut(&mut self) -> &mut [T] {
        &mut self.values
    }
}
