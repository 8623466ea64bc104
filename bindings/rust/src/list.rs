use core::marker::PhantomData;

/// A record of a list: how many 32-bit words it has, and what they mean.
pub trait Record: Sized + sealed::Sealed {
    /// The number of words.
    #[doc(hidden)]
    const WORDS: usize;

    /// The record of its words.
    #[doc(hidden)]
    fn from_words(words: &[u32]) -> Self;
}

pub(crate) mod sealed {
    pub trait Sealed {}
}

#[derive(Clone, Debug)]
enum Words<'a> {
    Lent(&'a [u32]),
    #[cfg(feature = "alloc")]
    Owned(alloc::vec::Vec<u32>),
}

/// A list of the interrupt model, in the order of its table. It stands in a lent buffer, or, with the
/// feature `alloc`, on the heap. Records come by value.
#[derive(Clone)]
pub struct List<'a, T> {
    words: Words<'a>,
    kind: PhantomData<T>,
}

impl<'a, T: Record> List<'a, T> {
    pub(crate) fn lent(words: &'a [u32]) -> List<'a, T> {
        List {
            words: Words::Lent(words),
            kind: PhantomData,
        }
    }

    #[cfg(feature = "alloc")]
    pub(crate) fn owned(words: alloc::vec::Vec<u32>) -> List<'a, T> {
        List {
            words: Words::Owned(words),
            kind: PhantomData,
        }
    }

    fn words(&self) -> &[u32] {
        match &self.words {
            Words::Lent(words) => words,
            #[cfg(feature = "alloc")]
            Words::Owned(words) => words,
        }
    }

    /// The number of records.
    pub fn len(&self) -> usize {
        self.words().len() / T::WORDS
    }

    /// Whether there is no record.
    pub fn is_empty(&self) -> bool {
        self.len() == 0
    }

    /// The n-th record, counted from 0.
    pub fn get(&self, n: usize) -> Option<T> {
        self.words().chunks_exact(T::WORDS).nth(n).map(T::from_words)
    }

    /// The records, one after the other.
    pub fn iter(&self) -> ListIter<'_, T> {
        ListIter {
            words: self.words().chunks_exact(T::WORDS),
            kind: PhantomData,
        }
    }

    /// The records as a vector of their own.
    #[cfg(feature = "alloc")]
    pub fn to_vec(&self) -> alloc::vec::Vec<T> {
        self.iter().collect()
    }
}

impl<T: Record + core::fmt::Debug> core::fmt::Debug for List<'_, T> {
    fn fmt(&self, formatter: &mut core::fmt::Formatter<'_>) -> core::fmt::Result {
        formatter.debug_list().entries(self.iter()).finish()
    }
}

impl<'l, T: Record> IntoIterator for &'l List<'_, T> {
    type Item = T;
    type IntoIter = ListIter<'l, T>;

    fn into_iter(self) -> ListIter<'l, T> {
        self.iter()
    }
}

/// The records of a [`List`].
#[derive(Clone, Debug)]
pub struct ListIter<'l, T> {
    words: core::slice::ChunksExact<'l, u32>,
    kind: PhantomData<T>,
}

impl<T: Record> Iterator for ListIter<'_, T> {
    type Item = T;

    fn next(&mut self) -> Option<T> {
        self.words.next().map(T::from_words)
    }

    fn size_hint(&self) -> (usize, Option<usize>) {
        self.words.size_hint()
    }
}

impl<T: Record> ExactSizeIterator for ListIter<'_, T> {}
