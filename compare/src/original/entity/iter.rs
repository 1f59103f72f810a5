//! Shim for `entity/iter.rs`: iterators over maps whose keys are `0, 1, 2, ..`.

use alloc::vec;
use core::iter::Enumerate;
use core::marker::PhantomData;
use core::ops::Range;
use core::slice;

use super::EntityRef;

/// The keys of a map, rising.
#[derive(Clone, Debug)]
pub struct Keys<K> {
    indices: Range<usize>,
    marker: PhantomData<K>,
}

impl<K: EntityRef> Keys<K> {
    /// The keys of a map with `len` elements.
    pub fn with_len(len: usize) -> Self {
        Keys {
            indices: 0..len,
            marker: PhantomData,
        }
    }
}

impl<K: EntityRef> Iterator for Keys<K> {
    type Item = K;

    #[inline]
    fn next(&mut self) -> Option<K> {
        self.indices.next().map(K::new)
    }

    #[inline]
    fn size_hint(&self) -> (usize, Option<usize>) {
        self.indices.size_hint()
    }
}

impl<K: EntityRef> DoubleEndedIterator for Keys<K> {
    #[inline]
    fn next_back(&mut self) -> Option<K> {
        self.indices.next_back().map(K::new)
    }
}

impl<K: EntityRef> ExactSizeIterator for Keys<K> {}

/// Makes an iterator over keys and elements out of one over elements.
macro_rules! with_keys {
    ($(#[$attr:meta])* $name:ident<$($life:lifetime)?>, $inner:ty, $item:ty) => {
        $(#[$attr])*
        pub struct $name<$($life,)? K, V> {
            elements: Enumerate<$inner>,
            marker: PhantomData<K>,
        }

        impl<$($life,)? K: EntityRef, V> $name<$($life,)? K, V> {
            /// Numbers the elements.
            pub fn new(elements: $inner) -> Self {
                $name {
                    elements: elements.enumerate(),
                    marker: PhantomData,
                }
            }
        }

        impl<$($life,)? K: EntityRef, V> Iterator for $name<$($life,)? K, V> {
            type Item = (K, $item);

            #[inline]
            fn next(&mut self) -> Option<Self::Item> {
                self.elements.next().map(|(index, v)| (K::new(index), v))
            }
        }
    };
}

with_keys! {
    /// Keys and elements by reference.
    Iter<'a>, slice::Iter<'a, V>, &'a V
}
with_keys! {
    /// Keys and elements by mutable reference.
    IterMut<'a>, slice::IterMut<'a, V>, &'a mut V
}
with_keys! {
    /// Keys and elements by value.
    IntoIter<>, vec::IntoIter<V>, V
}
