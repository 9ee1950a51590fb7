//! The slices of components, and a path with its parents.

use core::fmt;
use core::iter::FusedIterator;
use core::marker::PhantomData;

use crate::components::debug_items;
use crate::encoding::*;
use crate::family::*;

macro_rules! iterators {
    (
        $Path:ident $PathBuf:ident $Iter:ident $Ancestors:ident, $Encoding:ident $Components:ident $Component:ident,
        $Slice:ty, $Owned:ty, $as_slice:ident $into_owned:ident $into_boxed:ident $of_boxed:ident,
        $made:ident $change:ident, $use:literal
    ) => {
        /// The slices of the components of a path, from both ends. It takes no memory.
        ///
        /// ```
        #[doc = $use]
        ///
        /// let mut slices = Unix::new("/a/./b").iter();
        /// assert_eq!(slices.next(), Some("/".as_ref()));
        /// assert_eq!(slices.next_back(), Some("b".as_ref()));
        /// ```
        #[derive(Clone)]
        pub struct $Iter<'a, T: $Encoding> {
            _encoding: PhantomData<T>,
            inner: <T as $Encoding>::Components<'a>,
        }

        impl<'a, T: $Encoding> $Iter<'a, T> {
            #[inline]
            pub(crate) fn new(inner: <T as $Encoding>::Components<'a>) -> Self {
                $Iter { _encoding: PhantomData, inner }
            }

            /// The path of the slice left.
            ///
            /// ```
            #[doc = $use]
            ///
            /// let mut slices = Unix::new("/a/b").iter();
            /// slices.next();
            /// assert_eq!(slices.as_path(), Unix::new("a/b"));
            /// ```
            #[inline]
            pub fn as_path(&self) -> &$Path<T> {
                $Path::new(self.inner.$as_slice())
            }
        }

        impl<'a, T: $Encoding + 'a> fmt::Debug for $Iter<'a, T> {
            fn fmt(&self, f: &mut fmt::Formatter<'_>) -> fmt::Result {
                debug_items(f, stringify!($Iter), || self.as_path().iter())
            }
        }

        impl<'a, T: $Encoding + 'a> AsRef<$Path<T>> for $Iter<'a, T> {
            #[inline]
            fn as_ref(&self) -> &$Path<T> {
                self.as_path()
            }
        }

        impl<'a, T: $Encoding + 'a> AsRef<[u8]> for $Iter<'a, T> {
            #[inline]
            fn as_ref(&self) -> &[u8] {
                self.as_path().all()
            }
        }

        impl<'a, T: $Encoding + 'a> Iterator for $Iter<'a, T> {
            type Item = &'a $Slice;

            #[inline]
            fn next(&mut self) -> Option<Self::Item> {
                self.inner.next().map(|component| component.$as_slice())
            }
        }

        impl<'a, T: $Encoding + 'a> DoubleEndedIterator for $Iter<'a, T> {
            #[inline]
            fn next_back(&mut self) -> Option<Self::Item> {
                self.inner.next_back().map(|component| component.$as_slice())
            }
        }

        impl<'a, T: $Encoding + 'a> FusedIterator for $Iter<'a, T> {}

        /// A path, its parent, the parent of that, and so on.
        ///
        /// ```
        #[doc = $use]
        ///
        /// assert_eq!(Unix::new("/a/b").ancestors().last(), Some(Unix::new("/")));
        /// ```
        #[derive(Copy, Clone, Debug)]
        pub struct $Ancestors<'a, T: $Encoding> {
            next: Option<&'a $Path<T>>,
        }

        impl<'a, T: $Encoding> $Ancestors<'a, T> {
            #[inline]
            pub(crate) fn new(path: &'a $Path<T>) -> Self {
                $Ancestors { next: Some(path) }
            }
        }

        impl<'a, T: $Encoding> Iterator for $Ancestors<'a, T> {
            type Item = &'a $Path<T>;

            #[inline]
            fn next(&mut self) -> Option<Self::Item> {
                let next = self.next;
                self.next = next.and_then($Path::parent);
                next
            }
        }

        impl<T: $Encoding> FusedIterator for $Ancestors<'_, T> {}
    };
}

families!(iterators);

impl<'a, T: Utf8Encoding + 'a> AsRef<str> for Utf8Iter<'a, T> {
    #[inline]
    fn as_ref(&self) -> &str {
        self.as_path().as_str()
    }
}
