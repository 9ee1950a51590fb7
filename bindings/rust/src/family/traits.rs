//! What paths have by std's traits: names of one another, equality and order by components, conversions.

use alloc::borrow::{Cow, ToOwned};
use alloc::boxed::Box;
use alloc::rc::Rc;
use alloc::string::String;
#[cfg(target_has_atomic = "ptr")]
use alloc::sync::Arc;
use alloc::vec::Vec;
use core::borrow::Borrow;
use core::cmp::Ordering;
use core::convert::Infallible;
use core::fmt;
use core::hash::{Hash, Hasher};
use core::ops::Deref;
use core::str::FromStr;

use crate::casts::renamed;
use crate::encoding::*;
use crate::family::*;
use crate::ffi;

macro_rules! traits {
    (
        $Path:ident $PathBuf:ident $Iter:ident $Ancestors:ident, $Encoding:ident $Components:ident $Component:ident,
        $Slice:ty, $Owned:ty, $as_slice:ident $into_owned:ident $into_boxed:ident $of_boxed:ident,
        $made:ident $change:ident, $use:literal
    ) => {
        impl<T: $Encoding> fmt::Debug for $Path<T> {
            fn fmt(&self, f: &mut fmt::Formatter<'_>) -> fmt::Result {
                f.debug_struct(stringify!($Path))
                    .field("_encoding", &T::label())
                    .field("inner", &&self.inner)
                    .finish()
            }
        }

        impl<T: $Encoding> fmt::Debug for $PathBuf<T> {
            fn fmt(&self, f: &mut fmt::Formatter<'_>) -> fmt::Result {
                f.debug_struct(stringify!($PathBuf))
                    .field("_encoding", &T::label())
                    .field("inner", &self.inner)
                    .finish()
            }
        }

        impl<T: $Encoding> Clone for Box<$Path<T>> {
            fn clone(&self) -> Self {
                self.to_path_buf().into_boxed_path()
            }
        }

        impl<T: $Encoding> Clone for $PathBuf<T> {
            #[inline]
            fn clone(&self) -> Self {
                Self::own(self.inner.clone())
            }
        }

        impl<T: $Encoding> Default for $PathBuf<T> {
            #[inline]
            fn default() -> Self {
                Self::new()
            }
        }

        impl<T: $Encoding> Deref for $PathBuf<T> {
            type Target = $Path<T>;

            #[inline]
            fn deref(&self) -> &$Path<T> {
                $Path::new(&self.inner)
            }
        }

        impl<T: $Encoding> Borrow<$Path<T>> for $PathBuf<T> {
            #[inline]
            fn borrow(&self) -> &$Path<T> {
                self
            }
        }

        impl<T: $Encoding> ToOwned for $Path<T> {
            type Owned = $PathBuf<T>;

            #[inline]
            fn to_owned(&self) -> $PathBuf<T> {
                self.to_path_buf()
            }
        }

        impl<T: $Encoding> AsRef<[u8]> for $Path<T> {
            #[inline]
            fn as_ref(&self) -> &[u8] {
                self.all()
            }
        }

        impl<T: $Encoding> AsRef<[u8]> for $PathBuf<T> {
            #[inline]
            fn as_ref(&self) -> &[u8] {
                self.all()
            }
        }

        impl<T: $Encoding> AsRef<$Path<T>> for $Path<T> {
            #[inline]
            fn as_ref(&self) -> &$Path<T> {
                self
            }
        }

        impl<T: $Encoding> AsRef<$Path<T>> for $PathBuf<T> {
            #[inline]
            fn as_ref(&self) -> &$Path<T> {
                self
            }
        }

        impl<T: $Encoding> AsRef<$Path<T>> for str {
            #[inline]
            fn as_ref(&self) -> &$Path<T> {
                $Path::new(self)
            }
        }

        impl<T: $Encoding> AsRef<$Path<T>> for String {
            #[inline]
            fn as_ref(&self) -> &$Path<T> {
                $Path::new(self)
            }
        }

        impl<T: $Encoding> PartialEq for $Path<T> {
            #[inline]
            fn eq(&self, other: &Self) -> bool {
                ffi::equal(T::DIALECT, self.all(), other.all())
            }
        }

        impl<T: $Encoding> Eq for $Path<T> {}

        impl<T: $Encoding> PartialOrd for $Path<T> {
            #[inline]
            fn partial_cmp(&self, other: &Self) -> Option<Ordering> {
                Some(self.cmp(other))
            }
        }

        impl<T: $Encoding> Ord for $Path<T> {
            #[inline]
            fn cmp(&self, other: &Self) -> Ordering {
                ffi::compare(T::DIALECT, self.all(), other.all())
            }
        }

        impl<T: $Encoding> Hash for $Path<T> {
            #[inline]
            fn hash<H: Hasher>(&self, h: &mut H) {
                T::hash(&self.inner, h)
            }
        }

        impl<T: $Encoding> PartialEq for $PathBuf<T> {
            #[inline]
            fn eq(&self, other: &Self) -> bool {
                **self == **other
            }
        }

        impl<T: $Encoding> Eq for $PathBuf<T> {}

        impl<T: $Encoding> PartialOrd for $PathBuf<T> {
            #[inline]
            fn partial_cmp(&self, other: &Self) -> Option<Ordering> {
                Some(self.cmp(other))
            }
        }

        impl<T: $Encoding> Ord for $PathBuf<T> {
            #[inline]
            fn cmp(&self, other: &Self) -> Ordering {
                (**self).cmp(other)
            }
        }

        impl<T: $Encoding> Hash for $PathBuf<T> {
            #[inline]
            fn hash<H: Hasher>(&self, h: &mut H) {
                (**self).hash(h)
            }
        }

        impl<T: $Encoding, P: AsRef<$Path<T>>> Extend<P> for $PathBuf<T> {
            fn extend<I: IntoIterator<Item = P>>(&mut self, iter: I) {
                for path in iter {
                    self.push(path);
                }
            }
        }

        impl<T: $Encoding, P: AsRef<$Path<T>>> FromIterator<P> for $PathBuf<T> {
            fn from_iter<I: IntoIterator<Item = P>>(iter: I) -> Self {
                let mut path = Self::new();
                path.extend(iter);
                path
            }
        }

        impl<T: $Encoding> FromStr for $PathBuf<T> {
            type Err = Infallible;

            fn from_str(s: &str) -> Result<Self, Infallible> {
                Ok(Self::own(s.into()))
            }
        }

        impl<'a, T: $Encoding> IntoIterator for &'a $Path<T> {
            type IntoIter = $Iter<'a, T>;
            type Item = &'a $Slice;

            #[inline]
            fn into_iter(self) -> $Iter<'a, T> {
                self.iter()
            }
        }

        impl<'a, T: $Encoding> IntoIterator for &'a $PathBuf<T> {
            type IntoIter = $Iter<'a, T>;
            type Item = &'a $Slice;

            #[inline]
            fn into_iter(self) -> $Iter<'a, T> {
                self.iter()
            }
        }

        impl<T: $Encoding, V: ?Sized + AsRef<$Slice>> From<&V> for $PathBuf<T> {
            #[inline]
            fn from(s: &V) -> Self {
                Self::own(s.as_ref().to_owned())
            }
        }

        impl<T: $Encoding> From<String> for $PathBuf<T> {
            #[inline]
            fn from(s: String) -> Self {
                Self::own(s.into())
            }
        }

        impl<T: $Encoding> From<$PathBuf<T>> for $Owned {
            #[inline]
            fn from(path: $PathBuf<T>) -> $Owned {
                path.inner
            }
        }

        impl<T: $Encoding> From<Box<$Path<T>>> for $PathBuf<T> {
            #[inline]
            fn from(boxed: Box<$Path<T>>) -> Self {
                boxed.into_path_buf()
            }
        }

        impl<'a, T: $Encoding> From<Cow<'a, $Path<T>>> for $PathBuf<T> {
            #[inline]
            fn from(path: Cow<'a, $Path<T>>) -> Self {
                path.into_owned()
            }
        }

        impl<T: $Encoding> From<&$Path<T>> for Box<$Path<T>> {
            fn from(path: &$Path<T>) -> Self {
                path.to_path_buf().into_boxed_path()
            }
        }

        impl<T: $Encoding> From<Cow<'_, $Path<T>>> for Box<$Path<T>> {
            fn from(path: Cow<'_, $Path<T>>) -> Self {
                path.into_owned().into_boxed_path()
            }
        }

        impl<T: $Encoding> From<$PathBuf<T>> for Box<$Path<T>> {
            #[inline]
            fn from(path: $PathBuf<T>) -> Self {
                path.into_boxed_path()
            }
        }

        impl<'a, T: $Encoding> From<&'a $Path<T>> for Cow<'a, $Path<T>> {
            #[inline]
            fn from(path: &'a $Path<T>) -> Self {
                Cow::Borrowed(path)
            }
        }

        impl<'a, T: $Encoding> From<&'a $PathBuf<T>> for Cow<'a, $Path<T>> {
            #[inline]
            fn from(path: &'a $PathBuf<T>) -> Self {
                Cow::Borrowed(path)
            }
        }

        impl<T: $Encoding> From<$PathBuf<T>> for Cow<'_, $Path<T>> {
            #[inline]
            fn from(path: $PathBuf<T>) -> Self {
                Cow::Owned(path)
            }
        }

        shared!(Rc, $Path, $PathBuf, $Encoding, $Slice);
        #[cfg(target_has_atomic = "ptr")]
        shared!(Arc, $Path, $PathBuf, $Encoding, $Slice);

        compared!($Path, $Encoding; ; $PathBuf<T>, $Path<T>; |a, b| (a, b));
        compared!($Path, $Encoding; 'a; $PathBuf<T>, &'a $Path<T>; |a, b| (a, b));
        compared!($Path, $Encoding; 'a; Cow<'a, $Path<T>>, $Path<T>; |a, b| (a, b));
        compared!($Path, $Encoding; 'a, 'b; Cow<'a, $Path<T>>, &'b $Path<T>; |a, b| (a, b));
        compared!($Path, $Encoding; 'a; Cow<'a, $Path<T>>, $PathBuf<T>; |a, b| (a, b));
        compared!($Path, $Encoding; ; $PathBuf<T>, $Slice; |a, b| (a, $Path::new(b)));
        compared!($Path, $Encoding; 'a; $PathBuf<T>, &'a $Slice; |a, b| (a, $Path::new(*b)));
        compared!($Path, $Encoding; ; $PathBuf<T>, $Owned; |a, b| (a, $Path::new(b)));
        compared!($Path, $Encoding; ; $Path<T>, $Slice; |a, b| (a, $Path::new(b)));
        compared!($Path, $Encoding; 'a; $Path<T>, &'a $Slice; |a, b| (a, $Path::new(*b)));
        compared!($Path, $Encoding; ; $Path<T>, $Owned; |a, b| (a, $Path::new(b)));
        compared!($Path, $Encoding; 'a; &'a $Path<T>, $Slice; |a, b| (*a, $Path::new(b)));
        compared!($Path, $Encoding; 'a; &'a $Path<T>, $Owned; |a, b| (*a, $Path::new(b)));
    };
}

/// A path that several own.
macro_rules! shared {
    ($Shared:ident, $Path:ident, $PathBuf:ident, $Encoding:ident, $Slice:ty) => {
        impl<T: $Encoding> From<&$Path<T>> for $Shared<$Path<T>> {
            fn from(path: &$Path<T>) -> Self {
                let shared: $Shared<$Slice> = $Shared::from(&path.inner);
                renamed!(shared $Shared, shared => $Slice as $Path<T>)
            }
        }

        impl<T: $Encoding> From<$PathBuf<T>> for $Shared<$Path<T>> {
            fn from(path: $PathBuf<T>) -> Self {
                Self::from(&*path)
            }
        }
    };
}

/// `==` and `<` of two types, either way round, as those of the paths that they lend.
macro_rules! compared {
    ($Path:ident, $Encoding:ident; $($lt:lifetime),*; $Left:ty, $Right:ty; |$a:ident, $b:ident| $paths:expr) => {
        impl<$($lt,)* T: $Encoding> PartialEq<$Right> for $Left {
            #[inline]
            fn eq(&self, other: &$Right) -> bool {
                let ($a, $b) = (self, other);
                let (path, other): (&$Path<T>, &$Path<T>) = $paths;
                path == other
            }
        }

        impl<$($lt,)* T: $Encoding> PartialEq<$Left> for $Right {
            #[inline]
            fn eq(&self, other: &$Left) -> bool {
                other == self
            }
        }

        impl<$($lt,)* T: $Encoding> PartialOrd<$Right> for $Left {
            #[inline]
            fn partial_cmp(&self, other: &$Right) -> Option<Ordering> {
                let ($a, $b) = (self, other);
                let (path, other): (&$Path<T>, &$Path<T>) = $paths;
                path.partial_cmp(other)
            }
        }

        impl<$($lt,)* T: $Encoding> PartialOrd<$Left> for $Right {
            #[inline]
            fn partial_cmp(&self, other: &$Left) -> Option<Ordering> {
                other.partial_cmp(self).map(Ordering::reverse)
            }
        }
    };
}

families!(traits);

// Those of bytes alone.

impl<T: Encoding> fmt::Display for Path<T> {
    fn fmt(&self, f: &mut fmt::Formatter<'_>) -> fmt::Result {
        fmt::Display::fmt(&self.display(), f)
    }
}

impl<T: Encoding> AsRef<Path<T>> for [u8] {
    #[inline]
    fn as_ref(&self) -> &Path<T> {
        Path::new(self)
    }
}

impl<T: Encoding> AsRef<Path<T>> for Vec<u8> {
    #[inline]
    fn as_ref(&self) -> &Path<T> {
        Path::new(self)
    }
}

impl<T: Encoding> From<Vec<u8>> for PathBuf<T> {
    #[inline]
    fn from(inner: Vec<u8>) -> Self {
        Self::own(inner)
    }
}

// Those of text alone.

impl<T: Utf8Encoding> AsRef<str> for Utf8Path<T> {
    #[inline]
    fn as_ref(&self) -> &str {
        &self.inner
    }
}

impl<T: Utf8Encoding> AsRef<str> for Utf8PathBuf<T> {
    #[inline]
    fn as_ref(&self) -> &str {
        &self.inner
    }
}

impl<T: Utf8Encoding> fmt::Display for Utf8Path<T> {
    fn fmt(&self, f: &mut fmt::Formatter<'_>) -> fmt::Result {
        fmt::Display::fmt(&self.inner, f)
    }
}

impl<T: Utf8Encoding> fmt::Display for Utf8PathBuf<T> {
    fn fmt(&self, f: &mut fmt::Formatter<'_>) -> fmt::Result {
        fmt::Display::fmt(&self.inner, f)
    }
}
