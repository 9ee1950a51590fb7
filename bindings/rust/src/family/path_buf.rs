//! The path that is owned.

use alloc::boxed::Box;
use alloc::collections::TryReserveError;
use alloc::string::{FromUtf8Error, String};
use alloc::vec::Vec;
use core::marker::PhantomData;

use crate::casts::{change_bytes, change_text, renamed};
use crate::encoding::*;
use crate::errors::{CheckedPathError, OutOfMemory, TryError};
use crate::family::*;
use crate::ffi::{self, or_end};

macro_rules! path_buf {
    (
        $Path:ident $PathBuf:ident $Iter:ident $Ancestors:ident, $Encoding:ident $Components:ident $Component:ident,
        $Slice:ty, $Owned:ty, $as_slice:ident $into_owned:ident $into_boxed:ident $of_boxed:ident,
        $made:ident $change:ident, $use:literal
    ) => {
        #[doc = concat!("A path of one dialect that owns its bytes. It lends a [`", stringify!($Path), "`], whose calls it has.")]
        ///
        /// ```
        #[doc = $use]
        ///
        /// let mut path = UnixBuf::from("/srv");
        /// path.push("a.txt");
        /// path.set_extension("md");
        /// assert_eq!(path, Unix::new("/srv/a.md"));
        /// ```
        pub struct $PathBuf<T: $Encoding> {
            _encoding: PhantomData<T>,
            pub(crate) inner: $Owned,
        }

        impl<T: $Encoding> $PathBuf<T> {
            #[inline]
            pub(crate) fn own(inner: $Owned) -> Self {
                $PathBuf { _encoding: PhantomData, inner }
            }

            /// The empty path, which takes no memory.
            ///
            /// ```
            #[doc = $use]
            ///
            /// assert_eq!(UnixBuf::new(), Unix::new(""));
            /// ```
            #[inline]
            pub fn new() -> Self {
                Self::own(<$Owned>::new())
            }

            /// The empty path, with room for so many bytes.
            ///
            /// ```
            #[doc = $use]
            ///
            /// assert!(UnixBuf::with_capacity(10).capacity() >= 10);
            /// ```
            #[inline]
            pub fn with_capacity(capacity: usize) -> Self {
                Self::own(<$Owned>::with_capacity(capacity))
            }

            /// The path, lent.
            ///
            /// ```
            #[doc = $use]
            ///
            /// assert_eq!(UnixBuf::from("/a").as_path(), Unix::new("/a"));
            /// ```
            #[inline]
            pub fn as_path(&self) -> &$Path<T> {
                self
            }

            /// Pushes a path onto this one, as [`join`](Path::join) does, in the memory that this one has if that
            /// is enough.
            ///
            /// ```
            #[doc = $use]
            ///
            /// let mut path = UnixBuf::from("/srv");
            /// path.push("a");
            /// assert_eq!(path.to_string(), "/srv/a");
            /// path.push("/etc");
            /// assert_eq!(path.to_string(), "/etc");
            /// ```
            #[inline]
            pub fn push<P: AsRef<$Path<T>>>(&mut self, path: P) {
                T::push(&mut self.inner, &path.as_ref().inner)
            }

            /// [`push`](Self::push); refused memory is an answer.
            ///
            /// # Errors
            ///
            /// Memory was refused; the path is as it was.
            ///
            /// ```
            #[doc = $use]
            ///
            /// let mut path = UnixBuf::from("/srv");
            /// path.try_push("a").unwrap();
            /// assert_eq!(path, Unix::new("/srv/a"));
            /// ```
            #[inline]
            pub fn try_push<P: AsRef<$Path<T>>>(&mut self, path: P) -> Result<(), OutOfMemory> {
                $change(&mut self.inner, |inner| ffi::push(T::DIALECT, inner, path.as_ref().all()))
            }

            /// Pushes a path that has no component which offends, as [`join_checked`](Path::join_checked) does.
            ///
            /// # Errors
            ///
            /// What the first component that offends is refused for; the path is as it was.
            ///
            /// ```
            #[doc = $use]
            ///
            /// let mut path = UnixBuf::from("/srv");
            /// assert!(path.push_checked("a").is_ok());
            /// assert!(path.push_checked("../../..").is_err());
            /// assert_eq!(path.to_string(), "/srv/a");
            /// ```
            #[inline]
            pub fn push_checked<P: AsRef<$Path<T>>>(&mut self, path: P) -> Result<(), CheckedPathError> {
                T::push_checked(&mut self.inner, &path.as_ref().inner)
            }

            /// [`push_checked`](Self::push_checked); refused memory is an answer.
            ///
            /// # Errors
            ///
            /// What the first component that offends is refused for, or else memory; the path is as it was.
            ///
            /// ```
            #[doc = $use]
            ///
            /// let mut path = UnixBuf::from("/srv");
            /// assert!(path.try_push_checked("a").is_ok());
            /// assert!(path.try_push_checked("/").is_err());
            /// ```
            #[inline]
            pub fn try_push_checked<P: AsRef<$Path<T>>>(
                &mut self,
                path: P,
            ) -> Result<(), TryError<CheckedPathError>> {
                $change(&mut self.inner, |inner| ffi::push_checked(T::DIALECT, inner, path.as_ref().all()))
            }

            /// Cuts the path to its [parent](Path::parent), and keeps the capacity; whether there was one.
            ///
            /// ```
            #[doc = $use]
            ///
            /// let mut path = UnixBuf::from("/a");
            /// assert!(path.pop());
            /// assert_eq!(path, Unix::new("/"));
            /// assert!(!path.pop());
            /// ```
            #[inline]
            pub fn pop(&mut self) -> bool {
                match ffi::parent(T::DIALECT, self.all()) {
                    Some(parent) => {
                        self.inner.truncate(parent.end);
                        true
                    }
                    None => false,
                }
            }

            /// Puts another file name, as [`with_file_name`](Path::with_file_name) does.
            ///
            /// ```
            #[doc = $use]
            ///
            /// let mut path = UnixBuf::from("/a/b");
            /// path.set_file_name("c");
            /// assert_eq!(path, Unix::new("/a/c"));
            /// ```
            #[inline]
            pub fn set_file_name<S: AsRef<$Slice>>(&mut self, file_name: S) {
                or_end(self.try_set_file_name(file_name))
            }

            /// [`set_file_name`](Self::set_file_name); refused memory is an answer.
            ///
            /// # Errors
            ///
            /// Memory was refused; the path is as it was.
            ///
            /// ```
            #[doc = $use]
            ///
            /// let mut path = UnixBuf::from("/a/b");
            /// path.try_set_file_name("c").unwrap();
            /// assert_eq!(path, Unix::new("/a/c"));
            /// ```
            #[inline]
            pub fn try_set_file_name<S: AsRef<$Slice>>(&mut self, file_name: S) -> Result<(), OutOfMemory> {
                let name: &[u8] = file_name.as_ref().as_ref();
                $change(&mut self.inner, |inner| ffi::set_file_name(T::DIALECT, inner, name))
            }

            /// Puts another extension, as [`with_extension`](Path::with_extension) does; whether there is a file
            /// name.
            ///
            /// ```
            #[doc = $use]
            ///
            /// let mut path = UnixBuf::from("a.txt");
            /// assert!(path.set_extension("md"));
            /// assert_eq!(path.to_string(), "a.md");
            /// assert!(!UnixBuf::from("/").set_extension("md"));
            /// ```
            #[inline]
            pub fn set_extension<S: AsRef<$Slice>>(&mut self, extension: S) -> bool {
                or_end(self.try_set_extension(extension))
            }

            /// [`set_extension`](Self::set_extension); refused memory is an answer.
            ///
            /// # Errors
            ///
            /// Memory was refused; the path is as it was.
            ///
            /// ```
            #[doc = $use]
            ///
            /// assert_eq!(UnixBuf::from("a.txt").try_set_extension("md"), Ok(true));
            /// ```
            #[inline]
            pub fn try_set_extension<S: AsRef<$Slice>>(&mut self, extension: S) -> Result<bool, OutOfMemory> {
                let extension: &[u8] = extension.as_ref().as_ref();
                $change(&mut self.inner, |inner| ffi::set_extension(T::DIALECT, inner, extension))
            }

            /// Puts one extension more, as [`with_added_extension`](Path::with_added_extension) does; whether there
            /// is a file name.
            ///
            /// ```
            #[doc = $use]
            ///
            /// let mut path = UnixBuf::from("a.tar");
            /// assert!(path.add_extension("gz"));
            /// assert_eq!(path.to_string(), "a.tar.gz");
            /// ```
            #[inline]
            pub fn add_extension<S: AsRef<$Slice>>(&mut self, extension: S) -> bool {
                or_end(self.try_add_extension(extension))
            }

            /// [`add_extension`](Self::add_extension); refused memory is an answer.
            ///
            /// # Errors
            ///
            /// Memory was refused; the path is as it was.
            ///
            /// ```
            #[doc = $use]
            ///
            /// assert_eq!(UnixBuf::from("a.tar").try_add_extension("gz"), Ok(true));
            /// ```
            #[inline]
            pub fn try_add_extension<S: AsRef<$Slice>>(&mut self, extension: S) -> Result<bool, OutOfMemory> {
                let extension: &[u8] = extension.as_ref().as_ref();
                $change(&mut self.inner, |inner| ffi::add_extension(T::DIALECT, inner, extension))
            }

            /// What it owns, moved out.
            ///
            /// ```
            #[doc = $use]
            ///
            #[doc = concat!("let owned: ", stringify!($Owned), " = UnixBuf::from(\"/a\").", stringify!($into_owned), "();")]
            /// ```
            #[inline]
            pub fn $into_owned(self) -> $Owned {
                self.inner
            }

            /// The same path in a box, with no capacity beyond it.
            ///
            /// ```
            #[doc = $use]
            ///
            /// let boxed: Box<Unix> = UnixBuf::from("/a").into_boxed_path();
            /// ```
            #[inline]
            pub fn into_boxed_path(self) -> Box<$Path<T>> {
                renamed!(Box, self.inner.$into_boxed() => $Slice as $Path<T>)
            }

            /// How many bytes it has room for, with its own.
            ///
            /// ```
            #[doc = $use]
            ///
            /// assert!(UnixBuf::from("/a").capacity() >= 2);
            /// ```
            #[inline]
            pub fn capacity(&self) -> usize {
                self.inner.capacity()
            }

            /// Makes it the empty path, of the same capacity.
            ///
            /// ```
            #[doc = $use]
            ///
            /// let mut path = UnixBuf::from("/a");
            /// path.clear();
            /// assert_eq!(path, Unix::new(""));
            /// ```
            #[inline]
            pub fn clear(&mut self) {
                self.inner.clear()
            }

            /// Makes room for at least so many bytes more.
            ///
            /// ```
            #[doc = $use]
            ///
            /// let mut path = UnixBuf::from("/a");
            /// path.reserve(10);
            /// assert!(path.capacity() >= 12);
            /// ```
            #[inline]
            pub fn reserve(&mut self, additional: usize) {
                self.inner.reserve(additional)
            }

            /// [`reserve`](Self::reserve); refused memory is an answer.
            ///
            /// # Errors
            ///
            /// Memory was refused; the path and its capacity are as they were.
            ///
            /// ```
            #[doc = $use]
            ///
            /// assert!(UnixBuf::new().try_reserve(10).is_ok());
            /// assert!(UnixBuf::new().try_reserve(usize::MAX).is_err());
            /// ```
            #[inline]
            pub fn try_reserve(&mut self, additional: usize) -> Result<(), TryReserveError> {
                self.inner.try_reserve(additional)
            }

            /// Makes room for so many bytes more, and for no more than these if it has to grow.
            ///
            /// ```
            #[doc = $use]
            ///
            /// let mut path = UnixBuf::from("/a");
            /// path.reserve_exact(10);
            /// assert!(path.capacity() >= 12);
            /// ```
            #[inline]
            pub fn reserve_exact(&mut self, additional: usize) {
                self.inner.reserve_exact(additional)
            }

            /// [`reserve_exact`](Self::reserve_exact); refused memory is an answer.
            ///
            /// # Errors
            ///
            /// Memory was refused; the path and its capacity are as they were.
            ///
            /// ```
            #[doc = $use]
            ///
            /// assert!(UnixBuf::new().try_reserve_exact(10).is_ok());
            /// ```
            #[inline]
            pub fn try_reserve_exact(&mut self, additional: usize) -> Result<(), TryReserveError> {
                self.inner.try_reserve_exact(additional)
            }

            /// Gives back the memory that it does not use.
            ///
            /// ```
            #[doc = $use]
            ///
            /// let mut path = UnixBuf::with_capacity(100);
            /// path.shrink_to_fit();
            /// assert!(path.capacity() < 100);
            /// ```
            #[inline]
            pub fn shrink_to_fit(&mut self) {
                self.inner.shrink_to_fit()
            }

            /// Gives back the memory beyond so many bytes, and beyond its own.
            ///
            /// ```
            #[doc = $use]
            ///
            /// let mut path = UnixBuf::with_capacity(100);
            /// path.shrink_to(10);
            /// assert!((10..100).contains(&path.capacity()));
            /// ```
            #[inline]
            pub fn shrink_to(&mut self, min_capacity: usize) {
                self.inner.shrink_to(min_capacity)
            }
        }
    };
}

families!(path_buf);

impl<T: Utf8Encoding> Utf8PathBuf<T> {
    /// The same path as text, moved.
    ///
    /// # Errors
    ///
    /// It is not UTF-8.
    ///
    /// ```
    /// use typed_path::{UnixPathBuf, Utf8UnixPath, Utf8UnixPathBuf};
    ///
    /// let path = Utf8UnixPathBuf::from_bytes_path_buf(UnixPathBuf::from("/a"));
    /// assert_eq!(path.unwrap(), Utf8UnixPath::new("/a"));
    /// ```
    pub fn from_bytes_path_buf<U: Encoding>(path: PathBuf<U>) -> Result<Self, FromUtf8Error> {
        Ok(Self::own(String::from_utf8(path.inner)?))
    }

    /// The same path as bytes, moved.
    ///
    /// ```
    /// use typed_path::{UnixPathBuf, Utf8UnixPathBuf};
    ///
    /// let path: UnixPathBuf = Utf8UnixPathBuf::from("/a").into_bytes_path_buf();
    /// assert_eq!(path, UnixPathBuf::from("/a"));
    /// ```
    #[inline]
    pub fn into_bytes_path_buf<U: Encoding>(self) -> PathBuf<U> {
        PathBuf::own(self.inner.into_bytes())
    }
}
