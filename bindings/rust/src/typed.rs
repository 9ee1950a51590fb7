//! Paths of either dialect, which is chosen when the program runs.

use alloc::borrow::Cow;
use alloc::collections::TryReserveError;
use alloc::string::String;
use alloc::vec::Vec;
use core::cmp::Ordering;
use core::fmt;
use core::iter::FusedIterator;

use crate::TryAsRef;
use crate::components::{debug_items, lends_text, shows_text};
use crate::encoding::*;
use crate::errors::{CheckedPathError, JoinError, OutOfMemory, PortableError, StripPrefixError, TryError};
use crate::family::*;
use crate::ffi;
use crate::key::Key;
use crate::private::Sealed;
use crate::unix::*;
use crate::windows::*;

/// Which dialect a path is of.
///
/// ```
/// use typed_path::{PathType, TypedPath};
///
/// assert!(TypedPath::new("/a", PathType::Windows).is_windows());
/// ```
pub enum PathType {
    /// Unix.
    Unix,
    /// Windows.
    Windows,
}

/// What the value of either dialect answers.
macro_rules! of_either {
    ($value:expr, $inner:ident => $answer:expr) => {
        match $value {
            Self::Unix($inner) => $answer,
            Self::Windows($inner) => $answer,
        }
    };
}

/// The same, as a value of either dialect.
macro_rules! as_either {
    ($value:expr, $Either:ident, $inner:ident => $answer:expr) => {
        match $value {
            Self::Unix($inner) => $Either::Unix($answer),
            Self::Windows($inner) => $Either::Windows($answer),
        }
    };
}

macro_rules! typed {
    (
        $Path:ident $PathBuf:ident $Components:ident $Component:ident $Iter:ident $Ancestors:ident,
        $Unix:ident $UnixBuf:ident $UnixComponents:ident $UnixComponent:ident $UnixEncoding:ident,
        $Windows:ident $WindowsBuf:ident $WindowsComponents:ident $WindowsComponent:ident $WindowsEncoding:ident,
        $OneIter:ident $OneAncestors:ident,
        $Slice:ty, $Owned:ty, $as_slice:ident $into_owned:ident $as_normal:ident, $use:literal
    ) => {
        /// A path of either dialect, borrowed. One of Unix is never equal to one of Windows, and comes before it.
        ///
        /// ```
        #[doc = $use]
        ///
        /// let paths = [Typed::derive("/usr/share"), Typed::derive(r"C:\Users")];
        /// assert!(paths[0].is_unix() && paths[1].is_windows());
        /// assert_eq!(paths.map(|path| path.file_name().is_some()), [true, true]);
        /// ```
        #[derive(Clone, Copy, Debug, PartialEq, Eq, Hash, PartialOrd, Ord)]
        pub enum $Path<'a> {
            /// One of Unix.
            Unix(&'a $Unix),
            /// One of Windows.
            Windows(&'a $Windows),
        }

        /// A path of either dialect that owns its bytes.
        ///
        /// ```
        #[doc = $use]
        ///
        /// let mut path = TypedBuf::from_windows(r"C:\Users");
        /// path.push("me");
        /// assert_eq!(path, Typed::windows(r"C:\Users\me"));
        /// ```
        #[derive(Clone, Debug, PartialEq, Eq, Hash, PartialOrd, Ord)]
        pub enum $PathBuf {
            /// One of Unix.
            Unix($UnixBuf),
            /// One of Windows.
            Windows($WindowsBuf),
        }

        impl<'a> $Path<'a> {
            /// The path of a slice in a dialect.
            ///
            /// ```
            #[doc = $use]
            /// use typed_path::PathType;
            ///
            /// assert!(Typed::new("/a", PathType::Unix).is_unix());
            /// ```
            pub fn new<S: AsRef<$Slice> + ?Sized>(s: &'a S, r#type: PathType) -> Self {
                match r#type {
                    PathType::Unix => Self::unix(s),
                    PathType::Windows => Self::windows(s),
                }
            }

            /// The path of a slice as one of Unix.
            ///
            /// ```
            #[doc = $use]
            ///
            /// assert!(Typed::unix(r"C:\a").is_unix());
            /// ```
            #[inline]
            pub fn unix<S: AsRef<$Slice> + ?Sized>(s: &'a S) -> Self {
                Self::Unix($Unix::new(s))
            }

            /// The path of a slice as one of Windows.
            ///
            /// ```
            #[doc = $use]
            ///
            /// assert!(Typed::windows("/a").is_windows());
            /// ```
            #[inline]
            pub fn windows<S: AsRef<$Slice> + ?Sized>(s: &'a S) -> Self {
                Self::Windows($Windows::new(s))
            }

            /// The path of a slice in the dialect that it looks like: Windows if it begins with `\` or a prefix,
            /// else Unix.
            ///
            /// ```
            #[doc = $use]
            ///
            /// assert!(Typed::derive(r"C:\a").is_windows());
            /// assert!(Typed::derive("a/b").is_unix());
            /// ```
            pub fn derive<S: AsRef<$Slice> + ?Sized>(s: &'a S) -> Self {
                let bytes: &[u8] = s.as_ref().as_ref();
                match ffi::derive(bytes) {
                    ffi::WINDOWS => Self::windows(s),
                    _ => Self::unix(s),
                }
            }

            /// A copy that owns its bytes.
            ///
            /// ```
            #[doc = $use]
            ///
            /// let path: TypedBuf = Typed::unix("/a").to_path_buf();
            /// ```
            #[inline]
            pub fn to_path_buf(&self) -> $PathBuf {
                as_either!(self, $PathBuf, path => path.to_path_buf())
            }

            /// The same; refused memory is an answer.
            ///
            /// # Errors
            ///
            /// Memory was refused.
            ///
            /// ```
            #[doc = $use]
            ///
            /// assert!(Typed::unix("/a").try_to_path_buf().is_ok());
            /// ```
            pub fn try_to_path_buf(&self) -> Result<$PathBuf, OutOfMemory> {
                Ok(as_either!(self, $PathBuf, path => path.try_to_path_buf()?))
            }

            /// The path without its last component. None of an empty path, a root, or a prefix but a drive.
            ///
            /// ```
            #[doc = $use]
            ///
            /// assert_eq!(Typed::unix("/a/b").parent(), Some(Typed::unix("/a")));
            /// ```
            #[inline]
            pub fn parent(&self) -> Option<Self> {
                match self {
                    Self::Unix(path) => path.parent().map(Self::Unix),
                    Self::Windows(path) => path.parent().map(Self::Windows),
                }
            }

            /// The path, its parent, the parent of that, and so on.
            ///
            /// ```
            #[doc = $use]
            ///
            /// assert_eq!(Typed::unix("/a/b").ancestors().count(), 3);
            /// ```
            #[inline]
            pub fn ancestors(&self) -> $Ancestors<'a> {
                as_either!(self, $Ancestors, path => path.ancestors())
            }

            /// The components, from both ends.
            ///
            /// ```
            #[doc = $use]
            ///
            /// assert_eq!(Typed::unix("/a/./b").components().count(), 3);
            /// ```
            #[inline]
            pub fn components(&self) -> $Components<'a> {
                as_either!(self, $Components, path => path.components())
            }

            /// The slices of the components, from both ends.
            ///
            /// ```
            #[doc = $use]
            ///
            /// assert_eq!(Typed::unix("/a/./b").iter().next_back(), Some("b".as_ref()));
            /// ```
            #[inline]
            pub fn iter(&self) -> $Iter<'a> {
                as_either!(self, $Iter, path => path.iter())
            }
        }

        impl $PathBuf {
            /// The empty path of a dialect, which takes no memory.
            ///
            /// ```
            #[doc = $use]
            /// use typed_path::PathType;
            ///
            /// assert!(TypedBuf::new(PathType::Windows).is_windows());
            /// ```
            #[inline]
            pub fn new(r#type: PathType) -> Self {
                match r#type {
                    PathType::Unix => Self::unix(),
                    PathType::Windows => Self::windows(),
                }
            }

            /// The empty path of Unix.
            ///
            /// ```
            #[doc = $use]
            ///
            /// assert!(TypedBuf::unix().is_unix());
            /// ```
            #[inline]
            pub fn unix() -> Self {
                Self::Unix($UnixBuf::new())
            }

            /// The empty path of Windows.
            ///
            /// ```
            #[doc = $use]
            ///
            /// assert!(TypedBuf::windows().is_windows());
            /// ```
            #[inline]
            pub fn windows() -> Self {
                Self::Windows($WindowsBuf::new())
            }

            /// A copy of a slice as a path of Unix.
            ///
            /// ```
            #[doc = $use]
            ///
            /// assert_eq!(TypedBuf::from_unix("/a"), Typed::unix("/a"));
            /// ```
            pub fn from_unix(s: impl AsRef<$Slice>) -> Self {
                Self::Unix($UnixBuf::from(s.as_ref()))
            }

            /// A copy of a slice as a path of Windows.
            ///
            /// ```
            #[doc = $use]
            ///
            /// assert_eq!(TypedBuf::from_windows(r"C:\a"), Typed::windows(r"C:\a"));
            /// ```
            pub fn from_windows(s: impl AsRef<$Slice>) -> Self {
                Self::Windows($WindowsBuf::from(s.as_ref()))
            }

            /// The path, lent.
            ///
            /// ```
            #[doc = $use]
            ///
            /// assert_eq!(TypedBuf::from_unix("/a").to_path(), Typed::unix("/a"));
            /// ```
            #[inline]
            pub fn to_path(&self) -> $Path<'_> {
                as_either!(self, $Path, path => path.as_path())
            }

            /// Pushes a path of the same dialect onto this one, as [`join`](Self::join) does.
            ///
            /// ```
            #[doc = $use]
            ///
            /// let mut path = TypedBuf::from_unix("/srv");
            /// path.push("a");
            /// assert_eq!(path, Typed::unix("/srv/a"));
            /// ```
            #[inline]
            pub fn push(&mut self, path: impl AsRef<$Slice>) {
                match self {
                    Self::Unix(base) => base.push($Unix::new(&path)),
                    Self::Windows(base) => base.push($Windows::new(&path)),
                }
            }

            /// [`push`](Self::push); refused memory is an answer.
            ///
            /// # Errors
            ///
            /// Memory was refused; the path is as it was.
            ///
            /// ```
            #[doc = $use]
            ///
            /// assert!(TypedBuf::from_unix("/srv").try_push("a").is_ok());
            /// ```
            #[inline]
            pub fn try_push(&mut self, path: impl AsRef<$Slice>) -> Result<(), OutOfMemory> {
                match self {
                    Self::Unix(base) => base.try_push($Unix::new(&path)),
                    Self::Windows(base) => base.try_push($Windows::new(&path)),
                }
            }

            /// Pushes a path that has no component which offends, as [`join_checked`](Self::join_checked) does.
            ///
            /// # Errors
            ///
            /// What the first component that offends is refused for; the path is as it was.
            ///
            /// ```
            #[doc = $use]
            ///
            /// let mut path = TypedBuf::from_unix("/srv");
            /// assert!(path.push_checked("..").is_err());
            /// ```
            #[inline]
            pub fn push_checked(&mut self, path: impl AsRef<$Slice>) -> Result<(), CheckedPathError> {
                match self {
                    Self::Unix(base) => base.push_checked($Unix::new(&path)),
                    Self::Windows(base) => base.push_checked($Windows::new(&path)),
                }
            }

            /// [`push_checked`](Self::push_checked); refused memory is an answer.
            ///
            /// # Errors
            ///
            /// What the first component that offends is refused for, or else memory; the path is as it was.
            ///
            /// ```
            #[doc = $use]
            ///
            /// assert!(TypedBuf::from_unix("/srv").try_push_checked("a").is_ok());
            /// ```
            #[inline]
            pub fn try_push_checked(&mut self, path: impl AsRef<$Slice>) -> Result<(), TryError<CheckedPathError>> {
                match self {
                    Self::Unix(base) => base.try_push_checked($Unix::new(&path)),
                    Self::Windows(base) => base.try_push_checked($Windows::new(&path)),
                }
            }

            /// Cuts the path to its [parent](Self::parent), and keeps the capacity; whether there was one.
            ///
            /// ```
            #[doc = $use]
            ///
            /// let mut path = TypedBuf::from_unix("/a");
            /// assert!(path.pop() && !path.pop());
            /// ```
            #[inline]
            pub fn pop(&mut self) -> bool {
                of_either!(self, path => path.pop())
            }

            /// Puts another file name, as [`with_file_name`](Self::with_file_name) does.
            ///
            /// ```
            #[doc = $use]
            ///
            /// let mut path = TypedBuf::from_unix("/a/b");
            /// path.set_file_name("c");
            /// assert_eq!(path, Typed::unix("/a/c"));
            /// ```
            pub fn set_file_name<S: AsRef<$Slice>>(&mut self, file_name: S) {
                of_either!(self, path => path.set_file_name(file_name))
            }

            /// [`set_file_name`](Self::set_file_name); refused memory is an answer.
            ///
            /// # Errors
            ///
            /// Memory was refused; the path is as it was.
            ///
            /// ```
            #[doc = $use]
            ///
            /// assert!(TypedBuf::from_unix("/a/b").try_set_file_name("c").is_ok());
            /// ```
            pub fn try_set_file_name<S: AsRef<$Slice>>(&mut self, file_name: S) -> Result<(), OutOfMemory> {
                of_either!(self, path => path.try_set_file_name(file_name))
            }

            /// Puts another extension, as [`with_extension`](Self::with_extension) does; whether there is a file
            /// name.
            ///
            /// ```
            #[doc = $use]
            ///
            /// let mut path = TypedBuf::from_unix("a.txt");
            /// assert!(path.set_extension("md"));
            /// assert_eq!(path, Typed::unix("a.md"));
            /// ```
            pub fn set_extension<S: AsRef<$Slice>>(&mut self, extension: S) -> bool {
                of_either!(self, path => path.set_extension(extension))
            }

            /// [`set_extension`](Self::set_extension); refused memory is an answer.
            ///
            /// # Errors
            ///
            /// Memory was refused; the path is as it was.
            ///
            /// ```
            #[doc = $use]
            ///
            /// assert_eq!(TypedBuf::from_unix("a").try_set_extension("md"), Ok(true));
            /// ```
            pub fn try_set_extension<S: AsRef<$Slice>>(&mut self, extension: S) -> Result<bool, OutOfMemory> {
                of_either!(self, path => path.try_set_extension(extension))
            }

            /// Puts one extension more, as [`with_added_extension`](Self::with_added_extension) does; whether there
            /// is a file name.
            ///
            /// ```
            #[doc = $use]
            ///
            /// let mut path = TypedBuf::from_unix("a.tar");
            /// assert!(path.add_extension("gz"));
            /// assert_eq!(path, Typed::unix("a.tar.gz"));
            /// ```
            pub fn add_extension<S: AsRef<$Slice>>(&mut self, extension: S) -> bool {
                of_either!(self, path => path.add_extension(extension))
            }

            /// [`add_extension`](Self::add_extension); refused memory is an answer.
            ///
            /// # Errors
            ///
            /// Memory was refused; the path is as it was.
            ///
            /// ```
            #[doc = $use]
            ///
            /// assert_eq!(TypedBuf::from_unix("a.tar").try_add_extension("gz"), Ok(true));
            /// ```
            pub fn try_add_extension<S: AsRef<$Slice>>(&mut self, extension: S) -> Result<bool, OutOfMemory> {
                of_either!(self, path => path.try_add_extension(extension))
            }

            /// What it owns, moved out.
            ///
            /// ```
            #[doc = $use]
            ///
            #[doc = concat!("let owned: ", stringify!($Owned), " = TypedBuf::from_unix(\"/a\").", stringify!($into_owned), "();")]
            /// ```
            #[inline]
            pub fn $into_owned(self) -> $Owned {
                of_either!(self, path => path.$into_owned())
            }

            /// How many bytes it has room for, with its own.
            ///
            /// ```
            #[doc = $use]
            ///
            /// assert!(TypedBuf::from_unix("/a").capacity() >= 2);
            /// ```
            #[inline]
            pub fn capacity(&self) -> usize {
                of_either!(self, path => path.capacity())
            }

            /// Makes it the empty path of its dialect, of the same capacity.
            ///
            /// ```
            #[doc = $use]
            ///
            /// let mut path = TypedBuf::from_unix("/a");
            /// path.clear();
            /// assert_eq!(path, TypedBuf::unix());
            /// ```
            #[inline]
            pub fn clear(&mut self) {
                of_either!(self, path => path.clear())
            }

            /// Makes room for at least so many bytes more.
            ///
            /// ```
            #[doc = $use]
            ///
            /// let mut path = TypedBuf::unix();
            /// path.reserve(10);
            /// assert!(path.capacity() >= 10);
            /// ```
            #[inline]
            pub fn reserve(&mut self, additional: usize) {
                of_either!(self, path => path.reserve(additional))
            }

            /// [`reserve`](Self::reserve); refused memory is an answer.
            ///
            /// # Errors
            ///
            /// Memory was refused; the path and its capacity are as they were.
            ///
            /// ```
            #[doc = $use]
            ///
            /// assert!(TypedBuf::unix().try_reserve(usize::MAX).is_err());
            /// ```
            #[inline]
            pub fn try_reserve(&mut self, additional: usize) -> Result<(), TryReserveError> {
                of_either!(self, path => path.try_reserve(additional))
            }

            /// Makes room for so many bytes more, and for no more than these if it has to grow.
            ///
            /// ```
            #[doc = $use]
            ///
            /// let mut path = TypedBuf::unix();
            /// path.reserve_exact(10);
            /// assert!(path.capacity() >= 10);
            /// ```
            #[inline]
            pub fn reserve_exact(&mut self, additional: usize) {
                of_either!(self, path => path.reserve_exact(additional))
            }

            /// [`reserve_exact`](Self::reserve_exact); refused memory is an answer.
            ///
            /// # Errors
            ///
            /// Memory was refused; the path and its capacity are as they were.
            ///
            /// ```
            #[doc = $use]
            ///
            /// assert!(TypedBuf::unix().try_reserve_exact(10).is_ok());
            /// ```
            #[inline]
            pub fn try_reserve_exact(&mut self, additional: usize) -> Result<(), TryReserveError> {
                of_either!(self, path => path.try_reserve_exact(additional))
            }

            /// Gives back the memory that it does not use.
            ///
            /// ```
            #[doc = $use]
            ///
            /// let mut path = TypedBuf::unix();
            /// path.reserve(100);
            /// path.shrink_to_fit();
            /// assert!(path.capacity() < 100);
            /// ```
            #[inline]
            pub fn shrink_to_fit(&mut self) {
                of_either!(self, path => path.shrink_to_fit())
            }

            /// Gives back the memory beyond so many bytes, and beyond its own.
            ///
            /// ```
            #[doc = $use]
            ///
            /// let mut path = TypedBuf::unix();
            /// path.reserve(100);
            /// path.shrink_to(10);
            /// assert!((10..100).contains(&path.capacity()));
            /// ```
            #[inline]
            pub fn shrink_to(&mut self, min_capacity: usize) {
                of_either!(self, path => path.shrink_to(min_capacity))
            }

            /// The path without its last component. None of an empty path, a root, or a prefix but a drive.
            ///
            /// ```
            #[doc = $use]
            ///
            /// assert_eq!(TypedBuf::from_unix("/a/b").parent(), Some(Typed::unix("/a")));
            /// ```
            #[inline]
            pub fn parent(&self) -> Option<$Path<'_>> {
                self.to_path().parent()
            }

            /// The path, its parent, the parent of that, and so on.
            ///
            /// ```
            #[doc = $use]
            ///
            /// assert_eq!(TypedBuf::from_unix("/a/b").ancestors().count(), 3);
            /// ```
            #[inline]
            pub fn ancestors(&self) -> $Ancestors<'_> {
                self.to_path().ancestors()
            }

            /// The components, from both ends.
            ///
            /// ```
            #[doc = $use]
            ///
            /// assert_eq!(TypedBuf::from_unix("/a/./b").components().count(), 3);
            /// ```
            #[inline]
            pub fn components(&self) -> $Components<'_> {
                self.to_path().components()
            }

            /// The slices of the components, from both ends.
            ///
            /// ```
            #[doc = $use]
            ///
            /// assert_eq!(TypedBuf::from_unix("/a/./b").iter().next_back(), Some("b".as_ref()));
            /// ```
            #[inline]
            pub fn iter(&self) -> $Iter<'_> {
                self.to_path().iter()
            }
        }

        asked!(
            ['a] $Path<'a>, $Path, $PathBuf, $Unix $UnixEncoding, $Windows $WindowsEncoding, $Slice, $as_slice,
            "Typed::unix", $use
        );
        asked!(
            [] $PathBuf, $Path, $PathBuf, $Unix $UnixEncoding, $Windows $WindowsEncoding, $Slice, $as_slice,
            "TypedBuf::from_unix", $use
        );

        impl<'a> From<&'a str> for $Path<'a> {
            #[inline]
            fn from(s: &'a str) -> Self {
                $Path::derive(s)
            }
        }

        impl<'a> From<&'a str> for $PathBuf {
            #[inline]
            fn from(s: &'a str) -> Self {
                $Path::derive(s).to_path_buf()
            }
        }

        impl From<String> for $PathBuf {
            #[inline]
            fn from(s: String) -> Self {
                match ffi::derive(s.as_bytes()) {
                    ffi::WINDOWS => Self::Windows(s.into()),
                    _ => Self::Unix(s.into()),
                }
            }
        }

        of_one_dialect!($Path, $PathBuf, Unix: $Unix, $UnixBuf);
        of_one_dialect!($Path, $PathBuf, Windows: $Windows, $WindowsBuf);

        impl PartialEq<$PathBuf> for $Path<'_> {
            #[inline]
            fn eq(&self, other: &$PathBuf) -> bool {
                *self == other.to_path()
            }
        }

        impl PartialEq<$Path<'_>> for $PathBuf {
            #[inline]
            fn eq(&self, other: &$Path<'_>) -> bool {
                *other == self.to_path()
            }
        }

        /// The components of a path of either dialect, from both ends. It takes no memory.
        ///
        /// ```
        #[doc = $use]
        ///
        /// let mut components = Typed::unix("/a/b").components();
        /// assert!(components.next().unwrap().is_root());
        /// assert_eq!(components.to_path(), Typed::unix("a/b"));
        /// ```
        #[derive(Clone)]
        pub enum $Components<'a> {
            /// Those of a path of Unix.
            Unix($UnixComponents<'a>),
            /// Those of a path of Windows.
            Windows($WindowsComponents<'a>),
        }

        impl<'a> $Components<'a> {
            /// The path of the slice left.
            ///
            /// ```
            #[doc = $use]
            ///
            /// let mut components = Typed::unix("a/b").components();
            /// components.next_back();
            /// assert_eq!(components.to_path(), Typed::unix("a"));
            /// ```
            pub fn to_path(&self) -> $Path<'a> {
                as_either!(self, $Path, components => components.as_path())
            }

            /// The slice left.
            ///
            /// ```
            #[doc = $use]
            ///
            /// let mut components = Typed::unix("a/b").components();
            /// components.next();
            #[doc = concat!("assert_eq!(components.", stringify!($as_slice), "(), AsRef::<", stringify!($Slice), ">::as_ref(\"b\"));")]
            /// ```
            pub fn $as_slice(&self) -> &'a $Slice {
                of_either!(self, components => components.$as_slice())
            }

            /// Whether the components left lead to one place from every directory.
            ///
            /// ```
            #[doc = $use]
            ///
            /// assert!(Typed::unix("/a").components().is_absolute());
            /// ```
            pub fn is_absolute(&self) -> bool {
                of_either!(self, components => components.is_absolute())
            }

            /// Whether the components left begin with a root, written or implied by a prefix.
            ///
            /// ```
            #[doc = $use]
            ///
            /// assert!(Typed::windows(r"\a").components().has_root());
            /// ```
            pub fn has_root(&self) -> bool {
                of_either!(self, components => components.has_root())
            }
        }

        impl Sealed for $Components<'_> {}

        impl AsRef<[u8]> for $Components<'_> {
            fn as_ref(&self) -> &[u8] {
                of_either!(self, components => components.as_ref())
            }
        }

        impl fmt::Debug for $Components<'_> {
            fn fmt(&self, f: &mut fmt::Formatter<'_>) -> fmt::Result {
                debug_items(f, stringify!($Components), || self.clone())
            }
        }

        impl<'a> Iterator for $Components<'a> {
            type Item = $Component<'a>;

            #[inline]
            fn next(&mut self) -> Option<$Component<'a>> {
                match self {
                    Self::Unix(components) => components.next().map($Component::Unix),
                    Self::Windows(components) => components.next().map($Component::Windows),
                }
            }
        }

        impl DoubleEndedIterator for $Components<'_> {
            #[inline]
            fn next_back(&mut self) -> Option<Self::Item> {
                match self {
                    Self::Unix(components) => components.next_back().map($Component::Unix),
                    Self::Windows(components) => components.next_back().map($Component::Windows),
                }
            }
        }

        impl FusedIterator for $Components<'_> {}

        impl PartialEq for $Components<'_> {
            fn eq(&self, other: &Self) -> bool {
                match (self, other) {
                    (Self::Unix(a), Self::Unix(b)) => a == b,
                    (Self::Windows(a), Self::Windows(b)) => a == b,
                    _ => false,
                }
            }
        }

        impl Eq for $Components<'_> {}

        impl PartialOrd for $Components<'_> {
            fn partial_cmp(&self, other: &Self) -> Option<Ordering> {
                match (self, other) {
                    (Self::Unix(a), Self::Unix(b)) => PartialOrd::partial_cmp(a, b),
                    (Self::Windows(a), Self::Windows(b)) => PartialOrd::partial_cmp(a, b),
                    _ => None,
                }
            }
        }

        /// A component of a path of either dialect.
        ///
        /// ```
        #[doc = $use]
        #[doc = concat!("use typed_path::", stringify!($Component), ";")]
        ///
        #[doc = concat!("let name: ", stringify!($Component), " = Typed::unix(\"a\").components().next().unwrap();")]
        #[doc = concat!("assert_eq!(name.", stringify!($as_normal), "(), Some(\"a\".as_ref()));")]
        /// ```
        #[derive(Copy, Clone, Debug, Hash, PartialEq, Eq, PartialOrd, Ord)]
        pub enum $Component<'a> {
            /// One of a path of Unix.
            Unix($UnixComponent<'a>),
            /// One of a path of Windows.
            Windows($WindowsComponent<'a>),
        }

        impl Sealed for $Component<'_> {}

        impl<'a> $Component<'a> {
            /// The path of the component alone, in the dialect that it looks like.
            ///
            /// ```
            #[doc = $use]
            ///
            /// let prefix = Typed::windows("C:").components().next().unwrap();
            /// assert!(prefix.to_path().is_windows());
            /// ```
            pub fn to_path(&self) -> $Path<'a> {
                $Path::derive(self.$as_slice())
            }

            /// How it is written.
            ///
            /// ```
            #[doc = $use]
            ///
            /// let parent = Typed::unix("..").components().next().unwrap();
            #[doc = concat!("assert_eq!(parent.", stringify!($as_slice), "(), AsRef::<", stringify!($Slice), ">::as_ref(\"..\"));")]
            /// ```
            pub fn $as_slice(&self) -> &'a $Slice {
                of_either!(self, component => component.$as_slice())
            }

            /// Whether it is a root, or a prefix but that of a drive.
            ///
            /// ```
            #[doc = $use]
            ///
            /// assert!(Typed::unix("/").components().next().unwrap().is_root());
            /// ```
            pub fn is_root(&self) -> bool {
                of_either!(self, component => component.is_root())
            }

            /// Whether it is a name.
            ///
            /// ```
            #[doc = $use]
            ///
            /// assert!(Typed::unix("a").components().next().unwrap().is_normal());
            /// ```
            pub fn is_normal(&self) -> bool {
                of_either!(self, component => component.is_normal())
            }

            /// The name that it is.
            ///
            /// ```
            #[doc = $use]
            ///
            /// let name = Typed::unix("a").components().next().unwrap();
            #[doc = concat!("assert_eq!(name.", stringify!($as_normal), "(), Some(\"a\".as_ref()));")]
            /// ```
            pub fn $as_normal(&self) -> Option<&$Slice> {
                self.is_normal().then(|| self.$as_slice())
            }

            /// Whether it is `..`.
            ///
            /// ```
            #[doc = $use]
            ///
            /// assert!(Typed::unix("..").components().next().unwrap().is_parent());
            /// ```
            pub fn is_parent(&self) -> bool {
                of_either!(self, component => component.is_parent())
            }

            /// Whether it is `.`.
            ///
            /// ```
            #[doc = $use]
            ///
            /// assert!(Typed::unix(".").components().next().unwrap().is_current());
            /// ```
            pub fn is_current(&self) -> bool {
                of_either!(self, component => component.is_current())
            }

            /// How many bytes it has.
            ///
            /// ```
            #[doc = $use]
            ///
            /// assert_eq!(Typed::unix("..").components().next().unwrap().len(), 2);
            /// ```
            pub fn len(&self) -> usize {
                of_either!(self, component => component.len())
            }

            /// Whether it has none.
            ///
            /// ```
            #[doc = $use]
            ///
            /// assert!(!Typed::unix("a").components().next().unwrap().is_empty());
            /// ```
            pub fn is_empty(&self) -> bool {
                self.len() == 0
            }
        }

        impl AsRef<[u8]> for $Component<'_> {
            fn as_ref(&self) -> &[u8] {
                of_either!(self, component => component.as_ref())
            }
        }

        /// The slices of the components of a path of either dialect, from both ends. It takes no memory.
        ///
        /// ```
        #[doc = $use]
        ///
        /// let mut slices = Typed::unix("/a/b").iter();
        /// assert_eq!(slices.next_back(), Some("b".as_ref()));
        /// ```
        #[derive(Clone)]
        pub enum $Iter<'a> {
            /// Those of a path of Unix.
            Unix($OneIter<'a, $UnixEncoding>),
            /// Those of a path of Windows.
            Windows($OneIter<'a, $WindowsEncoding>),
        }

        impl $Iter<'_> {
            /// The path of the slice left.
            ///
            /// ```
            #[doc = $use]
            ///
            /// let mut slices = Typed::unix("a/b").iter();
            /// slices.next();
            /// assert_eq!(slices.to_path(), Typed::unix("b"));
            /// ```
            pub fn to_path(&self) -> $Path<'_> {
                as_either!(self, $Path, slices => slices.as_path())
            }

            /// The slice left.
            ///
            /// ```
            #[doc = $use]
            ///
            /// let slices = Typed::unix("a/b").iter();
            #[doc = concat!("assert_eq!(slices.", stringify!($as_slice), "(), AsRef::<", stringify!($Slice), ">::as_ref(\"a/b\"));")]
            /// ```
            pub fn $as_slice(&self) -> &$Slice {
                of_either!(self, slices => slices.as_path().$as_slice())
            }
        }

        impl fmt::Debug for $Iter<'_> {
            fn fmt(&self, f: &mut fmt::Formatter<'_>) -> fmt::Result {
                debug_items(f, stringify!($Iter), || self.to_path().iter())
            }
        }

        impl AsRef<[u8]> for $Iter<'_> {
            fn as_ref(&self) -> &[u8] {
                self.$as_slice().as_ref()
            }
        }

        impl<'a> Iterator for $Iter<'a> {
            type Item = &'a $Slice;

            #[inline]
            fn next(&mut self) -> Option<Self::Item> {
                of_either!(self, slices => slices.next())
            }
        }

        impl DoubleEndedIterator for $Iter<'_> {
            #[inline]
            fn next_back(&mut self) -> Option<Self::Item> {
                of_either!(self, slices => slices.next_back())
            }
        }

        impl FusedIterator for $Iter<'_> {}

        /// A path of either dialect, its parent, the parent of that, and so on.
        ///
        /// ```
        #[doc = $use]
        ///
        /// assert_eq!(Typed::unix("/a/b").ancestors().last(), Some(Typed::unix("/")));
        /// ```
        #[derive(Copy, Clone, Debug)]
        pub enum $Ancestors<'a> {
            /// Those of a path of Unix.
            Unix($OneAncestors<'a, $UnixEncoding>),
            /// Those of a path of Windows.
            Windows($OneAncestors<'a, $WindowsEncoding>),
        }

        impl<'a> Iterator for $Ancestors<'a> {
            type Item = $Path<'a>;

            #[inline]
            fn next(&mut self) -> Option<$Path<'a>> {
                match self {
                    Self::Unix(ancestors) => ancestors.next().map($Path::Unix),
                    Self::Windows(ancestors) => ancestors.next().map($Path::Windows),
                }
            }
        }

        impl FusedIterator for $Ancestors<'_> {}
    };
}

/// What a path of either dialect becomes where it is of one.
macro_rules! of_one_dialect {
    ($Path:ident, $PathBuf:ident, $variant:ident: $One:ident, $OneBuf:ident) => {
        impl TryFrom<$PathBuf> for $OneBuf {
            type Error = $PathBuf;

            fn try_from(path: $PathBuf) -> Result<Self, $PathBuf> {
                match path {
                    $PathBuf::$variant(path) => Ok(path),
                    path => Err(path),
                }
            }
        }

        impl TryAsRef<$One> for $Path<'_> {
            fn try_as_ref(&self) -> Option<&$One> {
                match self {
                    Self::$variant(path) => Some(path),
                    _ => None,
                }
            }
        }
    };
}

/// What borrowed and owned paths are asked alike. `$make` is how an example makes one of Unix.
macro_rules! asked {
    (
        [$($lt:lifetime)?] $Own:ty, $Path:ident, $PathBuf:ident, $Unix:ident $UnixEncoding:ident,
        $Windows:ident $WindowsEncoding:ident, $Slice:ty, $as_slice:ident, $make:literal, $use:literal
    ) => {
        /// What both are asked.
        impl$(<$lt>)? $Own {
            /// The slice of the path.
            ///
            /// ```
            #[doc = $use]
            ///
            #[doc = concat!("let path = ", $make, "(\"a/b\");")]
            #[doc = concat!("assert_eq!(path.", stringify!($as_slice), "(), AsRef::<", stringify!($Slice), ">::as_ref(\"a/b\"));")]
            /// ```
            #[inline]
            pub fn $as_slice(&self) -> &$Slice {
                of_either!(self, path => path.$as_slice())
            }

            plain! {
                $make, $use,
                "Whether it leads to one place from every directory.",
                "assert!(path(\"/a\").is_absolute());",
                is_absolute -> bool;
                "Whether it is not [absolute](Self::is_absolute).",
                "assert!(path(\"a\").is_relative());",
                is_relative -> bool;
                "Whether it begins with a root, written or implied by a prefix.",
                "assert!(path(\"/a\").has_root());",
                has_root -> bool;
                "Whether each name of it is allowed ([`is_valid`](crate::Path::is_valid)).",
                "assert!(!path(\"a\\0\").is_valid());",
                is_valid -> bool;
                "Whether every system takes each component of it as it is written.",
                "assert!(!path(\"a:b\").is_portable());",
                is_portable -> bool;
                "Whether some version of Windows may take a name of it for a device \
                 ([`may_be_device`](crate::Path::may_be_device)).",
                "assert!(path(\"nul .txt\").may_be_device());",
                may_be_device -> bool;
                "Whether every path that a checked join accepts keeps the prefix of this one \
                 ([`keeps_prefix`](crate::Path::keeps_prefix)).",
                "assert!(path(\"/\").keeps_prefix());",
                keeps_prefix -> bool;
                "The last component, if it is a name.",
                "assert_eq!(path(\"/a/b.txt\").file_name(), Some(\"b.txt\".as_ref()));",
                file_name -> Option<&$Slice>;
                "The file name up to its last dot; a dot at the front is part of it.",
                "assert_eq!(path(\"a.tar.gz\").file_stem(), Some(\"a.tar\".as_ref()));",
                file_stem -> Option<&$Slice>;
                "The file name up to its first dot; a dot at the front is part of it.",
                "assert_eq!(path(\"a.tar.gz\").file_prefix(), Some(\"a\".as_ref()));",
                file_prefix -> Option<&$Slice>;
                "What stands behind the last dot of the file name, where that is not its first byte.",
                "assert_eq!(path(\"a.tar.gz\").extension(), Some(\"gz\".as_ref()));",
                extension -> Option<&$Slice>;
                "The key of the path: one value for equal paths, and another for every other.",
                "assert_eq!(path(\"a//b\").key(), path(\"a/./b\").key());",
                key -> Key;
            }

            /// What a checked join refuses it for, whatever it is joined to.
            ///
            /// # Errors
            ///
            /// What the first component that offends is refused for.
            ///
            /// ```
            #[doc = $use]
            ///
            #[doc = concat!("assert!(", $make, "(\"..\").check().is_err());")]
            /// ```
            #[inline]
            pub fn check(&self) -> Result<(), CheckedPathError> {
                of_either!(self, path => path.check())
            }

            /// Whether every system takes each component of it as it is written, with the reason
            /// ([`check_portable`](crate::Path::check_portable)).
            ///
            /// # Errors
            ///
            /// What the first component that offends does.
            ///
            /// ```
            #[doc = $use]
            ///
            #[doc = concat!("assert!(", $make, "(\"a:b\").check_portable().is_err());")]
            /// ```
            #[inline]
            pub fn check_portable(&self) -> Result<(), PortableError> {
                of_either!(self, path => path.check_portable())
            }

            /// What is left behind the base, which is read in the same dialect.
            ///
            /// # Errors
            ///
            /// The path does not begin with the components of the base.
            ///
            /// ```
            #[doc = $use]
            ///
            #[doc = concat!("assert_eq!(", $make, "(\"/srv/a\").strip_prefix(\"/srv\"), Ok(Typed::unix(\"a\")));")]
            /// ```
            #[inline]
            pub fn strip_prefix(&self, base: impl AsRef<$Slice>) -> Result<$Path<'_>, StripPrefixError> {
                Ok(match self {
                    Self::Unix(path) => $Path::Unix(path.strip_prefix($Unix::new(&base))?),
                    Self::Windows(path) => $Path::Windows(path.strip_prefix($Windows::new(&base))?),
                })
            }

            /// The front of the path up to where the components end with which the other begins too.
            ///
            /// ```
            #[doc = $use]
            ///
            #[doc = concat!("assert_eq!(", $make, "(\"/a/b\").common_ancestor(\"/a/c\"), Some(Typed::unix(\"/a\")));")]
            /// ```
            #[inline]
            pub fn common_ancestor(&self, other: impl AsRef<$Slice>) -> Option<$Path<'_>> {
                match self {
                    Self::Unix(path) => path.common_ancestor($Unix::new(&other)).map($Path::Unix),
                    Self::Windows(path) => path.common_ancestor($Windows::new(&other)).map($Path::Windows),
                }
            }

            /// The path of a verbatim drive of Windows without its `\\?\`, where that means the same to Windows;
            /// else the path itself.
            ///
            /// ```
            #[doc = $use]
            ///
            #[doc = concat!("assert_eq!(", $make, "(\"/a\").simplified(), Typed::unix(\"/a\"));")]
            /// ```
            #[inline]
            pub fn simplified(&self) -> $Path<'_> {
                as_either!(self, $Path, path => path.simplified())
            }

            /// Whether it begins with the components of the base, as they are written. It is no check of where the
            /// path leads: ask [`is_within`](Self::is_within).
            ///
            /// ```
            #[doc = $use]
            ///
            #[doc = concat!("assert!(", $make, "(\"/srv/a\").starts_with(\"/srv\"));")]
            /// ```
            #[inline]
            pub fn starts_with(&self, base: impl AsRef<$Slice>) -> bool {
                match self {
                    Self::Unix(path) => path.starts_with($Unix::new(&base)),
                    Self::Windows(path) => path.starts_with($Windows::new(&base)),
                }
            }

            /// Whether it ends with the components of another, as they are written.
            ///
            /// ```
            #[doc = $use]
            ///
            #[doc = concat!("assert!(", $make, "(\"/srv/a\").ends_with(\"a\"));")]
            /// ```
            #[inline]
            pub fn ends_with(&self, child: impl AsRef<$Slice>) -> bool {
                match self {
                    Self::Unix(path) => path.ends_with($Unix::new(&child)),
                    Self::Windows(path) => path.ends_with($Windows::new(&child)),
                }
            }

            /// Whether it lies at the base or below it, whatever directory both are read from
            /// ([`is_within`](crate::Path::is_within)).
            ///
            /// ```
            #[doc = $use]
            ///
            #[doc = concat!("assert!(!", $make, "(\"/srv/../etc\").is_within(\"/srv\"));")]
            /// ```
            #[inline]
            pub fn is_within(&self, base: impl AsRef<$Slice>) -> bool {
                match self {
                    Self::Unix(path) => path.is_within($Unix::new(&base)),
                    Self::Windows(path) => path.is_within($Windows::new(&base)),
                }
            }

            /// Whether it begins with the components of the base, as they are written in lower case
            /// ([`starts_with_ignore_ascii_case`](crate::Path::starts_with_ignore_ascii_case)).
            ///
            /// ```
            #[doc = $use]
            ///
            #[doc = concat!("assert!(", $make, "(\"/Srv/a\").starts_with_ignore_ascii_case(\"/srv\"));")]
            /// ```
            #[inline]
            pub fn starts_with_ignore_ascii_case(&self, base: impl AsRef<$Slice>) -> bool {
                match self {
                    Self::Unix(path) => path.starts_with_ignore_ascii_case($Unix::new(&base)),
                    Self::Windows(path) => path.starts_with_ignore_ascii_case($Windows::new(&base)),
                }
            }

            joins! {
                $PathBuf, $Unix, $Windows, $Slice, $make, $use,
                "The path with another of the same dialect pushed onto it ([`join`](crate::Path::join)).",
                join -> $PathBuf, try_join -> OutOfMemory,
            }

            checked_joins! {
                $PathBuf, $Unix, $Windows, $Slice, $make, $use,
                "The path with another pushed onto it that has no component which offends: what is returned lies \
                 within this path ([`join_checked`](crate::Path::join_checked)).",
                join_checked, try_join_checked -> CheckedPathError;
                "The same of a path that is portable too ([`join_portable`](crate::Path::join_portable)).",
                join_portable, try_join_portable -> JoinError;
                "The [clean path](Self::clean) of a [checked join](Self::join_checked).",
                resolve_checked, try_resolve_checked -> CheckedPathError;
            }

            /// The path that leads from the base to this one; `.` where both lead alike, and none where there is
            /// none ([`relative_to`](crate::Path::relative_to)).
            ///
            /// ```
            #[doc = $use]
            ///
            #[doc = concat!("assert_eq!(", $make, "(\"/a/c\").relative_to(\"/a/b\"), Some(TypedBuf::from_unix(\"../c\")));")]
            /// ```
            #[inline]
            pub fn relative_to(&self, base: impl AsRef<$Slice>) -> Option<$PathBuf> {
                match self {
                    Self::Unix(path) => path.relative_to($Unix::new(&base)).map($PathBuf::Unix),
                    Self::Windows(path) => path.relative_to($Windows::new(&base)).map($PathBuf::Windows),
                }
            }

            /// [`relative_to`](Self::relative_to); refused memory is an answer.
            ///
            /// # Errors
            ///
            /// Memory was refused, and there is such a path.
            ///
            /// ```
            #[doc = $use]
            ///
            #[doc = concat!("assert!(", $make, "(\"/a\").try_relative_to(\"/b\").unwrap().is_some());")]
            /// ```
            #[inline]
            pub fn try_relative_to(&self, base: impl AsRef<$Slice>) -> Result<Option<$PathBuf>, OutOfMemory> {
                Ok(match self {
                    Self::Unix(path) => path.try_relative_to($Unix::new(&base))?.map($PathBuf::Unix),
                    Self::Windows(path) => path.try_relative_to($Windows::new(&base))?.map($PathBuf::Windows),
                })
            }

            made! {
                $PathBuf, $make, $use,
                "The path without `.`, and without `..` and the names that these take away \
                 ([`normalize`](crate::Path::normalize)).",
                "assert_eq!(path(\"a/./b/..\").normalize(), path(\"a\"));",
                normalize = try_normalize ();
                "The path without `.`, doubled separators, and names that a `..` takes away \
                 ([`clean`](crate::Path::clean)).",
                "assert_eq!(path(\"../a//b\").clean(), path(\"../a/b\"));",
                clean = try_clean ();
                "The path in lower case ([`to_ascii_lowercase`](crate::Path::to_ascii_lowercase)).",
                "assert_eq!(path(\"A\").to_ascii_lowercase(), path(\"a\"));",
                to_ascii_lowercase = try_to_ascii_lowercase ();
                "The path with another file name ([`with_file_name`](crate::Path::with_file_name)).",
                "assert_eq!(path(\"/a/b\").with_file_name(\"c\"), path(\"/a/c\"));",
                with_file_name = try_with_file_name (file_name: $Slice);
                "The path with another extension ([`with_extension`](crate::Path::with_extension)).",
                "assert_eq!(path(\"a.txt\").with_extension(\"md\"), path(\"a.md\"));",
                with_extension = try_with_extension (extension: $Slice);
                "The path with one extension more ([`with_added_extension`](crate::Path::with_added_extension)).",
                "assert_eq!(path(\"a.tar\").with_added_extension(\"gz\"), path(\"a.tar.gz\"));",
                with_added_extension = try_with_added_extension (extension: $Slice);
            }

            /// The normal path, read from the directory that the process works in where it is not absolute.
            ///
            /// # Errors
            ///
            /// The directory could not be had, or the path is not absolute behind it either.
            ///
            /// ```
            #[doc = $use]
            ///
            #[doc = concat!("assert_eq!(", $make, "(\"/a/..\").absolutize()?, Typed::unix(\"/\"));")]
            /// # Ok::<(), std::io::Error>(())
            /// ```
            #[cfg(feature = "std")]
            pub fn absolutize(&self) -> std::io::Result<$PathBuf> {
                Ok(as_either!(self, $PathBuf, path => path.absolutize()?))
            }

            /// Whether it is of Unix.
            ///
            /// ```
            #[doc = $use]
            ///
            #[doc = concat!("assert!(", $make, "(\"a\").is_unix());")]
            /// ```
            #[inline]
            pub fn is_unix(&self) -> bool {
                matches!(self, Self::Unix(_))
            }

            /// Whether it is of Windows.
            ///
            /// ```
            #[doc = $use]
            ///
            #[doc = concat!("assert!(!", $make, "(\"a\").is_windows());")]
            /// ```
            #[inline]
            pub fn is_windows(&self) -> bool {
                matches!(self, Self::Windows(_))
            }

            turned! {
                $PathBuf, $make, $use,
                "Unix", Unix $UnixEncoding, "/a/b",
                with_unix_encoding try_with_unix_encoding,
                with_unix_encoding_checked try_with_unix_encoding_checked;
                "Windows", Windows $WindowsEncoding, "\\a\\b",
                with_windows_encoding try_with_windows_encoding,
                with_windows_encoding_checked try_with_windows_encoding_checked;
            }
        }

        impl$(<$lt>)? AsRef<$Slice> for $Own {
            #[inline]
            fn as_ref(&self) -> &$Slice {
                self.$as_slice()
            }
        }
    };
}

/// Calls of no parameter, that the path of either dialect answers.
macro_rules! plain {
    ($make:literal, $use:literal, $($says:literal, $example:literal, $name:ident -> $Answer:ty;)*) => {$(
        #[doc = $says]
        ///
        /// ```
        #[doc = $use]
        ///
        #[doc = concat!("let path = |text: &'static str| ", $make, "(text);")]
        #[doc = $example]
        /// ```
        #[inline]
        pub fn $name(&self) -> $Answer {
            of_either!(self, path => path.$name())
        }
    )*};
}

/// The unchecked join, and its twin.
macro_rules! joins {
    (
        $PathBuf:ident, $Unix:ident, $Windows:ident, $Slice:ty, $make:literal, $use:literal,
        $says:literal, $name:ident -> $Answer:ty, $try_name:ident -> $Refused:ty,
    ) => {
        #[doc = $says]
        ///
        /// ```
        #[doc = $use]
        ///
        #[doc = concat!("assert_eq!(", $make, "(\"/srv\").", stringify!($name), "(\"a\"), Typed::unix(\"/srv/a\"));")]
        /// ```
        #[inline]
        pub fn $name(&self, path: impl AsRef<$Slice>) -> $Answer {
            match self {
                Self::Unix(base) => $PathBuf::Unix(base.$name($Unix::new(&path))),
                Self::Windows(base) => $PathBuf::Windows(base.$name($Windows::new(&path))),
            }
        }

        #[doc = concat!("[`", stringify!($name), "`](Self::", stringify!($name), "); refused memory is an answer.")]
        ///
        /// # Errors
        ///
        /// Memory was refused.
        ///
        /// ```
        #[doc = $use]
        ///
        #[doc = concat!("assert!(", $make, "(\"/srv\").", stringify!($try_name), "(\"a\").is_ok());")]
        /// ```
        #[inline]
        pub fn $try_name(&self, path: impl AsRef<$Slice>) -> Result<$PathBuf, $Refused> {
            Ok(match self {
                Self::Unix(base) => $PathBuf::Unix(base.$try_name($Unix::new(&path))?),
                Self::Windows(base) => $PathBuf::Windows(base.$try_name($Windows::new(&path))?),
            })
        }
    };
}

/// Joins that refuse, and their twins.
macro_rules! checked_joins {
    (
        $PathBuf:ident, $Unix:ident, $Windows:ident, $Slice:ty, $make:literal, $use:literal,
        $($says:literal, $name:ident, $try_name:ident -> $Refused:ty;)*
    ) => {$(
        #[doc = $says]
        ///
        /// # Errors
        ///
        /// What the first component that offends is refused for.
        ///
        /// ```
        #[doc = $use]
        ///
        #[doc = concat!("let base = ", $make, "(\"/srv\");")]
        #[doc = concat!("assert_eq!(base.", stringify!($name), "(\"a\").unwrap(), Typed::unix(\"/srv/a\"));")]
        #[doc = concat!("assert!(base.", stringify!($name), "(\"..\").is_err());")]
        /// ```
        #[inline]
        pub fn $name(&self, path: impl AsRef<$Slice>) -> Result<$PathBuf, $Refused> {
            Ok(match self {
                Self::Unix(base) => $PathBuf::Unix(base.$name($Unix::new(&path))?),
                Self::Windows(base) => $PathBuf::Windows(base.$name($Windows::new(&path))?),
            })
        }

        #[doc = concat!("[`", stringify!($name), "`](Self::", stringify!($name), "); refused memory is an answer.")]
        ///
        /// # Errors
        ///
        /// What its twin refuses with, or else memory.
        ///
        /// ```
        #[doc = $use]
        ///
        #[doc = concat!("assert!(", $make, "(\"/srv\").", stringify!($try_name), "(\"a\").is_ok());")]
        /// ```
        #[inline]
        pub fn $try_name(&self, path: impl AsRef<$Slice>) -> Result<$PathBuf, TryError<$Refused>> {
            Ok(match self {
                Self::Unix(base) => $PathBuf::Unix(base.$try_name($Unix::new(&path))?),
                Self::Windows(base) => $PathBuf::Windows(base.$try_name($Windows::new(&path))?),
            })
        }
    )*};
}

/// Calls that make a path of the same dialect, and their twins.
macro_rules! made {
    (
        $PathBuf:ident, $make:literal, $use:literal,
        $($says:literal, $example:literal, $name:ident = $try_name:ident ($($other:ident: $Other:ty)?);)*
    ) => {$(
        #[doc = $says]
        ///
        /// ```
        #[doc = $use]
        ///
        #[doc = concat!("let path = |text: &'static str| ", $make, "(text);")]
        #[doc = $example]
        /// ```
        pub fn $name$(<S: AsRef<$Other>>)?(&self $(, $other: S)?) -> $PathBuf {
            as_either!(self, $PathBuf, path => path.$name($($other)?))
        }

        #[doc = concat!("[`", stringify!($name), "`](Self::", stringify!($name), "); refused memory is an answer.")]
        ///
        /// # Errors
        ///
        /// Memory was refused.
        ///
        /// ```
        #[doc = $use]
        ///
        #[doc = concat!("let path = ", $make, "(\"a.txt\");")]
        #[doc = concat!("assert!(path.", stringify!($try_name), "(", $("\"", stringify!($other), "\"",)? ").is_ok());")]
        /// ```
        pub fn $try_name$(<S: AsRef<$Other>>)?(&self $(, $other: S)?) -> Result<$PathBuf, OutOfMemory> {
            Ok(as_either!(self, $PathBuf, path => path.$try_name($($other)?)?))
        }
    )*};
}

/// The path as it is written in one dialect.
macro_rules! turned {
    (
        $PathBuf:ident, $make:literal, $use:literal,
        $(
            $dialect:literal, $Dialect:ident $Encoding:ident, $turned:literal,
            $name:ident $try_name:ident, $checked:ident $try_checked:ident;
        )*
    ) => {$(
        #[doc = concat!("The path as it is written on ", $dialect, "; a copy where it is of that dialect.")]
        ///
        /// ```
        #[doc = $use]
        ///
        #[doc = concat!("let path = ", $make, "(\"/a/b\").", stringify!($name), "();")]
        #[doc = concat!("assert_eq!(AsRef::<[u8]>::as_ref(&path), br\"", $turned, "\");")]
        /// ```
        pub fn $name(&self) -> $PathBuf {
            $PathBuf::$Dialect(of_either!(self, path => path.$name()))
        }

        #[doc = concat!("[`", stringify!($name), "`](Self::", stringify!($name), "); refused memory is an answer.")]
        ///
        /// # Errors
        ///
        /// Memory was refused.
        ///
        /// ```
        #[doc = $use]
        ///
        #[doc = concat!("assert!(", $make, "(\"a\").", stringify!($try_name), "().is_ok());")]
        /// ```
        pub fn $try_name(&self) -> Result<$PathBuf, OutOfMemory> {
            Ok($PathBuf::$Dialect(of_either!(self, path => path.try_with_encoding::<$Encoding>()?)))
        }

        #[doc = concat!("The path as it is written on ", $dialect, ", by checked pushes, in its own dialect too.")]
        ///
        /// # Errors
        ///
        /// What the first component that offends there is refused for.
        ///
        /// ```
        #[doc = $use]
        ///
        #[doc = concat!("assert!(", $make, "(\"a\\0\").", stringify!($checked), "().is_err());")]
        /// ```
        pub fn $checked(&self) -> Result<$PathBuf, CheckedPathError> {
            Ok($PathBuf::$Dialect(of_either!(self, path => path.$checked()?)))
        }

        #[doc = concat!("[`", stringify!($checked), "`](Self::", stringify!($checked), "); refused memory is an answer.")]
        ///
        /// # Errors
        ///
        /// What its twin refuses with, or memory, whichever is met first.
        ///
        /// ```
        #[doc = $use]
        ///
        #[doc = concat!("assert!(", $make, "(\"a\").", stringify!($try_checked), "().is_ok());")]
        /// ```
        pub fn $try_checked(&self) -> Result<$PathBuf, TryError<CheckedPathError>> {
            Ok($PathBuf::$Dialect(of_either!(self, path => path.try_with_encoding_checked::<$Encoding>()?)))
        }
    )*};
}

typed!(
    TypedPath TypedPathBuf TypedComponents TypedComponent TypedIter TypedAncestors,
    UnixPath UnixPathBuf UnixComponents UnixComponent UnixEncoding,
    WindowsPath WindowsPathBuf WindowsComponents WindowsComponent WindowsEncoding,
    Iter Ancestors,
    [u8], Vec<u8>, as_bytes into_vec as_normal_bytes,
    "use typed_path::{TypedPath as Typed, TypedPathBuf as TypedBuf};"
);
typed!(
    Utf8TypedPath Utf8TypedPathBuf Utf8TypedComponents Utf8TypedComponent Utf8TypedIter Utf8TypedAncestors,
    Utf8UnixPath Utf8UnixPathBuf Utf8UnixComponents Utf8UnixComponent Utf8UnixEncoding,
    Utf8WindowsPath Utf8WindowsPathBuf Utf8WindowsComponents Utf8WindowsComponent Utf8WindowsEncoding,
    Utf8Iter Utf8Ancestors,
    str, String, as_str into_string as_normal_str,
    "use typed_path::{Utf8TypedPath as Typed, Utf8TypedPathBuf as TypedBuf};"
);

// Those of bytes alone.

impl TypedPath<'_> {
    /// The path, to be printed as [`to_string_lossy`](Self::to_string_lossy).
    ///
    /// ```
    /// use typed_path::TypedPath;
    ///
    /// assert_eq!(TypedPath::unix("/a").display().to_string(), "/a");
    /// ```
    #[inline]
    pub fn display(&self) -> impl fmt::Display + '_ {
        struct Shown<'a>(&'a TypedPath<'a>);

        impl fmt::Display for Shown<'_> {
            fn fmt(&self, f: &mut fmt::Formatter<'_>) -> fmt::Result {
                match self.0 {
                    TypedPath::Unix(path) => fmt::Display::fmt(path, f),
                    TypedPath::Windows(path) => fmt::Display::fmt(path, f),
                }
            }
        }

        Shown(self)
    }
}

macro_rules! as_text {
    ($([$($lt:lifetime)?] $Own:ty, $make:literal),*) => {$(
        impl$(<$lt>)? $Own {
            /// The path as text, if it is UTF-8.
            ///
            /// ```
            #[doc = concat!("let path = typed_path::", $make, "(b\"/a\");")]
            /// assert_eq!(path.to_str(), Some("/a"));
            /// ```
            #[inline]
            pub fn to_str(&self) -> Option<&str> {
                of_either!(self, path => path.to_str())
            }

            /// The path as text, in which U+FFFD stands for what is not UTF-8.
            ///
            /// ```
            #[doc = concat!("let path = typed_path::", $make, "(b\"a\\xFF\");")]
            /// assert_eq!(path.to_string_lossy(), "a\u{FFFD}");
            /// ```
            #[inline]
            pub fn to_string_lossy(&self) -> Cow<'_, str> {
                of_either!(self, path => path.to_string_lossy())
            }
        }
    )*};
}

as_text!(['a] TypedPath<'a>, "TypedPath::unix", [] TypedPathBuf, "TypedPathBuf::from_unix");

impl<'a> From<&'a [u8]> for TypedPath<'a> {
    #[inline]
    fn from(s: &'a [u8]) -> Self {
        TypedPath::derive(s)
    }
}

impl<'a> From<&'a [u8]> for TypedPathBuf {
    #[inline]
    fn from(s: &'a [u8]) -> Self {
        TypedPath::derive(s).to_path_buf()
    }
}

impl<'a, const N: usize> From<&'a [u8; N]> for TypedPathBuf {
    #[inline]
    fn from(s: &'a [u8; N]) -> Self {
        TypedPath::derive(s).to_path_buf()
    }
}

impl From<Vec<u8>> for TypedPathBuf {
    #[inline]
    fn from(s: Vec<u8>) -> Self {
        match ffi::derive(&s) {
            ffi::WINDOWS => Self::Windows(s.into()),
            _ => Self::Unix(s.into()),
        }
    }
}

#[cfg(feature = "std")]
impl TryFrom<TypedPathBuf> for std::path::PathBuf {
    type Error = TypedPathBuf;

    /// The path of std, if it is of this machine's dialect.
    fn try_from(path: TypedPathBuf) -> Result<Self, TypedPathBuf> {
        match path {
            TypedPathBuf::Unix(path) => path.try_into().map_err(TypedPathBuf::Unix),
            path => Err(path),
        }
    }
}

// Those of text alone.

shows_text!(Utf8TypedPath<'_>, Utf8TypedPathBuf, Utf8TypedComponent<'_>);
lends_text!(Utf8TypedComponents<'_>, Utf8TypedComponent<'_>, Utf8TypedIter<'_>);

impl AsRef<[u8]> for Utf8TypedPathBuf {
    fn as_ref(&self) -> &[u8] {
        self.as_str().as_bytes()
    }
}

/// A path of text is equal to a text by its exact text.
macro_rules! same_text {
    ($($Own:ty),*) => {$(
        impl PartialEq<str> for $Own {
            fn eq(&self, text: &str) -> bool {
                self.as_str() == text
            }
        }

        impl PartialEq<$Own> for str {
            fn eq(&self, path: &$Own) -> bool {
                self == path.as_str()
            }
        }

        impl<'t> PartialEq<&'t str> for $Own {
            fn eq(&self, text: &&'t str) -> bool {
                self.as_str() == *text
            }
        }

        impl PartialEq<$Own> for &str {
            fn eq(&self, path: &$Own) -> bool {
                *self == path.as_str()
            }
        }
    )*};
}

same_text!(Utf8TypedPath<'_>, Utf8TypedPathBuf);
