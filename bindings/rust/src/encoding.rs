//! The traits of encodings, of their iterators and of components.

use alloc::string::String;
use alloc::vec::Vec;
use core::fmt::Debug;
use core::hash::Hasher;
use core::iter::FusedIterator;

use crate::errors::CheckedPathError;
use crate::private::{Dialect, Sealed};

macro_rules! traits {
    (
        $Encoding:ident, $Components:ident, $Component:ident, $Slice:ty, $Owned:ty, $as_slice:ident,
        $encoding:literal, $components:literal, $path:literal
    ) => {
        /// A dialect of paths. Only this crate implements it.
        ///
        /// ```
        #[doc = concat!("use typed_path::{", $encoding, ", ", stringify!($Components), ", ", stringify!($Encoding), "};")]
        ///
        #[doc = concat!("assert_eq!(", $encoding, "::label(), \"unix\");")]
        #[doc = concat!("assert!(", $encoding, "::components(\"/a\".as_ref()).is_absolute());")]
        /// let mut path = "/srv".into();
        #[doc = concat!($encoding, "::push(&mut path, \"a\".as_ref());")]
        #[doc = concat!("assert!(", $encoding, "::push_checked(&mut path, \"../..\".as_ref()).is_err());")]
        /// assert_eq!(AsRef::<[u8]>::as_ref(&path), b"/srv/a");
        /// ```
        pub trait $Encoding: Dialect {
            /// The iterator over the components of a path.
            type Components<'a>: $Components<'a>;

            /// `unix` or `windows`.
            fn label() -> &'static str;

            /// The components of a path, from both ends.
            fn components(path: &$Slice) -> Self::Components<'_>;

            /// Feeds a path to a hasher: equal paths alike, and no others.
            fn hash<H: Hasher>(path: &$Slice, h: &mut H);

            /// Pushes a path onto another, as [`push`](crate::PathBuf::push).
            fn push(current_path: &mut $Owned, path: &$Slice);

            /// The same where no component of it offends, as [`push_checked`](crate::PathBuf::push_checked).
            ///
            /// # Errors
            ///
            /// What the first component that offends is refused for; the current path is as it was.
            fn push_checked(current_path: &mut $Owned, path: &$Slice) -> Result<(), CheckedPathError>;
        }

        /// An iterator over the components of a path, from both ends. It takes no memory.
        pub trait $Components<'a>:
            AsRef<$Slice>
            + Clone
            + Debug
            + PartialEq
            + Eq
            + PartialOrd
            + Ord
            + Iterator<Item = Self::Component>
            + DoubleEndedIterator<Item = Self::Component>
            + FusedIterator
            + Sealed
            + Sized
        {
            /// What it gives.
            type Component: $Component<'a>;

            /// The slice left: from the start of the first component left, once one was taken from the front, to
            /// the end of the last one left, once one was taken from the back.
            fn $as_slice(&self) -> &'a $Slice;

            /// Whether the components left lead to one place from every directory.
            fn is_absolute(&self) -> bool;

            /// Whether the components left begin with a root, written or implied by a prefix.
            fn has_root(&self) -> bool;
        }

        /// A component of a path.
        pub trait $Component<'a>:
            AsRef<$Slice> + Clone + Debug + PartialEq + Eq + PartialOrd + Ord + Sealed
        {
            /// How it is written.
            fn $as_slice(&self) -> &'a $Slice;

            /// Whether it is a root, or a prefix but that of a drive.
            fn is_root(&self) -> bool;

            /// Whether it is a name.
            fn is_normal(&self) -> bool;

            /// Whether it is `..`.
            fn is_parent(&self) -> bool;

            /// Whether it is `.`.
            fn is_current(&self) -> bool;

            /// Whether it is no name, or one that the dialect allows.
            fn is_valid(&self) -> bool;

            /// How many bytes it has.
            fn len(&self) -> usize;

            /// Whether it has none.
            fn is_empty(&self) -> bool {
                self.len() == 0
            }

            /// A root.
            fn root() -> Self;

            /// A `..`.
            fn parent() -> Self;

            /// A `.`.
            fn current() -> Self;
        }
    };
}

traits!(
    Encoding,
    Components,
    Component,
    [u8],
    Vec<u8>,
    as_bytes,
    "UnixEncoding",
    "UnixComponents",
    "UnixPath"
);
traits!(
    Utf8Encoding,
    Utf8Components,
    Utf8Component,
    str,
    String,
    as_str,
    "Utf8UnixEncoding",
    "Utf8UnixComponents",
    "Utf8UnixPath"
);
