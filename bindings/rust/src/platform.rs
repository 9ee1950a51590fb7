//! The dialect of this machine, as a type of its own: one that no conversion mistakes for that of every Unix.

use alloc::string::String;
use alloc::vec::Vec;
use core::any::TypeId;
use core::hash::Hasher;

use crate::encoding::*;
use crate::errors::CheckedPathError;
use crate::native::{NativeEncoding, Utf8NativeEncoding};
use crate::private::{Dialect, Sealed};
use crate::{Path, PathBuf, Utf8Path, Utf8PathBuf};

/// A path of this machine, borrowed.
pub type PlatformPath = Path<PlatformEncoding>;
/// A path of this machine, owned.
pub type PlatformPathBuf = PathBuf<PlatformEncoding>;
/// A path of this machine that is text, borrowed.
pub type Utf8PlatformPath = Utf8Path<Utf8PlatformEncoding>;
/// A path of this machine that is text, owned.
pub type Utf8PlatformPathBuf = Utf8PathBuf<Utf8PlatformEncoding>;

macro_rules! platform {
    (
        $Own:ident, $name:literal, $path:literal, $Native:ident, $Encoding:ident, $Path:ident, $PathBuf:ident,
        $Slice:ty, $Owned:ty
    ) => {
        #[doc = concat!("The dialect of a [`", $path, "`].")]
        ///
        /// ```
        #[doc = concat!("use typed_path::{", $name, ", ", stringify!($Encoding), "};")]
        ///
        #[doc = concat!("assert_eq!(", $name, "::label(), \"unix\");")]
        /// ```
        #[derive(Copy, Clone)]
        pub struct $Own;

        impl Sealed for $Own {}

        impl Dialect for $Own {
            const DIALECT: u32 = $Native::DIALECT;
        }

        impl $Encoding for $Own {
            type Components<'a> = <$Native as $Encoding>::Components<'a>;

            fn label() -> &'static str {
                $Native::label()
            }

            #[inline]
            fn components(path: &$Slice) -> Self::Components<'_> {
                <$Native as $Encoding>::components(path)
            }

            #[inline]
            fn hash<H: Hasher>(path: &$Slice, h: &mut H) {
                <$Native as $Encoding>::hash(path, h)
            }

            #[inline]
            fn push(current_path: &mut $Owned, path: &$Slice) {
                <$Native as $Encoding>::push(current_path, path)
            }

            #[inline]
            fn push_checked(current_path: &mut $Owned, path: &$Slice) -> Result<(), CheckedPathError> {
                <$Native as $Encoding>::push_checked(current_path, path)
            }
        }

        impl core::fmt::Debug for $Own {
            fn fmt(&self, f: &mut core::fmt::Formatter<'_>) -> core::fmt::Result {
                f.write_str($name)
            }
        }

        impl core::fmt::Display for $Own {
            fn fmt(&self, f: &mut core::fmt::Formatter<'_>) -> core::fmt::Result {
                f.pad($name)
            }
        }

        /// The dialect of this machine.
        impl<T: $Encoding> $Path<T> {
            #[doc = concat!("Whether the dialect is `", $name, "` itself.")]
            ///
            /// ```
            #[doc = concat!("use typed_path::{", $path, ", ", stringify!($Path), ", ", stringify!($Native), "};")]
            ///
            #[doc = concat!("assert!(", $path, "::new(\"a\").has_platform_encoding());")]
            #[doc = concat!("assert!(!", stringify!($Path), "::<", stringify!($Native), ">::new(\"a\").has_platform_encoding());")]
            /// ```
            pub fn has_platform_encoding(&self) -> bool
            where
                T: 'static,
            {
                TypeId::of::<T>() == TypeId::of::<$Own>()
            }

            /// The path as this machine writes it ([`with_encoding`](Self::with_encoding)).
            ///
            /// ```
            #[doc = concat!("use typed_path::{", $path, ", ", stringify!($Path), ", Utf8WindowsPath, WindowsPath};")]
            ///
            #[doc = concat!("let path = ", stringify!($Path), "::<typed_path::", stringify!($Native), ">::new(\"a/b\");")]
            #[doc = concat!("assert_eq!(path.with_platform_encoding(), ", $path, "::new(\"a/b\"));")]
            /// ```
            pub fn with_platform_encoding(&self) -> $PathBuf<$Own> {
                self.with_encoding()
            }

            /// The same by checked pushes ([`with_encoding_checked`](Self::with_encoding_checked)).
            ///
            /// # Errors
            ///
            /// What the first component that offends is refused for.
            ///
            /// ```
            #[doc = concat!("use typed_path::", stringify!($Path), ";")]
            ///
            #[doc = concat!("let path = ", stringify!($Path), "::<typed_path::", stringify!($Native), ">::new(\"a\\0/b\");")]
            /// assert!(path.with_platform_encoding_checked().is_err());
            /// ```
            pub fn with_platform_encoding_checked(&self) -> Result<$PathBuf<$Own>, CheckedPathError> {
                self.with_encoding_checked()
            }
        }
    };
}

platform!(
    PlatformEncoding,
    "PlatformEncoding",
    "PlatformPath",
    NativeEncoding,
    Encoding,
    Path,
    PathBuf,
    [u8],
    Vec<u8>
);
platform!(
    Utf8PlatformEncoding,
    "Utf8PlatformEncoding",
    "Utf8PlatformPath",
    Utf8NativeEncoding,
    Utf8Encoding,
    Utf8Path,
    Utf8PathBuf,
    str,
    String
);

#[cfg(feature = "std")]
mod of_std {
    use super::*;

    impl AsRef<std::path::Path> for Utf8PlatformPath {
        fn as_ref(&self) -> &std::path::Path {
            self.as_str().as_ref()
        }
    }

    impl AsRef<std::path::Path> for Utf8PlatformPathBuf {
        fn as_ref(&self) -> &std::path::Path {
            self.as_str().as_ref()
        }
    }

    impl From<Utf8PlatformPathBuf> for std::path::PathBuf {
        fn from(path: Utf8PlatformPathBuf) -> std::path::PathBuf {
            path.into_string().into()
        }
    }
}
