//! Paths of Unix.

use alloc::string::String;
use alloc::vec::Vec;
use core::str::Utf8Error;

use crate::casts::{change_bytes, change_text};
use crate::components::{
    component, encoding, from_arrays_and_text, lends_text, of_dialect, reading, shows_text,
};
use crate::constants::unix::{CURRENT_DIR, CURRENT_DIR_STR, PARENT_DIR, PARENT_DIR_STR, SEPARATOR_STR};
use crate::encoding::*;
use crate::ffi::{Taken, UNIX, kind};
use crate::{Path, PathBuf, Utf8Path, Utf8PathBuf};

/// A path of Unix, borrowed.
pub type UnixPath = Path<UnixEncoding>;
/// A path of Unix, owned.
pub type UnixPathBuf = PathBuf<UnixEncoding>;
/// A path of Unix that is text, borrowed.
pub type Utf8UnixPath = Utf8Path<Utf8UnixEncoding>;
/// A path of Unix that is text, owned.
pub type Utf8UnixPathBuf = Utf8PathBuf<Utf8UnixEncoding>;

encoding!(
    UnixEncoding,
    "UnixEncoding",
    "unix",
    UNIX,
    UnixComponents,
    "UnixPath",
    Encoding,
    [u8],
    Vec<u8>,
    change_bytes
);
encoding!(
    Utf8UnixEncoding,
    "Utf8UnixEncoding",
    "unix",
    UNIX,
    Utf8UnixComponents,
    "Utf8UnixPath",
    Utf8Encoding,
    str,
    String,
    change_text
);

reading!(
    UnixComponents gives UnixComponent, "UnixComponents", "UnixPath", UNIX,
    [u8], as_bytes, Path, Encoding, Components
);
reading!(
    Utf8UnixComponents gives Utf8UnixComponent, "Utf8UnixComponents", "Utf8UnixPath", UNIX,
    str, as_str, Utf8Path, Utf8Encoding, Utf8Components
);

macro_rules! unix_component {
    ($Name:ident, $name:literal, $path:literal, $Slice:ty) => {
        /// A component of a path of Unix.
        ///
        /// ```
        #[doc = concat!("use typed_path::{", $name, " as Component, ", $path, "};")]
        ///
        #[doc = concat!("let mut components = ", $path, "::new(\"/etc/..\").components();")]
        /// assert_eq!(components.next(), Some(Component::RootDir));
        /// assert_eq!(components.next(), Some(Component::Normal("etc".as_ref())));
        /// assert_eq!(components.next(), Some(Component::ParentDir));
        /// ```
        #[derive(Copy, Clone, Debug, Hash, PartialEq, Eq, PartialOrd, Ord)]
        pub enum $Name<'a> {
            /// The root, as the `/` at the front of `/a`.
            RootDir,
            /// A `.` at the front of a path. Every other one vanishes.
            CurDir,
            /// A `..`.
            ParentDir,
            /// A name.
            Normal(&'a $Slice),
        }

        impl<'a> $Name<'a> {
            #[inline]
            pub(crate) fn taken(_: &'a $Slice, taken: Taken<'a, $Slice>) -> Self {
                match taken.kind {
                    kind::ROOT => $Name::RootDir,
                    kind::CURRENT => $Name::CurDir,
                    kind::PARENT => $Name::ParentDir,
                    _ => $Name::Normal(taken.text),
                }
            }
        }
    };
}

unix_component!(UnixComponent, "UnixComponent", "UnixPath", [u8]);
unix_component!(Utf8UnixComponent, "Utf8UnixComponent", "Utf8UnixPath", str);

component!(
    UnixComponent,
    UnixComponents,
    Component,
    "UnixPath",
    "UnixComponent",
    [u8],
    as_bytes,
    Path,
    Encoding,
    unix,
    UNIX,
    SEPARATOR_STR.as_bytes(),
    CURRENT_DIR,
    PARENT_DIR,
    prefix {}
);
component!(
    Utf8UnixComponent,
    Utf8UnixComponents,
    Utf8Component,
    "Utf8UnixPath",
    "Utf8UnixComponent",
    str,
    as_str,
    Utf8Path,
    Utf8Encoding,
    unix,
    UNIX,
    SEPARATOR_STR,
    CURRENT_DIR_STR,
    PARENT_DIR_STR,
    prefix {}
);

from_arrays_and_text!(UnixComponent);
lends_text!(Utf8UnixComponents<'_>, Utf8UnixComponent<'_>);
shows_text!(Utf8UnixComponent<'_>);

impl<'a> Utf8UnixComponent<'a> {
    /// The same component as text.
    ///
    /// # Errors
    ///
    /// It is a name that is not UTF-8.
    ///
    /// ```
    /// use typed_path::{UnixComponent, Utf8UnixComponent};
    ///
    /// let name = Utf8UnixComponent::from_utf8(&UnixComponent::Normal(b"etc"));
    /// assert_eq!(name, Ok(Utf8UnixComponent::Normal("etc")));
    /// assert!(Utf8UnixComponent::from_utf8(&UnixComponent::Normal(b"\xFF")).is_err());
    /// ```
    pub fn from_utf8(component: &UnixComponent<'a>) -> Result<Self, Utf8Error> {
        Ok(match *component {
            UnixComponent::RootDir => Self::RootDir,
            UnixComponent::CurDir => Self::CurDir,
            UnixComponent::ParentDir => Self::ParentDir,
            UnixComponent::Normal(name) => Self::Normal(core::str::from_utf8(name)?),
        })
    }
}

impl<'a> TryFrom<UnixComponent<'a>> for Utf8UnixComponent<'a> {
    type Error = Utf8Error;

    fn try_from(component: UnixComponent<'a>) -> Result<Self, Utf8Error> {
        Self::from_utf8(&component)
    }
}

#[cfg(feature = "std")]
crate::components::components_of_std!(UnixComponent, _prefix => None);

of_dialect!(
    Path PathBuf Encoding, UnixEncoding UnixPath TypedPath TypedPathBuf,
    "UnixPath", "TypedPath", "WindowsPath", r"C:\a\b", "/a/b",
    has_unix_encoding with_unix_encoding with_unix_encoding_checked unix from_unix
);
of_dialect!(
    Utf8Path Utf8PathBuf Utf8Encoding, Utf8UnixEncoding Utf8UnixPath Utf8TypedPath Utf8TypedPathBuf,
    "Utf8UnixPath", "Utf8TypedPath", "Utf8WindowsPath", r"C:\a\b", "/a/b",
    has_unix_encoding with_unix_encoding with_unix_encoding_checked unix from_unix
);
