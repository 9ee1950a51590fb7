//! What calls refuse with. The texts are the library's.

use core::fmt;

use crate::ffi;

/// A path does not begin with the components of a base.
///
/// ```
/// use typed_path::UnixPath;
///
/// let refused = UnixPath::new("/srv/a").strip_prefix("/etc").unwrap_err();
/// assert_eq!(refused.to_string(), "prefix not found");
/// ```
#[derive(Clone, Debug, PartialEq, Eq)]
pub struct StripPrefixError(pub(crate) ());

impl fmt::Display for StripPrefixError {
    fn fmt(&self, f: &mut fmt::Formatter<'_>) -> fmt::Result {
        f.write_str("prefix not found")
    }
}

/// What the first component of a path that offends is refused for by a checked call.
///
/// ```
/// use typed_path::{CheckedPathError, UnixPath};
///
/// let refused = UnixPath::new("/srv").join_checked("../etc").unwrap_err();
/// assert_eq!(refused, CheckedPathError::PathTraversalAttack);
/// assert_eq!(refused.to_string(), "path attempts to escape original path");
/// ```
#[derive(Clone, Debug, PartialEq, Eq)]
pub enum CheckedPathError {
    /// A name that is not allowed, or that stands for a device of Windows.
    InvalidFilename,
    /// A `..` that no name before it makes up for.
    PathTraversalAttack,
    /// A prefix, which only a path of Windows has.
    UnexpectedPrefix,
    /// A root.
    UnexpectedRoot,
}

impl fmt::Display for CheckedPathError {
    fn fmt(&self, f: &mut fmt::Formatter<'_>) -> fmt::Result {
        ffi::with_status_text(ffi::status_of_fault(self), |text| f.write_str(text))
    }
}

/// Why the first component of a path that offends is not portable: the first of these that is true of it.
///
/// ```
/// use typed_path::{PortableError, UnixPath};
///
/// let refused = UnixPath::new("a/nul.txt").check_portable().unwrap_err();
/// assert_eq!(refused, PortableError::Device);
/// assert_eq!(refused.to_string(), "path contains a name that may be a device");
/// ```
#[derive(Clone, Copy, Debug, PartialEq, Eq, Hash)]
pub enum PortableError {
    /// It is a prefix, which only a path of Windows has.
    Prefix,
    /// It has a byte that no name of Windows may have, or a control byte.
    Forbidden,
    /// Some version of Windows may take it for a device.
    Device,
    /// It ends in a dot or a space.
    Ending,
    /// It has more than 255 bytes.
    TooLong,
    /// It is not UTF-8.
    NotText,
}

impl fmt::Display for PortableError {
    fn fmt(&self, f: &mut fmt::Formatter<'_>) -> fmt::Result {
        ffi::with_status_text(ffi::status_of_reason(self), |text| f.write_str(text))
    }
}

/// What a portable join refuses a path for: that it is not portable, or else what a checked join does.
///
/// ```
/// use typed_path::{CheckedPathError, JoinError, PortableError, UnixPath};
///
/// let base = UnixPath::new("/srv");
/// assert_eq!(base.join_portable("a:b"), Err(JoinError::Portable(PortableError::Forbidden)));
/// assert_eq!(base.join_portable("/a"), Err(JoinError::Checked(CheckedPathError::UnexpectedRoot)));
/// ```
#[derive(Clone, Debug, PartialEq, Eq)]
pub enum JoinError {
    /// The path is not portable.
    Portable(PortableError),
    /// The path is portable, and has a root or leads out.
    Checked(CheckedPathError),
}

impl From<PortableError> for JoinError {
    fn from(reason: PortableError) -> Self {
        Self::Portable(reason)
    }
}

impl From<CheckedPathError> for JoinError {
    fn from(fault: CheckedPathError) -> Self {
        Self::Checked(fault)
    }
}

impl fmt::Display for JoinError {
    fn fmt(&self, f: &mut fmt::Formatter<'_>) -> fmt::Result {
        match self {
            Self::Portable(reason) => fmt::Display::fmt(reason, f),
            Self::Checked(fault) => fmt::Display::fmt(fault, f),
        }
    }
}

/// Memory was refused. What was handed in is as it was.
///
/// ```
/// assert_eq!(typed_path::OutOfMemory.to_string(), "out of memory");
/// ```
#[derive(Clone, Copy, Debug, PartialEq, Eq, Hash)]
pub struct OutOfMemory;

impl fmt::Display for OutOfMemory {
    fn fmt(&self, f: &mut fmt::Formatter<'_>) -> fmt::Result {
        ffi::with_status_text(ffi::STATUS_OF_MEMORY, |text| f.write_str(text))
    }
}

/// What a call refuses for whose name begins with `try_`: what its twin refuses for, or memory.
///
/// ```
/// use typed_path::{CheckedPathError, TryError, UnixPath};
///
/// let refused = UnixPath::new("/srv").try_join_checked("/etc").unwrap_err();
/// assert_eq!(refused, TryError::Refused(CheckedPathError::UnexpectedRoot));
/// ```
#[derive(Clone, Debug, PartialEq, Eq)]
pub enum TryError<E> {
    /// What the twin refuses with.
    Refused(E),
    /// Memory was refused. What was handed in is as it was.
    OutOfMemory,
}

impl<E> From<OutOfMemory> for TryError<E> {
    fn from(_: OutOfMemory) -> Self {
        Self::OutOfMemory
    }
}

impl<E: fmt::Display> fmt::Display for TryError<E> {
    fn fmt(&self, f: &mut fmt::Formatter<'_>) -> fmt::Result {
        match self {
            Self::Refused(refused) => fmt::Display::fmt(refused, f),
            Self::OutOfMemory => fmt::Display::fmt(&OutOfMemory, f),
        }
    }
}

/// Why bytes are not just one component, or not just a prefix.
pub type ParseError = &'static str;

#[cfg(feature = "std")]
mod of_std {
    use std::error::Error;

    use super::*;

    impl Error for StripPrefixError {}
    impl Error for CheckedPathError {}
    impl Error for PortableError {}
    impl Error for OutOfMemory {}

    impl Error for JoinError {
        fn source(&self) -> Option<&(dyn Error + 'static)> {
            match self {
                Self::Portable(reason) => Some(reason),
                Self::Checked(fault) => Some(fault),
            }
        }
    }

    impl<E: Error + 'static> Error for TryError<E> {
        fn source(&self) -> Option<&(dyn Error + 'static)> {
            match self {
                Self::Refused(refused) => Some(refused),
                Self::OutOfMemory => None,
            }
        }
    }
}
