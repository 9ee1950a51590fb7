//! The unsafe steps that no call of the header takes: a slice by the name of a path, and bytes as text.

use alloc::string::String;
use alloc::vec::Vec;

/// Names a pointer to a slice as one to a path, or the other way round. A path is `repr(transparent)` over its slice,
/// so both are laid out alike, and what is true of the one pointer is true of the other.
macro_rules! renamed {
    (&$pointer:expr => $from:ty as $to:ty) => {
        // SAFETY: the reference is renamed, and lives no longer.
        unsafe { &*($pointer as *const $from as *const $to) }
    };
    ($Owner:ident, $owned:expr => $from:ty as $to:ty) => {
        // SAFETY: the owner gives the pointer out, and another takes it over by its new name.
        unsafe { $Owner::from_raw($Owner::into_raw($owned) as *mut $to) }
    };
    (shared $Owner:ident, $owned:expr => $from:ty as $to:ty) => {
        // SAFETY: the owner gives the pointer out, and another takes it over by its new name.
        unsafe { $Owner::from_raw($Owner::into_raw($owned) as *const $to) }
    };
}

pub(crate) use renamed;

/// The text that a call made of texts.
pub(crate) fn made_text(made: Vec<u8>) -> String {
    // SAFETY: every call that makes a path promises: where the texts are UTF-8, so is the answer.
    unsafe { String::from_utf8_unchecked(made) }
}

/// Has a call change the bytes of a text, to what it makes of texts.
pub(crate) fn change_text<R>(text: &mut String, change: impl FnOnce(&mut Vec<u8>) -> R) -> R {
    // SAFETY: every call that makes a path promises: where the texts are UTF-8, so is the answer. One that refuses
    // leaves the bytes as they were.
    change(unsafe { text.as_mut_vec() })
}

/// What of bytes is made and changed as it stands.
pub(crate) fn made_bytes(made: Vec<u8>) -> Vec<u8> {
    made
}

/// The same, to be changed.
pub(crate) fn change_bytes<R>(bytes: &mut Vec<u8>, change: impl FnOnce(&mut Vec<u8>) -> R) -> R {
    change(bytes)
}

/// What is public and asks its caller that bytes are UTF-8.
mod unchecked {
    use crate::casts::*;
    use crate::windows::to_text;
    use crate::*;

    impl<T: Utf8Encoding> Utf8Path<T> {
        /// The same path as text, which is not looked at.
        ///
        /// # Safety
        ///
        /// The bytes of the path are UTF-8.
        ///
        /// ```
        /// use typed_path::{UnixPath, Utf8UnixPath};
        ///
        /// // `/a` is UTF-8.
        /// let path = unsafe { Utf8UnixPath::from_bytes_path_unchecked(UnixPath::new("/a")) };
        /// assert_eq!(path, Utf8UnixPath::new("/a"));
        /// ```
        pub unsafe fn from_bytes_path_unchecked<U: Encoding>(path: &Path<U>) -> &Self {
            // SAFETY: the caller says that the bytes are UTF-8.
            Self::new(unsafe { core::str::from_utf8_unchecked(path.as_bytes()) })
        }
    }

    impl<T: Utf8Encoding> Utf8PathBuf<T> {
        /// The same path as text, moved and not looked at.
        ///
        /// # Safety
        ///
        /// The bytes of the path are UTF-8.
        ///
        /// ```
        /// use typed_path::{UnixPathBuf, Utf8UnixPath, Utf8UnixPathBuf};
        ///
        /// // `/a` is UTF-8.
        /// let path = unsafe { Utf8UnixPathBuf::from_bytes_path_buf_unchecked(UnixPathBuf::from("/a")) };
        /// assert_eq!(path, Utf8UnixPath::new("/a"));
        /// ```
        pub unsafe fn from_bytes_path_buf_unchecked<U: Encoding>(path: PathBuf<U>) -> Self {
            // SAFETY: the caller says that the bytes are UTF-8.
            Self::own(unsafe { String::from_utf8_unchecked(path.inner) })
        }
    }

    impl<'a> Utf8UnixComponent<'a> {
        /// The same component as text, which is not looked at.
        ///
        /// # Safety
        ///
        /// The bytes of the component are UTF-8.
        ///
        /// ```
        /// use typed_path::{UnixComponent, Utf8UnixComponent};
        ///
        /// // `etc` is UTF-8.
        /// let name = unsafe { Utf8UnixComponent::from_utf8_unchecked(&UnixComponent::Normal(b"etc")) };
        /// assert_eq!(name, Utf8UnixComponent::Normal("etc"));
        /// ```
        pub unsafe fn from_utf8_unchecked(component: &UnixComponent<'a>) -> Self {
            match *component {
                UnixComponent::RootDir => Self::RootDir,
                UnixComponent::CurDir => Self::CurDir,
                UnixComponent::ParentDir => Self::ParentDir,
                // SAFETY: the caller says that the bytes are UTF-8.
                UnixComponent::Normal(name) => Self::Normal(unsafe { core::str::from_utf8_unchecked(name) }),
            }
        }
    }

    impl<'a> Utf8WindowsPrefix<'a> {
        /// The same kind as text, which is not looked at.
        ///
        /// # Safety
        ///
        /// The names of the prefix are UTF-8.
        ///
        /// ```
        /// use typed_path::{Utf8WindowsPrefix, WindowsPrefix};
        ///
        /// // `COM1` is UTF-8.
        /// let prefix = unsafe { Utf8WindowsPrefix::from_utf8_unchecked(&WindowsPrefix::DeviceNS(b"COM1")) };
        /// assert_eq!(prefix, Utf8WindowsPrefix::DeviceNS("COM1"));
        /// ```
        pub unsafe fn from_utf8_unchecked(prefix: &WindowsPrefix<'a>) -> Self {
            // SAFETY: the caller says that the names are UTF-8.
            unsafe { to_text!(prefix prefix, core::str::from_utf8_unchecked) }
        }
    }

    impl<'a> Utf8WindowsPrefixComponent<'a> {
        /// The same prefix as text, which is not looked at.
        ///
        /// # Safety
        ///
        /// The bytes of the prefix are UTF-8, and so are its names.
        ///
        /// ```
        /// use typed_path::{Utf8WindowsPrefixComponent, WindowsPrefixComponent};
        ///
        /// let prefix = WindowsPrefixComponent::try_from("C:").unwrap();
        /// // `C:` is UTF-8.
        /// let prefix = unsafe { Utf8WindowsPrefixComponent::from_utf8_unchecked(&prefix) };
        /// assert_eq!(prefix.as_str(), "C:");
        /// ```
        pub unsafe fn from_utf8_unchecked(component: &WindowsPrefixComponent<'a>) -> Self {
            // SAFETY: the caller says that all of it is UTF-8.
            unsafe {
                Self {
                    raw: core::str::from_utf8_unchecked(component.raw),
                    parsed: Utf8WindowsPrefix::from_utf8_unchecked(&component.parsed),
                }
            }
        }
    }

    impl<'a> Utf8WindowsComponent<'a> {
        /// The same component as text, which is not looked at.
        ///
        /// # Safety
        ///
        /// The bytes of the component are UTF-8.
        ///
        /// ```
        /// use typed_path::{Utf8WindowsComponent, WindowsComponent};
        ///
        /// // `Users` is UTF-8.
        /// let name = unsafe { Utf8WindowsComponent::from_utf8_unchecked(&WindowsComponent::Normal(b"Users")) };
        /// assert_eq!(name, Utf8WindowsComponent::Normal("Users"));
        /// ```
        pub unsafe fn from_utf8_unchecked(component: &WindowsComponent<'a>) -> Self {
            // SAFETY: the caller says that the bytes are UTF-8.
            unsafe {
                to_text!(
                    component component,
                    core::str::from_utf8_unchecked,
                    Utf8WindowsPrefixComponent::from_utf8_unchecked
                )
            }
        }
    }
}
