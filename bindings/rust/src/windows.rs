//! Paths of Windows.

use alloc::string::String;
use alloc::vec::Vec;
use core::str::Utf8Error;

use crate::casts::{change_bytes, change_text};
use crate::components::{
    component, encoding, from_arrays_and_text, lends_text, of_dialect, reading, shows_text,
};
use crate::constants::windows::{CURRENT_DIR, CURRENT_DIR_STR, PARENT_DIR, PARENT_DIR_STR, SEPARATOR_STR};
use crate::encoding::*;
use crate::ffi::{self, Taken, WINDOWS, kind};
use crate::{ParseError, Path, PathBuf, Utf8Path, Utf8PathBuf};

/// A path of Windows, borrowed.
pub type WindowsPath = Path<WindowsEncoding>;
/// A path of Windows, owned.
pub type WindowsPathBuf = PathBuf<WindowsEncoding>;
/// A path of Windows that is text, borrowed.
pub type Utf8WindowsPath = Utf8Path<Utf8WindowsEncoding>;
/// A path of Windows that is text, owned.
pub type Utf8WindowsPathBuf = Utf8PathBuf<Utf8WindowsEncoding>;

encoding!(
    WindowsEncoding,
    "WindowsEncoding",
    "windows",
    WINDOWS,
    WindowsComponents,
    "WindowsPath",
    Encoding,
    [u8],
    Vec<u8>,
    change_bytes
);
encoding!(
    Utf8WindowsEncoding,
    "Utf8WindowsEncoding",
    "windows",
    WINDOWS,
    Utf8WindowsComponents,
    "Utf8WindowsPath",
    Utf8Encoding,
    str,
    String,
    change_text
);

reading!(
    WindowsComponents gives WindowsComponent, "WindowsComponents", "WindowsPath", WINDOWS,
    [u8], as_bytes, Path, Encoding, Components
);
reading!(
    Utf8WindowsComponents gives Utf8WindowsComponent, "Utf8WindowsComponents", "Utf8WindowsPath", WINDOWS,
    str, as_str, Utf8Path, Utf8Encoding, Utf8Components
);

macro_rules! windows_component {
    (
        $Name:ident, $PrefixComponent:ident, $Prefix:ident, $Components:ident, $Slice:ty, $Letter:ty,
        $as_slice:ident, $use:literal
    ) => {
        /// A component of a path of Windows.
        ///
        /// ```
        #[doc = $use]
        ///
        /// let mut components = Path::new(r"C:\Users").components();
        /// let prefix = components.next().unwrap();
        /// assert_eq!(prefix.prefix_kind(), Some(Prefix::Disk('C'.try_into().unwrap())));
        /// assert_eq!(components.next(), Some(Component::RootDir));
        /// assert_eq!(components.next(), Some(Component::Normal("Users".as_ref())));
        /// ```
        #[derive(Copy, Clone, Debug, Hash, PartialEq, Eq, PartialOrd, Ord)]
        pub enum $Name<'a> {
            /// A prefix, as the `C:` of `C:\a`.
            Prefix($PrefixComponent<'a>),
            /// The root, as the `\` behind a prefix or at the front.
            RootDir,
            /// A `.` that does not vanish: at the front, behind a drive with no root, or below `\\?\`.
            CurDir,
            /// A `..`.
            ParentDir,
            /// A name.
            Normal(&'a $Slice),
        }

        impl<'a> $Name<'a> {
            #[inline]
            pub(crate) fn taken(path: &'a $Slice, taken: Taken<'a, $Slice>) -> Self {
                match taken.kind {
                    kind::NAME => $Name::Normal(taken.text),
                    kind::ROOT => $Name::RootDir,
                    kind::CURRENT => $Name::CurDir,
                    kind::PARENT => $Name::ParentDir,
                    _ => $Name::Prefix($PrefixComponent::taken(path, taken)),
                }
            }

            /// Whether it is a prefix.
            ///
            /// ```
            #[doc = $use]
            ///
            /// assert!(Component::try_from("C:").unwrap().is_prefix());
            /// assert!(!Component::RootDir.is_prefix());
            /// ```
            pub fn is_prefix(&self) -> bool {
                matches!(self, $Name::Prefix(_))
            }

            /// The prefix that it is.
            ///
            /// ```
            #[doc = $use]
            ///
            /// assert_eq!(Component::try_from("c:").unwrap().prefix().unwrap().len(), 2);
            /// ```
            pub fn prefix(self) -> Option<$PrefixComponent<'a>> {
                match self {
                    $Name::Prefix(prefix) => Some(prefix),
                    _ => None,
                }
            }

            /// The kind of the prefix that it is.
            ///
            /// ```
            #[doc = $use]
            ///
            /// let prefix = Component::try_from(r"\\s\h").unwrap();
            /// assert_eq!(prefix.prefix_kind(), Some(Prefix::UNC("s".as_ref(), "h".as_ref())));
            /// ```
            pub fn prefix_kind(self) -> Option<$Prefix<'a>> {
                self.prefix().map(|prefix| prefix.kind())
            }
        }

        /// A prefix as it is written, and its kind. Two of them compare by their kinds.
        ///
        /// ```
        #[doc = $use]
        ///
        /// let prefix = PrefixComponent::try_from("c:").unwrap();
        #[doc = concat!("assert_eq!(prefix.", stringify!($as_slice), "(), AsRef::<", stringify!($Slice), ">::as_ref(\"c:\"));")]
        /// assert_eq!(prefix, PrefixComponent::try_from("C:").unwrap());
        /// ```
        #[derive(Copy, Clone, Debug, Eq)]
        pub struct $PrefixComponent<'a> {
            pub(crate) raw: &'a $Slice,
            pub(crate) parsed: $Prefix<'a>,
        }

        impl<'a> $PrefixComponent<'a> {
            /// The prefix of a path, where the reading of the path told that one stands.
            fn taken(path: &'a $Slice, taken: Taken<'a, $Slice>) -> Self {
                $PrefixComponent { raw: taken.text, parsed: $Prefix::of_kind(path, taken.kind) }
            }

            /// Its kind, with its names.
            ///
            /// ```
            #[doc = $use]
            ///
            /// let prefix = PrefixComponent::try_from(r"\\?\C:").unwrap();
            /// assert!(matches!(prefix.kind(), Prefix::VerbatimDisk(_)));
            /// ```
            pub fn kind(&self) -> $Prefix<'a> {
                self.parsed
            }

            /// How many bytes it has, as it is written.
            ///
            /// ```
            #[doc = $use]
            ///
            /// assert_eq!(PrefixComponent::try_from(r"\\?\C:").unwrap().len(), 6);
            /// ```
            #[allow(clippy::len_without_is_empty)]
            pub fn len(&self) -> usize {
                self.raw.len()
            }

            /// How it is written.
            ///
            /// ```
            #[doc = $use]
            ///
            /// let prefix = PrefixComponent::try_from("//s/h").unwrap();
            #[doc = concat!("assert_eq!(prefix.", stringify!($as_slice), "(), AsRef::<", stringify!($Slice), ">::as_ref(\"//s/h\"));")]
            /// ```
            pub fn $as_slice(&self) -> &'a $Slice {
                self.raw
            }
        }

        impl PartialEq for $PrefixComponent<'_> {
            fn eq(&self, other: &Self) -> bool {
                self.parsed == other.parsed
            }
        }

        impl PartialOrd for $PrefixComponent<'_> {
            fn partial_cmp(&self, other: &Self) -> Option<core::cmp::Ordering> {
                Some(self.cmp(other))
            }
        }

        impl Ord for $PrefixComponent<'_> {
            fn cmp(&self, other: &Self) -> core::cmp::Ordering {
                self.parsed.cmp(&other.parsed)
            }
        }

        impl core::hash::Hash for $PrefixComponent<'_> {
            fn hash<H: core::hash::Hasher>(&self, h: &mut H) {
                self.parsed.hash(h)
            }
        }

        impl<'a> TryFrom<&'a $Slice> for $PrefixComponent<'a> {
            type Error = ParseError;

            /// The prefix that a path is.
            ///
            /// # Errors
            ///
            /// The path does not begin with one, or has more behind it.
            fn try_from(path: &'a $Slice) -> Result<Self, ParseError> {
                let mut components = $Components::new(path);
                let prefix = components.next().and_then(|first| first.prefix()).ok_or("not a prefix")?;
                match components.next() {
                    None => Ok(prefix),
                    Some(_) => Err("contains more than prefix"),
                }
            }
        }

        /// The kind of a prefix, with its names.
        ///
        /// ```
        #[doc = $use]
        ///
        /// let kind = |prefix| Prefix::try_from(prefix).unwrap();
        /// assert_eq!(kind(r"\\?\pictures"), Prefix::Verbatim("pictures".as_ref()));
        /// assert_eq!(kind(r"\\?\UNC\s\h"), Prefix::VerbatimUNC("s".as_ref(), "h".as_ref()));
        /// assert_eq!(kind(r"\\.\COM1"), Prefix::DeviceNS("COM1".as_ref()));
        /// assert_eq!(kind(r"\\s\h"), Prefix::UNC("s".as_ref(), "h".as_ref()));
        /// ```
        #[derive(Copy, Clone, Debug, Hash, PartialEq, Eq, PartialOrd, Ord)]
        pub enum $Prefix<'a> {
            /// A name, as in `\\?\name`.
            Verbatim(&'a $Slice),
            /// A server and a share, which may be empty, as in `\\?\UNC\server\share`.
            VerbatimUNC(&'a $Slice, &'a $Slice),
            /// The capital letter of a drive, as in `\\?\C:`.
            VerbatimDisk($Letter),
            /// The name of a device, as in `\\.\name`.
            DeviceNS(&'a $Slice),
            /// A server and a share, which may be empty, as in `\\server\share`.
            UNC(&'a $Slice, &'a $Slice),
            /// The capital letter of a drive, as in `C:`.
            Disk($Letter),
        }

        impl<'a> $Prefix<'a> {
            /// The prefix of a path, where the reading of the path told its kind.
            fn of_kind(text: &'a $Slice, kind: u32) -> Self {
                let bytes: &[u8] = text.as_ref();
                let (first, second) = match kind {
                    // A letter and a colon.
                    kind::DISK => (0..1, 0..0),
                    _ => ffi::prefix_names(WINDOWS, bytes).unwrap_or_default(),
                };
                let letter = || <$Letter>::from(bytes[first.start].to_ascii_uppercase());
                match kind {
                    kind::VERBATIM => $Prefix::Verbatim(&text[first]),
                    kind::VERBATIM_UNC => $Prefix::VerbatimUNC(&text[first], &text[second]),
                    kind::VERBATIM_DISK => $Prefix::VerbatimDisk(letter()),
                    kind::DEVICE_NS => $Prefix::DeviceNS(&text[first]),
                    kind::UNC => $Prefix::UNC(&text[first], &text[second]),
                    _ => $Prefix::Disk(letter()),
                }
            }

            /// How many bytes a prefix of this kind has with these names; `usize::MAX` if these are more than
            /// that.
            ///
            /// ```
            #[doc = $use]
            ///
            /// assert_eq!(Prefix::UNC("s".as_ref(), "h".as_ref()).len(), r"\\s\h".len());
            /// assert_eq!(Prefix::UNC("s".as_ref(), "".as_ref()).len(), r"\\s".len());
            /// ```
            #[allow(clippy::len_without_is_empty)]
            pub fn len(&self) -> usize {
                let shared = |mark: usize, server: &$Slice, share: &$Slice| {
                    let separator = usize::from(!share.is_empty());
                    server.len().saturating_add(share.len()).saturating_add(mark + separator)
                };
                match self {
                    $Prefix::Verbatim(name) | $Prefix::DeviceNS(name) => name.len().saturating_add(4),
                    $Prefix::VerbatimUNC(server, share) => shared(8, server, share),
                    $Prefix::UNC(server, share) => shared(2, server, share),
                    $Prefix::VerbatimDisk(_) => 6,
                    $Prefix::Disk(_) => 2,
                }
            }

            /// Whether it begins with `\\?\`.
            ///
            /// ```
            #[doc = $use]
            ///
            /// assert!(Prefix::try_from(r"\\?\C:").unwrap().is_verbatim());
            /// assert!(!Prefix::try_from("C:").unwrap().is_verbatim());
            /// ```
            pub fn is_verbatim(&self) -> bool {
                matches!(self, $Prefix::Verbatim(_) | $Prefix::VerbatimUNC(..) | $Prefix::VerbatimDisk(_))
            }
        }

        impl<'a> TryFrom<&'a $Slice> for $Prefix<'a> {
            type Error = ParseError;

            /// The kind of the prefix that a path is.
            ///
            /// # Errors
            ///
            /// The path does not begin with one, or has more behind it.
            fn try_from(path: &'a $Slice) -> Result<Self, ParseError> {
                Ok($PrefixComponent::try_from(path)?.kind())
            }
        }

        /// What stands first of what is left.
        impl<'a> $Components<'a> {
            fn first_kind(&self) -> Option<u32> {
                self.first().map(|first| first.kind)
            }

            /// Whether the first component left is a prefix.
            ///
            /// ```
            #[doc = $use]
            ///
            /// assert!(Path::new(r"C:\a").components().has_prefix());
            /// assert!(!Path::new(r"\a").components().has_prefix());
            /// ```
            pub fn has_prefix(&self) -> bool {
                matches!(self.first_kind(), Some(first) if first >= kind::VERBATIM)
            }

            /// The prefix, if one is left.
            ///
            /// ```
            #[doc = $use]
            ///
            /// assert_eq!(Path::new(r"C:\a").components().prefix(), PrefixComponent::try_from("C:").ok());
            /// ```
            pub fn prefix(&self) -> Option<$PrefixComponent<'_>> {
                $Name::taken(self.left.path(), self.first()?).prefix()
            }

            /// The kind of the prefix, if one is left.
            ///
            /// ```
            #[doc = $use]
            ///
            /// assert_eq!(Path::new(r"C:\a").components().prefix_kind(), Prefix::try_from("C:").ok());
            /// ```
            pub fn prefix_kind(&self) -> Option<$Prefix<'_>> {
                self.prefix().map(|prefix| prefix.kind())
            }

            /// Whether the first component left is a prefix that begins with `\\?\`.
            ///
            /// ```
            #[doc = $use]
            ///
            /// assert!(Path::new(r"\\?\C:\a").components().has_any_verbatim_prefix());
            /// assert!(!Path::new(r"C:\a").components().has_any_verbatim_prefix());
            /// ```
            pub fn has_any_verbatim_prefix(&self) -> bool {
                matches!(
                    self.first_kind(),
                    Some(kind::VERBATIM | kind::VERBATIM_UNC | kind::VERBATIM_DISK)
                )
            }

            windows_component! {
                @is $use
                has_verbatim_prefix = VERBATIM, r"\\?\pictures", "is `\\\\?\\` and a name";
                has_verbatim_unc_prefix = VERBATIM_UNC, r"\\?\UNC\server\share", "is `\\\\?\\UNC\\`, a server and a share";
                has_verbatim_disk_prefix = VERBATIM_DISK, r"\\?\C:", "is `\\\\?\\` and a drive";
                has_device_ns_prefix = DEVICE_NS, r"\\.\BrainInterface", "is `\\\\.\\` and the name of a device";
                has_unc_prefix = UNC, r"\\server\share", "is `\\\\`, a server and a share";
                has_disk_prefix = DISK, r"C:", "is a drive";
            }

            /// Whether a root that is written is the first component left, or stands right behind the prefix.
            ///
            /// ```
            #[doc = $use]
            ///
            /// assert!(Path::new(r"C:\a").components().has_physical_root());
            /// assert!(!Path::new(r"\\s\h").components().has_physical_root());
            /// ```
            pub fn has_physical_root(&self) -> bool {
                let mut left = self.left;
                let mut next_kind = || left.next(WINDOWS).map(|component| component.kind);
                match next_kind() {
                    Some(first) if first >= kind::VERBATIM => next_kind() == Some(kind::ROOT),
                    first => first == Some(kind::ROOT),
                }
            }

            /// Whether the first component left is a prefix but that of a drive, which implies a root.
            ///
            /// ```
            #[doc = $use]
            ///
            /// assert!(Path::new(r"\\s\h").components().has_implicit_root());
            /// assert!(!Path::new(r"C:\a").components().has_implicit_root());
            /// ```
            pub fn has_implicit_root(&self) -> bool {
                self.has_prefix() && !self.has_disk_prefix()
            }
        }
    };

    (@is $use:literal $($name:ident = $kind:ident, $example:literal, $says:literal;)*) => {$(
        #[doc = concat!("Whether the first component left ", $says, ".")]
        ///
        /// ```
        #[doc = $use]
        ///
        #[doc = concat!("assert!(Path::new(r\"", $example, "\").components().", stringify!($name), "());")]
        #[doc = concat!("assert!(!Path::new(\"a\").components().", stringify!($name), "());")]
        /// ```
        pub fn $name(&self) -> bool {
            self.first_kind() == Some(kind::$kind)
        }
    )*};
}

windows_component!(
    WindowsComponent,
    WindowsPrefixComponent,
    WindowsPrefix,
    WindowsComponents,
    [u8],
    u8,
    as_bytes,
    "use typed_path::{WindowsComponent as Component, WindowsPath as Path};
use typed_path::{WindowsPrefix as Prefix, WindowsPrefixComponent as PrefixComponent};"
);
windows_component!(
    Utf8WindowsComponent,
    Utf8WindowsPrefixComponent,
    Utf8WindowsPrefix,
    Utf8WindowsComponents,
    str,
    char,
    as_str,
    "use typed_path::{Utf8WindowsComponent as Component, Utf8WindowsPath as Path};
use typed_path::{Utf8WindowsPrefix as Prefix, Utf8WindowsPrefixComponent as PrefixComponent};"
);

component!(
    WindowsComponent, WindowsComponents, Component, "WindowsPath", "WindowsComponent",
    [u8], as_bytes, Path, Encoding, windows, WINDOWS,
    SEPARATOR_STR.as_bytes(), CURRENT_DIR, PARENT_DIR,
    prefix { WindowsComponent::Prefix(prefix) => prefix.raw, !matches!(prefix.parsed, WindowsPrefix::Disk(_)) }
);
component!(
    Utf8WindowsComponent, Utf8WindowsComponents, Utf8Component, "Utf8WindowsPath", "Utf8WindowsComponent",
    str, as_str, Utf8Path, Utf8Encoding, windows, WINDOWS,
    SEPARATOR_STR, CURRENT_DIR_STR, PARENT_DIR_STR,
    prefix {
        Utf8WindowsComponent::Prefix(prefix) => prefix.raw, !matches!(prefix.parsed, Utf8WindowsPrefix::Disk(_))
    }
);

from_arrays_and_text!(WindowsComponent, WindowsPrefixComponent, WindowsPrefix);
lends_text!(Utf8WindowsComponents<'_>, Utf8WindowsComponent<'_>);
shows_text!(Utf8WindowsComponent<'_>);

/// The same value as text: `$text` is of a slice, `$then` of what it returns.
macro_rules! to_text {
    (prefix $prefix:expr, $text:path $(, $try:tt)?) => {
        match *$prefix {
            WindowsPrefix::Verbatim(name) => Utf8WindowsPrefix::Verbatim($text(name)$($try)?),
            WindowsPrefix::VerbatimUNC(server, share) => {
                Utf8WindowsPrefix::VerbatimUNC($text(server)$($try)?, $text(share)$($try)?)
            }
            WindowsPrefix::VerbatimDisk(letter) => Utf8WindowsPrefix::VerbatimDisk(letter.into()),
            WindowsPrefix::DeviceNS(name) => Utf8WindowsPrefix::DeviceNS($text(name)$($try)?),
            WindowsPrefix::UNC(server, share) => {
                Utf8WindowsPrefix::UNC($text(server)$($try)?, $text(share)$($try)?)
            }
            WindowsPrefix::Disk(letter) => Utf8WindowsPrefix::Disk(letter.into()),
        }
    };
    (component $component:expr, $text:path, $prefix:path $(, $try:tt)?) => {
        match $component {
            WindowsComponent::Prefix(prefix) => Utf8WindowsComponent::Prefix($prefix(prefix)$($try)?),
            WindowsComponent::RootDir => Utf8WindowsComponent::RootDir,
            WindowsComponent::CurDir => Utf8WindowsComponent::CurDir,
            WindowsComponent::ParentDir => Utf8WindowsComponent::ParentDir,
            WindowsComponent::Normal(name) => Utf8WindowsComponent::Normal($text(name)$($try)?),
        }
    };
}

pub(crate) use to_text;

impl<'a> Utf8WindowsPrefix<'a> {
    /// The same kind as text; the letter of a drive is the character of that number.
    ///
    /// # Errors
    ///
    /// A name is not UTF-8.
    ///
    /// ```
    /// use typed_path::{Utf8WindowsPrefix, WindowsPrefix};
    ///
    /// assert_eq!(Utf8WindowsPrefix::from_utf8(&WindowsPrefix::Disk(b'C')), Ok(Utf8WindowsPrefix::Disk('C')));
    /// assert!(Utf8WindowsPrefix::from_utf8(&WindowsPrefix::DeviceNS(b"\xFF")).is_err());
    /// ```
    pub fn from_utf8(prefix: &WindowsPrefix<'a>) -> Result<Self, Utf8Error> {
        Ok(to_text!(prefix prefix, core::str::from_utf8, ?))
    }
}

impl<'a> Utf8WindowsPrefixComponent<'a> {
    /// The same prefix as text.
    ///
    /// # Errors
    ///
    /// It is not UTF-8.
    ///
    /// ```
    /// use typed_path::{Utf8WindowsPrefixComponent, WindowsPrefixComponent};
    ///
    /// let prefix = WindowsPrefixComponent::try_from("C:").unwrap();
    /// assert_eq!(Utf8WindowsPrefixComponent::from_utf8(&prefix).unwrap().as_str(), "C:");
    /// ```
    pub fn from_utf8(component: &WindowsPrefixComponent<'a>) -> Result<Self, Utf8Error> {
        Ok(Self {
            raw: core::str::from_utf8(component.raw)?,
            parsed: Utf8WindowsPrefix::from_utf8(&component.parsed)?,
        })
    }
}

impl<'a> Utf8WindowsComponent<'a> {
    /// The same component as text.
    ///
    /// # Errors
    ///
    /// It is a prefix or a name that is not UTF-8.
    ///
    /// ```
    /// use typed_path::{Utf8WindowsComponent, WindowsComponent};
    ///
    /// let name = Utf8WindowsComponent::from_utf8(&WindowsComponent::Normal(b"Users"));
    /// assert_eq!(name, Ok(Utf8WindowsComponent::Normal("Users")));
    /// ```
    pub fn from_utf8(component: &WindowsComponent<'a>) -> Result<Self, Utf8Error> {
        Ok(to_text!(component component, core::str::from_utf8, Utf8WindowsPrefixComponent::from_utf8, ?))
    }
}

#[cfg(feature = "std")]
crate::components::components_of_std!(
    WindowsComponent,
    prefix => prefix.as_os_str().to_str().and_then(|raw| WindowsComponent::try_from(raw).ok()),
    WindowsComponent::Prefix(_)
);

of_dialect!(
    Path PathBuf Encoding, WindowsEncoding WindowsPath TypedPath TypedPathBuf,
    "WindowsPath", "TypedPath", "UnixPath", "/a/b", r"\a\b",
    has_windows_encoding with_windows_encoding with_windows_encoding_checked windows from_windows
);
of_dialect!(
    Utf8Path Utf8PathBuf Utf8Encoding, Utf8WindowsEncoding Utf8WindowsPath Utf8TypedPath Utf8TypedPathBuf,
    "Utf8WindowsPath", "Utf8TypedPath", "Utf8UnixPath", "/a/b", r"\a\b",
    has_windows_encoding with_windows_encoding with_windows_encoding_checked windows from_windows
);
