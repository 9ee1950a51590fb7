//! The path that is borrowed.

use alloc::borrow::{Cow, ToOwned};
use alloc::boxed::Box;
use alloc::string::String;
use core::fmt;
use core::marker::PhantomData;
use core::str::Utf8Error;

use crate::casts::{change_bytes, change_text, made_bytes, made_text, renamed};
use crate::encoding::*;
use crate::errors::{CheckedPathError, JoinError, OutOfMemory, PortableError, StripPrefixError, TryError};
use crate::family::*;
use crate::ffi::{self, or_end, or_refused};
use crate::key::Key;

macro_rules! path {
    (
        $Path:ident $PathBuf:ident $Iter:ident $Ancestors:ident, $Encoding:ident $Components:ident $Component:ident,
        $Slice:ty, $Owned:ty, $as_slice:ident $into_owned:ident $into_boxed:ident $of_boxed:ident,
        $made:ident $change:ident, $use:literal
    ) => {
        #[doc = concat!("A path of one dialect, borrowed: a slice by another name. [`", stringify!($PathBuf), "`] owns its own.")]
        ///
        /// `==`, `<` and hashing go by the components: separators, doubled or not, dots that vanish and the case of a
        /// drive do not count, and the case of names does.
        ///
        /// ```
        #[doc = $use]
        ///
        /// let path = Unix::new("/usr/share/doc.tar.gz");
        /// assert_eq!(path.parent(), Some(Unix::new("/usr/share")));
        /// assert_eq!(path.file_stem(), Some("doc.tar".as_ref()));
        /// assert_eq!(Windows::new(r"C:\Users").join("me").to_string(), r"C:\Users\me");
        /// ```
        #[repr(transparent)]
        pub struct $Path<T: $Encoding> {
            _encoding: PhantomData<T>,
            pub(crate) inner: $Slice,
        }

        impl<T: $Encoding> $Path<T> {
            /// The path of this slice, whatever it is.
            ///
            /// ```
            #[doc = $use]
            ///
            /// let path: &Unix = Unix::new("/etc/hosts");
            /// ```
            #[inline]
            pub fn new<S: AsRef<$Slice> + ?Sized>(s: &S) -> &Self {
                renamed!(&s.as_ref() => $Slice as Self)
            }

            /// The slice of the path.
            ///
            /// ```
            #[doc = $use]
            ///
            #[doc = concat!("assert_eq!(Unix::new(\"a/b\").", stringify!($as_slice), "(), AsRef::<", stringify!($Slice), ">::as_ref(\"a/b\"));")]
            /// ```
            #[inline]
            pub fn $as_slice(&self) -> &$Slice {
                &self.inner
            }

            #[inline]
            pub(crate) fn all(&self) -> &[u8] {
                self.inner.as_ref()
            }

            /// The path of a part.
            #[inline]
            fn part(&self, part: core::ops::Range<usize>) -> &Self {
                Self::new(&self.inner[part])
            }

            /// A copy that owns its bytes.
            ///
            /// ```
            #[doc = $use]
            ///
            /// let path: UnixBuf = Unix::new("/etc").to_path_buf();
            /// assert_eq!(path, Unix::new("/etc"));
            /// ```
            #[inline]
            pub fn to_path_buf(&self) -> $PathBuf<T> {
                $PathBuf::own(self.inner.to_owned())
            }

            /// The same; refused memory is an answer.
            ///
            /// # Errors
            ///
            /// Memory was refused.
            ///
            /// ```
            #[doc = $use]
            ///
            /// assert_eq!(Unix::new("/etc").try_to_path_buf().unwrap(), Unix::new("/etc"));
            /// ```
            pub fn try_to_path_buf(&self) -> Result<$PathBuf<T>, OutOfMemory> {
                let mut copy = $PathBuf::new();
                copy.try_reserve_exact(self.inner.len()).map_err(|_| OutOfMemory)?;
                $change(&mut copy.inner, |bytes| bytes.extend_from_slice(self.all()));
                Ok(copy)
            }

            /// Whether it leads to one place from every directory.
            ///
            /// ```
            #[doc = $use]
            ///
            /// assert!(Unix::new("/a").is_absolute());
            /// assert!(Windows::new(r"C:\a").is_absolute());
            /// assert!(!Windows::new(r"C:a").is_absolute());
            /// assert!(!Windows::new(r"\a").is_absolute());
            /// ```
            #[inline]
            pub fn is_absolute(&self) -> bool {
                ffi::is_absolute(T::DIALECT, self.all())
            }

            /// Whether it is not [absolute](Self::is_absolute).
            ///
            /// ```
            #[doc = $use]
            ///
            /// assert!(Unix::new("a").is_relative());
            /// assert!(Windows::new(r"\a").is_relative());
            /// ```
            #[inline]
            pub fn is_relative(&self) -> bool {
                !self.is_absolute()
            }

            /// Whether it begins with a root, written or implied by a prefix.
            ///
            /// ```
            #[doc = $use]
            ///
            /// assert!(Unix::new("/a").has_root());
            /// assert!(Windows::new(r"\a").has_root());
            /// assert!(Windows::new(r"\\server\share").has_root());
            /// assert!(!Windows::new("C:a").has_root());
            /// ```
            #[inline]
            pub fn has_root(&self) -> bool {
                ffi::has_root(T::DIALECT, self.all())
            }

            /// Whether each name of it is allowed: on Unix with no NUL; on Windows with no NUL and none of
            /// `\/:?*"<>|`, and none that is CON, PRN, AUX, NUL, COM0 to COM9 or LPT0 to LPT9, in either case,
            /// alone or with a dot behind. [`may_be_device`](Self::may_be_device) asks by a wider rule.
            ///
            /// ```
            #[doc = $use]
            ///
            /// assert!(Unix::new("a:b").is_valid());
            /// assert!(!Unix::new("a\0b").is_valid());
            /// assert!(!Windows::new("a?b").is_valid());
            /// assert!(!Windows::new("con.txt").is_valid());
            /// ```
            #[inline]
            pub fn is_valid(&self) -> bool {
                ffi::is_valid(T::DIALECT, self.all())
            }

            /// Whether every system takes each component of it as it is written
            /// ([`check_portable`](Self::check_portable) says why not).
            ///
            /// ```
            #[doc = $use]
            ///
            /// assert!(Unix::new("docs/read me.txt").is_portable());
            /// assert!(!Unix::new("docs/what?.txt").is_portable());
            /// ```
            #[inline]
            pub fn is_portable(&self) -> bool {
                ffi::is_portable(T::DIALECT, self.all())
            }

            /// Whether every system takes each component of it as it is written, with the reason. Roots, `.` and
            /// `..` are let through, so for a name that comes from outside take
            /// [`join_portable`](Self::join_portable).
            ///
            /// # Errors
            ///
            /// What the first component that offends does.
            ///
            /// ```
            #[doc = $use]
            /// use typed_path::PortableError;
            ///
            /// assert_eq!(Unix::new("docs/notes.").check_portable(), Err(PortableError::Ending));
            /// assert_eq!(Windows::new(r"C:\docs").check_portable(), Err(PortableError::Prefix));
            /// ```
            #[inline]
            pub fn check_portable(&self) -> Result<(), PortableError> {
                ffi::check_portable(T::DIALECT, self.all())
            }

            /// Whether some version of Windows may take a name of it for a device: by what stands before the first
            /// `:` of the name, up to its first dot, without the spaces at its end, in either case; `CONIN$`,
            /// `CONOUT$` and superscript digits too. A path of Unix has its own names: where the system is not
            /// known, ask both dialects.
            ///
            /// ```
            #[doc = $use]
            ///
            /// assert!(Windows::new(r"a\nul .txt").may_be_device());
            /// assert!(Unix::new("a/COM¹").may_be_device());
            /// assert!(!Unix::new(r"a\nul").may_be_device());
            /// ```
            #[inline]
            pub fn may_be_device(&self) -> bool {
                ffi::may_be_device(T::DIALECT, self.all())
            }

            /// What a checked join refuses it for, whatever it is joined to. The empty path, `.` and `a/..` are let
            /// through, and name the base itself.
            ///
            /// # Errors
            ///
            /// What the first component that offends is refused for.
            ///
            /// ```
            #[doc = $use]
            /// use typed_path::CheckedPathError;
            ///
            /// assert_eq!(Unix::new("a/../b").check(), Ok(()));
            /// assert_eq!(Unix::new("a/../..").check(), Err(CheckedPathError::PathTraversalAttack));
            /// assert_eq!(Windows::new("D:x").check(), Err(CheckedPathError::UnexpectedPrefix));
            /// ```
            #[inline]
            pub fn check(&self) -> Result<(), CheckedPathError> {
                ffi::check(T::DIALECT, self.all())
            }

            /// Whether every path that a checked join accepts keeps the prefix of this one, so that the join lies
            /// within it. True of every path on Unix, and on Windows of `C:\a`, `\\server\share` and `a`; false of
            /// those that may lose it, as `\\server` and `/`, and of some that keep it.
            ///
            /// ```
            #[doc = $use]
            ///
            /// assert!(Unix::new("/").keeps_prefix());
            /// assert!(Windows::new(r"C:\uploads").keeps_prefix());
            /// assert!(!Windows::new(r"\\server").keeps_prefix());
            /// ```
            #[inline]
            pub fn keeps_prefix(&self) -> bool {
                ffi::keeps_prefix(T::DIALECT, self.all())
            }

            /// Whether it lies at the base or below it, whatever directory both are read from. It asks nothing of
            /// whether a file can have the names, so ask [`is_valid`](Self::is_valid) too; a link on a disk leads
            /// where it leads.
            ///
            /// ```
            #[doc = $use]
            ///
            /// assert!(Unix::new("/srv/a/../b").is_within("/srv"));
            /// assert!(!Unix::new("/srv/../etc").is_within("/srv"));
            /// assert!(Unix::new("/srv/../etc").starts_with("/srv"));
            /// ```
            #[inline]
            pub fn is_within<P: AsRef<$Path<T>>>(&self, base: P) -> bool {
                ffi::is_within(T::DIALECT, self.all(), base.as_ref().all())
            }

            /// Whether both have the same components in lower case, as
            /// [`to_ascii_lowercase`](Self::to_ascii_lowercase) writes them.
            ///
            /// ```
            #[doc = $use]
            ///
            /// assert!(Unix::new("a//B").eq_ignore_ascii_case("A/b"));
            /// ```
            #[inline]
            pub fn eq_ignore_ascii_case<P: AsRef<$Path<T>>>(&self, other: P) -> bool {
                ffi::equal_ignore_ascii_case(T::DIALECT, self.all(), other.as_ref().all())
            }

            /// The order of the two in lower case, by their components.
            ///
            /// ```
            #[doc = $use]
            ///
            /// assert!(Unix::new("B").cmp_ignore_ascii_case("a").is_gt());
            /// ```
            #[inline]
            pub fn cmp_ignore_ascii_case<P: AsRef<$Path<T>>>(&self, other: P) -> core::cmp::Ordering {
                ffi::compare_ignore_ascii_case(T::DIALECT, self.all(), other.as_ref().all())
            }

            /// Whether it begins with the components of the base, as they are written in lower case.
            ///
            /// ```
            #[doc = $use]
            ///
            /// assert!(Windows::new(r"c:\A").starts_with_ignore_ascii_case("C:"));
            /// ```
            #[inline]
            pub fn starts_with_ignore_ascii_case<P: AsRef<$Path<T>>>(&self, base: P) -> bool {
                ffi::starts_with_ignore_ascii_case(T::DIALECT, self.all(), base.as_ref().all())
            }

            /// The path without its last component. None of an empty path, a root, or a prefix but a drive.
            ///
            /// ```
            #[doc = $use]
            ///
            /// assert_eq!(Unix::new("/a/b/").parent(), Some(Unix::new("/a")));
            /// assert_eq!(Unix::new("/").parent(), None);
            /// assert_eq!(Windows::new("C:").parent(), Some(Windows::new("")));
            /// ```
            #[inline]
            pub fn parent(&self) -> Option<&Self> {
                ffi::parent(T::DIALECT, self.all()).map(|part| self.part(part))
            }

            /// The path, its parent, the parent of that, and so on.
            ///
            /// ```
            #[doc = $use]
            ///
            /// let ancestors: Vec<_> = Unix::new("/a/b").ancestors().map(|path| path.to_string()).collect();
            /// assert_eq!(ancestors, ["/a/b", "/a", "/"]);
            /// ```
            #[inline]
            pub fn ancestors(&self) -> $Ancestors<'_, T> {
                $Ancestors::new(self)
            }

            /// The last component, if it is a name.
            ///
            /// ```
            #[doc = $use]
            ///
            /// assert_eq!(Unix::new("/a/b.txt/").file_name(), Some("b.txt".as_ref()));
            /// assert_eq!(Unix::new("/a/..").file_name(), None);
            /// ```
            #[inline]
            pub fn file_name(&self) -> Option<&$Slice> {
                ffi::file_name(T::DIALECT, self.all()).map(|part| &self.inner[part])
            }

            /// The file name up to its last dot; a dot at the front is part of it.
            ///
            /// ```
            #[doc = $use]
            ///
            /// assert_eq!(Unix::new("a.tar.gz").file_stem(), Some("a.tar".as_ref()));
            /// assert_eq!(Unix::new(".profile").file_stem(), Some(".profile".as_ref()));
            /// ```
            #[inline]
            pub fn file_stem(&self) -> Option<&$Slice> {
                ffi::file_stem(T::DIALECT, self.all()).map(|part| &self.inner[part])
            }

            /// The file name up to its first dot; a dot at the front is part of it.
            ///
            /// ```
            #[doc = $use]
            ///
            /// assert_eq!(Unix::new("a.tar.gz").file_prefix(), Some("a".as_ref()));
            /// assert_eq!(Unix::new(".profile").file_prefix(), Some(".profile".as_ref()));
            /// ```
            #[inline]
            pub fn file_prefix(&self) -> Option<&$Slice> {
                ffi::file_prefix(T::DIALECT, self.all()).map(|part| &self.inner[part])
            }

            /// What stands behind the last dot of the file name, where that is not its first byte.
            ///
            /// ```
            #[doc = $use]
            ///
            /// assert_eq!(Unix::new("a.tar.gz").extension(), Some("gz".as_ref()));
            /// assert_eq!(Unix::new(".profile").extension(), None);
            /// ```
            #[inline]
            pub fn extension(&self) -> Option<&$Slice> {
                ffi::extension(T::DIALECT, self.all()).map(|part| &self.inner[part])
            }

            /// What is left behind the base.
            ///
            /// # Errors
            ///
            /// The path does not begin with the components of the base.
            ///
            /// ```
            #[doc = $use]
            ///
            /// let path = Unix::new("/srv/a/b");
            /// assert_eq!(path.strip_prefix("/srv/"), Ok(Unix::new("a/b")));
            /// assert!(path.strip_prefix("/sr").is_err());
            /// ```
            #[inline]
            pub fn strip_prefix<P: AsRef<$Path<T>>>(&self, base: P) -> Result<&$Path<T>, StripPrefixError> {
                match ffi::strip_prefix(T::DIALECT, self.all(), base.as_ref().all()) {
                    Some(part) => Ok(self.part(part)),
                    None => Err(StripPrefixError(())),
                }
            }

            /// Whether it begins with the components of the base, as they are written. It is no check of where the
            /// path leads: ask [`is_within`](Self::is_within).
            ///
            /// ```
            #[doc = $use]
            ///
            /// assert!(Unix::new("/srv/a").starts_with("/srv"));
            /// assert!(!Unix::new("/srv/a").starts_with("/s"));
            /// ```
            #[inline]
            pub fn starts_with<P: AsRef<$Path<T>>>(&self, base: P) -> bool {
                ffi::starts_with(T::DIALECT, self.all(), base.as_ref().all())
            }

            /// Whether it ends with the components of another, as they are written.
            ///
            /// ```
            #[doc = $use]
            ///
            /// assert!(Unix::new("/srv/a.txt").ends_with("a.txt"));
            /// assert!(!Unix::new("/srv/a.txt").ends_with("txt"));
            /// ```
            #[inline]
            pub fn ends_with<P: AsRef<$Path<T>>>(&self, child: P) -> bool {
                ffi::ends_with(T::DIALECT, self.all(), child.as_ref().all())
            }

            /// The front of the path up to where the components end with which the other begins too, as they are
            /// written. None where the two begin with none alike.
            ///
            /// ```
            #[doc = $use]
            ///
            /// let path = Unix::new("/srv/a/b");
            /// assert_eq!(path.common_ancestor("/srv/a/c"), Some(Unix::new("/srv/a")));
            /// assert_eq!(path.common_ancestor("srv"), None);
            /// ```
            #[inline]
            pub fn common_ancestor<P: AsRef<$Path<T>>>(&self, other: P) -> Option<&Self> {
                ffi::common_ancestor(T::DIALECT, self.all(), other.as_ref().all()).map(|part| self.part(part))
            }

            /// The path of a verbatim drive of Windows without its `\\?\`, where that means the same to Windows;
            /// else, and on Unix, the path itself.
            ///
            /// ```
            #[doc = $use]
            ///
            /// assert_eq!(Windows::new(r"\\?\C:\a").simplified().to_string(), r"C:\a");
            /// assert_eq!(Windows::new(r"\\?\C:\nul").simplified().to_string(), r"\\?\C:\nul");
            /// ```
            #[inline]
            pub fn simplified(&self) -> &Self {
                match ffi::simplified(T::DIALECT, self.all()) {
                    Some(part) => self.part(part),
                    None => self,
                }
            }

            /// The path with another pushed onto it. An absolute one replaces it. On Windows one with a prefix does
            /// so too, as `D:x`, and one with a root replaces all but the prefix, as `\x`.
            ///
            /// ```
            #[doc = $use]
            ///
            /// assert_eq!(Unix::new("/srv").join("a").to_string(), "/srv/a");
            /// assert_eq!(Unix::new("/srv").join("/etc").to_string(), "/etc");
            /// assert_eq!(Windows::new(r"C:\a").join(r"\x").to_string(), r"C:\x");
            /// ```
            #[inline]
            pub fn join<P: AsRef<$Path<T>>>(&self, path: P) -> $PathBuf<T> {
                or_end(self.try_join(path))
            }

            /// [`join`](Self::join); refused memory is an answer.
            ///
            /// # Errors
            ///
            /// Memory was refused.
            ///
            /// ```
            #[doc = $use]
            ///
            /// assert_eq!(Unix::new("/srv").try_join("a").unwrap(), Unix::new("/srv/a"));
            /// ```
            #[inline]
            pub fn try_join<P: AsRef<$Path<T>>>(&self, path: P) -> Result<$PathBuf<T>, OutOfMemory> {
                Ok($PathBuf::own($made(ffi::join(T::DIALECT, self.all(), path.as_ref().all())?)))
            }

            /// The path with another pushed onto it that has no component which offends: what is returned lies
            /// within this path ([`is_within`](Self::is_within)), if this one
            /// [keeps its prefix](Self::keeps_prefix). The empty path, `.` and `a/..` are let through, and name the
            /// base itself.
            ///
            /// # Errors
            ///
            /// What the first component that offends is refused for.
            ///
            /// ```
            #[doc = $use]
            /// use typed_path::CheckedPathError::*;
            ///
            /// let base = Windows::new(r"C:\uploads");
            /// assert_eq!(base.join_checked("cat.png").unwrap(), Windows::new(r"C:\uploads\cat.png"));
            /// assert_eq!(base.join_checked(r"..\x"), Err(PathTraversalAttack));
            /// assert_eq!(base.join_checked("D:x"), Err(UnexpectedPrefix));
            /// assert_eq!(base.join_checked(r"\x"), Err(UnexpectedRoot));
            /// assert_eq!(base.join_checked("con.txt"), Err(InvalidFilename));
            /// ```
            #[inline]
            pub fn join_checked<P: AsRef<$Path<T>>>(&self, path: P) -> Result<$PathBuf<T>, CheckedPathError> {
                or_refused(self.try_join_checked(path))
            }

            /// [`join_checked`](Self::join_checked); refused memory is an answer.
            ///
            /// # Errors
            ///
            /// What the first component that offends is refused for, or else memory.
            ///
            /// ```
            #[doc = $use]
            ///
            /// assert!(Unix::new("/srv").try_join_checked("a").is_ok());
            /// assert!(Unix::new("/srv").try_join_checked("..").is_err());
            /// ```
            #[inline]
            pub fn try_join_checked<P: AsRef<$Path<T>>>(
                &self,
                path: P,
            ) -> Result<$PathBuf<T>, TryError<CheckedPathError>> {
                Ok($PathBuf::own($made(ffi::join_checked(T::DIALECT, self.all(), path.as_ref().all())?)))
            }

            /// [`join_checked`](Self::join_checked) of a path that is portable too
            /// ([`check_portable`](Self::check_portable)). This path need not be portable.
            ///
            /// # Errors
            ///
            /// Why the other path is not portable, or else what the first component of it that offends is refused
            /// for.
            ///
            /// ```
            #[doc = $use]
            /// use typed_path::{CheckedPathError, JoinError, PortableError};
            ///
            /// let base = Unix::new("/srv");
            /// assert_eq!(base.join_portable("a/b").unwrap(), Unix::new("/srv/a/b"));
            /// assert_eq!(base.join_portable("a\\b"), Err(JoinError::Portable(PortableError::Forbidden)));
            /// assert_eq!(base.join_portable(".."), Err(JoinError::Checked(CheckedPathError::PathTraversalAttack)));
            /// ```
            #[inline]
            pub fn join_portable<P: AsRef<$Path<T>>>(&self, path: P) -> Result<$PathBuf<T>, JoinError> {
                or_refused(self.try_join_portable(path))
            }

            /// [`join_portable`](Self::join_portable); refused memory is an answer.
            ///
            /// # Errors
            ///
            /// What its twin refuses with, or else memory.
            ///
            /// ```
            #[doc = $use]
            ///
            /// assert!(Unix::new("/srv").try_join_portable("a").is_ok());
            /// assert!(Unix::new("/srv").try_join_portable("a:b").is_err());
            /// ```
            #[inline]
            pub fn try_join_portable<P: AsRef<$Path<T>>>(
                &self,
                path: P,
            ) -> Result<$PathBuf<T>, TryError<JoinError>> {
                Ok($PathBuf::own($made(ffi::join_portable(T::DIALECT, self.all(), path.as_ref().all())?)))
            }

            /// The [clean path](Self::clean) of a [checked join](Self::join_checked), within this path as that is.
            ///
            /// # Errors
            ///
            /// What the first component that offends is refused for.
            ///
            /// ```
            #[doc = $use]
            ///
            /// let base = Unix::new("/srv");
            /// assert_eq!(base.resolve_checked("a/./../b").unwrap().to_string(), "/srv/b");
            /// assert_eq!(base.resolve_checked(".").unwrap().to_string(), "/srv");
            /// assert!(base.resolve_checked("..").is_err());
            /// ```
            #[inline]
            pub fn resolve_checked<P: AsRef<$Path<T>>>(&self, path: P) -> Result<$PathBuf<T>, CheckedPathError> {
                or_refused(self.try_resolve_checked(path))
            }

            /// [`resolve_checked`](Self::resolve_checked); refused memory is an answer.
            ///
            /// # Errors
            ///
            /// What the first component that offends is refused for, or else memory.
            ///
            /// ```
            #[doc = $use]
            ///
            /// assert_eq!(Unix::new("/srv").try_resolve_checked("a/..").unwrap().to_string(), "/srv");
            /// ```
            #[inline]
            pub fn try_resolve_checked<P: AsRef<$Path<T>>>(
                &self,
                path: P,
            ) -> Result<$PathBuf<T>, TryError<CheckedPathError>> {
                Ok($PathBuf::own($made(ffi::resolve_checked(T::DIALECT, self.all(), path.as_ref().all())?)))
            }

            /// The path with another file name, or with the name pushed behind it where it has none. The name is
            /// pushed as it is: `..` leads up, and an absolute path replaces all.
            ///
            /// ```
            #[doc = $use]
            ///
            /// assert_eq!(Unix::new("/a/b.txt").with_file_name("c").to_string(), "/a/c");
            /// assert_eq!(Unix::new("/a/..").with_file_name("c").to_string(), "/a/../c");
            /// ```
            #[inline]
            pub fn with_file_name<S: AsRef<$Slice>>(&self, file_name: S) -> $PathBuf<T> {
                or_end(self.try_with_file_name(file_name))
            }

            /// [`with_file_name`](Self::with_file_name); refused memory is an answer.
            ///
            /// # Errors
            ///
            /// Memory was refused.
            ///
            /// ```
            #[doc = $use]
            ///
            /// assert_eq!(Unix::new("/a/b").try_with_file_name("c").unwrap(), Unix::new("/a/c"));
            /// ```
            #[inline]
            pub fn try_with_file_name<S: AsRef<$Slice>>(&self, file_name: S) -> Result<$PathBuf<T>, OutOfMemory> {
                let name: &[u8] = file_name.as_ref().as_ref();
                Ok($PathBuf::own($made(ffi::with_file_name(T::DIALECT, self.all(), name)?)))
            }

            /// The path with another extension, or with none where that is empty; a copy where there is no file
            /// name. The extension is put as it is, with the separators in it.
            ///
            /// ```
            #[doc = $use]
            ///
            /// assert_eq!(Unix::new("a.tar.gz").with_extension("xz").to_string(), "a.tar.xz");
            /// assert_eq!(Unix::new("a.txt").with_extension("").to_string(), "a");
            /// assert_eq!(Unix::new("/").with_extension("txt").to_string(), "/");
            /// ```
            #[inline]
            pub fn with_extension<S: AsRef<$Slice>>(&self, extension: S) -> $PathBuf<T> {
                or_end(self.try_with_extension(extension))
            }

            /// [`with_extension`](Self::with_extension); refused memory is an answer.
            ///
            /// # Errors
            ///
            /// Memory was refused.
            ///
            /// ```
            #[doc = $use]
            ///
            /// assert_eq!(Unix::new("a.txt").try_with_extension("md").unwrap(), Unix::new("a.md"));
            /// ```
            #[inline]
            pub fn try_with_extension<S: AsRef<$Slice>>(&self, extension: S) -> Result<$PathBuf<T>, OutOfMemory> {
                let extension: &[u8] = extension.as_ref().as_ref();
                Ok($PathBuf::own($made(ffi::with_extension(T::DIALECT, self.all(), extension)?)))
            }

            /// The path with one extension more behind its file name; a copy where there is no file name, and with
            /// an empty extension. The extension is put as it is, with the separators in it.
            ///
            /// ```
            #[doc = $use]
            ///
            /// assert_eq!(Unix::new("a.tar").with_added_extension("gz").to_string(), "a.tar.gz");
            /// ```
            #[inline]
            pub fn with_added_extension<S: AsRef<$Slice>>(&self, extension: S) -> $PathBuf<T> {
                or_end(self.try_with_added_extension(extension))
            }

            /// [`with_added_extension`](Self::with_added_extension); refused memory is an answer.
            ///
            /// # Errors
            ///
            /// Memory was refused.
            ///
            /// ```
            #[doc = $use]
            ///
            /// assert_eq!(Unix::new("a.tar").try_with_added_extension("gz").unwrap(), Unix::new("a.tar.gz"));
            /// ```
            #[inline]
            pub fn try_with_added_extension<S: AsRef<$Slice>>(
                &self,
                extension: S,
            ) -> Result<$PathBuf<T>, OutOfMemory> {
                let extension: &[u8] = extension.as_ref().as_ref();
                Ok($PathBuf::own($made(ffi::with_added_extension(T::DIALECT, self.all(), extension)?)))
            }

            /// The path without `.`, and without `..` and the names that these take away; a `..` that finds no name
            /// vanishes. On Windows a name such as `D:x` may become the prefix, and lead to another drive;
            /// [`clean`](Self::clean) keeps the drive.
            ///
            /// ```
            #[doc = $use]
            ///
            /// assert_eq!(Unix::new("foo/bar//baz/./asdf/quux/..").normalize().to_string(), "foo/bar/baz/asdf");
            /// assert_eq!(Unix::new("../a").normalize().to_string(), "a");
            /// assert_eq!(Windows::new(r"C:\out\D:x").normalize().to_string(), "D:x");
            /// ```
            #[inline]
            pub fn normalize(&self) -> $PathBuf<T> {
                or_end(self.try_normalize())
            }

            /// [`normalize`](Self::normalize); refused memory is an answer.
            ///
            /// # Errors
            ///
            /// Memory was refused.
            ///
            /// ```
            #[doc = $use]
            ///
            /// assert_eq!(Unix::new("a/./b").try_normalize().unwrap().to_string(), "a/b");
            /// ```
            #[inline]
            pub fn try_normalize(&self) -> Result<$PathBuf<T>, OutOfMemory> {
                Ok($PathBuf::own($made(ffi::normalize(T::DIALECT, self.all())?)))
            }

            /// The path without `.`, doubled separators, and names that a `..` takes away. A relative path keeps the
            /// `..` that it needs, and nothing is `.`. On Windows the drive stays.
            ///
            /// ```
            #[doc = $use]
            ///
            /// assert_eq!(Unix::new("../a/./b//..").clean().to_string(), "../a");
            /// assert_eq!(Unix::new("a/..").clean().to_string(), ".");
            /// ```
            #[inline]
            pub fn clean(&self) -> $PathBuf<T> {
                or_end(self.try_clean())
            }

            /// [`clean`](Self::clean); refused memory is an answer.
            ///
            /// # Errors
            ///
            /// Memory was refused.
            ///
            /// ```
            #[doc = $use]
            ///
            /// assert_eq!(Unix::new("a/./b").try_clean().unwrap().to_string(), "a/b");
            /// ```
            #[inline]
            pub fn try_clean(&self) -> Result<$PathBuf<T>, OutOfMemory> {
                Ok($PathBuf::own($made(ffi::clean(T::DIALECT, self.all())?)))
            }

            /// The path with each ASCII letter in lower case, but on Windows for the `UNC` of `\\?\UNC\` before a
            /// server, which is read so only in capitals.
            ///
            /// ```
            #[doc = $use]
            ///
            /// assert_eq!(Unix::new("Src/É").to_ascii_lowercase().to_string(), "src/É");
            /// ```
            #[inline]
            pub fn to_ascii_lowercase(&self) -> $PathBuf<T> {
                or_end(self.try_to_ascii_lowercase())
            }

            /// [`to_ascii_lowercase`](Self::to_ascii_lowercase); refused memory is an answer.
            ///
            /// # Errors
            ///
            /// Memory was refused.
            ///
            /// ```
            #[doc = $use]
            ///
            /// assert_eq!(Unix::new("A").try_to_ascii_lowercase().unwrap().to_string(), "a");
            /// ```
            #[inline]
            pub fn try_to_ascii_lowercase(&self) -> Result<$PathBuf<T>, OutOfMemory> {
                Ok($PathBuf::own($made(ffi::to_ascii_lowercase(T::DIALECT, self.all())?)))
            }

            /// The normal path, read from the directory where it is not absolute; none where it is not absolute
            /// behind that either. On Windows it may be on another drive, and not absolute: of `C:\a\D:` it is `D:`.
            ///
            /// ```
            #[doc = $use]
            ///
            /// let work = Windows::new(r"C:\work");
            /// assert_eq!(Windows::new(r"..\a").absolutize_from(work).unwrap().to_string(), r"C:\a");
            /// assert_eq!(Windows::new("D:a").absolutize_from(work), None);
            /// ```
            #[inline]
            pub fn absolutize_from<U: $Encoding>(&self, directory: &$Path<U>) -> Option<$PathBuf<T>> {
                or_end(self.try_absolutize_from(directory))
            }

            /// [`absolutize_from`](Self::absolutize_from); refused memory is an answer.
            ///
            /// # Errors
            ///
            /// Memory was refused.
            ///
            /// ```
            #[doc = $use]
            ///
            /// let path = Unix::new("a").try_absolutize_from(Unix::new("/srv")).unwrap();
            /// assert_eq!(path.unwrap().to_string(), "/srv/a");
            /// ```
            pub fn try_absolutize_from<U: $Encoding>(
                &self,
                directory: &$Path<U>,
            ) -> Result<Option<$PathBuf<T>>, OutOfMemory> {
                let made = ffi::absolutize_from(T::DIALECT, self.all(), U::DIALECT, directory.all())?;
                Ok(made.map(|made| $PathBuf::own($made(made))))
            }

            /// The path that leads from the base to this one, by `..` and names; `.` where both lead alike. None
            /// where there is none: one begins with another prefix, or alone with a root; the base leads higher; or
            /// a name that is to be written holds a `/`, as one behind `\\?\` may.
            ///
            /// ```
            #[doc = $use]
            ///
            /// assert_eq!(Unix::new("/a/c").relative_to("/a/b").unwrap().to_string(), "../c");
            /// assert_eq!(Unix::new("a").relative_to("/"), None);
            /// ```
            #[inline]
            pub fn relative_to<P: AsRef<$Path<T>>>(&self, base: P) -> Option<$PathBuf<T>> {
                or_end(self.try_relative_to(base))
            }

            /// [`relative_to`](Self::relative_to); refused memory is an answer.
            ///
            /// # Errors
            ///
            /// Memory was refused, and there is such a path.
            ///
            /// ```
            #[doc = $use]
            ///
            /// let path = Unix::new("/a/c").try_relative_to("/a").unwrap();
            /// assert_eq!(path.unwrap().to_string(), "c");
            /// ```
            pub fn try_relative_to<P: AsRef<$Path<T>>>(&self, base: P) -> Result<Option<$PathBuf<T>>, OutOfMemory> {
                let made = ffi::relative_to(T::DIALECT, self.all(), base.as_ref().all())?;
                Ok(made.map(|made| $PathBuf::own($made(made))))
            }

            /// The path as it is written in another dialect; a copy where that is its own.
            ///
            /// ```
            #[doc = $use]
            ///
            /// assert_eq!(Unix::new("/a/b").with_windows_encoding().to_string(), r"\a\b");
            /// assert_eq!(Windows::new(r"C:\a\b").with_unix_encoding().to_string(), "/a/b");
            /// ```
            #[inline]
            pub fn with_encoding<U: $Encoding>(&self) -> $PathBuf<U> {
                or_end(self.try_with_encoding())
            }

            /// [`with_encoding`](Self::with_encoding); refused memory is an answer.
            ///
            /// # Errors
            ///
            /// Memory was refused.
            ///
            /// ```
            #[doc = $use]
            ///
            #[doc = concat!("let path: WindowsBuf = Unix::new(\"a/b\").try_with_encoding().unwrap();")]
            /// assert_eq!(path.to_string(), r"a\b");
            /// ```
            pub fn try_with_encoding<U: $Encoding>(&self) -> Result<$PathBuf<U>, OutOfMemory> {
                if T::DIALECT == U::DIALECT {
                    return Ok($PathBuf::own(self.try_to_path_buf()?.inner));
                }
                Ok($PathBuf::own($made(ffi::convert(T::DIALECT, self.all(), U::DIALECT)?)))
            }

            /// [`with_encoding`](Self::with_encoding) by checked pushes, in its own dialect too. Roots, `.` and `..`
            /// are let through.
            ///
            /// # Errors
            ///
            /// What the first component that offends there is refused for.
            ///
            /// ```
            #[doc = $use]
            /// use typed_path::CheckedPathError;
            ///
            /// let refused = Unix::new("/a/what?").with_windows_encoding_checked();
            /// assert_eq!(refused, Err(CheckedPathError::InvalidFilename));
            /// ```
            #[inline]
            pub fn with_encoding_checked<U: $Encoding>(&self) -> Result<$PathBuf<U>, CheckedPathError> {
                or_refused(self.try_with_encoding_checked())
            }

            /// [`with_encoding_checked`](Self::with_encoding_checked); refused memory is an answer.
            ///
            /// # Errors
            ///
            /// What its twin refuses with, or memory, whichever is met first.
            ///
            /// ```
            #[doc = $use]
            ///
            #[doc = concat!("let path: WindowsBuf = Unix::new(\"a/b\").try_with_encoding_checked().unwrap();")]
            /// assert_eq!(path.to_string(), r"a\b");
            /// ```
            pub fn try_with_encoding_checked<U: $Encoding>(
                &self,
            ) -> Result<$PathBuf<U>, TryError<CheckedPathError>> {
                Ok($PathBuf::own($made(ffi::convert_checked(T::DIALECT, self.all(), U::DIALECT)?)))
            }

            /// The components, from both ends.
            ///
            /// ```
            #[doc = $use]
            #[doc = concat!("use typed_path::", stringify!($Component), ";")]
            ///
            /// let names = Unix::new("/a/./b").components().filter(|component| component.is_normal());
            /// assert_eq!(names.count(), 2);
            /// ```
            #[inline]
            pub fn components(&self) -> <T as $Encoding>::Components<'_> {
                T::components(&self.inner)
            }

            /// The slices of the components, from both ends.
            ///
            /// ```
            #[doc = $use]
            ///
            /// assert_eq!(Unix::new("/a/./b").iter().next_back(), Some("b".as_ref()));
            /// ```
            #[inline]
            pub fn iter(&self) -> $Iter<'_, T> {
                $Iter::new(self.components())
            }

            /// The key of the path: one value for equal paths, and another for every other.
            ///
            /// ```
            #[doc = $use]
            ///
            /// assert_eq!(Windows::new(r"c:\a").key(), Windows::new("C:/a/.").key());
            /// assert_ne!(Unix::new("a/bc").key(), Unix::new("ab/c").key());
            /// ```
            pub fn key(&self) -> Key {
                Key::new(T::DIALECT, self.all())
            }

            /// The same path, owned: the memory is moved.
            ///
            /// ```
            #[doc = $use]
            ///
            /// let boxed: Box<Unix> = Unix::new("/a").into();
            /// assert_eq!(boxed.into_path_buf(), Unix::new("/a"));
            /// ```
            #[inline]
            pub fn into_path_buf(self: Box<$Path<T>>) -> $PathBuf<T> {
                let inner: Box<$Slice> = renamed!(Box, self => $Path<T> as $Slice);
                $PathBuf::own(inner.$of_boxed())
            }
        }
    };
}

families!(path);

impl<T: Encoding> Path<T> {
    /// The path as text, if it is UTF-8.
    ///
    /// ```
    /// use typed_path::UnixPath;
    ///
    /// assert_eq!(UnixPath::new("/a").to_str(), Some("/a"));
    /// assert_eq!(UnixPath::new(b"\xFF").to_str(), None);
    /// ```
    #[inline]
    pub fn to_str(&self) -> Option<&str> {
        core::str::from_utf8(&self.inner).ok()
    }

    /// The path as text, in which U+FFFD stands for what is not UTF-8.
    ///
    /// ```
    /// use typed_path::UnixPath;
    ///
    /// assert_eq!(UnixPath::new(b"a\xFF").to_string_lossy(), "a\u{FFFD}");
    /// ```
    #[inline]
    pub fn to_string_lossy(&self) -> Cow<'_, str> {
        String::from_utf8_lossy(&self.inner)
    }

    /// The path, to be printed as [`to_string_lossy`](Self::to_string_lossy).
    ///
    /// ```
    /// use typed_path::UnixPath;
    ///
    /// assert_eq!(format!("{}", UnixPath::new("/a").display()), "/a");
    /// ```
    #[inline]
    pub fn display(&self) -> Display<'_, T> {
        Display { path: self }
    }

    /// The normal path, read from the directory that the process works in where it is not absolute. On Windows
    /// it may be on another drive, and not absolute: of `C:\a\D:` it is `D:`.
    ///
    /// # Errors
    ///
    /// The directory could not be had, or the path is not absolute behind it either.
    ///
    /// ```
    /// use typed_path::{utils, UnixPath};
    ///
    /// let path = UnixPath::new("a/../b").absolutize()?;
    /// assert_eq!(path, utils::current_dir()?.join("b").with_unix_encoding().normalize());
    /// # Ok::<(), std::io::Error>(())
    /// ```
    #[cfg(feature = "std")]
    pub fn absolutize(&self) -> std::io::Result<PathBuf<T>> {
        if self.is_absolute() {
            return Ok(self.normalize());
        }
        let directory = crate::utils::current_dir()?;
        match or_end(ffi::absolutize(T::DIALECT, self.all(), directory.all())) {
            Some(absolute) => Ok(PathBuf::own(absolute)),
            None => Err(std::io::Error::new(std::io::ErrorKind::Other, "path is ambiguous")),
        }
    }
}

impl<T: Utf8Encoding> Utf8Path<T> {
    /// The same path as text.
    ///
    /// # Errors
    ///
    /// It is not UTF-8.
    ///
    /// ```
    /// use typed_path::{UnixPath, Utf8UnixPath};
    ///
    /// assert_eq!(Utf8UnixPath::from_bytes_path(UnixPath::new("/a")), Ok(Utf8UnixPath::new("/a")));
    /// assert!(Utf8UnixPath::from_bytes_path(UnixPath::new(b"\xFF")).is_err());
    /// ```
    pub fn from_bytes_path<U: Encoding>(path: &Path<U>) -> Result<&Self, Utf8Error> {
        Ok(Self::new(core::str::from_utf8(path.as_bytes())?))
    }

    /// The same path as bytes.
    ///
    /// ```
    /// use typed_path::{UnixPath, Utf8UnixPath};
    ///
    /// let path: &UnixPath = Utf8UnixPath::new("/a").as_bytes_path();
    /// assert_eq!(path, UnixPath::new("/a"));
    /// ```
    #[inline]
    pub fn as_bytes_path<U: Encoding>(&self) -> &Path<U> {
        Path::new(&self.inner)
    }

    /// The normal path, read from the directory that the process works in where it is not absolute. It may stay
    /// relative, as `D:x` does, which no directory of this machine makes absolute.
    ///
    /// # Errors
    ///
    /// The directory could not be had, or is not UTF-8.
    ///
    /// ```
    /// use typed_path::{utils, Utf8UnixPath};
    ///
    /// let path = Utf8UnixPath::new("a/../b").absolutize()?;
    /// assert_eq!(path, utils::utf8_current_dir()?.join("b").with_unix_encoding().normalize());
    /// # Ok::<(), std::io::Error>(())
    /// ```
    #[cfg(feature = "std")]
    pub fn absolutize(&self) -> std::io::Result<Utf8PathBuf<T>> {
        if self.is_absolute() {
            return Ok(self.normalize());
        }
        let directory = crate::utils::utf8_current_dir()?.with_encoding::<T>();
        Ok(directory.join(self).normalize())
    }
}

/// Prints a path of bytes as text, in which U+FFFD stands for what is not UTF-8.
///
/// ```
/// use typed_path::UnixPath;
///
/// assert_eq!(UnixPath::new(b"a\xFF").display().to_string(), "a\u{FFFD}");
/// ```
pub struct Display<'a, T: Encoding> {
    path: &'a Path<T>,
}

impl<T: Encoding> fmt::Debug for Display<'_, T> {
    fn fmt(&self, f: &mut fmt::Formatter<'_>) -> fmt::Result {
        fmt::Debug::fmt(self.path, f)
    }
}

impl<T: Encoding> fmt::Display for Display<'_, T> {
    fn fmt(&self, f: &mut fmt::Formatter<'_>) -> fmt::Result {
        fmt::Display::fmt(&self.path.to_string_lossy(), f)
    }
}
