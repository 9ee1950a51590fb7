//! Paths of std, and strings of the system.

use std::ffi::{OsStr, OsString};

use crate::TryAsRef;
use crate::encoding::*;
use crate::family::*;

impl<T: Encoding> TryFrom<PathBuf<T>> for std::path::PathBuf {
    type Error = PathBuf<T>;

    fn try_from(path: PathBuf<T>) -> Result<Self, PathBuf<T>> {
        match path.to_str() {
            Some(text) => Ok(text.into()),
            None => Err(path),
        }
    }
}

impl<T: Encoding> TryFrom<std::path::PathBuf> for PathBuf<T> {
    type Error = std::path::PathBuf;

    fn try_from(path: std::path::PathBuf) -> Result<Self, std::path::PathBuf> {
        match path.to_str() {
            Some(text) => Ok(PathBuf::from(text)),
            None => Err(path),
        }
    }
}

/// The bytes of a string of the system are those of the path: on Unix std lends them.
#[cfg(unix)]
mod of_unix {
    use std::os::unix::ffi::{OsStrExt, OsStringExt};

    use super::*;

    macro_rules! lent {
        ($($Os:ty),*) => {$(
            impl<T: Encoding> AsRef<Path<T>> for $Os {
                #[inline]
                fn as_ref(&self) -> &Path<T> {
                    Path::new(self.as_bytes())
                }
            }

            impl<T: Utf8Encoding> TryAsRef<Utf8Path<T>> for $Os {
                #[inline]
                fn try_as_ref(&self) -> Option<&Utf8Path<T>> {
                    core::str::from_utf8(self.as_bytes()).ok().map(Utf8Path::new)
                }
            }
        )*};
    }

    lent!(OsStr, OsString);

    macro_rules! lends {
        ($($Path:ident: $Encoding:ident),*) => {$(
            impl<T: $Encoding> AsRef<OsStr> for $Path<T> {
                #[inline]
                fn as_ref(&self) -> &OsStr {
                    OsStr::from_bytes(AsRef::<[u8]>::as_ref(self))
                }
            }
        )*};
    }

    lends!(Path: Encoding, PathBuf: Encoding, Utf8Path: Utf8Encoding, Utf8PathBuf: Utf8Encoding);

    impl<T: Encoding> From<PathBuf<T>> for OsString {
        #[inline]
        fn from(path: PathBuf<T>) -> OsString {
            OsString::from_vec(path.inner)
        }
    }

    impl<T: Utf8Encoding> From<Utf8PathBuf<T>> for OsString {
        #[inline]
        fn from(path: Utf8PathBuf<T>) -> OsString {
            path.inner.into()
        }
    }
}
