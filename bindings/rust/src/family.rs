//! Paths of one dialect, borrowed and owned, of bytes and of text.
//!
//! Both families have one body each for the borrowed path, the owned one, the iterators and std's traits: a macro that
//! `families` calls with the words of bytes, and with those of text.

/// Has a macro written for bytes, and for text.
macro_rules! families {
    ($body:ident) => {
        $body! {
            Path PathBuf Iter Ancestors, Encoding Components Component,
            [u8], Vec<u8>, as_bytes into_vec into_boxed_slice into_vec, made_bytes change_bytes,
            "use typed_path::{UnixPath as Unix, UnixPathBuf as UnixBuf};
use typed_path::{WindowsPath as Windows, WindowsPathBuf as WindowsBuf};"
        }
        $body! {
            Utf8Path Utf8PathBuf Utf8Iter Utf8Ancestors, Utf8Encoding Utf8Components Utf8Component,
            str, String, as_str into_string into_boxed_str into_string, made_text change_text,
            "use typed_path::{Utf8UnixPath as Unix, Utf8UnixPathBuf as UnixBuf};
use typed_path::{Utf8WindowsPath as Windows, Utf8WindowsPathBuf as WindowsBuf};"
        }
    };
}

mod iter;
#[cfg(feature = "std")]
mod os;
mod path;
mod path_buf;
mod traits;

pub use iter::*;
pub use path::*;
pub use path_buf::*;
