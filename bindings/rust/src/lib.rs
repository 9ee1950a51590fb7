//! Paths of Unix and of Windows, read and written alike on every machine, whose answers are proved.
//!
//! The names and types are those of the crate `typed-path` 0.13, so a program takes this one by a line of its
//! `Cargo.toml`: `typed-path = { package = "typed-path-proved", version = "0.2" }`.
//!
//! ```
//! use typed_path::{CheckedPathError, Utf8UnixPath, WindowsPath};
//!
//! let path = Utf8UnixPath::new("/usr/share/doc.tar.gz");
//! assert_eq!(path.extension(), Some("gz"));
//! assert_eq!(path.parent(), Some(Utf8UnixPath::new("/usr/share")));
//!
//! let uploads = WindowsPath::new(r"C:\uploads");
//! assert_eq!(uploads.join_checked("cat.png").unwrap(), WindowsPath::new(r"C:\uploads\cat.png"));
//! assert_eq!(uploads.join_checked(r"..\x"), Err(CheckedPathError::PathTraversalAttack));
//! ```
//!
//! | | Bytes: borrowed, owned | Text: borrowed, owned |
//! |---|---|---|
//! | dialect fixed by the type | [`Path`], [`PathBuf`] | [`Utf8Path`], [`Utf8PathBuf`] |
//! | chosen when the program runs | [`TypedPath`], [`TypedPathBuf`] | [`Utf8TypedPath`], [`Utf8TypedPathBuf`] |
//!
//! [`UnixPath`] and [`WindowsPath`] are [`Path`] at an encoding, and so are the others; [`PlatformPath`] is a path of
//! this machine.
//!
//! **A checked join stays within its base.** [`join_checked`](Path::join_checked),
//! [`push_checked`](PathBuf::push_checked), [`join_portable`](Path::join_portable) and
//! [`resolve_checked`](Path::resolve_checked) refuse a path that would lead out. On Unix this holds for every base, and
//! on Windows for those that [keep their prefix](Path::keeps_prefix), such as `C:\a`. Only the text is judged: a link
//! on a disk leads where it leads.
//!
//! **What is proved** is the library behind the calls of its header for C, from which every answer comes. The types of
//! this crate, what it lends and copies, and its `unsafe` steps are not proved.
#![cfg_attr(not(feature = "std"), no_std)]
#![deny(missing_docs, unsafe_op_in_unsafe_fn, clippy::undocumented_unsafe_blocks)]

extern crate alloc;

mod casts;
mod components;
pub mod constants;
mod encoding;
mod errors;
mod family;
mod ffi;
mod key;
mod native;
mod platform;
#[cfg(feature = "serde")]
mod serde;
mod typed;
mod unix;
#[cfg(feature = "std")]
pub mod utils;
mod windows;

mod private {
    /// Seals the traits: only this crate implements them.
    pub trait Sealed {}

    /// The number by which the library knows an encoding.
    pub trait Dialect: Sealed {
        const DIALECT: u32;
    }
}

/// Lends a value as one of another type, where it is one.
///
/// ```
/// use typed_path::{TryAsRef, TypedPath, UnixPath, WindowsPath};
///
/// let path = TypedPath::unix("/a");
/// assert_eq!(path.try_as_ref(), Some(UnixPath::new("/a")));
/// assert_eq!(path.try_as_ref(), None::<&WindowsPath>);
/// ```
pub trait TryAsRef<T: ?Sized> {
    /// The value, if it is one of that type.
    fn try_as_ref(&self) -> Option<&T>;
}

/// Whether this processor can run the library, which is built for x86-64-v2. An older one ends the program at some
/// other call by an illegal instruction. It asks the processor each time.
///
/// ```
/// assert!(typed_path::runs_here());
/// ```
pub fn runs_here() -> bool {
    ffi::runs_here()
}

pub use encoding::*;
pub use errors::*;
pub use family::*;
pub use key::*;
pub use native::*;
pub use platform::*;
pub use typed::*;
pub use unix::*;
pub use windows::*;

/// The example of the README.
#[cfg(doctest)]
#[doc = include_str!("../README.md")]
struct Readme;
