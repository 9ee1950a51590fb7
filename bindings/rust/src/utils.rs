//! What the machine is asked.

use std::{env, io, path};

use crate::{PlatformPathBuf, Utf8PlatformPathBuf};

/// The path of a folder or a file that std tells of.
fn of_std(path: path::PathBuf) -> io::Result<PlatformPathBuf> {
    PlatformPathBuf::try_from(path).map_err(|_| not_text())
}

fn of_bytes(path: PlatformPathBuf) -> io::Result<Utf8PlatformPathBuf> {
    Utf8PlatformPathBuf::from_bytes_path_buf(path).map_err(|_| not_text())
}

fn not_text() -> io::Error {
    io::Error::new(io::ErrorKind::InvalidData, "the path is not UTF-8")
}

macro_rules! asked {
    ($($name:ident, $utf8_name:ident = $asked:expr, $what:literal;)*) => {$(
        #[doc = concat!("The path of ", $what, ".")]
        ///
        /// # Errors
        ///
        /// It is not UTF-8, or what the machine says.
        ///
        /// ```
        #[doc = concat!("let path = typed_path::utils::", stringify!($name), "()?;")]
        /// assert!(path.is_absolute());
        /// # Ok::<(), std::io::Error>(())
        /// ```
        pub fn $name() -> io::Result<PlatformPathBuf> {
            of_std($asked)
        }

        #[doc = concat!("The path of ", $what, ", as text.")]
        ///
        /// # Errors
        ///
        /// It is not UTF-8, or what the machine says.
        ///
        /// ```
        #[doc = concat!("let path = typed_path::utils::", stringify!($utf8_name), "()?;")]
        /// assert!(path.is_absolute());
        /// # Ok::<(), std::io::Error>(())
        /// ```
        pub fn $utf8_name() -> io::Result<Utf8PlatformPathBuf> {
            of_bytes($name()?)
        }
    )*};
}

asked! {
    current_dir, utf8_current_dir = env::current_dir()?, "the directory that the process works in";
    current_exe, utf8_current_exe = env::current_exe()?, "the file of the program that runs";
    temp_dir, utf8_temp_dir = env::temp_dir(), "the folder of temporary files";
}
