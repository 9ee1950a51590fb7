//! Separators, dots, and what names may not have, in each dialect.
//!
//! ```
//! use typed_path::constants::{unix, windows};
//!
//! assert_eq!((unix::SEPARATOR, windows::SEPARATOR), ('/', '\\'));
//! assert!(windows::RESERVED_DEVICE_NAMES_STR.contains(&"NUL"));
//! ```

/// What both dialects write alike.
macro_rules! dots {
    () => {
        /// How a parent is written.
        pub const PARENT_DIR: &[u8] = b"..";
        /// The same as text.
        pub const PARENT_DIR_STR: &str = "..";
        /// How the current directory is written.
        pub const CURRENT_DIR: &[u8] = b".";
        /// The same as text.
        pub const CURRENT_DIR_STR: &str = ".";
    };
}

/// Those of Unix.
pub mod unix {
    /// What stands between two components.
    pub const SEPARATOR: char = '/';
    /// The same as text.
    pub const SEPARATOR_STR: &str = "/";
    dots!();
    /// The bytes that no name has.
    pub const DISALLOWED_FILENAME_BYTES: [u8; 2] = *b"/\0";
    /// The same as characters.
    pub const DISALLOWED_FILENAME_CHARS: [char; 2] = ['/', '\0'];
}

/// Those of Windows.
pub mod windows {
    /// What stands between two components.
    pub const SEPARATOR: char = '\\';
    /// The same as text.
    pub const SEPARATOR_STR: &str = "\\";
    /// What separates them too, but behind `\\?\`.
    pub const ALT_SEPARATOR: char = '/';
    /// The same as text.
    pub const ALT_SEPARATOR_STR: &str = "/";
    dots!();
    /// The bytes that no name has.
    pub const DISALLOWED_FILENAME_BYTES: &[u8] = b"\\/:?*\"><|\0";
    /// The same as characters.
    pub const DISALLOWED_FILENAME_CHARS: &[char] = &['\\', '/', ':', '?', '*', '"', '>', '<', '|', '\0'];

    macro_rules! devices {
        ($($name:literal)*) => {
            /// The names that stand for devices, in either case, alone or with a dot behind.
            pub const RESERVED_DEVICE_NAMES: &[&[u8]] = &[$($name.as_bytes()),*];
            /// The same as texts.
            pub const RESERVED_DEVICE_NAMES_STR: &[&str] = &[$($name),*];
        };
    }

    devices!(
        "CON" "PRN" "AUX" "NUL"
        "COM1" "COM2" "COM3" "COM4" "COM5" "COM6" "COM7" "COM8" "COM9" "COM0"
        "LPT1" "LPT2" "LPT3" "LPT4" "LPT5" "LPT6" "LPT7" "LPT8" "LPT9" "LPT0"
    );
}
