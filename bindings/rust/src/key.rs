//! Keys of paths.

use alloc::boxed::Box;

use crate::ffi::{self, or_end};

/// The key of a path: bytes that equal paths of one dialect share, and that no other path has. So to compare two keys
/// or to hash one is to do it with bytes, and the path is not read again. Of no two paths that differ does the one
/// key begin with the other.
///
/// ```
/// use std::collections::HashMap;
/// use typed_path::{Key, WindowsPath};
///
/// let mut sizes: HashMap<Key, u64> = HashMap::new();
/// sizes.insert(WindowsPath::new(r"C:\a\b").key(), 7);
/// assert_eq!(sizes.get(&WindowsPath::new("c:/a/./b").key()), Some(&7));
/// ```
#[derive(Clone, Debug, PartialEq, Eq, Hash, PartialOrd, Ord)]
pub struct Key {
    dialect: u32,
    words: Box<[u8]>,
}

impl Key {
    pub(crate) fn new(dialect: u32, path: &[u8]) -> Self {
        Key { dialect, words: or_end(ffi::key_words(dialect, path)).into_boxed_slice() }
    }

    /// The bytes of the key. A path of each dialect may have the same.
    ///
    /// ```
    /// use typed_path::UnixPath;
    ///
    /// assert_eq!(UnixPath::new("/a").key().as_bytes(), UnixPath::new("//a/.").key().as_bytes());
    /// ```
    pub fn as_bytes(&self) -> &[u8] {
        &self.words
    }
}
