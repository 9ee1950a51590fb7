//! Paths as texts of serde.
#![cfg(feature = "serde")]

use std::fmt;

use serde::de::value::{BorrowedBytesDeserializer, BorrowedStrDeserializer, Error, StrDeserializer};
use serde::{Deserialize, Serialize};
use typed_path::*;

/// Prints what a value is written as: a formatter is a serializer of texts.
struct Written<T>(T);

impl<T: Serialize> fmt::Display for Written<T> {
    fn fmt(&self, f: &mut fmt::Formatter<'_>) -> fmt::Result {
        self.0.serialize(f)
    }
}

macro_rules! texts {
    ($text:literal: $($made:expr => $Own:ty),*) => {$(
        assert_eq!(Written(&$made).to_string(), $text);
        let read = <$Own>::deserialize(BorrowedStrDeserializer::<Error>::new($text)).unwrap();
        assert_eq!(Written(&read).to_string(), $text);
    )*};
}

#[test]
fn paths_are_texts() {
    texts! {
        "/a/b":
        UnixPath::new("/a/b") => &UnixPath, UnixPathBuf::from("/a/b") => UnixPathBuf,
        UnixPath::new("/a/b") => Box<UnixPath>, Utf8UnixPath::new("/a/b") => Box<Utf8UnixPath>,
        Utf8UnixPath::new("/a/b") => &Utf8UnixPath, Utf8UnixPathBuf::from("/a/b") => Utf8UnixPathBuf,
        TypedPath::unix("/a/b") => TypedPath, TypedPathBuf::from_unix("/a/b") => TypedPathBuf,
        Utf8TypedPathBuf::from_unix("/a/b") => Utf8TypedPathBuf
    }
    let derived = TypedPathBuf::deserialize(StrDeserializer::<Error>::new(r"C:\a")).unwrap();
    assert!(derived.is_windows());
    let lent = Utf8TypedPath::deserialize(BorrowedStrDeserializer::<Error>::new(r"C:\a")).unwrap();
    assert_eq!(lent, r"C:\a");
}

#[test]
fn bytes_that_are_no_text_are_refused() {
    use fmt::Write;

    let path = UnixPath::new(b"a\xFF");
    assert!(write!(String::new(), "{}", Written(path)).is_err());
    assert!(write!(String::new(), "{}", Written(TypedPath::unix(b"\xFF"))).is_err());
    let bytes = || BorrowedBytesDeserializer::<Error>::new(b"a\xFF");
    assert_eq!(<&UnixPath>::deserialize(bytes()).unwrap().as_bytes(), b"a\xFF");
    assert!(<&Utf8UnixPath>::deserialize(bytes()).is_err());
    assert!(Utf8UnixPathBuf::deserialize(bytes()).is_err());
}

/// A text that the input does not lend makes an owned path, and no borrowed one.
#[test]
fn borrowed_paths_borrow() {
    let text = || StrDeserializer::<Error>::new("/a");
    assert!(<&UnixPath>::deserialize(text()).is_err() && TypedPath::deserialize(text()).is_err());
    assert_eq!(UnixPathBuf::deserialize(text()).unwrap(), UnixPath::new("/a"));
}
