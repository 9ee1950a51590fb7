//! Paths as texts of serde. A path of bytes that is not UTF-8 is refused.

use alloc::boxed::Box;
use alloc::string::String;
use core::fmt;
use core::marker::PhantomData;

use ::serde::de::{self, Unexpected, Visitor};
use ::serde::{Deserialize, Deserializer, Serialize, Serializer, ser};

use crate::encoding::*;
use crate::family::*;
use crate::typed::*;

/// What a path of bytes is written as.
fn text_of<E: ser::Error>(text: Option<&str>) -> Result<&str, E> {
    text.ok_or_else(|| E::custom("the path is not UTF-8"))
}

macro_rules! written {
    ($([$($generic:tt)*] $Own:ty: $path:ident => $text:expr;)*) => {$(
        impl<$($generic)*> Serialize for $Own {
            fn serialize<S: Serializer>(&self, serializer: S) -> Result<S::Ok, S::Error> {
                let $path = self;
                serializer.serialize_str($text)
            }
        }
    )*};
}

written! {
    [T: Encoding] Path<T>: path => text_of(path.to_str())?;
    [T: Encoding] PathBuf<T>: path => text_of(path.to_str())?;
    [T: Utf8Encoding] Utf8Path<T>: path => path.as_str();
    [T: Utf8Encoding] Utf8PathBuf<T>: path => path.as_str();
    [] TypedPath<'_>: path => text_of(path.to_str())?;
    [] TypedPathBuf: path => text_of(path.to_str())?;
    [] Utf8TypedPath<'_>: path => path.as_str();
    [] Utf8TypedPathBuf: path => path.as_str();
}

/// Takes a text for a `V`.
struct Taken<V>(PhantomData<V>);

/// The text of bytes that the input lends.
fn lent_text<E: de::Error>(bytes: &[u8]) -> Result<&str, E> {
    core::str::from_utf8(bytes).map_err(|_| E::invalid_value(Unexpected::Bytes(bytes), &"a path of text"))
}

/// Paths that borrow from the input.
macro_rules! borrowed {
    (
        $([$($generic:tt)*] $Own:ty as $Borrowed:ty: $text:ident => $of_text:expr, $bytes:ident => $of_bytes:expr;)*
    ) => {$(
        impl<'de, $($generic)*> Visitor<'de> for Taken<$Own> {
            type Value = $Own;

            fn expecting(&self, f: &mut fmt::Formatter<'_>) -> fmt::Result {
                f.write_str("a path that the input lends")
            }

            fn visit_borrowed_str<E: de::Error>(self, $text: &'de str) -> Result<$Own, E> {
                Ok($of_text)
            }

            fn visit_borrowed_bytes<E: de::Error>(self, $bytes: &'de [u8]) -> Result<$Own, E> {
                Ok($of_bytes)
            }
        }

        impl<'de: 'a, 'a, $($generic)*> Deserialize<'de> for $Borrowed {
            fn deserialize<D: Deserializer<'de>>(deserializer: D) -> Result<Self, D::Error> {
                deserializer.deserialize_str(Taken::<$Own>(PhantomData))
            }
        }
    )*};
}

borrowed! {
    [T: Encoding + 'de] &'de Path<T> as &'a Path<T>: text => Path::new(text), bytes => Path::new(bytes);
    [T: Utf8Encoding + 'de] &'de Utf8Path<T> as &'a Utf8Path<T>:
        text => Utf8Path::new(text), bytes => Utf8Path::new(lent_text(bytes)?);
    [] TypedPath<'de> as TypedPath<'a>: text => TypedPath::derive(text), bytes => TypedPath::derive(bytes);
    [] Utf8TypedPath<'de> as Utf8TypedPath<'a>:
        text => Utf8TypedPath::derive(text), bytes => Utf8TypedPath::derive(lent_text(bytes)?);
}

/// Paths that own what the input has.
macro_rules! owned {
    ($([$($generic:tt)*] $Own:ty;)*) => {$(
        impl<'de, $($generic)*> Visitor<'de> for Taken<$Own> {
            type Value = $Own;

            fn expecting(&self, f: &mut fmt::Formatter<'_>) -> fmt::Result {
                f.write_str("the text of a path")
            }

            fn visit_str<E: de::Error>(self, text: &str) -> Result<$Own, E> {
                Ok(text.into())
            }

            fn visit_string<E: de::Error>(self, text: String) -> Result<$Own, E> {
                Ok(text.into())
            }

            fn visit_bytes<E: de::Error>(self, bytes: &[u8]) -> Result<$Own, E> {
                match core::str::from_utf8(bytes) {
                    Ok(text) => Ok(text.into()),
                    Err(_) => Err(E::invalid_value(Unexpected::Bytes(bytes), &self)),
                }
            }
        }

        impl<'de, $($generic)*> Deserialize<'de> for $Own {
            fn deserialize<D: Deserializer<'de>>(deserializer: D) -> Result<Self, D::Error> {
                deserializer.deserialize_string(Taken::<$Own>(PhantomData))
            }
        }
    )*};
}

owned! {
    [T: Encoding] PathBuf<T>;
    [T: Utf8Encoding] Utf8PathBuf<T>;
    [] TypedPathBuf;
    [] Utf8TypedPathBuf;
}

impl<'de, T: Encoding> Deserialize<'de> for Box<Path<T>> {
    fn deserialize<D: Deserializer<'de>>(deserializer: D) -> Result<Self, D::Error> {
        PathBuf::deserialize(deserializer).map(PathBuf::into_boxed_path)
    }
}

impl<'de, T: Utf8Encoding> Deserialize<'de> for Box<Utf8Path<T>> {
    fn deserialize<D: Deserializer<'de>>(deserializer: D) -> Result<Self, D::Error> {
        Utf8PathBuf::deserialize(deserializer).map(Utf8PathBuf::into_boxed_path)
    }
}
