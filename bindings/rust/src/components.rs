//! What the iterators over components share, and what the components do.
//!
//! An iterator is the reading of a path, of which each step is taken by the library.

/// The iterator of one dialect, over bytes or text.
macro_rules! reading {
    (
        $Name:ident gives $Item:ident, $name:literal, $path:literal, $dialect:expr,
        $Slice:ty, $as_slice:ident, $Path:ident, $Encoding:ident, $Components:ident
    ) => {
        /// The components of a path, from both ends. It takes no memory.
        ///
        /// ```
        #[doc = concat!("use typed_path::", $path, ";")]
        ///
        #[doc = concat!("let mut components = ", $path, "::new(\"a/./b//c\").components();")]
        #[doc = concat!("assert_eq!(components.next_back(), Some(\"c\".try_into().unwrap()));")]
        #[doc = concat!("assert_eq!(components.next(), Some(\"a\".try_into().unwrap()));")]
        #[doc = concat!("assert_eq!(components.as_path(), ", $path, "::new(\"b\"));")]
        /// ```
        #[derive(Clone)]
        pub struct $Name<'a> {
            left: $crate::ffi::Left<'a, $Slice>,
        }

        impl<'a> $Name<'a> {
            #[inline]
            pub(crate) fn new(text: &'a $Slice) -> Self {
                $Name { left: $crate::ffi::Left::new(text) }
            }

            /// The path of the slice left.
            ///
            /// ```
            #[doc = concat!("use typed_path::", $path, ";")]
            ///
            #[doc = concat!("let mut components = ", $path, "::new(\"a/b/c\").components();")]
            /// components.next();
            #[doc = concat!("assert_eq!(components.as_path(), ", $path, "::new(\"b/c\"));")]
            /// ```
            #[inline]
            pub fn as_path<T: $crate::$Encoding>(&self) -> &'a $crate::$Path<T> {
                $crate::$Path::new($crate::$Components::$as_slice(self))
            }

            /// The first component left, which is not taken.
            #[inline]
            fn first(&self) -> Option<$crate::ffi::Taken<'a, $Slice>> {
                let mut left = self.left;
                left.next($dialect)
            }
        }

        impl $crate::private::Sealed for $Name<'_> {}

        impl<'a> $crate::$Components<'a> for $Name<'a> {
            type Component = $Item<'a>;

            #[inline]
            fn $as_slice(&self) -> &'a $Slice {
                self.left.slice()
            }

            fn is_absolute(&self) -> bool {
                self.left.has_its_front() && $crate::ffi::is_absolute($dialect, self.as_ref())
            }

            fn has_root(&self) -> bool {
                if self.left.has_its_front() {
                    return $crate::ffi::has_root($dialect, self.as_ref());
                }
                // No prefix is left, so the root is written or there is none.
                matches!(self.first(), Some(first) if first.kind == $crate::ffi::kind::ROOT)
            }
        }

        impl AsRef<[u8]> for $Name<'_> {
            #[inline]
            fn as_ref(&self) -> &[u8] {
                $crate::$Components::$as_slice(self).as_ref()
            }
        }

        impl<T: $crate::$Encoding> AsRef<$crate::$Path<T>> for $Name<'_> {
            #[inline]
            fn as_ref(&self) -> &$crate::$Path<T> {
                self.as_path()
            }
        }

        impl core::fmt::Debug for $Name<'_> {
            fn fmt(&self, f: &mut core::fmt::Formatter<'_>) -> core::fmt::Result {
                $crate::components::debug_items(f, $name, || self.clone())
            }
        }

        impl<'a> Iterator for $Name<'a> {
            type Item = $Item<'a>;

            #[inline]
            fn next(&mut self) -> Option<$Item<'a>> {
                let taken = self.left.next($dialect)?;
                Some($Item::taken(self.left.path(), taken))
            }
        }

        impl DoubleEndedIterator for $Name<'_> {
            #[inline]
            fn next_back(&mut self) -> Option<Self::Item> {
                let taken = self.left.next_back($dialect)?;
                Some($Item::taken(self.left.path(), taken))
            }
        }

        impl core::iter::FusedIterator for $Name<'_> {}

        impl PartialEq for $Name<'_> {
            #[inline]
            fn eq(&self, other: &Self) -> bool {
                $crate::ffi::equal($dialect, self.as_ref(), other.as_ref())
            }
        }

        impl Eq for $Name<'_> {}

        impl PartialOrd for $Name<'_> {
            #[inline]
            fn partial_cmp(&self, other: &Self) -> Option<core::cmp::Ordering> {
                Some(Ord::cmp(self, other))
            }
        }

        impl Ord for $Name<'_> {
            #[inline]
            fn cmp(&self, other: &Self) -> core::cmp::Ordering {
                $crate::ffi::compare($dialect, self.as_ref(), other.as_ref())
            }
        }
    };
}

pub(crate) use reading;

/// Prints the items of an iterator behind its name.
pub(crate) fn debug_items<I>(
    f: &mut core::fmt::Formatter<'_>, name: &str, items: impl Fn() -> I,
) -> core::fmt::Result
where
    I: Iterator,
    I::Item: core::fmt::Debug,
{
    struct Items<F>(F);

    impl<F: Fn() -> I, I: Iterator<Item = D>, D: core::fmt::Debug> core::fmt::Debug for Items<F> {
        fn fmt(&self, f: &mut core::fmt::Formatter<'_>) -> core::fmt::Result {
            f.debug_list().entries((self.0)()).finish()
        }
    }

    f.debug_tuple(name).field(&Items(items)).finish()
}

/// An encoding of bytes, or of text.
macro_rules! encoding {
    (
        $Name:ident, $name:literal, $label:literal, $dialect:expr, $Components:ident, $path:literal,
        $Encoding:ident, $Slice:ty, $Owned:ty, $change:path
    ) => {
        #[doc = concat!("The dialect of a [`", $path, "`].")]
        ///
        /// ```
        #[doc = concat!("use typed_path::{", $name, ", ", stringify!($Encoding), "};")]
        ///
        #[doc = concat!("assert_eq!(", $name, "::label(), \"", $label, "\");")]
        #[doc = concat!("assert_eq!(", $name, ".to_string(), \"", $name, "\");")]
        /// ```
        #[derive(Copy, Clone)]
        pub struct $Name;

        impl $crate::private::Sealed for $Name {}

        impl $crate::private::Dialect for $Name {
            const DIALECT: u32 = $dialect;
        }

        impl $crate::$Encoding for $Name {
            type Components<'a> = $Components<'a>;

            fn label() -> &'static str {
                $label
            }

            #[inline]
            fn components(path: &$Slice) -> $Components<'_> {
                $Components::new(path)
            }

            #[inline]
            fn hash<H: core::hash::Hasher>(path: &$Slice, h: &mut H) {
                $crate::ffi::with_key_words($dialect, path.as_ref(), |words| h.write(words))
            }

            #[inline]
            fn push(current_path: &mut $Owned, path: &$Slice) {
                let path: &[u8] = path.as_ref();
                $crate::ffi::or_end($change(current_path, |current| {
                    $crate::ffi::push($dialect, current, path)
                }))
            }

            #[inline]
            fn push_checked(
                current_path: &mut $Owned, path: &$Slice,
            ) -> Result<(), $crate::CheckedPathError> {
                let path: &[u8] = path.as_ref();
                $crate::ffi::or_refused($change(current_path, |current| {
                    $crate::ffi::push_checked($dialect, current, path)
                }))
            }
        }

        impl core::fmt::Debug for $Name {
            fn fmt(&self, f: &mut core::fmt::Formatter<'_>) -> core::fmt::Result {
                f.write_str($name)
            }
        }

        impl core::fmt::Display for $Name {
            fn fmt(&self, f: &mut core::fmt::Formatter<'_>) -> core::fmt::Result {
                f.pad($name)
            }
        }
    };
}

pub(crate) use encoding;

/// What `Component` asks of an enum whose variants `RootDir`, `CurDir`, `ParentDir` and `Normal` it shares with
/// the others.
macro_rules! component {
    (
        $Name:ident, $Components:ident, $Component:ident, $path:literal, $name:literal,
        $Slice:ty, $as_slice:ident, $Path:ident, $Encoding:ident, $constants:ident, $dialect:expr,
        $root:expr, $current:expr, $parent:expr,
        prefix { $($prefix:pat => $raw:expr, $prefix_is_root:expr)? }
    ) => {
        impl $crate::private::Sealed for $Name<'_> {}

        impl $Name<'_> {
            /// The path of the component alone.
            ///
            /// ```
            #[doc = concat!("use typed_path::{", $name, ", ", $path, "};")]
            ///
            #[doc = concat!("assert_eq!(", $name, "::ParentDir.as_path(), ", $path, "::new(\"..\"));")]
            /// ```
            #[inline]
            pub fn as_path<T: $crate::$Encoding>(&self) -> &$crate::$Path<T> {
                $crate::$Path::new($crate::$Component::$as_slice(self))
            }
        }

        impl<'a> $crate::$Component<'a> for $Name<'a> {
            #[inline]
            fn $as_slice(&self) -> &'a $Slice {
                match self {
                    $($prefix => $raw,)?
                    $Name::RootDir => $root,
                    $Name::CurDir => $current,
                    $Name::ParentDir => $parent,
                    $Name::Normal(name) => name,
                }
            }

            #[inline]
            fn is_root(&self) -> bool {
                match self {
                    $($prefix => $prefix_is_root,)?
                    other => matches!(other, $Name::RootDir),
                }
            }

            #[inline]
            fn is_normal(&self) -> bool {
                matches!(self, $Name::Normal(_))
            }

            #[inline]
            fn is_parent(&self) -> bool {
                matches!(self, $Name::ParentDir)
            }

            #[inline]
            fn is_current(&self) -> bool {
                matches!(self, $Name::CurDir)
            }

            fn is_valid(&self) -> bool {
                match self {
                    $Name::Normal(name) => $crate::ffi::is_valid_name($dialect, name.as_ref()),
                    _ => true,
                }
            }

            #[inline]
            fn len(&self) -> usize {
                $crate::$Component::$as_slice(self).len()
            }

            fn root() -> Self {
                $Name::RootDir
            }

            fn parent() -> Self {
                $Name::ParentDir
            }

            fn current() -> Self {
                $Name::CurDir
            }
        }

        impl AsRef<[u8]> for $Name<'_> {
            #[inline]
            fn as_ref(&self) -> &[u8] {
                $crate::$Component::$as_slice(self).as_ref()
            }
        }

        impl<T: $crate::$Encoding> AsRef<$crate::$Path<T>> for $Name<'_> {
            #[inline]
            fn as_ref(&self) -> &$crate::$Path<T> {
                self.as_path()
            }
        }

        impl<'a> TryFrom<&'a $Slice> for $Name<'a> {
            type Error = $crate::ParseError;

            /// The only component of a path.
            ///
            /// # Errors
            ///
            /// There is none, or more than one.
            fn try_from(path: &'a $Slice) -> Result<Self, $crate::ParseError> {
                let mut components = $Components::new(path);
                match (components.next(), components.next()) {
                    (None, _) => Err("no component found"),
                    (Some(only), None) => Ok(only),
                    _ => Err("found more than one component"),
                }
            }
        }
    };
}

pub(crate) use component;

/// The values of bytes read from an array, and from text.
macro_rules! from_arrays_and_text {
    ($($Name:ident),*) => {$(
        impl<'a, const N: usize> TryFrom<&'a [u8; N]> for $Name<'a> {
            type Error = $crate::ParseError;

            fn try_from(path: &'a [u8; N]) -> Result<Self, $crate::ParseError> {
                Self::try_from(path.as_slice())
            }
        }

        impl<'a> TryFrom<&'a str> for $Name<'a> {
            type Error = $crate::ParseError;

            fn try_from(path: &'a str) -> Result<Self, $crate::ParseError> {
                Self::try_from(path.as_bytes())
            }
        }
    )*};
}

pub(crate) use from_arrays_and_text;

/// The text of an iterator, or of a component, of text.
macro_rules! lends_text {
    ($($Name:ty),*) => {$(
        impl AsRef<str> for $Name {
            #[inline]
            fn as_ref(&self) -> &str {
                self.as_str()
            }
        }
    )*};
}

pub(crate) use lends_text;

/// Prints a value of text as its text.
macro_rules! shows_text {
    ($($Name:ty),*) => {$(
        impl core::fmt::Display for $Name {
            fn fmt(&self, f: &mut core::fmt::Formatter<'_>) -> core::fmt::Result {
                core::fmt::Display::fmt(self.as_str(), f)
            }
        }
    )*};
}

pub(crate) use shows_text;

/// What every path is asked about a dialect, and what those of the dialect have.
macro_rules! of_dialect {
    (
        $Path:ident $PathBuf:ident $Encoding:ident, $Own:ident $OwnPath:ident $Typed:ident $TypedBuf:ident,
        $path:literal, $typed:literal, $other:literal, $example:literal, $turned:literal,
        $has:ident $with:ident $with_checked:ident $of_typed:ident $of_typed_buf:ident
    ) => {
        #[doc = concat!("The dialect of a [`", $path, "`].")]
        impl<T: $Encoding> $Path<T> {
            #[doc = concat!("Whether the dialect is that of a [`", $path, "`].")]
            ///
            /// ```
            #[doc = concat!("use typed_path::{", $path, ", ", $other, "};")]
            ///
            #[doc = concat!("assert!(", $path, "::new(\"a\").", stringify!($has), "());")]
            #[doc = concat!("assert!(!", $other, "::new(\"a\").", stringify!($has), "());")]
            /// ```
            pub fn $has(&self) -> bool {
                T::DIALECT == <$Own as $crate::private::Dialect>::DIALECT
            }

            #[doc = concat!("The path as a [`", $path, "`] is written ([`with_encoding`](Self::with_encoding)).")]
            ///
            /// ```
            #[doc = concat!("use typed_path::", $other, ";")]
            ///
            #[doc = concat!("let path = ", $other, "::new(r\"", $example, "\").", stringify!($with), "();")]
            #[doc = concat!("assert_eq!(path.to_string(), r\"", $turned, "\");")]
            /// ```
            #[inline]
            pub fn $with(&self) -> $PathBuf<$Own> {
                self.with_encoding()
            }

            /// The same by checked pushes ([`with_encoding_checked`](Self::with_encoding_checked)).
            ///
            /// # Errors
            ///
            /// What the first component that offends there is refused for.
            ///
            /// ```
            #[doc = concat!("use typed_path::", $other, ";")]
            ///
            #[doc = concat!("let path = ", $other, "::new(r\"", $example, "\").", stringify!($with_checked), "();")]
            #[doc = concat!("assert_eq!(path.unwrap().to_string(), r\"", $turned, "\");")]
            #[doc = concat!("assert!(", $other, "::new(\"a\\0\").", stringify!($with_checked), "().is_err());")]
            /// ```
            #[inline]
            pub fn $with_checked(&self) -> Result<$PathBuf<$Own>, $crate::CheckedPathError> {
                self.with_encoding_checked()
            }
        }

        impl $OwnPath {
            /// The path as one of either dialect.
            ///
            /// ```
            #[doc = concat!("use typed_path::{", $typed, ", ", $path, "};")]
            ///
            #[doc = concat!("let path: ", $typed, " = ", $path, "::new(\"a\").to_typed_path();")]
            /// ```
            #[inline]
            pub fn to_typed_path(&self) -> $crate::$Typed<'_> {
                $crate::$Typed::$of_typed(self)
            }

            /// A copy as one of either dialect.
            ///
            /// ```
            #[doc = concat!("use typed_path::{", $typed, "Buf, ", $path, "};")]
            ///
            #[doc = concat!("let path: ", $typed, "Buf = ", $path, "::new(\"a\").to_typed_path_buf();")]
            /// ```
            #[inline]
            pub fn to_typed_path_buf(&self) -> $crate::$TypedBuf {
                $crate::$TypedBuf::$of_typed_buf(self)
            }
        }
    };
}

pub(crate) use of_dialect;

/// Components of std, which are of this machine, from and to those of a dialect. `$prefix` is what a prefix of std
/// becomes, and the last patterns are of components that no component of std is.
#[cfg(feature = "std")]
macro_rules! components_of_std {
    ($Name:ident, $prefix:ident => $from_prefix:expr $(, $none:pat)?) => {
        impl<'a> TryFrom<$Name<'a>> for std::path::Component<'a> {
            type Error = $Name<'a>;

            fn try_from(component: $Name<'a>) -> Result<Self, $Name<'a>> {
                Ok(match component {
                    $($none => return Err(component),)?
                    $Name::RootDir => Self::RootDir,
                    $Name::CurDir => Self::CurDir,
                    $Name::ParentDir => Self::ParentDir,
                    $Name::Normal(name) => match core::str::from_utf8(name) {
                        Ok(name) => Self::Normal(name.as_ref()),
                        Err(_) => return Err(component),
                    },
                })
            }
        }

        impl<'a> TryFrom<std::path::Component<'a>> for $Name<'a> {
            type Error = std::path::Component<'a>;

            fn try_from(component: std::path::Component<'a>) -> Result<Self, Self::Error> {
                use std::path::Component;

                let made = match component {
                    Component::Prefix($prefix) => $from_prefix,
                    Component::RootDir => Some($Name::RootDir),
                    Component::CurDir => Some($Name::CurDir),
                    Component::ParentDir => Some($Name::ParentDir),
                    Component::Normal(name) => name.to_str().map(|name| $Name::Normal(name.as_bytes())),
                };
                made.ok_or(component)
            }
        }
    };
}

#[cfg(feature = "std")]
pub(crate) use components_of_std;
