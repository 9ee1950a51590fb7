//! The types of the machine's dialect, which is that of Unix: the library is built for no other.

use crate::unix::*;

macro_rules! native {
    ($($native:ident = $name:ident $(<$lt:lifetime>)?;)*) => {$(
        #[doc = concat!("The [`", stringify!($name), "`] that is of this machine's dialect.")]
        pub type $native$(<$lt>)? = $name$(<$lt>)?;
    )*};
}

native! {
    NativeEncoding = UnixEncoding;
    NativePath = UnixPath;
    NativePathBuf = UnixPathBuf;
    NativeComponent = UnixComponent<'a>;
    Utf8NativeEncoding = Utf8UnixEncoding;
    Utf8NativePath = Utf8UnixPath;
    Utf8NativePathBuf = Utf8UnixPathBuf;
    Utf8NativeComponent = Utf8UnixComponent<'a>;
}
