// What one crate answers of two paths: `main.rs` takes this in once for each, where `typed_path` names it.

use super::{Told, fed, items};
use typed_path::*;

/// A function over paths of one dialect, by the types of a family.
macro_rules! of_paths {
    ($name:ident: $Path:ident, $PathBuf:ident, $Encoding:ident, $as_slice:ident) => {
        fn $name<T: $Encoding + 'static>(told: &mut Told, path: &$Path<T>, other: &$Path<T>, mut ends: u64) {
            told.tell("is_absolute", (path.is_absolute(), path.is_relative()));
            told.tell("has_root", path.has_root());
            told.tell("is_valid", path.is_valid());
            told.tell("parent", path.parent().map(|it| it.$as_slice()));
            told.tell("ancestors", path.ancestors().map(|it| it.$as_slice()).collect::<Vec<_>>());
            told.tell("file_name", path.file_name());
            told.tell("file_stem", path.file_stem());
            told.tell("extension", path.extension());
            told.tell("strip_prefix", path.strip_prefix(other).map(|it| it.$as_slice()));
            let parent = path.parent().unwrap_or(path);
            told.tell("strip_prefix of its parent", path.strip_prefix(parent).map(|it| it.$as_slice()));
            told.tell("starts_with", (path.starts_with(other), path.starts_with(parent)));
            told.tell(
                "ends_with",
                (path.ends_with(other), path.ends_with(path.file_name().unwrap_or_default())),
            );
            told.tell("==", (path == other, path == &path.normalize(), *path == *other.$as_slice()));
            told.tell("cmp", (path.cmp(other), path.partial_cmp(parent)));
            told.tell("hash", path != other || fed(path) == fed(other));
            told.tell("normalize", path.normalize().$as_slice());
            told.tell("absolutize", path.absolutize().map(|it| it.$as_slice().to_owned()).ok());
            told.tell("join", path.join(other).$as_slice());
            told.tell("join_checked", path.join_checked(other).map(|it| it.$as_slice().to_owned()));
            told.tell("with_file_name", path.with_file_name(other.$as_slice()).$as_slice());
            told.tell("with_extension", path.with_extension(other.$as_slice()).$as_slice());
            told.tell("with_unix_encoding", path.with_unix_encoding().$as_slice());
            told.tell("with_windows_encoding", path.with_windows_encoding().$as_slice());
            let checked = path.with_unix_encoding_checked();
            told.tell("with_unix_encoding_checked", checked.map(|it| it.$as_slice().to_owned()));
            let checked = path.with_windows_encoding_checked();
            told.tell("with_windows_encoding_checked", checked.map(|it| it.$as_slice().to_owned()));
            told.tell("Debug", (path, path.to_path_buf()));
            told.tell("Debug of iterators", (items(&path.iter()), items(&path.components())));

            let mut owned = path.to_path_buf();
            told.tell("set_extension", (owned.set_extension(other.$as_slice()), &owned));
            owned.set_file_name(other.$as_slice());
            told.tell("set_file_name", &owned);
            told.tell("pop", (owned.pop(), &owned));
            owned.push(other);
            told.tell("push", &owned);
            told.tell("push_checked", (owned.push_checked(path), &owned));
            owned.extend(path.ancestors());
            told.tell("extend", &owned);
            told.tell("from_iter", path.iter().collect::<$PathBuf<T>>());

            // From both ends, with what is left at each step.
            let (mut all, mut texts) = (path.components(), path.iter());
            loop {
                told.tell(
                    "left",
                    (all.$as_slice(), all.is_absolute(), all.has_root(), texts.as_path().$as_slice()),
                );
                let back = ends & 1 == 1;
                ends = ends.rotate_right(1);
                told.tell("text", if back { texts.next_back() } else { texts.next() });
                let Some(one) = (if back { all.next_back() } else { all.next() }) else { break };
                told.tell("component", (&one, one.$as_slice(), one.len(), one.is_valid()));
                told.tell("kind", (one.is_root(), one.is_normal(), one.is_parent(), one.is_current()));
            }
            told.tell("next after the end", (all.next(), all.next_back(), all.$as_slice()));
            let (mut one, mut two) = (path.components(), other.components());
            (one.next(), two.next_back());
            told.tell("== of components", one == two);
            told.tell("cmp of components", Ord::cmp(&one, &two));
        }
    };
}

of_paths!(bytes: Path, PathBuf, Encoding, as_bytes);
of_paths!(text: Utf8Path, Utf8PathBuf, Utf8Encoding, as_str);

/// A function over what Windows paths alone answer.
macro_rules! of_windows {
    ($name:ident: $Path:ident, $Component:ident, $Prefix:ident, $PrefixComponent:ident, $as_slice:ident) => {
        fn $name(told: &mut Told, path: &$Path, mut ends: u64) {
            let mut all = path.components();
            loop {
                told.tell("prefix", all.prefix().map(|it| (it, it.$as_slice(), it.len(), it.kind())));
                told.tell("prefix_kind", all.prefix_kind().map(|it| (it, it.len(), it.is_verbatim())));
                told.tell("has_any_verbatim_prefix", all.has_any_verbatim_prefix());
                told.tell("has_prefix", (all.has_prefix(), all.has_disk_prefix(), all.has_unc_prefix()));
                told.tell("has_verbatim_prefix", (all.has_verbatim_prefix(), all.has_verbatim_unc_prefix()));
                told.tell(
                    "has_device_ns_prefix",
                    (all.has_device_ns_prefix(), all.has_verbatim_disk_prefix()),
                );
                told.tell("has_physical_root", (all.has_physical_root(), all.has_implicit_root()));
                let taken = if ends & 1 == 0 { all.next() } else { all.next_back() };
                ends = ends.rotate_right(1);
                let Some(one) = taken else { break };
                told.tell("of a component", (one.is_prefix(), one.prefix(), one.prefix_kind(), fed(&one)));
            }
            let text = path.$as_slice();
            told.tell("a component", $Component::try_from(text));
            told.tell("a prefix", $Prefix::try_from(text));
            told.tell("a prefix component", $PrefixComponent::try_from(text));
        }
    };
}

of_windows!(windows: WindowsPath, WindowsComponent, WindowsPrefix, WindowsPrefixComponent, as_bytes);
of_windows!(windows_text: Utf8WindowsPath, Utf8WindowsComponent, Utf8WindowsPrefix, Utf8WindowsPrefixComponent, as_str);

/// A function over paths of either dialect.
macro_rules! of_typed {
    ($name:ident: $Path:ident, $PathBuf:ident, $as_slice:ident, $slice:ty) => {
        fn $name(told: &mut Told, path: $Path, other: &$slice, mut ends: u64) {
            told.tell("is_windows", (path.is_windows(), path.is_unix()));
            told.tell("is_absolute", (path.is_absolute(), path.is_relative(), path.has_root()));
            told.tell("parent", path.parent().map(|it| it.to_path_buf()));
            told.tell("ancestors", path.ancestors().map(|it| it.to_path_buf()).collect::<Vec<_>>());
            told.tell("names", (path.file_name(), path.file_stem(), path.extension()));
            told.tell("strip_prefix", path.strip_prefix(other).map(|it| it.to_path_buf()));
            told.tell("starts_with", (path.starts_with(other), path.ends_with(other)));
            told.tell("normalize", path.normalize());
            told.tell("absolutize", path.absolutize().ok());
            told.tell("join", path.join(other));
            told.tell("join_checked", path.join_checked(other));
            told.tell("with_file_name", path.with_file_name(other));
            told.tell("with_extension", path.with_extension(other));
            told.tell("with_unix_encoding", path.with_unix_encoding());
            told.tell("with_windows_encoding", path.with_windows_encoding());
            told.tell("with_unix_encoding_checked", path.with_unix_encoding_checked());
            told.tell("with_windows_encoding_checked", path.with_windows_encoding_checked());
            let (lent, kept) = ($Path::derive(other), $PathBuf::from(other));
            told.tell("==", (path == lent, lent == path, path == kept, kept == path));

            let mut owned = path.to_path_buf();
            told.tell("set_extension", (owned.set_extension(other), &owned));
            owned.set_file_name(other);
            told.tell("set_file_name", &owned);
            told.tell("pop", (owned.pop(), &owned));
            owned.push(other);
            told.tell("push", &owned);
            told.tell("push_checked", (owned.push_checked(path.$as_slice()), &owned));
            told.tell("UnixPathBuf::try_from", UnixPathBuf::try_from(TypedPathBuf::from(owned.$as_slice())));

            let (mut all, mut texts) = (path.components(), path.iter());
            loop {
                told.tell("left", (all.$as_slice(), all.to_path(), all.is_absolute(), all.has_root()));
                told.tell("texts left", (texts.$as_slice(), texts.to_path(), &texts));
                let back = ends & 1 == 1;
                ends = ends.rotate_right(1);
                told.tell("text", if back { texts.next_back() } else { texts.next() });
                let Some(one) = (if back { all.next_back() } else { all.next() }) else { break };
                told.tell("component", (&one, one.$as_slice(), one.to_path(), one.len()));
                told.tell("kind", (one.is_root(), one.is_normal(), one.is_parent(), one.is_current()));
            }
            let (mut one, mut two) = (path.components(), $Path::derive(other).components());
            (one.next(), two.next_back());
            told.tell("== of components", (one == two, PartialOrd::partial_cmp(&one, &two)));
        }
    };
}

of_typed!(typed: TypedPath, TypedPathBuf, as_bytes, [u8]);
of_typed!(typed_text: Utf8TypedPath, Utf8TypedPathBuf, as_str, str);

/// Tells what asks for no path: constants, and what errors and encodings print.
pub fn fixed(told: &mut Told) {
    use constants::{unix, windows};
    told.part = "fixed";
    told.tell("constants::unix", (unix::SEPARATOR, unix::SEPARATOR_STR, unix::CURRENT_DIR, unix::PARENT_DIR));
    told.tell("constants::unix", (unix::CURRENT_DIR_STR, unix::PARENT_DIR_STR));
    told.tell("constants::unix", (unix::DISALLOWED_FILENAME_BYTES, unix::DISALLOWED_FILENAME_CHARS));
    told.tell("constants::windows", (windows::SEPARATOR, windows::SEPARATOR_STR, windows::ALT_SEPARATOR));
    told.tell("constants::windows", (windows::ALT_SEPARATOR_STR, windows::CURRENT_DIR, windows::PARENT_DIR));
    told.tell("constants::windows", (windows::CURRENT_DIR_STR, windows::PARENT_DIR_STR));
    told.tell("constants::windows", (windows::DISALLOWED_FILENAME_BYTES, windows::DISALLOWED_FILENAME_CHARS));
    told.tell("constants::windows", (windows::RESERVED_DEVICE_NAMES, windows::RESERVED_DEVICE_NAMES_STR));
    for error in [
        CheckedPathError::InvalidFilename,
        CheckedPathError::PathTraversalAttack,
        CheckedPathError::UnexpectedPrefix,
        CheckedPathError::UnexpectedRoot,
    ] {
        told.tell("CheckedPathError", (error.to_string(), &error));
    }
    told.tell("StripPrefixError", UnixPath::new("a").strip_prefix("b").map_err(|error| error.to_string()));
    told.tell("UnixEncoding", (UnixEncoding, UnixEncoding::label(), UnixEncoding.to_string()));
    told.tell("WindowsEncoding", (WindowsEncoding, WindowsEncoding::label(), WindowsEncoding.to_string()));
    told.tell(
        "PlatformEncoding",
        (PlatformEncoding, PlatformEncoding::label(), PlatformEncoding.to_string()),
    );
    told.tell(
        "Utf8UnixEncoding",
        (Utf8UnixEncoding, Utf8UnixEncoding::label(), Utf8UnixEncoding.to_string()),
    );
    let encoding = (Utf8WindowsEncoding, Utf8WindowsEncoding::label(), Utf8WindowsEncoding.to_string());
    told.tell("Utf8WindowsEncoding", encoding);
    told.tell("utils", (utils::current_dir().ok(), utils::utf8_current_exe().ok(), utils::temp_dir().ok()));
}

/// Tells what the crate answers of a path and another one. The bits of `ends` name the ends from which the path
/// is read.
pub fn answers(told: &mut Told, path: &[u8], other: &[u8], ends: u64) {
    told.part = "Unix";
    let of_unix = UnixPath::new(path);
    bytes(told, of_unix, UnixPath::new(other), ends);
    told.tell("to_str", (of_unix.to_str(), of_unix.to_string_lossy()));
    told.tell("display", (of_unix.to_string(), of_unix.display().to_string()));
    told.tell("a component", UnixComponent::try_from(path));
    told.part = "Windows";
    bytes(told, WindowsPath::new(path), WindowsPath::new(other), ends);
    windows(told, WindowsPath::new(path), ends);
    told.part = "either dialect";
    typed(told, TypedPath::derive(path), other, ends);
    if let (Ok(path), Ok(other)) = (std::str::from_utf8(path), std::str::from_utf8(other)) {
        told.part = "Unix text";
        text(told, Utf8UnixPath::new(path), Utf8UnixPath::new(other), ends);
        told.tell("a component", Utf8UnixComponent::try_from(path));
        told.part = "Windows text";
        text(told, Utf8WindowsPath::new(path), Utf8WindowsPath::new(other), ends);
        windows_text(told, Utf8WindowsPath::new(path), ends);
        told.tell("printed", format!("{:>9} {0}", Utf8WindowsPath::new(path)));
        told.part = "text of either dialect";
        typed_text(told, Utf8TypedPath::derive(path), other, ends);
        told.tell("== text", (Utf8TypedPath::derive(path) == *other, Utf8TypedPathBuf::from(path) == *other));
    }
}
