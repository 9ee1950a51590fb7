//! The rows of known answers (`bindings/rows.tsv`), by each family of paths.

use std::cmp::Ordering;
use std::collections::hash_map::DefaultHasher;
use std::fmt::Display;
use std::hash::{Hash, Hasher};

use typed_path::*;

/// What a row says that a call answers: bytes, or the word of a status.
type Answer = Result<Vec<u8>, String>;

/// What a call returned, as a row says it.
trait Told {
    fn told(self) -> Answer;
}

impl Told for bool {
    fn told(self) -> Answer {
        Ok(self.to_string().into())
    }
}

impl Told for Ordering {
    fn told(self) -> Answer {
        Ok((self as i8).to_string().into())
    }
}

impl Told for () {
    fn told(self) -> Answer {
        Ok(Vec::new())
    }
}

impl Told for Vec<u8> {
    fn told(self) -> Answer {
        Ok(self)
    }
}

macro_rules! told_as_bytes {
    ($([$($generic:tt)*] $Own:ty),*) => {$(
        impl<$($generic)*> Told for $Own {
            fn told(self) -> Answer {
                Ok(AsRef::<[u8]>::as_ref(&self).to_vec())
            }
        }
    )*};
}

told_as_bytes!(
    [] &[u8], [] &str, [T: Encoding] &Path<T>, [T: Utf8Encoding] &Utf8Path<T>, [T: Encoding] PathBuf<T>,
    [T: Utf8Encoding] Utf8PathBuf<T>, [] TypedPathBuf, [] Utf8TypedPathBuf, [] TypedPath<'_>
);

impl Told for Utf8TypedPath<'_> {
    fn told(self) -> Answer {
        self.as_str().told()
    }
}

impl<T: Told> Told for Option<T> {
    fn told(self) -> Answer {
        self.map_or_else(|| Err("NONE".into()), Told::told)
    }
}

/// Why a call refused, by the word of the status.
trait Word {
    fn word(&self) -> &str;
}

impl Word for StripPrefixError {
    fn word(&self) -> &str {
        "NONE"
    }
}

impl Word for CheckedPathError {
    fn word(&self) -> &str {
        match self {
            Self::InvalidFilename => "INVALID_FILENAME",
            Self::PathTraversalAttack => "PATH_TRAVERSAL_ATTACK",
            Self::UnexpectedPrefix => "UNEXPECTED_PREFIX",
            Self::UnexpectedRoot => "UNEXPECTED_ROOT",
        }
    }
}

impl Word for PortableError {
    fn word(&self) -> &str {
        match self {
            Self::Prefix => "HAS_PREFIX",
            Self::Forbidden => "FORBIDDEN",
            Self::Device => "DEVICE",
            Self::Ending => "ENDING",
            Self::TooLong => "TOO_LONG",
            Self::NotText => "NOT_TEXT",
        }
    }
}

impl Word for JoinError {
    fn word(&self) -> &str {
        match self {
            Self::Portable(reason) => reason.word(),
            Self::Checked(fault) => fault.word(),
        }
    }
}

impl<T: Told, E: Word> Told for Result<T, E> {
    fn told(self) -> Answer {
        self.map_or_else(|refused| Err(refused.word().into()), Told::told)
    }
}

/// What a call returns, and what its twin does, which refuses for memory too.
fn both<T: Told, R>(made: T, twin: Result<R, impl TwinError>) -> Answer
where
    R: Told,
{
    let told = made.told();
    match twin {
        Ok(twin) => assert_eq!(told, twin.told()),
        Err(refused) => assert_eq!(told, Err(refused.refused())),
    }
    told
}

trait TwinError {
    fn refused(self) -> String;
}

impl TwinError for OutOfMemory {
    fn refused(self) -> String {
        panic!("out of memory")
    }
}

impl<E: Word + Display> TwinError for TryError<E> {
    fn refused(self) -> String {
        match self {
            Self::Refused(refused) => refused.word().into(),
            Self::OutOfMemory => panic!("out of memory"),
        }
    }
}

fn hash_of(value: &impl Hash) -> u64 {
    let mut hasher = DefaultHasher::new();
    value.hash(&mut hasher);
    hasher.finish()
}

/// The order, if `==`, the hashes and the keys agree with it.
fn ordered<T: Ord + Hash + ?Sized>(path: &T, other: &T, keys: [Key; 2]) -> Ordering {
    let order = path.cmp(other);
    let same = order == Ordering::Equal;
    assert_eq!([path == other, hash_of(&path) == hash_of(&other), keys[0] == keys[1]], [same; 3]);
    assert_eq!(path.partial_cmp(other), Some(order));
    order
}

fn kind_of_prefix(kind: Utf8WindowsPrefix) -> &'static str {
    match kind {
        Utf8WindowsPrefix::Verbatim(_) => "Verbatim",
        Utf8WindowsPrefix::VerbatimUNC(..) => "VerbatimUNC",
        Utf8WindowsPrefix::VerbatimDisk(_) => "VerbatimDisk",
        Utf8WindowsPrefix::DeviceNS(_) => "DeviceNS",
        Utf8WindowsPrefix::UNC(..) => "UNC",
        Utf8WindowsPrefix::Disk(_) => "Disk",
    }
}

/// The names of a prefix, where the letter of a drive is a capital one.
fn names_of_prefix(kind: WindowsPrefix) -> Vec<u8> {
    match kind {
        WindowsPrefix::Verbatim(name) | WindowsPrefix::DeviceNS(name) => [name, b"|"].concat(),
        WindowsPrefix::VerbatimUNC(server, share) | WindowsPrefix::UNC(server, share) => {
            [server, b"|", share].concat()
        }
        WindowsPrefix::VerbatimDisk(letter) | WindowsPrefix::Disk(letter) => vec![letter, b'|'],
    }
}

/// The words of components, of either family of one dialect.
trait Named {
    fn named(&self) -> (&'static str, Vec<u8>);
}

macro_rules! named {
    ($Unix:ident, $Windows:ident, $Component:ident, $prefix:expr) => {
        impl Named for $Unix<'_> {
            fn named(&self) -> (&'static str, Vec<u8>) {
                let word = match self {
                    Self::RootDir => "root",
                    Self::CurDir => "current",
                    Self::ParentDir => "parent",
                    Self::Normal(_) => "normal",
                };
                (word, AsRef::<[u8]>::as_ref(self).to_vec())
            }
        }

        impl Named for $Windows<'_> {
            fn named(&self) -> (&'static str, Vec<u8>) {
                let word = match self {
                    Self::Prefix(prefix) => kind_of_prefix($prefix(&prefix.kind())),
                    Self::RootDir => "root",
                    Self::CurDir => "current",
                    Self::ParentDir => "parent",
                    Self::Normal(_) => "normal",
                };
                (word, AsRef::<[u8]>::as_ref(self).to_vec())
            }
        }
    };
}

fn same_prefix<'a>(kind: &Utf8WindowsPrefix<'a>) -> Utf8WindowsPrefix<'a> {
    *kind
}

/// The same kind of prefix with names that are text.
fn text_of_prefix<'a>(kind: &WindowsPrefix<'a>) -> Utf8WindowsPrefix<'a> {
    Utf8WindowsPrefix::from_utf8(kind).unwrap_or(match kind {
        WindowsPrefix::Verbatim(_) => Utf8WindowsPrefix::Verbatim(""),
        WindowsPrefix::VerbatimUNC(..) => Utf8WindowsPrefix::VerbatimUNC("", ""),
        WindowsPrefix::DeviceNS(_) => Utf8WindowsPrefix::DeviceNS(""),
        _ => Utf8WindowsPrefix::UNC("", ""),
    })
}

named!(UnixComponent, WindowsComponent, Component, text_of_prefix);
named!(Utf8UnixComponent, Utf8WindowsComponent, Utf8Component, same_prefix);

impl Named for TypedComponent<'_> {
    fn named(&self) -> (&'static str, Vec<u8>) {
        match self {
            Self::Unix(component) => component.named(),
            Self::Windows(component) => component.named(),
        }
    }
}

impl Named for Utf8TypedComponent<'_> {
    fn named(&self) -> (&'static str, Vec<u8>) {
        match self {
            Self::Unix(component) => component.named(),
            Self::Windows(component) => component.named(),
        }
    }
}

/// The words of all components, if those from the back are the same.
fn listed<I: DoubleEndedIterator + Clone>(components: I) -> Vec<u8>
where
    I::Item: Named,
{
    let list: Vec<_> = components.clone().map(|component| component.named()).collect();
    let mut back: Vec<_> = components.rev().map(|component| component.named()).collect();
    back.reverse();
    assert_eq!(list, back);
    let words = list.iter().map(|(word, text)| [word.as_bytes(), b"=", text].concat());
    words.collect::<Vec<_>>().join(&b'|')
}

/// What a call of a borrowed path answers; `$own` makes an owned path of it. None of a call that the family lacks.
macro_rules! answer {
    ($call:expr, $path:expr, $other:expr, $own:expr, $to_windows:expr) => {{
        let (path, other, own) = ($path, $other, $own);
        // What a change of an owned path leaves, which is what the call of the same meaning makes.
        macro_rules! changed {
            ($change:ident, $twin:ident) => {{
                let (mut changed, mut twin) = (own(path), own(path));
                let done = changed.$change(other);
                assert_eq!(done, twin.$twin(other).unwrap());
                assert_eq!(AsRef::<[u8]>::as_ref(&changed), AsRef::<[u8]>::as_ref(&twin));
                changed
            }};
        }
        Some(match $call {
            "join" | "push_place" => {
                let joined = both(path.join(other), path.try_join(other));
                assert_eq!(joined, changed!(push, try_push).told());
                joined
            }
            "join_checked" => {
                let joined = both(path.join_checked(other), path.try_join_checked(other));
                let (mut pushed, mut twin) = (own(path), own(path));
                let done = [
                    pushed.push_checked(other).told(),
                    twin.try_push_checked(other)
                        .map_err(|it| match it {
                            TryError::Refused(fault) => fault,
                            TryError::OutOfMemory => panic!("out of memory"),
                        })
                        .told(),
                ];
                let left = if joined.is_ok() { joined.clone() } else { own(path).told() };
                assert_eq!([pushed.told(), twin.told()], [left.clone(), left]);
                assert_eq!(
                    done.map(|it| it.map(|_| ())),
                    [joined.clone().map(|_| ()), joined.clone().map(|_| ())]
                );
                joined
            }
            "join_portable" => both(path.join_portable(other), path.try_join_portable(other)),
            "resolve_checked" => both(path.resolve_checked(other), path.try_resolve_checked(other)),
            "with_file_name" => {
                let named = both(path.with_file_name(other), path.try_with_file_name(other));
                assert_eq!(named, changed!(set_file_name, try_set_file_name).told());
                named
            }
            "with_extension" => {
                let extended = both(path.with_extension(other), path.try_with_extension(other));
                assert_eq!(extended, changed!(set_extension, try_set_extension).told());
                extended
            }
            "with_added_extension" => {
                let extended = both(path.with_added_extension(other), path.try_with_added_extension(other));
                assert_eq!(extended, changed!(add_extension, try_add_extension).told());
                extended
            }
            "normalize" => both(path.normalize(), path.try_normalize()),
            "clean" => both(path.clean(), path.try_clean()),
            "to_ascii_lowercase" => both(path.to_ascii_lowercase(), path.try_to_ascii_lowercase()),
            "relative_to" => both(path.relative_to(other), path.try_relative_to(other)),
            "convert" if $to_windows => path.with_windows_encoding().told(),
            "convert" => path.with_unix_encoding().told(),
            "convert_checked" if $to_windows => path.with_windows_encoding_checked().told(),
            "convert_checked" => path.with_unix_encoding_checked().told(),
            "parent" => {
                let mut cut = own(path);
                assert_eq!(cut.pop(), path.parent().is_some());
                assert_eq!(cut.told(), path.parent().unwrap_or(path).told());
                assert_eq!(path.ancestors().nth(1).told(), path.parent().told());
                path.parent().told()
            }
            "file_name" => path.file_name().told(),
            "file_stem" => path.file_stem().told(),
            "file_prefix" => path.file_prefix().told(),
            "extension" => path.extension().told(),
            "strip_prefix" => path.strip_prefix(other).told(),
            "common_ancestor" => path.common_ancestor(other).told(),
            "simplified" => path.simplified().told(),
            "components" => Ok(listed(path.components())),
            "key_words" => Ok(path.key().as_bytes().to_vec()),
            "check" => path.check().told(),
            "check_portable" => path.check_portable().told(),
            "is_absolute" => {
                assert_eq!(path.is_relative(), !path.is_absolute());
                assert_eq!(path.components().is_absolute(), path.is_absolute());
                path.is_absolute().told()
            }
            "has_root" => {
                assert_eq!(path.components().has_root(), path.has_root());
                path.has_root().told()
            }
            "is_valid" => path.is_valid().told(),
            "is_portable" => path.is_portable().told(),
            "may_be_device" => path.may_be_device().told(),
            "keeps_prefix" => path.keeps_prefix().told(),
            "starts_with" => path.starts_with(other).told(),
            "starts_with_ignore_ascii_case" => path.starts_with_ignore_ascii_case(other).told(),
            "ends_with" => path.ends_with(other).told(),
            "is_within" => path.is_within(other).told(),
            _ => return None,
        })
    }};
}

/// What a row says of a path that was made absolute, or is ambiguous.
fn absolute<P: Told>(made: Option<P>) -> Answer {
    made.map_or_else(|| Err("AMBIGUOUS".into()), Told::told)
}

macro_rules! of_one_dialect {
    ($bytes:ident, $text:ident, $Path:ident, $Utf8Path:ident, $PathBuf:ident, $Utf8PathBuf:ident) => {
        fn $bytes(call: &str, path: &[u8], other: &[u8]) -> Option<Answer> {
            let (path, other) = ($Path::new(path), $Path::new(other));
            match call {
                "absolutize_from_unix" => {
                    return Some(absolute(path.absolutize_from(UnixPath::new(other.as_bytes()))))
                }
                "absolutize_from_windows" => {
                    return Some(absolute(path.absolutize_from(WindowsPath::new(other.as_bytes()))));
                }
                "equal" => return Some(Ok((path == other).to_string().into())),
                "equal_ignore_ascii_case" => return Some(path.eq_ignore_ascii_case(other).told()),
                "compare_ignore_ascii_case" => return Some(path.cmp_ignore_ascii_case(other).told()),
                "compare" => return Some(ordered(path, other, [path.key(), other.key()]).told()),
                _ => answer!(
                    call,
                    path,
                    other,
                    |path: &$Path| path.to_path_buf(),
                    other.as_bytes() == b"windows"
                ),
            }
        }

        fn $text(call: &str, path: &str, other: &str) -> Option<Answer> {
            let (path, other) = ($Utf8Path::new(path), $Utf8Path::new(other));
            match call {
                "absolutize_from_unix" => {
                    return Some(absolute(path.absolutize_from(Utf8UnixPath::new(other.as_str()))))
                }
                "absolutize_from_windows" => {
                    return Some(absolute(path.absolutize_from(Utf8WindowsPath::new(other.as_str()))));
                }
                "equal" => return Some(Ok((path == other).to_string().into())),
                "equal_ignore_ascii_case" => return Some(path.eq_ignore_ascii_case(other).told()),
                "compare_ignore_ascii_case" => return Some(path.cmp_ignore_ascii_case(other).told()),
                "compare" => return Some(ordered(path, other, [path.key(), other.key()]).told()),
                _ => answer!(
                    call,
                    path,
                    other,
                    |path: &$Utf8Path| path.to_path_buf(),
                    other.as_str() == "windows"
                ),
            }
        }
    };
}

of_one_dialect!(unix, utf8_unix, UnixPath, Utf8UnixPath, UnixPathBuf, Utf8UnixPathBuf);
of_one_dialect!(windows, utf8_windows, WindowsPath, Utf8WindowsPath, WindowsPathBuf, Utf8WindowsPathBuf);

fn typed(call: &str, path: TypedPath, other: &[u8]) -> Option<Answer> {
    answer!(call, path, other, |path: TypedPath| path.to_path_buf(), other == b"windows")
}

fn utf8_typed(call: &str, path: Utf8TypedPath, other: &str) -> Option<Answer> {
    answer!(call, path, other, |path: Utf8TypedPath| path.to_path_buf(), other == "windows")
}

/// What a row says of calls that no family has by that name.
fn others(call: &str, dialect: &str, path: &[u8]) -> Option<Answer> {
    Some(match (call, dialect) {
        ("derive", _) => {
            let derived = TypedPath::derive(path);
            assert_eq!(derived.is_windows(), !derived.is_unix());
            Ok(if derived.is_windows() { "windows" } else { "unix" }.into())
        }
        ("is_valid_name", "unix") => UnixComponent::Normal(path).is_valid().told(),
        ("is_valid_name", _) => WindowsComponent::Normal(path).is_valid().told(),
        ("prefix_names", "unix") => Err("NONE".into()),
        ("prefix_names", _) => WindowsPath::new(path).components().prefix_kind().map(names_of_prefix).told(),
        _ => return None,
    })
}

/// A field of a row: `%` and two digits of base 16 are a byte.
fn bytes_of(field: &str) -> Vec<u8> {
    let mut parts = field.split('%');
    let mut bytes = parts.next().unwrap().as_bytes().to_vec();
    for part in parts {
        bytes.push(u8::from_str_radix(&part[..2], 16).unwrap());
        bytes.extend(&part.as_bytes()[2..]);
    }
    bytes
}

/// What a push makes by the place that a row tells.
fn pushed_at(place: &[u8], path: &[u8], other: &[u8]) -> Vec<u8> {
    let bar = place.iter().position(|byte| *byte == b'|').unwrap();
    let kept: usize = std::str::from_utf8(&place[..bar]).unwrap().parse().unwrap();
    [&path[..kept], &place[bar + 1..], other].concat()
}

#[test]
fn each_family_answers_the_rows() {
    let rows = concat!(env!("CARGO_MANIFEST_DIR"), "/../rows.tsv");
    let rows = std::fs::read_to_string(rows).unwrap();
    let mut answered = [0; 4];
    for row in rows.lines().filter(|row| !row.starts_with('#')) {
        let [call, dialect, path, other, said] = row.split('\t').collect::<Vec<_>>().try_into().unwrap();
        let (path, other) = (bytes_of(path), bytes_of(other));
        let mut said = said.strip_prefix('=').map(bytes_of).ok_or_else(|| said.to_owned());
        if call == "push_place" {
            // Where there is no place the paths are merged, which rows of `join` tell.
            let Ok(place) = said else { continue };
            said = Ok(pushed_at(&place, &path, &other));
        }
        // Two values of this crate hold no text of their own: a root is written as `\`, and a drive by its capital letter.
        let replaced = |said: Vec<u8>, text: &str, by: &str| match String::from_utf8(said) {
            Ok(said) => said.replace(text, by).into_bytes(),
            Err(refused) => refused.into_bytes(),
        };
        said = match (call, dialect) {
            ("components", "windows") => said.map(|list| replaced(list, "root=/", r"root=\")),
            ("prefix_names", _) => said.map(|names| replaced(names, "c|", "C|")),
            _ => said,
        };
        if let Some(answer) = others(call, dialect, &path) {
            assert_eq!(answer, said, "{row}");
            continue;
        }
        let in_unix = dialect == "unix";
        let mut answers = vec![
            if in_unix { unix(call, &path, &other) } else { windows(call, &path, &other) },
            typed(call, if in_unix { TypedPath::unix(&path) } else { TypedPath::windows(&path) }, &other),
        ];
        if let (Ok(path), Ok(other)) = (std::str::from_utf8(&path), std::str::from_utf8(&other)) {
            answers.push(if in_unix {
                utf8_unix(call, path, other)
            } else {
                utf8_windows(call, path, other)
            });
            let path = if in_unix { Utf8TypedPath::unix(path) } else { Utf8TypedPath::windows(path) };
            answers.push(utf8_typed(call, path, other));
        }
        for (family, answer) in answers.into_iter().enumerate() {
            if let Some(answer) = answer {
                assert_eq!(answer, said, "family {family}: {row}");
                answered[family] += 1;
            }
        }
    }
    // All but those of `absolutize`, which asks the machine for the directory.
    assert!(answered.iter().all(|count| *count > 700), "{answered:?}");
}
