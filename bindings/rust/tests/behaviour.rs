//! What neither the rows nor the examples say.

use std::collections::HashSet;
use std::collections::hash_map::DefaultHasher;
use std::hash::{Hash, Hasher};
use std::mem::size_of;

use typed_path::*;

/// The two faults of typed-path 0.13.0 that are mended.
#[test]
fn prefixes_that_are_verbatim_are_those_with_the_mark() {
    for (path, is_verbatim) in [
        (r"\\?\pictures\a", true),
        (r"\\?\UNC\server\share", true),
        (r"\\?\C:\a", true),
        (r"\\.\COM1", false),
        (r"\\server\share", false),
        (r"C:\a", false),
    ] {
        let path = Utf8WindowsPath::new(path);
        assert_eq!(path.components().has_any_verbatim_prefix(), is_verbatim, "{path}");
        assert_eq!(
            path.as_bytes_path::<WindowsEncoding>().components().has_any_verbatim_prefix(),
            is_verbatim
        );
        // Below these alone a push spells the path anew.
        let parent = path.join("..").to_string();
        assert_eq!(parent == format!(r"{path}\.."), !is_verbatim, "{parent}");
    }
}

#[test]
fn equal_windows_paths_have_one_hash() {
    let hash = |path: &str| {
        let mut hasher = DefaultHasher::new();
        WindowsPath::new(path).hash(&mut hasher);
        hasher.finish()
    };
    let spellings = [r"C:\a\b", "C:/a/b", r"c:\a\.\b\", r"C:\\a//b"];
    assert_eq!(spellings.map(hash), [hash(spellings[0]); 4]);
    let paths: HashSet<_> = spellings.iter().map(WindowsPathBuf::from).collect();
    assert_eq!(paths.len(), 1);
}

/// Long paths are hashed by the same bytes as short ones.
#[test]
fn long_and_short_spellings_have_one_hash() {
    let (short, long) = ("/a/b".to_owned(), format!("/a{}b", "/.".repeat(100_000) + "/"));
    let set: HashSet<_> = [&short, &long].into_iter().map(UnixPathBuf::from).collect();
    assert_eq!(set.len(), 1);
    assert_eq!(UnixPath::new(&short).key(), UnixPath::new(&long).key());
}

/// Names behind each other as one text, cut in every way, are paths of as many hashes.
#[test]
fn paths_that_are_chosen_have_hashes_of_their_own() {
    let hashes: HashSet<u64> = (0..1 << 10)
        .map(|cuts: u32| {
            let letters = "abcdefghijk".chars().enumerate();
            letters
                .map(|(at, letter)| if cuts >> at & 1 == 1 { format!("{letter}/") } else { letter.into() })
                .collect()
        })
        .map(|path: String| {
            let mut hasher = DefaultHasher::new();
            Utf8UnixPath::new(&path).hash(&mut hasher);
            hasher.finish()
        })
        .collect();
    assert_eq!(hashes.len(), 1 << 10);
}

/// Steps from both ends in every order give the list, and leave the slice that reads as what is left of it.
fn steps<'a, I>(components: I, left: impl Fn(&I) -> Vec<I::Item>)
where
    I: DoubleEndedIterator + Clone,
    I::Item: PartialEq + std::fmt::Debug + 'a,
{
    let list: Vec<_> = components.clone().collect();
    for order in 0..1u32 << list.len() {
        let mut reading = components.clone();
        let (mut from, mut to) = (0, list.len());
        for step in 0..list.len() {
            if order >> step & 1 == 0 {
                assert_eq!(reading.next().as_ref(), list.get(from));
                from += 1;
            } else {
                to -= 1;
                assert_eq!(reading.next_back().as_ref(), list.get(to));
            }
            assert_eq!(left(&reading), list[from..to]);
        }
        assert!(reading.next().is_none() && reading.next_back().is_none());
        assert!(reading.next_back().is_none() && reading.next().is_none());
    }
}

#[test]
fn components_come_from_both_ends() {
    for path in ["", "/", "/a/./b//", "./a/../b/c", "a//b/.", "..", ".", "//"] {
        steps(UnixPath::new(path).components(), |reading| {
            let read_anew = reading.as_path::<UnixEncoding>().components();
            read_anew
                .filter(|it| *it != UnixComponent::CurDir || path.starts_with("./") || path == ".")
                .collect()
        });
        steps(Utf8UnixPath::new(path).iter(), |reading| reading.clone().collect());
    }
    for path in
        [r"C:\a\.\b", r"\\s\h\a/b", r"\\?\C:\a\.\b", r"\\?\UNC\s\h\..\x", r"C:.\a", r"\a", r"\\.\COM1\x"]
    {
        steps(WindowsPath::new(path).components(), |reading| reading.clone().collect());
        steps(Utf8TypedPath::windows(path).components(), |reading| reading.clone().collect());
        steps(TypedPath::windows(path).iter(), |reading| reading.clone().collect());
    }
}

/// What a reading is asked when some of it was taken.
#[test]
fn questions_are_of_what_is_left() {
    let mut components = WindowsPath::new(r"C:\a\b").components();
    assert_eq!(components.next_back(), Some(WindowsComponent::Normal(b"b")));
    assert!(components.is_absolute() && components.has_root() && components.has_disk_prefix());
    assert_eq!(components.as_bytes(), br"C:\a");
    assert!(components.next().unwrap().is_prefix());
    assert!(!components.is_absolute() && components.has_root() && components.has_physical_root());
    assert!(!components.has_prefix() && components.prefix().is_none());
    assert_eq!(components.as_bytes(), br"\a");
    assert_eq!(components.next(), Some(WindowsComponent::RootDir));
    assert!(!components.has_root() && !components.has_physical_root());

    let mut components = Utf8UnixPath::new("/a/b").components();
    components.next_back();
    assert!(components.is_absolute() && components.has_root());
    components.next();
    assert!(!components.is_absolute() && !components.has_root());
    assert_eq!(components.as_str(), "a");
}

#[test]
fn iterators_are_small() {
    macro_rules! sizes {
        ($($Iterator:ty),*) => {
            [$((stringify!($Iterator), size_of::<$Iterator>())),*]
        };
    }
    for (name, size) in sizes!(
        UnixComponents,
        WindowsComponents,
        Utf8UnixComponents,
        Utf8WindowsComponents,
        TypedComponents,
        Utf8TypedComponents,
        Iter<UnixEncoding>,
        Utf8Iter<Utf8WindowsEncoding>,
        TypedIter,
        Utf8TypedIter
    ) {
        assert!(size <= 96, "{name} has {size} bytes");
    }
}

#[test]
fn long_paths_are_taken() {
    let path = "a/".repeat(500_000);
    let path = Utf8UnixPath::new(&path);
    assert_eq!(path.components().count(), 500_000);
    assert_eq!(path.components().rev().count(), 500_000);
    assert_eq!(path.ancestors().count(), 500_001);
    assert_eq!(path.normalize().as_str().len(), 999_999);
    let turned = path.with_windows_encoding();
    assert_eq!(turned.as_str().len(), 999_999);
    let joined = turned.join_checked(&turned).unwrap();
    assert!(joined.is_within(&turned) && joined.starts_with(&turned) && joined.ends_with(&turned));
    assert_eq!(joined.relative_to(&turned).unwrap(), turned);
}

/// A push takes no memory where there is room, and one that merges the lists keeps it too.
#[test]
fn pushes_keep_the_memory() {
    for base in [r"C:\a", r"\\?\C:\a"] {
        let mut path = WindowsPathBuf::with_capacity(100);
        path.push(base);
        let before = (path.capacity(), path.as_bytes().as_ptr());
        path.push(r"..\b");
        path.push_checked("c").unwrap();
        path.set_file_name("d.txt");
        path.set_extension("md");
        path.add_extension("gz");
        assert!(path.pop());
        assert_eq!((path.capacity(), path.as_bytes().as_ptr()), before);
    }
}

/// A text stays one, whatever is cut from it and put behind it.
#[test]
fn texts_are_cut_between_characters() {
    let texts = [
        "日本/語",
        "/日/../本.語.文",
        "é",
        "C:日",
        r"\\日\本\語",
        r"\\?\C:\日\..\本",
        "日:x",
        "",
        "..",
        "ü.é",
    ];
    for path in texts {
        for other in texts {
            let (unix, windows) = (Utf8UnixPath::new(path), Utf8WindowsPath::new(path));
            for made in [
                unix.join(other).into_string(),
                unix.with_file_name(other).into_string(),
                unix.with_extension(other).into_string(),
                unix.normalize().into_string(),
                unix.with_windows_encoding().into_string(),
                unix.relative_to(other).unwrap_or_default().into_string(),
                windows.join(other).into_string(),
                windows.with_file_name(other).into_string(),
                windows.with_added_extension(other).into_string(),
                windows.clean().into_string(),
                windows.with_unix_encoding().into_string(),
                windows.relative_to(other).unwrap_or_default().into_string(),
            ] {
                assert!(std::str::from_utf8(made.as_bytes()).is_ok());
            }
            assert_eq!(unix.iter().collect::<String>().len(), unix.components().map(|it| it.len()).sum());
            assert_eq!(windows.iter().rev().count(), windows.components().count());
        }
    }
}
