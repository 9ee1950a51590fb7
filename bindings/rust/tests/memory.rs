//! Memory that is refused, to this crate and to the library behind it: both ask the `malloc` and `realloc` below.

// The crate takes older compilers than its tests.
#![allow(clippy::incompatible_msrv)]

use std::cell::Cell;
use std::ffi::{CStr, c_char, c_void};
use std::mem::transmute;
use std::process::Command;
use std::ptr::null_mut;
use std::sync::atomic::{AtomicPtr, Ordering};

use typed_path::*;

thread_local! {
    /// How many requests of this thread are granted before one is refused, and whether one was.
    static GRANTED: Cell<usize> = const { Cell::new(usize::MAX) };
    static REFUSED: Cell<bool> = const { Cell::new(false) };
}

unsafe extern "C" {
    fn dlsym(handle: *mut c_void, name: *const c_char) -> *mut c_void;
}

/// The call of that name that the program would make without this file.
fn behind(name: &CStr, found: &AtomicPtr<c_void>) -> *mut c_void {
    /// `RTLD_NEXT`.
    const BEHIND_THIS: *mut c_void = -1_isize as *mut c_void;
    if found.load(Ordering::Relaxed).is_null() {
        // SAFETY: the name ends in a NUL.
        found.store(unsafe { dlsym(BEHIND_THIS, name.as_ptr()) }, Ordering::Relaxed);
    }
    found.load(Ordering::Relaxed)
}

/// Whether valgrind runs the program: then its `malloc` stands in the place of the one below, and refuses nothing.
fn is_in_valgrind() -> bool {
    std::env::var_os("LD_PRELOAD").is_some_and(|names| names.to_string_lossy().contains("vgpreload"))
}

fn is_granted() -> bool {
    match GRANTED.get() {
        usize::MAX => true,
        0 => {
            REFUSED.set(true);
            false
        }
        left => {
            GRANTED.set(left - 1);
            true
        }
    }
}

type Malloc = extern "C" fn(usize) -> *mut c_void;
type Realloc = extern "C" fn(*mut c_void, usize) -> *mut c_void;

#[unsafe(no_mangle)]
extern "C" fn malloc(size: usize) -> *mut c_void {
    if !is_granted() {
        return null_mut();
    }
    static FOUND: AtomicPtr<c_void> = AtomicPtr::new(null_mut());
    // SAFETY: what is found has the type of this one.
    unsafe { transmute::<*mut c_void, Malloc>(behind(c"malloc", &FOUND))(size) }
}

#[unsafe(no_mangle)]
extern "C" fn realloc(block: *mut c_void, size: usize) -> *mut c_void {
    if !is_granted() {
        return null_mut();
    }
    static FOUND: AtomicPtr<c_void> = AtomicPtr::new(null_mut());
    // SAFETY: what is found has the type of this one.
    unsafe { transmute::<*mut c_void, Realloc>(behind(c"realloc", &FOUND))(block, size) }
}

/// Makes a call with all requests from the first one on refused, then all from the second one on, and so on, until it
/// asks for no more; how many requests it makes.
fn refused_in_turn<T>(name: &str, mut call: impl FnMut() -> T, is_refusal: impl Fn(&T) -> bool) -> usize {
    for granted in 0.. {
        REFUSED.set(false);
        GRANTED.set(granted);
        let answer = call();
        GRANTED.set(usize::MAX);
        assert_eq!(is_refusal(&answer), REFUSED.get(), "{name} with {granted} requests granted");
        if !REFUSED.get() {
            return granted;
        }
    }
    unreachable!()
}

#[test]
fn each_request_is_refused_in_turn() {
    if is_in_valgrind() {
        return;
    }
    macro_rules! asked {
        ($($call:expr),*) => {
            [$(refused_in_turn(stringify!($call), || $call, |answer| {
                answer.as_ref().is_err_and(|refused| refused.to_string() == "out of memory")
            })),*]
        };
    }
    let (unix, windows, verbatim) =
        (UnixPath::new("/srv/a.txt"), Utf8WindowsPath::new(r"C:\srv\a.txt"), WindowsPath::new(r"\\?\C:\a"));
    let typed = TypedPath::unix("/srv/a.txt");
    let requests = asked!(
        unix.try_to_path_buf(),
        unix.try_join("b"),
        verbatim.try_join("b"),
        unix.try_join_checked("b"),
        unix.try_join_portable("b"),
        unix.try_resolve_checked("b/.."),
        unix.try_with_file_name("b"),
        unix.try_with_extension("md"),
        unix.try_with_added_extension("gz"),
        unix.try_normalize(),
        unix.try_clean(),
        unix.try_relative_to("/srv/b"),
        unix.try_with_encoding::<WindowsEncoding>(),
        unix.try_with_encoding::<UnixEncoding>(),
        unix.try_with_encoding_checked::<WindowsEncoding>(),
        windows.try_join("b"),
        windows.try_normalize(),
        typed.try_join_checked("b"),
        typed.try_clean()
    );
    assert!(requests.iter().all(|count| *count > 0), "{requests:?}");
    // A path that a checked join refuses for what it is takes no memory.
    assert_eq!(asked!(unix.try_join_checked("..")), [0]);
}

/// A refused change leaves the path as it was.
#[test]
fn refused_changes_leave_the_path() {
    if is_in_valgrind() {
        return;
    }
    let change = |base: &str, change: &dyn Fn(&mut WindowsPathBuf) -> bool| {
        let requests = refused_in_turn(
            base,
            || {
                let granted = GRANTED.replace(usize::MAX);
                let mut path = WindowsPathBuf::from(base);
                path.shrink_to_fit();
                GRANTED.set(granted);
                let is_refused = change(&mut path);
                GRANTED.set(usize::MAX);
                assert!(
                    !is_refused || path.as_bytes() == base.as_bytes(),
                    "{base} became {}",
                    path.display()
                );
                is_refused
            },
            |is_refused| *is_refused,
        );
        assert!(requests > 0);
    };
    for base in [r"C:\srv\a", r"\\?\C:\srv\a"] {
        change(base, &|path| path.try_push("a name that is long enough to need room").is_err());
        change(base, &|path| path.try_push_checked("a name that is long enough to need room").is_err());
        change(base, &|path| path.try_set_file_name("a name that is long enough to need room").is_err());
        change(base, &|path| path.try_set_extension("an extension that is long enough").is_err());
        change(base, &|path| path.try_add_extension("an extension that is long enough").is_err());
    }
}

/// The calls whose name does not begin with `try_` end the program, as those of std do.
#[test]
fn other_calls_end_the_program() {
    if is_in_valgrind() {
        return;
    }
    const NUMBER: &str = "TYPED_PATH_REFUSED";
    if let Some(granted) = std::env::var(NUMBER).ok().and_then(|number| number.parse().ok()) {
        GRANTED.set(granted);
        let _path = UnixPath::new("/srv/./a").normalize();
        unreachable!("memory was granted");
    }
    for granted in ["0", "1"] {
        let test = ["--exact", "other_calls_end_the_program", "--test-threads=1", "--nocapture"];
        let ended =
            Command::new(std::env::current_exe().unwrap()).args(test).env(NUMBER, granted).output().unwrap();
        let said = String::from_utf8_lossy(&ended.stderr);
        assert!(!ended.status.success() && said.contains("memory allocation of"), "{granted}: {said}");
    }
}
