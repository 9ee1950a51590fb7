//! Times the calls of `typed_path` beside those of `std::path`, in turns and in one run, and prints
//! Markdown tables: nanoseconds a call, the least of all rounds, and the ratio.
//!
//! It is linked with the static library of `crates/typed_path_bench`. Both peers are called by a
//! pointer, so that neither is built into the loop, and both have to answer the same. The first
//! argument says how often all calls are timed, from the first to the last; where there is a second,
//! only calls are timed whose label has it. With `--cfg beside_crate` it is linked with the Rust crate
//! too, and prints two tables more, beside the calls of that.

use std::ffi::OsStr;
use std::hash::{DefaultHasher, Hash, Hasher};
use std::hint::black_box;
use std::ops::Range;
use std::os::unix::ffi::OsStrExt;
use std::path::{Component, Path, PathBuf};
use std::time::Instant;

#[cfg(beside_crate)]
mod crate_peer;

/// How often a call is timed in a sweep over all calls, the peers in turns.
const ROUNDS: usize = 10;

/// How many paths a corpus has.
const PATHS: usize = 1000;

/// Onto what paths are joined.
const BASE: &[u8] = b"/srv/files";

/// A path that is pushed, and a file name.
const NAME: &[u8] = b"other.rs";

const EXTENSION: &[u8] = b"txt";

/// What a Windows path begins with, before its first separator.
const PREFIXES: [(&str, &[u8]); 5] = [
    ("no prefix", b""),
    ("a drive", b"C:"),
    ("a share", br"\\server\share"),
    ("a device", br"\\.\device"),
    ("verbatim", br"\\?\C:"),
];

// The calls here: a slice is passed as a pointer and a length, and an allocator as nothing.

type One = unsafe extern "C" fn(*const u8, usize) -> usize;
type Two = unsafe extern "C" fn(*const u8, usize, *const u8, usize) -> usize;
type Room = unsafe extern "C" fn(*const u8, usize, *const usize, usize, *const u8, usize) -> usize;
type Numbered = unsafe extern "C" fn(*const u8, usize, *const usize, usize, *const u8, usize, usize) -> usize;

macro_rules! exports {
    ($parameters:tt: $($name:ident)*) => {
        unsafe extern "C" {
            $(fn $name $parameters -> usize;)*
        }
    };
}

exports!((path: *const u8, len: usize):
    bench_walk bench_walk_back bench_next bench_next_back bench_texts bench_zip bench_peekable
    bench_ahead bench_chain bench_map bench_filter bench_collect bench_ancestors bench_last bench_parent
    bench_file_name bench_extension bench_to_path_buf bench_normalize bench_clean bench_first bench_hash bench_windows_hash
    bench_windows_walk
    bench_windows_walk_back bench_windows_first bench_windows_last bench_windows_parent
    bench_windows_ancestors bench_is_portable bench_may_be_device bench_step_back bench_steps bench_key_hash bench_put_key bench_to_ascii_lowercase
    bench_windows_is_portable bench_windows_may_be_device bench_windows_step_back bench_windows_prefix_names
    bench_is_valid bench_windows_is_valid bench_windows_keeps_prefix bench_windows_simplified
    bench_to_string_lossy bench_windows_file_name bench_windows_extension bench_windows_normalize bench_windows_clean
    bench_to_windows
    bench_to_windows_checked bench_windows_to_unix bench_windows_to_unix_checked);

exports!((path: *const u8, len: usize, other: *const u8, other_len: usize):
    bench_starts_with bench_common_ancestor bench_is_within bench_relative_to bench_strip_prefix bench_ends_with bench_join bench_join_checked
    bench_with_file_name bench_with_extension bench_with_added_extension bench_eq bench_cmp bench_windows_eq bench_windows_cmp bench_windows_join bench_windows_join_checked
    bench_extend bench_windows_extend bench_push_place bench_eq_ignore_case bench_starts_with_ignore_case
    bench_windows_starts_with bench_windows_is_within bench_windows_relative_to bench_windows_strip_prefix
    bench_windows_with_extension bench_absolutize);

exports!((texts: *const u8, len: usize, ends: *const usize, count: usize, other: *const u8, other_len: usize):
    bench_room_lay bench_room_push bench_room_pop bench_room_file_name bench_room_extension
    bench_room_clone);

exports!((texts: *const u8, len: usize, ends: *const usize, count: usize, other: *const u8, other_len: usize, call: usize):
    bench_texts_of_text bench_texts_of_bytes);

// The calls of std. A walk adds up the lengths of the texts, an answer is its length.

fn len(text: impl AsRef<OsStr>) -> usize {
    text.as_ref().len()
}

fn sum<T: AsRef<OsStr>>(texts: impl Iterator<Item = T>) -> usize {
    let mut sum = 0usize;
    for text in texts {
        sum = sum.wrapping_add(len(text));
    }
    sum
}

fn std_next(path: &Path) -> usize {
    let mut sum = 0usize;
    let mut components = path.components();
    while let Some(piece) = components.next() {
        sum = sum.wrapping_add(len(piece));
    }
    sum
}

fn std_next_back(path: &Path) -> usize {
    let mut sum = 0usize;
    let mut components = path.components();
    while let Some(piece) = components.next_back() {
        sum = sum.wrapping_add(len(piece));
    }
    sum
}

fn std_zip(path: &Path) -> usize {
    let mut sum = 0usize;
    for (piece, other) in path.components().zip(path.components()) {
        sum = sum.wrapping_add(len(piece)).wrapping_add(len(other));
    }
    sum
}

fn std_peekable(path: &Path) -> usize {
    let mut sum = 0usize;
    let mut components = path.components().peekable();
    while let Some(piece) = components.next() {
        let following = components.peek().map_or(0, len);
        sum = sum.wrapping_add(len(piece)).wrapping_add(following);
    }
    sum
}

fn std_filter(path: &Path) -> usize {
    sum(path.components().filter(|piece| matches!(piece, Component::Normal(_))))
}

/// The length of a path that was made, which may not be left unmade.
fn made(path: PathBuf) -> usize {
    len(black_box(path.as_path()))
}

fn std_ahead(path: &Path) -> usize {
    let mut sum = 0usize;
    let mut components = path.components();
    while let Some(piece) = components.next() {
        let following = components.clone().next().map_or(0, len);
        sum = sum.wrapping_add(len(piece)).wrapping_add(following);
    }
    sum
}

/// By hand, since std has no such call.
fn std_normalize(path: &Path) -> usize {
    let mut normal = PathBuf::with_capacity(len(path));
    for piece in path.components() {
        match piece {
            Component::CurDir => {}
            Component::ParentDir => {
                normal.pop();
            }
            _ => normal.push(piece),
        }
    }
    made(normal)
}

fn std_room(paths: &Texts, count: usize, other: &Path, change: fn(&mut PathBuf, &Path) -> usize) -> usize {
    let mut path = PathBuf::with_capacity(paths.text.len() + len(other) + 1);
    let mut sum = 0usize;
    for at in 0..count {
        path.clear();
        path.push(path_of(paths.at(at)));
        sum = sum.wrapping_add(change(&mut path, other));
    }
    sum
}

// The corpus.

/// Numbers from a fixed seed, which look as if they were drawn.
struct Draw(u64);

impl Draw {
    fn below(&mut self, count: usize) -> usize {
        self.0 ^= self.0 << 13;
        self.0 ^= self.0 >> 7;
        self.0 ^= self.0 << 17;
        (self.0 >> 11) as usize % count
    }

    fn within(&mut self, lengths: Range<usize>) -> usize {
        lengths.start + self.below(lengths.len())
    }

    /// A name with a dot here and there. It begins with a letter, but none that a device of Windows
    /// begins with, so that both dialects allow it.
    fn name(&mut self, lengths: Range<usize>) -> Vec<u8> {
        let first = b"bdefghijkmoqrstuvwxyz";
        let bytes = b"abcdefghijklmnopqrstuvwxyz0123456789_-.";
        let len = self.within(lengths);
        (0..len)
            .map(|at| if at == 0 { first[self.below(first.len())] } else { bytes[self.below(bytes.len())] })
            .collect()
    }

    /// So many names of 2 to 20 bytes.
    fn names(&mut self, count: usize) -> Vec<u8> {
        let names: Vec<_> = (0..count).map(|_| self.name(2..21)).collect();
        names.join(&b'/')
    }
}

/// Texts side by side, and where each of them stands.
#[derive(Default)]
struct Texts {
    text: Vec<u8>,
    places: Vec<Range<usize>>,
    ends: Vec<usize>,
}

impl Texts {
    fn push(&mut self, text: &[u8]) {
        let start = self.text.len();
        self.text.extend_from_slice(text);
        self.places.push(start..self.text.len());
        self.ends.push(self.text.len());
    }

    fn at(&self, at: usize) -> &[u8] {
        &self.text[self.places[at].clone()]
    }
}

fn path_of(text: &[u8]) -> &Path {
    Path::new(OsStr::from_bytes(text))
}

/// Paths of one sort, and what is asked of them.
struct Corpus {
    label: &'static str,
    /// How many of the paths are taken for a call that reads a path as a whole.
    few: usize,
    paths: Texts,
    /// Without a root.
    relative: Texts,
    /// The first half of the names.
    half: Texts,
    /// The same, with another last byte.
    late: Texts,
    /// The same, with a separator written twice.
    otherwise: Texts,
    /// The names behind the first half.
    end: Texts,
    /// The same bytes once more.
    copies: Texts,
    /// The same, with another first byte of a name near the end, or near the beginning.
    ends_otherwise: Texts,
    begins_otherwise: Texts,
    /// The same, with each separator but the first written twice.
    doubled: Texts,
    /// With `.`, `..` and doubled separators here and there.
    dotted: Texts,
    /// The same, with each separator written eight times, or as `/./././`.
    runs: Texts,
    dot_runs: Texts,
    /// The same, where a byte of each name is no text.
    broken: Texts,
    /// As on Windows, with each of the prefixes, and the same texts with slashes alone; and each time
    /// a base with that prefix.
    windows: Vec<[(Texts, Vec<u8>); 2]>,
    /// The paths without a root, with backslashes.
    windows_relative: Texts,
    /// As on Windows, behind a prefix of 4 KiB, and the same texts with slashes alone.
    windows_long: [Texts; 2],
}

/// A text with one byte in the place of another.
fn replaced(text: &[u8], from: u8, to: u8) -> Vec<u8> {
    text.iter().map(|byte| if *byte == from { to } else { *byte }).collect()
}

/// The paths as Windows writes them behind a prefix, or the same texts with slashes alone.
fn behind_prefix(corpus: &Corpus, prefix: &[u8], separator: u8) -> Texts {
    let written = |path: &[u8]| {
        let between: &[u8] = if prefix.is_empty() || path.starts_with(b"/") { b"" } else { b"/" };
        let whole = replaced(&[prefix, between, path].concat(), b'/', separator);
        replaced(&whole, b'\\', separator)
    };
    let mut paths = Texts::default();
    if corpus.few == 1 {
        paths.text = written(&corpus.paths.text);
        let more = paths.text.len() - corpus.paths.text.len();
        paths.places = corpus.paths.places.iter().map(|place| 0..place.end + more).collect();
    } else {
        (0..corpus.paths.places.len()).for_each(|at| paths.push(&written(corpus.paths.at(at))));
    }
    paths
}

/// The same behind prefixes that take turns, with both separators, and with dots here and there where
/// the paths stand apart.
fn mixed(corpus: &Corpus, draw: &mut Draw) -> Texts {
    if corpus.few == 1 {
        let mut paths = behind_prefix(corpus, b"C:", b'/');
        (0..paths.text.len()).filter(|at| at % 2 == 1).for_each(|at| {
            if paths.text[at] == b'/' {
                paths.text[at] = b'\\';
            }
        });
        return paths;
    }
    let mut paths = Texts::default();
    for at in 0..corpus.paths.places.len() {
        let path = corpus.paths.at(at);
        let (_, prefix) = PREFIXES[at % PREFIXES.len()];
        let mut whole = prefix.to_vec();
        if !prefix.is_empty() && !path.starts_with(b"/") {
            whole.push(b'\\');
        }
        for byte in path {
            let drawn: &[u8] = match draw.below(16) {
                _ if *byte != b'/' => &[*byte],
                0 => br"\..\",
                1 => br"/.\",
                2 => br"\/",
                3..9 => b"/",
                _ => br"\",
            };
            whole.extend_from_slice(drawn);
        }
        paths.push(&whole);
    }
    paths
}

/// The same texts with slashes alone.
fn slashed(texts: &Texts) -> Texts {
    Texts { text: replaced(&texts.text, b'\\', b'/'), places: texts.places.clone(), ends: texts.ends.clone() }
}

impl Corpus {
    fn new(label: &'static str, few: usize, paths: Texts, draw: &mut Draw) -> Corpus {
        let mut corpus = Corpus {
            label,
            few,
            paths,
            relative: Texts::default(),
            half: Texts::default(),
            late: Texts::default(),
            otherwise: Texts::default(),
            end: Texts::default(),
            copies: Texts::default(),
            ends_otherwise: Texts::default(),
            begins_otherwise: Texts::default(),
            doubled: Texts::default(),
            dotted: Texts::default(),
            runs: Texts::default(),
            dot_runs: Texts::default(),
            broken: Texts::default(),
            windows: Vec::new(),
            windows_relative: Texts::default(),
            windows_long: [Texts::default(), Texts::default()],
        };
        for at in 0..few {
            let path = corpus.paths.at(at);
            let separators: Vec<_> = (1..path.len()).filter(|at| path[*at] == b'/').collect();
            let (half, end) = path.split_at(separators[separators.len() / 2]);
            let mut late = half.to_vec();
            *late.last_mut().unwrap() = b'#';
            let mut otherwise = half.to_vec();
            otherwise.insert(separators[0], b'/');
            let mut dotted = Vec::new();
            for byte in path {
                dotted.push(*byte);
                if *byte == b'/' {
                    let more: &[u8] = match draw.below(8) {
                        0 => b"../",
                        1 => b"./",
                        2 => b"/",
                        _ => b"",
                    };
                    dotted.extend_from_slice(more);
                }
            }
            let with_mark = |at: usize| {
                let mut marked = path.to_vec();
                marked[at + 1] = b'#';
                marked
            };
            let mut doubled = path[..separators[0]].to_vec();
            for byte in &path[separators[0]..] {
                doubled.push(*byte);
                if *byte == b'/' {
                    doubled.push(b'/');
                }
            }
            let [first, last] = [separators[0], separators[separators.len() - 1]].map(with_mark);
            let copy = path.to_vec();
            corpus.copies.push(&copy);
            corpus.begins_otherwise.push(&first);
            corpus.ends_otherwise.push(&last);
            corpus.doubled.push(&doubled);
            corpus.relative.push(path.strip_prefix(b"/").unwrap_or(path));
            corpus.half.push(half);
            corpus.late.push(&late);
            corpus.otherwise.push(&otherwise);
            corpus.end.push(&end[1..]);
            corpus.dotted.push(&dotted);
            let written = |separator: &[u8]| {
                let names: Vec<_> = path.split(|byte| *byte == b'/').collect();
                names.join(separator)
            };
            corpus.runs.push(&written(b"////////"));
            corpus.dot_runs.push(&written(b"/./././"));
            corpus.broken.push(&written(b"/\xFF"));
        }
        corpus.windows = PREFIXES
            .iter()
            .map(|(_, prefix)| {
                [b'\\', b'/'].map(|byte| {
                    let base = replaced(&replaced(&[prefix, BASE].concat(), b'/', byte), b'\\', byte);
                    (behind_prefix(&corpus, prefix, byte), base)
                })
            })
            .collect();
        let paths = mixed(&corpus, draw);
        let other = slashed(&paths);
        corpus.windows.push([(paths, br"C:\srv/files".to_vec()), (other, b"C:/srv/files".to_vec())]);
        let long = [br"\\server\".as_slice(), &[b's'; 4096]].concat();
        corpus.windows_long = [b'\\', b'/'].map(|byte| behind_prefix(&corpus, &replaced(&long, b'\\', byte), byte));
        for at in 0..few {
            let relative = replaced(corpus.relative.at(at), b'/', b'\\');
            corpus.windows_relative.push(&relative);
        }
        corpus
    }

    fn made(label: &'static str, few: usize, draw: &mut Draw, make: fn(&mut Draw) -> Vec<u8>) -> Corpus {
        let mut paths = Texts::default();
        for _ in 0..PATHS {
            paths.push(&make(draw));
        }
        Corpus::new(label, few, paths, draw)
    }

    /// The bytes, the names and the like of a path that is taken as a whole, on average.
    fn mean(&self, count: impl Fn(&[u8]) -> usize) -> f64 {
        let sum: usize = (0..self.few).map(|at| count(self.paths.at(at))).sum();
        sum as f64 / self.few as f64
    }
}

/// One path of 1 MiB, as a whole and in a thousand beginnings that end at other places.
fn long(text: &[u8], draw: &mut Draw) -> Corpus {
    let mut paths = Texts { text: text.to_vec(), ..Texts::default() };
    for at in 0..PATHS {
        let end = text.len() - 17 * at;
        paths.places.push(0..end);
        paths.ends.push(end);
    }
    Corpus::new("1 MiB", 1, paths, draw)
}

/// A text of 1 MiB, in paths of so many bytes. Their ends are trimmed, since what std leaves behind a
/// base is.
fn cut(label: &'static str, text: &[u8], len: usize, draw: &mut Draw) -> Corpus {
    let mut paths = Texts::default();
    for path in text.chunks(len) {
        paths.push(path.strip_suffix(b"/").unwrap_or(path));
    }
    let few = paths.places.len();
    Corpus::new(label, few, paths, draw)
}

// The calls that are timed.

type Peer<'a> = Box<dyn Fn() -> usize + 'a>;

/// What a call reads.
#[derive(Clone, Copy, PartialEq)]
enum Reads {
    /// The components of the path, each for itself.
    Components,
    /// The path as a whole.
    Whole,
    /// The end of the path alone.
    End,
}

/// A call on a corpus: what is timed, and the least times by now.
struct Row<'a> {
    label: &'static str,
    reads: Reads,
    calls: usize,
    peers: [Option<Peer<'a>>; 2],
    least: [f64; 2],
}

impl Row<'_> {
    fn time(&mut self) {
        for (peer, least) in self.peers.iter().zip(&mut self.least) {
            if let Some(peer) = peer {
                let start = Instant::now();
                black_box(peer());
                *least = least.min(start.elapsed().as_nanos() as f64 / self.calls as f64);
            }
        }
    }

    /// Both peers answer the same.
    fn check(&self, corpus: &str) {
        if let [Some(ours), Some(theirs)] = &self.peers {
            assert_eq!(ours(), theirs(), "{} on {corpus}", self.label);
        }
    }
}

/// A call for each of so many paths.
fn each<'a>(count: usize, call: impl Fn(usize) -> usize + 'a) -> Option<Peer<'a>> {
    Some(Box::new(move || (0..count).fold(0, |sum, at| sum.wrapping_add(black_box(call(at))))))
}

/// Rows of one kind of call on a corpus.
struct Kind<'a> {
    corpus: &'a Corpus,
    reads: Reads,
}

impl<'a> Kind<'a> {
    fn row(&self, label: &'static str, ours: Option<Peer<'a>>, theirs: Option<Peer<'a>>) -> Row<'a> {
        Row { label, reads: self.reads, calls: self.calls(), peers: [ours, theirs], least: [f64::MAX; 2] }
    }

    fn calls(&self) -> usize {
        if self.reads == Reads::End { self.corpus.paths.places.len() } else { self.corpus.few }
    }

    /// A call on a path.
    fn one(&self, label: &'static str, paths: &'a Texts, ours: One, theirs: fn(&Path) -> usize) -> Row<'a> {
        self.row(
            label,
            each(self.calls(), move |at| unsafe { ours(paths.at(at).as_ptr(), paths.at(at).len()) }),
            each(self.calls(), move |at| theirs(path_of(paths.at(at)))),
        )
    }

    /// A call on a path that std does not have.
    fn alone(&self, label: &'static str, paths: &'a Texts, ours: One) -> Row<'a> {
        let call = each(self.calls(), move |at| unsafe { ours(paths.at(at).as_ptr(), paths.at(at).len()) });
        self.row(label, call, None)
    }

    /// A call on a path and another text. Where std has no such call it is timed alone.
    fn two(
        &self,
        label: &'static str,
        texts: impl Fn(usize) -> (&'a [u8], &'a [u8]) + Copy + 'a,
        ours: Two,
        theirs: Option<fn(&Path, &Path) -> usize>,
    ) -> Row<'a> {
        self.row(
            label,
            each(self.calls(), move |at| {
                let (path, other) = texts(at);
                unsafe { ours(path.as_ptr(), path.len(), other.as_ptr(), other.len()) }
            }),
            theirs.and_then(|theirs| {
                each(self.calls(), move |at| {
                    let (path, other) = texts(at);
                    theirs(path_of(path), path_of(other))
                })
            }),
        )
    }

    /// A change of a path that has room, into which each path is laid before.
    fn room(
        &self,
        label: &'static str,
        other: &'a [u8],
        ours: Room,
        theirs: fn(&mut PathBuf, &Path) -> usize,
    ) -> Row<'a> {
        let (paths, count) = (&self.corpus.paths, self.calls());
        self.row(
            label,
            Some(Box::new(move || unsafe {
                ours(paths.text.as_ptr(), paths.text.len(), paths.ends.as_ptr(), count, other.as_ptr(), other.len())
            })),
            Some(Box::new(move || std_room(paths, count, path_of(other), theirs))),
        )
    }
}

fn rows(corpus: &Corpus) -> Vec<Row<'_>> {
    let paths = &corpus.paths;
    let walk = Kind { corpus, reads: Reads::Components };
    let whole = Kind { corpus, reads: Reads::Whole };
    let end = Kind { corpus, reads: Reads::End };
    let half = |at| (paths.at(at), corpus.half.at(at));
    let late = |at| (paths.at(at), corpus.late.at(at));
    let otherwise = |at| (paths.at(at), corpus.otherwise.at(at));
    let joined = |at| (BASE, corpus.relative.at(at));
    vec![
        walk.one("`for` over `components()`", paths, bench_walk, |path| sum(path.components())),
        walk.one("`for` over `components().rev()`", paths, bench_walk_back, |path| sum(path.components().rev())),
        walk.one("`next`", paths, bench_next, std_next),
        walk.one("`next_back`", paths, bench_next_back, std_next_back),
        walk.one("`step_front`, all components", paths, bench_steps, std_next),
        walk.one("`for` over `iter()`", paths, bench_texts, |path| sum(path.iter())),
        walk.one("`zip` of two", paths, bench_zip, std_zip),
        walk.one("`peekable`", paths, bench_peekable, std_peekable),
        walk.one("`next`, and `next` of a copy", paths, bench_ahead, std_ahead),
        walk.one("`chain` of two", paths, bench_chain, |path| sum(path.components().chain(path.components()))),
        walk.one("`map` and `fold`", paths, bench_map, |path| path.components().map(len).fold(0, usize::wrapping_add)),
        walk.one("`for` over `filter`", paths, bench_filter, std_filter),
        walk.one("`collect`", paths, bench_collect, |path| black_box(path.components().collect::<Vec<_>>()).len()),
        walk.one("`for` over `ancestors()`", paths, bench_ancestors, |path| sum(path.ancestors())),
        end.one("last component", paths, bench_last, |path| path.components().next_back().map_or(1, len)),
        end.one("last component by `step_back`", paths, bench_step_back, |path| path.components().next_back().map_or(1, len)),
        end.one("`parent`", paths, bench_parent, |path| path.parent().map_or(1, len)),
        end.one("`file_name`", paths, bench_file_name, |path| path.file_name().map_or(1, len)),
        end.one("`extension`", paths, bench_extension, |path| path.extension().map_or(1, len)),
        whole.two("`starts_with` of the first half", half, bench_starts_with, Some(starts_with)),
        whole.two("`starts_with`, differs late", late, bench_starts_with, Some(starts_with)),
        whole.two("`starts_with`, written otherwise", otherwise, bench_starts_with, Some(starts_with)),
        whole.two("`common_ancestor` with the first half", half, bench_common_ancestor, Some(common_ancestor)),
        whole.two("`common_ancestor`, differs late", late, bench_common_ancestor, Some(common_ancestor)),
        whole.two("`is_within` of the first half", half, bench_is_within, Some(is_within)),
        whole.two("`is_within`, differs late", late, bench_is_within, Some(is_within)),
        whole.two("`relative_to` the first half", half, bench_relative_to, Some(relative_to)),
        whole.two("`relative_to`, differs late", late, bench_relative_to, Some(relative_to)),
        whole.two("`strip_prefix` of the first half", half, bench_strip_prefix, Some(strip_prefix)),
        whole.two("`strip_prefix`, differs late", late, bench_strip_prefix, Some(strip_prefix)),
        whole.two("`strip_prefix`, written otherwise", otherwise, bench_strip_prefix, Some(strip_prefix)),
        whole.two(
            "`ends_with` of the second half",
            |at| (paths.at(at), corpus.end.at(at)),
            bench_ends_with,
            Some(|path, end| usize::from(path.ends_with(end))),
        ),
        whole.two("`==`, equal bytes", |at| (paths.at(at), corpus.copies.at(at)), bench_eq, Some(eq)),
        whole.two("`==`, differs early", |at| (paths.at(at), corpus.begins_otherwise.at(at)), bench_eq, Some(eq)),
        whole.two("`==`, differs late", |at| (paths.at(at), corpus.ends_otherwise.at(at)), bench_eq, Some(eq)),
        whole.two("`==`, written otherwise", |at| (paths.at(at), corpus.doubled.at(at)), bench_eq, Some(eq)),
        whole.two("`cmp`, equal bytes", |at| (paths.at(at), corpus.copies.at(at)), bench_cmp, Some(cmp)),
        whole.two("`cmp`, differs early", |at| (paths.at(at), corpus.begins_otherwise.at(at)), bench_cmp, Some(cmp)),
        whole.two("`cmp`, differs late", |at| (paths.at(at), corpus.ends_otherwise.at(at)), bench_cmp, Some(cmp)),
        whole.two("`cmp`, written otherwise", |at| (paths.at(at), corpus.doubled.at(at)), bench_cmp, Some(cmp)),
        whole.two(
            "`eq_ignore_ascii_case`, differs late",
            |at| (paths.at(at), corpus.ends_otherwise.at(at)),
            bench_eq_ignore_case,
            Some(eq_ignore_case),
        ),
        whole.two("the same, written otherwise", |at| (paths.at(at), corpus.doubled.at(at)), bench_eq_ignore_case, Some(eq_ignore_case)),
        whole.two("`starts_with_ignore_ascii_case` of the first half", half, bench_starts_with_ignore_case, Some(starts_ignoring_case)),
        whole.one("`to_ascii_lowercase`", paths, bench_to_ascii_lowercase, |path| made(PathBuf::from(path.as_os_str().to_ascii_lowercase()))),
        whole.one("`hash`", paths, bench_hash, std_hash),
        whole.one("`hash` of a `Key`, beside that of a path", paths, bench_key_hash, std_hash),
        whole.one("`put_key`", paths, bench_put_key, std_put_key),
        whole.one("`to_path_buf`", paths, bench_to_path_buf, |path| made(path.to_path_buf())),
        whole.two("`join` onto a base", joined, bench_join, Some(|base, path| made(base.join(path)))),
        whole.two("`join_checked` onto a base", joined, bench_join_checked, None),
        whole.two("`push_place` onto a base", joined, bench_push_place, Some(push_place)),
        whole.two(
            "`with_file_name`",
            |at| (paths.at(at), NAME),
            bench_with_file_name,
            Some(|path, name| made(path.with_file_name(name))),
        ),
        whole.two(
            "`with_extension`",
            |at| (paths.at(at), EXTENSION),
            bench_with_extension,
            Some(|path, extension| made(path.with_extension(extension))),
        ),
        whole.two(
            "`with_added_extension`",
            |at| (paths.at(at), EXTENSION),
            bench_with_added_extension,
            Some(|path, extension| made(path.with_added_extension(extension))),
        ),
        whole.one("`normalize`", paths, bench_normalize, std_normalize),
        whole.one("`normalize`, with dots", &corpus.dotted, bench_normalize, std_normalize),
        whole.one("`normalize`, runs of separators", &corpus.runs, bench_normalize, std_normalize),
        whole.one("`normalize`, runs of `./`", &corpus.dot_runs, bench_normalize, std_normalize),
        whole.one("`clean`", paths, bench_clean, std_clean),
        whole.one("`clean`, with dots", &corpus.dotted, bench_clean, std_clean),
        whole.one("`clean`, runs of separators", &corpus.runs, bench_clean, std_clean),
        whole.one("`clean`, runs of `./`", &corpus.dot_runs, bench_clean, std_clean),
        whole.one("`is_valid`, beside one search", paths, bench_is_valid, std_is_valid),
        whole.one("`is_portable`", paths, bench_is_portable, |path| usize::from(is_portable(path))),
        whole.one("`may_be_device`", paths, bench_may_be_device, |path| usize::from(has_device(path))),
        whole.one("`to_string_lossy`, no text", &corpus.broken, bench_to_string_lossy, |path| {
            black_box(path.to_string_lossy()).len()
        }),
        whole.alone("`with_windows_encoding`", paths, bench_to_windows),
        whole.alone("`with_windows_encoding_checked`", paths, bench_to_windows_checked),
        whole.two(
            "`absolutize` from a directory",
            |at| (corpus.relative.at(at), BASE),
            bench_absolutize,
            None,
        ),
        whole.room("`clear` and `push` of the path", NAME, bench_room_lay, |path, _| len(path)),
        whole.room("the same, `push` of a name", NAME, bench_room_push, |path, name| {
            path.push(name);
            len(path)
        }),
        whole.room("the same, `pop`", NAME, bench_room_pop, |path, _| {
            path.pop();
            len(path)
        }),
        whole.room("the same, `set_file_name`", NAME, bench_room_file_name, |path, name| {
            path.set_file_name(name);
            len(path)
        }),
        whole.room("the same, `set_extension`", EXTENSION, bench_room_extension, |path, extension| {
            path.set_extension(extension);
            len(path)
        }),
        whole.room("the same, `clone`", NAME, bench_room_clone, |path, _| made(path.clone())),
    ]
}

/// A beginning of a path: to the first separator behind its middle.
fn half(path: &[u8]) -> &[u8] {
    let middle = path.len() / 2;
    let more = path[middle..].iter().position(|byte| matches!(byte, b'/' | b'\\'));
    &path[..middle + more.unwrap_or(path.len() - middle)]
}

/// Calls on Windows paths behind a long prefix, beside the same on Unix.
fn long_prefix_rows(corpus: &Corpus) -> Vec<Row<'_>> {
    let [paths, other] = &corpus.windows_long;
    let kind = Kind { corpus, reads: Reads::Components };
    let ours = each(kind.calls(), move |at| unsafe { bench_windows_ancestors(paths.at(at).as_ptr(), paths.at(at).len()) });
    let theirs = each(kind.calls(), move |at| unsafe { bench_ancestors(other.at(at).as_ptr(), other.at(at).len()) });
    vec![kind.row("`for` over `ancestors()`", ours, theirs)]
}

/// Calls on Windows paths behind a prefix, beside those of Unix on the same texts with slashes.
/// The calls of paths of text that are timed beside those of their bytes, by their numbers in the
/// exports.
const TEXT_CALLS: [&str; 8] = [
    "`for` over `components()`",
    "`for` over `iter().rev()`",
    "`parent`",
    "`join_checked` of a name",
    "`normalize`",
    "`with_windows_encoding`",
    "`with_windows_encoding_checked`",
    "a copy, and `push` of a name",
];

/// Paths of text beside the paths of their bytes.
fn text_rows(corpus: &Corpus) -> Vec<Row<'_>> {
    let (paths, kind) = (&corpus.paths, Kind { corpus, reads: Reads::Whole });
    let all = |of: Numbered, call| -> Option<Peer<'_>> {
        let count = kind.calls();
        Some(Box::new(move || unsafe {
            of(paths.text.as_ptr(), paths.text.len(), paths.ends.as_ptr(), count, NAME.as_ptr(), NAME.len(), call)
        }))
    };
    TEXT_CALLS
        .into_iter()
        .enumerate()
        .map(|(call, label)| kind.row(label, all(bench_texts_of_text, call), all(bench_texts_of_bytes, call)))
        .collect()
}

fn windows_rows(corpus: &Corpus, at: usize) -> Vec<Row<'_>> {
    let [(paths, base), (other, other_base)] = &corpus.windows[at];
    let one = |label, reads, windows: One, unix: One| {
        let kind = Kind { corpus, reads };
        let ours = each(kind.calls(), move |at| unsafe { windows(paths.at(at).as_ptr(), paths.at(at).len()) });
        let theirs = each(kind.calls(), move |at| unsafe { unix(other.at(at).as_ptr(), other.at(at).len()) });
        kind.row(label, ours, theirs)
    };
    let call = |two: Two, path: &[u8], other: &[u8]| unsafe { two(path.as_ptr(), path.len(), other.as_ptr(), other.len()) };
    let whole = Kind { corpus, reads: Reads::Whole };
    let halved = |label, windows: Two, unix: Two| {
        let ours = each(whole.calls(), move |at| call(windows, paths.at(at), half(paths.at(at))));
        let theirs = each(whole.calls(), move |at| call(unix, other.at(at), half(other.at(at))));
        whole.row(label, ours, theirs)
    };
    let joined = |label, windows: Two, unix: Two| {
        let ours = each(whole.calls(), move |at| call(windows, base, corpus.windows_relative.at(at)));
        let theirs = each(whole.calls(), move |at| call(unix, other_base, corpus.relative.at(at)));
        whole.row(label, ours, theirs)
    };
    vec![
        one("`for` over `components()`", Reads::Components, bench_windows_walk, bench_walk),
        one("`for` over `components().rev()`", Reads::Components, bench_windows_walk_back, bench_walk_back),
        one("first component", Reads::End, bench_windows_first, bench_first),
        one("last component", Reads::End, bench_windows_last, bench_last),
        one("last component by `step_back`", Reads::End, bench_windows_step_back, bench_step_back),
        one("`parent`", Reads::End, bench_windows_parent, bench_parent),
        one("`file_name`", Reads::End, bench_windows_file_name, bench_file_name),
        one("`extension`", Reads::End, bench_windows_extension, bench_extension),
        joined("`join` onto a base", bench_windows_join, bench_join),
        joined("`join_checked` onto a base", bench_windows_join_checked, bench_join_checked),
        joined("`extend` by names", bench_windows_extend, bench_extend),
        whole.row(
            "`with_extension`",
            each(whole.calls(), move |at| call(bench_windows_with_extension, paths.at(at), EXTENSION)),
            each(whole.calls(), move |at| call(bench_with_extension, other.at(at), EXTENSION)),
        ),
        one("`normalize`", Reads::Whole, bench_windows_normalize, bench_normalize),
        one("`clean`", Reads::Whole, bench_windows_clean, bench_clean),
        one("`for` over `ancestors()`", Reads::Components, bench_windows_ancestors, bench_ancestors),
        // Windows has names that stand for devices, so only that there is an answer is compared.
        whole.row(
            "`is_valid`",
            each(whole.calls(), move |at| usize::from(unsafe { bench_windows_is_valid(paths.at(at).as_ptr(), paths.at(at).len()) } < 2)),
            each(whole.calls(), move |at| usize::from(unsafe { bench_is_valid(other.at(at).as_ptr(), other.at(at).len()) } < 2)),
        ),
        one("`is_portable`", Reads::Whole, bench_windows_is_portable, bench_is_portable),
        one("`may_be_device`", Reads::Whole, bench_windows_may_be_device, bench_may_be_device),
        halved("`starts_with` of the first half", bench_windows_starts_with, bench_starts_with),
        halved("`is_within` of the first half", bench_windows_is_within, bench_is_within),
        // No `..` takes a prefix away, so only that there is an answer is compared.
        whole.row(
            "`relative_to` the first half",
            each(whole.calls(), move |at| usize::from(call(bench_windows_relative_to, paths.at(at), half(paths.at(at))) != usize::MAX)),
            each(whole.calls(), move |at| usize::from(call(bench_relative_to, other.at(at), half(other.at(at))) != usize::MAX)),
        ),
        whole.alone("`keeps_prefix`", paths, bench_windows_keeps_prefix),
        whole.alone("`prefix_names`", paths, bench_windows_prefix_names),
        whole.alone("`simplified`", paths, bench_windows_simplified),
        halved("`strip_prefix` of the first half", bench_windows_strip_prefix, bench_strip_prefix),
        whole.row(
            "`==`, separators otherwise",
            each(whole.calls(), move |at| call(bench_windows_eq, paths.at(at), other.at(at))),
            each(whole.calls(), move |at| call(bench_eq, corpus.paths.at(at), corpus.doubled.at(at))),
        ),
        whole.row(
            "`cmp`, separators otherwise",
            each(whole.calls(), move |at| call(bench_windows_cmp, paths.at(at), other.at(at))),
            each(whole.calls(), move |at| call(bench_cmp, corpus.paths.at(at), corpus.doubled.at(at))),
        ),
        one("`hash`", Reads::Whole, bench_windows_hash, bench_hash),
        whole.alone("`with_unix_encoding`", paths, bench_windows_to_unix),
        whole.alone("`with_unix_encoding_checked`", paths, bench_windows_to_unix_checked),
    ]
}

fn eq(path: &Path, other: &Path) -> usize {
    usize::from(path == other)
}

/// By components, in the plain way: std compares texts so, and no paths.
fn starts_ignoring_case(path: &Path, base: &Path) -> usize {
    let mut own = path.components();
    usize::from(base.components().all(|piece| own.next().is_some_and(|own| own.as_os_str().eq_ignore_ascii_case(piece))))
}

fn eq_ignore_case(path: &Path, other: &Path) -> usize {
    let (mut own, mut others) = (path.components(), other.components());
    loop {
        match (own.next(), others.next()) {
            (None, None) => return 1,
            (Some(piece), Some(other)) if piece.as_os_str().eq_ignore_ascii_case(other) => {}
            _ => return 0,
        }
    }
}

fn cmp(path: &Path, other: &Path) -> usize {
    (path.cmp(other) as i8 + 1) as usize
}

/// The same hasher as here: SipHash of one round and three.
fn std_hash(path: &Path) -> usize {
    let mut state = DefaultHasher::new();
    path.hash(&mut state);
    usize::from(state.finish() != 0)
}

/// By a search for the one byte that no name may have, since std has no such call.
fn std_is_valid(path: &Path) -> usize {
    usize::from(!path.as_os_str().as_bytes().contains(&0))
}

/// The names of a path, as bytes.
fn names(path: &Path) -> impl Iterator<Item = &[u8]> {
    path.components().filter_map(|component| match component {
        Component::Normal(name) => Some(name.as_bytes()),
        _ => None,
    })
}

/// Whether Windows may take a name for a device, in the plain way: what stands before a colon and a dot is looked for in
/// a list.
fn is_device(name: &[u8]) -> bool {
    let stem = name.split(|byte| *byte == b':' || *byte == b'.').next().unwrap_or(b"").trim_ascii_end().to_ascii_uppercase();
    match stem.strip_prefix(b"COM").or_else(|| stem.strip_prefix(b"LPT")) {
        Some(number) => matches!(number, [b'0'..=b'9'] | [0xC2, 0xB2 | 0xB3 | 0xB9]),
        None => [&b"CON"[..], b"PRN", b"AUX", b"NUL", b"CONIN$", b"CONOUT$"].contains(&&stem[..]),
    }
}

fn has_device(path: &Path) -> bool {
    names(path).any(is_device)
}

/// In the plain way, name by name.
fn is_portable(path: &Path) -> bool {
    names(path).all(|name| {
        name.len() <= 255
            && !name.iter().any(|byte| byte.is_ascii_control() || b"\\/:*?\"<>|".contains(byte))
            && !matches!(name.last(), Some(b'.' | b' '))
            && std::str::from_utf8(name).is_ok()
            && !is_device(name)
    })
}

/// A number for each component and the bytes of names, in the plain way: how many bytes they are.
fn std_put_key(path: &Path) -> usize {
    let mut room = [0u8; 512];
    let mut at = 0;
    let mut put = |byte: u8| {
        if let Some(place) = room.get_mut(at) {
            *place = byte;
        }
        at += 1;
    };
    for component in path.components() {
        match component {
            Component::Normal(name) => {
                put(10 + name.len() as u8);
                name.as_bytes().iter().for_each(|byte| put(*byte));
            }
            _ => put(7),
        }
    }
    put(0);
    black_box(&room);
    at
}

/// Where another path goes that is pushed, in the plain way.
fn push_place(base: &Path, other: &Path) -> usize {
    if other.has_root() { 0 } else { len(base) + usize::from(!base.as_os_str().as_bytes().ends_with(b"/")) }
}

fn starts_with(path: &Path, base: &Path) -> usize {
    usize::from(path.starts_with(base))
}

/// The components that both begin with, in the plain way: std has no such call.
fn common_ancestor(path: &Path, other: &Path) -> usize {
    let pairs = path.components().zip(other.components());
    made(pairs.take_while(|(own, others)| own == others).map(|(own, _)| own).collect())
}

/// The path without `.` and the names that a `..` takes away, in the plain way that is known to work.
fn cleaned(path: &Path) -> PathBuf {
    let mut left = Vec::new();
    for component in path.components() {
        match (component, left.last()) {
            (Component::CurDir, _) | (Component::ParentDir, Some(Component::RootDir)) => {}
            (Component::ParentDir, Some(Component::Normal(_))) => {
                left.pop();
            }
            _ => left.push(component),
        }
    }
    left.iter().collect()
}

/// By hand, since std has no such call; as the crate `path-clean` does it.
fn std_clean(path: &Path) -> usize {
    let clean = cleaned(path);
    made(if clean.as_os_str().is_empty() { PathBuf::from(".") } else { clean })
}

fn is_within(path: &Path, base: &Path) -> usize {
    usize::from(cleaned(path).starts_with(cleaned(base)))
}

/// The path that leads from a base to a path, in the plain way: component by component as they are written.
fn led(path: &Path, base: &Path) -> Option<PathBuf> {
    if path.is_absolute() != base.is_absolute() {
        return None;
    }
    let (mut own, mut other) = (path.components(), base.components());
    let mut led = Vec::new();
    loop {
        match (own.next(), other.next()) {
            (None, None) => break,
            (Some(piece), None) => {
                led.push(piece);
                led.extend(own.by_ref());
                break;
            }
            (None, Some(_)) => led.push(Component::ParentDir),
            (Some(piece), Some(base)) if led.is_empty() && piece == base => {}
            (Some(piece), Some(Component::CurDir)) => led.push(piece),
            (Some(_), Some(Component::ParentDir)) => return None,
            (Some(piece), Some(_)) => {
                led.push(Component::ParentDir);
                led.extend(other.by_ref().map(|_| Component::ParentDir));
                led.push(piece);
                led.extend(own.by_ref());
                break;
            }
        }
    }
    Some(led.iter().collect())
}

fn relative_to(path: &Path, base: &Path) -> usize {
    led(path, base).map_or(0, made)
}

fn strip_prefix(path: &Path, base: &Path) -> usize {
    path.strip_prefix(base).map_or(1, len)
}

// What is printed.

/// Nanoseconds: with a tenth below 100, and else with commas between thousands.
fn shown(nanoseconds: f64) -> String {
    if nanoseconds < 99.95 {
        return format!("{nanoseconds:.1}");
    }
    let digits = format!("{nanoseconds:.0}");
    let groups: Vec<_> = digits.as_bytes().rchunks(3).rev().map(String::from_utf8_lossy).collect();
    groups.join(",")
}

/// The times of both peers, each divided, and their ratio.
fn cell(row: &Row, by: f64) -> String {
    let [ours, theirs] = row.least;
    if row.peers[1].is_none() {
        return shown(ours / by);
    }
    format!("{} / {} ({:.2})", shown(ours / by), shown(theirs / by), ours / theirs)
}

fn line(cells: impl IntoIterator<Item = String>) {
    println!("| {} |", cells.into_iter().collect::<Vec<_>>().join(" | "));
}

fn head(first: &str, corpora: &[Corpus]) {
    line(std::iter::once(first.to_string()).chain(corpora.iter().map(|corpus| corpus.label.to_string())));
    println!("|---|{}", "---|".repeat(corpora.len()));
}

/// The rows whose label has a word.
fn asked<'a>(rows: Vec<Row<'a>>, word: &str) -> Vec<Row<'a>> {
    rows.into_iter().filter(|row| row.label.contains(word)).collect()
}

fn main() {
    let sweeps: usize = std::env::args().nth(1).map_or(5, |sweeps| sweeps.parse().unwrap());
    let word = std::env::args().nth(2).unwrap_or_default();
    let mut draw = Draw(0x9E37_79B9_7F4A_7C15);
    let mut text = draw.names(110_000);
    text.truncate(1 << 20);
    let corpora = [
        Corpus::made("short", PATHS, &mut draw, |draw| {
            let name = String::from_utf8(draw.name(3..13)).unwrap();
            format!("/usr/lib/lib{name}.so.{}", 1 + draw.below(9)).into_bytes()
        }),
        Corpus::made("usual", PATHS, &mut draw, |draw| draw.names(7)),
        Corpus::made("deep", PATHS / 10, &mut draw, |draw| [b"/", draw.names(1000).as_slice()].concat()),
        long(&text, &mut draw),
    ];
    let pieces = [cut("1 KiB", &text, 1 << 10, &mut draw), cut("32 KiB", &text, 1 << 15, &mut draw)];
    #[cfg(beside_crate)]
    let behind_prefixes = crate_peer::WindowsTexts::of(&corpora[1]);
    #[cfg(beside_crate)]
    let mut beside = crate_peer::Tables::new(&corpora[..3], &corpora[1], &behind_prefixes, &word);
    let mut tables: Vec<_> = corpora.iter().chain(&pieces).map(|corpus| asked(rows(corpus), &word)).collect();
    let mut windows: Vec<Vec<_>> = (0..=PREFIXES.len())
        .map(|at| corpora.iter().map(|corpus| asked(windows_rows(corpus, at), &word)).collect())
        .collect();
    windows.push(corpora.iter().map(|corpus| asked(long_prefix_rows(corpus), &word)).collect());
    let mut texts: Vec<_> = corpora.iter().map(|corpus| asked(text_rows(corpus), &word)).collect();
    for (corpus, rows) in corpora.iter().chain(&pieces).zip(&tables).chain(corpora.iter().zip(&windows[0])).chain(corpora.iter().zip(&texts)) {
        rows.iter().for_each(|row| row.check(corpus.label));
    }
    for _ in 0..sweeps {
        let rows = tables.iter_mut().chain(windows.iter_mut().flatten()).chain(&mut texts).flatten();
        #[cfg(beside_crate)]
        let rows = rows.chain(beside.rows());
        for row in rows {
            for _ in 0..ROUNDS {
                row.time();
            }
        }
    }

    for corpus in &corpora {
        println!(
            "{}: {} paths, of which {} for a call that reads a path as a whole; {} bytes and {} components on average",
            corpus.label,
            corpus.paths.places.len(),
            corpus.few,
            shown(corpus.mean(<[u8]>::len)),
            shown(corpus.mean(|path| path_of(path).components().count())),
        );
    }
    println!("\nNanoseconds a call, here / std (ratio):\n");
    head("Call", &corpora);
    for at in 0..tables[0].len() {
        let cells = tables[..corpora.len()].iter().map(|rows| cell(&rows[at], 1.0));
        line(std::iter::once(tables[0][at].label.to_string()).chain(cells));
    }
    println!("\nNanoseconds a component, here / std (ratio):\n");
    head("Walk", &corpora);
    for at in (0..tables[0].len()).filter(|at| tables[0][*at].reads == Reads::Components) {
        let cells = corpora
            .iter()
            .zip(&tables)
            .map(|(corpus, rows)| cell(&rows[at], corpus.mean(|path| path_of(path).components().count())));
        line(std::iter::once(tables[0][at].label.to_string()).chain(cells));
    }
    println!("\nPicoseconds a byte here, over the same bytes in paths of three lengths:\n");
    line(["Call", "1 KiB", "32 KiB", "1 MiB", "1 MiB : 1 KiB"].map(String::from));
    println!("|---|---|---|---|---|");
    let (kilo, some, mega) = (&tables[4], &tables[5], &tables[3]);
    for at in (0..kilo.len()).filter(|at| kilo[*at].reads != Reads::End) {
        let of = |row: &Row, corpus: &Corpus| 1000.0 * row.least[0] / corpus.mean(<[u8]>::len);
        let bytes = [of(&kilo[at], &pieces[0]), of(&some[at], &pieces[1]), of(&mega[at], &corpora[3])];
        let ratio = format!("{:.2}", bytes[2] / bytes[0]);
        line([kilo[at].label.to_string()].into_iter().chain(bytes.map(shown)).chain([ratio]));
    }
    println!("\nNanoseconds a call, a path of text / the path of its bytes (ratio):\n");
    head("Call", &corpora);
    for at in 0..texts[0].len() {
        let cells = texts.iter().map(|rows| cell(&rows[at], 1.0));
        line(std::iter::once(texts[0][at].label.to_string()).chain(cells));
    }
    println!("\nNanoseconds a call, a Windows path / the same text with slashes on Unix (ratio):\n");
    head("Call", &corpora);
    for (prefix, tables) in PREFIXES.iter().map(|(prefix, _)| *prefix).chain(["mixed", "a long prefix"]).zip(&windows) {
        for at in 0..tables[0].len() {
            let cells = tables.iter().map(|rows| cell(&rows[at], 1.0));
            line(std::iter::once(format!("{}, {prefix}", tables[0][at].label)).chain(cells));
        }
    }
    #[cfg(beside_crate)]
    beside.print();
}
