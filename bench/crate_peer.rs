//! Times the calls of `typed_path` beside those of the Rust crate of that name, as `main.rs` times them
//! beside std: in turns, both called by a pointer, and the run stops where they answer differently.
//!
//! Where the two are known to be apart, they are compared as far as they agree:
//!
//! - Of a hash, only that there is one, since a Windows path feeds a hasher otherwise there.
//! - A `join` onto a base behind a drive, a share or a verbatim prefix answers the same, but not by the
//!   same work: the crate resolves and spells anew behind the first two, this library behind the third.
//! - Names with a slash, which a verbatim prefix allows, are not normalized: this library resolves them
//!   where it pushes them.
//! - No name stands for a device, which the crate would allow.

use super::*;
use typed_path::{Component, Encoding, Path, PathBuf, UnixEncoding, WindowsEncoding};

// The calls of the crate, which answer what the exports do.

fn walk<T: Encoding>(path: &[u8]) -> usize {
    let mut sum = 0usize;
    for piece in Path::<T>::new(path).components() {
        sum = sum.wrapping_add(piece.len());
    }
    sum
}

fn walk_back<T: Encoding>(path: &[u8]) -> usize {
    let mut sum = 0usize;
    for piece in Path::<T>::new(path).components().rev() {
        sum = sum.wrapping_add(piece.len());
    }
    sum
}

fn peekable<T: Encoding>(path: &[u8]) -> usize {
    let mut sum = 0usize;
    let mut components = Path::<T>::new(path).components().peekable();
    while let Some(piece) = components.next() {
        let following = components.peek().map_or(0, |next| next.len());
        sum = sum.wrapping_add(piece.len()).wrapping_add(following);
    }
    sum
}

fn collect<T: Encoding>(path: &[u8]) -> usize {
    black_box(Path::<T>::new(path).components().collect::<Vec<_>>()).len()
}

fn ancestors<T: Encoding>(path: &[u8]) -> usize {
    let mut sum = 0usize;
    for ancestor in Path::<T>::new(path).ancestors() {
        sum = sum.wrapping_add(ancestor.as_bytes().len());
    }
    sum
}

fn parent<T: Encoding>(path: &[u8]) -> usize {
    Path::<T>::new(path).parent().map_or(1, |parent| parent.as_bytes().len())
}

fn file_name<T: Encoding>(path: &[u8]) -> usize {
    Path::<T>::new(path).file_name().map_or(1, <[u8]>::len)
}

fn starts_with<T: Encoding>(path: &[u8], base: &[u8]) -> usize {
    usize::from(Path::<T>::new(path).starts_with(Path::<T>::new(base)))
}

fn eq<T: Encoding>(path: &[u8], other: &[u8]) -> usize {
    usize::from(Path::<T>::new(path) == Path::<T>::new(other))
}

fn cmp<T: Encoding>(path: &[u8], other: &[u8]) -> usize {
    (Path::<T>::new(path).cmp(Path::<T>::new(other)) as i8 + 1) as usize
}

fn hash<T: Encoding>(path: &[u8]) -> usize {
    let mut state = DefaultHasher::new();
    Path::<T>::new(path).hash(&mut state);
    usize::from(state.finish() != 0)
}

fn is_valid<T: Encoding>(path: &[u8]) -> usize {
    usize::from(Path::<T>::new(path).is_valid())
}

fn to_string_lossy<T: Encoding>(path: &[u8]) -> usize {
    black_box(Path::<T>::new(path).to_string_lossy()).len()
}

/// The length of a path that was made, which may not be left unmade.
fn made<T: Encoding>(path: PathBuf<T>) -> usize {
    black_box(path.as_bytes()).len()
}

fn normalize<T: Encoding>(path: &[u8]) -> usize {
    made(Path::<T>::new(path).normalize())
}

fn join<T: Encoding>(path: &[u8], other: &[u8]) -> usize {
    made(Path::<T>::new(path).join(Path::<T>::new(other)))
}

fn join_checked<T: Encoding>(path: &[u8], other: &[u8]) -> usize {
    Path::<T>::new(path).join_checked(Path::<T>::new(other)).map_or(0, made)
}

fn converted<T: Encoding, U: Encoding>(path: &[u8]) -> usize {
    made(Path::<T>::new(path).with_encoding::<U>())
}

fn converted_checked<T: Encoding, U: Encoding>(path: &[u8]) -> usize {
    Path::<T>::new(path).with_encoding_checked::<U>().map_or(0, made)
}

// Windows paths.

const VERBATIM: &[u8] = br"\\?\";

/// What is asked of the Windows paths of a corpus behind one prefix, or behind each in turn.
pub struct WindowsTexts {
    label: &'static str,
    /// The path, but behind a verbatim prefix with backslashes alone: a slash belongs to a name there.
    plain: Texts,
    /// The same bytes once more.
    copies: Texts,
    /// A beginning of the path, to the first separator behind its middle.
    half: Texts,
    /// The same, with another first byte of a name near the end, or near the beginning.
    ends_otherwise: Texts,
    begins_otherwise: Texts,
    /// With `.`, `..` and doubled separators here and there.
    dotted: Texts,
    /// With each separator written eight times, or with `.` between four of them.
    runs: Texts,
    dot_runs: Texts,
}

/// A text with slashes as Windows writes it behind a prefix. Where both separators are asked for, they
/// take turns, but not behind a verbatim prefix, where a slash separates nothing.
fn behind(prefix: &[u8], path: &[u8], both: bool) -> Vec<u8> {
    let mut whole = prefix.to_vec();
    if !prefix.is_empty() && !path.starts_with(b"/") {
        whole.push(b'\\');
    }
    let both = both && !prefix.starts_with(VERBATIM);
    let mut backward = true;
    for byte in path {
        whole.push(if *byte == b'/' && backward { b'\\' } else { *byte });
        backward ^= both && *byte == b'/';
    }
    whole
}

impl WindowsTexts {
    /// Behind each of the prefixes, and then mixed, as the corpus has them.
    pub fn of(corpus: &Corpus) -> Vec<WindowsTexts> {
        let labels = PREFIXES.iter().map(|(label, _)| *label).chain(["mixed"]);
        labels.enumerate().map(|(at, label)| WindowsTexts::new(corpus, at, label)).collect()
    }

    fn new(corpus: &Corpus, number: usize, label: &'static str) -> WindowsTexts {
        let mut texts = WindowsTexts {
            label,
            plain: Texts::default(),
            copies: Texts::default(),
            half: Texts::default(),
            ends_otherwise: Texts::default(),
            begins_otherwise: Texts::default(),
            dotted: Texts::default(),
            runs: Texts::default(),
            dot_runs: Texts::default(),
        };
        let mixed = number == PREFIXES.len();
        let [(paths, _), _] = &corpus.windows[number];
        for at in 0..corpus.few {
            let path = paths.at(at);
            let (_, prefix) = PREFIXES[if mixed { at % PREFIXES.len() } else { number }];
            let separators: Vec<_> =
                (prefix.len() + 1..path.len()).filter(|at| matches!(path[*at], b'/' | b'\\')).collect();
            let [first, last] = [separators[0], separators[separators.len() - 1]].map(|at| {
                let mut marked = path.to_vec();
                marked[at + 1] = b'#';
                marked
            });
            let copy = path.to_vec();
            let plain = if prefix.starts_with(VERBATIM) { replaced(path, b'/', b'\\') } else { copy.clone() };
            texts.plain.push(&plain);
            texts.copies.push(&copy);
            texts.half.push(crate::half(path));
            texts.begins_otherwise.push(&first);
            texts.ends_otherwise.push(&last);
            texts.dotted.push(&behind(prefix, corpus.dotted.at(at), mixed));
            texts.runs.push(&behind(prefix, corpus.runs.at(at), mixed));
            texts.dot_runs.push(&behind(prefix, corpus.dot_runs.at(at), mixed));
        }
        texts
    }
}

// The calls that are timed.

impl<'a> Kind<'a> {
    /// A call on a path.
    fn beside(&self, label: &'static str, paths: &'a Texts, ours: One, theirs: fn(&[u8]) -> usize) -> Row<'a> {
        self.row(
            label,
            each(self.calls(), move |at| unsafe { ours(paths.at(at).as_ptr(), paths.at(at).len()) }),
            each(self.calls(), move |at| theirs(paths.at(at))),
        )
    }

    /// A call on a path and another text.
    fn beside_two(
        &self,
        label: &'static str,
        texts: impl Fn(usize) -> (&'a [u8], &'a [u8]) + Copy + 'a,
        ours: Two,
        theirs: fn(&[u8], &[u8]) -> usize,
    ) -> Row<'a> {
        self.row(
            label,
            each(self.calls(), move |at| {
                let (path, other) = texts(at);
                unsafe { ours(path.as_ptr(), path.len(), other.as_ptr(), other.len()) }
            }),
            each(self.calls(), move |at| {
                let (path, other) = texts(at);
                theirs(path, other)
            }),
        )
    }
}

fn unix_rows(corpus: &Corpus) -> Vec<Row<'_>> {
    type Unix = UnixEncoding;
    let paths = &corpus.paths;
    let components = Kind { corpus, reads: Reads::Components };
    let whole = Kind { corpus, reads: Reads::Whole };
    let end = Kind { corpus, reads: Reads::End };
    let half = |at| (paths.at(at), corpus.half.at(at));
    let copy = |at| (paths.at(at), corpus.copies.at(at));
    let early = |at| (paths.at(at), corpus.begins_otherwise.at(at));
    let late = |at| (paths.at(at), corpus.ends_otherwise.at(at));
    let otherwise = |at| (paths.at(at), corpus.doubled.at(at));
    let joined = |at| (BASE, corpus.relative.at(at));
    vec![
        components.beside("`for` over `components()`", paths, bench_walk, walk::<Unix>),
        components.beside("`for` over `components().rev()`", paths, bench_walk_back, walk_back::<Unix>),
        components.beside("`peekable`", paths, bench_peekable, peekable::<Unix>),
        components.beside("`collect`", paths, bench_collect, collect::<Unix>),
        components.beside("`for` over `ancestors()`", paths, bench_ancestors, ancestors::<Unix>),
        end.beside("`parent`", paths, bench_parent, parent::<Unix>),
        end.beside("`file_name`", paths, bench_file_name, file_name::<Unix>),
        whole.beside_two("`starts_with` of the first half", half, bench_starts_with, starts_with::<Unix>),
        whole.beside_two("`==`, equal bytes", copy, bench_eq, eq::<Unix>),
        whole.beside_two("`==`, differs early", early, bench_eq, eq::<Unix>),
        whole.beside_two("`==`, differs late", late, bench_eq, eq::<Unix>),
        whole.beside_two("`==`, written otherwise", otherwise, bench_eq, eq::<Unix>),
        whole.beside_two("`cmp`, differs late", late, bench_cmp, cmp::<Unix>),
        whole.beside_two("`cmp`, written otherwise", otherwise, bench_cmp, cmp::<Unix>),
        whole.beside("`hash`", paths, bench_hash, hash::<Unix>),
        whole.beside("`is_valid`", paths, bench_is_valid, is_valid::<Unix>),
        whole.beside("`normalize`", paths, bench_normalize, normalize::<Unix>),
        whole.beside("`normalize`, with dots", &corpus.dotted, bench_normalize, normalize::<Unix>),
        whole.beside("`normalize`, runs of separators", &corpus.runs, bench_normalize, normalize::<Unix>),
        whole.beside("`normalize`, runs of `./`", &corpus.dot_runs, bench_normalize, normalize::<Unix>),
        whole.beside_two("`join` onto a base", joined, bench_join, join::<Unix>),
        whole.beside_two("`join_checked` onto a base", joined, bench_join_checked, join_checked::<Unix>),
        whole.beside("`with_windows_encoding`", paths, bench_to_windows, converted::<Unix, WindowsEncoding>),
        whole.beside(
            "`with_windows_encoding_checked`",
            paths,
            bench_to_windows_checked,
            converted_checked::<Unix, WindowsEncoding>,
        ),
        whole.beside("`to_string_lossy`, no text", &corpus.broken, bench_to_string_lossy, to_string_lossy::<Unix>),
    ]
}

/// Those of the same calls that have an export.
fn windows_rows<'a>(corpus: &'a Corpus, number: usize, texts: &'a WindowsTexts) -> Vec<Row<'a>> {
    type Windows = WindowsEncoding;
    let [(paths, base), (slashed, _)] = &corpus.windows[number];
    let components = Kind { corpus, reads: Reads::Components };
    let whole = Kind { corpus, reads: Reads::Whole };
    let end = Kind { corpus, reads: Reads::End };
    let half = |at| (paths.at(at), texts.half.at(at));
    let copy = |at| (paths.at(at), texts.copies.at(at));
    let early = |at| (paths.at(at), texts.begins_otherwise.at(at));
    let late = |at| (paths.at(at), texts.ends_otherwise.at(at));
    let otherwise = |at| (paths.at(at), slashed.at(at));
    let joined = |at| (base.as_slice(), corpus.windows_relative.at(at));
    vec![
        components.beside("`for` over `components()`", paths, bench_windows_walk, walk::<Windows>),
        components.beside("`for` over `components().rev()`", paths, bench_windows_walk_back, walk_back::<Windows>),
        components.beside("`for` over `ancestors()`", paths, bench_windows_ancestors, ancestors::<Windows>),
        end.beside("`parent`", paths, bench_windows_parent, parent::<Windows>),
        end.beside("`file_name`", paths, bench_windows_file_name, file_name::<Windows>),
        whole.beside_two("`starts_with` of the first half", half, bench_windows_starts_with, starts_with::<Windows>),
        whole.beside_two("`==`, equal bytes", copy, bench_windows_eq, eq::<Windows>),
        whole.beside_two("`==`, differs early", early, bench_windows_eq, eq::<Windows>),
        whole.beside_two("`==`, differs late", late, bench_windows_eq, eq::<Windows>),
        whole.beside_two("`==`, separators otherwise", otherwise, bench_windows_eq, eq::<Windows>),
        whole.beside_two("`cmp`, differs late", late, bench_windows_cmp, cmp::<Windows>),
        whole.beside_two("`cmp`, separators otherwise", otherwise, bench_windows_cmp, cmp::<Windows>),
        whole.beside("`hash`", paths, bench_windows_hash, hash::<Windows>),
        whole.beside("`is_valid`", paths, bench_windows_is_valid, is_valid::<Windows>),
        whole.beside("`normalize`", &texts.plain, bench_windows_normalize, normalize::<Windows>),
        whole.beside("`normalize`, with dots", &texts.dotted, bench_windows_normalize, normalize::<Windows>),
        whole.beside("`normalize`, runs of separators", &texts.runs, bench_windows_normalize, normalize::<Windows>),
        whole.beside("`normalize`, runs of `./`", &texts.dot_runs, bench_windows_normalize, normalize::<Windows>),
        whole.beside_two("`join` onto a base", joined, bench_windows_join, join::<Windows>),
        whole.beside_two("`join_checked` onto a base", joined, bench_windows_join_checked, join_checked::<Windows>),
        whole.beside("`with_unix_encoding`", paths, bench_windows_to_unix, converted::<Windows, UnixEncoding>),
        whole.beside(
            "`with_unix_encoding_checked`",
            paths,
            bench_windows_to_unix_checked,
            converted_checked::<Windows, UnixEncoding>,
        ),
    ]
}

// The tables.

/// Rows for each column of a table, under its label.
type Columns<'a> = Vec<(&'static str, Vec<Row<'a>>)>;

/// The tables beside the crate: Unix paths of three sorts, and Windows paths of one behind prefixes.
pub struct Tables<'a> {
    unix: Columns<'a>,
    windows: Columns<'a>,
}

impl<'a> Tables<'a> {
    /// Both peers of each row whose label has the word, which answer the same.
    pub fn new(corpora: &'a [Corpus], usual: &'a Corpus, texts: &'a [WindowsTexts], word: &str) -> Tables<'a> {
        let unix = corpora.iter().map(|corpus| (corpus.label, asked(unix_rows(corpus), word)));
        let windows = texts
            .iter()
            .enumerate()
            .map(|(at, texts)| (texts.label, asked(windows_rows(usual, at, texts), word)));
        let tables = Tables { unix: unix.collect(), windows: windows.collect() };
        for (label, rows) in tables.unix.iter().chain(&tables.windows) {
            rows.iter().for_each(|row| row.check(label));
        }
        tables
    }

    pub fn rows(&mut self) -> impl Iterator<Item = &mut Row<'a>> {
        self.unix.iter_mut().chain(&mut self.windows).flat_map(|(_, rows)| rows)
    }

    pub fn print(&self) {
        println!("\nNanoseconds a call on Unix paths, here / the Rust crate (ratio):\n");
        print(&self.unix);
        println!("\nNanoseconds a call on Windows paths of the usual sort, here / the Rust crate (ratio):\n");
        print(&self.windows);
    }
}

fn print(columns: &Columns) {
    line(["Call"].into_iter().chain(columns.iter().map(|(label, _)| *label)).map(String::from));
    println!("|---|{}", "---|".repeat(columns.len()));
    for at in 0..columns[0].1.len() {
        let cells = columns.iter().map(|(_, rows)| cell(&rows[at], 1.0));
        line(std::iter::once(columns[0].1[at].label.to_string()).chain(cells));
    }
}
