//! Times the calls of this crate: nanoseconds a call, the least of many sweeps over a thousand paths of a sort,
//! beside the same calls of the Rust crate, `std::path` and camino, by turns.
//!
//! `bench SWEEPS [WORD]` prints Markdown tables of the calls that have the word. It stops where two answer
//! differently. Without the features `beside_crate` and `beside_camino` these have no times.

#[path = "../../beside/src/numbers.rs"]
mod numbers;
mod here {
    use proved as typed_path;
    include!("calls.rs");
}
#[cfg(feature = "beside_crate")]
mod of_crate {
    use original as typed_path;
    include!("calls.rs");
}
mod of_std {
    use std::ffi::OsStr;
    use std::os::unix::ffi::{OsStrExt, OsStringExt};
    use std::path::{Component, Path, PathBuf};

    fn slice(path: &Path) -> &[u8] {
        path.as_os_str().as_bytes()
    }
    fn part(part: &OsStr) -> &[u8] {
        part.as_bytes()
    }
    fn owned(path: PathBuf) -> Vec<u8> {
        path.into_os_string().into_vec()
    }
    fn length(one: Component) -> usize {
        one.as_os_str().len()
    }
    include!("std_calls.rs");
}
#[cfg(feature = "beside_camino")]
mod of_camino {
    use camino::{Utf8Component as Component, Utf8Path as Path, Utf8PathBuf as PathBuf};

    fn slice(path: &Path) -> &str {
        path.as_str()
    }
    fn part(part: &str) -> &str {
        part
    }
    fn owned(path: PathBuf) -> String {
        path.into_string()
    }
    fn length(one: Component) -> usize {
        one.as_str().len()
    }
    include!("std_calls.rs");
}

use std::fmt::Debug;
use std::hash::DefaultHasher;
use std::hint::black_box;
use std::time::{Duration, Instant};

use numbers::Numbers;

const PATHS: usize = 1000;
const SEED: u64 = 20_261_130;
const NAMES: [&str; 8] =
    ["src", "lib.rs", "a", "test_data", "README.md", "images", "long-name-of-a-file.tar.gz", "z"];
/// How many names the paths of a sort have.
const SORTS: [(&str, std::ops::Range<usize>); 3] = [("short", 1..3), ("usual", 5..10), ("deep", 30..50)];

/// A thousand paths, and what is asked beside each.
struct Sort {
    paths: &'static [&'static str],
    /// The same places, written with `.`, `..` and doubled separators.
    dotted: &'static [&'static str],
    /// The same components, with one separator doubled.
    doubled: &'static [&'static str],
    /// Relative paths of two names.
    names: &'static [&'static str],
}

/// A call: what it answers of the path of a number, and a pass over all paths.
struct Row {
    call: &'static str,
    answer: Box<dyn Fn(usize) -> String>,
    pass: Box<dyn Fn()>,
}

impl Row {
    fn new<R: Debug>(call: &'static str, ask: impl Fn(usize) -> R + Copy + 'static) -> Self {
        let pass = move || (0..PATHS).for_each(|at| drop(black_box(ask(black_box(at)))));
        Row { call, answer: Box::new(move |at| format!("{:?}", ask(at))), pass: Box::new(pass) }
    }
}

type Rows = fn(&Sort) -> Vec<Row>;

/// Kept to the end of the program.
fn leaked<T>(items: impl Iterator<Item = T>) -> &'static [T] {
    items.collect::<Vec<T>>().leak()
}

/// The hasher of std's maps, with a key that is known.
fn hasher() -> DefaultHasher {
    DefaultHasher::new()
}

/// Paths of some names each, behind a root, or a drive with one.
fn sort(names: &std::ops::Range<usize>, front: &str, separator: &str) -> Sort {
    let mut numbers = Numbers(SEED);
    let (mut paths, mut dotted, mut doubled, mut others) = (Vec::new(), Vec::new(), Vec::new(), Vec::new());
    for _ in 0..PATHS {
        let count = names.start + numbers.below(names.end - names.start);
        let chosen: Vec<&str> = (0..count).map(|_| NAMES[numbers.below(NAMES.len())]).collect();
        let path = format!("{front}{}", chosen.join(separator));
        let between = ["/", "/./", "//", "/x/../"].map(|it| it.replace('/', separator));
        let ends = chosen.iter().map(|name| format!("{}{name}", between[numbers.below(4)]));
        dotted.push(format!("{}{}", front.trim_end_matches(separator), ends.collect::<String>()));
        let last = path.rfind(separator).unwrap_or(0);
        doubled.push(format!("{}{separator}{}", &path[..last], &path[last..]));
        others.push([NAMES[numbers.below(8)], NAMES[numbers.below(8)]].join(separator));
        paths.push(path);
    }
    let [paths, dotted, doubled, names] =
        [paths, dotted, doubled, others].map(|texts| leaked(texts.into_iter().map(|text| &*text.leak())));
    Sort { paths, dotted, doubled, names }
}

/// Nanoseconds a call of each, the least of the sweeps, by turns.
fn times(rows: &[&Row], sweeps: usize) -> Vec<f64> {
    let mut least = vec![Duration::MAX; rows.len()];
    for _ in 0..sweeps {
        for (row, least) in rows.iter().zip(&mut least) {
            let begun = Instant::now();
            (row.pass)();
            *least = begun.elapsed().min(*least);
        }
    }
    least.iter().map(|it| it.as_nanos() as f64 / PATHS as f64).collect()
}

/// The times of a call, one behind the other; a dash where a peer has no such call.
fn cell(call: &str, of_peers: &[Vec<Row>], sweeps: usize) -> Result<String, String> {
    let rows: Vec<Option<&Row>> = of_peers.iter().map(|it| it.iter().find(|row| row.call == call)).collect();
    let there: Vec<&Row> = rows.iter().copied().flatten().collect();
    for at in 0..PATHS {
        let answer = (there[0].answer)(at);
        if let Some(row) = there.iter().find(|row| (row.answer)(at) != answer) {
            return Err(format!("{call} of path {at}: {answer} here, {} there", (row.answer)(at)));
        }
    }
    let mut times = times(&there, sweeps).into_iter();
    let told = rows.iter().map(|row| match row.and_then(|_| times.next()) {
        Some(time) if time < 9.95 => format!("{time:.1}"),
        Some(time) => format!("{time:.0}"),
        None => "-".into(),
    });
    Ok(told.collect::<Vec<_>>().join(" / "))
}

/// Prints the table of a dialect, where each peer gives its rows.
fn table(
    told: &str, peers: &[(&str, Rows)], paths: [&str; 2], sweeps: usize, word: &str,
) -> Result<(), String> {
    let names: Vec<&str> = peers.iter().map(|(name, _)| *name).collect();
    println!("| {told}: {} | {} |", names.join(" / "), SORTS.map(|(name, _)| name).join(" | "));
    println!("|---|{}", "---|".repeat(SORTS.len()));
    let sorts = SORTS.map(|(_, names)| {
        let sort = sort(&names, paths[0], paths[1]);
        peers.iter().map(|(_, rows)| rows(&sort)).collect::<Vec<_>>()
    });
    for row in sorts[0][0].iter().filter(|row| row.call.contains(word)) {
        let cells: Result<Vec<_>, _> =
            sorts.iter().map(|of_peers| cell(row.call, of_peers, sweeps)).collect();
        println!("| {} | {} |", row.call, cells?.join(" | "));
    }
    println!();
    Ok(())
}

fn main() -> Result<(), String> {
    let mut words = std::env::args().skip(1);
    let sweeps = words.next().and_then(|it| it.parse().ok()).ok_or("bench SWEEPS [WORD]")?;
    let word = words.next().unwrap_or_default();
    let unix: &[(&str, Rows)] = &[
        ("here", here::of_unix),
        #[cfg(feature = "beside_crate")]
        ("the crate", of_crate::of_unix),
        ("`std::path`", of_std::of_unix),
    ];
    let windows: &[(&str, Rows)] = &[
        ("here", here::of_windows),
        #[cfg(feature = "beside_crate")]
        ("the crate", of_crate::of_windows),
    ];
    let text: &[(&str, Rows)] = &[
        ("here", here::of_unix_text),
        #[cfg(feature = "beside_crate")]
        ("the crate", of_crate::of_unix_text),
        #[cfg(feature = "beside_camino")]
        ("camino", of_camino::of_unix),
    ];
    table("Unix", unix, ["/", "/"], sweeps, &word)?;
    table("Windows", windows, ["C:\\", "\\"], sweeps, &word)?;
    table("Unix, of text", text, ["/", "/"], sweeps, &word)
}
