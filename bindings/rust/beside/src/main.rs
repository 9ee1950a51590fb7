//! Asks the Rust crate, mended as `mend.sh` does, and this one of random paths, and compares each answer.
//!
//! `beside ANSWERS [SEED]` ends in `N answers about M pairs of paths, 0 wrong`. Before that it tells of each
//! call that differs, how often, and shows the shortest pair.

mod numbers;
mod of_mended {
    use mended as typed_path;
    include!("answers.rs");
}
mod of_this {
    use proved as typed_path;
    include!("answers.rs");
}

use std::collections::BTreeMap;
use std::fmt::Debug;
use std::hash::{Hash, Hasher};
use std::process::ExitCode;

use numbers::Numbers;

/// Keeps each write of what is fed to it.
#[derive(Debug, Default, PartialEq)]
struct Fed(Vec<Vec<u8>>);

impl Hasher for Fed {
    fn write(&mut self, bytes: &[u8]) {
        self.0.push(bytes.to_vec());
    }
    fn finish(&self) -> u64 {
        0
    }
}

/// What a value feeds. Of paths it may differ, and is told only where two are equal.
fn fed(value: &(impl Hash + ?Sized)) -> Fed {
    let mut fed = Fed::default();
    value.hash(&mut fed);
    fed
}

/// What an iterator prints behind its name, which may differ.
fn items(iterator: &impl Debug) -> String {
    let text = format!("{iterator:?}");
    text[text.find('(').unwrap_or(0)..].to_owned()
}

/// Answers behind the part of the library and the call that gave them.
#[derive(Default)]
struct Told {
    part: &'static str,
    answers: Vec<(&'static str, &'static str, String)>,
}

impl Told {
    fn tell(&mut self, call: &'static str, answer: impl Debug) {
        self.answers.push((self.part, call, format!("{answer:?}")));
    }
}

/// What rules ask for: separators, prefixes and their beginnings, dots, devices, bytes that names may not have.
const PIECES: [&str; 42] = [
    "/", "/", "/", "\\", "\\", "\\", "//", "\\\\", ".", ".", "..", "..", "...", "a", "b", "A", "a.b", ".x",
    "a.", "C:", "c:", "D:", ":", "?", "\\\\?\\", "//?/", "\\\\.\\", "UNC", "UNC\\", "unc\\", "server",
    "share", "con", "NUL.txt", "lpt9.", "com10", "tar.gz", "\0", "|", " ", "\u{e9}", "日本",
];

/// What one path of four begins with.
const PREFIXES: [&str; 8] = [
    "\\\\?\\C:",
    "\\\\?\\UNC\\server\\share",
    "\\\\?\\name",
    "\\\\.\\device",
    "\\\\server\\share",
    "//?/c:",
    "//server/share",
    "C:",
];

/// A path of some pieces, now and then with a byte changed to any.
fn chosen(numbers: &mut Numbers) -> Vec<u8> {
    let most = if numbers.below(8) == 0 { 40 } else { 9 };
    let mut path = Vec::new();
    if numbers.below(4) == 0 {
        path.extend_from_slice(PREFIXES[numbers.below(PREFIXES.len())].as_bytes());
    }
    for _ in 0..numbers.below(most) {
        path.extend_from_slice(PIECES[numbers.below(PIECES.len())].as_bytes());
    }
    if numbers.below(20) == 0 && !path.is_empty() {
        let at = numbers.below(path.len());
        path[at] = numbers.next() as u8;
    }
    path
}

/// Another path of some pieces, or the same one, in which a separator was turned, doubled or followed by a dot.
fn beside(path: &[u8], numbers: &mut Numbers) -> Vec<u8> {
    let mut other = path.to_vec();
    match (path.iter().rposition(|byte| b"/\\".contains(byte)), numbers.below(12)) {
        (Some(at), 0) => other[at] ^= b'/' ^ b'\\',
        (Some(at), 1) => other.insert(at, path[at]),
        (Some(at), 2) => drop(other.splice(at..at, [path[at], b'.'])),
        _ => other = chosen(numbers),
    }
    other
}

/// Every path of up to four of these bytes.
fn short() -> impl Iterator<Item = Vec<u8>> {
    let bytes = b"/\\.aC:?";
    (0..=4).flat_map(move |len| {
        let digit = move |number: usize, at| bytes[number / bytes.len().pow(at) % bytes.len()];
        (0..bytes.len().pow(len)).map(move |number| (0..len).map(|at| digit(number, at)).collect())
    })
}

/// How often each call differed, and the shortest pair of paths that shows it.
#[derive(Default)]
struct Differences(BTreeMap<(&'static str, &'static str), (u64, String)>);

impl Differences {
    fn add(&mut self, call: (&'static str, &'static str), paths: [&[u8]; 2], answers: [&str; 2]) {
        let ([path, other], [theirs, ours]) = (paths.map(<[u8]>::escape_ascii), answers);
        let shown = format!("of \"{path}\" and \"{other}\" the crate answers {theirs}, this one {ours}");
        let (count, shortest) = self.0.entry(call).or_default();
        *count += 1;
        if shortest.is_empty() || shown.len() < shortest.len() {
            *shortest = shown;
        }
    }

    /// Adds what differs of the answers about a pair of paths, and how many answers there were.
    fn compare(&mut self, paths: [&[u8]; 2], theirs: Told, ours: Told) -> u64 {
        let counts = [&theirs, &ours].map(|told| told.answers.len());
        if counts[0] != counts[1] {
            let [theirs, ours] = counts.map(|it| it.to_string());
            self.add(("all", "how many answers there are"), paths, [&theirs, &ours]);
        }
        for ((part, call, theirs), (_, _, ours)) in theirs.answers.iter().zip(&ours.answers) {
            if theirs != ours {
                self.add((part, call), paths, [theirs, ours]);
            }
        }
        counts[0] as u64
    }
}

fn main() -> ExitCode {
    let mut words = std::env::args().skip(1).map(|word| word.parse::<u64>().expect("a number"));
    let (wanted, seed) = (words.next().expect("how many answers are wanted"), words.next().unwrap_or(1));
    let (mut numbers, mut first, mut found) = (Numbers(seed), short(), Differences::default());
    let (mut theirs, mut ours) = (Told::default(), Told::default());
    of_mended::fixed(&mut theirs);
    of_this::fixed(&mut ours);
    let (mut pairs, mut answers) = (0, found.compare([b"", b""], theirs, ours));
    while answers < wanted {
        // The short ones at every other turn.
        let path = if pairs % 2 == 0 { first.next() } else { None };
        let path = path.unwrap_or_else(|| chosen(&mut numbers));
        let (other, ends) = (beside(&path, &mut numbers), numbers.next());
        let (mut theirs, mut ours) = (Told::default(), Told::default());
        of_mended::answers(&mut theirs, &path, &other, ends);
        of_this::answers(&mut ours, &path, &other, ends);
        answers += found.compare([&path, &other], theirs, ours);
        pairs += 1;
    }
    for ((part, call), (count, shortest)) in &found.0 {
        println!("{part}, {call}: {count} differ, as {shortest}");
    }
    let wrong: u64 = found.0.values().map(|(count, _)| count).sum();
    println!("{answers} answers about {pairs} pairs of paths, {wrong} wrong");
    ExitCode::from(u8::from(wrong > 0))
}
