// The calls of one crate that are timed: `main.rs` takes this in once for each, where `typed_path` names it.

use super::{NAMES, Row, Sort, hasher, leaked};
use std::cell::RefCell;
use std::hash::{Hash, Hasher};
use typed_path::*;

/// A function that gives the rows of a family, for paths of one encoding; `U` is that of the other dialect.
macro_rules! rows {
    ($name:ident: $Path:ident, $PathBuf:ident, $Encoding:ident, $Component:ident, $as_slice:ident, $into:ident) => {
        fn $name<T: $Encoding + 'static, U: $Encoding + 'static>(sort: &Sort) -> Vec<Row> {
            let paths = leaked(sort.paths.iter().map(|it| $Path::<T>::new(*it)));
            let dotted = leaked(sort.dotted.iter().map(|it| $Path::<T>::new(*it)));
            let doubled = leaked(sort.doubled.iter().map(|it| $Path::<T>::new(*it)));
            let names = leaked(sort.names.iter().map(|it| $Path::<T>::new(*it)));
            let parents = leaked(paths.iter().map(|it| it.parent().unwrap_or(it)));
            let copies = leaked(paths.iter().map(|it| it.to_path_buf()));
            let buffer: &RefCell<$PathBuf<T>> =
                Box::leak(Box::new(RefCell::new($PathBuf::with_capacity(1 << 14))));
            let length = |of: usize, one| of * 31 + $Component::len(&one);
            vec![
                Row::new("components, from the front", move |at| paths[at].components().fold(0, length)),
                Row::new("components, from the back", move |at| paths[at].components().rev().fold(0, length)),
                Row::new("the first component", move |at| paths[at].components().next().map(|it| it.len())),
                Row::new("the last component", move |at| {
                    paths[at].components().next_back().map(|it| it.len())
                }),
                Row::new("is_absolute", move |at| paths[at].is_absolute()),
                Row::new("is_valid", move |at| paths[at].is_valid()),
                Row::new("parent", move |at| paths[at].parent().map(|it| it.$as_slice())),
                Row::new("ancestors", move |at| paths[at].ancestors().count()),
                Row::new("file_name", move |at| paths[at].file_name()),
                Row::new("file_stem", move |at| paths[at].file_stem()),
                Row::new("extension", move |at| paths[at].extension()),
                Row::new("starts_with", move |at| paths[at].starts_with(parents[at])),
                Row::new("ends_with", move |at| paths[at].ends_with(names[at])),
                Row::new("strip_prefix", move |at| {
                    paths[at].strip_prefix(parents[at]).map(|it| it.$as_slice()).ok()
                }),
                Row::new("==, of equal bytes", move |at| paths[at] == copies[at].as_path()),
                Row::new("==, written otherwise", move |at| paths[at] == doubled[at]),
                Row::new("==, of the next path", move |at| paths[at] == paths[(at + 1) % paths.len()]),
                Row::new("cmp, written otherwise", move |at| paths[at].cmp(doubled[at])),
                Row::new("cmp, of the next path", move |at| paths[at].cmp(paths[(at + 1) % paths.len()])),
                Row::new("hash", move |at| {
                    let mut hasher = hasher();
                    paths[at].hash(&mut hasher);
                    std::hint::black_box(hasher.finish());
                }),
                Row::new("join", move |at| paths[at].join(names[at]).$into()),
                Row::new("join_checked", move |at| {
                    paths[at].join_checked(names[at]).map(|it| it.$into()).ok()
                }),
                Row::new("push, onto room", move |at| {
                    let mut buffer = buffer.borrow_mut();
                    buffer.clear();
                    buffer.push(paths[at]);
                    buffer.push(names[at]);
                    buffer.$as_slice().len()
                }),
                Row::new("push_checked, onto room", move |at| {
                    let mut buffer = buffer.borrow_mut();
                    buffer.clear();
                    buffer.push(paths[at]);
                    buffer.push_checked(names[at]).ok().map(|()| buffer.$as_slice().len())
                }),
                Row::new("with_file_name", move |at| {
                    paths[at].with_file_name(NAMES[at % NAMES.len()]).$into()
                }),
                Row::new("with_extension", move |at| paths[at].with_extension("txt").$into()),
                Row::new("normalize", move |at| paths[at].normalize().$into()),
                Row::new("normalize, with dots", move |at| dotted[at].normalize().$into()),
                Row::new("with_encoding", move |at| paths[at].with_encoding::<U>().$into()),
                Row::new("with_encoding_checked", move |at| {
                    paths[at].with_encoding_checked::<U>().map(|it| it.$into()).ok()
                }),
                Row::new("to_path_buf", move |at| paths[at].to_path_buf().$into()),
            ]
        }
    };
}

rows!(bytes: Path, PathBuf, Encoding, Component, as_bytes, into_vec);
rows!(text: Utf8Path, Utf8PathBuf, Utf8Encoding, Utf8Component, as_str, into_string);

pub fn of_unix(sort: &Sort) -> Vec<Row> {
    bytes::<UnixEncoding, WindowsEncoding>(sort)
}

pub fn of_windows(sort: &Sort) -> Vec<Row> {
    bytes::<WindowsEncoding, UnixEncoding>(sort)
}

pub fn of_unix_text(sort: &Sort) -> Vec<Row> {
    text::<Utf8UnixEncoding, Utf8WindowsEncoding>(sort)
}
