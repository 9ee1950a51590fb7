// The calls of std that are timed, and those of camino, which has the same: `main.rs` takes this in once for each,
// behind the types and what their texts are.

use super::{NAMES, Row, Sort, hasher, leaked};
use std::cell::RefCell;
use std::hash::{Hash, Hasher};

pub fn of_unix(sort: &Sort) -> Vec<Row> {
    let paths = leaked(sort.paths.iter().map(|it| Path::new(*it)));
    let doubled = leaked(sort.doubled.iter().map(|it| Path::new(*it)));
    let names = leaked(sort.names.iter().map(|it| Path::new(*it)));
    let parents = leaked(paths.iter().map(|it| it.parent().unwrap_or(it)));
    let copies = leaked(paths.iter().map(|it| it.to_path_buf()));
    let buffer: &RefCell<PathBuf> = Box::leak(Box::new(RefCell::new(PathBuf::from("/".repeat(1 << 14)))));
    let sum = |of: usize, one| of * 31 + length(one);
    vec![
        Row::new("components, from the front", move |at| paths[at].components().fold(0, sum)),
        Row::new("components, from the back", move |at| paths[at].components().rev().fold(0, sum)),
        Row::new("the first component", move |at| paths[at].components().next().map(length)),
        Row::new("the last component", move |at| paths[at].components().next_back().map(length)),
        Row::new("is_absolute", move |at| paths[at].is_absolute()),
        Row::new("parent", move |at| paths[at].parent().map(slice)),
        Row::new("ancestors", move |at| paths[at].ancestors().count()),
        Row::new("file_name", move |at| paths[at].file_name().map(part)),
        Row::new("file_stem", move |at| paths[at].file_stem().map(part)),
        Row::new("extension", move |at| paths[at].extension().map(part)),
        Row::new("starts_with", move |at| paths[at].starts_with(parents[at])),
        Row::new("ends_with", move |at| paths[at].ends_with(names[at])),
        Row::new("strip_prefix", move |at| paths[at].strip_prefix(parents[at]).map(slice).ok()),
        Row::new("==, of equal bytes", move |at| paths[at] == copies[at].as_path()),
        Row::new("==, written otherwise", move |at| paths[at] == doubled[at]),
        Row::new("==, of the next path", move |at| paths[at] == paths[(at + 1) % paths.len()]),
        Row::new("cmp, written otherwise", move |at| paths[at].cmp(doubled[at])),
        Row::new("cmp, of the next path", move |at| paths[at].cmp(paths[(at + 1) % paths.len()])),
        Row::new("hash", move |at| {
            let mut hasher = hasher();
            paths[at].hash(&mut hasher);
            std::hint::black_box(hasher.finish());
        }),
        Row::new("join", move |at| owned(paths[at].join(names[at]))),
        Row::new("push, onto room", move |at| {
            let mut buffer = buffer.borrow_mut();
            buffer.clear();
            buffer.push(paths[at]);
            buffer.push(names[at]);
            slice(&buffer).len()
        }),
        Row::new("with_file_name", move |at| owned(paths[at].with_file_name(NAMES[at % NAMES.len()]))),
        Row::new("with_extension", move |at| owned(paths[at].with_extension("txt"))),
        Row::new("to_path_buf", move |at| owned(paths[at].to_path_buf())),
    ]
}
