//! Answers the lines that the program `typath` answers, by the Rust crate, in one of two manners. Without
//! an argument it is as fast as the crate can be asked: lines and fields are found by the C library's
//! search for a byte, joined paths are pushed into one vector that keeps its room, and the replies to all
//! that was read are written in one piece. With the argument `plain` it is what most programs would be:
//! lines by `read_until`, fields by `split`, paths joined by `join`, and a buffered writer.

use std::io::{self, BufRead, BufReader, BufWriter, Read, Write};
use typed_path::{
    CheckedPathError, Component, Encoding, Path, TypedPath, UnixComponent, UnixEncoding, UnixPath, WindowsComponent,
    WindowsEncoding, WindowsPath, WindowsPrefix,
};

/// How many bytes are asked for in a read, unless a line is longer.
const ROOM: usize = 1 << 16;

/// How many fields a line of a command has at most.
const FIELDS: usize = 4;

unsafe extern "C" {
    fn memchr(text: *const u8, byte: i32, len: usize) -> *const u8;
}

/// Where a byte stands first.
fn find(byte: u8, text: &[u8]) -> Option<usize> {
    let found = unsafe { memchr(text.as_ptr(), i32::from(byte), text.len()) };
    (!found.is_null()).then(|| found as usize - text.as_ptr() as usize)
}

/// The fields of a line, and how many there are; of a bad line with too many, one more than there may be.
fn fields(mut line: &[u8]) -> ([&[u8]; FIELDS], usize) {
    let mut fields: [&[u8]; FIELDS] = [b""; FIELDS];
    for at in 0..FIELDS {
        let Some(end) = find(b'\t', line) else {
            fields[at] = line;
            return (fields, at + 1);
        };
        fields[at] = &line[..end];
        line = &line[end + 1..];
    }
    (fields, FIELDS + 1)
}

/// The same by the standard library alone.
fn fields_by_split(line: &[u8]) -> ([&[u8]; FIELDS], usize) {
    let mut fields: [&[u8]; FIELDS] = [b""; FIELDS];
    let mut count = 0;
    for field in line.split(|byte| *byte == b'\t') {
        if count == FIELDS {
            return (fields, FIELDS + 1);
        }
        fields[count] = field;
        count += 1;
    }
    (fields, count)
}

/// A dialect whose components have a word for their kind.
trait Words: Encoding {
    fn put_components(path: &[u8], out: &mut Vec<u8>);
}

fn put_component(word: &[u8], text: &[u8], out: &mut Vec<u8>) {
    out.push(b'\t');
    out.extend_from_slice(word);
    out.push(b'=');
    out.extend_from_slice(text);
}

impl Words for UnixEncoding {
    fn put_components(path: &[u8], out: &mut Vec<u8>) {
        for piece in UnixPath::new(path).components() {
            let word: &[u8] = match piece {
                UnixComponent::RootDir => b"root",
                UnixComponent::CurDir => b"current",
                UnixComponent::ParentDir => b"parent",
                UnixComponent::Normal(_) => b"normal",
            };
            put_component(word, piece.as_bytes(), out);
        }
    }
}

impl Words for WindowsEncoding {
    fn put_components(path: &[u8], out: &mut Vec<u8>) {
        for piece in WindowsPath::new(path).components() {
            let word: &[u8] = match piece {
                WindowsComponent::Prefix(prefix) => match prefix.kind() {
                    WindowsPrefix::Verbatim(_) => b"Verbatim",
                    WindowsPrefix::VerbatimUNC(..) => b"VerbatimUNC",
                    WindowsPrefix::VerbatimDisk(_) => b"VerbatimDisk",
                    WindowsPrefix::DeviceNS(_) => b"DeviceNS",
                    WindowsPrefix::UNC(..) => b"UNC",
                    WindowsPrefix::Disk(_) => b"Disk",
                },
                WindowsComponent::RootDir => b"root",
                WindowsComponent::CurDir => b"current",
                WindowsComponent::ParentDir => b"parent",
                WindowsComponent::Normal(_) => b"normal",
            };
            put_component(word, piece.as_bytes(), out);
        }
    }
}

fn put_text(text: &[u8], out: &mut Vec<u8>) {
    out.extend_from_slice(b"ok\t");
    out.extend_from_slice(text);
}

fn put_refusal(refusal: CheckedPathError, out: &mut Vec<u8>) {
    out.extend_from_slice(b"err\t");
    out.extend_from_slice(match refusal {
        CheckedPathError::InvalidFilename => b"InvalidFilename",
        CheckedPathError::PathTraversalAttack => b"PathTraversalAttack",
        CheckedPathError::UnexpectedPrefix => b"UnexpectedPrefix",
        CheckedPathError::UnexpectedRoot => b"UnexpectedRoot",
    });
}

fn put_bad(out: &mut Vec<u8>) {
    out.extend_from_slice(b"err\tBadLine");
}

/// A command on one path.
fn put_one<T: Words>(command: &[u8], path: &[u8], out: &mut Vec<u8>) {
    match command {
        b"components" => {
            out.extend_from_slice(b"ok");
            T::put_components(path, out);
        }
        b"normalize" => put_text(Path::<T>::new(path).normalize().as_bytes(), out),
        _ => put_bad(out),
    }
}

fn put_made(made: Result<impl AsRef<[u8]>, CheckedPathError>, out: &mut Vec<u8>) {
    match made {
        Ok(text) => put_text(text.as_ref(), out),
        Err(refusal) => put_refusal(refusal, out),
    }
}

/// A command on a base and a path, which is pushed onto one vector that keeps its room, where there is one.
fn put_joined<T: Encoding>(command: &[u8], base: &[u8], path: &[u8], room: Option<&mut Vec<u8>>, out: &mut Vec<u8>) {
    let checked = command == b"join_checked";
    let Some(room) = room else {
        let (base, path) = (Path::<T>::new(base), Path::<T>::new(path));
        let joined = if checked { base.join_checked(path) } else { Ok(base.join(path)) };
        return put_made(joined, out);
    };
    room.clear();
    room.extend_from_slice(base);
    let mut pushed = Ok(());
    if checked {
        pushed = T::push_checked(room, path);
    } else {
        T::push(room, path);
    }
    put_made(pushed.map(|()| room.as_slice()), out);
}

fn put_converted<T: Encoding, U: Encoding>(command: &[u8], path: &[u8], out: &mut Vec<u8>) {
    let path = Path::<T>::new(path);
    if command == b"convert" {
        return put_text(path.with_encoding::<U>().as_bytes(), out);
    }
    put_made(path.with_encoding_checked::<U>(), out);
}

/// The reply to the fields of a line.
fn put_reply(fields: ([&[u8]; FIELDS], usize), room: Option<&mut Vec<u8>>, out: &mut Vec<u8>) {
    match fields {
        ([b"derive", path, ..], 2) => put_text(
            match TypedPath::derive(path) {
                TypedPath::Unix(_) => b"unix",
                TypedPath::Windows(_) => b"windows",
            },
            out,
        ),
        ([command, b"unix", path, _], 3) => put_one::<UnixEncoding>(command, path, out),
        ([command, b"windows", path, _], 3) => put_one::<WindowsEncoding>(command, path, out),
        ([command @ (b"join" | b"join_checked"), dialect, base, path], 4) => match dialect {
            b"unix" => put_joined::<UnixEncoding>(command, base, path, room, out),
            b"windows" => put_joined::<WindowsEncoding>(command, base, path, room, out),
            _ => put_bad(out),
        },
        ([command @ (b"convert" | b"convert_checked"), from, to, path], 4) => match (from, to) {
            (b"unix", b"unix") => put_converted::<UnixEncoding, UnixEncoding>(command, path, out),
            (b"unix", b"windows") => put_converted::<UnixEncoding, WindowsEncoding>(command, path, out),
            (b"windows", b"unix") => put_converted::<WindowsEncoding, UnixEncoding>(command, path, out),
            (b"windows", b"windows") => put_converted::<WindowsEncoding, WindowsEncoding>(command, path, out),
            _ => put_bad(out),
        },
        _ => put_bad(out),
    }
    out.push(b'\n');
}

/// Answers as fast as the crate can be asked.
fn answer_leanly() -> io::Result<()> {
    let (mut input, mut output) = (io::stdin().lock(), io::stdout().lock());
    let (mut read, mut filled) = (vec![0; ROOM], 0);
    let (mut room, mut out) = (Vec::new(), Vec::new());
    loop {
        if filled == read.len() {
            read.resize(2 * filled, 0);
        }
        let count = input.read(&mut read[filled..])?;
        if count == 0 {
            break;
        }
        // No line feed stands in what an earlier read left.
        let (mut start, mut from) = (0, filled);
        filled += count;
        while let Some(end) = find(b'\n', &read[from..filled]) {
            put_reply(fields(&read[start..from + end]), Some(&mut room), &mut out);
            from += end + 1;
            start = from;
        }
        output.write_all(&out)?;
        out.clear();
        read.copy_within(start..filled, 0);
        filled -= start;
    }
    if filled > 0 {
        put_reply(fields(&read[..filled]), Some(&mut room), &mut out);
    }
    output.write_all(&out)?;
    output.flush()
}

/// Answers as most programs would.
fn answer_plainly() -> io::Result<()> {
    let mut input = BufReader::with_capacity(ROOM, io::stdin().lock());
    let mut output = BufWriter::with_capacity(ROOM, io::stdout().lock());
    let (mut line, mut out) = (Vec::new(), Vec::new());
    while input.read_until(b'\n', &mut line)? > 0 {
        put_reply(fields_by_split(line.strip_suffix(b"\n").unwrap_or(&line)), None, &mut out);
        output.write_all(&out)?;
        line.clear();
        out.clear();
    }
    output.flush()
}

fn main() -> io::Result<()> {
    if std::env::args().nth(1).is_some_and(|manner| manner == "plain") {
        answer_plainly()
    } else {
        answer_leanly()
    }
}
