//! Unpacks an archive of tar, in the ustar format, below a folder: `unpack FOLDER < ARCHIVE`.
//!
//! A line tells of each entry: `ok`, a tab and where it lies, or why it was refused, a tab and its name.
//! Folders and files are written, and nothing is written over. No link is written, so that no name leads
//! through one of the archive; those that FOLDER had before are followed. The status is 0 if all were taken,
//! 1 if some were refused, and 2 if it could not go on.

use std::error::Error;
use std::fs::{self, OpenOptions};
use std::io::{self, Read, Write};
use std::ops::Range;
use std::path::PathBuf;
use std::process::ExitCode;

use typed_path::{PlatformPath, UnixPath};

const BLOCK: usize = 512;
const CHECKSUM: Range<usize> = 148..156;

struct Entry {
    name: Vec<u8>,
    kind: u8,
    size: u64,
}

/// The bytes of a field, which end at its first NUL.
fn field(header: &[u8; BLOCK], place: Range<usize>) -> &[u8] {
    let field = &header[place];
    &field[..field.iter().position(|byte| *byte == 0).unwrap_or(field.len())]
}

/// A number that is written in octal digits.
fn number(header: &[u8; BLOCK], place: Range<usize>) -> Result<u64, Box<dyn Error>> {
    let digits = std::str::from_utf8(field(header, place))?;
    Ok(u64::from_str_radix(digits.trim_matches(' '), 8)?)
}

/// What a header tells of its entry; `None` of the empty block that ends an archive.
fn entry(header: &[u8; BLOCK]) -> Result<Option<Entry>, Box<dyn Error>> {
    if header.iter().all(|byte| *byte == 0) {
        return Ok(None);
    }
    // The checksum counts as spaces in its own sum.
    let others = header.iter().enumerate().filter(|(at, _)| !CHECKSUM.contains(at));
    let sum = others.map(|(_, byte)| u64::from(*byte)).sum::<u64>() + 8 * u64::from(b' ');
    if sum != number(header, CHECKSUM)? || field(header, 257..262) != b"ustar" {
        return Err("a block is no header of ustar".into());
    }
    let mut name = field(header, 345..500).to_vec();
    if !name.is_empty() {
        name.push(b'/');
    }
    name.extend_from_slice(field(header, 0..100));
    Ok(Some(Entry { name, kind: header[156], size: number(header, 124..136)? }))
}

/// Where an entry of this name is to be written.
fn target(folder: &PlatformPath, name: &[u8]) -> Result<PathBuf, Box<dyn Error>> {
    let name = UnixPath::new(name).with_platform_encoding_checked()?;
    let path = folder.join_checked(&name)?;
    PathBuf::try_from(path).map_err(|path| format!("{} is no text", path.display()).into())
}

/// Writes one entry, and returns where it lies.
fn write(folder: &PlatformPath, entry: &Entry, mut content: impl Read) -> Result<PathBuf, Box<dyn Error>> {
    let path = target(folder, &entry.name)?;
    match entry.kind {
        b'0' | 0 => {
            fs::create_dir_all(path.parent().ok_or("it has no name")?)?;
            io::copy(&mut content, &mut OpenOptions::new().write(true).create_new(true).open(&path)?)?;
        }
        b'5' => fs::create_dir_all(&path)?,
        _ => return Err("neither a file nor a folder".into()),
    }
    Ok(path)
}

/// Unpacks all entries, and returns how many were refused.
fn unpack(
    folder: &PlatformPath, mut archive: impl Read, mut lines: impl Write,
) -> Result<usize, Box<dyn Error>> {
    let mut refused = 0;
    let mut header = [0; BLOCK];
    loop {
        archive.read_exact(&mut header)?;
        let Some(entry) = entry(&header)? else { return Ok(refused) };
        let padding = entry.size.wrapping_neg() % BLOCK as u64;
        let mut content = archive.by_ref().take(entry.size);
        match write(folder, &entry, &mut content) {
            Ok(path) => writeln!(lines, "ok\t{}", path.display())?,
            Err(reason) => {
                refused += 1;
                writeln!(lines, "{reason}\t{}", entry.name.escape_ascii())?;
            }
        }
        let left = content.limit() + padding;
        if io::copy(&mut archive.by_ref().take(left), &mut io::sink())? < left {
            return Err("the archive ends within an entry".into());
        }
    }
}

fn main() -> ExitCode {
    let words: Vec<String> = std::env::args().skip(1).collect();
    let [folder] = &words[..] else {
        eprintln!("unpack FOLDER < ARCHIVE");
        return ExitCode::from(2);
    };
    match unpack(PlatformPath::new(folder), io::stdin().lock(), io::stdout().lock()) {
        Ok(0) => ExitCode::SUCCESS,
        Ok(_) => ExitCode::from(1),
        Err(error) => {
            eprintln!("unpack: {error}");
            ExitCode::from(2)
        }
    }
}
