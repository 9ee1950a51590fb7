//! Serves the files below a folder over HTTP: `serve FOLDER [PORT]`. It prints where it listens.
//!
//! A request for a folder gets its `index.html`. A path that leads out of FOLDER, or has a name that this
//! machine does not allow, is refused with 400. Only the text is judged: links in FOLDER are followed.

use std::collections::BTreeMap;
use std::error::Error;
use std::fs;
use std::io::{self, BufRead, BufReader, Read, Write};
use std::net::{TcpListener, TcpStream};
use std::time::Duration;

use typed_path::{Utf8PlatformPath, Utf8PlatformPathBuf, Utf8UnixPath, Utf8UnixPathBuf};

const LONGEST_REQUEST: u64 = 8192;

/// The text that a part of a URL stands for: `a b` of `a%20b`. `None` if it is written wrongly, or is no text.
fn decoded(part: &str) -> Option<String> {
    let digit = |byte: u8| char::from(byte).to_digit(16);
    let mut text = Vec::with_capacity(part.len());
    let mut bytes = part.bytes();
    while let Some(byte) = bytes.next() {
        text.push(match byte {
            b'%' => (digit(bytes.next()?)? * 16 + digit(bytes.next()?)?) as u8,
            _ => byte,
        });
    }
    String::from_utf8(text).ok()
}

/// The file below the root that a request asks for, and its path as a page of the server.
fn target(
    root: &Utf8PlatformPath, request: &str,
) -> Result<(Utf8UnixPathBuf, Utf8PlatformPathBuf), Box<dyn Error>> {
    let path = decoded(request.split(['?', '#']).next().unwrap_or("")).ok_or("it is no text")?;
    let page = Utf8UnixPath::new(&path).strip_prefix("/")?;
    let file = root.join_checked(page.with_platform_encoding_checked()?)?;
    Ok((page.normalize(), file))
}

/// The content of a file, or of the index of a folder, with its type.
fn read(file: &Utf8PlatformPath) -> io::Result<(Vec<u8>, &'static str)> {
    let index;
    let file = match fs::metadata(file)?.is_dir() {
        true => {
            index = file.join("index.html");
            &index
        }
        false => file,
    };
    let kind = match file.extension() {
        Some("html") => "text/html; charset=utf-8",
        Some("txt" | "md") => "text/plain; charset=utf-8",
        Some("png") => "image/png",
        _ => "application/octet-stream",
    };
    Ok((fs::read(file)?, kind))
}

/// The server: its folder, and how often each page was read.
struct Server {
    root: Utf8PlatformPathBuf,
    reads: BTreeMap<Utf8UnixPathBuf, u64>,
}

impl Server {
    /// The status of a request, its content and the type of that.
    fn answer(&mut self, request: &str) -> (&'static str, Vec<u8>, &'static str) {
        let text = |status, text: String| (status, text.into_bytes(), "text/plain; charset=utf-8");
        let mut words = request.split_ascii_whitespace();
        let (Some("GET"), Some(path)) = (words.next(), words.next()) else {
            return text("405 Method Not Allowed", String::new());
        };
        match target(&self.root, path).map(|(page, file)| (page, read(&file))) {
            Err(refusal) => text("400 Bad Request", refusal.to_string()),
            Ok((_, Err(error))) if error.kind() == io::ErrorKind::NotFound => {
                text("404 Not Found", String::new())
            }
            Ok((_, Err(error))) => text("500 Internal Server Error", error.kind().to_string()),
            Ok((page, Ok((content, kind)))) => {
                let reads = self.reads.entry(page.clone()).or_default();
                *reads += 1;
                println!("{page}\t{reads}");
                ("200 OK", content, kind)
            }
        }
    }

    fn serve(&mut self, stream: TcpStream) -> io::Result<()> {
        stream.set_read_timeout(Some(Duration::from_secs(5)))?;
        let mut lines = BufReader::new(&stream).take(LONGEST_REQUEST).lines();
        let request = lines.next().unwrap_or_else(|| Ok(String::new()))?;
        // The headers are taken, and say nothing that is asked here.
        while lines.next().transpose()?.is_some_and(|line| !line.is_empty()) {}
        let (status, content, kind) = self.answer(&request);
        write!(
            &stream,
            "HTTP/1.0 {status}\r\nContent-Type: {kind}\r\nContent-Length: {}\r\n\r\n",
            content.len()
        )?;
        (&stream).write_all(&content)
    }
}

fn main() -> Result<(), Box<dyn Error>> {
    let words: Vec<String> = std::env::args().skip(1).collect();
    let folder = words.first().ok_or("serve FOLDER [PORT]")?;
    let root = Utf8PlatformPath::new(folder).absolutize()?;
    let port = words.get(1).map_or(Ok(0), |port| port.parse())?;
    let listener = TcpListener::bind(("127.0.0.1", port))?;
    println!("http://{}/ serves {root}", listener.local_addr()?);
    let mut server = Server { root, reads: BTreeMap::new() };
    for stream in listener.incoming() {
        if let Err(error) = stream.and_then(|stream| server.serve(stream)) {
            eprintln!("serve: {error}");
        }
    }
    Ok(())
}
