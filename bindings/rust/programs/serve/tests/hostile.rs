//! What is served of a folder, and what hostile requests get.
#![cfg(unix)]

use std::fs;
use std::io::{BufRead, BufReader, Read, Write};
use std::net::TcpStream;
use std::process::{Child, Command, Stdio};

/// Ends the server, however its test ends.
struct Ended(Child);

impl Drop for Ended {
    fn drop(&mut self) {
        self.0.kill().and_then(|()| self.0.wait()).unwrap();
    }
}

/// The status, the type and the content that a request gets.
fn answer(address: &str, request: &str) -> String {
    let mut stream = TcpStream::connect(address).unwrap();
    stream.write_all(format!("{request} HTTP/1.0\r\nHost: a\r\n\r\n").as_bytes()).unwrap();
    let mut answer = String::new();
    stream.read_to_string(&mut answer).unwrap();
    let (head, content) = answer.split_once("\r\n\r\n").unwrap();
    let words: Vec<&str> = head.split([' ', ';', '\r']).collect();
    format!(
        "{} {} {content}",
        words[1],
        words.iter().find(|word| word.contains('/') && word.len() != 8).unwrap()
    )
}

#[test]
fn serves_below_its_folder_alone() {
    let room = std::env::temp_dir().join(format!("serve-{}", std::process::id()));
    let folder = room.join("in").join("folder");
    fs::create_dir_all(folder.join("a b")).unwrap();
    fs::write(room.join("secret.txt"), "secret").unwrap();
    fs::write(folder.join("index.html"), "first").unwrap();
    fs::write(folder.join("a b").join("é.txt"), "one").unwrap();
    let program = Command::new(env!("CARGO_BIN_EXE_serve")).arg(&folder).stdout(Stdio::piped()).spawn();
    let mut server = Ended(program.unwrap());
    let mut lines = BufReader::new(server.0.stdout.take().unwrap()).lines().map(|line| line.unwrap());
    let first = lines.next().unwrap();
    let address = first.strip_prefix("http://").unwrap().split('/').next().unwrap();
    assert!(first.ends_with(folder.to_str().unwrap()));

    for (request, wanted) in [
        ("GET /", "200 text/html first"),
        ("GET /a%20b/%C3%A9.txt?x=/../..", "200 text/plain one"),
        ("GET //./a%20b/./x/../%c3%a9.txt", "404 text/plain "),
        ("GET /./a%20b//%c3%a9.txt", "200 text/plain one"),
        ("GET /none", "404 text/plain "),
        ("GET /../../secret.txt", "400 text/plain path attempts to escape original path"),
        ("GET /a%20b/%2e%2e/..%2f..%2fsecret.txt", "400 text/plain path attempts to escape original path"),
        ("GET /..%5c..%5csecret.txt", "404 text/plain "),
        ("GET /index.html%00", "400 text/plain path contains invalid filename"),
        ("GET index.html", "400 text/plain prefix not found"),
        ("GET /%ff", "400 text/plain it is no text"),
        ("GET /%4", "400 text/plain it is no text"),
        ("GET /%+4", "400 text/plain it is no text"),
        ("PUT /index.html", "405 text/plain "),
    ] {
        assert_eq!(answer(address, request), wanted, "{request}");
    }
    let reads: Vec<String> = lines.by_ref().take(3).collect();
    assert_eq!(reads, ["\t1", "a b/é.txt\t1", "a b/é.txt\t2"]);
    fs::remove_dir_all(room).unwrap();
}
