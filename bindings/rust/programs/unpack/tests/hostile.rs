//! An archive of hostile names: what is told of each, and that nothing was written outside of the folder.
#![cfg(unix)]

use std::fs;
use std::io::Write;
use std::process::{Command, Stdio};

/// An entry in the ustar format: its name behind a prefix, its kind and its content.
fn entry(prefix: &str, name: &[u8], kind: u8, content: &[u8]) -> Vec<u8> {
    let mut block = vec![0; 512];
    block[..name.len()].copy_from_slice(name);
    block[124..135].copy_from_slice(format!("{:011o}", content.len()).as_bytes());
    block[148..156].fill(b' ');
    block[156] = kind;
    block[257..262].copy_from_slice(b"ustar");
    block[345..345 + prefix.len()].copy_from_slice(prefix.as_bytes());
    let sum: u32 = block.iter().map(|byte| u32::from(*byte)).sum();
    block[148..156].copy_from_slice(format!("{sum:06o}\0 ").as_bytes());
    block.extend_from_slice(content);
    block.resize(block.len().next_multiple_of(512), 0);
    block
}

/// The lines that the program prints of an archive, and its status.
fn unpacked(folder: &str, archive: &[u8]) -> (String, Option<i32>) {
    let mut program = Command::new(env!("CARGO_BIN_EXE_unpack"))
        .arg(folder)
        .stdin(Stdio::piped())
        .stdout(Stdio::piped())
        .spawn()
        .unwrap();
    program.stdin.take().unwrap().write_all(archive).unwrap();
    let output = program.wait_with_output().unwrap();
    (String::from_utf8(output.stdout).unwrap(), output.status.code())
}

#[test]
fn writes_below_its_folder_alone() {
    let room = std::env::temp_dir().join(format!("unpack-{}", std::process::id()));
    let folder = room.join("in").join("folder");
    fs::create_dir_all(&folder).unwrap();
    let folder = folder.to_str().unwrap();
    let long = "x".repeat(100);
    let mut archive = [
        entry("", b"a/b.txt", b'0', b"one"),
        entry("", b"d//./e/", b'5', b""),
        entry("", b"d/../c", b'0', &[b'c'; 600]),
        entry("", b"..\\f", 0, b"a name of Unix"),
        entry("deep", long.as_bytes(), b'0', b""),
        entry("", b"../out", b'0', b"out"),
        entry("", b"/out", b'0', b"out"),
        entry("a/..", b"../out", b'0', b"out"),
        entry("", b"a/b/../../../out", b'5', b""),
        entry("", b".", b'0', b"out"),
        entry("", b"a/b.txt", b'0', b"two"),
        entry("", b"link", b'2', b""),
        entry("", b"n\xffx", b'0', b"no text"),
    ]
    .concat();
    archive.resize(archive.len() + 1024, 0);
    let (lines, status) = unpacked(folder, &archive);
    let of_system = lines.matches("(os error").count();
    let lines: Vec<&str> = lines.lines().map(|line| line.split(" (os error").next().unwrap()).collect();
    assert_eq!(
        lines,
        [
            format!("ok\t{folder}/a/b.txt"),
            format!("ok\t{folder}/d/e"),
            format!("ok\t{folder}/d/../c"),
            format!("ok\t{folder}/..\\f"),
            format!("ok\t{folder}/deep/{long}"),
            "path attempts to escape original path\t../out".into(),
            "path contains unexpected root\t/out".into(),
            "path attempts to escape original path\ta/../../out".into(),
            "path attempts to escape original path\ta/b/../../../out".into(),
            "File exists".into(),
            "File exists".into(),
            "neither a file nor a folder\tlink".into(),
            format!("{folder}/n\u{fffd}x is no text\tn\\xffx"),
        ]
    );
    assert_eq!((of_system, status), (2, Some(1)));
    assert_eq!(fs::read(folder.to_owned() + "/a/b.txt").unwrap(), b"one");
    assert_eq!(fs::read(folder.to_owned() + "/c").unwrap(), [b'c'; 600]);
    assert!(fs::read_dir(room.join("in")).unwrap().count() == 1 && !room.join("out").exists());

    assert_eq!(unpacked(folder, &archive[..700]).1, Some(2));
    archive[0] = b'A';
    assert_eq!(unpacked(folder, &archive), (String::new(), Some(2)));
    fs::remove_dir_all(room).unwrap();
}
