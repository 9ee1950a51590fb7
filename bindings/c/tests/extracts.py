#!/usr/bin/env python3
"""Hands the example extract.c archives that mean harm: nothing may be written outside of its folder, and what is
refused has to be named.

extracts.py EXTRACT: prints what is wrong.
"""

import io
import os
import pathlib
import stat
import subprocess
import sys
import tarfile
import tempfile
import warnings
import zipfile

ESCAPES, ROOT = "path attempts to escape original path", "path contains unexpected root"
LINK_UP, NO_FILE = "link leads up", "neither file, folder nor link"
IN_THE_WAY = "a link or a file stands in the way"
LONG = "n" * 65536

# The files of an archive, by what becomes of each: the path below the folder, or the refusal.
FILES = [
    ("a/b.txt", None, "a/b.txt"), ("./c//d.txt", None, "c/d.txt"), ("x/../y.txt", None, "y.txt"), ("日本/語", None, "日本/語"),
    ("../evil", ESCAPES, None), ("a/../../evil", ESCAPES, None), ("/evil", ROOT, None), ("//evil", ROOT, None),
    ("..", ESCAPES, None), ("C:evil", "FORBIDDEN", None), ("C:\\evil", "FORBIDDEN", None), ("\\\\host\\share\\evil", "FORBIDDEN", None),
    ("a\\..\\..\\evil", "FORBIDDEN", None), ("a/evil\n", "FORBIDDEN", None), ("con.txt", "DEVICE", None), ("a/nul /evil", "DEVICE", None),
    ("COM¹", "DEVICE", None), ("evil.", "ENDING", None), ("evil ", "ENDING", None), (LONG, "TOO_LONG", None),
    ("a/" * 32768 + "../" * 32769 + "evil", ESCAPES, None), (b"\xff\xfe.txt".decode("utf-8", "surrogateescape"), "NOT_TEXT", None),
    ("a/b.txt", "File exists", None), ("a/b.txt/evil", IN_THE_WAY, None), ("a", "File exists", None), (".", "Is a directory", None),
    ("led/evil", IN_THE_WAY, None), ("led", "File exists", None),
]
# Its links, with where they lead: those that were written stand in the way of the files behind them.
LINKS = [
    ("down", "a", None), ("deep/down", "./b", None), ("out", "..", ESCAPES), ("out", "/", ROOT),
    ("out", "a/..", LINK_UP), ("out", "a/../../..", ESCAPES), ("../evil", "a", ESCAPES), ("led", "a", "File exists"),
    ("out", "C:\\", "FORBIDDEN"),
]
BEHIND_LINKS = [("down/evil", IN_THE_WAY), ("deep/down/evil", IN_THE_WAY), ("down", "File exists")]


def shown(name):
    """A name as the program prints it."""
    raw = name.encode("utf-8", "surrogateescape")
    text = "".join(chr(it) if 32 <= it < 127 and it != 37 else f"%{it:02X}" for it in raw[:60])
    return text + (".." if len(raw) > 60 else "")


def tar(file, form):
    """What a tar has, and what is to be said of it."""
    said = []
    with tarfile.open(file, "w", format=form, encoding="utf-8", errors="surrogateescape") as archive:
        def add(name, of_type=tarfile.REGTYPE, link="", content=b""):
            entry = tarfile.TarInfo(name)
            entry.type, entry.linkname, entry.size, entry.mode = of_type, link, len(content), 0o6755
            archive.addfile(entry, io.BytesIO(content))

        for name, refused, path in FILES:
            add(name, content=b"evil" if refused else name.encode())
            said.append((refused, name if refused else path))
        for name, link, refused in LINKS:
            add(name, tarfile.SYMTYPE, link)
            said.append((refused, name))
        for name, refused in BEHIND_LINKS:
            add(name, content=b"evil")
            said.append((refused, name))
        add("hard", tarfile.LNKTYPE, "../witness")
        add("hard", tarfile.LNKTYPE, "a/b.txt")
        add("disk", tarfile.CHRTYPE)
        add("pipe", tarfile.FIFOTYPE)
        said += [(NO_FILE, "hard"), (NO_FILE, "hard"), (NO_FILE, "disk"), (NO_FILE, "pipe")]
        add("folder/below", tarfile.DIRTYPE)
        add("down", tarfile.DIRTYPE)
        said += [(None, "folder/below"), (IN_THE_WAY, "down/")]
    return said


def zipped(file):
    """The same of a zip, whose names are UTF-8, of fewer than 64 kB, and read by libarchive with `/` for each `\\`."""
    said = []
    with zipfile.ZipFile(file, "w") as archive:
        def add(name, content, of_type=stat.S_IFREG):
            entry = zipfile.ZipInfo(name)
            entry.filename, entry.create_system, entry.external_attr = name, 3, (of_type | 0o755) << 16
            archive.writestr(entry, content)

        for name, refused, path in FILES:
            if len(name) < 65535 and refused != "NOT_TEXT" and "\\" not in name:
                add(name, b"evil" if refused else name.encode())
                said.append((refused, name if refused else path))
        for name, link, refused in LINKS:
            add(name, link, stat.S_IFLNK)
            said.append((refused, name))
        for name, refused in BEHIND_LINKS:
            add(name, b"evil")
            said.append((refused, name))
    return said


def found_in(folder):
    """All that stands below a folder: what a link leads to, None for a folder, the bytes of a file."""
    found = {}
    for top, folders, files in os.walk(folder):
        for name in folders + files:
            at = pathlib.Path(top, name)
            found[str(at.relative_to(folder))] = (
                os.readlink(at) if at.is_symlink() else None if at.is_dir() else at.read_bytes())
            if not at.is_symlink() and at.stat().st_mode & 0o7000:
                found[str(at.relative_to(folder))] = "a mode that is more than that of a file"
    return found


def texts(program):
    """What the library says of a status is asked of it: a file of one name, which is refused."""
    said = {}
    for word, name in [("FORBIDDEN", "a:"), ("DEVICE", "con"), ("ENDING", "a."), ("TOO_LONG", "n" * 256), ("NOT_TEXT", "\udcff")]:
        with tempfile.TemporaryDirectory() as room:
            with tarfile.open(f"{room}/one", "w", encoding="utf-8", errors="surrogateescape") as archive:
                archive.addfile(tarfile.TarInfo(name))
            said[word] = subprocess.run([program, f"{room}/one", room], capture_output=True, text=True).stdout.split("\t")[0]
    if len(set(said.values())) != 5 or "ok" in said.values():
        sys.exit(f"refusals are not told apart: {said}")
    return said


def wrong(program, make, words):
    with tempfile.TemporaryDirectory() as room:
        outside, folder, file = pathlib.Path(room), pathlib.Path(room, "in"), f"{room}/archive"
        said = make(file)
        folder.mkdir()
        (outside / "witness").write_bytes(b"kept")
        (folder / "led").symlink_to("..")
        before = {name: it for name, it in found_in(outside).items() if not name.startswith("in/")}
        done = subprocess.run([program, file, str(folder)], capture_output=True, timeout=60)
        wanted = [f"{words.get(refused, refused) or 'ok'}\t{shown(name)}" for refused, name in said]
        told = done.stdout.decode().splitlines()
        if told != wanted or done.returncode != 1 or done.stderr:
            yield f"status {done.returncode}, {done.stderr.decode()}"
            yield from (f"wanted: {one!r}, was told: {two!r}" for one, two in zip(wanted, told) if one != two)
            yield f"{len(wanted)} lines are wanted, and there are {len(told)}"
        if (after := {name: it for name, it in found_in(outside).items() if not name.startswith("in/")}) != before:
            yield f"outside there is {after}"
        there = found_in(folder)
        files = {path: name.encode() for name, refused, path in FILES if not refused}
        links = {name: link for name, link, refused in LINKS if not refused} | {"led": ".."}
        folders = {name for name, it in there.items() if it is None}
        if {name: it for name, it in there.items() if it is not None} != files | links:
            yield f"in the folder there is {there}"
        if extra := folders - {"a", "c", "日本", "deep", "folder", "folder/below"}:
            yield f"there are folders of refused names: {extra}"


def main(program):
    warnings.filterwarnings("ignore", "Duplicate name")
    words, count = texts(program), 0
    makes = {
        "tar of GNU": lambda file: tar(file, tarfile.GNU_FORMAT), "tar of POSIX": lambda file: tar(file, tarfile.PAX_FORMAT),
        "zip": zipped,
    }
    for name, make in makes.items():
        for line in wrong(program, make, words):
            print(f"{name}: {line}")
            count += 1
    print(f"extracts: {len(makes)} archives, {count} wrong")
    return count > 0


if __name__ == "__main__":
    sys.exit(main(*sys.argv[1:]))
