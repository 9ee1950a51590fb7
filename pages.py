#!/usr/bin/env python3
"""Tries what stands on the pages: their blocks of code and of commands, their links and their chart.

Each block has one fate. A whole file of Rattle is compiled in a crate over the library, which the commands of
the README have put there, and what that page says of it is asked of it. Another piece of Rattle or of a proof
stands line for line in a file of the repository, or is compiled and run in a function; C and C++ are compiled
with their header. Commands are run as they are pasted, in a copy of the checkout. A picture, and what takes long, is left out
by name, with the reason. A block without a fate fails, and so does a fate without a block. The tables of calls,
with the columns `Of` and `It is` or `Here it is`, are asked row by row, here and in the language that they set
them beside, if it is there. `./pages.py PAGE..` tries these pages alone. It takes a minute or two, and proves
nothing. The last line is `N passed, M failed`, and the exit status says the same.
"""

import concurrent.futures
import json
import os
import pathlib
import re
import shutil
import subprocess
import sys
import tempfile
import textwrap

TOP = pathlib.Path(__file__).resolve().parent
README, TYPATH, CALLING = "README.md", "crates/typath/README.md", "docs/CALLING.md"

# What is left out: a block, or a line of commands, by its page and how it begins.
OLDER = "proves an older state, which takes an hour"
RELEASED = "takes the files of a release, as release/try.sh does"
LEFT_OUT = {
    (README, "  C:  "): "a picture",
    (README, "                  "): "a picture",
    (README, "sudo apt install"): RELEASED,
    (README, "pip install"): RELEASED,
    (README, "tar -xzf"): RELEASED,
    (README, "bindings/c/build.sh && "): "proves the calls for C, as bindings/test.sh does",
    (README, "release/build.sh"): "takes what that lays out, as bindings/test.sh does",
    (README, "cp -a ../typed_path/crates/typed_path/out"): "takes a built checkout, and 6 GB",
    (README, "./gate.sh quick"): "takes minutes, and runs this",
    (README, "./gate.sh  "): "takes more than an hour, and runs this",
    (README, "(cd crates/typath && rt run < stdin)"): "takes 15 to 20 minutes",
    ("crates/typed_path/README.md", "typed_path: "): "what a command of the README writes",
    ("docs/ARCHITECTURE.md", "  a block of 32"): "a picture",
    ("docs/PERF.md", "git clone . ../old"): OLDER,
    ("docs/PERF.md", "git archive HEAD crates.txt"): OLDER,
    ("docs/PERF.md", "(cd ../old"): OLDER,
    ("docs/PERF.md", "bench/run ../old"): OLDER,
    ("docs/C.md", "bindings/c/build.sh"): "proves the calls for C, as bindings/test.sh does",
    ("docs/C.md", "bindings/c/install.sh"): "takes what that lays out, as bindings/test.sh does",
    ("docs/C.md", "cc app.c"): "takes what that installs, as bindings/test.sh does",
    ("bindings/python/README.md", ">>>"): "run by bindings/test.sh",
    ("bindings/python/README.md", "TYPED_PATH_DIR="): "takes what bindings/c/build.sh lays out, and pip",
    ("bindings/rust/README.md", "typed-path = "): "stands in a Cargo.toml, as bindings/rust/test.sh tries",
    ("bindings/rust/README.md", "use typed_path::UnixPath;"): "run by bindings/rust/test.sh",
    ("bindings/rust/README.md", "[patch.crates-io]"): "stands in a Cargo.toml, as bindings/rust/test.sh tries",
    ("bindings/rust/README.md", "bindings/c/build.sh DIR"): "proves the calls for C, as bindings/test.sh does",
    ("bindings/rust/README.md", "cd bindings/rust && "): "takes what that lays out, as bindings/rust/test.sh does",
    ("docs/PERFORMANCE.md", "parallel "): "takes the proved program, and the package parallel",
    (TYPATH, "# over all cores"): "says what the next line does",
    (TYPATH, "parallel "): "takes the package parallel",
}

# The folder in which commands are run, if that is not the copy of the checkout.
FOLDERS = {(README, "git -C ../typed_path"): "yours", (README, "# where uploads go"): "tree", (TYPATH, ""): "tree"}

# Lines that commands print, beside the replies in their comments, where `⇥` is a tab.
PRINTED = {
    (README, "(cd crates/typath && rt try"): ["ok\tfoo/bar/baz/asdf"],
    ("docs/DEVELOPMENT.md", "cat crates/typed_path/proofs/examples"): re.findall(
        r"has (\d+) worked answers", (TOP / "docs/PROVED.md").read_text()
    ),
    (TYPATH, "# the names of a tree"): ["ok\t.\\a\\b.txt"],
    (TYPATH, "# how many replies"): ["1 refused"],
}

# Files in which a piece may stand.
STORED = [
    "crates.txt", "crates/*/src/**/*.rt", "crates/typed_path*/specs/**/*.antt", "crates/typed_path*/proofs/**/*.antt",
    "crates/typed_path/mutants/*.edit", "bindings/c/tests/app/CMakeLists.txt",
]

# Any other piece, with what stands before it in its function.
FRAGMENTS = {
    (CALLING, "let mut tree = "): "",
    (CALLING, 'let path = UnixPath::new(b"/usr'): "",
    (CALLING, "let mut path = "): "",
    (CALLING, "let key = "): 'let path = UnixPath::new(b"a/../b");',
    (CALLING, "let mut components = "): "let mut names = Vec::new(alloc);",
    (CALLING, "let one = "): "",
    (CALLING, "let line = "): 'let path = UnixPath::new(b"a");',
    (CALLING, "let path = TypedPath"): "let mut names = Vec::new(alloc); let mut others = Vec::new(alloc);",
    (CALLING, "read_ends("): 'let mut components = UnixPath::new(b"/a").components(); let mut answers = Vec::new(alloc);'
    " let mut owned = UnixPathBuf::new(alloc); let mut replies = Vec::new(alloc);",
}

# The crate of these functions.
PIECES = """#![tactic(auto)]

#[cfg(test)]
mod tests {
    use anyhow::Result;
    use typed_path::*;
    use typed_path_uses::Tree;

%s}
"""

# What the README says of its files, each behind a comment of its words.
SAID = r"""
#[cfg(test)]
mod tests {
    use crate::readme_1::{target, tidied};
    use crate::readme_2::stored;
    use std::test::Fail;
    use typed_path::CheckedPathError::{InvalidFilename, PathTraversalAttack, UnexpectedPrefix, UnexpectedRoot};
    use typed_path::PathError::Checked;
    use typed_path::Utf8UnixPath;

    #[test]
    fn said(rt: HostRuntime) -> Result<(), Fail> {
        let alloc = rt.alloc();
        let etc = Utf8UnixPath::new("/etc");
        // `target` of `/etc` and `abc/../def` returns `/etc/abc/../def`
        assert!(rt; matches!(&target(alloc, etc, "abc/../def"), Ok(path) if path.as_path().as_str() == "/etc/abc/../def"));
        // It refuses `..` with `PathTraversalAttack`, and `/sneaky` with `UnexpectedRoot`
        assert!(rt; matches!(&target(alloc, etc, ".."), Err(Checked(PathTraversalAttack))));
        assert!(rt; matches!(&target(alloc, etc, "/sneaky"), Err(Checked(UnexpectedRoot))));
        // `tidied` of `foo/bar//baz/./asdf/quux/..` returns `foo/bar/baz/asdf`
        assert!(rt; matches!(&tidied(alloc, "foo/bar//baz/./asdf/quux/.."), Ok(text) if text.as_str() == "foo/bar/baz/asdf"));
        // `stored` of `2024\cat.png` returns `C:\uploads\2024\cat.png`
        assert!(rt; matches!(&stored(alloc, br"2024\cat.png"), Ok(path) if path.as_path().as_bytes() == br"C:\uploads\2024\cat.png".as_slice()));
        // It refuses `..\x` with `PathTraversalAttack`, `D:x` with `UnexpectedPrefix`, `\x` with `UnexpectedRoot`
        assert!(rt; matches!(&stored(alloc, br"..\x"), Err(Checked(PathTraversalAttack))));
        assert!(rt; matches!(&stored(alloc, b"D:x"), Err(Checked(UnexpectedPrefix))));
        assert!(rt; matches!(&stored(alloc, br"\x"), Err(Checked(UnexpectedRoot))));
        // the device `con.txt` with `InvalidFilename`
        assert!(rt; matches!(&stored(alloc, b"con.txt"), Err(Checked(InvalidFilename))));
        Ok(())
    }
}
"""

# Where calls of another library are asked: a program that reads them as JSON, or one that is made of them.
PYTHON = r"""
import json, ntpath, os, pathlib, posixpath, sys

def told(answer):
    if isinstance(answer, bool):
        return str(answer).lower()
    if isinstance(answer, (str, pathlib.PurePath)):
        return str(answer) or "*empty*"
    return ", ".join(map(told, answer))

def answer(dialect, call, texts):
    module, path = {"Unix": (posixpath, pathlib.PurePosixPath), "Windows": (ntpath, pathlib.PureWindowsPath)}[dialect]
    given = texts if "os.path" in call else map(path, texts)
    try:
        return told(eval(call, {"os": type("os", (), {"path": module}), **dict(zip("pq", given))}))
    except ValueError as error:
        return type(error).__name__

for it in json.load(sys.stdin):
    print(answer(*it))
"""
NODE = r"""
const paths = require("path");
for (const [dialect, call, [p, q]] of JSON.parse(require("fs").readFileSync(0))) {
    const path = dialect === "Unix" ? paths.posix : paths.win32;
    const answer = new Function("path", "p", "q", `return ${call};`)(path, p, q);
    console.log(answer === "" ? "*empty*" : String(answer));
}
"""
GO = r"""package main

import ("fmt"; "path"; "path/filepath"; "strings")

func told(answers ...any) {
	text := fmt.Sprint(answers[0])
	if len(answers) > 1 && answers[1] != nil {
		text = "*an error*"
	} else if text == "" {
		text = "*empty*"
	}
	fmt.Println(text)
}

var _, _, _ = path.Clean, filepath.Clean, strings.HasPrefix

func main() {
%s}
"""
STD = r"""use std::fmt::Debug;
use std::path::{Path, PathBuf};

trait Told {
    fn told(self) -> String;
}

impl Told for bool {
    fn told(self) -> String {
        self.to_string()
    }
}

impl Told for &Path {
    fn told(self) -> String {
        if self.as_os_str().is_empty() { "*empty*".to_string() } else { self.display().to_string() }
    }
}

impl Told for PathBuf {
    fn told(self) -> String {
        self.as_path().told()
    }
}

impl<A: Told, E: Debug> Told for Result<A, E> {
    fn told(self) -> String {
        self.map_or_else(|error| format!("{error:?}"), Told::told)
    }
}

fn main() {
%s}
"""

# The program that asks the calls here.
OURS = r"""#![tactic(auto)]

use anyhow::Result;
use std::alloc::{AllocError, Global};
use std::fmt;
use typed_path::*;

trait Told: Sized {
    fn told(self, alloc: Global) -> Result<String, AllocError>;
}

impl Told for bool {
    fn told(self, alloc: Global) -> Result<String, AllocError> {
        format!(in alloc; "{self}")
    }
}

impl Told for () {
    fn told(self, alloc: Global) -> Result<String, AllocError> {
        format!(in alloc; "done")
    }
}

impl<'a> Told for &'a [u8] {
    fn told(self, alloc: Global) -> Result<String, AllocError> {
        let path = UnixPath::new(self);
        if self.is_empty() { format!(in alloc; "*empty*") } else { format!(in alloc; "{path}") }
    }
}

impl<'a, T: Encoding> Told for Path<'a, T> {
    fn told(self, alloc: Global) -> Result<String, AllocError> {
        self.as_bytes().told(alloc)
    }
}

impl<T: Encoding> Told for PathBuf<T> {
    fn told(self, alloc: Global) -> Result<String, AllocError> {
        self.as_path().told(alloc)
    }
}

impl<'a> Told for WindowsPrefixComponent<'a> {
    fn told(self, alloc: Global) -> Result<String, AllocError> {
        self.as_bytes().told(alloc)
    }
}

impl<A: Told> Told for Option<A> {
    fn told(self, alloc: Global) -> Result<String, AllocError> {
        match self {
            Some(answer) => answer.told(alloc),
            None => format!(in alloc; "*none*"),
        }
    }
}

impl<A: Told, E: fmt::Debug + Drop> Told for Result<A, E> {
    fn told(self, alloc: Global) -> Result<String, AllocError> {
        match self {
            Ok(answer) => answer.told(alloc),
            Err(error) => format!(in alloc; "{error:?}"),
        }
    }
}

fn listed<A: Told + Drop>(alloc: Global, items: impl Iterator<Item = A>) -> Result<String, AllocError> {
    let mut text = String::new(alloc);
    for item in items {
        if !text.is_empty() {
            text.push_str(", ")?;
        }
        text.push_str(item.told(alloc)?.as_str())?;
    }
    Ok(text)
}

%s
fn main(rt: HostRuntime) -> Result<()> {
    let alloc = rt.alloc();
    for (of, call, p, q) in ROWS {
        let told = match *of {
            "Unix" => asked_Unix(alloc, *call, UnixPath::new(p), UnixPath::new(q))?,
            _ => asked_Windows(alloc, *call, WindowsPath::new(p), WindowsPath::new(q))?,
        };
        println!(rt; "{told}")?;
    }
    Ok(())
}
"""

# The calls here that take an allocator, with the form of what they are handed.
GROWING = {
    **dict.fromkeys(["clean", "normalize", "with_unix_encoding", "with_windows_encoding_checked"], ""),
    **dict.fromkeys(["join", "join_checked", "relative_to"], "{0}"),
    **dict.fromkeys(["with_file_name", "with_extension", "with_added_extension"], "{1}"),
    "absolutize": "PlatformPath::new({1})",
}

# How each language is asked, and by which command: a program that reads the calls, or one that is made of them, with
# how it is built, the file, its text, a path and a call.
ASKED = {"Python": [sys.executable, "-c", PYTHON], "Node": ["node", "-e", NODE]}
BUILT = {
    "Go": (["go", "build"], "beside.go", GO, "{0} := {1}; ", "told({0})"),
    "std": (["rustc", "--edition", "2021"], "beside.rs", STD, "let {0} = Path::new({1}); ", 'println!("{{}}", ({0}).told());'),
}
COMMANDS = {"Python": sys.executable, "Node": "node", "Go": "go", "std": "rustc"}

# Stands for the program: keeps what it is asked, and answers by the replies that there are.
STAND_IN = """#!/bin/sh
cat > "$ASKED"
cat "$REPLIES"
"""

met = set()


class Block:
    """A fenced block: its page, the line and the language of its fence, and its text."""

    def __init__(self, page, line, language, text):
        self.page, self.language, self.text = page, language, text
        self.name = f"{page}:{line}"

    def is_whole(self):
        """Whether it is a whole file of a crate."""
        return self.language == "rust" and "#![tactic(auto)]" in self.text.split("\n")[:2]

    def fate(self, table, text):
        """What a table has for a part of it, by the longest beginning that it names."""
        keys = [key for key in table if key[0] == self.page and text.startswith(key[1])]
        key = max(keys, key=lambda key: len(key[1]), default=None)
        met.add(key)
        return table.get(key)


def all_pages():
    found = [TOP.glob(form) for form in ["*.md", "docs/*.md", "crates/*/README.md", "bindings/*/README.md"]]
    return sorted(str(page.relative_to(TOP)) for pages in found for page in pages)


FENCED = re.compile(r"^```(\w*)\n(.*?)^```$", re.MULTILINE | re.DOTALL)


def blocks_of(page):
    text = (TOP / page).read_text()
    for found in FENCED.finditer(text):
        yield Block(page, text.count("\n", 0, found.start()) + 1, found[1], found[2])


def strange_fences(page):
    """The fences of a page that bound none of its blocks."""
    for line in re.findall(r"^\s*(?:```|~~~).*$", FENCED.sub("", (TOP / page).read_text()), re.MULTILINE):
        yield f"a fence bounds no block that is known: {line.strip()}"


def ran(command, folder, given="", **settings):
    return subprocess.run(
        command, cwd=folder, input=given, capture_output=True, text=True, errors="backslashreplace",
        env={**os.environ, **settings},
    )


# Rattle and proofs.


def strange_words(block):
    """The words of the library's definitions that its `ghost use` lines name, and that are not there."""
    for path, names in re.findall(r"^ghost use Rattle\.typed_path\.([\w.]+)\.\{(.*)\};$", block.text, re.MULTILINE):
        file = TOP / "crates/typed_path" / (path.replace(".", "/") + ".antt")
        said = re.sub(r"--.*", "", file.read_text()) if file.is_file() else ""
        yield from (name for name in names.split(", ") if not re.search(rf"(?<!\w){re.escape(name)}(?!\w)", said))


def stands(block):
    """Whether it stands line for line in a file of the repository, but for how far it is indented."""
    lines = [line.strip() for line in block.text.strip().split("\n")]
    for file in [path for form in STORED for path in TOP.glob(form)]:
        own = [line.strip() for line in file.read_text().split("\n")]
        if any(own[at : at + len(lines)] == lines for at, line in enumerate(own) if line == lines[0]):
            return True
    return False


def wrong_c(block):
    """What a C compiler says of a piece of C, which is a whole file if it includes something."""
    text = block.text if "#include" in block.text else "#include <typed_path.h>\nvoid piece(void) {\n" + block.text + "}\n"
    strict = ["-std=c11", "-Wall", "-Wextra", "-Werror", "-Wno-unused", "-fsyntax-only", "-I", TOP / "bindings/c/include"]
    return ran(["cc", *strict, "-x", "c", "-"], TOP, text).stderr.splitlines()


def wrong_cpp(block):
    """What a C++ compiler, if there is one, says of a whole file of C++."""
    if not shutil.which("c++"):
        print(f"pages.py: {block.name}: left out: there is no c++", flush=True)
        return []
    strict = ["-std=c++17", "-Wall", "-Wextra", "-Werror", "-fsyntax-only", "-I", TOP / "bindings/c/include"]
    return ran(["c++", *strict, "-x", "c++", "-"], TOP, block.text).stderr.splitlines()


def compiled(repository, crate, files):
    """Compiles a crate of these files and runs its tests: what there is to say of it."""
    source = repository / "crates" / crate / "src"
    source.mkdir(parents=True, exist_ok=True)
    for name, text in files.items():
        (source / f"{name}.rt").write_text(text)
    done = ran(["rt", "try", "--test"], source.parent)
    return [] if re.search(r"^run=ended status=0 ", done.stderr, re.MULTILINE) else (done.stdout + done.stderr).splitlines()


def try_files(room, files):
    """Compiles whole files as modules of one crate, and asks those of the README what that says."""
    modules = {re.sub(r"\W", "_", block.name.lower()): block.text for block in files}
    of_readme = [name for name in modules if name.startswith("readme_")]
    said = SAID if of_readme else "\n#[test]\nfn compiles() {}\n"
    for at, name in enumerate(of_readme, 1):
        said = said.replace(f"readme_{at}", name)
    words = (TOP / README).read_text()
    wrong = [f"{README} does not say: {line}" for line in re.findall(r"^ *// (.*)$", said, re.MULTILINE) if line not in words]
    wrong += [f"{block.name}: no definition has {word}" for block in files for word in strange_words(block)]
    heads = "".join(f"pub mod {name};\n" for name in modules)
    return wrong + compiled(room / "yours", "app", {"lib": f"#![tactic(auto)]\n\n{heads}{said}", **modules})


def try_pieces(room, pieces):
    """Compiles pieces in functions of one crate, and runs them."""
    with open(room / "typed_path/crates.txt", "a") as crates:
        crates.write("pieces: anyhow typed_path typed_path_uses\n")
    text = ""
    for at, block in enumerate(pieces):
        inside = textwrap.indent(block.text, " " * 8)
        text += f"    // {block.name}\n    #[test]\n    fn piece_{at}(rt: HostRuntime) -> Result<()> {{\n"
        text += f"        let alloc = rt.alloc();\n        {block.fate(FRAGMENTS, block.text)}\n{inside}        Ok(())\n    }}\n"
    return compiled(room / "typed_path", "pieces", {"lib": PIECES % text})


# Commands.


def lacking(output, wanted):
    """The first of the lines that are wanted which an output does not have in their order."""
    lines = iter(output.split("\n"))
    return next((line for line in wanted if line not in lines), None)


def wanted_of(block, part):
    """What some commands have to print: the replies in their comments, and what is named for them."""
    comments = "\n".join(re.findall(r"^#.*", part, re.MULTILINE))
    return [*(it.replace("⇥", "\t") for it in re.findall(r"`([^`]*⇥[^`]*)`", comments)), *(block.fate(PRINTED, part) or [])]


def try_commands(room, block, part, **settings):
    """Runs commands as they are pasted: what there is to say of them."""
    done = ran(["bash", "-e", "-o", "pipefail", "-c", part], room / (block.fate(FOLDERS, part) or "typed_path"), **settings)
    lost = lacking(done.stdout, wanted_of(block, part))
    if done.returncode == 0 and lost is None:
        return []
    return [f"ended with the status {done.returncode}", *([] if lost is None else [f"did not print: {lost}"]),
            *(done.stdout + done.stderr).splitlines()[-20:]]


def try_typath(room, parts):
    """Runs commands that ask the program: first to see what they ask, and then with what it replies to that."""
    path = f"{room / 'bin'}:{os.environ['PATH']}"
    asked = []
    for at, (block, part) in enumerate(parts):
        file = room / f"asked_{at}"
        try_commands(room, block, part, PATH=path, ASKED=str(file), REPLIES=os.devnull)
        asked.append(file.read_text())
    replies = iter(ran(["rt", "try"], room / "typed_path/crates/typath", "".join(asked)).stdout.splitlines(True))
    for at, ((block, part), lines) in enumerate(zip(parts, asked)):
        file = room / f"replies_{at}"
        file.write_text("".join(reply for _, reply in zip(lines.splitlines(), replies)))
        yield block, try_commands(room, block, part, PATH=path, ASKED=os.devnull, REPLIES=str(file))


def lay_out(room):
    """A copy of the checkout, with one commit; a repository that is yours; a tree of files; and the stand-in."""
    copy = room / "typed_path"
    listed = ran(["git", "ls-files", "-z", "--cached", "--others", "--exclude-standard"], TOP).stdout
    for name in filter(lambda name: (TOP / name).is_file(), listed.split("\0")):
        (copy / name).parent.mkdir(parents=True, exist_ok=True)
        shutil.copy(TOP / name, copy / name)
    ran(["sh", "-c", "git init -q && git add -A && git -c user.name=you -c user.email=you@example.org -c commit.gpgsign=false commit -q -m all"], copy)
    for folder in ["yours", "tree/a", "bin"]:
        (room / folder).mkdir(parents=True)
    (room / "yours/crates.txt").touch()
    for name in ["con.txt", "b.txt"]:
        (room / "tree/a" / name).touch()
    (room / "tree/lines").write_text("normalize\tunix\ta\nnormalize\tmac\ta\n")
    (room / "bin/typath").write_text(STAND_IN)
    (room / "bin/typath").chmod(0o755)


# Calls beside those of another library.


def spans(cell):
    """What a cell says: its pieces of code, and its words between stars."""
    return [code or word for code, word in re.findall(r"`([^`]+)`|(\*[a-z ]+\*)", cell)]


class Row:
    """A row of a table of calls: those there and the one here, of paths of a dialect, with what each answers."""

    def __init__(self, place, cells, above):
        there, here, of, said, answer = cells if len(cells) == 5 else ["", *cells[1:3], "", cells[3]]
        self.place = place
        self.there = spans(there) or (above.there if above else [])
        self.here = "".join(spans(here)) or above.here
        self.dialect, self.paths = of.split()[0], ["" if it == "*empty*" else it for it in spans(of)]
        self.said, self.answer = ", ".join(spans(said)), ", ".join(spans(said if answer == "the same" else answer))

    def wrong(self, call, said, answer):
        """What there is to say of what a call answers."""
        of = ", ".join(self.paths)
        return [] if said == answer else [f"{self.place}: {call} of {of} answers {answer}, and the page says {said}"]


def tables_of(page):
    """The tables of calls of a page: the place of each, the language that they are beside, if any, and the rows."""
    rows = None
    for line, text in enumerate([*(TOP / page).read_text().split("\n"), ""], 1):
        cells = [cell.strip() for cell in text.split("|")[1:-1]]
        if cells[2:3] == ["Of"] and cells[-1] in ["Here it is", "It is"]:
            place, language, rows = f"{page}:{line}", cells[0] if len(cells) == 5 else "", []
        elif rows is not None and cells and not text.startswith("|---"):
            rows.append(Row(f"{page}:{line}", cells, rows[-1] if rows else None))
        elif rows and not cells:
            yield place, language, rows
            rows = None


def literal(text):
    """A text as Go and Rust write it."""
    return '"' + "".join(f"\\{it}" if it in '\\"' else it for it in text) + '"'


def bytes_literal(text):
    """A text as bytes of Rattle."""
    escaped = (it if " " <= it <= "~" else "".join(f"\\x{byte:02x}" for byte in it.encode()) for it in literal(text))
    return "b" + "".join(escaped)


def in_rattle(here):
    """A call as it is written here, with the allocator, and what makes a text of its answer."""

    def with_allocator(found):
        name, given = found[1], found[2]
        if name not in GROWING:
            return found[0]
        given = GROWING[name].format(given, f"b{given}" if given.startswith('"') else f"{given}.as_bytes()")
        return f".{name}(alloc{', ' if given else ''}{given}){'' if found.end() == len(here) else '?.as_path()'}"

    call = re.sub(r"\.(\w+)\(([^()]*)\)", with_allocator, here)
    return f"listed(alloc, {call})" if call.endswith((".iter()", ".ancestors()")) else f"({call}).told(alloc)"


def ours(rows):
    """The text of a program that prints what the calls of these rows answer here, a line each."""
    calls = {dialect: sorted({row.here for row in rows if row.dialect == dialect}) for dialect in ["Unix", "Windows"]}
    asked, table = "", ""
    for dialect in calls:
        paths = ", ".join(f"{name}: {dialect}Path<'_>" for name in "pq")
        asked += f"fn asked_{dialect}(alloc: Global, call: usize, {paths}) -> Result<String, AllocError> {{\n    match call {{\n"
        asked += "".join(f"        {at} => {in_rattle(call)},\n" for at, call in enumerate(calls[dialect]))
        asked += "        _ => Ok(String::new(alloc)),\n    }\n}\n\n"
    for row in rows:
        texts = [it.replace("\\0", "\0") if row.dialect == "Unix" else it for it in [*row.paths, ""][:2]]
        given = [calls[row.dialect].index(row.here), *map(bytes_literal, texts)]
        table += f'    ("{row.dialect}", {", ".join(map(str, given))}),\n'
    return OURS % f"{asked}const ROWS: &[(&str, usize, &[u8], &[u8])] = &[\n{table}];\n"


def asked_here(room, rows):
    """Asks the calls of these rows here."""
    source = room / "typed_path/crates/beside/src"
    source.mkdir(parents=True)
    (source / "main.rt").write_text(ours(rows))
    with open(room / "typed_path/crates.txt", "a") as crates:
        crates.write("beside: anyhow typed_path\n")
    return ran(["rt", "try"], source.parent)


def asked_there(room, language, calls):
    """Asks the calls of a language, each of a dialect and of its paths."""
    if language in ASKED:
        return ran(ASKED[language], "/", json.dumps(calls))
    build, file, template, path, told = BUILT[language]
    lines = ""
    for _, call, paths in calls:
        named = "".join(path.format(name, literal(text)) for name, text in zip("pq", paths))
        lines += f"    {{ {named}{told.format(call)} }}\n"
    (room / file).write_text(template % lines)
    built = ran([*build, "-o", room / "beside", room / file], room, GO111MODULE="off", GOCACHE=str(room / "built"))
    return ran([room / "beside"], "/") if built.returncode == 0 else built


def answers(done, number):
    """The answers, a line each, or what there is to say in their place."""
    lines = re.sub(r"Checked\((\w+)\)", r"\1", done.stdout).splitlines()
    return (lines, []) if len(lines) == number else ([], (done.stdout + done.stderr).splitlines()[-20:])


def wrong_there(room, place, language, rows):
    """What there is to say of the calls of a language: of Go and Rust only those of Unix can be run."""
    if language not in COMMANDS:
        return [f"there is no way to ask calls of {language}"]
    if not shutil.which(COMMANDS[language]):
        print(f"pages.py: {place}: left out: calls of {language}, as there is no `{COMMANDS[language]}`", flush=True)
        return []
    calls = [(row, call) for row in rows for call in row.there if language in ASKED or row.dialect == "Unix"]
    done = asked_there(room, language, [(row.dialect, call, row.paths) for row, call in calls])
    there, wrong = answers(done, len(calls))
    return wrong + [it for (row, call), answer in zip(calls, there) for it in row.wrong(call, row.said, answer)]


def try_tables(room, tables):
    """Asks the calls of tables, here and there: what there is to say of each."""
    all_rows = [row for _, _, rows in tables for row in rows]
    here, wrong = answers(asked_here(room, all_rows), len(all_rows))
    answer_of = dict(zip(all_rows, here))
    for place, language, rows in tables:
        wrong_here = [it for row in rows if here for it in row.wrong(row.here, row.answer, answer_of[row])]
        yield place, [*wrong, *wrong_here, *(wrong_there(room, place, language, rows) if language else [])]


# Links.


def anchors_of(page):
    """The names of its headings."""
    text = FENCED.sub("", (TOP / page).read_text())
    for heading in re.findall(r"^#+ (.*)$", text, re.MULTILINE):
        yield re.sub(r"[^\w\- ]", "", heading.lower()).replace(" ", "-")


def leads(file, anchor):
    """Whether there is such a file, with such a heading if one is named."""
    return file.exists() and (not anchor or anchor in anchors_of(file.resolve().relative_to(TOP)))


def lost_links(page):
    """The links of a page that lead nowhere, there or where the pages of `docs` are copied with the library."""
    text = FENCED.sub("", (TOP / page).read_text())
    for link in re.findall(r"\]\(([^)\s]+)\)", text):
        target, _, anchor = link.partition("#")
        if ":" in target:
            continue
        file = (TOP / page).parent / target if target else TOP / page
        if not leads(file, anchor):
            yield f"the link {link} leads nowhere"
        if page.startswith("docs/") and target.startswith("../") and not leads(TOP / "crates/typed_path" / target[3:], anchor):
            yield f"the link {link} leads nowhere in a copy of the library's folder"


def lost_paths(block):
    """The files and folders that a tree names, and that are not there."""
    folder = TOP
    for indent, name in re.findall(r"^( *)([\w./-]+)(?:$| +)", block.text, re.MULTILINE):
        if len(indent) > 4:
            continue
        path = (folder if indent else TOP) / name
        folder = folder if indent else path
        if not path.exists():
            yield f"there is no {path.relative_to(TOP)}"


# All of them.


class Count:
    """What passed and failed so far."""

    def __init__(self):
        self.passed = self.failed = 0

    def add(self, names, wrong):
        """Some more, which passed where there is nothing to say of them."""
        if not wrong:
            self.passed += len(names)
            return
        self.failed += len(names)
        print(f"pages.py: {', '.join(names)}: FAILED", *(f"    {line}" for line in wrong), sep="\n", flush=True)


def parts_of(block):
    """The commands of a block, by paragraphs, without the lines that are left out; these are named."""
    for paragraph in block.text.strip().split("\n\n"):
        kept = []
        for line in paragraph.split("\n"):
            if reason := block.fate(LEFT_OUT, line):
                print(f"pages.py: {block.name}: left out: `{line.split('  ')[0]}` {reason}", flush=True)
            else:
                kept.append(line)
        if kept:
            yield block, "\n".join(kept)


def sorted_blocks(pages, count):
    """The whole files, the pieces and the commands that are to be run; what takes no time is done here."""
    files, pieces, commands = [], [], []
    for block in (block for page in pages for block in blocks_of(page)):
        if block.is_whole():
            files.append(block)
        elif block.language == "sh":
            commands += parts_of(block)
        elif reason := block.fate(LEFT_OUT, block.text):
            print(f"pages.py: {block.name}: left out: {reason}", flush=True)
        elif block.fate(FRAGMENTS, block.text) is not None:
            pieces.append(block)
        elif block.language == "c":
            count.add([block.name], wrong_c(block))
        elif block.language == "cpp":
            count.add([block.name], wrong_cpp(block))
        elif block.text.startswith("crates.txt  "):
            count.add([block.name], list(lost_paths(block)))
        else:
            count.add([block.name], [] if stands(block) else ["it stands in no file, and has no other fate"])
    return files, pieces, commands


def try_blocks(room, files, pieces, commands, tables, count):
    """Tries what takes time, side by side, once the library is where a reader puts it."""
    lay_out(room)
    places = {place: [] for place in ["typed_path", "yours", "tree"]}
    for block, part in commands:
        places[block.fate(FOLDERS, part) or "typed_path"].append((block, part))
    for block, part in places["yours"]:
        count.add([block.name], try_commands(room, block, part))
    with concurrent.futures.ThreadPoolExecutor(os.cpu_count()) as pool:
        tried = {pool.submit(try_commands, room, block, part): [block.name] for block, part in places["typed_path"]}
        for call, blocks in [(try_files, files), (try_pieces, pieces)]:
            if blocks:
                tried[pool.submit(call, room, blocks)] = [block.name for block in blocks]
        asked = pool.submit(lambda: list(try_typath(room, places["tree"])) if places["tree"] else [])
        beside = pool.submit(lambda: list(try_tables(room, tables)) if tables else [])
        for done in concurrent.futures.as_completed(tried):
            count.add(tried[done], done.result())
        for block, wrong in asked.result():
            count.add([block.name], wrong)
        for place, wrong in beside.result():
            count.add([place], wrong)


def main(pages):
    count = Count()
    for page in pages:
        count.add([page], [*strange_fences(page), *lost_links(page)])
    files, pieces, commands = sorted_blocks(pages, count)
    if not any(block.page == README for block in files) and files:
        commands += [it for block in blocks_of(README) if block.text.startswith("git -C") for it in parts_of(block)]
    with tempfile.TemporaryDirectory() as room:
        try_blocks(pathlib.Path(room), files, pieces, commands, [it for page in pages for it in tables_of(page)], count)
    if pages == all_pages():
        count.add(["docs/calls.svg"], ran([TOP / "bench/chart", "--check"], TOP).stderr.splitlines())
        for page, begin in sorted({*LEFT_OUT, *FOLDERS, *PRINTED, *FRAGMENTS} - met):
            count.add([page], [f"no block begins with what is named for it: {begin}"])
    print(f"{count.passed} passed, {count.failed} failed", flush=True)
    sys.exit(1 if count.failed else 0)


if __name__ == "__main__":
    main(sys.argv[1:] or all_pages())
