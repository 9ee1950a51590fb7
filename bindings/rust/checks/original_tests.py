#!/usr/bin/env python3
"""Puts the tests of the Rust crate typed-path 0.13.0 into a copy of this one, with their text unchanged.

original_tests.py CRATE ORIGINAL OUT: OUT is made anew, and `cargo test original_` there runs them. Each module of tests
stands in one that has what its own had in scope, and the examples of the README and of the comments stand at names of
their own. It prints what it left out and why, and last how many tests and documents there are.
"""

import pathlib
import re
import shutil
import sys

# What has nothing to run against, as it is private.
LEFT_OUT = {
    "common/non_utf8/parser.rs": (r".*", "the functions of which the parsers are made"),
    "unix/non_utf8/components/parser.rs": (r"^    mod helpers \{\n.*?^    \}\n", "functions of the parser"),
}
MODULE = re.compile(
    r"^( *)#\[cfg\((?:test|all\(test, .*\))\)\]\n(?:\1#\[.*\]\n)*\1mod \w+ \{\n.*?^\1\}\n", re.MULTILINE | re.DOTALL)
ELSEWHERE = re.compile(r"#\[test\]\s*#\[cfg\(windows\)\]|#\[cfg\(windows\)\]\s*#\[test\]")
FUNCTION = re.compile(r"^(?:#\[.*\]\n)*#\[test\]\n(?:#\[.*\]\n)*fn .*?^\}\n", re.MULTILINE | re.DOTALL)
COMMENT = re.compile(r"(?:^ *//[/!](?: .*)?\n)+", re.MULTILINE)
SCOPE = """    #[allow(unused_imports)]
    use crate::no_std_compat::*;
    #[allow(unused_imports)]
    use crate::*;
"""
# Over the public iterator, what the tests of a parser ask it.
PARSER = """    #[allow(unused_imports)]
    use crate::constants::{dialect}::*;
    pub struct Parser<'a>({Dialect}Components<'a>);
    impl<'a> Parser<'a> {{
        pub fn new(input: &'a [u8]) -> Self {{
            Parser({Dialect}Path::new(input).components())
        }}
        pub fn remaining(&self) -> &'a [u8] {{
            Components::as_bytes(&self.0)
        }}
        pub fn next_front(&mut self) -> Result<{Dialect}Component<'a>, ParseError> {{
            self.0.next().ok_or("none is left")
        }}
        pub fn next_back(&mut self) -> Result<{Dialect}Component<'a>, ParseError> {{
            self.0.next_back().ok_or("none is left")
        }}
    }}
"""
ROOT = """
#[cfg(test)]
mod no_std_compat {
    pub use alloc::{boxed::Box, string::String, string::ToString, vec, vec::Vec};
}
#[cfg(test)]
mod original_tests;
#[cfg(doctest)]
pub mod original_documents;
"""


def tests_of(file, text):
    """The modules and functions of tests of a file, each as one text, without what is left out."""
    found = [it[0] for it in MODULE.finditer(text)] + FUNCTION.findall(MODULE.sub("", text))
    if file in LEFT_OUT:
        pattern, reason = LEFT_OUT[file]
        pattern = re.compile(pattern, re.MULTILINE | re.DOTALL)
        count = sum(cut[0].count("#[test]") for it in found for cut in pattern.finditer(it))
        print(f"left out: {count} of src/{file}, which test {reason}")
        found = [pattern.sub("", it) for it in found]
    count = sum(len(ELSEWHERE.findall(it)) for it in found)
    if count:
        print(f"left out: {count} of src/{file}, which are compiled for Windows alone")
    return [it for it in found if "#[test]" in it]


def in_scope(file, text, number):
    """A module of this crate with a module or functions of tests."""
    scope = SCOPE
    if file.endswith("components/parser.rs"):
        dialect = file.split("/")[0]
        scope += PARSER.format(dialect=dialect, Dialect=dialect.capitalize())
    name = re.sub(r"\W", "_", file[:-3])
    return f"mod of_{name}_{number} {{\n{scope}\n{text}}}\n"


def documents_of(text):
    """The comments with examples of a file."""
    found = (re.sub(r"^ *//[/!]", "///", it[0], flags=re.MULTILINE) for it in COMMENT.finditer(text))
    return [it for it in found if "```" in it]


def main(crate, original, out):
    original, out = pathlib.Path(original), pathlib.Path(out)
    shutil.copytree(crate, out, ignore=shutil.ignore_patterns("target"))
    readme = (original / "README.md").read_text()
    modules, documents = [], ["".join(f"/// {line}\n" for line in readme.splitlines())]
    for path in sorted(original.glob("src/**/*.rs")):
        file, text = path.relative_to(original / "src").as_posix(), path.read_text()
        modules += [in_scope(file, it, number) for number, it in enumerate(tests_of(file, text))]
        documents += documents_of(text)
    (out / "src/original_tests.rs").write_text("".join(modules))
    documents = [f"{it}pub struct Document{number};\n" for number, it in enumerate(documents)]
    (out / "src/original_documents.rs").write_text("".join(documents))
    with open(out / "src/lib.rs", "a") as root:
        root.write(ROOT)
    print(f"{sum(it.count('#[test]') for it in modules)} tests, {len(documents)} documents with examples")


if __name__ == "__main__":
    sys.exit(main(*sys.argv[1:]))
