#!/usr/bin/env python3
"""Compares the calls that the header declares with those that the sources of the crate export: their names,
and the names and types of their parameters and results. A call with a dialect, or with a number that is to be
named, returns a status, so it has to bear the mark that it must be looked at, and no other call may.

exports.py HEADER SOURCES: prints a line for each difference, and then how many calls agree.
"""

import pathlib
import re
import sys

# What stands in the header for a type of the crate: the type, and for a slice that of its number of items and
# what that is named behind the slice.
PLAIN = {
    "u32": "uint32_t", "&mut usize": "size_t *", "&mut bool": "bool *", "&mut i32": "int32_t *",
    "&mut u64": "uint64_t *", "u64": "uint64_t", "usize": "size_t", "&mut Span": "typed_path_span *",
    "&mut Component": "typed_path_component *", "&mut Unread": "typed_path_reading *",
    "&mut Place": "typed_path_place *",
}
SLICES = {
    "&[u8]": ("const char *", "len"), "&mut [u8]": ("char *", "size"), "&[usize]": ("const size_t *", "count"),
    "&mut [usize]": ("size_t *", "count"), "&mut [u32]": ("uint32_t *", "count"),
    "&mut [Component]": ("typed_path_component *", "count"),
}
# What no crate exports: it is compiled by layout.sh.
OF_C = {"typed_path_runs_here"}
MARK = "TYPED_PATH_MUST_USE "
# The first parameter of a call that returns a status.
TAKEN_BY_STATUSES = [(it, "uint32_t") for it in ("dialect", "status", "kind")]
# These have the same fields on either side.
STRUCTS = {
    "typed_path_span": "Span", "typed_path_component": "Component", "typed_path_reading": "Unread",
    "typed_path_place": "Place",
}
# The struct that the library has.
LIBRARY = "typed_path/src/scan/unread.rt"


def declared(header):
    """The calls of the header: the result with its mark and the parameters of each, by its name."""
    text = re.sub(r"/\*.*?\*/", "", header, flags=re.DOTALL)
    calls = {}
    call = rf"^((?:{MARK})?\w+) (typed_path_\w+)\(([^)]*)\);"
    for result, name, parameters in re.findall(call, text, re.MULTILINE):
        words = [] if parameters == "void" else [" ".join(it.split()) for it in parameters.split(",")]
        parts = [re.fullmatch(r"(.*?)(\w+)", it) for it in words]
        calls[name] = result, [(it[2], it[1].strip()) for it in parts]
    return calls


def exported(sources):
    """The same of the crate, as the header has to declare it."""
    calls = {}
    for name, parameters, result in re.findall(
        r"#\[unsafe\(no_mangle\)\]\s*pub extern \"C\" fn (\w+)\(([^)]*)\)\s*->\s*(\w+)", sources
    ):
        wanted = []
        for parameter in filter(None, (it.strip() for it in parameters.split(","))):
            word, kind = re.fullmatch(r"(\w+): (.*)", parameter).groups()
            kind = re.sub(r"'\w+ ?|<'_>", "", kind)
            if kind in SLICES:
                pointer, behind = SLICES[kind]
                wanted += [(word, pointer), (f"{word}_{behind}", "size_t")]
            elif kind != "Global":
                wanted.append((word, PLAIN.get(kind, kind)))
        mark = MARK if wanted and wanted[0] in TAKEN_BY_STATUSES else ""
        calls[name] = mark + PLAIN.get(result, result), wanted
    return calls


def fields(text, pattern):
    found = re.search(pattern, text, re.DOTALL)
    return re.findall(r"(?:(?:pub )?(\w+): (?:usize|u32),|(?:size_t|uint32_t) (\w+);)", found[1]) if found else None


def main(header, folder):
    header = pathlib.Path(header).read_text()
    files = [*sorted(pathlib.Path(folder).glob("**/*.rt")), pathlib.Path(folder).resolve().parents[1] / LIBRARY]
    sources = "\n".join(it.read_text() for it in files)
    ours, theirs = {name: it for name, it in declared(header).items() if name not in OF_C}, exported(sources)
    wrong = 0
    for name in sorted({**ours, **theirs}):
        if ours.get(name) != theirs.get(name):
            print(f"{name}: the header has {ours.get(name)}, the crate {theirs.get(name)}")
            wrong += 1
    for name, of_crate in STRUCTS.items():
        one = fields(header, rf"typedef struct {name} \{{(.*?)\}} {name};")
        two = fields(sources, rf"#\[repr\(C\)\](?:\s*#\[[^\n]*\])*\s*pub struct {of_crate} \{{(.*?)\}}")
        if not one or not two or ["".join(it) for it in one] != ["".join(it) for it in two]:
            print(f"{name}: its fields are not those of the crate's {of_crate}")
            wrong += 1
    print(f"{len(ours) - wrong} of {len(ours)} calls agree")
    return wrong > 0 or not ours


if __name__ == "__main__":
    sys.exit(main(*sys.argv[1:]))
