#!/usr/bin/env python3
"""Compares what src/ffi.rs declares of the calls for C with the header: their names, parameters and results, the
fields of the structs, and the numbers of statuses and kinds.

declares.py HEADER FFI: prints a line for each difference, and then how many calls agree.
"""

import pathlib
import re
import sys

sys.path.insert(0, str(pathlib.Path(__file__).resolve().parents[2] / "c/tests"))
from exports import MARK, declared  # noqa: E402

# Calls that the crate may do without: it reads step by step, hashes by the hasher that it is handed, its errors print
# the texts of the statuses alone, and a checked join is a check and a push.
UNUSED = {
    "typed_path_components", "typed_path_component_at", "typed_path_hash", "typed_path_hash_keyed",
    "typed_path_kind_text", "typed_path_join_checked", "typed_path_join_portable", "typed_path_join_checked_batch",
    "typed_path_join_portable_batch",
}
STRUCTS = {
    "typed_path_span": "Span", "typed_path_component": "Placed", "typed_path_reading": "Reading",
    "typed_path_place": "Place",
}
PLAIN = {
    "char": "u8", "bool": "bool", "size_t": "usize", "int32_t": "i32", "uint32_t": "u32", "uint64_t": "u64", **STRUCTS,
}


def in_rust(kind):
    """A type of the header as Rust writes it."""
    const, plain, pointer = re.fullmatch(r"(const )?(\w+)( \*)?", kind).groups()
    return (("*const " if const else "*mut ") if pointer else "") + PLAIN[plain]


def of_rust(text):
    """The calls that a file of Rust declares, as `exports.declared` gives those of the header."""
    names = dict(re.findall(r"^type (\w+) = (.*);", text, re.MULTILINE))
    calls = {}
    for block in re.findall(r"^(?:unsafe )?extern \"C\" \{\n(.*?)^\}", text, re.MULTILINE | re.DOTALL):
        found = re.findall(r"\bfn (\w+)\(([^)]*)\) -> (\w+);", block)
        assert len(found) == len(re.findall(r"\bfn ", block)), "a declaration is not read"
        for name, parameters, result in found:
            parts = [it.strip().split(": ") for it in parameters.split(",") if it.strip()]
            calls[name] = result, [(word, names.get(kind, kind)) for word, kind in parts]
    return calls


def wrong_calls(header, ours):
    theirs = {
        name: (PLAIN[result.replace(MARK, "")], [(word, in_rust(kind)) for word, kind in parameters])
        for name, (result, parameters) in declared(header).items()
    }
    for name in sorted((ours.keys() | theirs.keys()) - (UNUSED - ours.keys())):
        if ours.get(name) != theirs.get(name):
            yield f"{name}: the header has {theirs.get(name)}, ffi.rs {ours.get(name)}"


def wrong_structs(header, ffi):
    for name, of_crate in STRUCTS.items():
        one = re.search(rf"typedef struct {name} \{{(.*?)\}} {name};", header, re.DOTALL)
        two = re.search(rf"#\[repr\(C\)\](?:\s*#\[.*\])*\s*(?:pub\S* )?struct {of_crate} \{{([^}}]*)\}}", ffi)
        of_header = one and [(word, PLAIN[kind]) for kind, word in re.findall(r"(\w+) (\w+);", one[1])]
        if not of_header or not two or of_header != re.findall(r"(\w+): (\w+),", two[1]):
            yield f"{name}: its fields are not those of {of_crate}"


def numbers(ffi):
    """The dialects, statuses and kinds of a file of Rust."""
    for name, number in re.findall(r"^pub(?:\(crate\))? const (UNIX|WINDOWS): u32 = (\d+);", ffi, re.MULTILINE):
        yield name, number
    for sort, body in re.findall(r"\bmod (status|kind) \{\n(.*?)^\}", ffi, re.MULTILINE | re.DOTALL):
        for name, number in re.findall(r"pub const (\w+): u32 = (\d+);", body):
            yield f"{sort.upper()}_{name}", number


def wrong_numbers(header, ours):
    theirs = re.findall(r"#define TYPED_PATH_(\w+) UINT32_C\((\d+)\)", header)
    theirs = {name.replace("KIND_PREFIX_", "KIND_"): number for name, number in theirs}
    for name, number in ours:
        if theirs.get(name) != number:
            yield f"{name} is {theirs.get(name)} in the header, {number} in ffi.rs"


def main(header, ffi):
    header, ffi = pathlib.Path(header).read_text(), pathlib.Path(ffi).read_text()
    calls, told = of_rust(ffi), list(numbers(ffi))
    wrong = [*wrong_calls(header, calls), *wrong_structs(header, ffi), *wrong_numbers(header, told)]
    print(*wrong, f"{len(calls)} calls and {len(told)} numbers, {len(wrong)} wrong", sep="\n")
    return bool(wrong) or not calls or not told


if __name__ == "__main__":
    sys.exit(main(*sys.argv[1:]))
