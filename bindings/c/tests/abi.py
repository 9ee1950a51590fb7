#!/usr/bin/env python3
"""What a program that was built relies on: the calls with their types, the constants, the bounds, and the layout of
each struct. A file lists it with the number that it stands under, abi.txt.

abi.py check [HEADER LIST]  says where the header has something else than the list, and which number that takes
abi.py note [HEADER LIST]   writes the list anew, if the header has the number that the change takes
abi.py since OLD [LIST]     says which number the changes since an older list take, if the list has a lesser one
abi.py one [HEADER TOP]     says where a crate, a package or a page has another number than the header

What is not named is what lies beside this file.

The number has three parts. What was there and is gone or differs raises the first part, or while that is 0 the
second; what is only new raises the part behind. Values and layouts are those of the compiler, `cc`.
"""

import pathlib
import re
import subprocess
import sys
import tempfile

from exports import MARK, declared

HERE = pathlib.Path(__file__).resolve().parent.parent
HEADER, LIST, TOP = HERE / "include/typed_path.h", HERE / "abi.txt", HERE.parent.parent
HEAD = """\
# What a program that was built relies on, under its number. tests/abi.py compares it with the header, and writes it.
"""
# The number is told by lines of its own, and the mark and the guard are nothing in a built program.
LEFT_OUT = re.compile("TYPED_PATH_(VERSION.*|H|MUST_USE)")


def number_of(header):
    parts = [re.search(rf"^#define TYPED_PATH_VERSION_{it} (\d+)$", header, re.MULTILINE) for it in ("MAJOR", "MINOR", "PATCH")]
    return ".".join(it[1] for it in parts)


def parts_of(number):
    return tuple(map(int, number.split(".")))


def shared_object(number):
    """Its name, which has the parts of the number that stay while a built program goes on."""
    first, second, _ = parts_of(number)
    return f"libtyped_path.so.{first or f'0.{second}'}"


def structs_of(header):
    """The types and names of the fields of each struct."""
    for fields, name in re.findall(r"^typedef struct \w+ \{(.*?)\} (\w+);", header, re.MULTILINE | re.DOTALL):
        found = re.findall(r"^\s*(\w+) (\w+);", fields, re.MULTILINE)
        if len(found) != fields.count(";"):
            sys.exit(f"{name}: a field is not one type of one word, and its name")
        yield name, found


def asked(header, questions):
    """What a program prints that a compiler makes of the header and of these lines."""
    with tempfile.TemporaryDirectory() as room:
        lines = [f'#include "{pathlib.Path(header).resolve()}"', "#include <stddef.h>", "#include <stdio.h>",
                 "int main(void) {", *questions, "return 0; }"]
        command = ["cc", "-std=c11", "-D_GNU_SOURCE", "-Wall", "-Werror", "-x", "c", "-", "-o", f"{room}/asked"]
        subprocess.run(command, input="\n".join(lines), text=True, check=True)
        return subprocess.run([f"{room}/asked"], capture_output=True, text=True, check=True).stdout.splitlines()


def listed(file):
    """What a header has: the lines of the list, without those of the number."""
    header = pathlib.Path(file).read_text()
    questions, bounds, calls = [], [], []
    whole_lines = re.sub(r"/\*.*?\*/", "", header, flags=re.DOTALL).replace("\\\n", " ")
    if len(re.findall(r"\btyped_path_\w+\(", whole_lines)) != len(declared(header)):
        sys.exit("a call of the header is not declared as the others are")
    for name, behind in re.findall(r"^#define (TYPED_PATH_\w+)(.*)", whole_lines, re.MULTILINE):
        if behind.startswith("("):
            bounds.append(f"bound {name}{' '.join(behind.split())}")
        elif not LEFT_OUT.fullmatch(name):
            kind = f'_Generic({name}, uint32_t: "uint32_t", size_t: "size_t")'
            questions.append(f'printf("constant %s {name} %lld\\n", {kind}, (long long){name});')
    for name, fields in structs_of(header):
        questions.append(f'printf("struct {name}:");')
        for kind, field in fields:
            questions.append(f'_Static_assert(__builtin_types_compatible_p(__typeof__((({name} *)0)->{field}), {kind}), "{field}");')
            questions.append(f'printf(" {kind} {field} at %zu,", offsetof({name}, {field}));')
        questions.append(f'printf(" %zu bytes, aligned to %zu\\n", sizeof({name}), _Alignof({name}));')
    for name, (result, parameters) in declared(header).items():
        result, kinds = result.replace(MARK, ""), ", ".join(kind for _, kind in parameters) or "void"
        questions.append(f'_Static_assert(__builtin_types_compatible_p(__typeof__({name}), {result}({kinds})), "{name}");')
        calls.append(f"call {result} {name}({kinds})")
    return [*asked(file, questions), *bounds, *calls]


def noted(file):
    """The number and the lines of a list."""
    lines = [it for it in pathlib.Path(file).read_text().splitlines() if it and not it.startswith("#")]
    number = next(it.removeprefix("number ") for it in lines if it.startswith("number "))
    return number, [it for it in lines if not it.startswith(("number ", "shared object "))]


def by_name(lines):
    found = ((re.match(r"(?:constant(?: \w+_t)?|struct|bound) (\w+)|call .*?(\w+)\(", it), it) for it in lines)
    return {name[1] or name[2]: it for name, it in found}


def changes(old, new):
    """What there is to say of two lists, and the least number that the second may have behind the first's."""
    (number, was), (_, now) = old, new
    was, now = by_name(was), by_name(now)
    lost = [f"{it} is gone: {was[it]}" for it in was if it not in now]
    other = [f"{it} was: {was[it]}\n    and is: {now[it]}" for it in was if it in now and was[it] != now[it]]
    more = [f"{it} is new: {now[it]}" for it in now if it not in was]
    first, second, third = parts_of(number)
    if lost or other:
        least = (first + 1, 0, 0) if first else (0, second + 1, 0)
    elif more:
        least = (first, second + 1, 0) if first else (0, second, third + 1)
    else:
        least = first, second, third
    return [*lost, *other, *more], least


def too_small(old, new):
    """What there is to say if the second list has no number that its changes take."""
    said, least = changes(old, new)
    if parts_of(new[0]) >= least:
        return []
    return [*said, f"the number is {new[0]}, and it has to be {'.'.join(map(str, least))} or more"]


def check(header=HEADER, file=LIST):
    text = pathlib.Path(header).read_text()
    old, new = noted(file), (number_of(text), listed(header))
    said = too_small(old, new)
    if not said and pathlib.Path(file).read_text() != written(new):
        said = [*changes(old, new)[0], f"{file} is not that of the header: tests/abi.py note writes it"]
    return said


def written(state):
    number, lines = state
    return f"{HEAD}number {number}\nshared object {shared_object(number)}\n" + "".join(f"{it}\n" for it in lines)


def note(header=HEADER, file=LIST):
    new = number_of(pathlib.Path(header).read_text()), listed(header)
    said = too_small(noted(file), new) if pathlib.Path(file).exists() else []
    if not said:
        pathlib.Path(file).write_text(written(new))
    return said


def since(old, file=LIST):
    return too_small(noted(old), noted(file))


def handed_out(number, top):
    """Where the number stands, or how much of it stays, in what is handed out beside the calls and their package."""
    kept, rust = re.escape(shared_object(number).partition(".so.")[2]), "bindings/rust/Cargo.toml"
    # The crate of Rust is one that a checkout may lack.
    if (pathlib.Path(top) / rust).exists():
        yield rust, rf'^version = "{re.escape(number)}"$'
    yield "crates/typath/src/words.rt", rf'^pub const VERSION: &str = "\\\ntypath {re.escape(number)},'
    yield "refusals/version", rf"^typath {re.escape(number)},"
    yield "README.md", rf"\./libtyped-path{kept}_"
    yield "README.md", rf"typed-path-proved-{re.escape(number)}\""
    for file in ("docs/C.md", "bindings/c/tests/app/CMakeLists.txt"):
        yield file, rf"find_package\(typed_path {kept} REQUIRED\)"


def one(header=HEADER, top=TOP):
    """The number stands in the crates, in the packages and on pages too."""
    number = number_of(pathlib.Path(header).read_text())
    first, second, third = parts_of(number)
    single, name = first * 10000 + second * 100 + third, re.escape(shared_object(number))
    package = "bindings/python/src/typed_path"
    for file, wanted in (
        ("crates/typed_path_c/src/lib.rt", rf"fn typed_path_version\(\) -> u32\s+ensures \{{ result ≡ {single} \}}"),
        (f"{package}/_errors.py", rf"^VERSION = {single}$"),
        (f"{package}/_library.py", rf'^NAME = "{name}"$'),
        ("bindings/python/wheel_of.py", rf'"{re.escape(number)}"'),
        ("bindings/python/wheel_of.py", rf'^SHARED = "{name}"$'),
        ("bindings/python/pyproject.toml", rf'^version = "{re.escape(number)}"$'),
        ("CHANGELOG.md", rf"^\*\*{re.escape(number)}\*\*"),
        ("docs/C.md", rf"`lib/{name}`"),
        *handed_out(number, top),
    ):
        if not re.search(wanted, (pathlib.Path(top) / file).read_text(), re.MULTILINE):
            yield f"{file} does not have the number {number} of the header, as: {wanted}"


def main(word="", *files):
    asks = {"check": check, "note": note, "since": since, "one": one}
    if word not in asks:
        print(f"abi.py: it takes {', '.join(asks)}, and was given: {word}", file=sys.stderr)
        return 2
    said = list(asks[word](*files))
    print(*said, sep="\n")
    return 1 if said else 0


if __name__ == "__main__":
    sys.exit(main(*sys.argv[1:]))
