#!/usr/bin/env python3
"""Compares the pages of the manual with what they speak of: typed_path(3) with the header, whose calls it has to
declare in the same order and whose constants it has to name, and typath(1) with what `typath --help` prints, whose
commands and reasons it has to have, and with what the program says on standard error.

manual.py HEADER TYPED_PATH.3 HELP WORDS TYPATH.1: prints a line for each difference. WORDS is the file of the program
that has what it says.
"""

import pathlib
import re
import sys

from exports import MARK, declared

CALL = re.compile(r'^\.Ft (.*)\n\.Fo (\w+)\n((?:\.Fa ".*"\n)+)\.Fc$', re.MULTILINE)
# The other numbers of the header, which are kinds of components and its version.
LEFT_OUT = re.compile("TYPED_PATH_(VERSION.*|H|MUST_USE|KIND_.*)")


def wrong_library(header, page):
    wanted = [
        (result.replace(MARK, ""), name, [" ".join([kind, word]).replace("* ", "*") for word, kind in parameters] or ["void"])
        for name, (result, parameters) in declared(header).items()
    ]
    there = [(result, name, re.findall('"(.*)"', given)) for result, name, given in CALL.findall(page)]
    yield from (f"typed_path(3) does not declare {it}" for it in wanted if it not in there)
    yield from (f"typed_path(3) declares {it}, and the header does not" for it in there if it not in wanted)
    if there != wanted:
        yield "typed_path(3) does not declare the calls of the header in its order"
    for name in re.findall(r"^#define (TYPED_PATH_\w+)", header, re.MULTILINE):
        if not LEFT_OUT.fullmatch(name) and not re.search(rf"\b{name}\b", page):
            yield f"typed_path(3) does not name {name}"


def wrong_program(text, page):
    commands = re.findall(r"^  (\w+) +((?:DIALECT |BASE )*PATH)  ", text, re.MULTILINE)
    reasons = re.findall(r"^  ([A-Z]\w+)  ", text, re.MULTILINE)
    wanted = [*(f"{name} Ar {words.lower()}" for name, words in commands), *reasons]
    there = re.findall(r"^\.It Cm (.*)$", page, re.MULTILINE)
    if not commands or not reasons or there != wanted:
        yield f"typath(1) has {there}, and the help {wanted}"


def wrong_messages(words, page):
    reasons = re.findall(r'LineError::\w+ => "(.*)"', words)
    usage = re.search(r'USAGE: &str =\s*"(.*)\\n"', words)[1]
    wanted = [*(f"typath: {it}" for it in reasons), usage]
    there = re.findall(r'^\.It "?(.*?)"?$', page[page.index(".Sh DIAGNOSTICS"):], re.MULTILINE)
    if len(reasons) < 3 or there != wanted:
        yield f"typath(1) has the messages {there}, and the program {wanted}"


def main(*files):
    header, library, text, words, program = (pathlib.Path(it).read_text() for it in files)
    wrong = [*wrong_library(header, library), *wrong_program(text, program), *wrong_messages(words, program)]
    print(*wrong, sep="\n")
    return bool(wrong)


if __name__ == "__main__":
    sys.exit(main(*sys.argv[1:]))
