#!/usr/bin/env python3
"""Times each call of the package beside pathlib, posixpath and ntpath, by turns: nanoseconds a call, the least of SWEEPS
sweeps over a thousand paths of a sort, which a seed makes. `it` is a path, `text` its text, `b` and `base` those of a
base, `like` and `onto` what pathlib makes of these, and `m` is posixpath or ntpath. All are objects already, and what
either side keeps once it was asked is kept. It stops where answers differ, and marks by `!` what is not as fast as the
fastest of Python's.

figures.py [SWEEPS [SORT]]: 100 sweeps, and of the sorts short and usual, the latter. bindings/figures.sh calls it with
the package over both backends: with the word `here` behind, it prints only the times of its own.
"""

import json
import ntpath
import os
import pathlib
import posixpath
import random
import sys
import timeit

import typed_path
from typed_path import UnixPath, WindowsPath, extract_names

WORDS = {
    "usual": "src lib.rs a test_data README.md images long-name-of-a-file.tar.gz".split(),
    "short": "a b.c lib src z".split(),
}
NAMES = {"usual": range(1, 7), "short": range(0, 2)}
# The sort of paths, what is asked here, and what of Python's own is asked for as much.
ROWS = [
    ("plain", "P(text)", "L(text)"),
    ("plain", "str(it)", "str(like)"),
    ("plain", "fspath(it)", "fspath(like)"),
    ("plain", "bytes(it)", "bytes(like)"),
    ("plain", "hash(it)", "hash(like)"),
    ("plain", "it == other", "like == another"),
    ("plain", "it < b", "like < onto"),
    ("plain", "it.name", "like.name", "m.basename(text)"),
    ("plain", "it.stem", "like.stem"),
    ("plain", "it.suffix", "like.suffix", "m.splitext(text)[1]"),
    ("plain", "it.suffixes", "like.suffixes"),
    ("plain", "it.parts", "like.parts"),
    ("plain", "P(text).parts", "L(text).parts"),
    ("plain", "it.parent", "like.parent", "m.dirname(text)"),
    ("plain", "it.parents", "tuple(like.parents)"),
    ("plain", "it.drive", "like.drive", "m.splitdrive(text)[0]"),
    ("plain", "it.root", "like.root"),
    ("plain", "it.anchor", "like.anchor"),
    ("plain", "it.is_absolute()", "like.is_absolute()", "m.isabs(text)"),
    ("plain", "it.as_posix()", "like.as_posix()"),
    ("names", "b / text", "onto / text", "m.join(base, text)"),
    ("names", "base / it", "base / like"),
    ("names", "b.joinpath(text, 'x')", "onto.joinpath(text, 'x')", "m.join(base, text, 'x')"),
    ("plain", "it.with_name('x.y')", "like.with_name('x.y')"),
    ("plain", "it.with_stem('x')", "like.with_stem('x')"),
    ("plain", "it.with_suffix('.x')", "like.with_suffix('.x')", "m.splitext(text)[0] + '.x'"),
    ("below", "it.relative_to(b)", "like.relative_to(onto)", "m.relpath(text, base)"),
    ("paths", "it.relative_to(b, walk_up=True)", "m.relpath(text, base)"),
    ("below", "it.is_relative_to(b)", "like.is_relative_to(onto)"),
    ("paths", "it.is_within(b)", "m.commonpath((base, text)) == base"),
    ("paths", "it.common_ancestor(b)", "m.commonpath((base, text))"),
    ("plain", "it.match('*.gz')", "like.match('*.gz')"),
    ("dotted", "it.normalize()", "m.normpath(text)"),
    ("dotted", "it.clean()", "m.normpath(text)"),
    ("absolute", "it.absolutize()", "m.abspath(text)"),
    ("names", "b.join_checked(text)", "m.join(base, text)"),
    ("names", "b.join_checked(text)", "checked(m, base, text)"),
    ("names", "b.join_portable(text)", "checked(m, base, text)"),
    ("names", "b.resolve_checked(text)", "checked(m, base, text)"),
    ("names", "t.join_checked(base, text)", "m.join(base, text)"),
    ("names", "t.join(base, text)", "m.join(base, text)"),
    ("dotted", "t.clean(text)", "m.normpath(text)"),
    ("plain", "t.is_absolute(text)", "m.isabs(text)"),
    ("names", "b.join_checked_batch(all)", "[m.join(base, text) for text in all]"),
    ("names", "b.join_checked_batch(all)", "[checked(m, base, text) for text in all]"),
    ("names", "extract_names(b, all)", "[onto / text for text in all]"),
    ("plain", "repr(it)", "repr(like)"),
]
# Rows whose answers are not compared: what is asked of Python does less, or tells it otherwise.
OTHERWISE = {"hash(it)", "bytes(it)", "b.join_checked_batch(all)", "extract_names(b, all)", "repr(it)", "it < b"}


def checked(m, base, text):
    made = m.join(base, text)
    return made if m.commonpath((base, m.normpath(made))) == base else None


def sorts_of(sort, sep, base):
    """A thousand paths of each sort: names, and paths with dots, below the base, beside it, or absolute."""
    chosen, words = random.Random(20261128), WORDS[sort]

    def paths(fronts, ends):
        def names():
            return "".join(chosen.choice(words) + chosen.choice(ends) for _ in range(chosen.choice(NAMES[sort])))

        return [(chosen.choice(fronts) + names() + chosen.choice(["z", "b.c"])).replace("/", sep) for _ in range(1000)]

    below = base.replace("\\", "/") + "/"
    return {
        "plain": paths(["", below], ["/"]), "names": paths([""], ["/"]), "below": paths([below], ["/"]),
        "dotted": paths(["a/b/"], ["/", "/./", "//", "/../x/"]), "paths": paths([below, below[:-5] + "image/"], ["/"]),
        "absolute": paths([below], ["/", "/./", "/../x/"]),
    }


def timers_of(sort):
    """For each row and dialect the timers of what is asked, how many calls each makes, and what is answered."""
    for kind, theirs, m, t, base in (
        (UnixPath, pathlib.PurePosixPath, posixpath, typed_path.unix, "/srv/www/data"),
        (WindowsPath, pathlib.PureWindowsPath, ntpath, typed_path.windows, r"C:\srv\www\data"),
    ):
        sorts = sorts_of(sort, m.sep, base)
        for at, (sort_of, *asked) in enumerate(ROWS):
            texts = sorts[sort_of]
            items = [(text, kind(text), kind(text), theirs(text), theirs(text)) for text in texts]
            given = {
                "P": kind, "L": theirs, "m": m, "t": t, "b": kind(base), "base": base, "onto": theirs(base),
                "all": texts, "items": items, "checked": checked, "fspath": os.fspath, "extract_names": extract_names,
            }
            for ask in asked:
                name = next((it for it in ("text", "other", "it", "another", "like") if it in words_of(ask)), None)
                many = "all" in words_of(ask)
                if {"it", "other"} <= words_of(ask) or {"like", "another"} <= words_of(ask):
                    names = "text, it, other, like, another"
                    loop = f"for {names} in items: {ask}"
                elif many:
                    loop = ask
                else:
                    column = ("text", "it", "other", "like", "another").index(name)
                    given[name + "s"] = [item[column] for item in items]
                    loop = f"for {name} in {name}s: {ask}"
                said = None
                if not many and asked[0] not in OTHERWISE:
                    said = eval(f"[({ask}) for text, it, other, like, another in items]", given)
                yield at, kind, ask, timeit.Timer(loop, globals=given), said


def words_of(ask):
    """The names in an expression."""
    return set("".join(it if it.isalnum() or it == "_" else " " for it in ask).split())


def plain(answer):
    """An answer as it is compared: paths by their texts, whatever separators these have."""
    if isinstance(answer, (tuple, list)):
        return [plain(it) for it in answer]
    return answer if isinstance(answer, bool) else str(answer).replace("\\", "/").rstrip("/") or "."


def main(sweeps="100", sort="usual", here=""):
    timed, least = [], {}
    first = {}
    for at, kind, ask, timer, said in timers_of(sort):
        if here and ask != ROWS[at][1]:
            continue
        if said is not None and first.setdefault((at, kind), said) is not said:
            wanted = [plain(it) for it in first[at, kind]]
            wrong = [it for it in zip(wanted, map(plain, said)) if it[0] != it[1]]
            if wrong:
                sys.exit(f"{ROWS[at]}: {wrong[0]}")
        timed.append(((at, kind, ask), timer))
    for _ in range(int(sweeps)):
        for key, timer in timed:
            least[key] = min(timer.timeit(1) * 1e6, least.get(key, 1e9))
    if here:
        print(json.dumps([[least.get((at, kind, row[1])) for kind in (UnixPath, WindowsPath)] for at, row in enumerate(ROWS)]))
        return
    over = json.loads(os.environ.get("OVER_CTYPES", "[]"))
    print("| Here | Unix | Windows | over `ctypes` | Python's | Unix | Windows |\n|---|---|---|---|---|---|---|")
    for at, (_, ours, *theirs) in enumerate(ROWS):
        mine = [least[at, kind, ours] for kind in (UnixPath, WindowsPath)]
        best = [min((least[at, kind, it], it) for it in theirs) for kind in (UnixPath, WindowsPath)]
        marks = ["!" if it > other[0] else "" for it, other in zip(mine, best)]
        by = "`, `".join(dict.fromkeys(it for _, it in best))
        print(
            f"| `{ours}` | {mine[0]:.0f}{marks[0]} | {mine[1]:.0f}{marks[1]} | "
            f"{over[at][0] if over else 0:.0f} | `{by}` | {best[0][0]:.0f} | {best[1][0]:.0f} |"
        )


if __name__ == "__main__":
    main(*sys.argv[1:])
