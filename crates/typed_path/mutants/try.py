#!/usr/bin/env python3
"""Tries wrong bodies of a crate: `rt check` has to refuse each.

Without names it tries all the edits in the crate's folder `mutants`. They are tried in N temporary copies of the
repository at once, in each copy one after the other, over what earlier checks kept in out/. The
modules that an edit changes are checked first, and the whole crate only where these do not refuse it.
The repository itself is not changed.

In a file of edits, each begins with a line `edit: NAME`, and what stands before the first is for
readers. A file with no such line holds one edit, which is called by the file.

Exit status: 0 where all were refused, 1 where one was not, 2 where not all could be tried.
"""

import argparse
import collections
import pathlib
import queue
import re
import shutil
import subprocess
import sys
import tempfile
import threading
import time

TOP = pathlib.Path(__file__).resolve().parents[3]

REFUSED, NOT_APPLIED = "refused", "NOT APPLIED"
OUTCOMES = {
    REFUSED: "",
    "PROVED": "a contract to strengthen",
    "NOT READ": "it did not reach the prover",
    NOT_APPLIED: "an old text does not stand once in its file",
}

Edit = collections.namedtuple("Edit", "name text")


def edits_in(path):
    """The edits of a file, or of all files of a folder."""
    if path.is_dir():
        return [edit for file in sorted(path.glob("*.edit")) for edit in edits_in(file)]
    text = path.read_text()
    _, *parts = re.split(r"^edit:", text, flags=re.MULTILINE)
    named = [part.partition("\n") for part in parts]
    return [Edit(name.strip(), rest) for name, _, rest in named] or [Edit(path.stem, text)]


def edited(edit, crate):
    """The texts that an edit makes of the crate's files, by their paths, or what hinders it."""
    path, old, texts = None, None, {}
    for line in edit.text.split("\n"):
        word, _, text = line.partition(":")
        text = text.removeprefix(" ")
        if word == "file":
            path = crate / text.strip()
        elif word == "old":
            old = text
        elif word == "new":
            if not old or path is None or not path.is_file():
                return {}, "a new text with no old one, or with no file"
            made = texts.get(path) or path.read_text()
            if made.count(old) != 1:
                return {}, f"{made.count(old)} times in {path.relative_to(crate)}: {old.strip()}"
            texts[path], old = made.replace(old, text), None
    return texts, "" if texts else "no pair of texts"


def check(crate, *words):
    """The exit status of a check, and what it said."""
    ran = subprocess.run(["rt", "check", *words], cwd=crate, stdin=subprocess.DEVNULL, stdout=subprocess.PIPE, stderr=subprocess.STDOUT, text=True)
    return ran.returncode, ran.stdout


def module_of(path, crate):
    """The module that a file of the crate holds, as `rt check --only` calls it."""
    return "::".join(path.relative_to(crate / "src").with_suffix("").parts)


def tried(paths, crate):
    """The outcome of a check of the crate with edited files, why, and what the check said."""
    for path in paths:
        status, said = check(crate, "--only", module_of(path, crate))
        # a check that stops at an error of the code does not count what it proved
        counted = re.search(r"^only=(\d+) proved=(\d+)", said, re.MULTILINE)
        if status == 1 and counted and int(counted[2]) < int(counted[1]):
            return REFUSED, "", said
    status, said = check(crate)
    if status == 0:
        return "PROVED", "", said
    if status == 1 and "\nlogic=not-proved" in said:
        return REFUSED, "", said
    return "NOT READ", next((line for line in said.split("\n") if ": error" in line), f"exit status {status}"), said


def judged(edit, crate, logs):
    """What a check says of a copy of the crate with the edit, and why. The copy is as before then."""
    texts, hindrance = edited(edit, crate)
    if hindrance:
        return NOT_APPLIED, hindrance
    kept = {path: path.read_text() for path in texts}
    for path, text in texts.items():
        path.write_text(text)
    outcome, why, said = tried(texts, crate)
    for path, text in kept.items():
        path.write_text(text)
    if logs:
        (logs / f"{edit.name}.txt").write_text(said)
    return outcome, why


def work(copy, name, edits, outcomes, logs):
    """Tries edits of a crate in one copy of the repository until none is left."""
    shutil.copytree(TOP, copy, ignore=shutil.ignore_patterns(".git"), symlinks=True)
    crate = copy / "crates" / name
    if check(crate)[0] != 0:
        print("the crate is not proved with no edit: see rt check", flush=True)
        return
    while True:
        try:
            edit = edits.get_nowait()
        except queue.Empty:
            return
        outcomes[edit], why = judged(edit, crate, logs)
        print(f"{edit.name}: {outcomes[edit]}{', ' if why else ''}{why}", flush=True)


def listed(edits, crate):
    """Names the edits, and what hinders each that cannot be applied; 2 where there is such a one."""
    whys = [edited(edit, crate)[1] for edit in edits]
    for edit, why in zip(edits, whys):
        print(f"{edit.name}: {NOT_APPLIED}, {why}" if why else edit.name)
    return 2 if any(whys) else 0


def main():
    words = argparse.ArgumentParser(description=__doc__, formatter_class=argparse.RawDescriptionHelpFormatter)
    words.add_argument("--crate", default="typed_path", metavar="NAME", help="the crate: typed_path where it is left out")
    words.add_argument("--jobs", type=int, default=2, metavar="N", help="how many copies: 2 where it is left out")
    words.add_argument("--logs", type=pathlib.Path, metavar="FOLDER", help="keep what each check said in FOLDER/NAME.txt")
    words.add_argument("--list", action="store_true", help="name the edits, and those that cannot be applied, and try none")
    words.add_argument("names", nargs="*", help="edits of the crate, files of edits, or folders of such files")
    given = words.parse_args()
    crate = TOP / "crates" / given.crate
    mutants = crate / "mutants"
    if not mutants.is_dir():
        words.error(f"no wrong bodies of {given.crate}")
    if given.logs:
        given.logs.mkdir(parents=True, exist_ok=True)
    beside = {edit.name: [edit] for edit in edits_in(mutants)}
    names = given.names or [mutants]
    found = {name: beside.get(name) or (edits_in(pathlib.Path(name)) if pathlib.Path(name).exists() else []) for name in names}
    if lost := [str(name) for name in found if not found[name]]:
        words.error(f"no such edit: {', '.join(lost)}")
    named = list(dict.fromkeys(edit for name in found for edit in found[name]))
    if twice := sorted(name for name, times in collections.Counter(edit.name for edit in named).items() if times > 1):
        words.error(f"several edits of one name: {', '.join(twice)}")
    if given.list:
        return listed(named, crate)
    edits, outcomes, begun = queue.Queue(), {}, time.time()
    for edit in named:
        edits.put(edit)
    with tempfile.TemporaryDirectory(prefix="mutants-") as room:
        copies = [pathlib.Path(room, str(n)) for n in range(min(given.jobs, len(named)))]
        threads = [threading.Thread(target=work, args=(copy, given.crate, edits, outcomes, given.logs)) for copy in copies]
        for thread in threads:
            thread.start()
        for thread in threads:
            thread.join()
    print(f"{len(outcomes)} of {len(named)} edits tried in {time.time() - begun:.0f} s")
    for outcome, meaning in OUTCOMES.items():
        found = sorted(edit.name for edit, it in outcomes.items() if it == outcome)
        print(f"{len(found)} {outcome}{': ' if meaning else ''}{meaning}")
        if outcome != REFUSED:
            print("".join(f"  {name}\n" for name in found), end="")
    if len(outcomes) < len(named):
        return 2
    return 0 if set(outcomes.values()) <= {REFUSED} else 1


if __name__ == "__main__":
    sys.exit(main())
