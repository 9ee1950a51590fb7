#!/usr/bin/env python3
"""Says twice a minute how far ./gate.sh is, until the gate ends.

It is given the file into which the gate copies what `rt ci` prints, counts there the lines that tell of
something done, and judges nothing.
"""

import os
import pathlib
import re
import sys
import time

TOP = pathlib.Path(__file__).resolve().parent
GATE = os.getppid()
PAUSE = 30

# How a line of `rt ci` begins that says what became of one of these. Tests that an earlier run proved have
# no line until they ran.
DONE = {
    "crates": r"rt: (\w+) (?:proved|NOT PROVED|is kept)",
    "crates' tests": r"rt: (\w+): its tests ",
    "must-fail edits": r"rt: must-fail (\S+): ",
    "programs": r"rt: (\w+) ran, ",
}


def planned():
    """What there is to do, by the names that `rt ci` gives it."""
    crates = re.findall(r"^(\w+)[^#:\n]*:", (TOP / "crates.txt").read_text(), re.MULTILINE)
    folders = [TOP / "crates" / crate for crate in crates]
    return {
        "crates": crates,
        "crates' tests": [it.name for it in folders if any("#[test]" in file.read_text() for file in it.glob("src/**/*.rt"))],
        "must-fail edits": [f"{it.name}/{edit.name}" for it in folders for edit in it.glob("must-fail/*.edit")],
        "programs": [it.name for it in folders if (it / "src/main.rt").is_file()],
    }


def last_noted():
    """How long the gate took when that was last noted."""
    table = (TOP / "docs/DEVELOPMENT.md").read_text().partition("\n## The time of the gate\n")[2]
    rows = re.findall(r"^\| ([\d-]+) \| [^|]* \| (\d[^|,]*)", table, re.MULTILINE)
    return "".join(f" (on {date} the gate took {took})" for date, took in rows[-1:])


def since(begun):
    return "{} min {} s".format(*divmod(int(time.time() - begun), 60))


def told(plan, log):
    """How much of the plan is done, and what `rt ci` said last."""
    said = log.read_text(errors="replace") if log.exists() else ""
    for what, names in plan.items():
        done = set(re.findall(f"^{DONE[what]}", said, re.MULTILINE)).intersection(names)
        yield f"{len(done)} of {len(names)} {what}"
    if lost := re.findall(r"^rt: .*NOT PROVED", said, re.MULTILINE):
        yield f"{len(lost)} NOT PROVED"
    if lines := re.findall(r"^rt: .*", said, re.MULTILINE):
        yield f"last, {since(log.stat().st_mtime)} ago, {lines[-1][:80]}"


def main(log):
    begun, plan, noted = time.time(), planned(), last_noted()
    while os.getppid() == GATE:
        print(f"gate.sh: {since(begun)}{noted}: {', '.join(told(plan, log))}", flush=True)
        time.sleep(PAUSE)


if __name__ == "__main__":
    main(pathlib.Path(sys.argv[1]))
