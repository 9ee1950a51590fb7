#!/usr/bin/env python3
"""Runs the commands that the page of typath(1) shows, and compares what they print, and the replies that they keep.

shown.py TYPATH.1 FOLDER: FOLDER has the program. A command of a tool that is not there is named and left out, and so is
one that asks another machine.
"""

import os
import pathlib
import re
import shutil
import subprocess
import sys
import tempfile

LINES = "normalize\tunix\ta/../b\njoin_checked\tunix\t/srv\t..\n" * 1000
REPLIES = "ok\tb\nerr\tPathTraversalAttack\n" * 1000


def commands_of(page):
    """Each command that is shown, and the lines that it prints."""
    for block in re.findall(r"^\.Bd -literal.*\n((?:.*\n)*?)\.Ed$", page, re.MULTILINE):
        for shown in re.split(r"^\$ ", block.replace("\\e", "\\"), flags=re.MULTILINE)[1:]:
            command, _, printed = shown.partition("\n")
            yield command, printed


def lacking(command):
    """What the command needs and is not there."""
    if "ssh" in command:
        return "it asks another machine"
    tools = (it for it in re.findall(r"(?:^|\| )(\w+)", command) if it != "typath")
    return next((f"there is no `{it}`" for it in tools if not shutil.which(it)), None)


def main(page, folder):
    path = os.pathsep.join([str(pathlib.Path(folder).resolve()), os.environ["PATH"]])
    settings = {"env": {**os.environ, "PATH": path}, "capture_output": True, "text": True}
    wrong = ran = 0
    with tempfile.TemporaryDirectory() as room:
        lines, replies = pathlib.Path(room, "lines"), pathlib.Path(room, "replies")
        lines.write_text(LINES)
        for command, printed in commands_of(pathlib.Path(page).read_text()):
            if it := lacking(command):
                print(f"left out: {command}, since {it}")
                continue
            done = subprocess.run(["bash", "-o", "pipefail", "-c", command], cwd=room, **settings)
            kept = replies.read_text() if replies.exists() else ""
            if done.returncode or done.stdout != printed or kept != (REPLIES if "> replies" in command else ""):
                print(f"{command}: status {done.returncode}, and it printed:", done.stdout[:500], done.stderr[:500], sep="\n")
                wrong += 1
            ran += 1
            replies.unlink(missing_ok=True)
    return 1 if wrong or not ran else 0


if __name__ == "__main__":
    sys.exit(main(*sys.argv[1:]))
