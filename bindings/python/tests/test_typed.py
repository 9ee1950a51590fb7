"""Types are as they are told: `mypy --strict` takes the package, its examples and what a program relies on."""

import os
import pathlib
import shutil
import subprocess
import tempfile
import unittest

TOP = pathlib.Path(__file__).parents[1]

# What a program may rely on, and last what it may not write.
TYPED = """
import os
from typing import Tuple

from typed_path import CheckedPathError, TypedPath, UnixPath, WindowsPath, extract_names, unix, windows


class Tagged(UnixPath):
    tag: str = ""


path: UnixPath = "a" / UnixPath("b", b"c") / WindowsPath("d").to_unix()
tagged: Tagged = Tagged("a").joinpath("b").with_name("c").parent
above: Tuple[Tagged, ...] = tagged.parents
names: Tuple[str, ...] = path.parts
held: "os.PathLike[str]" = path
with open(path) as file:
    text: str = file.read()
for name, target in extract_names(path, ["a"], portable=True).targets:
    print(name, target)
size: int = tagged.join_checked_into(iter([b"a", b"b"]), bytearray(100)).size
plain: str = unix.join_checked("/srv", tagged)
raw: bytes = windows.clean(rb"C:\a")
shared: Tagged = tagged.common_ancestor("b").simplified()
try:
    path.join_checked("..")
except CheckedPathError as refusal:
    place: "int | None" = refusal.place
print(sorted([path, tagged]), {path: 1}, path < tagged)
path.tag = 1  # type: ignore[attr-defined]
path.name = "a"  # type: ignore[misc]
unix.clean(1)  # type: ignore[type-var]
"""


@unittest.skipUnless(shutil.which("mypy"), "there is no mypy")
class Typed(unittest.TestCase):
    def test_strictly(self):
        with tempfile.TemporaryDirectory() as room:
            program = pathlib.Path(room, "program.py")
            program.write_text(TYPED)
            words = ["mypy", "--strict", f"--cache-dir={room}", "-p", "typed_path", "--ignore-missing-imports"]
            env = {**os.environ, "MYPYPATH": str(TOP / "src")}
            for what in (words[:-1], [*words[:3], words[-1], *map(str, [*(TOP / "examples").glob("*.py"), program])]):
                done = subprocess.run(what, env=env, stdout=subprocess.PIPE, stderr=subprocess.STDOUT)
                self.assertEqual((done.returncode, done.stdout.decode()[:7]), (0, "Success"), done.stdout.decode())


if __name__ == "__main__":
    unittest.main()
