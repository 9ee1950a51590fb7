"""The extractor of the examples: a hostile archive writes nothing, an honest one all that is in it."""

import contextlib
import io
import os
import pathlib
import stat
import sys
import tarfile
import tempfile
import unittest
import zipfile

sys.path.insert(0, str(pathlib.Path(__file__).parents[1] / "examples"))
import extract_archive


def put_tar(path, members):
    """An archive of these members: a name with text, or None for a folder, or where a link leads."""
    with tarfile.open(path, "w") as archive:
        for name, content in members:
            member = tarfile.TarInfo(name)
            if content is None:
                member.type = tarfile.DIRTYPE
            elif content.startswith("-> "):
                member.type, member.linkname = tarfile.SYMTYPE, content[3:]
            else:
                member.size, member.mode = len(content.encode()), 0o755
            archive.addfile(member, io.BytesIO(content.encode()) if member.isfile() else None)


def put_zip(path, members):
    """The same. A folder is told by its name, and a link by its mode."""
    with zipfile.ZipFile(path, "w") as archive:
        for name, content in members:
            member = zipfile.ZipInfo(name if content is not None else f"{name}/")
            # ZipInfo turns no name on Unix; one that is written as it is here is read so.
            is_link = content is not None and content.startswith("-> ")
            member.external_attr = (stat.S_IFLNK | 0o777 if is_link else 0o755) << 16
            archive.writestr(member, content or "")


class Archives(unittest.TestCase):
    def extracted(self, members, *words):
        """The status, the tree that was written, and what was said, one for both sorts of archives."""
        found = []
        for put in (put_tar, put_zip):
            with tempfile.TemporaryDirectory() as room, contextlib.redirect_stderr(io.StringIO()) as said:
                os.mkdir(f"{room}/above")
                put(f"{room}/archive", members)
                status = extract_archive.main([*words, f"{room}/archive", f"{room}/above/out"])
                tree = {
                    str(it.relative_to(room)): it.read_text() if it.is_file() else None
                    for it in pathlib.Path(room).rglob("*") if it.name not in ("archive", "above")
                }
                self.assertTrue(all(os.access(it, os.X_OK) for it in pathlib.Path(room, "above").rglob("*")))
            found.append((status, tree, said.getvalue()))
        self.assertEqual(found[0][:2], found[1][:2])
        return found[0]

    def test_hostile(self):
        for name, refusal in [
            ("../x", "PathTraversalAttack"), ("a/../../x", "PathTraversalAttack"), ("/x", "UnexpectedRoot"),
        ]:
            status, tree, said = self.extracted([("a", None), (name, "x"), ("b", "y")])
            self.assertEqual((status, tree), (1, {}), name)
            self.assertIn(refusal, said)

    def test_hostile_on_other_systems(self):
        for name, refusal in [
            ("..\\x", "ForbiddenByte"), ("\\x", "ForbiddenByte"), ("C:\\x", "ForbiddenByte"), ("C:x", "ForbiddenByte"),
            ("//server/share", "UnexpectedRoot"), ("con.txt", "MayBeDevice"), ("a/NUL", "MayBeDevice"),
            ("nul ", "MayBeDevice"), ("a.", "BadEnding"), ("a/" + "b" * 256, "NameTooLong"),
        ]:
            status, tree, said = self.extracted([("b", "y"), (name, "x")], "--portable")
            self.assertEqual((status, tree), (1, {}), name)
            self.assertIn(refusal, said)

    def test_links(self):
        status, tree, said = self.extracted([("a", "-> /etc"), ("a/b", "x")])
        self.assertEqual((status, tree), (1, {}))
        self.assertIn("neither a file nor a folder", said)

    def test_honest(self):
        members = [
            ("a", None), ("a/b.txt", "text"), ("./c/d", "more"), ("e/../f", "f"), ("日", "日"), ("con.txt", "c"),
        ]
        status, tree, said = self.extracted(members)
        self.assertEqual((status, said), (0, ""))
        self.assertEqual(tree, {
            "above/out": None, "above/out/a": None, "above/out/a/b.txt": "text", "above/out/c": None,
            "above/out/c/d": "more", "above/out/f": "f", "above/out/日": "日", "above/out/con.txt": "c",
        })
        self.assertEqual(self.extracted(members[:-1], "--portable")[0], 0)

    def test_what_fails(self):
        self.assertEqual(self.extracted([("a", "x"), ("./a", "y")])[0], 2)
        with contextlib.redirect_stderr(io.StringIO()):
            self.assertEqual(extract_archive.main(["there is none", "out"]), 2)


if __name__ == "__main__":
    unittest.main()
