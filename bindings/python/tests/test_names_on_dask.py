"""The example over Dask: with a worker killed while it works, its files are those of one process."""

import contextlib
import importlib.util
import io
import os
import pathlib
import random
import signal
import subprocess
import sys
import tempfile
import time
import unittest

EXAMPLES = pathlib.Path(__file__).parents[1] / "examples"
sys.path.insert(0, str(EXAMPLES))
import names_on_dask

from typed_path import CheckedPathError, UnixPath

PIECES = ["a", "b/c", "../", "..", "/x", "con.txt", "C:", "\\", "日", "d.e", "f/../g", "long name", ""]


def put_names(path, count, end):
    chosen = random.Random(20261128)
    with open(path, "wb") as file:
        for _ in range(count):
            file.write("".join(chosen.choices(PIECES, k=chosen.randrange(1, 5))).encode() + end)


def tree(folder):
    return {it.name: it.read_bytes() for it in pathlib.Path(folder).iterdir()}


class Names(unittest.TestCase):
    """What the tests share."""

    def setUp(self):
        room = tempfile.TemporaryDirectory()
        self.addCleanup(room.cleanup)
        self.room = room.name
        self.names = f"{self.room}/names"

    def run_here(self, into, *words, base="/srv"):
        """The status, and what was said and written."""
        said, told = io.StringIO(), io.StringIO()
        with contextlib.redirect_stderr(said), contextlib.redirect_stdout(told):
            try:
                status = names_on_dask.main(["--here", "--base", base, "--into", f"{self.room}/{into}", *words])
            except SystemExit as ended:
                status = ended.code
        return status, said.getvalue(), told.getvalue()


class Here(Names):
    def test_each_name_is_answered_once(self):
        base = UnixPath("/srv")
        for end, words in ((b"\n", []), (b"\0", ["--nul"])):
            put_names(self.names, 300, end)
            targets, refusals = b"", b""
            for name in pathlib.Path(self.names).read_bytes().split(end)[:-1]:
                try:
                    targets += bytes(base.join_checked(name)) + end
                except CheckedPathError as refusal:
                    refusals += type(refusal).__name__.encode() + b"\t" + name + end
            for size in ("1", "50", "1000", "1000000"):
                into = f"{size} {len(words)}"
                status, _, told = self.run_here(into, *words, "--size", size, self.names)
                files = sorted(tree(f"{self.room}/{into}").items())
                self.assertEqual((status, told.split()[:4]), (0, ["300", "names", str(targets.count(end)), "targets"]))
                self.assertEqual(sum(map(int, told.split()[4::2])), refusals.count(end))
                self.assertEqual(b"".join(content for name, content in files if name.endswith(".targets")), targets)
                self.assertEqual(b"".join(content for name, content in files if name.endswith(".refusals")), refusals)

    def test_second_start_does_what_is_missing(self):
        put_names(self.names, 3000, b"\n")
        self.assertEqual(self.run_here("out", "--size", "1000", self.names)[0], 0)
        first, out = tree(f"{self.room}/out"), pathlib.Path(self.room, "out")
        for name in ("part-000003.counts", "part-000005.counts", "part-000005.targets"):
            (out / name).unlink()
        (out / "part-000005.targets.0.tmp").write_bytes(b"half")
        noted = {it.name: it.stat().st_ino for it in out.iterdir()}
        self.assertEqual(self.run_here("out", "--size", "1000", self.names)[0], 0)
        self.assertEqual(tree(out), first)
        there = [it for it in noted if (out / it).exists()]
        again = {it for it in there if (out / it).stat().st_ino != noted[it]}
        missing = {f"part-00000{at}.{it}" for at in (3, 5) for it in ("targets", "refusals")}
        self.assertLessEqual(again, {"words.json", *missing})

    def test_errors_are_named(self):
        put_names(self.names, 10, b"\n")
        for words, base, name in (
            ([f"{self.room}/none"], "/srv", "NoSuchFile"), (["--windows", self.names], "\\\\s", "BaseLosesPrefix"),
        ):
            status, said, _ = self.run_here("out", *words, base=base)
            self.assertEqual(status, 1)
            self.assertIn(name, said)
        self.assertEqual(self.run_here("out", self.names)[0], 0)
        status, said, _ = self.run_here("out", self.names, base="/other")
        self.assertEqual((status, "OtherWords" in said), (1, True))
        self.assertEqual(self.run_here("out")[0], 2)
        self.assertEqual(self.run_here("out", "--size", "0", self.names)[0], 2)
        self.assertEqual(self.run_here("out", "--help")[0], 0)


@unittest.skipUnless(importlib.util.find_spec("distributed"), "there is no distributed")
class There(Names):
    def test_a_worker_is_killed(self):
        import distributed

        put_names(self.names, 1_000_000, b"\n")
        words = ["--base", "/srv", "--size", "50000", self.names]
        self.assertEqual(self.run_here("here", *words[2:])[0], 0)
        out = pathlib.Path(self.room, "there")
        with distributed.LocalCluster(
            n_workers=2, threads_per_worker=1, dashboard_address=None, silence_logs=50
        ) as cluster, distributed.Client(cluster) as client:
            program = [sys.executable, str(EXAMPLES / "names_on_dask.py"), "--scheduler", cluster.scheduler_address]
            program = subprocess.Popen(
                [*program, "--into", str(out), *words], stdout=subprocess.DEVNULL, stderr=subprocess.PIPE
            )
            pids = client.run(os.getpid)
            while len(list(out.glob("*.counts"))) < 5 and program.poll() is None:
                time.sleep(0.01)
            os.kill(next(iter(pids.values())), signal.SIGKILL)
            done, said = len(list(out.glob("*.counts"))), program.communicate(timeout=100)[1]
        self.assertEqual(program.returncode, 0, said[-1000:])
        wanted = tree(f"{self.room}/here")
        self.assertLess(done, sum(it.endswith(".counts") for it in wanted))
        self.assertEqual(tree(out), wanted)


if __name__ == "__main__":
    unittest.main()
