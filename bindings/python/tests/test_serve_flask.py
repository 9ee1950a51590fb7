"""The example over Flask: what it serves, and what it refuses, beside `safe_join` of werkzeug."""

import importlib.util
import pathlib
import sys
import tempfile
import unittest

sys.path.insert(0, str(pathlib.Path(__file__).parents[1] / "examples"))


@unittest.skipUnless(importlib.util.find_spec("flask"), "there is no flask")
class Served(unittest.TestCase):
    def test_names(self):
        import serve_flask
        from werkzeug.security import safe_join

        with tempfile.TemporaryDirectory() as room:
            folder = pathlib.Path(room, "files")
            folder.mkdir()
            (folder / "b").mkdir()
            (folder / "a.txt").write_text("one")
            (folder / "CON").write_text("a device elsewhere")
            pathlib.Path(room, "secret").write_text("secret")
            client = serve_flask.app_of(str(folder)).test_client()
            for name in ("a.txt", "./a.txt", "b/../a.txt", "b/..%2fa.txt"):
                with client.get(f"/files/{name}") as answer:
                    self.assertEqual((answer.status_code, answer.data), (200, b"one"), name)
            for name in (
                "none", "b", "../secret", "%2e%2e/secret", "b/..%2f../secret", "CON", "..%5csecret", "a.txt%00", "a.txt/",
            ):
                with client.get(f"/files/{name}") as answer:
                    self.assertEqual(answer.status_code, 404, name)
            for name in ("../secret", "/etc/passwd", "b/../../secret", "..", "a/../.."):
                self.assertIsNone(serve_flask.target(str(folder), name))
                self.assertIsNone(safe_join(str(folder), name))
            self.assertEqual(serve_flask.target(str(folder), "CON"), None)
            self.assertEqual(safe_join(str(folder), "CON"), f"{folder}/CON")
            self.assertEqual(serve_flask.target(str(folder), "a.txt"), safe_join(str(folder), "a.txt"))


if __name__ == "__main__":
    unittest.main()
