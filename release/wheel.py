#!/usr/bin/env python3
"""Builds the wheel of bindings/python by its own backend, and puts into it the licences of what is linked in.

wheel.py LAID OUT
"""

import base64
import hashlib
import os
import pathlib
import sys
import zipfile

import linked

PACKAGE = linked.TOP / "bindings/python"


def built(laid, out):
    """The wheel as its backend builds it, of what was laid out."""
    os.environ.update(TYPED_PATH_DIR=laid, TYPED_PATH_LIBRARY=f"{laid}/lib/libtyped_path.so", CFLAGS="-s")
    os.chdir(PACKAGE)
    sys.path.insert(0, str(PACKAGE))
    import wheel_of

    return pathlib.Path(out, wheel_of.build_wheel(out))


def add(wheel, name, content):
    """Puts a file beside the licences that the wheel has, and into its record."""
    with zipfile.ZipFile(wheel) as old:
        inside = {it.filename: old.read(it) for it in old.infolist()}
    record = next(it for it in inside if it.endswith(".dist-info/RECORD"))
    name, digest = f"{pathlib.PurePosixPath(record).parent}/{name}", hashlib.sha256(content).digest()
    line = f"{name},sha256={base64.urlsafe_b64encode(digest).decode().rstrip('=')},{len(content)}\n"
    inside = {name: content, **inside, record: line.encode() + inside[record]}
    with zipfile.ZipFile(wheel, "w", zipfile.ZIP_DEFLATED) as new:
        for path, text in inside.items():
            # The time is fixed, so that the same files are the same wheel.
            new.writestr(zipfile.ZipInfo(path, (1980, 1, 1, 0, 0, 0)), text, zipfile.ZIP_DEFLATED)


def main(laid, out):
    licences = "\n".join([*linked.licences(), ""])
    add(built(os.path.abspath(laid), os.path.abspath(out)), "LICENSES-LINKED", licences.encode())


if __name__ == "__main__":
    if len(sys.argv) != 3:
        raise SystemExit(__doc__)
    main(*sys.argv[1:])
