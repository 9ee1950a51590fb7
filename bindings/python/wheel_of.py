#!/usr/bin/env python3
"""Builds the package over what bindings/c/build.sh laid out: in TYPED_PATH_DIR, or else in bindings/c/out.

With a C compiler and the headers of Python it is the module of C, linked with the archive: one for Python 3.8 and
later. Without them, or if TYPED_PATH_BACKEND is `ctypes`, it is the shared object, which the package calls by ctypes.
Both are for Linux on x86-64. No tag of a wheel says which processors it is for, so the build number does: those of
x86-64-v2. Nothing but Python is needed besides.

wheel_of.py FOLDER: puts the package into FOLDER/typed_path, for `PYTHONPATH`. `pip install` makes a wheel of it.
"""

import ast
import base64
import hashlib
import json
import os
import pathlib
import shutil
import subprocess
import sys
import sysconfig
import tempfile
import zipfile

HERE = pathlib.Path(__file__).resolve().parent
NAME, VERSION, BUILD = "typed_path", "0.2.1", "1_x86_64_v2"
TAGS = {"native": "cp38-abi3-linux_x86_64", "ctypes": "py3-none-linux_x86_64"}
SHARED = "libtyped_path.so.0.2"
MODULE = "_native.abi3.so"
METADATA = f"""Metadata-Version: 2.1
Name: typed-path
Version: {VERSION}
Summary: Paths of Unix and of Windows, read and written alike on every machine, by a proved library
Requires-Python: >=3.8
License: MIT OR Apache-2.0
Description-Content-Type: text/markdown

"""
WHEEL = "Wheel-Version: 1.0\nGenerator: wheel_of\nRoot-Is-Purelib: false\nTag: {}\nBuild: {}\n"
FLAGS = "-std=c11 -D_GNU_SOURCE -O2 -Wall -Wextra -Werror -fPIC -shared -fvisibility=hidden -ffunction-sections".split()
LINKED = ["-Wl,--gc-sections,--exclude-libs,ALL"]


def laid_out():
    """The folder that build.sh laid out."""
    folder = pathlib.Path(os.environ.get("TYPED_PATH_DIR", HERE.parent / "c" / "out"))
    if not (folder / "lib" / SHARED).exists():
        raise SystemExit(f"{folder} is none that bindings/c/build.sh laid out: TYPED_PATH_DIR names another")
    return folder


def backend():
    """What the package calls the library by."""
    headers = pathlib.Path(sysconfig.get_paths()["include"], "Python.h")
    found = "native" if shutil.which("cc") and headers.exists() else "ctypes"
    return os.environ.get("TYPED_PATH_BACKEND", found)


def text_of_c(text):
    """A literal of C."""
    return json.dumps(text, ensure_ascii=False).replace("\\/", "/").replace("?", "\\?")


def described():
    """The header docs.h: a name for each docstring of the types in __init__.py and _library.py, and of the calls in
    _texts.py. Python reads in the docstring of a call of C which words it takes."""
    lines = []
    for file, prefix in (("__init__.py", "DOC_"), ("_library.py", "DOC_"), ("_texts.py", "DOC_TEXT_")):
        for kind in ast.parse((HERE / "src" / NAME / file).read_text()).body:
            if isinstance(kind, ast.ClassDef) and ast.get_docstring(kind):
                lines.append((prefix + kind.name, ast.get_docstring(kind)))
                calls = (it for it in kind.body if isinstance(it, ast.FunctionDef) and ast.get_docstring(it))
                lines += [(prefix + it.name, taken(it, prefix) + ast.get_docstring(it)) for it in calls]
    return "".join(f"#define {name} {text_of_c(text)}\n" for name, text in lines)


def taken(call, prefix):
    """The words that a call takes, as a docstring of C tells them; nothing for a property."""
    if any(isinstance(it, ast.Name) and it.id == "property" for it in call.decorator_list):
        return ""
    texts, named = ([it.arg for it in some if it.arg != "self"] for some in (call.args.posonlyargs, call.args.args))
    words = ["$self" if prefix == "DOC_" else "$module", *texts, "/", *named]
    if call.args.vararg:
        words.append(f"*{call.args.vararg.arg}")
    elif call.args.kwonlyargs:
        words.append("*")
    words += [f"{it.arg}={ast.literal_eval(value)}" for it, value in zip(call.args.kwonlyargs, call.args.kw_defaults)]
    return f"{call.name}({', '.join(words)})\n--\n\n"


def compile_module(target):
    """Compiles the module of C, linked with the archive."""
    folder = laid_out()
    with tempfile.TemporaryDirectory() as room:
        pathlib.Path(room, "docs.h").write_text(described())
        headers = [f"-I{it}" for it in (room, folder / "include", sysconfig.get_paths()["include"])]
        words = ["cc", *FLAGS, *os.environ.get("CFLAGS", "").split(), *headers, HERE / "src" / "_native.c"]
        subprocess.run([*words, folder / "lib" / "libtyped_path.a", *LINKED, "-o", target], check=True)


def files(kind):
    """What stands in the package, by its name there."""
    for file in sorted((HERE / "src" / NAME).glob("*.py*")):
        if file.is_file():
            yield file.name, file.read_bytes()
    yield "py.typed", b""
    if kind == "ctypes":
        yield SHARED, (laid_out() / "lib" / SHARED).read_bytes()
    else:
        with tempfile.TemporaryDirectory() as room:
            compile_module(pathlib.Path(room, MODULE))
            yield MODULE, pathlib.Path(room, MODULE).read_bytes()


def build_wheel(wheel_directory, config_settings=None, metadata_directory=None):
    kind = backend()
    about, tag = f"{NAME}-{VERSION}.dist-info", TAGS[kind]
    name, lines = f"{NAME}-{VERSION}-{BUILD}-{tag}.whl", []
    inside = {f"{NAME}/{file}": content for file, content in files(kind)}
    for licence in ("LICENSE-MIT", "LICENSE-APACHE"):
        inside[f"{about}/{licence}"] = (HERE.parents[1] / licence).read_bytes()
    inside[f"{about}/METADATA"] = (METADATA + (HERE / "README.md").read_text()).encode()
    inside[f"{about}/WHEEL"] = WHEEL.format(tag, BUILD).encode()
    with zipfile.ZipFile(pathlib.Path(wheel_directory) / name, "w", zipfile.ZIP_DEFLATED) as wheel:
        for path, content in inside.items():
            digest = base64.urlsafe_b64encode(hashlib.sha256(content).digest()).decode().rstrip("=")
            lines.append(f"{path},sha256={digest},{len(content)}\n")
            # The time is fixed, so that the same files are the same wheel.
            wheel.writestr(zipfile.ZipInfo(path, (1980, 1, 1, 0, 0, 0)), content, zipfile.ZIP_DEFLATED)
        record = f"{about}/RECORD"
        wheel.writestr(zipfile.ZipInfo(record, (1980, 1, 1, 0, 0, 0)), "".join(lines) + f"{record},,\n")
    return name


def build_sdist(sdist_directory, config_settings=None):
    raise SystemExit("there is no source distribution: the library is built by bindings/c/build.sh")


if __name__ == "__main__":
    if len(sys.argv) != 2 or sys.argv[1].startswith("-"):
        raise SystemExit(__doc__)
    into = pathlib.Path(sys.argv[1], NAME)
    into.mkdir(parents=True, exist_ok=True)
    for file, content in files(backend()):
        (into / file).write_bytes(content)
