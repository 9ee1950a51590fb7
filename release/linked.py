#!/usr/bin/env python3
"""What the archive, the shared object and the program are made of, beside this repository: libraries of the kit, which
linked.tsv lists with their licences.

linked.py check                     says where the list has other libraries than the crates stand on, or other licences
                                    than the kit
linked.py licences [debian]         prints their licences, each text once, but for one that each Debian has
linked.py sbom BUILT ROOT FILE..    prints these files, which lie below ROOT, and what is in them as SPDX 2.3, in JSON;
                                    BUILT says of what they were built
"""

import datetime
import hashlib
import json
import os
import pathlib
import re
import shutil
import subprocess
import sys

HERE = pathlib.Path(__file__).resolve().parent
TOP = HERE.parent
# What is handed out is made of these crates, and of archives of the kit's folder c, which are C.
CRATES = ("typed_path_c", "typath")
OF_C = {"liblibc_c": "asks for memory by malloc, realloc and free", "libos_c": "asks the system; in the program alone"}
OURS = "MIT OR Apache-2.0"
LIBRARY = "typed-path"


def kit():
    """The folder of the kit, whose folder bin has rt."""
    command = shutil.which("rt") or sys.exit("linked.py: there is no rt, in whose kit the licences lie")
    return pathlib.Path(command).resolve().parent.parent


def listed():
    """The lines of the list."""
    for line in (HERE / "linked.tsv").read_text().splitlines():
        if not line.startswith("#"):
            name, after, licence, files = line.split("\t")
            yield name, after, licence, [] if files == "-" else files.split()


def stood_on():
    """The libraries of the kit on which the crates stand, by crates.txt and by what the kit says of each of its own."""
    lines = [it for it in (TOP / "crates.txt").read_text().splitlines() if it and not it.startswith("#")]
    own = {head.split()[0]: below.split() for head, below in (it.split(":") for it in lines)}
    met, left = set(), ["std", *CRATES]
    while left:
        name = left.pop()
        if name not in met:
            met.add(name)
            format_of = kit() / "rlibs" / f"{name}.rlib" / "format"
            left += own[name] if name in own else re.findall(r"^dep (\w+)$", format_of.read_text(), re.MULTILINE)
    return met - own.keys()


def wrong():
    """What there is to say of the list."""
    names = {name for name, *_ in listed()}
    yield from (f"linked.tsv does not have {it}, on which the crates stand" for it in sorted(stood_on() - names))
    yield from (f"linked.tsv has {it}, on which no crate stands" for it in sorted(names - stood_on()))
    for name, after, _, files in listed():
        folder = kit() / "rattle" / name
        there = sorted(it.name for it in folder.glob("LICENSE*"))
        if there != sorted(files):
            yield f"linked.tsv has the licences {files} of {name}, and the kit {there}"
        words = (folder / "README.md").read_text() if after != "-" else ""
        yield from (
            f"linked.tsv has {name} after {crate} {number}, and its page has no such crate"
            for crate, number in re.findall(r"(\S+) (\d\S*)", after) if f"`{crate}` {number}" not in words
        )


def licences(system=""):
    """The texts of the licences, each behind the names that it is of."""
    names_of = {}
    for name, _, _, files in listed():
        for file in files:
            text = (kit() / "rattle" / name / file).read_text().strip("\n")
            if system == "debian" and text.split()[:2] == ["Apache", "License"]:
                text = "The Apache License, version 2.0: /usr/share/common-licenses/Apache-2.0"
            names_of.setdefault(text, []).append(name)
    unsaid = ", ".join(name for name, _, _, files in listed() if not files)
    yield "The archive, the shared object and the program hold code of libraries of the kit of Rattle. Their licences:"
    for text, names in names_of.items():
        yield f"\n{'=' * 80}\n{', '.join(dict.fromkeys(names))}\n{'=' * 80}\n\n{text}"
    yield f"\n{'=' * 80}\n{unsaid}\n{'=' * 80}\n"
    yield "The kit has no text of a licence beside these libraries, nor beside its archives of C, liblibc_c.a and"
    yield "libos_c.a, so none is named here."


def sum_of(file, kind):
    return {"algorithm": kind.upper(), "checksumValue": hashlib.new(kind, file.read_bytes()).hexdigest()}


def package(name, version, licence, **more):
    return {
        "SPDXID": f"SPDXRef-{name.replace('_', '-')}", "name": name, "versionInfo": version, "filesAnalyzed": False,
        "downloadLocation": "NOASSERTION", "licenseConcluded": licence, "licenseDeclared": licence,
        "copyrightText": "NOASSERTION", **more,
    }


def sbom(built, root, files):
    """The document: this library, those of the kit, and the files that hold code of them."""
    def said(*command):
        return subprocess.run(command, cwd=TOP, capture_output=True, text=True, check=True).stdout.strip()

    header = (TOP / "bindings/c/include/typed_path.h").read_text()
    number = ".".join(re.findall(r"^#define TYPED_PATH_VERSION_(?:MAJOR|MINOR|PATCH) (\d+)$", header, re.MULTILINE))
    commit, kit_line = said("git", "rev-parse", "HEAD"), said("rt", "--version")
    seconds = int(os.environ.get("SOURCE_DATE_EPOCH") or said("git", "log", "-1", "--format=%ct"))
    created = datetime.datetime.fromtimestamp(seconds, datetime.timezone.utc).strftime("%Y-%m-%dT%H:%M:%SZ")
    copyright_line = (TOP / "LICENSE-MIT").read_text().split("\n")[0]
    packages = [package(LIBRARY, number, OURS, sourceInfo=f"built of {built}", copyrightText=copyright_line)]
    for name, after, licence, _ in listed():
        comment = "part of the kit" if after == "-" else f"part of the kit, after the Rust crate {after}"
        packages.append(package(name, kit_line.split()[0], licence, comment=comment))
    for name, what in OF_C.items():
        comment = f"c/{name}.a of the kit, of C, which is not proved: {what}"
        packages.append(package(name, kit_line.split()[0], "NOASSERTION", comment=comment))
    held = []
    for at, file in enumerate(map(pathlib.Path, files)):
        held.append({
            "SPDXID": f"SPDXRef-file-{at}", "fileName": f"./{file.relative_to(root)}", "fileTypes": ["BINARY"],
            "checksums": [sum_of(file, "sha1"), sum_of(file, "sha256")], "copyrightText": "NOASSERTION",
            "licenseConcluded": "NOASSERTION", "licenseInfoInFiles": ["NOASSERTION"],
        })
    related = []
    for file in held:
        related += [("SPDXRef-DOCUMENT", "DESCRIBES", file), (file["SPDXID"], "GENERATED_FROM", packages[0])]
        related += [
            (file["SPDXID"], "STATIC_LINK", it)
            for it in packages[1:] if it["name"] != "libos_c" or file["fileName"].endswith("/bin/typath")
        ]
    return {
        "spdxVersion": "SPDX-2.3", "dataLicense": "CC0-1.0", "SPDXID": "SPDXRef-DOCUMENT",
        "name": f"{LIBRARY}-{number}-x86_64-linux",
        "documentNamespace": f"https://typed-path.invalid/spdx/{number}/{commit}",
        "creationInfo": {"created": created, "creators": [f"Tool: linked.py-{number}"]},
        "comment": "STATIC_LINK names all libraries of the kit on which the crates of a file stand: the file holds what"
        " it calls of them, which may be nothing. NOASSERTION stands where the kit says nothing of a licence.",
        "packages": packages, "files": held,
        "relationships": [
            {"spdxElementId": one, "relationshipType": kind, "relatedSpdxElement": other["SPDXID"]}
            for one, kind, other in related
        ],
    }


def main(word="", *files):
    if word == "sbom" and len(files) > 2:
        print(json.dumps(sbom(files[0], files[1], files[2:]), indent=1))
        return 0
    if word == "licences" and files in [(), ("debian",)]:
        print(*licences(*files), sep="\n")
        return 0
    if word != "check" or files:
        print(f"linked.py: it takes check, licences or sbom, and was given: {word}", file=sys.stderr)
        return 2
    said = list(wrong())
    print("".join(f"{it}\n" for it in said), end="")
    return 1 if said else 0


if __name__ == "__main__":
    sys.exit(main(*sys.argv[1:]))
