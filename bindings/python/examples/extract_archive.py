#!/usr/bin/env python3
"""Extracts the files and folders of a tar or zip archive into a new folder, or refuses it and writes nothing.

`extractall(archive, folder)` stands in for the `extractall` of `tarfile` and `zipfile`, for archives that come from
outside. A member is refused if its name leads out of the folder, is absolute or not allowed, and if it is neither a
file nor a folder: no link is made, so no name leads through one. With --portable a name is refused, too, that some
system does not take as it is written, as devices of Windows, `a:b` and `a.`.

extract_archive.py [--portable] ARCHIVE FOLDER: the status is 0, 1 if the archive is refused, 2 if something failed.
"""

from __future__ import annotations

import argparse
import os
import shutil
import stat
import sys
import tarfile
import zipfile
from typing import IO, Iterator, NamedTuple, Sequence, Union

from typed_path import TypedPathError, UnixPath, extract_names

Archive = Union[tarfile.TarFile, zipfile.ZipFile]


class Refused(ValueError):
    """An archive was refused: each member that offends, and for what."""

    def __init__(self, members: Sequence[tuple[str, str]]) -> None:
        super().__init__("; ".join(f"{name!r}: {why}" for name, why in members))
        self.members = members


class Member(NamedTuple):
    """A member of an archive, by what both sorts tell of one. Its mode is 0 where none is told."""

    name: str
    mode: int
    is_folder: bool
    is_file: bool
    told: Union[tarfile.TarInfo, zipfile.ZipInfo]


def members_of(archive: Archive) -> Iterator[Member]:
    if isinstance(archive, tarfile.TarFile):
        for it in archive.getmembers():
            yield Member(it.name, it.mode, it.isdir(), it.isfile(), it)
    else:
        for told in archive.infolist():
            mode = told.external_attr >> 16
            yield Member(told.filename, mode, told.is_dir(), stat.S_IFMT(mode) in (0, stat.S_IFREG), told)


def opened(archive: Archive, member: Member) -> IO[bytes]:
    """What a member that is a file holds."""
    if isinstance(member.told, zipfile.ZipInfo):
        assert isinstance(archive, zipfile.ZipFile)
        return archive.open(member.told)
    assert isinstance(archive, tarfile.TarFile)
    source = archive.extractfile(member.told)
    assert source  # which a file has
    return source


def extractall(archive: Archive, folder: Union[str, "os.PathLike[str]"], *, portable: bool = False) -> None:
    """Writes the members of an archive into a folder that is made for it. Raises `Refused` before anything is
    written."""
    members = list(members_of(archive))
    targets, refused = extract_names(UnixPath(folder), [it.name for it in members], portable=portable)
    told = [(name, why.__name__) for name, why in refused]
    told += [(it.name, "neither a file nor a folder") for it in members if not it.is_folder and not it.is_file]
    if told:
        raise Refused(told)
    os.mkdir(folder)
    for member, (_, target) in zip(members, targets):
        target = target.clean()
        os.makedirs(target if member.is_folder else target.parent, exist_ok=True)
        if not member.is_folder:
            with opened(archive, member) as source, open(target, "xb") as copy:
                shutil.copyfileobj(source, copy)
                os.fchmod(copy.fileno(), (member.mode or 0o644) & 0o755 | 0o600)


def open_archive(path: str) -> Archive:
    return zipfile.ZipFile(path) if zipfile.is_zipfile(path) else tarfile.open(path)


def main(words: Sequence[str]) -> int:
    parser = argparse.ArgumentParser(description=__doc__.partition("\n")[0])
    parser.add_argument("--portable", action="store_true", help="refuse names that some system does not take, too")
    parser.add_argument("archive")
    parser.add_argument("folder")
    options = parser.parse_args(words)
    try:
        with open_archive(options.archive) as archive:
            extractall(archive, options.folder, portable=options.portable)
    except Refused as refusal:
        for name, why in refusal.members:
            print(f"{name!r}: {why}", file=sys.stderr)
        return 1
    except (OSError, tarfile.TarError, zipfile.BadZipFile, TypedPathError) as error:
        print(f"extract_archive.py: {error}", file=sys.stderr)
        return 2
    return 0


if __name__ == "__main__":
    sys.exit(main(sys.argv[1:]))
