"""The suite as an archive of its own: vectors/ and the two pages that it links to. The same files make the same bytes."""

import gzip
import io
import os
import re
import tarfile

from suite import HERE

TOP = os.path.dirname(HERE)
PAGES = ("docs/FORMAT.md", "docs/CONFORMANCE.md")
ENDING = ".tar.gz"
# the time of each file: 1980-01-01, the first that every archive can hold
TIME = 315_532_800
# the page at the top of the archive
README = b"""Test files for readers of OpenStreetMap's PBF. They need Python 3.9 and nothing more. Begin with vectors/README.md, or try

    vectors/run.py reader --only way --batch -- vectors/adapters/reference_lines.py

which runs the suite's own reference over some of them. There is no licence yet.
"""
LINK = re.compile(r"\[([^\]]*)\]\(([^)#]+)(#[^)]*)?\)")


def suite_files() -> list:
    """The names of the files, from the folder above vectors/, in their order."""
    found = list(PAGES)
    for folder, folders, names in os.walk(HERE):
        folders[:] = [name for name in folders if name != "__pycache__" and not name.startswith(".")]
        found += [os.path.relpath(os.path.join(folder, name), TOP) for name in names if not name.startswith(".")]
    return sorted(found)


def within(page: str, text: str, names: set) -> str:
    """A page whose links lead to files of the archive or the web; a link to another file becomes its text."""

    def kept(found) -> str:
        target = found[2]
        file = os.path.normpath(os.path.join(os.path.dirname(page), target))
        is_there = target.startswith("http") or file in names or any(name.startswith(file + "/") for name in names)
        return found[0] if is_there else found[1]

    return LINK.sub(kept, text)


def content(name: str, names: set) -> bytes:
    with open(os.path.join(TOP, name), "rb") as file:
        data = file.read()
    return within(name, data.decode("utf-8"), names).encode() if name in PAGES else data


def archived(folder: str) -> bytes:
    """The archive's bytes; each file is below `folder`."""
    names = suite_files()
    contents = {"README": README, **{name: content(name, set(names)) for name in names}}
    packed = io.BytesIO()
    with gzip.GzipFile("", "wb", 9, packed, mtime=0) as stream, tarfile.open(fileobj=stream, mode="w", format=tarfile.USTAR_FORMAT) as archive:
        for name, data in contents.items():
            entry = tarfile.TarInfo(f"{folder}/{name}")
            entry.size, entry.mtime = len(data), TIME
            entry.mode = 0o755 if name in names and os.access(os.path.join(TOP, name), os.X_OK) else 0o644
            archive.addfile(entry, io.BytesIO(data))
    return packed.getvalue()


def run_archive(file: str) -> int:
    """Writes the archive, in whose folder everything is that bears the archive's name."""
    lacking = [name for name in PAGES if not os.path.exists(os.path.join(TOP, name))]
    if lacking:
        print(f"{lacking[0]} is not beside vectors/")
        return 2
    data = archived(os.path.basename(file)[: -len(ENDING)])
    with open(file, "wb") as out:
        out.write(data)
    return 0
