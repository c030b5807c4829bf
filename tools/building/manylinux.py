#!/usr/bin/env python3
"""tools/building/manylinux.py WHEEL FOLDER

Writes a wheel to FOLDER under the oldest tag `manylinux_2_N_x86_64` that its shared libraries allow, and prints its place: they
ask for no library but those that each Linux has by the rules of that tag, and for no version of the C library's symbols that is
newer."""
import base64
import hashlib
import sys
import tempfile
import zipfile
from pathlib import Path

sys.path.insert(0, str(Path(__file__).resolve().parent.parent))
from building import elf

# what a tag of this kind promises to be there, as far as C and C++ go
LIBRARIES = set("libc.so.6 libm.so.6 libdl.so.2 librt.so.1 libpthread.so.0 libgcc_s.so.1 libstdc++.so.6 ld-linux-x86-64.so.2".split())
# the versions of the C library that have a tag of their own, the older names of the first ones, and what else they have
TAGS = [(2, 5), (2, 12), (2, 17), (2, 24), (2, 27), (2, 28), (2, 31), (2, 34), (2, 35), (2, 39)]
OLD_NAMES = {(2, 5): "manylinux1", (2, 12): "manylinux2010", (2, 17): "manylinux2014"}
OTHERS = {"GCC": (4, 8), "CXXABI": (1, 3, 7), "GLIBCXX": (3, 4, 19)}


class Refused(Exception):
    """Why a wheel has no such tag."""


def version_wanted(library):
    """The version of the C library that a shared library asks for."""
    read = elf.read(library)
    foreign = sorted({*read.needed()} - LIBRARIES)
    if foreign:
        raise Refused(f"{library.name} needs {', '.join(foreign)}, which not each Linux has")
    wanted = (2, 0)
    for _, _, _, version in read.versions():
        kind, number = version.rpartition("_")[0], elf.number_of(version)
        if kind == "GLIBC":
            wanted = max(wanted, number[:2])
        elif kind not in OTHERS or number > OTHERS[kind]:
            raise Refused(f"{library.name} asks for {version}")
    return wanted


def tag_for(version):
    """The oldest tag with this version of the C library."""
    found = next((tag for tag in TAGS if tag >= version), None)
    if found is None:
        raise Refused(f"the version {version[0]}.{version[1]} of the C library has no tag yet")
    new = f"manylinux_{found[0]}_{found[1]}_x86_64"
    return f"{new}.{OLD_NAMES[found]}_x86_64" if found in OLD_NAMES else new


def with_tags(text, platforms):
    """The lines of a wheel's file WHEEL with other tags of platforms."""
    lines = []
    for line in text.splitlines():
        if not line.startswith("Tag: "):
            lines.append(line)
            continue
        front = line.rpartition("-")[0]
        lines += [f"{front}-{platform}" for platform in platforms.split(".")]
    return "\n".join(lines) + "\n"


def row_of(name, data):
    digest = base64.urlsafe_b64encode(hashlib.sha256(data).digest()).rstrip(b"=").decode()
    return f"{name},sha256={digest},{len(data)}"


def retagged(wheel, folder):
    """Writes the wheel under its new tag; answers where."""
    with zipfile.ZipFile(wheel) as old, tempfile.TemporaryDirectory() as room:
        libraries = [name for name in old.namelist() if name.endswith(".so") or ".so." in name]
        if not libraries:
            raise Refused(f"{wheel.name} holds no shared library")
        platforms = tag_for(max(version_wanted(Path(old.extract(name, room))) for name in libraries))
        new = folder / f"{wheel.name.rpartition('-')[0]}-{platforms}.whl"
        rows = []
        with zipfile.ZipFile(new, "w", zipfile.ZIP_DEFLATED) as out:
            for item in old.infolist():
                data = old.read(item)
                if item.filename.endswith(".dist-info/RECORD"):
                    record = item
                    continue
                if item.filename.endswith(".dist-info/WHEEL"):
                    data = with_tags(data.decode(), platforms).encode()
                rows.append(row_of(item.filename, data))
                out.writestr(item, data)
            out.writestr(record, "\n".join([*rows, f"{record.filename},,"]) + "\n")
    return new


def main(words):
    if words == ["--help"] or len(words) != 2:
        print(__doc__)
        return 0 if words == ["--help"] else 2
    try:
        print(retagged(Path(words[0]), Path(words[1])))
    except (Refused, elf.NoElf) as refused:
        print(refused, file=sys.stderr)
        return 1
    return 0


if __name__ == "__main__":
    sys.exit(main(sys.argv[1:]))
