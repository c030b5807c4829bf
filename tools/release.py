#!/usr/bin/env python3
"""tools/release.py [--not-proved] FOLDER

Makes an archive of what tools/build.py --proved built, FOLDER/vantulig-VERSION-linux-x86_64.tar.gz: programs, library, headers,
wheel, the page in the browser, examples, cases that try the programs, manual pages, completions, a script that installs them,
checksums, and which proof they come from (kit, commit, sums). It runs with the C library glibc from version 2.31 on, Debian 11,
with nothing of the kit. A checkout with changes that are not committed is refused, and so is what isn't known to be proved, or
was changed since.

With --not-proved it packs what tools/build.py --fast built. Then the archive, its folder and its list are named `not-proved`,
and say so: it is for trying the archive out, and for nobody else.

The programs are the proved ones but for entries of their tables, by which older versions of the C library serve them too, and for
some instructions behind their own, in the place of a call that these don't have."""
import gzip
import hashlib
import io
import os
import re
import shutil
import subprocess
import sys
import tarfile
import tempfile
from pathlib import Path

from building import elf
import install
from building import lowering
from building import manylinux
import try_cases

TOP = lowering.TOP
NEWEST = (2, 31)
# these have been the same since the first version of this platform; those of threads stood in a library of their own
THREADS = "pthread_create pthread_join pthread_detach pthread_attr_setguardsize".split()
SAME = {"__libc_start_main": None, **dict.fromkeys(THREADS, "libpthread.so.0")}
FIRST = "GLIBC_2.2.5"
# By this call of the C library from 2.33 on a program asks at its start, for the leaf 1 (by 0) and 0x80000001 (by 2), whether the
# processor has what it needs. Here it is: it runs `cpuid`, and answers where all of that is there a row of ones, else of zeros.
LEAF = "__x86_get_cpuid_feature_leaf"
ASKED = """f30f1efa 53 b801000000 bb01229800 85ff 740a b801000080 bb01000000 53 0fa2 5b 21d9 39d9 488d0514000000 7407
    488d052b000000 5b c3 660f1f840000000000"""
ANSWER = bytes.fromhex(ASKED) + bytes([255]) * 32 + bytes(32)
EXAMPLES = ["two_stages", "four_arms"]
SUM = re.compile(r"^([0-9a-f]{64})  (.+)$", re.MULTILINE)
README = TOP / "docs" / "archive.md"


class Refused(Exception):
    """Why there is no archive."""


def sum_of(data):
    return hashlib.sha256(data).hexdigest()


def for_older(program):
    """The bytes of a program that runs with the C library of version 2.31 too."""
    read = elf.read(program)
    versions = {version for _, _, _, version in read.versions() if version.startswith("GLIBC_")}
    newer = {version for version in versions if elf.number_of(version) > NEWEST}
    symbols = [symbol for symbol, version in read.asked().items() if version in newer]
    unknown = sorted(symbol for symbol in symbols if symbol not in (*SAME, LEAF))
    if unknown:
        raise Refused(f"{program.name} asks for {', '.join(unknown)} of a newer C library: build it by tools/build.py --fast or --proved")
    for version in newer:
        read.ask_for_older(version, FIRST)
    if "__libc_start_main" in symbols:
        read.start_by_loader()
    if LEAF in symbols:
        read.answer(LEAF, ANSWER)
    for library in sorted({SAME.get(symbol) for symbol in symbols} - {None, *read.needed()}):
        read.need(library)
    return bytes(read.data)


def listed(folder, is_proved):
    """What the list of a build says: its lines that aren't sums, and the sums by place."""
    file = folder / ("checksums.txt" if is_proved else "NOT-PROVED")
    if not file.is_file():
        how = "tools/build.py --proved" if is_proved else "tools/build.py --fast"
        raise Refused(f"{folder} has no list of what was built: {how}")
    text = file.read_text(encoding="utf-8")
    return [line for line in text.splitlines() if line.startswith("# ")], {place: sum for sum, place in SUM.findall(text)}


def why_not(folder, is_proved):
    """All reasons against an archive."""
    head, sums = listed(folder, is_proved)
    wanted = [f"bin/{name}" for name in install.PROGRAMS] + ["lib/libjunction.a", "include/junction.h"]
    reasons = [f"{place} isn't built" for place in wanted if place not in sums]
    same = lambda place: (folder / place).is_file() and sum_of((folder / place).read_bytes()) == sums[place]
    reasons += [f"{place} isn't what was built" for place in sums if not same(place)]
    reasons += [] if any(place.endswith(".whl") for place in sums) else ["the wheel isn't built"]
    if is_proved:
        origins = dict(re.findall(r"^# (\S+): (.*)$", "\n".join(head), re.MULTILINE))
        unknown = [place for place in wanted[:-1] if origins.get(place, install.UNKNOWN) == install.UNKNOWN]
        reasons += [f"{place} isn't known to come from a proof" for place in unknown]
        if head[:2] != install.where_from():
            reasons.append(f"it was built of another state than the checkout has: {head[:2]} and {install.where_from()}")
        if "with changes" in head[0] or "unknown" in head[0]:
            reasons.append("the checkout has changes that are not committed, or is no clone")
    return reasons


def copied(folder, room, is_proved):
    """Lays out the archive's folder."""
    for part in ("lib", "include"):
        shutil.copytree(folder / part, room / part, symlinks=True)
    config = room / "lib" / "pkgconfig" / "junction.pc"
    text = re.sub(r"^prefix=.*$", "prefix=${pcfiledir}/../..", config.read_text(encoding="utf-8"), flags=re.MULTILINE)
    config.write_text(re.sub(r"-I\S+", "-I${prefix}/include", text), encoding="utf-8")
    (room / "bin").mkdir()
    for name in install.PROGRAMS:
        (room / "bin" / name).write_bytes(for_older(folder / "bin" / name))
        (room / "bin" / name).chmod(0o755)
        for place in (Path("share/man/man1") / f"{name}.1", Path("share/bash-completion/completions") / name):
            (room / place).parent.mkdir(parents=True, exist_ok=True)
            shutil.copy(install.files_for([name], is_proved)[place], room / place)
    (room / "share/zsh/site-functions").mkdir(parents=True)
    shutil.copy(TOP / "tools/completion/_vantulig", room / "share/zsh/site-functions")
    shared = room / "share" / "vantulig"
    shutil.copytree(TOP / "viewer", shared / "viewer", ignore=shutil.ignore_patterns("test", "README.md", "picture.png"))
    for name in EXAMPLES:
        ignored = shutil.ignore_patterns("README.md", "*.code", "*.log")
        shutil.copytree(TOP / "crates" / "junction" / "examples" / name, shared / "examples" / name, ignore=ignored)
    for place in (try_cases.DATA, try_cases.OWN):
        shutil.copytree(place, shared / "cases", dirs_exist_ok=True)
    shutil.copy(try_cases.DATA.parent / try_cases.ORDER, shared / "cases")
    shutil.copy(Path(__file__).with_name("try_cases.py"), shared)
    (room / "wheel").mkdir()
    manylinux.retagged(next(folder.glob("*.whl")), room / "wheel")
    shutil.copy(Path(__file__).with_name("building") / "installing.sh", room / "install.sh")
    (room / "install.sh").chmod(0o755)
    if manylinux.version_wanted(next((room / "lib").glob("libjunction.so.*.*"))) > NEWEST:
        raise Refused("libjunction.so asks for a newer C library than 2.31")


def write_list(folder, room, is_proved):
    """Writes the checksums of the archive's files, and which proof they come from."""
    head, sums = listed(folder, is_proved)
    lines = [re.sub(r"; sources \w+$", "", line) for line in head]
    lines += [f"# {name} before its tables of symbols were changed: {sums[f'bin/{name}']}" for name in install.PROGRAMS]
    links = sorted(file for file in room.rglob("*") if file.is_symlink())
    lines += [f"# link {file.relative_to(room)} to {os.readlink(file)}" for file in links]
    files = sorted(file for file in room.rglob("*") if file.is_file() and not file.is_symlink())
    lines += [f"{sum_of(file.read_bytes())}  {file.relative_to(room)}" for file in files]
    (room / ("checksums.txt" if is_proved else "checksums-not-proved.txt")).write_text("\n".join(lines) + "\n", encoding="utf-8")


def packed(room, archive, when):
    """Writes the archive, the same bytes for the same files."""
    data = io.BytesIO()
    with tarfile.open(fileobj=data, mode="w", format=tarfile.PAX_FORMAT) as out:
        for file in [room, *sorted(room.rglob("*"))]:
            item = out.gettarinfo(file, f"{room.name}/{file.relative_to(room)}".removesuffix("/."))
            item.uid = item.gid = 0
            item.uname = item.gname = "root"
            item.mtime = when
            item.mode = 0o755 if item.isdir() or file.stat().st_mode & 0o100 else 0o644
            if item.isreg():
                out.addfile(item, io.BytesIO(file.read_bytes()))
            else:
                out.addfile(item)
    with open(archive, "wb") as file, gzip.GzipFile("", "wb", fileobj=file, mtime=when) as out:
        out.write(data.getvalue())


def release(folder, into, is_proved):
    """Makes the archive; answers where it is."""
    reasons = why_not(folder, is_proved)
    if reasons:
        raise Refused("\n".join([*reasons, "there is no archive"]))
    version = re.search(r'JUNCTION_VERSION "([^"+]*)', (folder / "include" / "junction.h").read_text(encoding="utf-8"))[1]
    name = f"vantulig-{version}{'' if is_proved else '-not-proved'}-linux-x86_64"
    when = int(install.answer_of("git", "log", "-1", "--format=%ct") or 0)
    with tempfile.TemporaryDirectory() as place:
        room = Path(place) / name
        room.mkdir()
        copied(folder, room, is_proved)
        shutil.copy(README, room / "README.md")
        write_list(folder, room, is_proved)
        into.mkdir(parents=True, exist_ok=True)
        packed(room, into / f"{name}.tar.gz", when)
    return into / f"{name}.tar.gz"


def main(words):
    if words == ["--help"]:
        print(__doc__)
        return 0
    is_proved = "--not-proved" not in words
    places = [word for word in words if word != "--not-proved"]
    if len(places) != 1 or places[0].startswith("-"):
        print(__doc__, file=sys.stderr)
        return 2
    try:
        made = release(TOP / "build" / ("proved" if is_proved else "not-proved"), Path(places[0]).resolve(), is_proved)
    except (Refused, manylinux.Refused, elf.NoElf) as refused:
        print(refused, file=sys.stderr)
        return 1
    print(f"{made}\n{sum_of(made.read_bytes())}")
    if not is_proved:
        print("NOT PROVED: for trying the archive out, and for nobody else", file=sys.stderr)
    return 0


if __name__ == "__main__":
    sys.exit(main(sys.argv[1:]))
