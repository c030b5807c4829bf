#!/usr/bin/env python3
"""tools/build.py [--fast] [--jobs N] [--into FOLDER] [NAME ..]
tools/build.py --proved [--into FOLDER] [NAME ..]

Builds the programs (junction, junction_check, junction_trace, log_report) and the library with its wheel for Python (library),
or those that are named, without a proof, several at once, into build/not-proved: a few minutes on two processors. Each program
keeps the run-time checks of `rt try` and stops with its place where one fails; the library keeps all of them but the address
sanitizer. With --fast they are optimized, and have none. What is unchanged since it was built stays.

What is built so says that it isn't proved: junction_check, junction_trace and log_report in their --version, the library in its
version, its name and the name of its wheel, and for all of them the file NOT-PROVED beside them, with their checksums.

With --proved they are proved instead, or taken where `rt ci` or `rt run` has proved the same sources on this machine, into
build/proved. Where nothing is proved yet, that takes the time of a first proof: an hour on two processors."""
import hashlib
import os
import re
import shutil
import subprocess
import sys
import tempfile
import time
from concurrent.futures import ThreadPoolExecutor
from pathlib import Path

from building import archive
import install
from building import lowering
from building.lowering import TOP, Refused

# the longest first
PROGRAMS = ["junction", "junction_trace", "log_report", "junction_check"]
LIBRARY = "library"
MARK = ", not proved"
# the program that has no word for its version: what tells of it is the note beside it
SILENT = "junction"
LIBRARY_MARK = "+not.proved"
NOTE = "NOT-PROVED"
PROVED_LIST = "checksums.txt"
# how something is built: whether it is fast, and the library
CHECKS = {
    (False, False): "with the run-time checks of `rt try`",
    (False, True): "with the run-time checks of `rt try` but the address sanitizer",
    (True, False): "without run-time checks",
    (True, True): "without run-time checks",
}
# what `make` leaves in the Python package
MADE = shutil.ignore_patterns("libjunction.so", "_version.py", "build", "*.egg-info", "__pycache__")
BEGUN = time.monotonic()


def say(text):
    print(f"{time.monotonic() - BEGUN:5.0f} s  {text}", flush=True)


def version_in(name):
    """What a source literally says as the version of a program: a text of its own, or one that is handed on."""
    return re.compile(rf'"((?:{name} )?\d+\.\d+\.\d+)((?:\\n)?")')


def marked_sources(top, crates, name, room):
    """Copies the sources of the crates, with the version of the program marked; answers the marked version, or None."""
    found = None
    for crate in crates:
        shutil.copytree(top / "crates" / crate / "src", room / "crates" / crate / "src")
        for source in sorted((room / "crates" / crate / "src").rglob("*.rt")):
            text = source.read_text(encoding="utf-8")
            versions = version_in(name).findall(text)
            if not versions:
                continue
            told = {version.removeprefix(f"{name} ") + MARK for version, _ in versions} | ({found} if found else set())
            if len(told) > 1:
                raise Refused(f"{name} has several versions in its sources: {sorted(told)}")
            found = told.pop()
            source.write_text(version_in(name).sub(rf'"\1{MARK}\2', text), encoding="utf-8")
    return found


def key_of(top, crates, *more):
    """The sum of all that a build reads."""
    whole = hashlib.sha256(repr(more).encode())
    names = ["archive.py", "lowering.py", "told_checks.py", "without_checks.py", "inline_attributes.py"]
    scripts = [Path(__file__), *(Path(__file__).with_name("building") / name for name in names)]
    files = [file for crate in crates for file in sorted((top / "crates" / crate / "src").rglob("*.rt"))]
    for file in [top / "crates.txt", *files, *scripts]:
        whole.update(hashlib.sha256(file.read_bytes()).digest())
    return whole.hexdigest()


class Built:
    """The folder into which is built, and what its note says."""

    def __init__(self, folder):
        self.folder, self.keys, self.checks, self.where = folder, {}, {}, install.where_from()
        note = folder / NOTE
        if note.is_file():
            rows = re.findall(r"^# (\w+): (.*); sources (\w+)$", note.read_text(encoding="utf-8"), re.MULTILINE)
            self.keys = {name: key for name, _, key in rows}
            self.checks = {name: checks for name, checks, _ in rows}

    def has(self, name, key):
        """Whether that was built of sources with this sum, and is still there; then it is as new as they are."""
        place = self.folder / ("lib/libjunction.so" if name == LIBRARY else f"bin/{name}")
        if self.keys.get(name) != key or not place.exists():
            return False
        os.utime(place)
        return True

    def begin(self, names):
        """Says that what is built is not proved, before any of it is there."""
        for name in names:
            self.keys.pop(name, None)
        (self.folder / "bin").mkdir(parents=True, exist_ok=True)
        self.write()

    def write(self):
        head = ["# NOT PROVED: no proof was tried of what stands here. tools/build.py made it for trying things out."]
        head += self.where
        head += [f"# {name}: {self.checks[name]}; sources {key}" for name, key in sorted(self.keys.items())]
        files = sorted(file for file in self.folder.rglob("*") if file.is_file() and not file.is_symlink() and file.name != NOTE)
        kept = [file for file in files if file.relative_to(self.folder).parts[0] in ("bin", "lib", "include") or file.suffix == ".whl"]
        sums = [f"{hashlib.sha256(file.read_bytes()).hexdigest()}  {file.relative_to(self.folder)}" for file in kept]
        (self.folder / NOTE).write_text("\n".join([*head, *sums]) + "\n", encoding="utf-8")


def check_version(program, marked):
    """A program that tells its version tells that it isn't proved."""
    if program.name == SILENT:
        return
    said = subprocess.run([program, "--version"], capture_output=True, text=True)
    if said.returncode or marked is None or said.stdout != f"{program.name} {marked}\n":
        raise Refused(f"{program.name} --version says {said.stdout!r} with status {said.returncode}, and not {marked}")


def build_program(kit, top, name, built, is_fast):
    """Builds a program, and puts it in its place once it is whole."""
    crates = [*lowering.below(name, lowering.crates_in(top)), name]
    key = key_of(top, crates, name, is_fast, (kit / "KIT-ID").read_text(encoding="utf-8"))
    if built.has(name, key):
        say(f"{name}: unchanged since it was built")
        return name, key
    say(f"{name}: begins")
    with tempfile.TemporaryDirectory(prefix="not-proved-") as folder:
        room = Path(folder)
        marked = marked_sources(top, crates, name, room)
        out = room / name
        build = lowering.build_plain if is_fast else lowering.build_checked
        build(kit, top, name, room, out, lambda text: say(f"{name}: {text}"))
        check_version(out, marked)
        shutil.move(out, built.folder / "bin" / name)
    say(f"{name}: done")
    return name, key


def marked_headers(top, folder):
    """The headers, with a version that no proved library has."""
    (folder / "include").mkdir(parents=True, exist_ok=True)
    for header in (top / "library" / "include").glob("*.h"):
        text = header.read_text(encoding="utf-8")
        text = re.sub(r'^(#define JUNCTION_VERSION "[^"+]*)"', rf'\1{LIBRARY_MARK}"', text, flags=re.MULTILINE)
        (folder / "include" / header.name).write_text(text, encoding="utf-8")
    if LIBRARY_MARK not in (folder / "include" / "junction.h").read_text(encoding="utf-8"):
        raise Refused("library/include/junction.h has no line that defines its version")


def make(top, room, *words):
    """Runs the library's Makefile."""
    done = subprocess.run(["make", "-s", "-C", top / "library", f"BUILD={room}", *words], capture_output=True, text=True)
    if done.returncode:
        raise Refused(f"the library isn't built: make ends with status {done.returncode}\n{done.stdout}{done.stderr}".rstrip())


def take_library(room, folder):
    """Copies what `make` built: the libraries, what pkg-config reads, and the wheel."""
    for part in ("lib", "include"):
        shutil.rmtree(folder / part, ignore_errors=True)
        shutil.copytree(room / part, folder / part, symlinks=True)
    for old in folder.glob("*.whl"):
        old.unlink()
    for wheel in room.glob("*.whl"):
        shutil.copy(wheel, folder)
    config = folder / "lib" / "pkgconfig" / "junction.pc"
    config.write_text(config.read_text(encoding="utf-8").replace(str(room), str(folder)), encoding="utf-8")


def build_library(kit, top, built, is_fast):
    """Builds the library, its headers and its wheel."""
    crates = [*lowering.below("junction_c", lowering.crates_in(top)), "junction_c"]
    plain = sorted(file for part in ("src", "include", "python") for file in (top / "library" / part).rglob("*.*"))
    plain = [top / "library" / "Makefile", *(file for file in plain if file.suffix in (".c", ".h", ".in", ".py", ".toml"))]
    sums = [hashlib.sha256(file.read_bytes()).hexdigest() for file in plain if file.name != "_version.py"]
    key = key_of(top, crates, LIBRARY, is_fast, (kit / "KIT-ID").read_text(encoding="utf-8"), sums)
    if built.has(LIBRARY, key):
        say("library: unchanged since it was built")
        return LIBRARY, key
    say("library: begins")
    with tempfile.TemporaryDirectory(prefix="not-proved-") as folder:
        room = Path(folder)
        archive.build(kit, top, room / "libjunction_c.a", is_fast, lambda text: say(f"library: {text}"))
        marked_headers(top, room)
        shutil.copytree(top / "library" / "python", room / "module", ignore=MADE)
        places = [f"PROVED={room}/libjunction_c.a", f"INCLUDE={room}/include/", f"PACKAGE={room}/module/"]
        make(top, room, f"KIT={kit}", *places, "all", "wheel")
        take_library(room, built.folder)
    say("library: done")
    return LIBRARY, key


def refuse_mixing(folder, is_proved):
    """What is proved and what isn't stand in folders of their own."""
    other = folder / (NOTE if is_proved else PROVED_LIST)
    if other.exists():
        raise Refused(f"{other} is there: what is {'not ' if is_proved else ''}proved has that folder for its own")


def at_once():
    """How many are built at once: one a processor, as many as the free memory holds."""
    found = re.search(r"^MemAvailable: +(\d+) kB", Path("/proc/meminfo").read_text(encoding="utf-8"), re.MULTILINE)
    return max(1, min(len(os.sched_getaffinity(0)), int(found[1]) // 2_000_000 if found else 1))


def build(top, folder, names, is_fast, jobs):
    """Builds all that is named; answers the reasons of what isn't built."""
    kit, built = lowering.kit(), Built(folder)
    stale = [name for name in names if name not in built.keys]
    built.begin(stale)
    reasons = []
    with ThreadPoolExecutor(jobs) as pool:
        calls = []
        for name in names:
            words = (build_library, kit, top) if name == LIBRARY else (build_program, kit, top, name)
            calls.append(pool.submit(*words, built, is_fast))
        for call in calls:
            try:
                name, key = call.result()
                built.keys[name], built.checks[name] = key, CHECKS[is_fast, name == LIBRARY]
            except Refused as refused:
                reasons.append(str(refused))
    built.write()
    return reasons


def main(words):
    if words == ["--help"]:
        print(__doc__)
        return 0
    options, names, jobs, folder = set(), [], at_once(), None
    words = list(words)
    while words:
        word = words.pop(0)
        if word == "--jobs" and words and words[0].isdigit() and int(words[0]) > 0:
            jobs = int(words.pop(0))
        elif word == "--into" and words:
            folder = Path(words.pop(0)).resolve()
        elif word in ("--fast", "--proved"):
            options.add(word)
        elif word in [*PROGRAMS, LIBRARY]:
            names.append(word)
        else:
            print(__doc__, file=sys.stderr)
            return 2
    if options == {"--fast", "--proved"}:
        print(__doc__, file=sys.stderr)
        return 2
    names = [name for name in [PROGRAMS[0], LIBRARY, *PROGRAMS[1:]] if not names or name in names]
    try:
        is_proved = "--proved" in options
        folder = folder or TOP / "build" / ("proved" if is_proved else "not-proved")
        refuse_mixing(folder, is_proved)
        if is_proved:
            import proved

            return proved.build(TOP, folder, names, say)
        reasons = build(TOP, folder, names, "--fast" in options, jobs)
    except Refused as refused:
        reasons = [str(refused)]
    if reasons:
        print(*reasons, sep="\n", file=sys.stderr)
        return 1
    say(f"built, and NOT PROVED: {folder}")
    return 0


if __name__ == "__main__":
    sys.exit(main(sys.argv[1:]))
