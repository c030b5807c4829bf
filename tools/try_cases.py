#!/usr/bin/env python3
"""tools/try_cases.py BIN [--cases FOLDER].. [WORD..]

Runs cases of whole calls by built programs, in some seconds: of each case status, output and notes are compared with what it
wants, to the byte. BIN has the programs; a FOLDER has files of cases, and where none is told those of crates/test_told/data and
of `cases` beside this script are run. A WORD is a file of cases, or =NAME for those whose names begin so. The cases of
must_fail.txt have to fail.

Left out, and told in the last line, is what a program can't be made to do from outside: calls of the library, an output of few
bytes, reads and writes that fail, and how often and in which order it reads and writes, which `tools/test_all.py cases` has."""
import argparse
import os
import re
import subprocess
import sys
import tempfile
from concurrent.futures import ThreadPoolExecutor
from pathlib import Path

HERE = Path(__file__).resolve().parent
DATA = HERE.parent / "crates" / "test_told" / "data"
OWN = HERE / "cases"
PROGRAMS = {b"check": "junction_check", b"report": "log_report", b"trace": "junction_trace"}
WISHES = ("out", "begin", "end", "part", "same")
# no program can be made to do these from outside
INNER = {b"calls", b"driven", b"by_live", b"by_net"}
# parts of which they are not told
UNSEEN = (b"each", b"asked", b"calls", b"writes")
FAILING = "must_fail.txt"
ORDER = "args"
SECONDS = 120
# what is built without a proof says so behind its version
VERSION = re.compile(rb"^(\w+ \d+\.\d+\.\d+), not proved\n\Z")
# below a note on words that are no form the programs tell the form
FORM = re.compile(rb"^(\w+: Words\n)  \w+ .*\n\Z")


def without_end(text, end):
    return text[: -len(end)] if text.endswith(end) else text


class Case:
    """A case: its name, the file in which it stands, whether those below take of it what they leave out, and its parts."""

    def __init__(self, name, place, is_base):
        self.name, self.file, self.folder, self.is_base = name, place.name, place.parent, is_base
        self.parts, self.base = [], self

    def part(self, word):
        """The first part with this word: what follows in its title, and its text. None where there is none."""
        for title, text in self.parts:
            if title == word or title.startswith(word + b" "):
                return title[len(word) :].strip(), text
        return None

    def words(self):
        found = self.part(b"words") or self.base.part(b"words") or (b"", b"")
        text = without_end(found[1], b"\n")
        return found[0].split() + (text.split(b"\n") if text else [])

    def files(self):
        """The files of the case; what it leaves out is taken of the base."""
        return {**dict(reversed(self.base.parts)), **dict(reversed(self.parts))}


def unescaped(line):
    """The bytes of a line in which a backslash and two digits stand for a byte, and one at its end for no line end."""
    first, *pieces = line.split(b"\\")
    text = first
    for piece in pieces:
        text += bytes([int(piece[:2], 16)]) + piece[2:] if re.match(rb"[0-9a-f]{2}", piece) else piece
    return text if line.endswith(b"\\") else text + b"\n"


def lines_told(line):
    """The bytes of a line of an escaped part: `\\*N LINE` stands for so many lines, with `\\#` for the number of each, from 0, and
    `\\+` for the same from 1."""
    many = re.match(rb"\\\*(\d+)(?: |\Z)", line)
    if not many:
        return unescaped(line)
    line, count = line[many.end() :], int(many[1])
    if not re.search(rb"\\[#+]", line):
        return unescaped(line) * count
    numbered = lambda number: line.replace(b"\\#", b"%d" % number).replace(b"\\+", b"%d" % (number + 1))
    return b"".join(unescaped(numbered(number)) for number in range(count))


def files_in(folder):
    """The files of cases in a folder, in the order of the file `args` there or above it."""
    order = next((place / ORDER for place in (folder, folder.parent) if (place / ORDER).is_file()), None)
    names = order.read_text(encoding="utf-8").split() if order else []
    files = sorted(folder.glob("*.txt"))
    return sorted(files, key=lambda file: names.index(file.name) if file.name in names else len(names))


def read_cases(files):
    """The cases of files. What a case leaves out may stand in a file before its own."""
    cases, base = [], None
    for file in files:
        count = len(cases)
        for line in without_end(file.read_bytes(), b"\n").split(b"\n"):
            if line[:4] in (b"=== ", b"### "):
                cases.append(Case(line[4:].decode(), file, line[:4] == b"### "))
                base = cases[-1] if base is None or cases[-1].is_base else base
                cases[-1].base = base
            elif len(cases) > count and line.startswith(b"--- "):
                cases[-1].parts.append([line[4:], b""])
            elif len(cases) > count and cases[-1].parts:
                part = cases[-1].parts[-1]
                part[1] += lines_told(line) if part[0].startswith(b"\\") else line + b"\n"
    for case in cases:
        case.parts = [(title[1:] if title.startswith(b"\\") else title, text) for title, text in case.parts]
    return cases


def program_of(words):
    """The program of a call, and its own words."""
    name = PROGRAMS.get(words[0]) if words else None
    return (name, words[1:]) if name else ("junction", words)


def is_left_out(case):
    words = case.words()
    is_unseen = case.file == FAILING and any(case.part(word) is not None for word in UNSEEN)
    return is_unseen or case.part(b"room") is not None or bool(words and words[0] in INNER)


def first_difference(told, wanted):
    """The first line in which two texts differ."""
    one, other = told.split(b"\n"), wanted.split(b"\n")
    for number in range(max(len(one), len(other))):
        pair = [lines[number] if number < len(lines) else b"(the text ends)" for lines in (one, other)]
        if pair[0] != pair[1]:
            told, wanted = (line.decode(errors="replace") for line in pair)
            return f"line {number + 1}\n  is:     {told}\n  wanted: {wanted}"
    return ""


def has_text(word, told, wanted):
    """Whether a text is, begins, ends or has what a part wants."""
    if word in ("out", "same"):
        return told == wanted
    if word == "begin":
        return told.startswith(wanted)
    if word == "end":
        return told.endswith(wanted)
    return without_end(wanted, b"\n") in told


def wrong_of(case, status, told, notes):
    """What a call told otherwise than its case wants."""
    wrong, wishes = [], 0
    wanted = case.part(b"notes")
    if notes != (wanted[1] if wanted else b""):
        wrong.append(f"notes: {first_difference(notes, wanted[1] if wanted else b'')}")
    for title, text in case.parts:
        word, *more = title.decode(errors="replace").split() or [""]
        if word == "each":
            wishes += 1
        if word not in WISHES:
            continue
        wishes += 1
        if word == "same":
            text = (case.folder / more[1]).read_bytes() if (case.folder / more[1]).is_file() else None
        if str(status) != more[0]:
            wrong.append(f"status {status}, wanted {more[0]}")
        if text is None or not has_text(word, told, text):
            wrong.append(f"{word}: {first_difference(told, text or b'')}")
    return wrong if wishes else ["it wants nothing"]


def run_case(case, programs):
    """Runs a case in a folder of its own; answers what is wrong."""
    name, words = program_of(case.words())
    with tempfile.TemporaryDirectory(prefix="case-") as room:
        for place in case.folder.iterdir():
            os.symlink(place, Path(room) / place.name)
        for title, text in case.files().items():
            if title and b"/" not in title and len(title) < 200:
                place = os.path.join(os.fsencode(room), title)
                if os.path.lexists(place):
                    os.unlink(place)
                Path(os.fsdecode(place)).write_bytes(text)
        words = [os.fsencode(programs / name), *words]
        done = subprocess.run(words, cwd=room, stdin=subprocess.DEVNULL, capture_output=True, timeout=SECONDS)
    told, notes = VERSION.sub(rb"\1\n", done.stdout), done.stderr
    wanted = case.part(b"notes")
    if wanted and FORM.sub(rb"\1", notes) == wanted[1]:
        notes = wanted[1]
    return wrong_of(case, done.returncode, told, notes)


def run_all(cases, programs, jobs):
    """Runs cases; answers what is to be told of each that didn't end as it must."""

    def told_of(case):
        try:
            wrong = run_case(case, programs)
        except (OSError, ValueError, subprocess.TimeoutExpired) as fault:
            wrong = [str(fault)]
        if case.file == FAILING:
            return [] if wrong else [f"FAILED {case.name}: it passes, and must fail"]
        return [f"FAILED {case.name}: {one}" for one in wrong]

    with ThreadPoolExecutor(jobs) as pool:
        return list(pool.map(told_of, cases))


def main():
    parser = argparse.ArgumentParser(description=__doc__, formatter_class=argparse.RawDescriptionHelpFormatter)
    parser.add_argument("bin", metavar="BIN", type=Path)
    parser.add_argument("--cases", metavar="FOLDER", type=Path, action="append")
    parser.add_argument("words", metavar="WORD", nargs="*")
    words = parser.parse_intermixed_args()
    programs = words.bin.resolve()
    only = tuple(word[1:] for word in words.words if word.startswith("="))
    named = {word if word.endswith(".txt") else f"{word}.txt" for word in words.words if not word.startswith("=")}
    files = [file for folder in words.cases or [DATA, OWN] for file in files_in(folder.resolve())]
    missing = [name for name in ("junction", *PROGRAMS.values()) if not (programs / name).is_file()]
    if missing or not files or named - {file.name for file in files}:
        print(f"{programs} lacks {', '.join(missing)}" if missing else "there is no such file of cases", file=sys.stderr)
        return 2
    cases = [case for case in read_cases(files) if case.file in (named or [case.file]) and case.name.startswith(only or "")]
    run = [case for case in cases if not is_left_out(case)]
    told = run_all(run, programs, len(os.sched_getaffinity(0)))
    failed = [lines for lines in told if lines]
    for lines in failed:
        print(*lines, sep="\n")
    print(f"{len(run) - len(failed)} passed, {len(failed)} failed, {len(cases) - len(run)} left out")
    return 1 if failed or not run else 0


if __name__ == "__main__":
    sys.exit(main())
