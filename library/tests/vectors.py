#!/usr/bin/env python3
"""vectors.py FOLDER..: plays each vector of these folders that is a `run` or an `exec` by calls of the Python module. A vector is a
folder with the files words, status, out and note of a call of `junction`, and those that the words name. What is opened, the
seconds up to the first that is refused, and the status and note of a refused text must be the same. A detector file is read here
and not by the library: of one that is refused, the log before it is compared, and where its counts are not taken the call must
say so."""
import pathlib
import re
import sys

from vantulig import FILES, Controller, NotTaken, Refused

ENTRY = re.compile(rb"(\d{1,2}):(\d{1,10}):(\d{1,10})\Z")
# the reasons of a detector line whose counts are not taken
NOT_TAKEN = ("RearsAhead", "Range", "TooManySeconds")


def counts_of(line):
    """the counts of a detector line, or None where it is none"""
    counts, last = {}, 0
    for entry in filter(None, re.split(rb"[ \t]+", line)):
        found = ENTRY.match(entry)
        if not found:
            return None
        d, f, r = map(int, found.groups())
        if not last < d <= 64 or max(f, r) >= 1 << 32:
            return None
        counts[d], last = (f, r), d
    return counts


def lines_of(text):
    lines = text.split(b"\n")
    return [line.removesuffix(b"\r") for line in (lines if lines[-1] else lines[:-1])]


def open_by(words, texts):
    """a controller; or the status and the note of its refusal, with the words of this call in it"""
    try:
        return Controller(*texts, is_code=words[0] == "exec"), None
    except Refused as at:
        named = f"junction: {at.file}:"
        assert at.note.startswith(named) and at.note.endswith(f" {at.reason}\n"), at.note
        assert at.line is None or at.note.startswith(f"{named}{at.line}:"), at.note
        return None, (at.status, f"junction: {words[1 + FILES.index(at.file)]}:" + at.note[len(named) :])


def play(controller, lines, seconds):
    """the log of so many lines; and whether the counts of the next one are not taken, None where it is no line of counts"""
    log = controller.header()
    for line in lines[:seconds]:
        log += controller.step(counts_of(line)).line()
    counts = counts_of(lines[seconds]) if seconds < len(lines) else None
    if counts is None:
        return log, None
    try:
        controller.step(counts)
    except NotTaken:
        return log, True
    return log, False


def text_of(path):
    return path.read_bytes().decode("utf-8", "surrogateescape")


def judge(vector):
    """what is wrong with the calls of a vector; None where they are as they must be, and False where the library has no part in it"""
    words = text_of(vector / "words").split("\n")[:-1]
    if len(words) != 6 or words[0] not in ("run", "exec"):
        return False
    status, note = int(text_of(vector / "status")), text_of(vector / "note")
    paths = [vector / word for word in words[1:]]
    if status in (2, 3, 4) or not all(path.is_file() for path in paths[:4]):
        return False
    controller, refused = open_by(words, [path.read_bytes() for path in paths[:4]])
    if refused:
        return None if refused == (status, note) else f"{refused}, and not {(status, note)}"
    if status in (5, 7):
        return f"it was opened, and not {(status, note)}"
    wanted = text_of(vector / "out")
    with controller:
        log, refuses = play(controller, lines_of(paths[4].read_bytes()), wanted.count("\n") - 1)
    if log != wanted:
        return f"another log:\n{log}"
    reason = note.rsplit(": ", 1)[-1].split()[:1] if status == 6 else []
    if refuses is not None and (status != 6 or (refuses and reason[0] not in NOT_TAKEN)):
        return f"counts: refused {refuses}, and the note is {note!r}"
    return None


def main(folders):
    played, passed_by, wrong = 0, 0, 0
    for folder in folders:
        for vector in sorted(pathlib.Path(folder).iterdir()):
            if (vector / "words").is_file():
                found = judge(vector)
                passed_by += found is False
                played += found is not False
                if found:
                    wrong += 1
                    print(f"WRONG: {vector}: {found}")
    print(f"{played} vectors by calls, {passed_by} without a part of the library; {f'{wrong} WRONG' if wrong else 'ok'}")
    return int(wrong > 0 or not played)


if __name__ == "__main__":
    sys.exit(main(sys.argv[1:]) if len(sys.argv) > 1 else __doc__)
