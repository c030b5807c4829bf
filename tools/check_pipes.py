#!/usr/bin/env python3
"""tools/check_pipes.py PROGRAM

Runs the first minutes of the four arms with a pipe in the place of each file in turn, written in pieces of 7 bytes, and
expects what the files give; and looks at what comes where the reader of the records leaves. PROGRAM is a built `junction`. It
prints a line for each, and ends with status 1 where one is wrong."""
import argparse
import os
import subprocess
import sys
import tempfile
import threading
from pathlib import Path

SITE = Path(__file__).resolve().parent.parent / "crates" / "junction" / "examples" / "four_arms"
NAMES = ["four_arms.vap", "junction.pua", "times.csv", "intergreens.csv", "traffic.txt"]


def run(program, files):
    done = subprocess.run([program, "run", *map(str, files)], capture_output=True, timeout=100)
    return done.returncode, done.stdout, done.stderr


def write_in_pieces(pipe, text):
    with open(pipe, "wb", buffering=0) as out:
        for place in range(0, len(text), 7):
            out.write(text[place:place + 7])


def run_piped(program, files, place):
    """What a run answers with a pipe in the place of one of the files."""
    pipe = files[place].with_suffix(".pipe")
    os.mkfifo(pipe)
    threading.Thread(target=write_in_pieces, args=(pipe, files[place].read_bytes()), daemon=True).start()
    return run(program, files[:place] + [pipe] + files[place + 1:])


def run_left(program, files):
    """Status and note where the reader of the records leaves after the header."""
    words = [program, "run", *map(str, files[:4]), "/dev/stdin"]
    left = subprocess.Popen(words, stdin=subprocess.PIPE, stdout=subprocess.PIPE, stderr=subprocess.PIPE)
    left.stdout.readline()
    left.stdout.close()
    left.stdin.write(b"\n")
    left.stdin.close()
    return left.wait(), left.stderr.read()


def main(program):
    with tempfile.TemporaryDirectory() as folder:
        files = [Path(folder) / name for name in NAMES]
        for file in files:
            lines = (SITE / file.name).read_bytes().splitlines(keepends=True)
            file.write_bytes(b"".join(lines[:200]))
        wanted = run(program, files)
        results = {name: run_piped(program, files, place) == wanted for place, name in enumerate(NAMES)}
        results["the reader leaves"] = run_left(program, files) == (4, b"junction: WriteFault\n")
    for name, is_right in results.items():
        print(f"{name}: {'as it must' if is_right else 'WRONG'}")
    return 0 if wanted[0] == 0 and all(results.values()) else 1


if __name__ == "__main__":
    words = argparse.ArgumentParser(description=__doc__, formatter_class=argparse.RawDescriptionHelpFormatter)
    words.add_argument("program", metavar="PROGRAM")
    sys.exit(main(words.parse_args().program))
