#!/usr/bin/env python3
"""checking.py PROGRAM: processor time and peak memory of a built `junction_check` over files at their limits.

The site is the four-arm junction of crates/junction/examples/four_arms with one of its files in the place of another: much that is
warned of, in many lines and in one, the same and another each time; a plan of many parts; tables of records that are refused; a
detector file beyond 16 MiB. Each workload stands at half and at whole size, so that a time which grows faster than its file shows.
A row is the workload, the bytes of its file, processor seconds, megabytes (millions of bytes) of the text and of `--json`, and the
warnings and refusals by the last line of the text.
"""
import os
import shutil
import subprocess
import sys
import tempfile

HERE = os.path.dirname(os.path.abspath(__file__))
EXAMPLE = os.path.join(HERE, "../crates/junction/examples/four_arms")
FILES = {
    "program": "four_arms.vap",
    "plan": "junction.pua",
    "times": "times.csv",
    "intergreens": "intergreens.csv",
    "detectors": "traffic.txt",
}
MOST = 1_045_000


def unused(count, gap):
    """Returns a program that declares so many constants and uses none, with this between two of them."""
    names = f",{gap}".join(f"c{number:06} = 1" for number in range(count))
    return f"PROGRAM unused;\nCONST\n{names};\nPROG_ENDE: .\n"


def wrong_numbers(count, gap, step):
    """Returns a program that asks so often for a stage that isn't there, the next one so much higher, with this between two questions."""
    asked = gap.join(f"IF Stage_active({99 + step * k}) THEN x := 1 END;" for k in range(count))
    return f"PROGRAM numbers;\n{asked}\nPROG_ENDE: .\n"


def misspelt(count):
    """Returns the example's plan behind so many section words that are nearly right."""
    with open(os.path.join(EXAMPLE, FILES["plan"]), encoding="utf-8") as file:
        return "$STAGE\n" * count + file.read()


def refused(count):
    """Returns a table of times with so many records of a group that isn't there."""
    with open(os.path.join(EXAMPLE, FILES["times"]), encoding="utf-8") as file:
        return file.read() + "NONE,1,1,1\n" * count


def lines(count):
    """Returns a detector file of so many lines, of which the last is refused."""
    return "1:1:0 1:0:1\n" * count + "wrong\n"


WORKLOADS = {
    "constants, a line each": ("program", lambda part: unused(MOST // 13 // part, "\n")),
    "constants, one line": ("program", lambda part: unused(MOST // 13 // part, " ")),
    "numbers, a line each": ("program", lambda part: wrong_numbers(8_000 // part, "\n", 0)),
    "numbers, one line": ("program", lambda part: wrong_numbers(8_000 // part, " ", 0)),
    "other numbers, one line": ("program", lambda part: wrong_numbers(8_000 // part, " ", 1)),
    "section words": ("plan", lambda part: misspelt(MOST // 7 // part)),
    "records": ("times", lambda part: refused(MOST // 11 // part)),
    "detector lines": ("detectors", lambda part: lines(600_000 // part)),
    "empty lines": ("program", lambda part: "\n" * (MOST // part) + unused(1, "\n")),
}


def measured(words, folder):
    """Runs these words in a folder, and returns the last line that they write, their processor seconds and their most megabytes."""
    with tempfile.NamedTemporaryFile("r") as told:
        # (time itself is small: a child of this program would count what this program has)
        timed = ["/usr/bin/time", "-q", "-f", "%U %S %M", "-o", told.name, *words]
        said = subprocess.run(timed, cwd=folder, stdout=subprocess.PIPE, stderr=subprocess.DEVNULL, check=False).stdout
        user, system, most = told.read().split()
    last = said.decode("latin-1").splitlines()[-1:]
    return "".join(last), float(user) + float(system), int(most) * 1024 / 1e6


def main(program):
    """Prints a row for each workload at half and at whole size."""
    for name, (which, text) in WORKLOADS.items():
        for part in (2, 1):
            with tempfile.TemporaryDirectory() as folder:
                for file in FILES.values():
                    shutil.copy(os.path.join(EXAMPLE, file), folder)
                path = os.path.join(folder, FILES[which])
                with open(path, "w", encoding="utf-8") as file:
                    file.write(text(part))
                last, seconds, most = measured([program, *FILES.values()], folder)
                _, _, of_json = measured([program, "--json", *FILES.values()], folder)
                print(f"{name:24} {os.path.getsize(path):10,} {seconds:8.2f} s {most:7.1f} MB {of_json:7.1f} MB  {last}", flush=True)


if __name__ == "__main__":
    if len(sys.argv) != 2:
        sys.exit(__doc__)
    main(os.path.abspath(sys.argv[1]))
