#!/usr/bin/env python3
"""cost.py COST EXAMPLES [--count]: what a second costs by a program and by commands that do the same, of each example,
by the built program COST (cost.c, which says what is compared): times, or with --count instructions by valgrind's callgrind."""
import re
import subprocess
import sys
import tempfile
from pathlib import Path

PAIRS = ["nothing", "order", "stages", "wishes", "example"]
SECONDS = 1000


def sites(examples):
    """Each program of an example, and the files of its site."""
    for plan in sorted(Path(examples).rglob("junction.pua")):
        for program in sorted(plan.parent.glob("*.vap")):
            yield program, [program, plan, plan.parent / "times.csv", plan.parent / "intergreens.csv"]


def count(cost, site):
    """The instructions of a second by both ways, of each pair without and with the log's line."""
    found = {}
    with tempfile.TemporaryDirectory() as folder:
        command = ["valgrind", "--tool=callgrind", "--collect-atstart=no", "--toggle-collect=make_one",
                   f"--callgrind-out-file={folder}/counts", cost, *site, "count"]
        subprocess.run([str(word) for word in command], capture_output=True, check=True)
        for file in Path(folder).iterdir():
            text = file.read_text(encoding="utf-8", errors="replace")
            title = re.search(r"^desc: Trigger: Client Request: (\w+) (\d) (\d)$", text, re.M)
            if title:
                found[title[1], int(title[2]), int(title[3])] = int(re.search(r"^(?:summary|totals): (\d+)", text, re.M)[1]) / SECONDS
    for title in PAIRS:
        for line in (0, 1):
            yield title, line, found[title, line, 0], found[title, line, 1]


def main(words):
    cost, examples = words[:2]
    if "--count" not in words:
        for program, site in sites(examples):
            print(f"{program.relative_to(examples)}:", flush=True)
            subprocess.run([cost, *site], check=True)
        return 0
    rows = []
    for program, site in sites(examples):
        for row in count(cost, site):
            rows.append(row)
            title, line, one, other = row
            name = f"{program.relative_to(examples)}: {title}{' with its line' if line else ''}"
            print(f"{name}: {one:.0f} {other:.0f} ({other / one:.2f})", flush=True)
    for title in PAIRS:
        for line in (0, 1):
            ratios = sorted(other / one for pair, with_line, one, other in rows if (pair, with_line) == (title, line))
            print(f"{title}{' with its line' if line else ''}: {ratios[0]:.2f} to {ratios[-1]:.2f}")
    return 0


if __name__ == "__main__":
    sys.exit(main(sys.argv[1:]) if len(sys.argv) > 2 else __doc__)
