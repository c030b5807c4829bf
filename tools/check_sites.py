#!/usr/bin/env python3
"""check_sites.py [OPTIONS] JUNCTION CHECK SITES

Of each site of sites_from_sumo.py: what `junction_check` (the built program CHECK) finds in its files, but for pairs that
notes.txt tells as permitted or in no conflict, and what `junction audit` (JUNCTION) says of its log in FOLDER (drive_sumo.py
--logs), or without --logs of a run over N seconds of counts made at random. Prints a line for each thing that isn't as it
should be: findings, a log that isn't SAFE, an interstage that isn't clean, a fault. Refused turns are counted: they are safe,
and tell that an interstage took longer than it is planned. Status 1 where something else was found."""
import argparse
import json
import random
import re
import subprocess
import sys
import tempfile
from collections import Counter
from pathlib import Path

from common.reading import table_of, text_of, told, whole_from

FILES = ("on_demand.vap", "junction.pua", "times.csv", "intergreens.csv")
APART = re.compile(r"no stage has (\w+) and (\w+) green together")
WHAT = (("check", "with findings of junction_check"), ("audit", "not SAFE"), ("inter", "interstages not clean"),
        ("fault", "with faults"))


def counts_at_random(detectors, seconds, seed):
    """The lines of a detector file: vehicles that come at random, and leave up to 20 seconds later."""
    chance, inside, lines = random.Random(seed), Counter(), []
    for _ in range(seconds):
        entries = []
        for detector in range(1, detectors + 1):
            front = int(chance.random() < 0.05)
            rear = int(inside[detector] + front > 0 and chance.random() < 0.3)
            inside[detector] += front - rear
            if front or rear:
                entries.append(f"{detector}:{front}:{rear}")
        lines.append(" ".join(entries) + "\n")
    return "".join(lines)


def run(*words):
    return subprocess.run([str(word) for word in words], capture_output=True, text=True)


def log_at_random(junction, site, detectors, seconds, log, program=FILES[0]):
    """Writes the log of a site with so many detectors, of counts at random, which are the same each time."""
    counts = counts_at_random(detectors, seconds, site.name)
    files = [site / program, *(site / name for name in FILES[1:])]
    made = subprocess.run([junction, "run", *map(str, files), "/dev/stdin"], input=counts, capture_output=True, text=True)
    log.write_text(made.stdout + made.stderr, encoding="ascii")


def log_of(given, row, folder):
    """The file with the log of a site."""
    if given.logs:
        return given.logs / f"{row['folder']}.log"
    log_at_random(given.junction, given.sites / row["folder"], int(row["detectors"]), given.seconds, folder / "log")
    return folder / "log"


def untold_of(findings, notes):
    """The findings of junction_check that notes.txt doesn't tell already: pairs of groups that may be green at once do."""
    pairs = {frozenset(pair) for pair in re.findall(r"^(?:no conflict|permitted): (\w+) and (\w+),", notes, re.MULTILINE)}
    untold = [one for one in findings if one["word"] != "no-intergreen" or not any(
        frozenset(pair) in pairs for pair in APART.findall(one["sentence"]))]
    return [f"{one['file']}:{one['line']}: {one['word']}: {one['sentence']}" for one in untold]


def findings_of(given, row, log):
    """What is wrong with a site, as words and texts; its seconds, and in how many of them a turn was refused after the first
    20."""
    site = given.sites / row["folder"]
    check = run(given.check, "--json", *(site / name for name in FILES))
    findings = [json.loads(line) for line in check.stdout.splitlines()]
    found = [("check", line) for line in untold_of(findings, text_of(site / "notes.txt"))]
    found += [("check", check.stderr.strip())] if check.stderr.strip() else []
    audit = run(given.junction, "audit", log, *(site / name for name in FILES[1:]))
    lines = audit.stdout.splitlines() or [audit.stderr.strip()]
    records = [line.split("|") for line in text_of(log).splitlines()[1:]]
    if lines[0] != f"SAFE {len(records)}":
        found.append(("audit", lines[0]))
    found += [("inter", line) for line in lines[1:] if not line.endswith("clean")]
    faults = [record for record in records if record[5] != "-"]
    if faults:
        found.append(("fault", f"{len(faults)} seconds, first {'|'.join(faults[0])}"))
    return found, len(records), sum(1 for record in records[20:] if record[4] != "-")


def main():
    words = argparse.ArgumentParser(description=__doc__, formatter_class=argparse.RawDescriptionHelpFormatter)
    words.add_argument("--logs", type=Path, metavar="FOLDER")
    words.add_argument("--seconds", type=whole_from(1, 604_800), default=3600, metavar="N")
    words.add_argument("junction", metavar="JUNCTION")
    words.add_argument("check", metavar="CHECK")
    words.add_argument("sites", type=Path, metavar="SITES")
    given = words.parse_args()
    counts, sites, seconds, refused = Counter(), 0, 0, 0
    with told(given.sites / "sites.csv"):
        rows = [row for row in table_of(text_of(given.sites / "sites.csv"), "light", "folder", "detectors") if row["folder"]]
    for row in rows:
        with tempfile.TemporaryDirectory() as folder, told(row["light"]):
            found, made, late = findings_of(given, row, log_of(given, row, Path(folder)))
        sites, seconds, refused = sites + 1, seconds + made, refused + late
        for word, text in found:
            counts[word] += 1
            print(f"{row['light']} ({row['folder']}): {text}")
    print(f"{given.sites}: {sites} sites, {seconds} seconds; " + ", ".join(f"{counts[word]} {text}" for word, text in WHAT)
          + f"; a turn was refused in {refused} seconds")
    return 1 if counts else 0


if __name__ == "__main__":
    sys.exit(main())
