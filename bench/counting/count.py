#!/usr/bin/env python3
"""count.py FOLDER PROGRAM [WORKLOAD..]: millions of instructions (valgrind's callgrind) of a built `junction` on the six workloads
of docs/PERFORMANCE.md, cut to 20,000 seconds (`units` to 100). FOLDER is one that ../workloads.py filled. Behind each count stand the
status and a sum of what was written, so that two programs can be compared; `live` writes other bytes in each run."""
import hashlib
import itertools
import os
import re
import subprocess
import sys
import tempfile

SECONDS, UNITS_SECONDS = 20_000, 100
SITE = ["junction.pua", "times.csv", "intergreens.csv"]
WORKLOADS = {
    "traffic": ["run", "four_arms.vap", *SITE, "traffic_cut.txt"],
    "empty": ["run", "four_arms.vap", *SITE, "empty_cut.txt"],
    "units": ["run", "units.vap", *SITE, "units_cut.txt"],
    "live": ["live", "four_arms.vap", *SITE, "traffic_cut.txt"],
    "sample": ["sample", "four_arms.vap", *SITE, "7", str(SECONDS)],
    "audit": ["audit", "traffic_cut.log", *SITE],
}


def cut(program):
    """Writes the files of the workloads, cut, and the log that is judged."""
    with open("traffic.txt", encoding="utf-8") as whole, open("traffic_cut.txt", "w", encoding="utf-8") as short:
        short.writelines(itertools.islice(whole, SECONDS))
    for name, seconds in (("empty_cut.txt", SECONDS), ("units_cut.txt", UNITS_SECONDS)):
        with open(name, "w", encoding="utf-8") as file:
            file.write("\n" * seconds)
    with open("traffic_cut.log", "wb") as log:
        subprocess.run([program, *WORKLOADS["traffic"]], stdout=log, check=True)


def count(program, words):
    """The instructions of one call, its status, and a sum of what it wrote."""
    with tempfile.TemporaryDirectory() as folder, open(f"{folder}/out", "w+b") as out:
        command = ["valgrind", "--tool=callgrind", f"--callgrind-out-file={folder}/counts", program, *words]
        done = subprocess.run(command, stdout=out, stderr=subprocess.PIPE, text=True)
        out.seek(0)
        collected = re.search(r"Collected : (\d+)", done.stderr)
        return int(collected[1]) if collected else None, done.returncode, hashlib.sha256(out.read()).hexdigest()[:8]


def main():
    program = os.path.abspath(sys.argv[2])
    os.chdir(sys.argv[1])
    cut(program)
    for name in sys.argv[3:] or WORKLOADS:
        instructions, status, written = count(program, WORKLOADS[name])
        told = f"{instructions / 1e6:.2f}" if instructions is not None else "not counted"
        print(f"{name:8} {told:>8}  status {status}  {written}", flush=True)


if __name__ == "__main__":
    main()
