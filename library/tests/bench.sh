#!/bin/sh
# bench.sh REPOSITORY JUNCTION BUILD: seconds of the four arms that are made in a second, three rounds of one run: from C, from
# Python, and by the pipe of the built program JUNCTION from Python. At the end the middle one of each way, as a ratio to the pipe.
here=$(cd "$(dirname "$0")/.." && pwd); example=$1/crates/junction/examples/four_arms
site="$example/four_arms.vap $example/junction.pua $example/times.csv $example/intergreens.csv"
for round in 1 2 3; do
    printf 'C: '; "$3/bin/bench" $site
    PYTHONPATH="$here/python" ${PYTHON:-/usr/bin/python3} "$here/python/bench.py" $site "$2"
done | tee "$3/bench.txt"
${PYTHON:-/usr/bin/python3} - "$3/bench.txt" <<'END'
import re, sys
ways = {}
for way, clock, work in re.findall(r"^(.*): (\d+) seconds a second, (\d+) in", open(sys.argv[1]).read(), re.M):
    ways.setdefault(way, []).append((int(work), int(clock)))
middle = {way: [sorted(kind)[len(kind) // 2] for kind in zip(*rounds)] for way, rounds in ways.items()}
pipe = next(both for way, both in middle.items() if "pipe" in way)
for way, (work, clock) in middle.items():
    print(f"{way}: {work / pipe[0]:.1f} times the pipe by what processors worked, {clock / pipe[1]:.1f} by the clock")
END
