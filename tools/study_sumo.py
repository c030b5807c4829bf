#!/usr/bin/python3
"""study_sumo.py [OPTIONS] NET SEEDS NAME=CONTROL:SITES[:PROGRAM]..

Many runs of a SUMO network: each of the seeds 1 to SEEDS under each NAME, whose CONTROL and SITES are those of drive_sumo.py
(several SITES are parted by '+'). Demand is random, by SUMO's randomTrips.py with a vehicle each --period seconds and a person
on foot each --walkers seconds, or that of --routes FILE, whose flows SUMO draws by the seed. CSV gets a row a run, with a
checksum of every file and word that it comes from: called again, what is missing or differs is run, and nothing else. Prints a
table: means of the runs with 95 % intervals by Student's t, the difference of time loss from the first NAME seed by seed, and
sums: of what must not happen, of the seconds with a refused turn and with a fault of a program, and of the logs that `junction
audit` doesn't judge SAFE. Beside CSV stand a plot (.svg, where Matplotlib is there) and how far the study is (.progress). A run
that fails is told with its cause, and the status is 1; no table is made of nothing.

The runs are spread over WORKERS processes of this machine, or over the workers of a scheduler of Dask's `distributed`
(--scheduler), where all paths must stand at the same place. Needs sumo and sumo-tools."""
import argparse
import sys
from pathlib import Path

from common.reading import told, whole_from
from sumo.network import read_root
from sumo.study import controls_of, demand_of, run_all, tasks_of
from sumo.tables import plot, table_lines


def client_of(given):
    """Dask's client of the scheduler, or none."""
    if not given.scheduler:
        return None
    try:
        from distributed import Client
    except ImportError as fault:
        sys.exit(f"Dask's `distributed` isn't there: {fault} (Debian: python3-distributed, for /usr/bin/python3)")
    try:
        return Client(given.scheduler, timeout=20)
    except OSError as fault:
        sys.exit(f"no scheduler answers at {given.scheduler}: {fault}")


def read_words():
    words = argparse.ArgumentParser(description=__doc__, formatter_class=argparse.RawDescriptionHelpFormatter)
    words.add_argument("--period", type=float, metavar="S", help="a vehicle each S seconds")
    words.add_argument("--walkers", type=float, metavar="S", help="a person on foot each S seconds; none where it isn't said")
    words.add_argument("--routes", type=Path, metavar="FILE", help="trips, routes or flows in the place of random ones")
    words.add_argument("--additional", action="append", default=[], metavar="FILE", help="a further file of SUMO's, and again")
    words.add_argument("--seconds", type=whole_from(1, 604_800), default=3600, metavar="N", help="of each run, 3600")
    words.add_argument("--begin", type=whole_from(0, 604_800), metavar="S", help="the first second, 0")
    words.add_argument("--sumo-words", default="", metavar="WORDS", help="further words for SUMO")
    words.add_argument("--junction", default="junction", metavar="PROGRAM", help="the built program")
    words.add_argument("--library", action="store_true",
                       help="the Python package `vantulig` in its place; PROGRAM judges the logs")
    words.add_argument("--scheduler", metavar="ADDRESS", help="a scheduler of Dask, as tcp://host:8786")
    words.add_argument("--workers", type=whole_from(1, 999), default=2, metavar="N", help="processes of this machine, 2")
    words.add_argument("--to", type=Path, default=Path("study.csv"), metavar="CSV", help="study.csv; the plot is CSV with .svg")
    words.add_argument("net", metavar="NET", type=Path)
    words.add_argument("seeds", metavar="SEEDS", type=whole_from(1, 100_000))
    words.add_argument("controls", metavar="NAME=CONTROL:SITES", nargs="+")
    given = words.parse_args()
    if bool(given.routes) == bool(given.period):
        words.error("one of --period and --routes is wanted")
    return given


def on_foot_told(given, rows):
    """What the table doesn't say of people on foot: that nobody walked, or that no light knows of them."""
    if not given.walkers:
        return []
    if not any(int(row["people"]) for row in rows):
        return ["", "Nobody walked: the network has no footways."]
    if any(edge.get("function") == "crossing" for edge in read_root(given.net).iter("edge")):
        return []
    return ["", "The network has no crossings: people walk on the roadway, and no light knows of them."]


def main():
    given = read_words()
    with told("controls"):
        controls = controls_of(given.controls)
    for file in [given.net] + ([given.routes] if given.routes else []):
        with told(file):
            open(file, "rb").close()
    rows, failed = run_all(given, tasks_of(given, controls), client_of(given))
    title = f"{given.net.name}, {demand_of(given)}, runs of {given.seconds} s"
    if failed:
        print(f"{failed} runs failed" + ("" if rows else ", and there is nothing to tell"), file=sys.stderr)
    if rows:
        print(title, "", *table_lines(rows, list(controls)), *on_foot_told(given, rows), sep="\n")
        plot(rows, list(controls), title, given.to.with_suffix(".svg"))
    return 1 if failed else 0


if __name__ == "__main__":
    sys.exit(main())
