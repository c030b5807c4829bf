#!/usr/bin/python3
"""networks_sumo.py [OPTIONS] FOLDER

Makes two tables over the networks of SUMO's packages and some of netgenerate's, in FOLDER/networks.md, and prints them:

  coverage   of each network its lights, those of one stage alone, the sites that are made, and why each other light has none;
             of ten minutes of counts at random for each site and program the logs that `junction audit` doesn't judge SAFE,
             and the breaches that judge_sumo.py finds in them
  time loss  of the driven networks SEEDS runs under SUMO's `actuated`, under the made program with computed intergreens, and
             with those of the network's own program: mean time loss with its 95 % interval, and the difference from `actuated`
             seed by seed; then seconds with a refused turn or a fault, and what both judges find in all logs

Runs that are there already are kept by checksums of all that they come from (study_sumo.py). FOLDER/networks.progress tells how
far it is. Status 1 where a run failed, a log isn't safe, or a judge found something. `--only NAME` takes one network alone."""
import argparse
import os
import shutil
import subprocess
import sys
import tempfile
from pathlib import Path
from types import SimpleNamespace

from check_sites import log_at_random
from common.reading import table_of, text_of, told, whole_from
from sumo.networks import EXAMPLES, MADE, SHARE, TOWNS
from sumo.study import NOT_JUDGED, controls_of, judged, rows_of, run_all, tasks_of
from sumo.tables import cell_of, difference_of, total_of

HERE = Path(__file__).resolve().parent
NAMES = ("actuated", "vap", "vap-own")
AT_RANDOM = 600  # seconds of counts at random for each site


def call(script, *words):
    """Status and output of a script beside this one."""
    done = subprocess.run([sys.executable, str(HERE / script), *map(str, words)], capture_output=True, text=True)
    return done.returncode, done.stdout + done.stderr


def sites_for(net, file, folder):
    """Makes both sites of a network; the rows of the first one."""
    for name, more in ((net.name, []), (f"{net.name}-own", ["--intergreens", "own"])):
        status, said = call("sites_from_sumo.py", *more, file, folder / "sites" / name)
        if status != 0 and not (folder / "sites" / name / "sites.csv").exists():
            sys.exit(said.strip())
    table = folder / "sites" / net.name / "sites.csv"
    return table_of(text_of(table), "light", "folder", "stages", "refused")


def judged_at_random(net, file, folder, given):
    """What both judges find in logs of counts at random, of each site and each of its programs."""
    program, sums = shutil.which(given.junction), [0, 0]
    if not program:
        return [NOT_JUDGED, NOT_JUDGED]
    for sites in (folder / "sites" / net.name, folder / "sites" / f"{net.name}-own"):
        rows = [row for row in table_of(text_of(sites / "sites.csv"), "light", "folder", "detectors") if row["folder"]]
        for name in ("on_demand.vap", "coordinated.vap"):
            made = [row for row in rows if (sites / row["folder"] / name).exists()]
            with tempfile.TemporaryDirectory() as logs:
                for row in made:
                    log = Path(logs) / f"{row['folder']}.log"
                    log_at_random(program, sites / row["folder"], int(row["detectors"]), AT_RANDOM, log, name)
                words = [f"{row['light']}={sites / row['folder']}" for row in made]
                found = judged({"sites": words, "net": str(file), "junction": program, "seconds": AT_RANDOM}, Path(logs))
            sums = [sums[0] + found["unsafe"], sums[1] + found["breaches"]]
    return sums


def coverage_of(net, rows, found, folder):
    """A row of the table of coverage."""
    made = [row for row in rows if row["folder"]]
    alone = sum(1 for row in made if "all red, for which nobody asks" in text_of(
        folder / "sites" / net.name / row["folder"] / "notes.txt"))
    why = "; ".join(f"{row['light']}: {row['refused']}" for row in rows if not row["folder"])
    return [net.name, len(rows), alone, len(made), *found, why]


def study_of(net, file, folder, given):
    """The rows of the runs of a network, and how many failed."""
    site, words = folder / "sites" / net.name, f"--scale {net.share:g}" if net.share != 1 else ""
    one = SimpleNamespace(
        junction=given.junction, library=given.library, additional=[SHARE / name for name in net.additional],
        seconds=given.seconds, begin=None, sumo_words=words, net=file, routes=SHARE / net.routes if net.routes else None,
        period=net.period, walkers=net.walkers, seeds=given.seeds, to=folder / f"{net.name}.csv", workers=given.workers)
    tasks = tasks_of(one, controls_of([f"actuated=actuated:{site}", f"vap=vap:{site}", f"vap-own=vap:{site}-own"]))
    return (list(rows_of(one.to, tasks).values()), 0) if given.kept else run_all(one, tasks)


def loss_row(net, rows):
    """A row of the table of time loss."""
    own = {name: [row for row in rows if row["name"] == name] for name in NAMES}
    cells = [net.name, " / ".join(map(str, sorted({len(of_name) for of_name in own.values()})))]
    for name in NAMES:
        cells.append(cell_of([float(row["loss"]) for row in own[name]], 1) if own[name] else "")
        if name != NAMES[0]:
            cells.append(difference_of(rows, name, NAMES[0]) if own[name] else "")
    driven = [row for row in rows if row["name"] != NAMES[0]]
    cells += [total_of(driven, key) for key in ("refused", "faults", "unsafe", "breaches")]
    sums = [[sum(int(row[key]) for row in own[name]) for name in NAMES] for key in ("collisions", "waiting_outside")]
    return [*cells, *(" / ".join(map(str, of_each)) for of_each in sums)]


def table(head, rows):
    return ["| " + " | ".join(head) + " |", "|---" * len(head) + "|",
            *("| " + " | ".join(str(cell) for cell in row) + " |" for row in rows)]


def coverage_lines(groups):
    """The tables of coverage, each with its sums."""
    lines, head = [], ["network", "lights", "of one stage", "sites", "logs not SAFE", "breaches", "without a site"]
    for title, rows in groups:
        columns = [[row[k] for row in rows] for k in range(1, 6)]
        sums = ["all", *(NOT_JUDGED if NOT_JUDGED in column else sum(column) for column in columns), ""]
        lines += [f"### {title}", "", *table(head, [*rows, sums]), ""]
    return lines


def read_words():
    words = argparse.ArgumentParser(description=__doc__, formatter_class=argparse.RawDescriptionHelpFormatter)
    words.add_argument("--junction", default="junction", metavar="PROGRAM", help="the built program")
    words.add_argument("--library", action="store_true", help="the Python package `vantulig` drives; PROGRAM judges the logs")
    words.add_argument("--seconds", type=whole_from(60, 86_400), default=3600, metavar="N", help="of each run, 3600")
    words.add_argument("--seeds", type=whole_from(1, 100), default=5, metavar="N", help="5")
    words.add_argument("--workers", type=whole_from(1, 99), default=2, metavar="N", help="processes of this machine, 2")
    words.add_argument("--coverage", action="store_true", help="the table of coverage alone")
    words.add_argument("--kept", action="store_true", help="the table of time loss of the rows that are there, without a run")
    words.add_argument("--only", action="append", default=[], metavar="NAME", help="this network alone, and again")
    words.add_argument("folder", metavar="FOLDER", type=Path)
    return words.parse_args()


def cover(net, file, folder, given):
    """The row of a network in the table of coverage, and what the judges found in logs of counts at random."""
    with told(net.name):
        made = sites_for(net, file, folder)
        found = judged_at_random(net, file, folder, given)
    return coverage_of(net, made, found, folder), sum(found) if NOT_JUDGED not in found else 0


def drive(net, file, folder, given):
    """The row of a driven network, how many of its runs failed, and what the judges found."""
    with told(net.name):
        made, failed = study_of(net, file, folder, given)
    row = loss_row(net, made)
    print("| " + " | ".join(map(str, row)) + " |", file=sys.stderr, flush=True)
    return row, failed, sum(int(row[key] or 0) for row in made for key in ("unsafe", "breaches"))


def main():
    os.environ.setdefault("SUMO_HOME", str(SHARE))
    given = read_words()
    folder = given.folder
    folder.mkdir(parents=True, exist_ok=True)
    groups, losses, failed, wrong = [], [], 0, 0
    for title, nets in (("SUMO's towns", TOWNS), ("SUMO's examples", EXAMPLES), ("Made by netgenerate", MADE)):
        rows = []
        for net in nets:
            if given.only and net.name not in given.only:
                continue
            (folder / "networks.progress").write_text(f"{net.name}; {len(losses)} networks driven\n", encoding="utf-8")
            if given.kept and not (folder / f"{net.name}.csv").exists():
                continue
            file = net.make(folder)
            if file is None:
                print(f"{net.name}: SUMO has no {net.file} here", file=sys.stderr)
                continue
            if not given.kept:
                row, found = cover(net, file, folder, given)
                rows, wrong = [*rows, row], wrong + found
            if net.is_driven and not given.coverage:
                row, lost, found = drive(net, file, folder, given)
                losses, failed, wrong = [*losses, row], failed + lost, wrong + found
        if rows:
            groups.append((title, rows))
    head = ["network", "seeds", "actuated", "vap", "against actuated", "vap-own", "against actuated", "refused s", "faults s",
            "logs not SAFE", "breaches", "collisions", "not departed"]
    lines = coverage_lines(groups) + (["### Time loss of a vehicle, s", "", *table(head, losses)] if losses else [])
    if not given.kept:
        (folder / "networks.md").write_text("\n".join(lines) + "\n", encoding="utf-8")
    print(*lines, sep="\n")
    if failed:
        print(f"{failed} runs failed", file=sys.stderr)
    return 1 if failed or wrong else 0


if __name__ == "__main__":
    sys.exit(main())
