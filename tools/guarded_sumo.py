#!/usr/bin/env python3
"""guarded_sumo.py [OPTIONS] FOLDER

Drives lights of SUMO's own networks under the guard, network after network, until there are LIGHTS of them, and judges what
came: SUMO's program of each light wishes (`--control guarded:actuated`), each second is compared with the mask before it, and
each log must be SAFE by `junction audit`. With --test-mask, the program of that name that `make -C library test` builds, a
policy by chance drives each of these sites too, and each of its seconds is compared with its mask. Sites, demand and logs stay
in FOLDER.

Prints a line for each network and one for all. Status 1 where a run failed, a log isn't safe or a mask was wrong, and where
there are fewer lights. Needs SUMO (Debian: sumo, sumo-tools), and the package `vantulig`."""
import argparse
import json
import os
import subprocess
import sys
from pathlib import Path

from common.reading import table_of, text_of, told, whole_from
from sumo.networks import EXAMPLES, MADE, SHARE, TOWNS

HERE = Path(__file__).resolve().parent
TABLES = ("junction.pua", "times.csv", "intergreens.csv")
NO_PROGRAM = "PROGRAM none;\nVAP_FREQUENCY 1;\nPROG_ENDE: .\n"
# seconds from vehicle to vehicle where a network has no demand of its own
PERIOD = 1.6


def call(*words):
    return subprocess.run(list(map(str, words)), capture_output=True, text=True)


def sites_of(net, file, folder):
    """Makes the sites of a network; the folders of its lights."""
    to = folder / "sites" / net.name
    if not (to / "sites.csv").exists():
        call(sys.executable, HERE / "sites_from_sumo.py", file, to)
    with told(to / "sites.csv"):
        rows = table_of(text_of(to / "sites.csv"), "light", "folder")
    return {row["light"]: to / row["folder"] for row in rows if row["folder"]}


def routes_of(net, file, folder, seconds):
    """The demand of a network: its own, or vehicles by chance."""
    if net.routes:
        return SHARE / net.routes
    trips = folder / f"{net.name}.trips.xml"
    if not trips.exists():
        words = ["-n", file, "-o", trips, "-e", seconds, "-p", net.period or PERIOD, "--fringe-factor", 10]
        done = call(sys.executable, SHARE / "tools/randomTrips.py", *words)
        if done.returncode:
            sys.exit(f"{net.name}: {done.stderr.strip()}")
    return trips


def driven(net, file, sites, folder, given):
    """What the driver told of a network, and the folder of the logs; None where the run failed."""
    logs = folder / "logs" / net.name
    more = [word for each in net.additional for word in ("--additional", SHARE / each)]
    more += ["--libsumo"] if given.libsumo else []
    routes, places = routes_of(net, file, folder, given.seconds), (f"{light}={site}" for light, site in sites.items())
    done = call(sys.executable, HERE / "drive_sumo.py", "--json", "--library", "--control", given.control, "--masks",
                "--logs", logs, "--seconds", given.seconds, *more, file, routes, *places)
    try:
        return json.loads(done.stdout), logs
    except ValueError:
        print(f"{net.name}: status {done.returncode}: {done.stderr.strip()}", file=sys.stderr)
        return None, logs


def unsafe_in(logs, sites, junction):
    """What `audit` says of the logs that aren't safe."""
    found = []
    for site in sites.values():
        done = call(junction, "audit", logs / f"{site.name}.log", *(site / table for table in TABLES))
        if not any(line.startswith("SAFE ") for line in done.stdout.splitlines()):
            found.append(f"{site}: {(done.stdout + done.stderr).strip()}")
    return found


def wrong_by_chance(sites, folder, given):
    """What is wrong with masks of the sites under a policy by chance."""
    program, found = folder / "none.vap", []
    program.write_text(NO_PROGRAM, encoding="ascii")
    for seed, site in enumerate(sites.values(), 1):
        log = folder / "chance.log"
        tables = [site / table for table in TABLES]
        done = call(given.test_mask, program, *tables, given.chance_seconds, seed, log)
        audited = call(given.junction, "audit", log, *tables)
        if done.returncode or f"SAFE {given.chance_seconds}" not in audited.stdout.splitlines():
            found.append(f"{site}, by chance: {done.stdout.strip()} {audited.stdout.strip()}")
    return found


def judged(net, file, sites, folder, given):
    """How many lights of a network were driven, and what was wrong."""
    told_of, logs = driven(net, file, sites, folder, given)
    if told_of is None:
        return 0, [f"{net.name}: it wasn't driven"]
    wrong = unsafe_in(logs, sites, given.junction)
    wrong += [told_of["first_wrong_mask"]] if told_of["masks_wrong"] else []
    wrong += wrong_by_chance(sites, folder, given) if given.test_mask else []
    turns = sum(told_of["refused_turns"].values())
    print(f"{net.name}: {len(sites)} lights, {told_of['seconds']} seconds, {told_of['vehicles']} vehicles; {turns} turns "
          f"refused, a green late in {told_of['late']} of {told_of['light_seconds']} seconds; {told_of['masks_wrong']} of "
          f"{told_of['masks']} masks wrong; {len(wrong)} wrong", flush=True)
    return len(sites), wrong


def read_words():
    words = argparse.ArgumentParser(description=__doc__, formatter_class=argparse.RawDescriptionHelpFormatter)
    words.add_argument("--junction", default="junction", metavar="PROGRAM", help="the built program, which judges the logs")
    words.add_argument("--control", default="guarded:actuated", metavar="CONTROL", help="guarded:actuated")
    words.add_argument("--lights", type=whole_from(1, 9999), default=50, metavar="N", help="50")
    words.add_argument("--seconds", type=whole_from(60, 86_400), default=900, metavar="N", help="of each run, 900")
    words.add_argument("--test-mask", metavar="PROGRAM", help="the built test of masks by chance")
    words.add_argument("--chance-seconds", type=whole_from(60, 604_801), default=604_801, metavar="N", help="604801: a week")
    words.add_argument("--libsumo", action="store_true", help="SUMO in the driver's process")
    words.add_argument("folder", metavar="FOLDER", type=Path)
    return words.parse_args()


def main():
    os.environ.setdefault("SUMO_HOME", str(SHARE))
    given = read_words()
    given.folder.mkdir(parents=True, exist_ok=True)
    lights, wrong = 0, []
    for net in (*TOWNS, *EXAMPLES, *MADE):
        if lights >= given.lights:
            break
        file = net.make(given.folder)
        sites = sites_of(net, file, given.folder) if file else {}
        if sites:
            count, found = judged(net, file, sites, given.folder, given)
            lights, wrong = lights + count, wrong + found
    print(*wrong, f"{lights} lights under {given.control}: {len(wrong)} wrong", sep="\n")
    return int(bool(wrong) or lights < given.lights)


if __name__ == "__main__":
    sys.exit(main())
