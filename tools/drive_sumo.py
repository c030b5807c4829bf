#!/usr/bin/env python3
"""drive_sumo.py [OPTIONS] NET ROUTES SITES..
drive_sumo.py [OPTIONS] SUMOCFG SITES..

Runs a SUMO network, or the configuration that names it with its routes, with all traffic lights that have a site under one
control:

  vap          each light by a controller of its own, second by second: by a pipe to the built program, or by the library
  static       the network's own programs
  actuated, delay_based  SUMO's programs of this type on the same phases
  guarded:static, guarded:actuated, guarded:delay_based  these programs wish, and each light's guard decides what is shown
  guarded:FILE.py:FUNCTION  FUNCTION(light, names, second, counts) wishes a letter G or R for each group

Each of SITES is a folder of sites_from_sumo.py, or TLS=FOLDER for the site of one light. Lights without a site keep the
network's program. Prints what came of it: vehicles, time loss, stops, the queue, people on foot, teleports, collisions,
emergency stops, faults, and where the clock's time went. Ctrl-C ends the run, and tells what was driven (status 130). Status 3
where a program had faults or a mask was wrong, 1 where nothing was driven or nobody departed. Needs SUMO (Debian: sumo,
sumo-tools); --libsumo, SUMO within this process, needs Debian's own /usr/bin/python3. SUMO_HOME says where SUMO is,
/usr/share/sumo where it isn't set."""
import argparse
import json
import sys
import tempfile
import time
from pathlib import Path

import controllers
from common.reading import Refused, told, whole_from
from sumo.drive import Stop, drive, left_alone, let_drive, open_lights, sites_of
from sumo.guarded import control_from, line_of, refusals_of
from sumo.network import is_configuration
from sumo.scenario import NotStarted, call_of, folder_for, import_sumo, nobody_told, result_of, set_times, start

CONTROLS = ("vap", "static", "actuated", "delay_based")
FAULTS, STOPPED = 3, 130


def teller(given):
    """What tells the progress of a run, once a second of the clock, where standard error is a terminal."""
    last = [time.monotonic()]

    def tell(second):
        if sys.stderr.isatty() and (time.monotonic() - last[0] >= 1 or second == given.seconds):
            last[0] = time.monotonic()
            print(f"\r{second} of {given.seconds} s", end="\n" if second == given.seconds else "", file=sys.stderr, flush=True)

    return tell


def faults_of(lights):
    """Seconds with refusals and with faults, and the first fault as a sentence."""
    faulty = [light for light in lights if light.faults]
    told_of = {"refused": sum(light.refused for light in lights), "faults": sum(light.faults for light in lights)}
    if faulty:
        told_of["first_fault"] = f"{len(faulty)} light{'s' * (len(faulty) > 1)}, first {faulty[0].name}: {faulty[0].first_fault}"
    return told_of


def drive_in(given, folder, errors):
    """One run in a folder; what came of it, and where the clock's time went."""
    sumo, stop = import_sumo("libsumo" if given.libsumo else "traci"), Stop()
    begun, spent, more = time.perf_counter(), {}, {}
    start(sumo, call_of(given, folder), errors)
    with stop.watched():
        if given.control in ("static", "actuated", "delay_based"):
            lights = len(sites_of(given.sites))
            seconds = let_drive(sumo, given.begin, given.seconds, stop, teller(given))
        else:
            with left_alone():
                opened = open_lights(sumo, given)
            lights = len(opened)
            seconds, spent = drive(sumo, opened, given.seconds, given.steps, stop, teller(given))
            for light in opened:
                light.end()
            more = faults_of(opened)
            if given.control.startswith("guarded:"):
                more.update(refusals_of(opened))
        sumo.close()
    return {"control": given.control, "lights": lights, "seconds": seconds, "seed": given.seed, **result_of(folder), **more,
            "clock": round(time.perf_counter() - begun, 2), **spent, "is_stopped": stop.is_asked}


def run_once(given):
    """One run; what came of it."""
    sumo = import_sumo("libsumo" if given.libsumo else "traci")
    with folder_for(given.keep) as folder, tempfile.TemporaryFile("w+", encoding="utf-8", errors="replace") as errors:
        try:
            return drive_in(given, folder, errors)
        except NotStarted as fault:
            sys.exit(str(fault))
        except (sumo.TraCIException, getattr(sumo, "FatalTraCIError", NotStarted)) as fault:
            errors.seek(0)
            lines = [line for line in errors.read().splitlines() if "Error" in line]
            sys.exit(f"SUMO ended or refused a call: {lines[0] if lines else str(fault).strip()}")


def lines_of(told_of):
    """The result in words."""
    lines = [
        "{control}: {lights} light" + ("" if told_of["lights"] == 1 else "s") + ", {seconds} seconds, seed {seed}",
        "{vehicles} vehicles, mean time loss {loss:.1f} s, mean stops {stops:.2f}, {queue:.1f} of them halting at a time",
        "{teleports} teleports, {collisions} collisions, {emergency_stops} emergency stops"]
    if told_of["walkers"]:
        lines.insert(2, "{walkers} people who arrived on foot, mean time loss {walkers_loss:.1f} s")
    if told_of.get("waiting_outside"):
        lines.insert(2, "{waiting_outside} vehicles still wait for room to depart")
    if told_of.get("faults"):
        lines.append("faults in {faults} seconds of {first_fault}")
    if "refused_turns" in told_of:
        lines.append(line_of(told_of))
    if "steps" in told_of:
        lines.append("{clock:.1f} s of the clock: SUMO's steps {steps}, detectors {detectors}, controllers {controllers}, "
                     "signals {signals}")
    return [line.format(**told_of) for line in lines]


def read_words():
    words = argparse.ArgumentParser(description=__doc__, formatter_class=argparse.RawDescriptionHelpFormatter,
                                    usage="drive_sumo.py [OPTIONS] NET ROUTES SITES.. | SUMOCFG SITES..")
    words.add_argument("--control", type=control_from(CONTROLS), default="vap", metavar="CONTROL", help="vap")
    controllers.add_options(words)
    words.add_argument("--program", default="on_demand.vap", metavar="VAP", help="of each site, on_demand.vap")
    words.add_argument("--seconds", type=whole_from(1, 604_800), default=3600, metavar="N", help="3600")
    words.add_argument("--begin", type=whole_from(0, 604_800), metavar="S", help="the first second: the configuration's, or 0")
    words.add_argument("--step-length", type=float, metavar="S", help="of SUMO: the configuration's, or 1; 0.5, 0.2, 0.1")
    words.add_argument("--seed", type=whole_from(0, 999_999_999), default=1, metavar="N", help="SUMO's seed, 1")
    words.add_argument("--gui", action="store_true", help="sumo-gui, to look at the run")
    words.add_argument("--libsumo", action="store_true", help="SUMO in this process in the place of a socket to it")
    words.add_argument("--sumo-words", default="", metavar="WORDS", help="further words for SUMO, as '--scale 1.2'")
    words.add_argument("--keep", type=Path, metavar="FOLDER", help="keep tripinfo.xml, summary.xml and statistics.xml there")
    words.add_argument("--logs", type=Path, metavar="FOLDER", help="keep the log of each light, named as its site's folder")
    words.add_argument("--masks", action="store_true", help="guarded: compare each second with the mask before it")
    words.add_argument("--states", type=Path, metavar="FILE", help="keep SUMO's record of signal states, for log_from_sumo.py")
    words.add_argument("--collisions", type=Path, metavar="FILE", help="keep SUMO's list of collisions")
    words.add_argument("--additional", action="append", default=[], metavar="FILE", help="a further file of SUMO's, and again")
    words.add_argument("--json", action="store_true", help="the result as a line of JSON")
    words.add_argument("net", metavar="NET", help="the network, or a .sumocfg")
    words.add_argument("rest", metavar="ROUTES SITES", nargs="+", help="SUMO's file of trips or routes, several parted by commas "
                       "(where NET is a configuration, its own); then folders of sites, or TLS=FOLDER")
    given = words.parse_args()
    given.routes, given.sites = ("", given.rest) if is_configuration(given.net) else (given.rest[0], given.rest[1:])
    if not given.sites:
        words.error("SITES are wanted")
    if given.gui and given.libsumo:
        words.error("--gui is a program of its own, and --libsumo none")
    return given


def main():
    given = read_words()
    for file in (given.net, *(given.routes.split(",") if given.routes else [])):
        with told(file):
            open(file, "rb").close()
    with told("options"):
        set_times(given)
    try:
        told_of = run_once(given)
    except Refused as refused:
        sys.exit(f"{given.net}:{refused}")
    if not told_of["vehicles"] and not told_of["people"]:
        sys.exit(nobody_told(given, told_of["seconds"]))
    print(json.dumps(told_of) if given.json else "\n".join(lines_of(told_of)))
    if told_of["is_stopped"]:
        print(f"ended by Ctrl-C after {told_of['seconds']} seconds", file=sys.stderr)
        return STOPPED
    if told_of.get("first_wrong_mask"):
        print(f"a mask was wrong: {told_of['first_wrong_mask']}", file=sys.stderr)
    return FAULTS if told_of.get("faults") or told_of.get("masks_wrong") else 0


if __name__ == "__main__":
    sys.exit(main())
