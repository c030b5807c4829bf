#!/usr/bin/env python3
"""events_from_log.py [OPTIONS] LOG > EVENTS

Turns a log into events of the high-resolution enumeration at whole seconds, as ATSPM tools read them: a CSV with time stamp,
code and parameter, with --signal the signal's id before them. Second k stands at STAMP + k - 1 seconds (2024-01-01 00:00:00
where it isn't said). The groups are phases by their places in the log, or what MAP says, a CSV `kind,number,name`
(log_from_events.py); --write-map FILE writes this table of them, for the way back.

In the first second each phase tells what it shows: 1 green, 8 amber, 12 red. Later a green is 1, its end 7 and 8, the end of
amber 9, 10 and 11 in one second, since a log has no red clearance. Walks have 21, and 22 and 23 at their end; overlaps 61, 63,
64 and 65. Red-amber isn't in the enumeration and is red. Detectors go on (82) with the first vehicle that covers them and off
(81) with the last. log_from_events.py makes the same pictures of it, with --times also the red-ambers; `--seconds` gives those
after the last event. A vehicle that comes while another one covers its detector has no event: how many these are is told on
standard error. What else is lost stands in docs/records.md."""
import argparse
import csv
import datetime
import sys

from records.event_codes import DETECTOR_OFF, DETECTOR_ON, map_of
from common.reading import Refused, log_of, text_of, told

CODES = {"phase": {"first": [12], "G": [1], "A": [7, 8], "R": [9, 10, 11]},
         "overlap": {"first": [65], "G": [61], "A": [63], "R": [64, 65]},
         "walk": {"first": [23], "G": [21], "A": [], "R": [22, 23]}}


def first_codes(kind, now):
    """The codes of what a signal shows in the first second."""
    if now in "RU":
        return CODES[kind]["first"]
    return CODES[kind][now][-1:]


def signal_codes(kind, before, now):
    """The codes of a change; red and red-amber are one."""
    is_red, was_red = now in "RU", before in "RU"
    if is_red and not was_red:
        return (CODES[kind]["A"] if before == "G" else []) + CODES[kind]["R"]
    return CODES[kind][now] if now != before and not is_red else []


def detector_codes(inside, fronts, rears):
    """The codes of a second of a detector that covers `inside` vehicles, and how many it covers then."""
    codes = []
    while fronts or rears:
        if fronts and (inside == 0 or not rears):
            fronts, inside = fronts - 1, inside + 1
            codes += [DETECTOR_ON] if inside == 1 else []
        else:
            rears, inside = rears - 1, inside - 1
            codes += [DETECTOR_OFF] if inside == 0 else []
    return codes, inside


def kinds_of(names, groups):
    """Of each group its kind and its number."""
    if not groups:
        return {name: ("phase", number) for number, name in enumerate(names, 1)}
    kinds = {name: key for key, name in groups.items()}
    for name in names:
        if name not in kinds:
            raise Refused(1, f"{name} isn't in the map")
    return kinds


def check_follows(line, name, kind, was, now):
    """Refuses what events can't say: a green after amber, an amber after red, and an amber of a walk."""
    if now == "A" and kind == "walk":
        raise Refused(line, f"{name} shows amber, for which walks have no event")
    if (was == "A" and now == "G") or (was in "RU" and now == "A"):
        raise Refused(line, f"{name} shows {now} after {was}, which events can't say")


def events_of(names, records, groups, detectors):
    """Of each event its second, code and parameter."""
    kinds, numbers = kinds_of(names, groups), {detector: number for number, detector in detectors.items()}
    before, inside, events = None, {}, []
    for line, (second, aspects, entries) in enumerate(records, 2):
        for place, (name, now) in enumerate(zip(names, aspects)):
            kind, number = kinds[name]
            if before is not None:
                check_follows(line, name, kind, before[place], now)
            codes = first_codes(kind, now) if before is None else signal_codes(kind, before[place], now)
            events += [(second, code, number) for code in codes]
        for detector, fronts, rears in entries:
            if rears > fronts + inside.get(detector, 0):
                raise Refused(line, f"detector {detector} has more rears than fronts")
            codes, inside[detector] = detector_codes(inside.get(detector, 0), fronts, rears)
            events += [(second, code, numbers.get(detector, detector)) for code in codes]
        before = aspects
    return events


def lost_of(records):
    """What events don't tell: the seconds with counts without an event, the vehicles that came while their detector was covered,
    and the detectors."""
    inside, seconds, vehicles, detectors = {}, set(), 0, set()
    for second, _, entries in records:
        for detector, fronts, rears in entries:
            codes, inside[detector] = detector_codes(inside.get(detector, 0), fronts, rears)
            if len(codes) < fronts + rears:
                seconds.add(second)
                detectors.add(detector)
                vehicles += fronts - codes.count(DETECTOR_ON)
    return len(seconds), vehicles, sorted(detectors)


def lost_told(records):
    """The sentence on it; nothing where events tell all."""
    seconds, vehicles, detectors = lost_of(records)
    if not seconds:
        return ""
    numbers = ", ".join(map(str, detectors))
    return (f"in {seconds} seconds counts have no event: {vehicles} vehicles came while others covered detector"
            f"{'s' * (len(detectors) > 1)} {numbers}, and on and off can't tell them")


def main():
    words = argparse.ArgumentParser(description=__doc__, formatter_class=argparse.RawDescriptionHelpFormatter)
    words.add_argument("--map", metavar="MAP")
    words.add_argument("--begin", type=datetime.datetime.fromisoformat, default=datetime.datetime(2024, 1, 1), metavar="STAMP")
    words.add_argument("--signal", metavar="ID")
    words.add_argument("--write-map", metavar="FILE")
    words.add_argument("log", metavar="LOG")
    given, groups, detectors = words.parse_args(), {}, {}
    if given.map:
        with told(given.map):
            groups, detectors = map_of(text_of(given.map))
    with told(given.log):
        names, records = log_of(text_of(given.log))
        events = events_of(names, records, groups, detectors)
    if given.write_map:
        rows = [f"{kind},{number},{name}\n" for name, (kind, number) in kinds_of(names, groups).items()]
        rows += [f"detector,{number},{detector}\n" for number, detector in detectors.items()]
        with told(given.write_map), open(given.write_map, "w", encoding="ascii") as out:
            out.writelines(["kind,number,name\n", *rows])
    if lost_told(records):
        print(f"{given.log}: {lost_told(records)}", file=sys.stderr)
    out = csv.writer(sys.stdout, lineterminator="\n")
    before = [given.signal] if given.signal else []
    out.writerow((["SignalID"] if given.signal else []) + ["Timestamp", "EventCode", "EventParam"])
    for second, code, number in events:
        stamp = (given.begin + datetime.timedelta(seconds=second - 1)).isoformat(" ", "milliseconds")
        out.writerow(before + [stamp, code, number])


if __name__ == "__main__":
    main()
