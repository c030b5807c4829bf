#!/usr/bin/env python3
"""record_from_events.py [OPTIONS] EVENTS > RECORD

Turns a high-resolution controller log into a record in tenths, which the page in the browser judges by its tables, or
with --log into a log by seconds. EVENTS is a CSV with time stamp, event code and parameter, or with the signal's id before
them, as log_from_events.py takes it; --map MAP, --times TIMES and --signal ID are the same as there. Time stamps are rounded to
the nearest tenth.

Green begins with 1, 61 and 21, amber with 8 and 63, red with 9 to 12, 64, 65, 22 and 23. Red-amber isn't in the enumeration.
Before its first event a signal showed what that event needs: red before green, green before amber, amber before red
clearance.

What isn't known, the record says by `?`: from a dark signal (24, 66) on until its next event; from flashing (173) or a loss
of power (182) on, and with --silence N behind N seconds without an event, until each signal has had an event.

Refused, with line and cause: what can't be read, times that fall, an aspect that no tenth shows, a signal of the map without
an event. Told on standard error: what the first time is, what was rounded, the events that were passed over by their codes,
what isn't known, steps that no signal may make, and the longest time without an event. Detectors (81, 82) have no place in a
record, and are counted."""
import argparse
from collections import Counter

from records.event_codes import FLASH, NOT_FLASHING, OF_CODE, POWER_FAILED, SILENT, map_of
from log_from_events import events_of, first_of
from common.reading import Refused, text_of, told
from records.record_lines import ALL, Change, add_words, names_in, write, written


def changes_of(events, groups):
    """The changes, and the events that tell none, by their codes. An event that confirms red tells nothing new."""
    changes, passed, shown = [], Counter(), {}
    for event in events:
        kind, aspect = OF_CODE.get(event.code, (None, None))
        name = groups.get((kind, event.number))
        if name is not None:
            if aspect != "R" or shown.get(name) != "R":
                before = aspect and first_of(event.code, aspect)
                changes.append(Change(event.line, event.time, name, aspect, before))
            shown[name] = aspect
        elif event.code == POWER_FAILED or event.code == FLASH and event.number != NOT_FLASHING:
            shown.clear()
            changes.append(Change(event.line, event.time, ALL, None))
        elif event.code not in SILENT:
            passed[event.code] += 1
    return changes, passed


def names_of(groups, times):
    """The groups in the order of the record, by their names in the table of times where there is one."""
    if times is None:
        return groups, list(groups.values())
    names = {name.lower(): name for name in times}
    if set(names) != {name.lower() for name in groups.values()}:
        differ = ", ".join(sorted(set(names) ^ {name.lower() for name in groups.values()}))
        raise Refused(0, f"the table of times and the groups of the events differ in {differ}: --map names the events' signals")
    return {key: names[name.lower()] for key, name in groups.items()}, times


def read_words():
    words = argparse.ArgumentParser(description=__doc__, formatter_class=argparse.RawDescriptionHelpFormatter)
    add_words(words)
    words.add_argument("--map", metavar="MAP", help="names of groups, as of log_from_events.py")
    words.add_argument("--signal", metavar="ID", help="the events of this signal alone")
    words.add_argument("events", metavar="EVENTS", nargs="?", default="/dev/stdin")
    return words.parse_args()


def main():
    given, groups = read_words(), {}
    if given.map:
        with told(given.map):
            groups, _ = map_of(text_of(given.map))
    times = names_in(given.times) if given.times else None
    with told(given.events):
        events = events_of(text_of(given.events), given.signal)
        if not given.map:
            numbers = {event.number for event in events if OF_CODE.get(event.code, ("",))[0] == "phase"}
            groups = {("phase", number): f"K{number}" for number in sorted(numbers)}
        if not groups:
            raise Refused(events[-1].line, "there is no event of a phase, and no --map that names other signals")
        groups, names = names_of(groups, times)
        changes, passed = changes_of(events, groups)
        for (kind, number), name in groups.items():
            if not any(change.name == name and change.aspect for change in changes):
                raise Refused(events[-1].line, f"{kind} {number} ({name}) has no event, so what it showed isn't known")
        beats = [(event.line, event.time) for event in events]
        codes = [f"{number} events of code {code}" for code, number in sorted(passed.items())]
        text, notes = written(changes, beats, names, given, codes)
    write(text, notes)


if __name__ == "__main__":
    main()
