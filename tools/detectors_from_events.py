#!/usr/bin/env python3
"""detectors_from_events.py [--start TIME] [--seconds N] [EVENTS] > detectors.txt

Turns a list of events 'time,detector,on|off' into the detector file that Vantulig reads, one line a second. A time is a number
of seconds (12 or 12.4) or a clock's (07:00:12 or 07:00:12.4), and times don't fall. Second 1 begins at TIME; without it at 0,
or for a clock's times at the whole second of the first event. The file has N lines; without it, lines up to the last event.
'on' is a vehicle that begins to cover the detector (a front), 'off' one that ceases to (a rear). Fields are parted by ',' or by
';'; a first line 'time,..' is passed over. Without EVENTS standard input is read."""
import argparse
import math
import re
from fractions import Fraction

from common.reading import MOST_SECONDS, Refused, text_of, time_of, told

STATES = {"on": True, "off": False}
MOST_COUNT = 99


def event_of(line, text):
    """The time, whether it is a clock's, the detector and whether it goes on."""
    fields = [field.strip() for field in re.split("[,;]", text)]
    if len(fields) != 3:
        raise Refused(line, f"{len(fields)} fields, where time, detector and on or off are wanted")
    time = time_of(fields[0])
    if time is None:
        raise Refused(line, f"'{fields[0]}' is no time, as 12.4 or 07:00:12.4")
    if not re.fullmatch("[1-9][0-9]?", fields[1]) or int(fields[1]) > 64:
        raise Refused(line, f"'{fields[1]}' is no detector from 1 to 64")
    if fields[2].lower() not in STATES:
        raise Refused(line, f"'{fields[2]}' is neither on nor off")
    return time[0], time[1], int(fields[1]), STATES[fields[2].lower()]


def events_of(text):
    """The events of a text with their lines. They come in time's order, and each detector goes on and off in turn."""
    events, occupied = [], set()
    for line, row in enumerate(text.splitlines(), 1):
        if not row.strip() or (line == 1 and re.match(r"\s*time\s*[,;]", row, re.IGNORECASE)):
            continue
        time, is_clock, detector, is_on = event_of(line, row)
        if events and is_clock != events[0][2]:
            raise Refused(line, "a number of seconds and a clock's time in one file")
        if events and time < events[-1][1]:
            raise Refused(line, "the time is before that of the line above")
        if is_on == (detector in occupied):
            cause = "goes on, and is on already" if is_on else "goes off, and was not on: give it an 'on' before"
            raise Refused(line, f"detector {detector} {cause}")
        occupied ^= {detector}
        events.append((line, time, is_clock, detector, is_on))
    return events


def first_moment(events, start):
    """The moment at which second 1 begins."""
    if start is not None:
        return start
    return Fraction(math.floor(events[0][1])) if events and events[0][2] else Fraction(0)


def counts_of(events, begin, most):
    """Of each second with an event, and in it of each detector, its fronts and its rears."""
    counts = {}
    for line, time, _, detector, is_on in events:
        second = math.floor(time - begin) + 1
        if second < 1:
            raise Refused(line, "the event is before second 1")
        if second > most:
            raise Refused(line, f"the event is in second {second}, after the last one, {most}")
        pair = counts.setdefault(second, {}).setdefault(detector, [0, 0])
        pair[0 if is_on else 1] += 1
        if max(pair) > MOST_COUNT:
            raise Refused(line, f"detector {detector} has more than {MOST_COUNT} vehicles in second {second}")
    return counts


def lines_of(text, start=None, seconds=None):
    """The lines of the detector file."""
    events = events_of(text)
    most = MOST_SECONDS if seconds is None else seconds
    counts = counts_of(events, first_moment(events, start), most)
    last = max(counts, default=0) if seconds is None else seconds
    entries = [sorted(counts.get(second, {}).items()) for second in range(1, last + 1)]
    return [" ".join(f"{detector}:{fronts}:{rears}" for detector, (fronts, rears) in row) for row in entries]


def start_of(text):
    time = time_of(text)
    if time is None:
        raise argparse.ArgumentTypeError(f"'{text}' is no time")
    return time[0]


def seconds_of(text):
    if not re.fullmatch("[0-9]+", text) or int(text) > MOST_SECONDS:
        raise argparse.ArgumentTypeError(f"'{text}' is no number from 0 to {MOST_SECONDS}")
    return int(text)


def main():
    words = argparse.ArgumentParser(description=__doc__, formatter_class=argparse.RawDescriptionHelpFormatter)
    words.add_argument("--start", metavar="TIME", type=start_of)
    words.add_argument("--seconds", metavar="N", type=seconds_of)
    words.add_argument("events", metavar="EVENTS", nargs="?", default="/dev/stdin")
    given = words.parse_args()
    with told(given.events):
        lines = lines_of(text_of(given.events), given.start, given.seconds)
    for line in lines:
        print(line)


if __name__ == "__main__":
    main()
