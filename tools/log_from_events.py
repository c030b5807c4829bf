#!/usr/bin/env python3
"""log_from_events.py [OPTIONS] EVENTS > LOG

Turns a high-resolution controller log into a log that `log_report` reads (and `junction audit`, where it begins all red), and
with --detectors FILE into the detector file of the same seconds for `junction run`. EVENTS is a CSV with time stamp, event code
and parameter, or with the signal's id before them; a first line of names is passed over. Time stamps are 2024-05-01 07:00:12.4,
05/01/2024 07:00:12.4, 01.05.2024 07:00:12,4, 07:00:12.4 or seconds, and don't fall.

Groups: by --map MAP, a CSV `kind,number,name` with kind phase, overlap, walk or detector; without it each phase of the file is
K<number>. They stand in the order of --times TIMES, else of MAP, else of their numbers.

The log begins with the first whole second of the file, in whatever the signals then show: before its first event a signal
showed what that event needs (red before green, green before amber, amber before red clearance). It ends with the last event.

Rounding: a moment is rounded down to its second, and the picture of a second is that at its end. So a green or red of x seconds
has x in the log where x is whole, else x rounded down or up. An amber keeps its own length, rounded to the nearest second.
Red-amber isn't in the enumeration: with --times each green has the table's red-amber before it.

Refused, with line and cause: what can't be read, an aspect that doesn't follow from the one before, one that is too short for
any picture, signals dark or flashing, a loss of power, a detector that goes on or off twice, codes above 255. Told on standard
error: what second 1 is, what was rounded, passed over, and the longest time without an event."""
import argparse
import math
import re
import sys
from collections import Counter
from dataclasses import dataclass
from fractions import Fraction

from records.event_codes import (AMBER_ENDS, DETECTOR_OFF, DETECTOR_ON, FLASH, MOST_CODE, NOT_FLASHING, OF_CODE, POWER_FAILED,
                         SILENT, WALK_ENDS, map_of)
from common.reading import (MOST_DETECTOR, MOST_SECONDS, Refused, moment_of, number_in, rows_of, stamp_of, table_of, text_of, told,
                     whole_from)

BEFORE = {"G": "R", "A": "G"}  # the aspect that must stand before
WORDS = {"R": "red", "A": "amber", "G": "green"}


@dataclass
class Event:
    line: int
    time: Fraction
    code: int
    number: int


def event_of(line, fields):
    """The event of a line, and the id of its signal."""
    if len(fields) not in (3, 4):
        raise Refused(line, f"{len(fields)} fields, where time, code and parameter are wanted, or a signal's id before them")
    moment = moment_of(fields[-3])
    if moment is None:
        raise Refused(line, f"'{fields[-3]}' is no time stamp")
    if not re.fullmatch("[0-9]{1,5}", fields[-2]) or not re.fullmatch("[0-9]{1,5}", fields[-1]):
        raise Refused(line, "code and parameter are whole numbers")
    if int(fields[-2]) > MOST_CODE:
        raise Refused(line, f"{fields[-2]} is no event code: they go from 0 to {MOST_CODE}")
    return Event(line, moment, int(fields[-2]), int(fields[-1])), fields[0] if len(fields) == 4 else ""


def events_of(text, signal=None):
    """The events of a text, or those of one signal in it."""
    events, first = [], None
    for line, fields in rows_of(text):
        if line == 1 and not fields[-1].isdigit():
            continue
        event, name = event_of(line, fields)
        if signal is not None and name != signal:
            continue
        first = name if first is None else first
        if name != first:
            raise Refused(line, f"signal {name} after signal {first}: --signal names one of them")
        if events and event.time < events[-1].time:
            raise Refused(line, "the time is before that of the line above")
        events.append(event)
    if not events:
        raise Refused(1, "there is no event" + (f" of signal {signal}" if signal is not None else ""))
    return events


def check_whole(events, silence):
    """Refuses moments in which signals weren't under the controller, and a time without events that is too long."""
    for event in events:
        if event.code == POWER_FAILED or (event.code == FLASH and event.number != NOT_FLASHING):
            raise Refused(event.line, "from here the signals flash or have no power: cut the file")
    for before, event in zip(events, events[1:]):
        quiet = event.time - before.time
        if silence is not None and quiet > silence:
            raise Refused(event.line, f"{float(quiet):g} s without an event before this one, more than {silence}")


def first_of(code, aspect):
    """What a signal showed before its first event."""
    if aspect in BEFORE:
        return BEFORE[aspect]
    return "A" if code in AMBER_ENDS else "G" if code == WALK_ENDS else "R"


def changes_of(events, groups):
    """Of each group its first aspect, and its changes: line, time and aspect."""
    first, changes = {}, {name: [] for name in groups.values()}
    for event in events:
        kind, aspect = OF_CODE.get(event.code, (None, None))
        name = groups.get((kind, event.number))
        if name is None:
            continue
        if aspect is None:
            raise Refused(event.line, f"{kind} {event.number} ({name}) is dark, which is no aspect")
        now = changes[name][-1][2] if changes[name] else first.setdefault(name, first_of(event.code, aspect))
        if aspect == "R" and now == "G" and kind != "walk":
            raise Refused(event.line, f"{kind} {event.number} ({name}) becomes red from green: its begin of amber is missing")
        if aspect != "R" and now != BEFORE[aspect]:
            raise Refused(event.line, f"{kind} {event.number} ({name}) becomes {WORDS[aspect]} and is {WORDS[now]}: "
                                      f"what made it {WORDS[BEFORE[aspect]]} is missing")
        if aspect != now:
            changes[name].append((event.line, event.time, aspect))
    for (kind, number), name in groups.items():
        if name not in first:
            raise Refused(events[-1].line, f"{kind} {number} ({name}) has no event, so what it showed isn't known")
    return first, changes


def seconds_of(name, changes, zero):
    """The changes by whole seconds from `zero`; an amber keeps its own length, rounded to the nearest."""
    found, amber = [], None
    for line, time, aspect in changes:
        second = math.floor(time - zero)
        if aspect == "R" and amber is not None:
            second = amber[0] + math.floor(time - amber[1] + Fraction(1, 2))
            if time == amber[1]:  # a group without amber: both stand at one moment
                found.pop()
        if found and second <= found[-1][1]:
            raise Refused(line, f"{name} was {WORDS[found[-1][2]]} for so short a time that no second shows it")
        amber = (second, time) if aspect == "A" else None
        found.append((line, second, aspect))
    return found


def letters_of(first, changes, zero, count):
    """Of each group its aspects in `count` seconds from `zero`."""
    letters = {}
    for name, aspect in first.items():
        row, at = [], aspect
        for _, second, aspect in seconds_of(name, changes[name], zero):
            row += [at] * (min(second, count) - len(row))
            at = aspect
        letters[name] = row + [at] * (count - len(row))
    return letters


def add_red_amber(letters, lengths):
    """Shows the table's red-amber before each green."""
    for name, row in letters.items():
        for k in range(1, len(row)):
            if row[k] == "G" and row[k - 1] != "G":
                for at in range(max(0, k - lengths[name]), k):
                    row[at] = "U" if row[at] == "R" else row[at]


def is_told(event, detectors):
    """Whether an event is one of a detector that is wanted."""
    return event.code in (DETECTOR_OFF, DETECTOR_ON) and (not detectors or event.number in detectors)


def counts_of(events, detectors, begin, count):
    """The lines of the detector file of `count` seconds from `begin`; what is on at the begin has a front in the first one."""
    on, at_begin, counts = {}, {}, [{} for _ in range(count)]
    for event in events:
        if not is_told(event, detectors):
            continue
        detector, is_on = detectors.get(event.number, event.number), event.code == DETECTOR_ON
        if not 1 <= detector <= MOST_DETECTOR:
            raise Refused(event.line, f"detector {detector} isn't 1 to {MOST_DETECTOR}: name it in MAP")
        before = on.setdefault(detector, not is_on)
        if before == is_on:
            raise Refused(event.line, f"detector {event.number} goes {'on' if is_on else 'off'}, and is that already")
        on[detector], second = is_on, math.floor(event.time - begin)
        if second < 0:
            at_begin[detector] = is_on
        else:
            at_begin.setdefault(detector, before)
        if 0 <= second < count:
            counts[second].setdefault(detector, [0, 0])[0 if is_on else 1] += 1
    for detector, is_on in at_begin.items():
        if is_on:
            counts[0].setdefault(detector, [0, 0])[0] += 1
    return [" ".join(f"{detector}:{fronts}:{rears}" for detector, (fronts, rears) in sorted(row.items())) for row in counts]


def names_of(groups, first, times):
    """The groups in the order of the log."""
    if times is None:
        return list(groups.values())
    if set(times) != set(first):
        differ = ", ".join(sorted(set(times) ^ set(first)))
        raise Refused(0, f"the table of times and the groups of the events differ in {differ}")
    return list(times)


def start_of(letters, names, zero, count, given):
    """The place of the first second of the log."""
    start = 0 if given.begin is None else math.floor(given.begin - zero)
    if not 0 <= start < count:
        raise Refused(0, "--begin isn't within the events")
    if given.all_red:
        reds = (k for k in range(start, count) if all(letters[name][k] == "R" for name in names))
        start = next(reds, None)
    if start is None:
        raise Refused(0, "there is no second in which all groups are red, so `audit` can't judge it")
    return start


def make_log(events, groups, detectors, times, given):
    """The lines of the log and those of the detector file, and the moment at which second 1 begins."""
    check_whole(events, given.silence)
    first, changes = changes_of(events, groups)
    names, zero = names_of(groups, first, times), Fraction(math.floor(events[0].time))
    last = math.floor(events[-1].time - zero) + 1
    if last > MOST_SECONDS:
        raise Refused(events[-1].line, f"{last} seconds, more than {MOST_SECONDS}")
    letters = letters_of(first, changes, zero, last + (given.seconds or 0))
    if times is not None:
        add_red_amber(letters, times)
    start = start_of(letters, names, zero, last, given)
    count = given.seconds or last - start
    counts = counts_of([] if given.without_detectors else events, detectors, zero + start, count)
    lines = [" ".join(["VAPLOG 1", *names])]
    for k in range(count):
        aspects = "".join(letters[name][start + k] for name in names)
        lines.append(f"{k + 1}|-|{aspects}|{counts[k] or '-'}|-|-")
    return lines, counts, zero + start


def notes_of(events, groups, detectors, begin, count):
    """What is told on standard error."""
    yield f"second 1 is {stamp_of(begin)}; {count} seconds"
    shown = [event for event in events
             if (OF_CODE.get(event.code, ("",))[0], event.number) in groups or is_told(event, detectors)]
    broken = sum(1 for event in shown if event.time.denominator != 1)
    yield f"moments that were rounded to their second: {broken} of {len(shown)}"
    others = Counter(event.code for event in events)
    others.subtract(event.code for event in shown)
    passed = {code: number for code, number in sorted(others.items()) if number and code not in SILENT}
    if passed:
        yield "passed over: " + ", ".join(f"{number} events of code {code}" for code, number in passed.items())
    silences = [(event.time - before.time, event.line) for before, event in zip(events, events[1:])]
    if silences:
        silence, line = max(silences, key=lambda one: one[0])
        yield f"the longest time without an event: {float(silence):g} s, before line {line}"


def begin_of(text):
    moment = moment_of(text)
    if moment is None or moment.denominator != 1:
        raise argparse.ArgumentTypeError(f"'{text}' is no time stamp of a whole second")
    return moment


def read_words():
    words = argparse.ArgumentParser(description=__doc__, formatter_class=argparse.RawDescriptionHelpFormatter)
    words.add_argument("--map", metavar="MAP", help="names of groups and detectors")
    words.add_argument("--times", metavar="TIMES", help="the site's table of times: the groups' order and red-ambers")
    words.add_argument("--signal", metavar="ID", help="the events of this signal alone")
    words.add_argument("--begin", type=begin_of, metavar="TIME", help="second 1 is this one, and what was before it counts")
    words.add_argument("--seconds", type=whole_from(1, MOST_SECONDS), metavar="N", help="so many, also beyond the last event")
    words.add_argument("--all-red", action="store_true", help="begin with the first second that is all red, for `audit`")
    words.add_argument("--silence", type=whole_from(1, MOST_SECONDS), metavar="N", help="refuse more seconds without an event")
    words.add_argument("--without-detectors", action="store_true", help="pass over what detectors saw")
    words.add_argument("--detectors", metavar="FILE", help="write the detector file of the same seconds")
    words.add_argument("events", metavar="EVENTS", nargs="?", default="/dev/stdin")
    return words.parse_args()


def read_times(file):
    """Of each group its red-amber, in the order of the table."""
    with told(file):
        return {row["group"]: number_in(row, "red_amber", 9) for row in table_of(text_of(file), "group", "red_amber")}


def main():
    given, groups, detectors = read_words(), {}, {}
    if given.map:
        with told(given.map):
            groups, detectors = map_of(text_of(given.map))
    times = read_times(given.times) if given.times else None
    with told(given.events):
        events = events_of(text_of(given.events), given.signal)
        if not given.map:
            numbers = {event.number for event in events if OF_CODE.get(event.code, ("",))[0] == "phase"}
            groups = {("phase", number): f"K{number}" for number in sorted(numbers)}
        lines, counts, begin = make_log(events, groups, detectors, times, given)
    if given.detectors:
        with told(given.detectors), open(given.detectors, "w", encoding="ascii") as out:
            out.writelines(line + "\n" for line in counts)
    for note in notes_of(events, groups, detectors, begin, len(counts)):
        print(note, file=sys.stderr)
    print("\n".join(lines))


if __name__ == "__main__":
    main()
