"""What the charts show, as plain numbers: read from the tables that the programs write, and from logs."""
import csv
import re
from dataclasses import dataclass

from common.reading import Refused

RANKS = (15, 50, 85, 95)
DAY = 86_400


@dataclass
class End:
    """The end of a stage: the second, how long the stage lasted, and the words for what ended it."""
    second: int
    stage: int
    lasted: int
    cause: str


@dataclass
class Cycle:
    """A cycle of a group: its seconds from `begin` up to before `end`, its greens and its arrivals, by their places in it."""
    begin: int
    end: int
    greens: list
    arrivals: list  # (place, whether the group is green)


@dataclass
class Band:
    """The moments at the first junction from which one comes to the last one without a stop: from, to."""
    begin: float
    end: float


def table(text, *columns):
    """The rows of a table of the programs."""
    rows = list(csv.DictReader(text.splitlines()))
    if rows and not set(columns) <= set(rows[0]) or not rows and not set(columns) <= set(text.split("\n")[0].strip().split(",")):
        raise Refused(1, f"the first line doesn't have the columns {', '.join(columns)}")
    return rows


def without_numbers(text):
    """A term without the numbers of its detectors or stages, so that those of several stages are one."""
    return re.sub(r"\(\s*[0-9]+\s*\)", "(..)", text)


def cause_of(rows, causes):
    """What ended a stage, by the rows of one end: the terms of the last test on the way that decided it alone, else those that
    held with it. `causes` are names, with a part of the terms that they stand for."""
    last = [row for row in rows if row.get("test_line")]
    if not last:
        return f"line {rows[0]['line']}"
    test = (last[-1]["test_line"], last[-1]["block"])
    terms = [row for row in last if (row["test_line"], row["block"]) == test]
    deciding = [row for row in terms if row["alone"] == "yes"] or [row for row in terms if row["held"] == row["answer"]] or terms
    for name, part in causes:
        if any(part in row["text"] for row in deciding):
            return name
    return ", ".join(dict.fromkeys(without_numbers(row["text"]) for row in deciding))


def ends_of(rows, causes=()):
    """The ends of `how-ended --csv`, with --terms or without."""
    by_end = {}
    for row in rows:
        by_end.setdefault((int(row["second"]), int(row["stage"])), []).append(row)
    return [End(second, stage, int(rows[0]["lasted"]), cause_of(rows, causes)) for (second, stage), rows in by_end.items()]


def greens_of(names, records, group):
    """The seconds in which a group is green: from, up to before."""
    if group not in names:
        raise Refused(1, f"the log has no group {group}")
    place, found = names.index(group), []
    for second, aspects, _ in records:
        if aspects[place] == "G":
            if found and found[-1][1] == second:
                found[-1][1] = second + 1
            else:
                found.append([second, second + 1])
    return [tuple(green) for green in found]


def arrivals_of(records, detectors, travel):
    """The seconds in which vehicles come to the stop line: the fronts of the detectors, some seconds later."""
    return [second + travel for second, _, entries in records for detector, fronts, _ in entries if detector in detectors
            for _ in range(fronts)]


def cycles_of(names, records, group, detectors, travel=0, cycle=None, offset=0):
    """The whole cycles of a group: from the end of one green to the end of the next, or by the seconds of a fixed cycle."""
    greens, first, last = greens_of(names, records, group), records[0][0], records[-1][0] + 1
    if cycle:
        begin = first + (offset - first) % cycle
        bounds = list(range(begin, last + 1, cycle))
    else:
        bounds = [end for _, end in greens if end < last]
    arrivals, cycles = arrivals_of(records, detectors, travel), []
    for begin, end in zip(bounds, bounds[1:]):
        inside = [(max(a, begin) - begin, min(b, end) - begin) for a, b in greens if a < end and b > begin]
        came = [at - begin for at in arrivals if begin <= at < end]
        cycles.append(Cycle(begin, end, inside, [(at, any(a <= at < b for a, b in inside)) for at in came]))
    return cycles


def numbers_of(cycles):
    """How many arrivals there were, the share of them in green, the share of green, and the ratio of both."""
    came = [is_green for cycle in cycles for _, is_green in cycle.arrivals]
    green = sum(b - a for cycle in cycles for a, b in cycle.greens)
    length = sum(cycle.end - cycle.begin for cycle in cycles)
    in_green = sum(came) / len(came) if came else None
    share = green / length if length else None
    return len(came), in_green, share, in_green / share if came and share else None


def percentiles_of(rows, what):
    """Of each group, or of the detectors that serve one, the percentiles of its greens, reds, cycles or waits, and the mean."""
    means = {"green": "mean", "red": "mean_red", "cycle": "mean_cycle", "wait": "mean_wait"}
    found = {}
    for row in rows:
        lines = ("SERVES",) if what == "wait" else ("PERCENTILES", "GROUP")
        if row["line"] in lines:
            rank = re.fullmatch(rf"{what}_(15|50|85|95)", row["key"])
            if rank:
                found.setdefault(row["name"], {})[int(rank[1])] = float(row["value"])
            elif row["key"] == means[what]:
                found.setdefault(row["name"], {})["mean"] = float(row["value"])
    return {name: ranks for name, ranks in found.items() if set(RANKS) <= set(ranks)}


def heat_of(rows, line, name, key, begin):
    """By day and hour the number of `sums --each 3600 --csv`; `begin` are the seconds from midnight to the first second."""
    found = {}
    for row in rows:
        if (row["line"], row["name"], row["key"]) == (line, name, key):
            at = begin + int(row["from"]) - 1
            if int(row["to"]) - int(row["from"]) >= 3600:
                raise Refused(0, f"the part from {row['from']} to {row['to']} is longer than an hour: --each 3600")
            found[at // DAY, at % DAY // 3600] = float(row["value"])
    if not found:
        raise Refused(0, f"there is no {line} {name} {key}")
    days = range(min(day for day, _ in found), max(day for day, _ in found) + 1)
    return [[found.get((day, hour)) for hour in range(24)] for day in days]


def bands_of(greens, delays, first, last):
    """The bands through several junctions: `greens` of each, and the seconds from the first junction to each."""
    step, found = 0.5, []
    at = [0] * len(greens)
    for k in range(int((last - first) / step)):
        moment = first + k * step
        is_free = True
        for place, (of, delay) in enumerate(zip(greens, delays)):
            while at[place] < len(of) and of[at[place]][1] <= moment + delay:
                at[place] += 1
            is_free = is_free and at[place] < len(of) and of[at[place]][0] <= moment + delay
        if is_free and found and found[-1].end == moment:
            found[-1].end = moment + step
        elif is_free:
            found.append(Band(moment, moment + step))
    return found
