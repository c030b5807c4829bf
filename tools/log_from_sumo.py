#!/usr/bin/env python3
"""log_from_sumo.py [OPTIONS] STATES TLS SITE > LOG

Turns SUMO's record of signal states (<timedEvent type="SaveTLSStates">, drive_sumo.py --states) into the log of a site of
site_from_sumo.py, for `log_report`, or `junction audit` where it begins all red. The states must come once a second. All links
of a group must show the same: r is red, u red-amber, G and g green, y and Y amber. Second 1 is the first state, in whatever it
shows. Refused, with line and cause: times with tenths and gaps, letters that are no aspect (blinking, off), links of a group
that differ."""
import argparse
import xml.parsers.expat
from pathlib import Path

from common.reading import Refused, number_in, table_of, text_of, told, whole_from

ASPECTS = {"r": "R", "u": "U", "G": "G", "g": "G", "y": "A", "Y": "A"}


def groups_of(site):
    """The groups in the order of the log, and of each the places of its letters."""
    with told(site / "times.csv"):
        groups = {row["group"]: [] for row in table_of(text_of(site / "times.csv"), "group")}
    with told(site / "links.csv"):
        for row in table_of(text_of(site / "links.csv"), "index", "group"):
            if row["group"] not in groups:
                raise Refused(row["line"], f"{row['group']} has no times")
            groups[row["group"]].append(number_in(row, "index", 9999))
        for group, places in groups.items():
            if not places:
                raise Refused(0, f"{group} has no link")
    return groups


def states_of(text, light):
    """The states of a light: line, time and letters, in the order of the file."""
    found, parser = [], xml.parsers.expat.ParserCreate()

    def begin(name, attributes):
        if name == "tlsState" and attributes.get("id") == light:
            if not {"time", "state"} <= set(attributes):
                raise Refused(parser.CurrentLineNumber, "a tlsState has no time or no state")
            found.append((parser.CurrentLineNumber, float(attributes["time"]), attributes["state"]))

    parser.StartElementHandler = begin
    try:
        parser.Parse(text, True)
    except xml.parsers.expat.ExpatError as fault:
        raise Refused(fault.lineno, f"this is no record of SUMO's: {fault}") from None
    if not found:
        raise Refused(0, f"there is no state of {light}")
    return found


def aspects_of(line, state, groups):
    """One aspect for each group."""
    aspects = []
    for group, places in groups.items():
        if max(places) >= len(state):
            raise Refused(line, f"the state has {len(state)} letters, and {group} has one at {max(places)}")
        letters = "".join(state[place] for place in places)
        wrong = [letter for letter in letters if letter not in ASPECTS]
        if wrong:
            raise Refused(line, f"{group} shows '{wrong[0]}', which is no aspect")
        shown = {ASPECTS[letter] for letter in letters}
        if len(shown) > 1:
            raise Refused(line, f"the links of {group} show different aspects ({letters})")
        aspects.append(shown.pop())
    return "".join(aspects)


def lines_of(states, groups, is_all_red=False, first=1):
    """The lines of the log."""
    lines, begin, number = [" ".join(["VAPLOG 1", *groups])], states[0][1], first
    for k, (line, time, state) in enumerate(states):
        if time != int(time):
            raise Refused(line, f"time {time:g} is no whole second: let SUMO make steps of a second")
        if time != begin + k:
            raise Refused(line, f"time {time:g} where {begin + k:g} is due: a second is missing or stands twice")
        aspects = aspects_of(line, state, groups)
        if len(lines) > 1 or not is_all_red or not aspects.strip("R"):
            lines.append(f"{number}|-|{aspects}|-|-|-")
            number += 1
    if len(lines) == 1:
        raise Refused(0, "there is no second in which all groups are red, so `audit` can't judge it")
    return lines


def main():
    words = argparse.ArgumentParser(description=__doc__, formatter_class=argparse.RawDescriptionHelpFormatter)
    words.add_argument("--all-red", action="store_true", help="begin with the first second that is all red, for `audit`")
    words.add_argument("--first", type=whole_from(1, 999_999_999), default=1, metavar="N", help="the first second's number, 1")
    words.add_argument("states", metavar="STATES")
    words.add_argument("light", metavar="TLS")
    words.add_argument("site", type=Path, metavar="SITE")
    given = words.parse_args()
    groups = groups_of(given.site)
    with told(given.states):
        lines = lines_of(states_of(text_of(given.states), given.light), groups, given.all_red, given.first)
    print("\n".join(lines))


if __name__ == "__main__":
    main()
