"""The event codes of high-resolution controller logs that tell what signals show and what detectors see, and the table that
names groups and detectors for their numbers. Each kind of signal has codes that begin green, begin amber, and begin or confirm
red; None is a dark signal.

Source: J. R. Sturdevant, T. Overman, E. Raamot, R. Deer, D. Miller, D. M. Bullock, C. M. Day, T. M. Brennan, H. Li, A. Hainen
and S. M. Remias, Indiana Traffic Signal Hi Resolution Data Logger Enumerations, Indiana Department of Transportation and Purdue
University, West Lafayette, November 2012, doi:10.4231/K4RN35SH. docs/records.md has each code with its name there."""
import re

from common.reading import MOST_DETECTOR, NAME, Refused, rows_of


KINDS = {
    "phase": {"G": {1}, "A": {8}, "R": {9, 10, 11, 12}},
    "overlap": {"G": {61}, "A": {63}, "R": {64, 65}, None: {66}},  # 62, a trailing green, is green
    "walk": {"G": {21}, "A": set(), "R": {22, 23}, None: {24}},  # with the clearance, a flashing red, the walk has ended
}
OF_CODE = {code: (kind, aspect) for kind, codes in KINDS.items() for aspect, numbers in codes.items() for code in numbers}
AMBER_ENDS = {9, 10, 64}  # codes of red that say that there was amber before
WALK_ENDS = 22
SILENT = {7, 62}  # they tell nothing that the codes beside them don't: the end of green, a trailing green
DETECTOR_OFF, DETECTOR_ON = 81, 82
FLASH, NOT_FLASHING, POWER_FAILED = 173, 2, 182
MOST_CODE = 255


def map_of(text):
    """The table `kind,number,name`: of each (kind, number) its group, and of each number of a detector its detector from 1 to
    64."""
    groups, detectors = {}, {}
    for line, row in rows_of(text):
        if [name.lower() for name in row] == ["kind", "number", "name"]:
            continue
        if len(row) != 3 or not re.fullmatch("[0-9]{1,5}", row[1]):
            raise Refused(line, "a row is 'kind,number,name'")
        kind, number, name = row[0], int(row[1]), row[2]
        if kind == "detector":
            if not re.fullmatch("[1-9][0-9]?", name) or int(name) > MOST_DETECTOR or int(name) in detectors.values():
                raise Refused(line, f"'{name}' is no detector from 1 to {MOST_DETECTOR} that stands once")
            detectors[number] = int(name)
        elif kind not in KINDS:
            raise Refused(line, f"'{kind}' is neither phase, overlap, walk nor detector")
        elif (kind, number) in groups or name in groups.values():
            raise Refused(line, f"{kind} {number} or the name {name} stands twice")
        elif not NAME.fullmatch(name):
            raise Refused(line, f"'{name}' is no name of a group")
        else:
            groups[kind, number] = name
    return groups, detectors
