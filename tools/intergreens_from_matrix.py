#!/usr/bin/env python3
"""intergreens_from_matrix.py [--transposed] [MATRIX] > intergreens.csv

Turns a matrix of intergreens into the table of pairs that Vantulig reads. The first line names the entering groups, and the
first field of each further line a clearing group (with --transposed the other way round); a field has the seconds of the pair,
as 5 or 4.5 (or 4,5), or is empty or '-' where there is no conflict. Fields are parted by `;`, a tab or `,`. Without MATRIX
standard input is read. The pairs in no conflict, which may be green at once, are told on standard error, and that tenths of a
second are for the judge of records alone, where there are any."""
import argparse
import itertools
import re
import sys

from common.reading import NAME, Refused, rows_of, text_of, told

SECONDS = re.compile(r"(0|[1-9][0-9]?)(?:[.,]([0-9]))?")


def add_name(names, name, line):
    """Notes a group's name, which may stand once, whatever its case."""
    if not NAME.fullmatch(name):
        raise Refused(line, f"'{name}' is no name of a group: a letter or _, then letters, digits and _, 32 in all at most")
    if name.lower() in names:
        raise Refused(line, f"{name} stands twice")
    names[name.lower()] = name


def matrix_of(text):
    """The groups in order, and of each pair (clearing row, entering column) its line and its field."""
    rows = rows_of(text)
    if not rows:
        raise Refused(1, "there is no line with the names of the groups")
    (head, header), body = rows[0], rows[1:]
    columns, lines, fields = {}, {}, {}
    for name in header[1:]:
        add_name(columns, name, head)
    for line, row in body:
        add_name(lines, row[0], line)
        if row[0].lower() not in columns:
            raise Refused(line, f"{row[0]} has no column")
        if len(row) != len(header):
            raise Refused(line, f"{len(row)} fields, where the first line has {len(header)}")
        for entering, field in zip(columns, row[1:]):
            fields[row[0].lower(), entering] = (line, field)
    for name in columns:
        if name not in lines:
            raise Refused(head, f"{columns[name]} has no line of its own")
    return columns, fields


def seconds_of(line, pair, field):
    """The seconds in a field, as they are written; None where it says that there is no conflict."""
    if field in ("", "-"):
        return None
    seconds = SECONDS.fullmatch(field)
    if not seconds or int(seconds[1]) == 99 and seconds[2] not in (None, "0"):
        raise Refused(line, f"'{field}' ({pair}) is no number from 0 to 99 with one decimal at most")
    return seconds[1] if seconds[2] in (None, "0") else f"{seconds[1]}.{seconds[2]}"


def pairs_of(names, fields, transposed=False):
    """The pairs in conflict, in the order of the matrix: clearing group, entering group, seconds."""
    found = {}
    for (row, column), (line, field) in fields.items():
        seconds = seconds_of(line, f"{names[row]} to {names[column]}", field)
        if seconds is not None and row == column:
            raise Refused(line, f"{names[row]} has an intergreen with itself")
        if seconds is not None:
            found[row, column] = (line, seconds)
    for (row, column), (line, _) in found.items():
        if (column, row) not in found:
            raise Refused(line, f"{names[row]} and {names[column]} conflict one way only")
    turned = [((column, row) if transposed else (row, column), seconds) for (row, column), (_, seconds) in found.items()]
    return [(names[clearing], names[entering], seconds) for (clearing, entering), seconds in turned]


def main():
    words = argparse.ArgumentParser(description=__doc__, formatter_class=argparse.RawDescriptionHelpFormatter)
    words.add_argument("--transposed", action="store_true")
    words.add_argument("matrix", metavar="MATRIX", nargs="?", default="/dev/stdin")
    given = words.parse_args()
    with told(given.matrix):
        names, fields = matrix_of(text_of(given.matrix))
        pairs = pairs_of(names, fields, given.transposed)
    conflicts = {frozenset((clearing, entering)) for clearing, entering, _ in pairs}
    for one, other in itertools.combinations(names.values(), 2):
        if frozenset((one, other)) not in conflicts:
            print(f"no conflict: {one} and {other}", file=sys.stderr)
    if any("." in seconds for _, _, seconds in pairs):
        print("tenths of a second: these intergreens are for `log_report` over records alone", file=sys.stderr)
    print("from,to,seconds")
    for clearing, entering, seconds in pairs:
        print(f"{clearing},{entering},{seconds}")


if __name__ == "__main__":
    main()
