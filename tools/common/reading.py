"""What the scripts of this folder share: reading tables, times and files, and refusing what can't be read with its line."""
import argparse
import codecs
import contextlib
import csv
import datetime
import re
import sys
from fractions import Fraction

NUMBER = re.compile(r"[0-9]+(\.[0-9]+)?")
CLOCK = re.compile(r"([0-9]{1,2}):([0-5][0-9]):([0-5][0-9](?:\.[0-9]+)?)")
STAMP_CLOCK = re.compile(r"([0-9]{1,2}):([0-5][0-9]):([0-5][0-9](?:[.,][0-9]{1,9})?)( ?[AaPp][Mm])?(Z|[+-][0-9]{2}:?[0-9]{2})?")
DAYS = [(re.compile(r"([0-9]{1,2})\.([0-9]{1,2})\.([0-9]{4}|[0-9]{2})[ T]+(.+)"), (2, 1, 0)),
        (re.compile(r"([0-9]{4})-([0-9]{1,2})-([0-9]{1,2})[ T]+(.+)"), (0, 1, 2)),
        (re.compile(r"([0-9]{1,2})/([0-9]{1,2})/([0-9]{4})[ T]+(.+)"), (2, 0, 1))]
STAMPS = "12.05.2026 07:00:00,0, 2026-05-12 07:00:00.0, 05/12/2026 07:00:00.0, 07:00:00.0 or seconds"
NAME = re.compile("[A-Za-z_][A-Za-z0-9_]{0,31}")
LINE_END = re.compile("\r\n|\n|\r")
RECORD = re.compile(r"([0-9]{1,9})\|[^|]*\|([RUGA]*)\|(-|[0-9: ]*)(\|.*)?")
MOST_SECONDS = 604_800
MOST_DETECTOR = 64


class Refused(Exception):
    """A line that can't be read, and why; or why a whole file can't be taken."""

    def __init__(self, line, cause):
        super().__init__(f"{line}: {cause}" if line else f" {cause}")


@contextlib.contextmanager
def told(name):
    """Ends the script with `NAME:LINE: CAUSE` and status 1 where what is done within refuses a line of the file, or can't read
    it."""
    try:
        yield
    except (OSError, UnicodeDecodeError) as fault:
        sys.exit(f"{name}: {fault}")
    except Refused as refused:
        sys.exit(f"{name}:{refused}")


def decoded(name):
    """The text of a file, without a byte order mark, and in which code it was read: UTF-8 or UTF-16, else ISO 8859-1."""
    with open(name, "rb") as file:
        data = file.read()
    if data.startswith((codecs.BOM_UTF16_LE, codecs.BOM_UTF16_BE)):
        return data.decode("utf-16"), "UTF-16"
    try:
        return data.decode("utf-8-sig"), "UTF-8"
    except UnicodeDecodeError:
        return data.decode("latin-1"), "ISO 8859-1"


def text_of(name):
    """The text of a file, in whichever of the codes it is."""
    return decoded(name)[0]


def fields_of(line, sign):
    """The trimmed fields of a line; one in double quotes may hold the sign that parts them."""
    fields = next(csv.reader([line], delimiter=sign), []) if '"' in line else line.split(sign)
    return [field.strip() for field in fields]


def rows_of(text):
    """The lines that aren't blank: number and trimmed fields. `;`, a tab or `,` parts the fields: the first of them that stands
    in the first line."""
    lines = LINE_END.split(text)
    first = next((line for line in lines if line.strip()), "")
    sign = next((sign for sign in ";\t" if sign in first), ",")
    rows = ((number, fields_of(line, sign)) for number, line in enumerate(lines, 1))
    return [(number, fields) for number, fields in rows if any(fields)]


def table_of(text, *columns):
    """The rows of a table whose first line names its columns, in any case, as dictionaries with their line in `line`."""
    rows = rows_of(text)
    names = [name.lower() for name in rows[0][1]] if rows else []
    if not set(columns) <= set(names):
        raise Refused(rows[0][0] if rows else 1, f"the first line doesn't have the columns {', '.join(columns)}")
    found = []
    for line, fields in rows[1:]:
        if len(fields) != len(names):
            raise Refused(line, f"{len(fields)} fields, where the first line has {len(names)}")
        found.append({**dict(zip(names, fields)), "line": line})
    return found


def number_in(row, column, most):
    """A whole number from 0 to `most` of a row."""
    if not re.fullmatch("[0-9]{1,9}", row[column]) or int(row[column]) > most:
        raise Refused(row["line"], f"'{row[column]}' ({column}) is no whole number from 0 to {most}")
    return int(row[column])


def time_of(text):
    """The seconds of a time, exactly, and whether it is a clock's; None where it is no time."""
    clock = CLOCK.fullmatch(text)
    if clock:
        return 3600 * int(clock[1]) + 60 * int(clock[2]) + Fraction(clock[3]), True
    return (Fraction(text), False) if NUMBER.fullmatch(text) else None


def clock_of(text, most=99):
    """The seconds of a time of day, exactly, with a point or a comma; None where it is none. Without a day hours may count on."""
    clock = STAMP_CLOCK.fullmatch(text)
    if not clock:
        return None
    hour = int(clock[1])
    if clock[4]:
        hour = hour % 12 + 12 * ("p" in clock[4].lower()) if 1 <= hour <= 12 else 100
    if hour > most:
        return None
    seconds = 3600 * hour + 60 * int(clock[2]) + Fraction(clock[3].replace(",", "."))
    if clock[5] and clock[5] != "Z":
        zone = clock[5].replace(":", "")
        seconds -= (1 if zone[0] == "+" else -1) * (3600 * int(zone[1:3]) + 60 * int(zone[3:]))
    return seconds


def stamp_in(text):
    """The seconds of a time stamp, exactly, from the first day of all on, and what it is: `date`, `clock` or `seconds`; None
    where it is none."""
    for form, (year, month, day) in DAYS:
        found = form.fullmatch(text)
        if found:
            parts, clock = [int(found[k]) for k in (1, 2, 3)], clock_of(found[4], 23)
            parts[year] += 2000 if parts[year] < 100 else 0
            try:
                days = datetime.date(parts[year], parts[month], parts[day]).toordinal()
            except ValueError:
                return None
            return None if clock is None else (86_400 * days + clock, "date")
    if re.fullmatch("[0-9]{1,9}([.,][0-9]{1,9})?", text):
        return Fraction(text.replace(",", ".")), "seconds"
    clock = clock_of(text)
    return None if clock is None else (clock, "clock")


def moment_of(text):
    """The seconds of a time stamp, exactly; None where it is none."""
    found = stamp_in(text)
    return found and found[0]


def stamp_of(moment, digits=0):
    """A moment in words, rounded down: with its day where it has one, and with so many digits behind the seconds."""
    days, seconds = divmod(moment, 86_400)
    parts = int(seconds * 10 ** digits)
    whole, rest = divmod(parts, 10 ** digits)
    clock = f"{whole // 3600:02}:{whole // 60 % 60:02}:{whole % 60:02}" + (f".{rest:0{digits}}" if digits else "")
    return f"{datetime.date.fromordinal(int(days))} {clock}" if days else clock


def moment(text):
    """The reader of an option's moment, for argparse."""
    found = moment_of(text)
    if found is None:
        raise argparse.ArgumentTypeError(f"'{text}' is no time, as {STAMPS}")
    return found


def whole_from(least, most):
    """The reader of an option's whole number, for argparse."""
    def read(text):
        if not re.fullmatch("[0-9]{1,9}", text) or not least <= int(text) <= most:
            raise argparse.ArgumentTypeError(f"'{text}' is no whole number from {least} to {most}")
        return int(text)
    return read


def log_of(text):
    """The groups of a log, and of each second its number, its aspects and its counts. The log may begin with any second."""
    lines = text.split("\n")
    if not lines[0].startswith("VAPLOG 1 "):
        raise Refused(1, "there is no header 'VAPLOG 1 ..'")
    names, records = lines[0].split()[2:], []
    for line, one in enumerate(lines[1:], 2):
        if not one and line == len(lines):
            break
        found = RECORD.fullmatch(one)
        due = records[-1][0] + 1 if records else None
        if not found or len(found[2]) != len(names) or int(found[1]) != (due or int(found[1])):
            second = f"of second {due} " if due else ""
            raise Refused(line, f"this is no record {second}with {len(names)} aspects, as 'SECOND|x|ASPECTS|'")
        entries = [entry.split(":") for entry in found[3].split()] if found[3] != "-" else []
        if any(len(entry) != 3 or "" in entry for entry in entries):
            raise Refused(line, "its counts aren't 'detector:fronts:rears'")
        records.append((int(found[1]), found[2], [tuple(map(int, entry)) for entry in entries]))
    return names, records
