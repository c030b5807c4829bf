#!/usr/bin/env python3
"""record_from_changes.py [OPTIONS] CHANGES > RECORD

Turns a table of changes, a line `time;group;aspect` for each, into a record in tenths, which the page in the browser
judges by its tables, or with --log into a log by seconds. Fields are parted by `;`, a tab or `,`. The file is UTF-8 or UTF-16,
else ISO 8859-1, which is told.

Columns: a first line of names says their order, in any case (Zeit, Datum, Uhrzeit, SG, Gruppe, Bild, Signalbild, time, date,
group, aspect, state ..); further columns are passed over. --columns TIME,GROUP,ASPECT or DAY,TIME,GROUP,ASPECT gives other
names. Without known names the order is time, group, aspect, or day, time, group, aspect.

Times are 12.05.2026 07:00:00,0, 2026-05-12T07:00:00.0 (with Z or +02:00 too), 05/12/2026 07:00:00.0, 07:00:00.0 or seconds,
with a comma or a point, and don't fall; a time of day without a day that falls by more than half a day is of the next day. They
are rounded to the nearest tenth.

Aspects are ROT, ROTGELB, GRÜN or GRUEN, GELB, or red, red-amber, green, amber or yellow, in any case, with blanks or - / + _
between, or the letters R, U, G and A of a log (Y too); DUNKEL, AUS, BLINKEN, GELBBLINKEN, STÖRUNG, off, dark, flashing, unknown
and ? say that the group isn't known. --aspects FILE names others, in a table `word,aspect` with aspect red, red-amber, green,
amber or unknown. A `G` beside other words of green or amber may mean either, and is refused.

Groups: those of --times TIMES, in its order, or of --groups K1,K2,..; else all of the file, as they come. Lines of others are
passed over and counted. --map FILE gives groups other names, in a table `group,name`: names are letters, digits and _ alone.

Before its first line a group showed what that one needs: red before red-amber, green before amber, red-amber before green
where the group ever shows it, else red. What it showed before a first red isn't known. While one group isn't known the record
says `?`.

Refused, with line and cause: what can't be read, a time that falls, an aspect that no tenth shows. Told on standard error:
what the first time is, what was rounded, told again, passed over or isn't known, steps that no signal may make, the longest
time without a line."""
import argparse
import re
from collections import Counter

from common.reading import STAMPS, Refused, decoded, rows_of, stamp_in, table_of, told
from records.record_lines import Change, add_words, names_in, write, written

ASPECTS = {"red": "R", "red-amber": "U", "green": "G", "amber": "A", "unknown": None}
KNOWN = {"R": "rot red ro rt r", "U": "rotgelb redamber redyellow rg rtge u", "G": "grün gruen green gr gn g",
         "A": "gelb amber yellow ge a y",
         None: "dunkel aus blinken blinkend gelbblinken gelbblinkend störung stoerung unbekannt off dark flashing unknown ?"}
COLUMNS = {"day": "datum date tag day",
           "time": "zeit time uhrzeit zeitpunkt zeitstempel timestamp datetime moment sekunde sekunden second seconds clock",
           "group": "sg gruppe group signalgruppe signalgroup signal",
           "aspect": "bild signalbild aspect aspekt zustand signalzustand state signalstate farbe colour color"}
LETTER = {"g": {"G": "g", "A": "a y"}}  # with which other words this letter is clear
BEFORE = {"U": "R", "A": "G"}
TOLD = 20  # lines that can't be read


def word_of(text):
    return re.sub("[-/+_ .]", "", text).casefold()


def by_word(table):
    return {word: key for key, words in table.items() for word in words.split()}


WORD_OF_COLUMN, ASPECT_OF_WORD = by_word(COLUMNS), by_word(KNOWN)


def is_header(fields):
    """Whether a line names columns: no field of it is a time."""
    return all(stamp_in(field) is None for field in fields) and not any(re.search("[0-9]:[0-5][0-9]", field) for field in fields)


def columns_of(fields, wanted):
    """The places of day, time, group and aspect by the names of a first line, and whether it has such names."""
    if wanted:
        names = [name.casefold() for name in fields]
        for name in wanted:
            if names.count(name.casefold()) != 1:
                raise Refused(1, f"the first line has the column {name} {names.count(name.casefold())} times")
        return [names.index(name.casefold()) for name in wanted]
    found = [WORD_OF_COLUMN.get(word_of(field)) for field in fields]
    if not any(found):
        return None
    for column in ("time", "group", "aspect"):
        if found.count(column) != 1:
            raise Refused(1, f"{found.count(column) or 'no'} columns of the first line are known as that of the {column}: --columns")
    return [found.index(column) for column in ("day", "time", "group", "aspect") if column in found]


def change_of(line, fields, places, words, names):
    """The change of a line, and what its time is."""
    while len(fields) > (max(places) + 1 if places else 3) and not fields[-1]:
        fields = fields[:-1]
    if places:
        if len(fields) <= max(places):
            raise Refused(line, f"{len(fields)} fields, and the first line names {max(places) + 1} or more")
        fields = [fields[place] for place in places]
    if len(fields) == 4:
        fields = [fields[0] + " " + fields[1], *fields[2:]]
    if len(fields) != 3:
        raise Refused(line, f"{len(fields)} fields, where time, group and aspect are wanted")
    stamp = stamp_in(fields[0])
    if stamp is None:
        raise Refused(line, f"'{fields[0]}' is no time, as {STAMPS}")
    word, name = word_of(fields[2]), fields[1]
    if word not in words:
        raise Refused(line, f"'{fields[2]}' is no aspect: --aspects names it")
    if not name:
        raise Refused(line, "there is no group")
    return Change(line, stamp[0], names.get(name.casefold(), name), words[word]), stamp[1], word


class Reader:
    """The changes of a table, and the lines of it that can't be read."""

    def __init__(self, words, names, columns):
        self.words, self.names, self.columns = words, names, columns
        self.changes, self.refused, self.notes, self.used = [], [], [], {}
        self.kind, self.days = None, 0

    def take(self, line, fields, places):
        change, kind, word = change_of(line, fields, places, self.words, self.names)
        if self.kind not in (None, kind):
            raise Refused(line, f"a time with {kind}, and with {self.kind} in the lines above")
        change.time += 86_400 * self.days
        if self.changes and change.time < self.changes[-1].time:
            if kind != "clock" or self.changes[-1].time - change.time <= 43_200:
                raise Refused(line, "the time is before that of the line above")
            self.days += 1
            change.time += 86_400
            self.notes.append(f"line {line}: the next day begins")
        self.kind = kind
        self.used.setdefault((self.words[word], word), line)
        self.changes.append(change)

    def read(self, text):
        rows, places = rows_of(text), None
        if rows and (self.columns or is_header(rows[0][1])):
            places = columns_of(rows[0][1], self.columns)
            if places is None:
                self.notes.append("no name of the first line is known, so the columns are taken in the usual order")
            rows = rows[1:]
        for line, fields in rows:
            try:
                self.take(line, fields, places)
            except Refused as refused:
                self.refused.append(refused)
        if not rows:
            raise Refused(1, "there is no line 'time;group;aspect'")

    def check_letters(self):
        """Refuses letters that may mean one thing or another beside the other words of the file."""
        for letter, clear in LETTER.items():
            at = next((line for (_, word), line in self.used.items() if word == letter), None)
            others = [word for aspect, word in self.used if aspect in clear and word not in clear[aspect].split()]
            if at and others and self.words[letter] == ASPECT_OF_WORD[letter]:
                raise Refused(at, f"'{letter.upper()}' beside '{others[0]}' may mean green or amber: --aspects says which")


def with_before(changes):
    """Says of each change what its group showed before, where a line of it is the first one."""
    with_red_amber = {change.name for change in changes if change.aspect == "U"}
    for change in changes:
        green = "U" if change.name in with_red_amber else "R"
        change.before = green if change.aspect == "G" else BEFORE.get(change.aspect)


def wanted_of(given, changes):
    """The groups of the record, in its order; the changes take their names of it."""
    wanted = names_in(given.times) if given.times else given.groups
    if not wanted:
        return list(dict.fromkeys(change.name for change in changes))
    names = {name.lower(): name for name in wanted}
    for change in changes:
        change.name = names.get(change.name.lower(), change.name)
    for name in wanted:
        if not any(change.name == name for change in changes):
            raise Refused(0, f"{name} has no line, so what it showed isn't known")
    return wanted


def words_in(file):
    """The words of aspects of a table."""
    found = {}
    for row in table_of(decoded(file)[0], "word", "aspect"):
        if row["aspect"].lower() not in ASPECTS:
            raise Refused(row["line"], f"'{row['aspect']}' is none of {', '.join(ASPECTS)}")
        found[word_of(row["word"])] = ASPECTS[row["aspect"].lower()]
    return found


def columns(text):
    names = [name.strip() for name in text.split(",")]
    if len(names) not in (3, 4):
        raise argparse.ArgumentTypeError("TIME,GROUP,ASPECT or DAY,TIME,GROUP,ASPECT are wanted")
    return names


def read_words():
    words = argparse.ArgumentParser(description=__doc__, formatter_class=argparse.RawDescriptionHelpFormatter)
    add_words(words)
    words.add_argument("--groups", metavar="K1,K2,..", type=lambda text: text.split(","), help="the groups and their order")
    words.add_argument("--columns", metavar="NAMES", type=columns, help="the names of the columns in the first line")
    words.add_argument("--map", metavar="FILE", help="other names of groups")
    words.add_argument("--aspects", metavar="FILE", help="other words of aspects")
    words.add_argument("changes", metavar="CHANGES", nargs="?", default="/dev/stdin")
    return words.parse_args()


def read_changes(given):
    """The reader that has read the file, and notes of how it was read."""
    names, words = {}, dict(ASPECT_OF_WORD)
    if given.map:
        with told(given.map):
            rows = table_of(decoded(given.map)[0], "group", "name")
            names = {row["group"].casefold(): row["name"] for row in rows}
    if given.aspects:
        with told(given.aspects):
            words.update(words_in(given.aspects))
    reader = Reader(words, names, given.columns)
    with told(given.changes):
        text, code = decoded(given.changes)
        reader.read(text)
        if not reader.refused:
            reader.check_letters()
    if code == "ISO 8859-1":
        reader.notes.insert(0, "read as ISO 8859-1, since it is no UTF-8")
    return reader


def main():
    given = read_words()
    reader = read_changes(given)
    if reader.refused:
        lines = [f"{given.changes}:{refused}" for refused in reader.refused[:TOLD]]
        rest = len(reader.refused) - TOLD
        raise SystemExit("\n".join(lines + ([f"and {rest} more lines that can't be read"] if rest > 0 else [])))
    with told(given.changes):
        wanted = wanted_of(given, reader.changes)
        changes = [change for change in reader.changes if change.name in wanted]
        others = Counter(change.name for change in reader.changes if change.name not in wanted)
        with_before(changes)
        beats = [(change.line, change.time) for change in reader.changes]
        text, notes = written(changes, beats, wanted, given, [f"{number} lines of {name}" for name, number in others.items()])
    write(text, reader.notes + notes)


if __name__ == "__main__":
    main()
