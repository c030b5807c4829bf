#!/usr/bin/env python3
"""acceptance.py [OPTIONS] RECORD TIMES INTERGREENS --to REPORT

Writes the report of a record that was judged by its tables, to hand in: REPORT.pdf to print, or REPORT.html, each one file that
needs nothing beside it. It calls `log_report breaches` and `log_report protocol` over the same three files and tells what they
answer: the verdict; what was judged, by which tables, with the checksums of all files and of the program; the groups in
conflict; each breach by time of the day; what came beside the tables, with what falls below them marked; a picture of each
place with the seconds around it; and what of all this is proved, and what isn't.

RECORD is a record in tenths (VAPRECORD 1) or a log (VAPLOG 1), which --plan PUA gives its plan. --begin TIME, as 12.05.2026 07:00:00, is the moment of its time
0.0 (of a log: the begin of second 1); without it times are seconds of the record alone. --source FILE names a file of which the
record was made, for its checksum; --notes FILE holds what the converter told of it on standard error. --program FILE is the
log_report to call, else the one that is found by its name.

Needs Debian's python3-jinja2, for a PDF also weasyprint. The status is that of `breaches`: 0 where there are none, 1 where
there are some, else more, with its note."""
import argparse
import csv
import datetime
import hashlib
import re
import shutil
import subprocess
import sys
from dataclasses import dataclass
from fractions import Fraction
from pathlib import Path

from common.reading import Refused, decoded, moment, stamp_of, table_of, told, whole_from
from records.record_picture import Mark, legend, picture, read_record, tenths_of

HERE = Path(__file__).resolve().parent
RULES = {"Sequence": "sequence", "MinGreen": "minimum green", "MinRed": "minimum red", "Conflict": "conflict", "Intergreen": "intergreen"}
WHATS = {"green": "green", "red": "red", "red_amber": "red-amber", "amber": "amber", "intergreen": "intergreen"}
LETTERS = {"R": "red", "U": "red-amber", "G": "green", "A": "amber"}
BEFORE, AFTER, MOST_WINDOW = 100, 80, 900  # tenths around a breach, and of a picture with several of them
MATRIX = 14  # groups up to which the intergreens stand as a matrix
DEBIAN = {"jinja2": "python3-jinja2", "weasyprint": "weasyprint"}
SHOWN_GROUPS = 24  # rows of a picture up to which all groups are drawn


class Failed(Exception):
    """A call of the program that told no table: its status and its note."""


@dataclass
class Breach:
    number: int
    row: dict
    at: int
    begin: int | None
    length: int | None
    needed: int | None
    place: int = 0

    @property
    def groups(self):
        return [name for name in (self.row["group"], self.row["other"]) if name]


def called(program, *words):
    """The rows of a table that the program writes, its status, and the call as one would type it."""
    call = [program, *map(str, words), "--csv"]
    done = subprocess.run(call, capture_output=True, text=True, stdin=subprocess.DEVNULL)
    if done.returncode not in (0, 1):
        raise Failed(done.returncode, done.stderr.strip() or f"{program} ended with status {done.returncode}")
    return list(csv.DictReader(done.stdout.splitlines())), done.returncode, " ".join(["log_report", *call[1:]])


def amount(text):
    return tenths_of(text) if text else None


def breaches_of(rows):
    return [Breach(number, row, tenths_of(row["second"]), amount(row["since"]), amount(row["seconds"]), amount(row["needed"]))
            for number, row in enumerate(rows, 1)]


def sentence_of(row):
    """A breach in words, without its times."""
    group, other, shown = row["group"], row["other"], row["shown"]
    if row["rule"] == "Intergreen":
        return f"{group} green too soon after {other}"
    if row["rule"] == "Conflict":
        return f"{group} and {other}, in conflict, both red-amber or green"
    if row["rule"] in ("MinGreen", "MinRed"):
        return f"{group}: {LETTERS[shown]} shorter than its minimum"
    if len(shown) == 2:
        return f"{group}: {LETTERS[shown[1]]} after {LETTERS[shown[0]]}, which may not follow"
    return f"{group}: {LETTERS[shown]} too {'short' if tenths_of(row['seconds']) < tenths_of(row['needed']) else 'long'}"


def mark_of(breach):
    """How a breach is marked in a picture."""
    row, end = breach.row, breach.at
    begin = breach.begin if breach.begin is not None else end - (breach.length or 0)
    text = f"{breach.number}: {RULES[row['rule']]}"
    if row["seconds"]:
        text += f", {row['seconds']} {'of ' + row['needed'] if row['needed'] else ''} s".replace("  ", " ")
    needed = begin + breach.needed if breach.needed is not None else None
    if row["rule"] == "Intergreen":
        return Mark(breach.number, text, begin, end, needed, [], [row["other"], row["group"]])
    if row["rule"] == "Sequence" and len(row["shown"]) == 2:
        return Mark(breach.number, text, end, end, None, [row["group"]])
    return Mark(breach.number, text, begin, end, needed, breach.groups)


def places_of(breaches, record):
    """The breaches by places: those whose seconds lie over each other stand in one picture."""
    places = []
    for breach in sorted(breaches, key=lambda one: one.at):
        mark = mark_of(breach)
        begin = max(record.first, max(mark.begin, mark.end - MOST_WINDOW + BEFORE + AFTER) - BEFORE)
        end = min(max(record.end, begin + 10), max(mark.end, min(mark.needed or 0, mark.end + AFTER)) + AFTER)
        if places and begin <= places[-1][1] and end - places[-1][0] <= MOST_WINDOW:
            places[-1][1] = max(places[-1][1], end)
            places[-1][2].append(breach)
        else:
            places.append([begin, max(end, begin + 10), [breach]])
        breach.place = len(places)
    return places


def checksum(file):
    with open(file, "rb") as opened:
        return hashlib.file_digest(opened, "sha256").hexdigest()


class Report:
    """What the page of the report is made of."""

    def __init__(self, given):
        self.given = given
        with told(given.record):
            self.record = read_record(decoded(given.record)[0])
        with told(given.times):
            self.times = table_of(decoded(given.times)[0], "group", "min_green", "red_amber", "amber")
        with told(given.intergreens):
            self.pairs = table_of(decoded(given.intergreens)[0], "from", "to", "seconds")
        self.program = shutil.which(given.program)
        if self.program is None:
            raise Failed(6, f"{given.program}: there is no such program; --program names it")
        files = [given.record, *([given.plan] if given.plan else []), given.times, given.intergreens]
        tolerance = ["--amber-tolerance", given.amber_tolerance] if given.amber_tolerance else []
        rows, self.status, self.judged = called(self.program, "breaches", *files, *tolerance)
        self.came, _, self.protocol = called(self.program, "protocol", *files)
        self.breaches = breaches_of(rows)
        self.places = places_of(self.breaches, self.record)

    def second(self, at):
        """A time of the record as the program tells it."""
        return str(at // 10) if self.record.is_log else f"{at // 10}.{at % 10}"

    def moment(self, at):
        """A time of the record as moment, where --begin tells it."""
        return self.given.begin + Fraction(at - (10 if self.record.is_log else 0), 10)

    def clock(self, at):
        """The time of the day, or the second where the begin isn't known."""
        if self.given.begin is None:
            return ""
        return stamp_of(self.moment(at) % 86_400, 0 if self.record.is_log else 1)

    def day(self):
        """The days of the record, in words."""
        if self.given.begin is None or self.given.begin < 86_400:
            return ""
        days = [str(stamp_of(self.moment(at))).split(" ")[0] for at in (self.record.first, self.record.end)]
        return days[0] if days[0] == days[1] else f"{days[0]} to {days[1]}"

    def date(self, at):
        """The day of a time, where the record has more than one."""
        return stamp_of(self.moment(at)).split(" ")[0] + " " if " to " in self.day() else ""

    def files(self):
        """The rows of the table of files: role, name, bytes, checksum."""
        given = self.given
        sources, plans = [("source of the record", file) for file in given.source], [("plan", given.plan)] if given.plan else []
        tables = [("table of times", given.times), ("table of intergreens", given.intergreens)]
        named = [*sources, ("record", given.record), *plans, *tables, ("program", self.program), ("script of this report", __file__)]
        return [(role, Path(file).name if role != "program" else str(file), Path(file).stat().st_size, checksum(file)) for role, file in named]

    def version(self):
        done = subprocess.run([self.program, "--version"], capture_output=True, text=True, stdin=subprocess.DEVNULL)
        return done.stdout.strip().splitlines()[0] if done.returncode == 0 and done.stdout.strip() else "not told"

    def conflicts(self):
        """Of each two groups in conflict both intergreens, and the matrix of all where the groups are few."""
        spelled = {name.lower(): name for name in self.record.names}
        found = {(spelled.get(row["from"].lower(), row["from"]), spelled.get(row["to"].lower(), row["to"])): row["seconds"] for row in self.pairs}
        names = self.record.names
        pairs = [(one, other, found[one, other], found.get((other, one), "")) for k, one in enumerate(names)
                 for other in names[k + 1:] if (one, other) in found]
        return found, pairs if len(names) > MATRIX else []

    def rows(self):
        """What came beside the tables: each row with its mark."""
        slack = amount(str(self.given.amber_tolerance or 0))
        told_rows = []
        for row in self.came:
            if row["what"] not in WHATS:
                continue
            mark, needed = "", amount(row["needed"])
            loose = slack if row["what"] in ("amber", "red_amber") else 0
            if row["shortest"] and needed is not None and tenths_of(row["shortest"]) + loose < needed:
                mark = "below"
            elif row["longest"] and row["what"] in ("amber", "red_amber") and tenths_of(row["longest"]) > needed + loose:
                mark = "above"
            at = tenths_of(row["second"]) if row["second"] else None
            told_rows.append({**row, "what": WHATS[row["what"]], "mark": mark, "clock": self.clock(at) if at is not None else ""})
        return told_rows

    def groups_of(self, breaches):
        """The groups of a picture: all, or where they are many those of the breaches and the ones in conflict with them."""
        names = self.record.names
        if len(names) <= SHOWN_GROUPS:
            return names
        wanted = {name for breach in breaches for name in breach.groups}
        near = {row["to"].lower() for row in self.pairs if row["from"].lower() in {name.lower() for name in wanted}}
        return [name for name in names if name in wanted or name.lower() in near][:SHOWN_GROUPS] or names[:SHOWN_GROUPS]

    def pictures(self):
        least = {row["group"]: tenths_of(row["min_green"]) for row in self.times if re.fullmatch(r"[0-9]+(\.[0-9])?", row["min_green"])}
        least = {name: least[key] for name in self.record.names for key in least if key.lower() == name.lower()}
        clock = (lambda at: stamp_of(self.moment(at) % 86_400)) if self.given.begin is not None else None
        for number, (begin, end, breaches) in enumerate(self.places[:self.given.pictures], 1):
            marks, names = [mark_of(breach) for breach in breaches], self.groups_of(breaches)
            for breach, mark in zip(breaches, marks):
                mark.framed = [name for name in mark.framed if name in names]
                mark.joined = [name for name in mark.joined if name in names]
            title = f"Place {number}: " + "; ".join(sentence_of(breach.row) for breach in breaches)
            yield number, begin, end, breaches, picture(self.record, begin, end, marks, least, clock, title, names)

    def page(self):
        """The report as HTML."""
        import jinja2
        loader = jinja2.FileSystemLoader(HERE / "records")
        page = jinja2.Environment(loader=loader, autoescape=True, trim_blocks=True, lstrip_blocks=True).get_template("acceptance.html")
        notes = [Path(file).read_text(encoding="utf-8", errors="replace").splitlines() for file in self.given.notes]
        found, pairs = self.conflicts()
        length, unknown = self.record.end - self.record.first, self.record.unknown()
        together = [{**row, "clock": self.clock(tenths_of(row["second"]))} for row in self.came if row["what"] == "no_intergreen"]
        return page.render(report=self, given=self.given, record=self.record, rules=RULES, sentence=sentence_of, legend=legend(),
                           length=self.second(length), unknown=self.second(unknown), judged=self.second(length - unknown), notes=sum(notes, []),
                           found=found, pairs=pairs, together=together, conflicting=len(found) // 2,
                           today=datetime.datetime.now().astimezone().strftime("%Y-%m-%d %H:%M %Z"))


def seconds(text):
    if not re.fullmatch(r"[0-9](\.[0-9])?", text):
        raise argparse.ArgumentTypeError(f"'{text}' is no number from 0 to 9 with one decimal at most")
    return text


def read_words():
    words = argparse.ArgumentParser(description=__doc__, formatter_class=argparse.RawDescriptionHelpFormatter)
    for name in ("record", "times", "intergreens"):
        words.add_argument(name, metavar=name.upper())
    words.add_argument("--to", required=True, metavar="REPORT", help="the file to write, .pdf or .html")
    words.add_argument("--title", default="Record of a signal controller, judged by its tables", metavar="TEXT")
    words.add_argument("--begin", type=moment, metavar="TIME", help="the moment of time 0.0 of the record, or of second 1 of a log")
    words.add_argument("--plan", metavar="PUA", help="the PUA file of the junction, which a log may be judged with")
    words.add_argument("--source", action="append", default=[], metavar="FILE", help="a file of which the record was made")
    words.add_argument("--notes", action="append", default=[], metavar="FILE", help="what the converter told")
    words.add_argument("--amber-tolerance", type=seconds, metavar="N", help="as of `log_report breaches`")
    words.add_argument("--program", default="log_report", metavar="FILE", help="the log_report to call")
    words.add_argument("--most", type=whole_from(1, 100_000), default=1000, metavar="N", help="breaches to list, else 1000")
    words.add_argument("--pictures", type=whole_from(0, 1000), default=60, metavar="N", help="places to draw, else 60")
    given = words.parse_args()
    if not given.to.endswith((".pdf", ".html")):
        words.error("--to wants a file that ends with .pdf or .html")
    return given


def write(page, file):
    if file.endswith(".html"):
        Path(file).write_text(page, encoding="utf-8")
    else:
        import weasyprint
        weasyprint.HTML(string=page).write_pdf(file)


def main():
    given = read_words()
    try:
        report = Report(given)
    except Failed as failed:
        print(failed.args[1], file=sys.stderr)
        return failed.args[0]
    except OSError as fault:
        print(f"{fault.filename}: {fault.strerror}", file=sys.stderr)
        return 6
    try:
        write(report.page(), given.to)
    except ImportError as fault:
        print(f"{fault.name} isn't there for {sys.executable}: Debian has it as {DEBIAN[fault.name]} for /usr/bin/python3", file=sys.stderr)
        return 6
    return report.status


if __name__ == "__main__":
    sys.exit(main())
