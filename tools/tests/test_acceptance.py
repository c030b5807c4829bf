"""Tests of acceptance.py and of the pictures in it: the report of the german record over what `log_report` answers of it. That
answer is stored beside the record, and a script of this test hands it out; LOG_REPORT=FILE has the report made by that program
too. tools/test.py runs them."""
import os
import re
import shutil
import subprocess
import sys
import tempfile
import unittest
from html.parser import HTMLParser
from pathlib import Path

from records import record_picture
from records.record_picture import Mark

__all__ = ["Acceptance", "RecordPictures"]

HERE = Path(__file__).resolve().parent.parent
GERMAN = HERE / "records" / "german"
STAND_IN = """#!{python}
import sys
if sys.argv[1:] == ["--version"]:
    print("log_report, stored answers")
elif sys.argv[1] == "protocol" or "{breaches}":
    text = open("{folder}/" + sys.argv[1] + ".csv").read()
    sys.stdout.write(text)
    sys.exit(sys.argv[1] == "breaches" and text.count("\\n") > 1)
else:
    print("log_report: times.csv:2: Number", file=sys.stderr)
    sys.exit(5)
"""
VOID = {"meta", "br", "rect", "line"}


def python_with(*modules):
    """A python that has these modules, this one or Debian's; None where none has."""
    for python in (sys.executable, "/usr/bin/python3"):
        words = [python, "-B", "-c", "import " + ", ".join(modules)]
        if Path(python).exists() and subprocess.run(words, capture_output=True).returncode == 0:
            return python
    return None


class Balance(HTMLParser):
    """Whether each element is closed by its own end, and what text stands in the cells of the tables."""

    def __init__(self):
        super().__init__()
        self.open, self.faults, self.rows, self.cell = [], [], [], None

    def handle_starttag(self, tag, attributes):
        if tag == "tr":
            self.rows.append([])
        if tag in ("td", "th"):
            self.cell = []
        if tag not in VOID:
            self.open.append(tag)

    def handle_startendtag(self, tag, attributes):
        pass

    def handle_endtag(self, tag):
        if not self.open or self.open.pop() != tag:
            self.faults.append(f"{tag} at {self.getpos()}")
        if tag in ("td", "th"):
            self.rows[-1].append("".join(self.cell).strip())
            self.cell = None

    def handle_data(self, data):
        if self.cell is not None:
            self.cell.append(data)


class Acceptance(unittest.TestCase):
    def setUp(self):
        folder = tempfile.TemporaryDirectory()
        self.addCleanup(folder.cleanup)
        self.folder = Path(folder.name)

    def stand_in(self, breaches="yes", answers=GERMAN):
        program = self.folder / "log_report"
        program.write_text(STAND_IN.format(python=sys.executable, breaches=breaches, folder=answers), encoding="utf-8")
        program.chmod(0o755)
        return program

    def report(self, name, *words, python=None, program=None):
        """Status, what is told, and the report."""
        python, file = python or python_with("jinja2"), self.folder / name
        if python is None:
            self.skipTest("no python3-jinja2")
        files = [GERMAN / "record.txt", GERMAN / "times.csv", GERMAN / "intergreens.csv"]
        call = [python, "-B", HERE / "acceptance.py", *files, "--to", file, "--program", program or self.stand_in(), *words]
        done = subprocess.run(list(map(str, call)), capture_output=True, text=True)
        return done.returncode, done.stderr, file

    def rows_of(self, file):
        page = Balance()
        page.feed(file.read_text(encoding="utf-8"))
        self.assertEqual((page.faults, page.open), ([], []))
        return page.rows

    def test_the_breaches_of_the_record_by_clock(self):
        status, note, file = self.report("report.html", "--begin", "12.05.2026 07:00:00", "--title", "Market & Mill")
        self.assertEqual((status, note), (1, ""))
        rows = self.rows_of(file)
        at = rows.index(["no.", "time", "at, s", "rule", "breach", "shown,\xa0s", "needed,\xa0s", "place"])
        self.assertEqual(rows[at + 1:at + 9], [
            ["1", "07:04:03.5", "243.5", "sequence", "K2: amber too short", "2.0", "3.0", "1"],
            ["2", "07:04:15.2", "255.2", "minimum green", "K3: green shorter than its minimum", "4.3", "6.0", "1"],
            ["3", "07:06:28.3", "388.3", "intergreen", "F2 green too soon after K3", "3.8", "5.0", "2"],
            ["4", "07:06:31.5", "391.5", "intergreen", "K2 green too soon after F1", "7.0", "8.0", "2"],
            ["5", "07:06:32.4", "392.4", "intergreen", "K1 green too soon after F1", "7.9", "9.0", "2"],
            ["6", "07:12:12.5", "732.5", "intergreen", "F1 green too soon after K1", "4.7", "5.0", "3"],
            ["7", "07:12:12.5", "732.5", "intergreen", "F1 green too soon after K2", "4.7", "6.0", "3"],
            ["8", "07:12:15.8", "735.8", "intergreen", "K3 green too soon after F2", "8.0", "9.0", "3"]])
        marked = [row[:3] for row in rows if row[-1] == "▼ below"]
        self.assertEqual(marked, [["amber", "K2", ""], ["green", "K3", ""], ["intergreen", "K1", "F1"], ["intergreen", "K2", "F1"],
                                  ["intergreen", "K3", "F2"], ["intergreen", "F1", "K1"], ["intergreen", "F1", "K2"],
                                  ["intergreen", "F2", "K3"]])
        text = file.read_text(encoding="utf-8")
        self.assertIn("<title>Market &amp; Mill</title>", text)
        self.assertIn("<strong>8 breaches of the tables</strong> in 3 places", text)
        self.assertIn("1797.7 of 1797.7 s were judged", text)
        self.assertEqual(text.count("<figure>"), 3)
        self.assertEqual(text.count("of 9.0 s</text>"), 2)

    def test_the_sums_of_all_files(self):
        source = GERMAN / "changes.csv"
        (self.folder / "notes.txt").write_text("read as ISO 8859-1\n0.0 is <then>\n", encoding="utf-8")
        _, _, file = self.report("report.html", "--source", source, "--notes", self.folder / "notes.txt")
        rows = {row[0]: row for row in self.rows_of(file) if len(row) == 4 and re.fullmatch("[0-9a-f ]{65}", row[3])}
        wanted = {"source of the record": source, "record": GERMAN / "record.txt", "table of times": GERMAN / "times.csv",
                  "table of intergreens": GERMAN / "intergreens.csv", "program": self.folder / "log_report",
                  "script of this report": HERE / "acceptance.py"}
        self.assertEqual(set(rows), set(wanted))
        for role, path in wanted.items():
            done = subprocess.run(["sha256sum", path], capture_output=True, text=True)
            self.assertEqual((rows[role][2], rows[role][3].replace(" ", "")), (str(path.stat().st_size), done.stdout[:64]), role)
        text = file.read_text(encoding="utf-8")
        self.assertIn("<li>0.0 is &lt;then&gt;</li>", text)
        self.assertIn("log_report, stored answers", text)

    def test_a_log_with_its_plan(self):
        if not python_with("jinja2"):
            self.skipTest("no python3-jinja2")
        log, plan = self.folder / "log", self.folder / "plan.pua"
        log.write_text("VAPLOG 1 K1 K2 K3 F1 F2 ST\n" + "".join(f"{k}|-|RRRRRR|-|-|-\n" for k in range(101, 901)), encoding="ascii")
        plan.write_text("$SIGNAL_GROUPS\n", encoding="ascii")
        call = [python_with("jinja2"), "-B", HERE / "acceptance.py", log, GERMAN / "times.csv", GERMAN / "intergreens.csv", "--plan", plan,
                "--to", self.folder / "log.html", "--program", self.stand_in(), "--begin", "2026-05-12 07:00:00"]
        done = subprocess.run(list(map(str, call)), capture_output=True, text=True)
        self.assertEqual((done.returncode, done.stderr), (1, ""))
        text = (self.folder / "log.html").read_text(encoding="utf-8")
        self.assertIn(f"log_report breaches {log} {plan} {GERMAN}/times.csv {GERMAN}/intergreens.csv --csv", text)
        self.assertIn("07:01:40 to 07:15:00", text)
        self.assertIn("A log of whole seconds doesn't show what falls short by less than a second", text)

    def test_without_a_breach(self):
        answers = self.folder / "answers"
        answers.mkdir()
        came = (GERMAN / "protocol.csv").read_text(encoding="ascii")
        (answers / "protocol.csv").write_text(came + "unknown,,,,2,0.1,9.5,3.0\n", encoding="ascii")
        head = (GERMAN / "breaches.csv").read_text(encoding="ascii").split("\n")[0]
        (answers / "breaches.csv").write_text(head + "\n", encoding="ascii")
        status, note, file = self.report("report.html", program=self.stand_in(answers=answers))
        self.assertEqual((status, note), (0, ""))
        text = file.read_text(encoding="utf-8")
        self.assertIn("<strong>No breach of the tables.</strong>", text)
        self.assertIn("Nothing is known in 2 stretches: the shortest has 0.1 s and was over at 9.5 s, the longest has 3.0 s.", text)
        self.assertNotIn("<figure>", text)

    def test_what_the_program_refuses_is_told(self):
        status, note, file = self.report("report.html", program=self.stand_in(breaches=""))
        self.assertEqual((status, note, file.exists()), (5, "log_report: times.csv:2: Number\n", False))
        status, note, file = self.report("report.html", program=self.folder / "none")
        self.assertEqual((status, file.exists()), (6, False))
        self.assertIn("there is no such program; --program names it", note)
        status, note, _ = self.report("report.txt")
        self.assertEqual(status, 2)
        self.assertIn("--to wants a file that ends with .pdf or .html", note)

    def test_each_page_has_the_title_and_its_number(self):
        python = python_with("jinja2", "weasyprint")
        if python is None or not shutil.which("pdftotext"):
            self.skipTest("no weasyprint or no pdftotext")
        status, _, file = self.report("report.pdf", "--title", "Market and Mill", "--begin", "12.05.2026 07:00:00", python=python)
        text = subprocess.run(["pdftotext", "-layout", file, "-"], capture_output=True, text=True).stdout
        pages = text.split("\f")[:-1]
        self.assertEqual(status, 1)
        self.assertGreater(len(pages), 2)
        for number, page in enumerate(pages, 1):
            self.assertIn("Market and Mill", page)
            self.assertIn(f"page {number} of {len(pages)}", page)

    def test_by_the_program_itself(self):
        program = os.environ.get("LOG_REPORT")
        if not program:
            self.skipTest("LOG_REPORT names no program to make a report by")
        for folder, begin in ((GERMAN, "12.05.2026 07:00:00"), (HERE / "records" / "events", "2026-05-12 07:00:00")):
            files = [folder / "record.txt", folder / "times.csv", folder / "intergreens.csv"]
            done = subprocess.run([program, "breaches", *files, "--csv"], capture_output=True, text=True)
            if done.returncode == 5:
                self.skipTest("LOG_REPORT judges no record in tenths")
            self.assertEqual((done.returncode, done.stdout), (1, (folder / "breaches.csv").read_text(encoding="ascii")))
            call = [python_with("jinja2"), "-B", HERE / "acceptance.py", *files, "--to", self.folder / "own.html", "--begin", begin]
            done = subprocess.run([*map(str, call), "--program", program], capture_output=True, text=True)
            self.assertEqual((done.returncode, done.stderr), (1, ""))
            self.assertTrue(self.rows_of(self.folder / "own.html"))


class RecordPictures(unittest.TestCase):
    """Reading records and drawing them."""

    RECORD = "VAPRECORD 1 K1 K2\n0.0|RR\n3.0|UR\n4.0|GR\r\n9.5|AR\n12.5|?\n14.0|RG\n20.0|-\n"

    def test_reading(self):
        record = record_picture.read_record(self.RECORD)
        self.assertEqual((record.names, record.first, record.end, record.unknown()), (["K1", "K2"], 0, 200, 15))
        self.assertEqual(record_picture.bars_of(record, 0, 10, 140),
                         [(10, 30, "R", (0, 30)), (30, 40, "U", (30, 40)), (40, 95, "G", (40, 95)), (95, 125, "A", (95, 125)),
                          (125, 140, "?", (125, 140))])
        self.assertEqual(record_picture.bars_of(record, 1, 40, 60), [(40, 60, "R", (30, 125))])
        log = record_picture.read_record("VAPLOG 1 K1\n7|-|R|-|-|-\n8|-|G|-|-|-\n")
        self.assertEqual((log.lines, log.end, log.is_log), ([(70, "R"), (80, "G")], 90, True))
        for text, cause in (("x", "1: this is neither"), ("VAPRECORD 1 K1\n0.0|R\n", "3: the record has no end"),
                            ("VAPRECORD 1 K1\n0|R\n", "2: this is no line of a record")):
            with self.assertRaises(record_picture.Refused) as caught:
                record_picture.read_record(text)
            self.assertTrue(str(caught.exception).startswith(cause))

    def test_a_picture_has_each_group_and_each_mark(self):
        record = record_picture.read_record(self.RECORD)
        marks = [Mark(1, "1: minimum green, 5.5 of 6.0 s", 40, 95, 100, ["K1"]), Mark(2, "2: intergreen", 95, 140, 150, [], ["K1", "K2"])]
        svg = record_picture.picture(record, 20, 190, marks, {"K1": 60}, lambda at: f"c{at}", "a & b")
        self.assertIn("<title>a &amp; b</title>", svg)
        for word in ("K1", "K2", "1: minimum green, 5.5 of 6.0 s", "2: intergreen", "5.5", "c100"):
            self.assertIn(f">{word}</text>", svg)
        self.assertEqual(svg.count('stroke-width="2.4"'), 3)  # the frame, and both lines of what was shown
        self.assertNotIn("nan", svg)


if __name__ == "__main__":
    unittest.main()
