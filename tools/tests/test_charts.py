"""Tests of charts.py: the numbers that it reckons, by hand and on the logs of examples, and that each chart is drawn with what it
has to show. tools/test.py runs them."""
import json
import subprocess
import tempfile
import unittest
import xml.etree.ElementTree as tree
from pathlib import Path

from drawing import chart_data as data
from common import reading
from test_acceptance import python_with

__all__ = ["ChartNumbers", "ChartPictures"]

HERE = Path(__file__).resolve().parent.parent
EXAMPLES = HERE.parent / "crates" / "test_told" / "data"
HEAD = "second,stage,lasted,to,line,test_line,block,answer,term,term_line,held,alone,text\n"
ENDS = HEAD + """30,1,30,2,9,7,0,yes,1,7,yes,yes,"Stage_active(1)"
30,1,30,2,9,8,0,yes,1,8,no,no,"Headway(1) > gap"
30,1,30,2,9,8,0,yes,2,8,yes,yes,"Stage_duration(1) >= most"
50,2,14,1,14,13,0,yes,1,13,yes,yes,"Headway(4) > gap"
50,2,14,1,14,13,0,yes,2,13,yes,yes,"Headway(5) > gap"
50,2,14,1,14,13,0,yes,3,13,no,no,"Stage_duration(2) >= most"
80,1,30,2,9,8,0,yes,1,8,yes,no,"Headway(1) > gap"
80,1,30,2,9,8,0,yes,2,8,yes,no,"Stage_duration(1) >= most"
95,2,15,1,20,,,,,,,,
"""
# makes many calls of charts.py in one process, and tells of each its status and what it wrote to standard error
CALLS = """
import contextlib, io, json, sys
sys.path.insert(0, sys.argv[1])
import charts
answers = []
for words in json.load(sys.stdin):
    sys.argv, told = ["charts.py", *words], io.StringIO()
    with contextlib.redirect_stderr(told):
        try:
            status = charts.main()
        except SystemExit as end:
            status = end.code
            if isinstance(status, str):
                status, note = 1, status + chr(10)
                told.write(note)
    answers.append((status, told.getvalue()))
print(json.dumps(answers))
"""
SUMS = """from,to,line,name,key,value
1,3600,GROUP,K1,mean,22.8
1,3600,PERCENTILES,K1,green_15,16
1,3600,PERCENTILES,K1,green_50,25
1,3600,PERCENTILES,K1,green_85,29
1,3600,PERCENTILES,K1,green_95,31
1,3600,SERVES,1:K1,mean_wait,9.5
1,3600,SERVES,1:K1,wait_15,1
1,3600,SERVES,1:K1,wait_50,8
1,3600,SERVES,1:K1,wait_85,20
1,3600,SERVES,1:K1,wait_95,33
3601,7200,GROUP,K2,share,12.5
"""


def log(aspects, fronts=None):
    """Names and seconds of a log of one group, with the fronts of detector 1 by second."""
    records = [(k, letter, [(1, (fronts or {})[k], 0)] if k in (fronts or {}) else []) for k, letter in enumerate(aspects, 1)]
    return ["K1"], records


class ChartNumbers(unittest.TestCase):
    def test_what_ended_a_stage(self):
        rows = data.table(ENDS, "second")
        self.assertEqual([(end.second, end.stage, end.lasted, end.cause) for end in data.ends_of(rows)],
                         [(30, 1, 30, "Stage_duration(..) >= most"), (50, 2, 14, "Headway(..) > gap"),
                          (80, 1, 30, "Headway(..) > gap, Stage_duration(..) >= most"), (95, 2, 15, "line 20")])
        named = data.ends_of(rows, [("maximum", "most"), ("gap", "Headway")])
        self.assertEqual([end.cause for end in named], ["maximum", "gap", "maximum", "line 20"])
        plain = data.table("second,stage,lasted,to,line\n30,1,30,2,9\n", "second", "line")
        self.assertEqual(data.ends_of(plain), [data.End(30, 1, 30, "line 9")])
        with self.assertRaises(reading.Refused):
            data.table("a,b\n1,2\n", "second")

    def test_cycles_from_end_to_end_of_green(self):
        names, records = log("RGGRRRGGGRRG", {2: 1, 4: 1, 7: 2, 10: 1})
        self.assertEqual(data.greens_of(names, records, "K1"), [(2, 4), (7, 10), (12, 13)])
        cycles = data.cycles_of(names, records, "K1", {1})
        self.assertEqual(cycles, [data.Cycle(4, 10, [(3, 6)], [(0, False), (3, True), (3, True)])])
        self.assertEqual(data.numbers_of(cycles), (3, 2 / 3, 0.5, 4 / 3))
        later = data.cycles_of(names, records, "K1", {1}, travel=2)
        self.assertEqual(later[0].arrivals, [(0, False), (2, False), (5, True), (5, True)])

    def test_fixed_cycles(self):
        names, records = log("RGGRRGGRRG", {3: 1, 8: 1})
        cycles = data.cycles_of(names, records, "K1", {1}, cycle=4, offset=6)
        self.assertEqual(cycles, [data.Cycle(2, 6, [(0, 2)], [(1, True)]), data.Cycle(6, 10, [(0, 2)], [(2, False)])])
        with self.assertRaises(reading.Refused):
            data.greens_of(names, records, "K9")

    def test_a_green_wave_has_its_bands(self):
        """The junctions of the example are 20 seconds apart, and a platoon of the first finds green at the second."""
        greens = []
        for part in ("west", "east"):
            names, records = reading.log_of((EXAMPLES / "green_wave" / part / "log.txt").read_text(encoding="ascii"))
            greens.append(data.greens_of(names, records, "K1"))
        bands = data.bands_of(greens, [0, 20], 1, 241)
        self.assertEqual(bands[:1], [data.Band(4, 22)])  # greens 4 to 21, and from second 24 on at the second junction
        for band in bands:
            for moment in (band.begin, band.end - 0.5):
                self.assertTrue(any(a <= moment < b for a, b in greens[0]) and any(a <= moment + 20 < b for a, b in greens[1]))

    def test_percentiles_and_heat(self):
        rows = data.table(SUMS, "from")
        self.assertEqual(data.percentiles_of(rows, "green"), {"K1": {15: 16, 50: 25, 85: 29, 95: 31, "mean": 22.8}})
        self.assertEqual(data.percentiles_of(rows, "wait"), {"1:K1": {15: 1, 50: 8, 85: 20, 95: 33, "mean": 9.5}})
        heat = data.heat_of(rows, "GROUP", "K2", "share", 23 * 3600)
        self.assertEqual(heat, [[12.5] + [None] * 23])
        self.assertEqual(data.heat_of(rows, "GROUP", "K2", "share", 0)[0][1], 12.5)
        with self.assertRaises(reading.Refused):
            data.heat_of(rows, "GROUP", "K3", "share", 0)


class ChartPictures(unittest.TestCase):
    def setUp(self):
        folder = tempfile.TemporaryDirectory()
        self.addCleanup(folder.cleanup)
        self.folder = Path(folder.name)
        self.python = python_with("matplotlib")
        if self.python is None:
            self.skipTest("no python3-matplotlib")
        (self.folder / "ends.csv").write_text(ENDS, encoding="ascii")
        (self.folder / "sums.csv").write_text(SUMS, encoding="ascii")

    def calls(self, calls):
        """Status and note of each call, all made in one process."""
        calls = [[str(word) for word in words] for words in calls]
        done = subprocess.run([self.python, "-B", "-c", CALLS, HERE], input=json.dumps(calls), capture_output=True, text=True)
        self.assertEqual((done.returncode, done.stderr), (0, ""))
        return [tuple(told) for told in json.loads(done.stdout)]

    def drawn(self, cases):
        """The words of each chart, drawn as SVG."""
        files = [self.folder / f"chart{k}.svg" for k in range(len(cases))]
        told = self.calls([[*words, "--to", file] for words, file in zip(cases, files)])
        self.assertEqual(told, [(0, "")] * len(cases))
        return [[text.strip() for text in tree.parse(file).getroot().itertext() if text.strip()] for file in files]

    def test_each_chart_tells_what_it_shows(self):
        log_file = EXAMPLES / "green_wave" / "west" / "log.txt"
        east = EXAMPLES / "green_wave" / "east" / "log.txt"
        folder = self.folder
        cases = [
            (["ended", folder / "ends.csv", "--cause", "maximum=most", "--minimum", "10", "--maximum", "1:30,2:20", "--begin", "07:00"
              ":00"], ["What ended each stage, and how long it lasted", "maximum (2)", "minimum, 10 s", "07:00", "50 % line 20"]),
            (["arrivals", log_file, "--serves", "1:K1", "--cycle", "60"], ["came in green", "4 cycles", "platoon ratio"]),
            (["arrivals", log_file, "--serves", "1:K1", "--title", "West"], ["West"]),
            (["percentiles", folder / "sums.csv"], ["K1", "16   25   29   31"]),
            (["percentiles", folder / "sums.csv", "--what", "wait"], ["1:K1", "1    8   20   33"]),
            (["heat", folder / "sums.csv", "--show", "GROUP:K2:share", "--begin", "2026-05-11 06:00:00"], ["2026-05-11", "12.5"]),
            (["way", f"{log_file}:K1:0", f"{east}:K1:278", "--speed", "50"], ["west", "278 m", "Time and way at 50 km/h"]),
            (["way", f"{log_file}:K1,K2:0", f"{east}:K1,K2:278"], ["K1, K2"]),
        ]
        for (words, wanted), told in zip(cases, self.drawn([words for words, _ in cases])):
            for word in wanted:
                self.assertTrue(any(word in text for text in told), f"{words}: {word} isn't among {told}")

    def test_a_junction_of_a_net(self):
        text = (EXAMPLES / "green_wave" / "west" / "log.txt").read_text(encoding="ascii")
        (self.folder / "net.txt").write_text(f"JUNCTION 1 0\n{text}JUNCTION 2 0\n{text}", encoding="ascii")
        self.assertIn("4 cycles", self.drawn([["arrivals", f"{self.folder}/net.txt#2", "--serves", "1:K1", "--cycle", "60"]])[0])

    def test_pdf_and_png(self):
        files = [self.folder / "chart.pdf", self.folder / "chart.png"]
        told = self.calls([["percentiles", self.folder / "sums.csv", "--to", file] for file in files])
        self.assertEqual(told, [(0, "")] * 2)
        self.assertEqual([file.read_bytes()[:4] for file in files], [b"%PDF", b"\x89PNG"])

    def test_refusals(self):
        folder = self.folder
        (folder / "empty.csv").write_text(HEAD, encoding="ascii")
        cases = [(["ended", folder / "empty.csv"], 1, f"{folder}/empty.csv: no stage ended\n"),
                 (["ended", folder / "sums.csv"], 1, f"{folder}/sums.csv:1: the first line doesn't have the columns second, stage, lasted, line\n"),
                 (["percentiles", folder / "ends.csv"], 1, "doesn't have the columns"),
                 (["arrivals", folder / "sums.csv", "--serves", "1:K1"], 1, f"{folder}/sums.csv:1: there is no header"),
                 (["arrivals", folder / "sums.csv", "--serves", "K1"], 2, "isn't DETECTORS:GROUP"),
                 (["way", "x:K1"], 2, "isn't LOG:GROUP:METRES")]
        cases.append((["percentiles", folder / "sums.csv", "--to", folder / "no.txt"], 2, "ends with .svg, .pdf or .png"))
        told_of = self.calls([words if "--to" in words else [*words, "--to", folder / "no.svg"] for words, _, _ in cases])
        for (words, status, note), (got, told) in zip(cases, told_of):
            self.assertEqual(got, status, f"{words}: {told}")
            self.assertIn(note, told)
        self.assertFalse((folder / "no.svg").exists())


if __name__ == "__main__":
    unittest.main()
