"""Tests of the scripts that make a site's files of tables and of events; tools/test.py runs them."""
import subprocess
import sys
import tempfile
import unittest
from fractions import Fraction
from pathlib import Path

import detectors_from_events as events
import intergreens_from_matrix as matrix

__all__ = ["Matrix", "Events"]

HERE = Path(__file__).resolve().parent.parent


def run(script, text, *words):
    """Status, output and standard error of a script over a file with this text, named FILE in what it says."""
    with tempfile.NamedTemporaryFile("w", encoding="utf-8", suffix=".csv") as file:
        file.write(text)
        file.flush()
        done = subprocess.run([sys.executable, "-B", str(HERE / script), *words, file.name], capture_output=True, text=True)
        return done.returncode, done.stdout, done.stderr.replace(file.name, "FILE")


class Matrix(unittest.TestCase):
    def pairs(self, text, transposed=False):
        return matrix.pairs_of(*matrix.matrix_of(text), transposed)

    def refused(self, text, said):
        with self.assertRaises(matrix.Refused) as stop:
            self.pairs(text)
        self.assertEqual(str(stop.exception), said)

    def test_commas_and_semicolons(self):
        pairs = [("K1", "K2", "5"), ("K2", "K1", "4")]
        self.assertEqual(self.pairs("from,K1,K2,K3\nK1,-,5,\nK2,4,,-\nK3,,,\n"), pairs)
        self.assertEqual(self.pairs(";K1;K2\r\n\r\nK1; ; 5\r\nk2;4;-\r\n"), pairs)

    def test_transposed(self):
        self.assertEqual(self.pairs(";A;B\nA;;7\nB;3;\n", True), [("B", "A", "7"), ("A", "B", "3")])

    def test_tenths(self):
        self.assertEqual(self.pairs(";A;B\nA;;4,5\nB;3,0;\n"), [("A", "B", "4.5"), ("B", "A", "3")])
        told = "tenths of a second: these intergreens are for `log_report` over records alone\n"
        self.assertEqual(run("intergreens_from_matrix.py", ",A,B\nA,,4.5\nB,3,\n"), (0, "from,to,seconds\nA,B,4.5\nB,A,3\n", told))

    def test_no_conflict_at_all(self):
        self.assertEqual(self.pairs(",A,B\nA,,\nB,,\n"), [])

    def test_refusals(self):
        self.refused("", "1: there is no line with the names of the groups")
        self.refused(",A,a\n", "1: a stands twice")
        self.refused(",A,2B\n", "1: '2B' is no name of a group: a letter or _, then letters, digits and _, 32 in all at most")
        self.refused(",A,B\nA,,1\n", "1: B has no line of its own")
        self.refused(",A\nA,\nB,\n", "3: B has no column")
        self.refused(",A,B\nA,,1\nA,,1\n", "3: A stands twice")
        self.refused(",A,B\nA,,1,2\nB,1,\n", "2: 4 fields, where the first line has 3")
        self.refused(",A,B\nA,,5.55\nB,1,\n", "2: '5.55' (A to B) is no number from 0 to 99 with one decimal at most")
        self.refused(",A,B\nA,,100\nB,1,\n", "2: '100' (A to B) is no number from 0 to 99 with one decimal at most")
        self.refused(",A,B\nA,,99.1\nB,1,\n", "2: '99.1' (A to B) is no number from 0 to 99 with one decimal at most")
        self.refused(",A,B\nA,0,1\nB,1,\n", "2: A has an intergreen with itself")
        self.refused(",A,B\nA,,\n\nB,1,\n", "4: B and A conflict one way only")

    def test_pairs_in_no_conflict_are_told(self):
        told = "no conflict: K1 and K3\nno conflict: K2 and K3\n"
        text = "from,K1,K2,K3\nK1,-,5,\nK2,4,,-\nK3,,,\n"
        self.assertEqual(run("intergreens_from_matrix.py", text), (0, "from,to,seconds\nK1,K2,5\nK2,K1,4\n", told))

    def test_the_script(self):
        self.assertEqual(
            run("intergreens_from_matrix.py", "\ufeff;K1;K2\nK1;;5\nK2;4;\n"), (0, "from,to,seconds\nK1,K2,5\nK2,K1,4\n", "")
        )
        self.assertEqual(
            run("intergreens_from_matrix.py", ",A,B\nA,,x\nB,1,\n"), (1, "", "FILE:2: 'x' (A to B) is no number from 0 to 99 with one decimal at most\n")
        )


class Events(unittest.TestCase):
    def refused(self, text, said, **more):
        with self.assertRaises(events.Refused) as stop:
            events.lines_of(text, **more)
        self.assertEqual(str(stop.exception), said)

    def test_seconds(self):
        text = "time,detector,state\n0.2,2,on\n0.9,2,off\n0.95,1,ON\n\n2,1,off\n2;2;on\n2.5,2,off\n2.6,2,on\n"
        self.assertEqual(events.lines_of(text), ["1:1:0 2:1:1", "", "1:0:1 2:2:1"])

    def test_clock(self):
        text = "07:00:12.4,3,on\n07:00:14,3,off\n"
        self.assertEqual(events.lines_of(text), ["3:1:0", "", "3:0:1"])
        self.assertEqual(events.lines_of(text, start=Fraction(7 * 3600 + 11), seconds=5), ["", "3:1:0", "", "3:0:1", ""])

    def test_a_moment_on_the_border_is_exact(self):
        self.assertEqual(events.lines_of("0.3,1,on\n", start=Fraction("0.3")), ["1:1:0"])

    def test_no_events(self):
        self.assertEqual(events.lines_of("time,detector,state\n"), [])
        self.assertEqual(events.lines_of("", seconds=2), ["", ""])

    def test_refusals(self):
        self.refused("1,1\n", "1: 2 fields, where time, detector and on or off are wanted")
        self.refused("7:1:1,1,on\n", "1: '7:1:1' is no time, as 12.4 or 07:00:12.4")
        self.refused("1,65,on\n", "1: '65' is no detector from 1 to 64")
        self.refused("1,D1,on\n", "1: 'D1' is no detector from 1 to 64")
        self.refused("1,1,in\n", "1: 'in' is neither on nor off")
        self.refused("1,1,on\n07:00:12,1,off\n", "2: a number of seconds and a clock's time in one file")
        self.refused("2,1,on\n1,1,off\n", "2: the time is before that of the line above")
        self.refused("1,1,on\n2,1,on\n", "2: detector 1 goes on, and is on already")
        self.refused("1,1,off\n", "1: detector 1 goes off, and was not on: give it an 'on' before")
        self.refused("1,1,on\n", "1: the event is before second 1", start=Fraction(2))
        self.refused("5,1,on\n", "1: the event is in second 6, after the last one, 5", seconds=5)
        self.refused("604800,1,on\n", "1: the event is in second 604801, after the last one, 604800")
        self.refused("1,1,on\n1,1,off\n" * 100, "199: detector 1 has more than 99 vehicles in second 2")

    def test_the_script(self):
        self.assertEqual(run("detectors_from_events.py", "1,1,on\n", "--seconds", "3"), (0, "\n1:1:0\n\n", ""))
        self.assertEqual(run("detectors_from_events.py", "x,1,on\n"), (1, "", "FILE:1: 'x' is no time, as 12.4 or 07:00:12.4\n"))


if __name__ == "__main__":
    unittest.main()
