"""python3 -m unittest, with EXAMPLES naming crates/junction/examples, and LOGS a folder of NAME.log by `junction run`."""
import os
import pathlib
import unittest
from unittest import mock

import vantulig
from vantulig import Controller, Ended, NoNames, NotTaken, Record, Refused

EXAMPLES = pathlib.Path(os.environ.get("EXAMPLES", "crates/junction/examples"))
LOGS = pathlib.Path(os.environ.get("LOGS", "."))
FOUR = [EXAMPLES / "four_arms" / name for name in ("four_arms.vap", "junction.pua", "times.csv", "intergreens.csv")]


def counts_of(line):
    return {int(d): (int(f), int(r)) for d, f, r in (entry.split(":") for entry in line.split())}


class Logs(unittest.TestCase):
    def test_examples(self):
        """the log of each example, byte for byte"""
        tried = 0
        for words in sorted(LOGS.glob("*.words")):
            program, pua, times, intergreens, detectors = words.read_text().split()
            lines = pathlib.Path(detectors).read_text().splitlines()
            code = words.with_suffix(".code")
            for way, source in ((Controller.open, program), (Controller.open_code, code)):
                with self.subTest(words.stem, way=way.__name__), way(source, pua, times, intergreens) as c:
                    text = c.header() + "".join(c.step(counts_of(line)).line() for line in lines)
                    self.assertEqual(text, words.with_suffix(".log").read_text())
                    tried += 1
        self.assertGreater(tried, 0)


class Calls(unittest.TestCase):
    def setUp(self):
        self.c = Controller.open(*FOUR)
        self.addCleanup(self.c.end)

    def test_record(self):
        record = self.c.step({1: (1, 1), 2: (0, 0)})
        self.assertIsInstance(record, Record)
        self.assertEqual((record.second, record.counts, len(record.aspects)), (1, ((1, 1, 1),), len(self.c.names)))

    def test_not_taken(self):
        self.c.step({})
        self.assertFalse(self.c.second({1: (0, 1)}))
        with self.assertRaises(NotTaken):
            self.c.step({64: (2**31, 0)})
        self.assertEqual(self.c.step({}).second, 2)

    def test_wrong_counts(self):
        for wrong in ({0: (1, 1)}, {65: (1, 1)}, {1: (-1, 0)}, {1: (2**32, 0)}):
            with self.assertRaises(ValueError):
                self.c.second(wrong)
        self.assertEqual(self.c.step({}).counts, ())

    def test_wrong_counts_leave_nothing_behind(self):
        """counts that a call refused are not counted in the next one"""
        with self.assertRaises(ValueError):
            self.c.second({1: (5, 0), 65: (1, 1)})
        self.assertTrue(self.c.second({}))
        self.assertFalse(self.c.second({1: (0, 1)}))

    def test_end(self):
        self.c.end()
        self.c.end()
        with self.assertRaises(Ended):
            self.c.second({})
        self.c.restart()
        self.assertEqual(self.c.step({}).second, 1)

    def test_restart(self):
        first = [self.c.step({3: (1, 1)}).line() for _ in range(50)]
        self.assertEqual(len(self.c.aspects), len(self.c.names))
        self.c.restart()
        self.assertEqual(self.c.aspects, "")
        self.assertEqual([self.c.step({3: (1, 1)}).line() for _ in range(50)], first)

    @unittest.skipUnless(vantulig.numpy, "NumPy is wanted")
    def test_run(self):
        """an array of the same seconds, by mappings and by numbers; the next second goes on"""
        np = vantulig.numpy
        rows = [{d: (1, 1) for d in range(1, 13) if (7 * s + d * d) % 5 == 0} for s in range(300)]
        lines = [self.c.step(row) for row in rows]
        numbers = np.zeros((300, 2, 64), np.uint8)
        for s, row in enumerate(rows):
            for d in row:
                numbers[s, :, d - 1] = 1
        for counts in (rows, iter(rows), numbers, numbers.astype(np.int32)):
            self.c.restart()
            told = self.c.run(counts)
            self.assertEqual(told["second"].tolist(), list(range(1, 301)))
            for one, record in zip(told, lines):
                self.assertEqual(bytes(one["aspects"][: one["groups"]]).decode(), record.aspects)
                self.assertEqual((one["turns"], one["stages"]), (len(record.turns), len(record.stages)))
            self.assertEqual(self.c.record(rows[-1]), lines[-1])
            self.assertEqual(self.c.step({}).second, 301)

    @unittest.skipUnless(vantulig.numpy, "NumPy is wanted")
    def test_run_of_wrong_counts(self):
        np = vantulig.numpy
        with self.assertRaises(NotTaken) as at:
            self.c.run([{1: (1, 1)}, {}, {2: (0, 1)}, {}])
        self.assertEqual(at.exception.made["second"].tolist(), [1, 2])
        self.assertEqual(self.c.record({}).second, 2)
        self.assertEqual(self.c.step({}).second, 3)
        for wrong in (
            np.zeros((3, 64, 2), int),
            np.zeros((3, 2, 64)),
            np.full((1, 2, 64), -1),
            np.full((1, 2, 64), 1 << 32),
            [{65: (1, 1)}],
        ):
            with self.assertRaises(ValueError):
                self.c.run(wrong)
        self.assertEqual(len(self.c.run([])), 0)
        self.assertEqual(self.c.step({}).second, 4)
        self.c.end()
        with self.assertRaises(Ended):
            self.c.run([{}])

    def test_run_without_numpy(self):
        with mock.patch.object(vantulig._controller, "numpy", None):
            self.assertEqual([record.second for record in self.c.run([{}, {1: (1, 1)}])], [1, 2])
            with self.assertRaises(NotTaken) as at:
                self.c.run([{}, {1: (0, 1)}])
            self.assertEqual([record.second for record in at.exception.made], [3])

    def test_value(self):
        """a variable after each second; a code file has no names"""
        program, rest = b"PROGRAM v;\nSeen := Seen + 2;\nPROG_ENDE: .\n", [path.read_bytes() for path in FOUR[1:]]
        with Controller(program, *rest) as c:
            self.assertEqual(c.value("Seen"), 0)
            for seconds in range(1, 4):
                c.step({1: (2, 1)})
                self.assertEqual((c.value("seen"), c.value("SEEN")), (2 * seconds, 2 * seconds))
            self.assertFalse(c.second({1: (0, 9)}))
            self.assertEqual(c.value("Seen"), 6)
            for other in ("", "see", "seen ", "seens", "Front_ends"):
                with self.assertRaises(KeyError):
                    c.value(other)
            c.restart()
            self.assertEqual(c.value("Seen"), 0)
        with self.assertRaises(Ended):
            c.value("Seen")
        code = b"VAPCODE 1\nVARS 1\nTIMERS 0\nARRAYS 0\nROUTINES 1\n0\nCODE 1\nret\nEND\n"
        with Controller(code, *rest, is_code=True) as c:
            c.step({})
            with self.assertRaises(NoNames):
                c.value("Seen")

    def test_two(self):
        with Controller.open(*FOUR) as other:
            for _ in range(20):
                self.c.step({})
            self.assertEqual(other.step({}).second, 1)

    def test_refused(self):
        rest = [path.read_bytes() for path in FOUR[1:]]
        with self.assertRaises(Refused) as at:
            Controller(b"PROGRAM nothing;", *rest)
        told = at.exception
        self.assertEqual((told.status, told.file, told.line, told.reason), (5, "program", 1, "Unexpected"))
        self.assertEqual(told.note, "junction: program:1: Unexpected\n")
        with self.assertRaises(Refused) as at:
            Controller(bytes(1 << 21), *rest)
        told = at.exception
        self.assertEqual((told.status, told.file, told.line, told.reason), (7, "program", None, "TooLong"))
        with self.assertRaises(Refused):
            Controller(b"", *rest)
        with self.assertRaises(Refused) as at:
            Controller(FOUR[0].read_bytes(), *rest, is_code=True)
        told = at.exception
        self.assertEqual((told.file, told.line, told.reason), ("program", 1, "Header"))


if __name__ == "__main__":
    unittest.main()
