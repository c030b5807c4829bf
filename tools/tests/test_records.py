"""Tests of the scripts that read and write records: logs from events and from SUMO's states, and events from logs. They run
over the logs of the examples, and over records made by rule; tools/test.py runs them."""
import random
import subprocess
import sys
import tempfile
import unittest
from fractions import Fraction
from pathlib import Path
from types import SimpleNamespace

from records import event_codes
import events_from_log
import log_from_events
import log_from_sumo
from common import reading

__all__ = ["FromEvents", "ThereAndBack", "FromSumo", "Scripts"]

HERE = Path(__file__).resolve().parent.parent
LOGS = sorted((HERE.parent / "crates" / "test_told" / "data").glob("**/log.txt"))
PLAIN = {"begin": None, "seconds": None, "all_red": False, "silence": None, "without_detectors": False}


def call(script, *words, text=None):
    """Status, output and standard error of a script."""
    words = [sys.executable, "-B", str(HERE / script), *map(str, words)]
    done = subprocess.run(words, input=text, capture_output=True, text=True)
    return done.returncode, done.stdout, done.stderr


def events(rows):
    return log_from_events.events_of("".join(",".join(map(str, row)) + "\n" for row in rows))


class FromEvents(unittest.TestCase):
    GROUPS = {("phase", 1): "K1", ("phase", 2): "K2"}
    ROWS = [(0.0, 12, 1), (0, 12, 2), (1.3, 1, 1), (6.3, 7, 1), (6.3, 8, 1), (9.3, 10, 1), (10.5, 11, 1), (10.5, 1, 2),
            (15.9, 8, 2), (19.1, 10, 2), (21.0, 1, 1)]

    def made(self, rows, groups=None, detectors=None, times=None, **more):
        given = SimpleNamespace(**{**PLAIN, **more})
        return log_from_events.make_log(events(rows), groups or self.GROUPS, detectors or {}, times, given)

    def aspects(self, rows, **more):
        return [line.split("|")[2] for line in self.made(rows, **more)[0][1:]]

    def test_moments_are_rounded_down(self):
        self.assertEqual(self.aspects(self.ROWS),
                         ["RR"] + ["GR"] * 5 + ["AR"] * 3 + ["RR"] + ["RG"] * 5 + ["RA"] * 3 + ["RR"] * 3 + ["GR"])

    def test_an_amber_keeps_its_own_length(self):
        for end, seconds in ((19.1, 3), (19.3, 3), (19.5, 4), (18.5, 3), (18.3, 2)):
            rows = [row if row != (19.1, 10, 2) else (end, 10, 2) for row in self.ROWS]
            self.assertEqual(sum("A" == aspects[1] for aspects in self.aspects(rows)), seconds, end)

    def test_a_group_without_amber(self):
        self.assertEqual(self.aspects([(0, 12, 2), (0, 1, 1), (2, 8, 1), (2, 9, 1), (3, 1, 1)]), ["GR", "GR", "RR", "GR"])

    def test_a_log_begins_with_what_the_first_events_need(self):
        rows = [(5.2, 8, 1), (8.2, 10, 1), (9.0, 1, 2)]  # K1 was green before its amber, K2 red before its green
        self.assertEqual(self.aspects(rows), ["AR", "AR", "AR", "RR", "RG"])
        self.assertEqual(self.aspects(rows, all_red=True), ["RR", "RG"])
        self.assertEqual(self.aspects(rows, all_red=True, seconds=4), ["RR", "RG", "RG", "RG"])
        self.assertEqual(self.aspects(rows, begin=Fraction(7), seconds=6), ["AR", "RR", "RG", "RG", "RG", "RG"])
        self.assertEqual(self.aspects([(3.9, 1, 1), (7, 10, 2)]), ["GA", "GA", "GA", "GA", "GR"])

    def test_red_amber_is_that_of_the_table(self):
        rows = [(0, 12, 1), (3, 1, 1), (4, 12, 2)]
        self.assertEqual(self.aspects(rows, times={"K1": 2, "K2": 1}), ["RR", "UR", "UR", "GR", "GR"])
        self.assertEqual(self.made([(0, 12, 1), (0, 12, 2)], times={"K2": 1, "K1": 1})[0][0], "VAPLOG 1 K2 K1")

    def test_time_stamps(self):
        day = reading.moment_of("2024-05-01 07:00:12.4")
        self.assertEqual(day, reading.moment_of("05/01/2024 07:00:12.4"))
        self.assertEqual((day % 60, reading.stamp_of(day)), (Fraction(124, 10), "2024-05-01 07:00:12"))
        self.assertEqual(reading.moment_of("12.4"), Fraction(124, 10))
        for text in ("2024-13-01 07:00:00", "2024-05-01 7", "7:60:00", "x", ""):
            self.assertIsNone(reading.moment_of(text), text)

    def refused(self, rows, cause, **more):
        with self.assertRaises(reading.Refused) as caught:
            self.made(rows, **more)
        self.assertTrue(str(caught.exception).startswith(cause), str(caught.exception))

    def test_refusals(self):
        red = [(0, 12, 1), (0, 12, 2)]
        self.refused(red + [(3, 1, 1), (4, 10, 1)], "4: phase 1 (K1) becomes red from green: its begin of amber is missing")
        self.refused(red + [(3, 8, 1)], "3: phase 1 (K1) becomes amber and is red: what made it green is missing")
        self.refused(red + [(3, 1, 1), (4, 1, 1)], "4: phase 1 (K1) becomes green and is green")
        self.refused(red + [(3.2, 1, 1), (3.6, 8, 1)], "4: K1 was green for so short a time that no second shows it")
        self.refused(red[:1], "1: phase 2 (K2) has no event")
        self.refused([], "1: there is no event")
        self.refused([(1, 12, 1), (0, 12, 2)], "2: the time is before that of the line above")
        self.refused([(0, 12, 1), ("x", 12, 1)], "2: 'x' is no time stamp")
        self.refused([(0, 12)], "1: 2 fields")
        self.refused([(0, 12, 1), (0, "a", 1)], "2: code and parameter are whole numbers")
        self.refused([(0, 256, 1)], "1: 256 is no event code")
        self.refused([("a", 0, 12, 1), ("b", 0, 12, 2)], "2: signal b after signal a: --signal names one of them")
        self.refused(red + [(2, 173, 4)], "3: from here the signals flash")
        self.refused(red + [(2, 66, 1), (2, 24, 3)], "4: walk 3 (F3) is dark", groups={**self.GROUPS, ("walk", 3): "F3"})
        self.refused(red + [(2, 81, 5), (3, 81, 5)], "4: detector 5 goes off, and is that already")
        self.refused(red + [(2, 82, 99)], "3: detector 99 isn't 1 to 64: name it in MAP")
        self.refused(red + [(100, 1, 1)], "3: 100 s without an event before this one, more than 60", silence=60)
        self.refused([(0, 8, 1), (0, 1, 2)], " there is no second in which all groups are red", all_red=True)
        self.refused(red, " --begin isn't within the events", begin=Fraction(9))
        self.refused(red, " the table of times and the groups of the events differ in K2", times={"K1": 1})
        self.refused(red + [(604_800, 1, 1)], "3: 604801 seconds, more than 604800")

    def test_detectors(self):
        rows = [(0, 12, 1), (0, 12, 2), (0.1, 82, 5), (3.2, 81, 5), (3.9, 82, 5), (4.5, 81, 9), (5, 1, 1)]
        self.assertEqual(self.made(rows)[1], ["5:1:0 9:1:0", "", "", "5:1:1", "9:0:1", ""])
        self.assertEqual(self.made(rows, begin=Fraction(2))[1], ["5:1:0 9:1:0", "5:1:1", "9:0:1", ""])
        self.assertEqual(self.made(rows, detectors={9: 1})[1], ["1:1:0", "", "", "", "1:0:1", ""])
        self.assertEqual(self.made(rows, without_detectors=True)[1], [""] * 6)

    def test_map(self):
        groups, detectors = event_codes.map_of("kind,number,name\nphase,2,K1\nwalk,2,F1\ndetector,101,7\n")
        self.assertEqual((groups, detectors), ({("phase", 2): "K1", ("walk", 2): "F1"}, {101: 7}))
        rows = [(0, 12, 2), (0, 23, 2), (2, 1, 2), (2, 21, 2), (3, 82, 101), (4, 22, 2), (6, 23, 2), (8, 8, 2), (11, 9, 2)]
        self.assertEqual(self.aspects(rows, groups=groups, detectors=detectors),
                         ["RR"] * 2 + ["GG"] * 2 + ["GR"] * 4 + ["AR"] * 3 + ["RR"])
        for text, cause in (("train,1,K1", "1: 'train' is neither"), ("phase,1", "1: a row is"), ("detector,1,65", "1: '65'"),
                            ("phase,1,A\nwalk,1,A", "2: walk 1 or the name A"), ("phase,1,1", "1: '1' is no name")):
            with self.assertRaises(reading.Refused) as caught:
                event_codes.map_of(text + "\n")
            self.assertTrue(str(caught.exception).startswith(cause))


class ThereAndBack(unittest.TestCase):
    def back_of(self, text, times=None):
        """The log that comes back of a log's events."""
        names, records = reading.log_of(text)
        rows = events_from_log.events_of(names, records, {}, {})
        groups = {("phase", number): name for number, name in enumerate(names, 1)}
        given = SimpleNamespace(**{**PLAIN, "seconds": len(records)})
        made = events([(second - records[0][0], code, number) for second, code, number in rows])
        return log_from_events.make_log(made, groups, {}, times, given)

    def test_the_examples(self):
        """The same aspects and counts, but for red-ambers whose green the log doesn't have any more."""
        self.assertGreater(len(LOGS), 8)
        for file in LOGS:
            text = file.read_text(encoding="ascii")
            rows = (file.parent / "times.csv").read_text(encoding="ascii")
            times = {row["group"]: int(row["red_amber"]) for row in reading.table_of(rows, "group", "red_amber")}
            names, records = reading.log_of(text)
            times = {name: times[name] for name in names}
            lines, counts, _ = self.back_of(text, times)
            back = reading.log_of("\n".join(lines) + "\n")
            last = len(records) - max(times.values())
            self.assertEqual((back[0], back[1][:last]), (names, records[:last]), file)
            self.assertEqual(len(counts), len(records))

    def test_logs_made_by_rule_from_their_midst(self):
        chance = random.Random(3)
        for _ in range(100):
            rows = []
            for _ in range(3):
                row = []
                while len(row) < 80:
                    row += ["G"] * chance.randint(1, 9) + ["A"] * 3 + ["R"] * chance.randint(1, 9)
                rows.append(row[chance.randint(0, 9):][:60])
            first = chance.randint(1, 1000)
            lines = ["VAPLOG 1 K1 K2 K3"] + [f"{first + k}|-|{a}{b}{c}|" for k, (a, b, c) in enumerate(zip(*rows))]
            back = self.back_of("\n".join(lines) + "\n")[0]
            self.assertEqual([line.split("|")[2] for line in back[1:]], [line.split("|")[2] for line in lines[1:]])
            self.assertEqual(back[1].split("|")[0], "1")

    def test_counts_made_by_rule(self):
        chance = random.Random(4)
        lines, inside = ["VAPLOG 1 K1"], [0, 0]
        for k in range(300):
            entries = []
            for d in (0, 1):
                front = int(inside[d] == 0 and chance.random() < 0.3)
                rear = int(inside[d] + front > 0 and chance.random() < 0.4)
                inside[d] += front - rear
                entries += [f"{d + 1}:{front}:{rear}"] if front or rear else []
            lines.append(f"{k + 1}|S1|R|{' '.join(entries) or '-'}|-|-")
        back = self.back_of("\n".join(lines) + "\n")
        self.assertEqual([line.split("|")[3] for line in back[0][1:]], [line.split("|")[3] for line in lines[1:]])

    def refused(self, lines, cause, groups=None):
        with self.assertRaises(reading.Refused) as caught:
            names, records = reading.log_of("VAPLOG 1 K1\n" + "\n".join(lines))
            events_from_log.events_of(names, records, groups or {}, {})
        self.assertTrue(str(caught.exception).startswith(cause), str(caught.exception))

    def test_refusals(self):
        self.refused(["1|-|R|", "3|-|R|"], "3: this is no record of second 2 with 1 aspects")
        self.refused(["1|-|R|", "", "2|-|R|"], "3: this is no record of second 2")
        self.refused(["1|-|RR|"], "2: this is no record with 1 aspects")
        self.refused(["1|-|R|1:1|-|-"], "2: its counts aren't")
        self.refused(["1|-|R|1:0:1|-|-"], "2: detector 1 has more rears than fronts")
        self.refused(["1|-|R|", "2|-|A|"], "3: K1 shows A after R, which events can't say")
        self.refused(["1|-|A|", "2|-|G|"], "3: K1 shows G after A, which events can't say")
        self.refused(["1|-|G|", "2|-|A|"], "3: K1 shows amber, for which walks have no event", {("walk", 1): "K1"})
        self.refused(["1|-|G|"], "1: K1 isn't in the map", {("phase", 1): "K2"})
        with self.assertRaises(reading.Refused):
            reading.log_of("1|-|R|\n")


class FromSumo(unittest.TestCase):
    GROUPS = {"K1": [0, 1], "K2": [2]}

    def test_a_log_begins_in_whatever_is_shown(self):
        states = [(1, 0.0, "Ggr"), (2, 1.0, "yyu"), (3, 2.0, "rrr"), (4, 3.0, "rrG")]
        self.assertEqual(log_from_sumo.lines_of(states, self.GROUPS),
                         ["VAPLOG 1 K1 K2", "1|-|GR|-|-|-", "2|-|AU|-|-|-", "3|-|RR|-|-|-", "4|-|RG|-|-|-"])
        self.assertEqual(log_from_sumo.lines_of(states, self.GROUPS, True), ["VAPLOG 1 K1 K2", "1|-|RR|-|-|-", "2|-|RG|-|-|-"])
        self.assertEqual(log_from_sumo.lines_of(states, self.GROUPS, first=301)[1], "301|-|GR|-|-|-")

    def test_states(self):
        text = '<tlsStates>\n<tlsState time="0.00" id="a" state="Gr"/>\n<tlsState time="0.00" id="b" state="r"/>\n</tlsStates>'
        self.assertEqual(log_from_sumo.states_of(text, "b"), [(3, 0.0, "r")])

    def refused(self, cause, states, is_all_red=False):
        with self.assertRaises(reading.Refused) as caught:
            log_from_sumo.lines_of(states, self.GROUPS, is_all_red)
        self.assertTrue(str(caught.exception).startswith(cause), str(caught.exception))

    def test_refusals(self):
        self.refused("4: the links of K1 show different aspects (Gy)", [(4, 0.0, "Gyr")])
        self.refused("4: K1 shows 'O', which is no aspect", [(4, 0.0, "OOr")])
        self.refused("4: K2 shows 'o', which is no aspect", [(4, 0.0, "rro")])
        self.refused("4: the state has 2 letters, and K2 has one at 2", [(4, 0.0, "Gg")])
        self.refused("9: time 2 where 1 is due", [(4, 0.0, "Ggr"), (9, 2.0, "Ggr")])
        self.refused("9: time 0.1 is no whole second", [(4, 0.0, "Ggr"), (9, 0.1, "Ggr")])
        self.refused(" there is no second in which all groups are red", [(4, 0.0, "Ggr")], True)
        for text, cause in (("<a/>", " there is no state of b"), ("<a", "1: this is no record of SUMO's"),
                            ('<a>\n<tlsState id="b"/></a>', "2: a tlsState has no time")):
            with self.assertRaises(reading.Refused) as caught:
                log_from_sumo.states_of(text, "b")
            self.assertTrue(str(caught.exception).startswith(cause), str(caught.exception))


class Scripts(unittest.TestCase):
    """The scripts as they are called."""

    def test_help(self):
        more = ["check_sites.py", "drive_sumo.py", "study_sumo.py", "check_pipes.py", "example_logs.py"]
        for script in sorted(file.name for file in HERE.glob("*_from_*.py")) + more:
            status, text, _ = call(script, "--help")
            self.assertEqual((status, text[:7]), (0, "usage: "), script)

    def test_events_and_back(self):
        with tempfile.TemporaryDirectory() as name:
            folder = Path(name)
            (folder / "log").write_text("VAPLOG 1 A B\n1|-|GR|2:1:0|-|-\n2|-|AR|-|-|-\n3|-|RU|2:0:1|-|-\n4|-|RG|-|-|-\n")
            (folder / "times.csv").write_text("group,min_green,red_amber,amber\nA,5,1,1\nB,5,1,1\n")
            (folder / "map.csv").write_text("kind,number,name\nphase,7,A\nphase,3,B\ndetector,40,2\n")
            status, made, note = call("events_from_log.py", "--map", folder / "map.csv", "--begin", "2024-05-01T07:00:00",
                                      "--signal", "9", "--write-map", folder / "map2.csv", folder / "log")
            self.assertEqual((status, note), (0, ""))
            self.assertEqual((folder / "map2.csv").read_text(), "kind,number,name\nphase,7,A\nphase,3,B\ndetector,40,2\n")
            self.assertEqual(made.splitlines()[:3], ["SignalID,Timestamp,EventCode,EventParam", "9,2024-05-01 07:00:00.000,1,7",
                                                     "9,2024-05-01 07:00:00.000,12,3"])
            (folder / "events.csv").write_text(made)
            status, log, note = call("log_from_events.py", "--map", folder / "map.csv", "--times", folder / "times.csv",
                                     "--detectors", folder / "counts", folder / "events.csv")
            self.assertEqual((status, log), (0, (folder / "log").read_text()))
            self.assertEqual(note, "second 1 is 2024-05-01 07:00:00; 4 seconds\n"
                                   "moments that were rounded to their second: 0 of 9\n"
                                   "the longest time without an event: 1 s, before line 5\n")
            self.assertEqual((folder / "counts").read_text(), "2:1:0\n\n2:0:1\n\n")

    def test_the_page_goes_there_and_back_on_each_example(self):
        """The two calls of docs/records.md, on the log of each example: all aspects and counts come back but for red-ambers
        whose green comes after the log's end."""
        for file in LOGS:
            with tempfile.TemporaryDirectory() as name, self.subTest(file):
                folder, times = Path(name), file.parent / "times.csv"
                names, records = reading.log_of(file.read_text(encoding="ascii"))
                status, made, note = call("events_from_log.py", "--write-map", folder / "map.csv", file)
                self.assertEqual((status, note), (0, ""))
                (folder / "events.csv").write_text(made)
                status, back, note = call("log_from_events.py", "--map", folder / "map.csv", "--times", times,
                                          "--seconds", len(records), folder / "events.csv")
                self.assertEqual(status, 0, note)
                order = [row["group"] for row in reading.table_of(times.read_text(encoding="ascii"), "group")]
                places = [names.index(name) for name in order]
                turned = [(second, "".join(aspects[place] for place in places), counts) for second, aspects, counts in records]
                there, here = reading.log_of(back), (order, turned)
                self.assertEqual(there[0], here[0])
                self.assertEqual([row[2] for row in there[1]], [row[2] for row in here[1]])
                for k, (got, wanted) in enumerate(zip(there[1], here[1])):
                    if got != wanted:
                        rest = [{row[1][place] for row in here[1][k:]} for place in range(len(order))]
                        lost = "".join("R" if rest[place] == {"U"} else wanted[1][place] for place in range(len(order)))
                        self.assertEqual(got[1], lost, f"second {got[0]}")

    def test_a_refusal_has_the_file_and_the_line(self):
        with tempfile.NamedTemporaryFile("w", suffix=".csv") as file:
            file.write("1,12,1\n0,12,1\n")
            file.flush()
            self.assertEqual(call("log_from_events.py", file.name),
                             (1, "", f"{file.name}:2: the time is before that of the line above\n"))
        fault = "/nothing: [Errno 2] No such file or directory: '/nothing'\n"
        self.assertEqual(call("log_from_events.py", "/nothing"), (1, "", fault))
