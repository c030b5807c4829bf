"""Tests of closed_loop.py: its queues against formulas of queues, what detectors see, and the script over a stand-in for the
controller; LIBRARY and JUNCTION in the environment have the built ones tried too. tools/test.py runs them."""
import importlib.util
import os
import random
import subprocess
import sys
import tempfile
import unittest
from pathlib import Path
from types import SimpleNamespace

import closed_loop
import queues
from common import reading

__all__ = ["Queues", "SeenByDetectors", "ClosedLoop"]

HERE = Path(__file__).resolve().parent.parent
EXAMPLE = HERE.parent / "crates" / "test_told" / "data" / "two_stages"
PLAIN = {"speed": 50, "start_lag": 1.0, "end_gain": 1.0, "warm_up": 0, "seconds": 3600}
STAND_IN = """#!{python}
import sys
assert sys.argv[1] == "run" and sys.argv[6] == "/dev/stdin"
green = int(open(sys.argv[2]).read().split("green = ")[1].split(",")[0])
print("VAPLOG 1 K1 K2", flush=True)
for k, line in enumerate(sys.stdin, 1):
    at = (k - 1) % 60
    print(f"{{k}}|-|{{'G' if at < green else 'A' if at < green + 3 else 'R'}}R|{{line.strip() or '-'}}|-|-", flush=True)
"""


class Fixed:
    """A controller of a fixed cycle, which keeps what it is told."""

    def __init__(self, cycle, green, amber=0):
        self.names, self.cycle, self.green, self.amber, self.at, self.told = ["K1"], cycle, green, amber, 0, []

    def second(self, counts):
        at, self.at = self.at % self.cycle, self.at + 1
        self.told.append(counts)
        return "G" if at < self.green else "A" if at < self.green + self.amber else "R"


class Queues(unittest.TestCase):
    def delay(self, controller, per_hour, seconds, seeds=4, **more):
        given = SimpleNamespace(**{**PLAIN, "seconds": seconds, **more})
        stream = queues.Stream("K1", "K1", [], [(0, seconds, per_hour)])
        runs = [queues.run(controller(), [stream], seed, given)["K1"] for seed in range(1, seeds + 1)]
        return sum(run["delay"] * run["vehicles"] for run in runs) / sum(run["vehicles"] for run in runs)

    def test_a_green_that_never_ends_is_a_queue_of_one_server(self):
        """M/D/1: a mean wait of rho h / (2 (1 - rho)) for a headway of h seconds and a load of rho."""
        for per_hour in (720, 1080, 1440):
            load = per_hour / 1800
            wanted = load * 2 / (2 * (1 - load))
            got = self.delay(lambda: Fixed(1, 1), per_hour, 40_000)
            self.assertLess(abs(got / wanted - 1), 0.08, f"{per_hour}: {got:.2f} s, wanted {wanted:.2f} s")

    def test_a_fixed_cycle_is_that_of_webster(self):
        """The delay at a signal of a fixed cycle c with the green g at the load x, by Webster's formula."""
        for cycle, green, per_hour in ((90, 44, 700), (60, 20, 450), (80, 40, 500)):
            share, flow = green / cycle, per_hour / 3600
            load = per_hour / (1800 * share)
            wanted = cycle * (1 - share) ** 2 / (2 * (1 - share * load)) + load ** 2 / (2 * flow * (1 - load))
            wanted -= 0.65 * (cycle / flow ** 2) ** (1 / 3) * load ** (2 + 5 * share)
            got = self.delay(lambda: Fixed(cycle, green, 3), per_hour, 30_000)
            self.assertLess(abs(got / wanted - 1), 0.08, f"{cycle}, {green}: {got:.1f} s, wanted {wanted:.1f} s")

    def test_without_chance_each_vehicle_is_reckoned_by_hand(self):
        given = SimpleNamespace(**PLAIN)
        lane = queues.Lane(queues.Stream("K1", "K1", []), [0.5, 1.0, 3.0, 11.2, 12.0], given)
        for t, letter in enumerate("RRRRRGGGAARRGGG"):  # green from 5 to 8, a vehicle in the first second of the amber, green from 12
            lane.second(t, letter)
        self.assertEqual(lane.departures, [6.0, 8.0, 13.0])
        self.assertEqual((lane.greens, lane.left_queued, lane.longest), (1, 1, 3))
        numbers = lane.numbers(15)
        self.assertEqual(numbers["vehicles"], 5)
        self.assertAlmostEqual(numbers["delay"], (5.5 + 7.0 + 10.0 + 3.8 + 3.0) / 5)
        self.assertEqual(numbers["stops"], 100)

    def test_arrivals_are_as_many_as_the_demand_says(self):
        moments = queues.arrivals_of([(0, 36_000, 900), (36_000, 72_000, 0), (72_000, 108_000, 300)], random.Random(1))
        self.assertLess(abs(sum(at < 36_000 for at in moments) - 9000), 300)
        self.assertLess(abs(sum(at >= 72_000 for at in moments) - 3000), 180)
        self.assertEqual(sum(36_000 <= at < 72_000 for at in moments), 0)
        self.assertEqual(moments, sorted(moments))

    def test_all_who_call_go_in_the_first_green_second(self):
        given = SimpleNamespace(**{**PLAIN, "seconds": 8})
        calls = queues.Calls(queues.Stream("F1", "F1", [(5, 0)], calls=True), [1.5, 2.0, 6.2], given)
        told = []
        for t, letter in enumerate("RRRRGGRR"):
            told.append(calls.counts(t))
            calls.second(t, letter)
        self.assertEqual([row[0][1] for row in told], [0, 0, 1, 1, 0, 0, 0, 1])
        self.assertEqual(calls.gone, [4, 4])
        self.assertAlmostEqual(calls.numbers(8)["delay"], (2.5 + 2.0 + 1.8) / 3)


class SeenByDetectors(unittest.TestCase):
    def events(self, metres, arrivals, letters):
        """The seconds of fronts and rears of a detector."""
        given = SimpleNamespace(**{**PLAIN, "speed": 36})
        lane, fronts, rears = queues.Lane(queues.Stream("K1", "K1", [(7, metres)]), arrivals, given), [], []
        for t, letter in enumerate(letters):
            (number, front, rear), = lane.counts(t)
            self.assertEqual(number, 7)
            fronts += [t - 1] * front
            rears += [t - 1] * rear
            lane.second(t, letter)
        return fronts, rears

    def test_a_queue_stands_on_the_stop_line(self):
        """The second vehicle comes onto the line when the first one leaves it, and covers it until it leaves itself."""
        self.assertEqual(self.events(0, [0.2, 1.2], "RRRRGGGGGGR"), ([0, 5], [5, 7]))

    def test_who_does_not_stop_covers_the_line_for_a_moment(self):
        self.assertEqual(self.events(0, [2.1, 4.8], "GGGGGGGG"), ([2, 4], [2, 5]))

    def test_a_detector_before_the_line(self):
        """At 36 km/h 20 m are 2 s; three vehicles stand before its place, the fourth one on it."""
        fronts, rears = self.events(20, [3.0, 4.0, 5.0, 6.0, 7.0], "R" * 10 + "G" * 12)
        self.assertEqual(fronts, [1, 2, 3, 4, 11])
        self.assertEqual(rears, [1, 2, 3, 11, 13])


class ClosedLoop(unittest.TestCase):
    DEMAND = "group,detectors,per_hour,from,to,kind\nK1,1,600,0,1800,\nK1,1,300,1800,3600,\nK2,2,10,,,calls\n"

    def setUp(self):
        folder = tempfile.TemporaryDirectory()
        self.addCleanup(folder.cleanup)
        self.folder = Path(folder.name)
        (self.folder / "demand.csv").write_text(self.DEMAND, encoding="ascii")
        (self.folder / "p.vap").write_text("PROGRAM p; CONST green = 20, other = 1; PROG_ENDE: .\n", encoding="ascii")
        for name in ("pua", "times", "ig"):
            (self.folder / name).write_text("", encoding="ascii")
        (self.folder / "junction").write_text(STAND_IN.format(python=sys.executable), encoding="utf-8")
        (self.folder / "junction").chmod(0o755)

    def call(self, *words, junction=None):
        files = [self.folder / name for name in ("demand.csv", "pua", "times", "ig")]
        call = [sys.executable, "-B", HERE / "closed_loop.py", *files, *words, "--junction", junction or self.folder / "junction"]
        done = subprocess.run(list(map(str, call)), capture_output=True, text=True)
        return done.returncode, done.stdout, done.stderr

    def test_values_of_a_constant_on_the_same_traffic(self):
        program = f"{self.folder}/p.vap@GREEN=20,40"
        status, told, note = self.call(program, "--seeds", "3", "--csv", self.folder / "runs.csv", "--processors", "2")
        self.assertEqual((status, note), (0, ""))
        lines = told.split("\n")
        self.assertEqual(lines[0].split("  ")[0], "stream")
        self.assertEqual([line.split()[:3] for line in lines[2:4]], [["K1", "p.vap", "GREEN=20"], ["K1", "p.vap", "GREEN=40"]])
        rows = [row.split(",") for row in (self.folder / "runs.csv").read_text(encoding="ascii").split("\n")[1:-1]]
        self.assertEqual(len(rows), 2 * 3 * 2)
        came = {(row[1], row[2]): set() for row in rows}
        delay = {}
        for program, seed, stream, vehicles, seconds, *_ in rows:
            came[seed, stream].add(vehicles)
            delay[program, seed, stream] = float(seconds)
        self.assertTrue(all(len(vehicles) == 1 for vehicles in came.values()))
        self.assertTrue(all(delay["p.vap GREEN=40", seed, "K1"] < delay["p.vap GREEN=20", seed, "K1"] for seed in "123"))
        self.assertEqual(self.call(f"{self.folder}/p.vap@GREEN=20,40", "--seeds", "3", "--processors", "1")[1], told)

    def test_refusals(self):
        cases = [("group,detectors\nK1,1\n", "doesn't have the columns"), ("group,detectors,per_hour\nK1,65,1\n", ":2: '65' is no detector"),
                 ("group,detectors,per_hour\nK1,1,x\n", ":2: 'x' (per_hour) is no number from 0 to 100000"),
                 ("group,detectors,per_hour,from,to\nK1,1,9,0,60\nK1,1,9,30,90\n", ":3: the part from 30 to 90 s isn't behind"),
                 ("group,detectors,per_hour\nK1,1,9\nK1,2,9\n", ":3: K1 has another group, other detectors"),
                 ("group,detectors,per_hour,kind\nK1,1,9,bus\n", ":2: 'bus' is neither vehicles nor calls"),
                 ("group,detectors,per_hour\n", ":1: the demand has no row"), ("group,detectors,per_hour\nK9,1,9\n", "the plan has no group K9")]
        for demand, wanted in cases:
            (self.folder / "demand.csv").write_text(demand, encoding="ascii")
            status, told, note = self.call(self.folder / "p.vap", "--seconds", "60", "--processors", "1")
            self.assertEqual((status, told), (1, ""), demand)
            self.assertIn(wanted, note)
            self.assertNotIn("Traceback", note)

    def test_a_constant_that_is_not_given_once(self):
        for word, wanted in (("none=1", "a number is given to none 0 times"), ("green=x", "'@green=x' isn't @NAME=V1,V2")):
            status, _, note = self.call(f"{self.folder}/p.vap@{word}")
            self.assertEqual(status, 1)
            self.assertIn(wanted, note)
        self.assertEqual(closed_loop.variants_of(f"{self.folder}/p.vap@green=-5")[0],
                         ("p.vap green=-5", "PROGRAM p; CONST green = -5, other = 1; PROG_ENDE: .\n"))

    def test_the_built_ones(self):
        """The library and the pipe tell the same of an example."""
        junction = os.environ.get("JUNCTION")
        if not junction:
            self.skipTest("JUNCTION names no program to run")
        (self.folder / "demand.csv").write_text("group,detectors,per_hour\nK1,1,500\nK2,2,300\n", encoding="ascii")
        for name, file in (("pua", "junction.pua"), ("times", "times.csv"), ("ig", "intergreens.csv")):
            (self.folder / name).write_bytes((EXAMPLE / file).read_bytes())
        program = EXAMPLE / "side_road.vap"
        status, told, note = self.call(program, "--seeds", "2", "--seconds", "600", junction=junction)
        self.assertEqual((status, note), (0, ""))
        self.assertIn("K2", told)
        if importlib.util.find_spec("vantulig"):
            files = [self.folder / name for name in ("demand.csv", "pua", "times", "ig")]
            call = [sys.executable, "-B", HERE / "closed_loop.py", *files, program, "--seeds", "2", "--seconds", "600"]
            done = subprocess.run(list(map(str, call)), capture_output=True, text=True)
            self.assertEqual((done.returncode, done.stdout), (0, told), done.stderr)

    def test_a_demand_of_several_lanes(self):
        text = "Group,Detectors,Per_hour,Stream,Saturation\nK1,1@0 2@40.5,600,left,1500\nK1,3,200,right,\n"
        left, right = closed_loop.streams_of(text, 100)
        self.assertEqual((left.name, left.group, left.detectors, left.saturation, left.parts), ("left", "K1", [(1, 0.0), (2, 40.5)], 1500.0, [(0.0, 100.0, 600.0)]))
        self.assertEqual((right.name, right.group, right.saturation), ("right", "K1", 1800.0))
        with self.assertRaises(reading.Refused):
            closed_loop.streams_of("", 100)


if __name__ == "__main__":
    unittest.main()
