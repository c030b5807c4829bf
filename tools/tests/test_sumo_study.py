"""Tests of studies and their tables, with runs by a stand-in; tools/tests/test_sumo.py runs them."""
import contextlib
import csv
import io
import math
import tempfile
import unittest
from pathlib import Path
from types import SimpleNamespace
from unittest import mock

import networks_sumo
from common import reading
import study_sumo
from sumo import networks, study, tables

__all__ = ["Tables", "Kept", "ManyNetworks"]


class Tables(unittest.TestCase):
    def test_student(self):
        self.assertEqual([tables.student(k) for k in (1, 4, 30)], [12.706, 2.776, 2.042])
        self.assertAlmostEqual(tables.student(60), 2.0003, places=3)
        self.assertAlmostEqual(tables.student(31), 2.0395, places=3)
        mean, half = tables.interval([1.0, 2.0, 3.0])
        self.assertEqual((mean, round(half, 3)), (2.0, round(4.303 / math.sqrt(3), 3)))
        self.assertTrue(math.isnan(tables.interval([1.0])[1]))

    def test_table(self):
        runs = (("a", "1", "10", "0", "0"), ("a", "2", "12", "1", "0"), ("b", "1", "15", "0", "7"), ("b", "2", "16", "0", ""))
        rows = [{"name": name, "seed": seed, "vehicles": "10", "walkers": "0", "loss": loss, "stops": "1", "queue": "2",
                 "teleports": "0", "collisions": collisions, "emergency_stops": "0", "refused": "2", "faults": "3",
                 "unsafe": unsafe, "breaches": "0"}
                for name, seed, loss, collisions, unsafe in runs]
        self.assertEqual(tables.table_lines(rows, ["a", "b"])[2:], [
            "| a | 2 | 20 | 11.0 ± 12.7 |  | 1.00 ± 0.00 | 2.0 ± 0.0 | 0 | 1 | 0 | 4 | 6 | 0 | 0 |",
            "| b | 2 | 20 | 15.5 ± 6.4 | +4.5 ± 6.4 | 1.00 ± 0.00 | 2.0 ± 0.0 | 0 | 0 | 0 | 4 | 6 | not judged | 0 |"])


class Kept(unittest.TestCase):
    """A row is kept as long as everything is as it was that it comes from."""

    def setUp(self):
        space = tempfile.TemporaryDirectory()
        self.addCleanup(space.cleanup)
        self.folder, self.runs = Path(space.name), []
        site = self.folder / "sites" / "1"
        site.mkdir(parents=True)
        (self.folder / "sites" / "sites.csv").write_text("light,folder\nC,1\n")
        for name in ("on_demand.vap", "junction.pua", "times.csv", "intergreens.csv", "links.csv", "detectors.csv",
                     "detectors.add.xml", "actuated.add.xml"):
            (site / name).write_text(name)
        for name in ("n.net.xml", "r.rou.xml", "more.add.xml"):
            (self.folder / name).write_text(name)
        (self.folder / "junction").write_text("#!/bin/sh\n")
        (self.folder / "junction").chmod(0o755)

    def run_one(self, task):
        self.runs.append((task["name"], task["seed"]))
        if task["seed"] in self.failing:
            raise RuntimeError("SUMO doesn't start")
        return {"loss": 10.0, "refused": 0, "faults": 0, "unsafe": 0, "vehicles": 3}

    def study(self, seeds=1, controls=("vap=vap:sites",), failing=(), **more):
        """Makes a study; the runs that were made, the rows and the failed ones."""
        given = SimpleNamespace(**{"net": self.folder / "n.net.xml", "routes": self.folder / "r.rou.xml", "period": None,
                                   "walkers": None, "additional": [self.folder / "more.add.xml"], "seconds": 60,
                                   "begin": None, "sumo_words": "",
                                   "junction": str(self.folder / "junction"), "library": False, "workers": 1, "seeds": seeds,
                                   "to": self.folder / "study.csv", **more})
        self.runs, self.failing = [], failing
        named = study.controls_of([word.replace("sites", str(self.folder / "sites")) for word in controls])
        with mock.patch.object(study, "run_one", self.run_one), contextlib.redirect_stderr(io.StringIO()) as said:
            rows, failed = study.run_all(given, study.tasks_of(given, named))
        self.said = said.getvalue()
        return sorted(self.runs), len(rows), failed

    def test_what_is_there_is_kept_and_what_is_missing_made(self):
        self.assertEqual(self.study(), ([("vap", 1)], 1, 0))
        self.assertEqual(self.study(), ([], 1, 0))
        self.assertEqual(self.study(seeds=3), ([("vap", 2), ("vap", 3)], 3, 0))

    def test_each_file_and_word_that_differs_is_a_run_anew(self):
        self.study()
        for file in ("n.net.xml", "r.rou.xml", "more.add.xml", "junction", "sites/1/on_demand.vap", "sites/1/times.csv",
                     "sites/1/intergreens.csv", "sites/1/junction.pua", "sites/1/links.csv", "sites/1/detectors.add.xml"):
            (self.folder / file).write_text((self.folder / file).read_text() + "\n# edited")
            self.assertEqual(self.study(), ([("vap", 1)], 1, 0), file)
            self.assertEqual(self.study(), ([], 1, 0), file)
        for more in ({"seconds": 61}, {"begin": 7}, {"sumo_words": "--scale 2"}, {"controls": ("vap=actuated:sites",)},
                     {"controls": ("vap=vap:sites:times.csv",)}, {"additional": []}):
            self.assertEqual(self.study(**more), ([("vap", 1)], 1, 0), str(more))
        self.assertEqual(self.study(), ([], 1, 0))

    def test_a_file_that_the_control_does_not_read_changes_nothing(self):
        self.study(controls=("own=actuated:sites",))
        (self.folder / "sites/1/on_demand.vap").write_text("edited")
        self.assertEqual(self.study(controls=("own=actuated:sites",)), ([], 1, 0))

    def test_sites_that_are_not_there_are_refused(self):
        with self.assertRaises(SystemExit):
            self.study(controls=("vap=actuated:nowhere",))

    def test_failed_runs_are_told_and_made_again(self):
        self.assertEqual(self.study(seeds=2, failing=(2,)), ([("vap", 1), ("vap", 2)], 1, 1))
        self.assertIn("vap, seed 2: SUMO doesn't start", self.said)
        self.assertIn("2 of 2 runs, 1 failed", (self.folder / "study.progress").read_text())
        self.assertEqual(self.study(seeds=2), ([("vap", 2)], 2, 0))

    def test_a_study_of_failed_runs_alone_has_status_1_and_no_table(self):
        self.runs, self.failing = [], (1,)
        words = ["study_sumo.py", "--routes", self.folder / "r.rou.xml", "--junction", self.folder / "junction", "--to",
                 self.folder / "study.csv", self.folder / "n.net.xml", "1", f"vap=vap:{self.folder}/sites"]
        out, errors = io.StringIO(), io.StringIO()
        with mock.patch.object(study, "run_one", self.run_one), mock.patch("sys.argv", [*map(str, words)]), \
                contextlib.redirect_stdout(out), contextlib.redirect_stderr(errors):
            self.assertEqual(study_sumo.main(), 1)
        self.assertEqual((out.getvalue(), errors.getvalue()),
                         ("", "vap, seed 1: SUMO doesn't start\n1 runs failed, and there is nothing to tell\n"))

    def test_rows_of_another_form_are_put_aside(self):
        (self.folder / "study.csv").write_text("net,demand,seconds,name,seed\nn.net.xml,r.rou.xml,60,vap,1\n")
        self.assertEqual(self.study(), ([("vap", 1)], 1, 0))
        self.assertTrue((self.folder / "study.before.csv").exists())
        with open(self.folder / "study.csv", encoding="utf-8", newline="") as lines:
            self.assertEqual(next(csv.reader(lines)), study.FIELDS)

    def test_controls(self):
        found = study.controls_of(["a=vap:/s/1", "b=vap:C=/s/2+/s/3:fixed.vap"])
        self.assertEqual(found["a"], {"control": "vap", "program": "on_demand.vap", "sites": ["/s/1"]})
        self.assertEqual(found["b"], {"control": "vap", "program": "fixed.vap", "sites": ["C=/s/2", "/s/3"]})
        for wrong in ("a", "=vap:s", "a=vap:s:p:q"):
            with self.assertRaises(reading.Refused):
                study.controls_of([wrong])


class ManyNetworks(unittest.TestCase):
    def test_a_row_of_time_loss(self):
        rows = [{"name": name, "seed": str(seed), "loss": str(loss + seed), "refused": "1", "faults": "0", "unsafe": "0",
                 "breaches": "0", "collisions": "2", "waiting_outside": str(seed)}
                for name, loss in (("actuated", 20), ("vap", 22), ("vap-own", 18)) for seed in (1, 2)]
        self.assertEqual(networks_sumo.loss_row(networks.Net("town"), rows), [
            "town", "2", "21.5 ± 6.4", "23.5 ± 6.4", "+2.0 ± 0.0", "19.5 ± 6.4", "-2.0 ± 0.0", "4", "0", "0", "0", "4 / 4 / 4",
            "3 / 3 / 3"])

    def test_the_sums_of_coverage(self):
        lines = networks_sumo.coverage_lines([("Towns", [["a", 3, 1, 2, 0, 1, "x: why"], ["b", 4, 0, 4, 0, 2, ""]])])
        self.assertEqual(lines[4:7], ["| a | 3 | 1 | 2 | 0 | 1 | x: why |", "| b | 4 | 0 | 4 | 0 | 2 |  |",
                                      "| all | 7 | 1 | 6 | 0 | 3 |  |"])
        lines = networks_sumo.coverage_lines([("Towns", [["a", 3, 1, 2, "", "", ""]])])
        self.assertEqual(lines[5], "| all | 3 | 1 | 2 |  |  |  |")

    def test_the_names_are_one_each_and_eight_are_driven(self):
        nets = networks.TOWNS + networks.EXAMPLES + networks.MADE
        self.assertEqual(len({net.name for net in nets}), len(nets))
        driven = [net for net in nets if net.is_driven]
        self.assertGreaterEqual(len(driven), 8)
        self.assertGreaterEqual(sum(1 for net in driven if net.is_real), 4)
        self.assertTrue(all(net.routes or net.period for net in driven))
        self.assertTrue(all(0 < net.share <= 1 for net in nets))
