"""Tests of the loop between SUMO and the controllers, by stand-ins of both; tools/tests/test_sumo.py runs them."""
import importlib.util
import signal
import sys
import tempfile
import types
import unittest
from pathlib import Path
from types import SimpleNamespace

import controllers
import events_from_log
import judge_sumo
from common import reading
from sumo import detectors, drive, scenario

__all__ = ["Protocol", "Driver", "Scenario", "SecondJudge", "EventsOfAreas"]

HAS_LIBRARY = bool(importlib.util.find_spec("vantulig")) or (controllers.LIBRARY / "vantulig" / "libjunction.so").exists()


class Protocol(unittest.TestCase):
    def test_lines(self):
        self.assertEqual(controllers.line_of({11: (1, 0), 3: (2, 1), 4: (0, 0)}), "3:2:1 11:1:0\n")
        self.assertEqual(controllers.line_of({}), "\n")
        self.assertEqual(controllers.aspects_of("7|S1|RRG|-|-|-\n"), "RRG")

    def program(self, folder, text):
        file = Path(folder) / "junction"
        file.write_text("#!/bin/sh\n" + text)
        file.chmod(0o755)
        return str(file)

    def test_a_controller_that_ends(self):
        with tempfile.TemporaryDirectory() as folder:
            program = self.program(folder, "echo VAPLOG 1 A\nread line\necho '1|S1|R|-|-|-'\nexit 6\n")
            controller = controllers.Controllers(program).open("v", "p", "t", "i")
            self.assertEqual((controller.greet(), controller.names), ("VAPLOG 1 A\n", ["A"]))
            controller.ask({1: (1, 0)})
            self.assertEqual(controller.answer(), "1|S1|R|-|-|-\n")
            controller.run.wait()
            controller.ask({})
            with self.assertRaisesRegex(controllers.Lost, "the controller ended in second 2 with status 6"):
                controller.answer()
            controller = controllers.Controllers(self.program(folder, "exit 5\n")).open("v", "p", "t", "i")
            with self.assertRaisesRegex(controllers.Lost, "didn't begin, and ended with status 5"):
                controller.greet()
            controller.end()

    def test_no_program(self):
        with self.assertRaisesRegex(controllers.Lost, "the built program /nothing can't be started"):
            controllers.Controllers("/nothing").open("v", "p", "t", "i")

    def test_the_library(self):
        """By a stand-in of the package: what is asked of it, and what is made of its answers."""
        class Controller:
            names = ["A", "B"]

            def step(self, counts):
                return SimpleNamespace(line=lambda: f"1|S1|RG|{counts}|-|-\n")

            def end(self):
                self.names = None

        module = types.ModuleType("vantulig")
        module.Controller = SimpleNamespace(open=lambda *files: Controller() if files == ("v", "p", "t", "i") else None)
        before = sys.modules.get("vantulig")
        sys.modules["vantulig"] = module
        try:
            controller = controllers.Controllers(uses_library=True).open("v", "p", "t", "i")
            self.assertEqual(controller.greet(), "VAPLOG 1 A B\n")
            controller.ask({1: (0, 0), 2: (1, 0)})
            self.assertEqual(controller.answer(), "1|S1|RG|{2: (1, 0)}|-|-\n")
            self.assertEqual(controller.end(), 0)
        finally:
            del sys.modules["vantulig"]
            if before:
                sys.modules["vantulig"] = before

    @unittest.skipIf(HAS_LIBRARY, "the library is there")
    def test_no_library(self):
        with self.assertRaisesRegex(controllers.NoLibrary, "--library: the package `vantulig` isn't there"):
            controllers.Controllers(uses_library=True)


class Driver(unittest.TestCase):
    def light(self):
        made = object.__new__(drive.Light)
        made.name, made.log, made.state, made.letters = "C", None, None, ["r"] * 4
        made.seconds, made.faults, made.refused, made.first_fault, made.seen = 0, 0, 0, None, {}
        made.controller = SimpleNamespace(names=["K1", "K2"])
        made.links = [(0, "K1", [1]), (1, "K2", []), (2, "K1", [0])]  # the letter at 3 has no link
        return made

    def test_letters(self):
        for aspects, letters in (("GR", "Grgr"), ("GG", "gGgr"), ("GA", "gygr"), ("GU", "gugr"), ("AR", "yryr"),
                                 ("RG", "rGrr")):
            made = self.light()
            self.assertEqual(made.show(f"7|S1|{aspects}|-|-|-\n"), letters)
            self.assertIsNone(made.show(f"8|S1|{aspects}|-|-|-\n"))

    def test_a_link_that_yields_to_a_way_outside_the_light_is_never_a_great_g(self):
        made = self.light()
        made.links = [(0, "K1", [0]), (1, "K2", [])]
        self.assertEqual(made.show("7|S1|GG|-|-|-\n"), "gGrr")

    def test_faults_and_refusals_are_counted(self):
        made = self.light()
        for record in ("1|S1|RR|-|K1:Intergreen:K2|-\n", "2|S1|RR|-|-|ZeroDivisor@3\n", "3|S1|RR|-|-|ZeroDivisor@3\n",
                       "4|S1|RR|-|-|-\n"):
            made.show(record)
        self.assertEqual((made.seconds, made.refused, made.faults, made.first_fault), (4, 1, 2, "ZeroDivisor@3 in second 2"))

    def test_the_steps_of_a_second_are_one(self):
        made, seen = self.light(), [(1, 0), (0, 0), (0, 1)]
        made.detectors = {7: SimpleNamespace(counts=lambda: seen.pop(0)), 8: SimpleNamespace(counts=lambda: (0, 0))}
        for _ in range(3):
            made.look()
        self.assertEqual((made.see(), made.see()), ({7: (1, 1)}, {}))

    def test_an_area(self):
        seen = {}
        areas = SimpleNamespace(subscribe=lambda name, what: None, getSubscriptionResults=lambda name: seen)
        area, counts = detectors.Area(SimpleNamespace(lanearea=areas), "C#1", "lane"), []
        for vehicles in ("ab", "b", "bc", "bc", ""):
            seen[detectors.VEHICLES] = vehicles
            counts.append(area.counts())
        self.assertEqual(counts, [(2, 0), (0, 1), (1, 0), (0, 0), (0, 2)])

    def test_a_loop(self):
        steps = [[("a", 5, 0.2, -1, "")], [("a", 5, 0.2, 1.1, ""), ("b", 5, 1.5, -1, "")],
                 [("b", 5, 1.5, 2.1, ""), ("c", 5, 2.3, 2.9, "")], []]
        loops = SimpleNamespace(getVehicleData=lambda name: steps.pop(0))
        loop = detectors.Loop(SimpleNamespace(__name__="libsumo", inductionloop=loops), "1", "lane")
        self.assertEqual([loop.counts() for _ in range(4)], [(1, 0), (1, 1), (1, 2), (0, 0)])

    def test_each_person_pushes_once(self):
        there, waited, following = {"w0": ["p"], "w1": []}, {"p": 0, "q": 3}, {"p": ":C_c0", "q": ":C_c1"}
        edge = SimpleNamespace(subscribe=lambda name, what: None,
                               getSubscriptionResults=lambda name: {detectors.PERSONS: there[name]})
        person = SimpleNamespace(getWaitingTime=waited.get, getNextEdge=following.get)
        push, counts = detectors.Push(SimpleNamespace(edge=edge, person=person), ":C_c0", "w0 w1"), []
        for change in ({}, {"p": 1}, {"p": 2}, {"q": 4}):
            waited.update(change)
            counts.append(push.counts())
        there["w1"], following["q"] = ["q"], ":C_c0"
        counts.append(push.counts())
        self.assertEqual(counts, [(0, 0), (1, 1), (0, 0), (0, 0), (1, 1)])

    def test_sites(self):
        with tempfile.TemporaryDirectory() as folder:
            (Path(folder) / "sites.csv").write_text("light,folder,refused\nA,1,\nB,,why\n")
            found = drive.sites_of([folder, "C=elsewhere"])
            self.assertEqual(found, [("A", Path(folder) / "1"), ("C", Path("elsewhere"))])

    def test_the_first_ctrl_c_asks_and_the_second_ends(self):
        stop, told = drive.Stop(), []
        sumo = SimpleNamespace(simulationStep=lambda *until: signal.raise_signal(signal.SIGINT))
        with stop.watched():
            self.assertEqual(drive.let_drive(sumo, 0, 60, stop, told.append), 10)
            with self.assertRaises(KeyboardInterrupt):
                sumo.simulationStep()
        self.assertEqual(told, [10])


class Scenario(unittest.TestCase):
    def given(self, **more):
        return SimpleNamespace(**{"net": "n.net.xml", "begin": None, "step_length": None, "sumo_words": "", **more})

    def test_times(self):
        self.assertEqual([scenario.seconds_of(text) for text in ("12.5", "7:00:00", "1:0:00:05", "later")],
                         [12.5, 25200, 86405, None])
        for step, steps in ((None, 1), (0.5, 2), (0.1, 10)):
            given = self.given(step_length=step)
            scenario.set_times(given)
            self.assertEqual((given.begin, given.steps), (0, steps))
        for step in (0.3, 2.0, 0.0, -1.0, 0.15):
            with self.assertRaisesRegex(reading.Refused, "a whole number of them"):
                scenario.set_times(self.given(step_length=step))

    def test_a_configuration_says_its_times(self):
        with tempfile.TemporaryDirectory() as folder:
            file = Path(folder) / "town.sumocfg"
            file.write_text('<configuration><time><begin value="7:00:00"/><step-length value="0.2"/></time></configuration>')
            given = self.given(net=str(file))
            scenario.set_times(given)
            self.assertEqual((given.begin, given.steps), (25200, 5))
            given = self.given(net=str(file), begin=60, step_length=1.0)
            scenario.set_times(given)
            self.assertEqual((given.begin, given.steps), (60, 1))

    def test_words_for_sumo(self):
        given = self.given(sumo_words="--scale 1.2 --no-warnings=false --random --device.rerouting.probability '0.5'")
        self.assertEqual(scenario.words_for(given), {"--scale": "1.2", "--no-warnings": "false", "--random": "true",
                                                     "--device.rerouting.probability": "0.5"})
        with self.assertRaisesRegex(reading.Refused, "'1.2' of --sumo-words stands behind no option"):
            scenario.words_for(self.given(sumo_words="1.2"))

    def test_what_the_user_says_reaches_sumo(self):
        given = self.given(gui=True, sites=["C=/s"], control="static", additional=["more.add.xml"], states=None,
                           collisions="hits.xml", routes="r.xml", seed=7, begin=25200, step_length=0.5,
                           sumo_words="--time-to-teleport -1")
        call = scenario.call_of(given, Path("/out"))
        said = dict(zip(call[1::2], call[2::2]))
        self.assertEqual(call[0], "sumo-gui")
        self.assertEqual({name: said[name] for name in (
            "-n", "-r", "-a", "--begin", "--step-length", "--seed", "--start", "--time-to-teleport", "--collision-output",
            "--tripinfo-output")}, {
            "-n": "n.net.xml", "-r": "r.xml", "-a": "more.add.xml", "--begin": "25200", "--step-length": "0.5", "--seed": "7",
            "--start": "true", "--time-to-teleport": "-1", "--collision-output": "hits.xml",
            "--tripinfo-output": "/out/tripinfo.xml"})

    def test_sumos_own_first_error_is_told(self):
        with tempfile.TemporaryFile("w+") as errors:
            errors.write("Loading\nError: The edge 'x' is not known.\nError: Quitting.\n")
            self.assertEqual(scenario.cause_in(errors, OSError("fault")), "The edge 'x' is not known. (and 1 more)")
        with tempfile.TemporaryFile("w+") as errors:
            self.assertEqual(scenario.cause_in(errors, OSError("fault")), "fault")


class SecondJudge(unittest.TestCase):
    """A judge that shares no code with the one of the product: each kind of breach, and a log without one."""

    GOOD = ["RR"] * 5 + ["GR"] * 6 + ["AR"] * 3 + ["RR"] * 2 + ["RG"] * 6

    def breaches(self, pictures, pairs=()):
        with tempfile.TemporaryDirectory() as folder:
            site = Path(folder)
            (site / "times.csv").write_text("group,min_green,red_amber,amber\nA,5,0,3\nB,5,0,3\n")
            (site / "intergreens.csv").write_text("from,to,seconds\nA,B,5\nB,A,5\n")
            (site / "links.csv").write_text("place,index,group\n0,0,A\n1,1,B\n")
            numbered = list(enumerate(pictures, 1))
            return (list(judge_sumo.breaches_of_tables(["A", "B"], numbered, site)),
                    list(judge_sumo.breaches_of_network(["A", "B"], numbered, site, pairs)))

    def test_a_good_log(self):
        self.assertEqual(self.breaches(self.GOOD, {(0, 1)}), ([], []))

    def test_breaches(self):
        def at(place, pictures):
            return self.GOOD[:place] + pictures
        for pictures, said in ((at(15, ["RG"]), "second 16: B turns green 4 s after A, not 5"),
                               (at(8, ["AR"]), "second 9: A was green for 3 s, and 5 are its least"),
                               (at(13, ["RR"]), "second 14: A was amber for 2 s, and has 3"),
                               (at(8, ["GG"]), "second 9: A is G and B G")):
            self.assertIn(said, self.breaches(pictures)[0])
        self.assertEqual(self.breaches(at(13, ["AG"]), {(0, 1)})[1],
                         ["second 14: the ways of links 0 and 1 cross, and both drive"])

    def test_lines_that_cross(self):
        self.assertTrue(judge_sumo.is_crossed([(0, 0), (10, 0)], [(5, -5), (5, 5)]))
        for other in ([(0, 1), (10, 1)], [(10, 0), (10, 5)], [(5, 1), (5, 5)]):
            self.assertFalse(judge_sumo.is_crossed([(0, 0), (10, 0)], other))


class EventsOfAreas(unittest.TestCase):
    """A lane area holds several vehicles at once, and events tell the first that covers it and the last that leaves it."""

    def test_what_events_lose_is_told(self):
        records = [(1, "R", [(4, 1, 0)]), (2, "R", [(4, 1, 0), (2, 1, 1)]), (3, "R", [(4, 0, 1)]), (4, "R", [(4, 0, 1)])]
        self.assertEqual(events_from_log.lost_of(records), (2, 1, [4]))
        self.assertEqual(events_from_log.lost_told(records), "in 2 seconds counts have no event: 1 vehicles came while others "
                         "covered detector 4, and on and off can't tell them")
        self.assertEqual(events_from_log.lost_told(records[:1]), "")
