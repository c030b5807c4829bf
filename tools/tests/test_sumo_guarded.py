"""Tests of lights under the guard, by stand-ins of SUMO and of the library; tools/tests/test_sumo.py runs them."""
import argparse
import contextlib
import io
import json
import tempfile
import unittest
from pathlib import Path
from types import SimpleNamespace
from unittest import mock

import controllers
import guarded_sumo
from sumo import guarded
from sumo.masks import Masks

__all__ = ["GuardedControls", "GuardedMasks", "GuardedNets", "GuardedWishes", "Guards"]


class GuardedControls(unittest.TestCase):
    def test_words(self):
        read = guarded.control_from(("vap", "static"))
        for word in ("vap", "static", "guarded:static", "guarded:actuated", "guarded:delay_based", "guarded:a/b.py:wish"):
            self.assertEqual(read(word), word)
        for word in ("", "guarded", "guarded:", "guarded:vap", "guarded:a.py", "guarded:a.py:", "fixed", "actuated"):
            with self.subTest(word), self.assertRaisesRegex(argparse.ArgumentTypeError, "is none of vap, static, guarded:static"):
                read(word)

    def test_own_programs(self):
        own = {"static": "static", "guarded:actuated": "actuated", "vap": None, "guarded:a.py:wish": None}
        self.assertEqual({word: guarded.own_of(word) for word in own}, own)

    def test_functions(self):
        with tempfile.TemporaryDirectory() as folder:
            file = Path(folder, "mine.py")
            file.write_text("def wish(light, names, second, counts):\n    return 'G' * len(names)\n", encoding="utf-8")
            self.assertEqual(guarded.function_of(f"guarded:{file}:wish")("L", ["A", "B"], 1, {}), "GG")
            for name in (f"{file}:other", f"{folder}/none.py:wish"):
                with self.assertRaisesRegex(controllers.Lost, "isn't there"):
                    guarded.function_of(f"guarded:{name}")


class GuardedWishes(unittest.TestCase):
    def lights(self, state):
        logics = [SimpleNamespace(programID="online", phases=[], currentPhaseIndex=0),
                  SimpleNamespace(programID="7", phases=[SimpleNamespace(state=state)], currentPhaseIndex=0)]
        return SimpleNamespace(getProgram=lambda name: "7", getAllProgramLogics=lambda name: logics)

    def test_own_state(self):
        """a group is wished green where one of its links is green or about to be"""
        links = [(0, "A", []), (1, "B", []), (2, "A", []), (3, "C", [])]
        for state, wanted in (("rrrr", "RRR"), ("rrGr", "GRR"), ("rgry", "RGR"), ("ruru", "RGG"), ("GGGG", "GGG")):
            wishes = guarded.OwnWishes(SimpleNamespace(trafficlight=self.lights(state)), "L", links)
            wishes.begin(["A", "B", "C"])
            self.assertEqual(wishes(1, {}), wanted)

    def test_a_program_that_is_gone(self):
        lights = self.lights("r")
        wishes = guarded.OwnWishes(SimpleNamespace(trafficlight=lights), "L", [(0, "A", [])])
        wishes.begin(["A"])
        lights.getAllProgramLogics = lambda name: []
        with self.assertRaisesRegex(controllers.Lost, "its own program 7 is gone"):
            wishes(1, {})


class Guards(unittest.TestCase):
    def library(self, answers):
        turn = SimpleNamespace(rule="MinGreen")

        def wish(letters, counts):
            aspects, refused = answers(letters, counts)
            return SimpleNamespace(aspects=aspects, turns=[turn] * refused, line=lambda: f"1|S1|{aspects}|-|-|-\n")

        made = SimpleNamespace(names=("A", "B"), header=lambda: "VAPLOG 1 A B\n", wish=wish, end=lambda: None)
        return SimpleNamespace(Guarded=SimpleNamespace(of_files=lambda *files, keep: made))

    def test_what_is_refused_is_told(self):
        """each refused turn counts for its rule, and a green that isn't shown yet as late"""
        wishes = guarded.FunctionWishes(lambda light, names, second, counts: "GR" if second < 3 else "RG", "L")
        shown = iter((("RR", 1), ("GR", 0), ("GR", 2)))
        controller = guarded.GuardedController(self.library(lambda letters, counts: next(shown)), ["p", "t", "i"], wishes)
        self.assertEqual(controller.greet(), "VAPLOG 1 A B\n")
        for _ in range(3):
            controller.ask({1: (1, 1)})
            controller.answer()
        light = SimpleNamespace(controller=controller, seconds=3)
        told = guarded.refusals_of([light, light])
        self.assertEqual(told, {"refused_turns": {"MinGreen": 6}, "late": 4, "light_seconds": 6})
        self.assertEqual(guarded.line_of(told), "turns refused: MinGreen 6; a green came late in 4 of 6 seconds of lights")
        self.assertIn("turns refused: none;", guarded.line_of({"refused_turns": {}, "late": 0, "light_seconds": 6}))

    def test_wishes_that_are_none(self):
        def refuse(letters, counts):
            raise ValueError("3 wishes for 2 groups")

        controller = guarded.GuardedController(self.library(refuse), [], guarded.FunctionWishes(lambda *_: "GGG", "L"))
        controller.greet()
        controller.ask({})
        with self.assertRaisesRegex(controllers.Lost, "in second 1: 3 wishes for 2 groups"):
            controller.answer()


class GuardedMasks(unittest.TestCase):
    """A site of three groups of which B and C stand against A."""

    def turn(self, group, is_end=False, rule=None, other=None, wait=0):
        return SimpleNamespace(group=group, is_end=is_end, rule=rule, other=other, wait=wait)

    def compared(self, before, after, wish, aspects, *refused):
        """What was wrong of one second between two masks."""
        masks = iter((before, after))
        judge = Masks(SimpleNamespace(mask=lambda: SimpleNamespace(turns=next(masks))))
        turns = [SimpleNamespace(group=group, rule=rule, other=other) for group, rule, other in refused]
        judge.compare(wish, SimpleNamespace(second=1, aspects=aspects, turns=turns))
        self.assertEqual((judge.seconds, judge.first is None), (1, not judge.wrong))
        return judge.wrong

    def test_ends(self):
        free, held = self.turn("A", True), self.turn("A", True, "MinGreen", None, 4)
        short, sequence = (("A", "MinGreen", None),), (("A", "Sequence", None),)
        for mask, aspects, refused, wrong in ((free, "A", (), 0), (free, "G", short, 1), (held, "A", (), 1),
                                              (held, "G", short, 0), (held, "G", sequence, 1), (free, "G", (), 1)):
            with self.subTest(mask=mask, aspects=aspects, refused=refused):
                after = [self.turn("A", True, "MinGreen", None, 3)]
                self.assertEqual(self.compared([mask], after, "R", aspects, *refused), wrong)

    def test_starts(self):
        """a start that is allowed may stand against a group that turns too; one that isn't comes where that group goes"""
        start, barred = self.turn("B"), self.turn("B", False, "Conflict", "A", None)
        on, off = self.turn("A", True), self.turn("A")
        conflict, intergreen, red = (("B", "Conflict", "A"),), (("B", "Intergreen", "A"),), (("B", "MinRed", None),)
        both = (([off, start], "GG", "GR", conflict, 0), ([off, start], "RG", "RR", conflict, 1),
                ([on, barred], "GG", "GG", (), 1), ([on, barred], "GG", "GR", conflict, 0),
                ([on, barred], "RG", "AR", intergreen, 0), ([on, barred], "RG", "AG", (), 0),
                ([on, barred], "RG", "AR", red, 1), ([off, self.turn("B", False, "MinRed")], "RG", "RG", (), 1))
        for mask, wish, aspects, refused, wrong in both:
            with self.subTest(mask=mask, wish=wish, aspects=aspects, refused=refused):
                self.assertEqual(self.compared(mask, mask, wish, aspects, *refused), wrong)

    def test_nature(self):
        """what isn't wished to turn doesn't, and each wait is a second shorter"""
        for before, after, aspects, wrong in ((3, 2, "R", 0), (3, 3, "R", 1), (0, 0, "R", 0), (None, None, "R", 0),
                                              (None, 5, "R", 1), (3, 3, "G", 1)):
            rule = "Intergreen" if before != 0 else None
            masks = ([self.turn("C", False, rule, None, wait)] for wait in (before, after))
            with self.subTest(before=before, after=after, aspects=aspects):
                self.assertEqual(self.compared(*masks, "R", aspects), wrong)

    def test_told(self):
        masks = SimpleNamespace(seconds=9, wrong=1, first="second 3")
        controller = SimpleNamespace(rules=guarded.collections.Counter(), late=0, masks=masks)
        light = SimpleNamespace(name="L", controller=controller, seconds=9)
        told = guarded.refusals_of([light])
        self.assertEqual((told["masks"], told["masks_wrong"], told["first_wrong_mask"]), (9, 1, "L: second 3"))
        self.assertIn("; 1 of 9 masks were wrong", guarded.line_of(told))


class GuardedNets(unittest.TestCase):
    def judged(self, verdict, status=0, wrong=0):
        """What is told of a network of two lights whose logs have this verdict, by stand-ins of all programs."""
        told = {"seconds": 9, "vehicles": 4, "refused_turns": {"MinGreen": 3}, "late": 1, "light_seconds": 18, "masks": 18,
                "masks_wrong": wrong, "first_wrong_mask": "L: second 2" if wrong else None}

        def call(*words):
            if "audit" in words:
                return SimpleNamespace(returncode=0, stdout=f"{verdict}\n", stderr="")
            return SimpleNamespace(returncode=status, stdout="" if status == 1 else json.dumps(told), stderr="it fell")

        net = SimpleNamespace(name="town", routes="town.rou.xml", additional=())
        given = SimpleNamespace(control="guarded:actuated", seconds=9, libsumo=False, junction="junction", test_mask=None)
        out, err = io.StringIO(), io.StringIO()
        with mock.patch.object(guarded_sumo, "call", call), contextlib.redirect_stdout(out), contextlib.redirect_stderr(err):
            found = guarded_sumo.judged(net, Path("town.net.xml"), {"A": Path("a"), "B": Path("b")}, Path("to"), given)
        return found, out.getvalue(), err.getvalue()

    def test_a_network(self):
        found, out, _ = self.judged("SAFE 9")
        self.assertEqual(found, (2, []))
        self.assertEqual(out, "town: 2 lights, 9 seconds, 4 vehicles; 3 turns refused, a green late in 1 of 18 seconds; 0 of 18 "
                              "masks wrong; 0 wrong\n")

    def test_what_is_wrong(self):
        self.assertEqual(self.judged("UNSAFE 3 Conflict")[0], (2, ["a: UNSAFE 3 Conflict", "b: UNSAFE 3 Conflict"]))
        self.assertEqual(self.judged("SAFE 9", 3, 1)[0], (2, ["L: second 2"]))
        found, _, err = self.judged("SAFE 9", 1)
        self.assertEqual((found, err), ((0, ["town: it wasn't driven"]), "town: status 1: it fell\n"))
