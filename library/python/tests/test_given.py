"""Seconds by commands of the caller, states that are kept, many seconds and many junctions at once: the same seconds by one way
and by another tell the same."""

import copy
import importlib.util
import os
import pathlib
import pickle
import random
import threading
import unittest

import vantulig
from vantulig import Busy, Controller, Ended, Guarded, Many, NoCommand, NoNames, NotTaken, Refused, Turn, WrongLog, read_log

EXAMPLES = pathlib.Path(os.environ.get("EXAMPLES", "crates/junction/examples"))
FOUR = [EXAMPLES / "four_arms" / name for name in ("four_arms.vap", "junction.pua", "times.csv", "intergreens.csv")]
TWO = [EXAMPLES / "two_stages" / name for name in ("side_road.vap", "junction.pua", "times.csv", "intergreens.csv")]
np = vantulig.numpy
wants_numpy = unittest.skipUnless(np, "NumPy is wanted")
wants_pandas = unittest.skipUnless(np and importlib.util.find_spec("pandas"), "pandas is wanted")


def random_second(g, chance):
    """A second by one of the ways, at random: its counts, and what makes it."""
    counts = {d: (1, 1) for d in range(1, 13) if chance.random() < 0.1}
    way = chance.randrange(4)
    if way == 0:
        return g.step(counts)
    if way == 1:
        return g.decide(counts, stage=chance.randrange(g.stages + 1))
    if way == 2:
        return g.decide(counts, order=(1, 2), groups={chance.choice(g.names): chance.choice(("green", "red"))})
    return g.wish("".join(chance.choice("GR.") for _ in g.names), counts)


class Commands(unittest.TestCase):
    def setUp(self):
        self.g = Guarded(*FOUR)
        self.addCleanup(self.g.end)

    def test_what_names_nothing(self):
        """each is refused, and nothing has changed"""
        g, n = self.g, len(self.g.names)
        self.assertEqual(g.step().second, 1)
        wrong = [
            dict(stage=g.stages + 1), dict(stage=-1), dict(stage=256), dict(order=(1, g.stages + 1)), dict(order=(0, 1)),
            dict(order=(1, 0)), dict(order=(-1, 1)), dict(order=(1, 300)), dict(groups={-1: "red"}), dict(groups={-4: "red"}),
            dict(groups={n: "red"}), dict(groups={"no": "green"}), dict(stage=1.5), dict(groups={64: "green"}),
        ]  # fmt: skip
        for words in wrong:
            with self.subTest(words), self.assertRaises(NoCommand):
                g.decide(**words)
        for words in (dict(order=(1,)), dict(order=(1, 2, 3)), dict(order=7), dict(groups={0: "blue"})):
            with self.subTest(words), self.assertRaises(ValueError):
                g.decide(**words)
        with self.assertRaises(TypeError):
            g.decide(stage="two")
        for letters in ("G", "G" * (n + 1), "." * (n + 1), "g" * n, ""):
            with self.subTest(letters), self.assertRaises(ValueError):
                g.wish(letters)
        self.assertEqual((g.seconds, g.step().second), (1, 2))

    def test_both_wrong(self):
        """of counts that are not taken and a command that names nothing the counts are told"""
        for words in (dict(order=(1, 99)), dict(stage=-1), dict(stage=300), dict(groups={"no": "red"}), dict(order=(1, 2))):
            with self.subTest(words), self.assertRaises(NotTaken) as at:
                self.g.decide({1: (0, 1)}, **words)
            self.assertEqual((at.exception.detector, at.exception.reason), (1, "RearsAhead"))
        self.assertEqual(self.g.seconds, 0)

    def test_groups_by_name_and_place(self):
        with Guarded(*FOUR) as other:
            for _ in range(60):
                by_name = self.g.decide(groups={self.g.names[0]: "green", self.g.names[3]: False, self.g.names[4]: None})
                self.assertEqual(by_name, other.decide(groups={0: True, 3: "red"}))

    def test_counts_that_are_bools(self):
        self.assertIn("|3:1:0|", self.g.step({3: (True, False)}).line())

    def test_why_not_taken(self):
        self.g.step({5: (3, 1)})
        ahead, many, two = {5: (0, 3)}, {7: (1 << 31, 0)}, {9: (0, 1), 5: (0, 3)}
        for counts, detector, reason in ((ahead, 5, "RearsAhead"), (many, 7, "Range"), (two, 5, "RearsAhead")):
            for call in (self.g.step, self.g.decide, lambda c: self.g.wish("R" * len(self.g.names), c)):
                with self.assertRaises(NotTaken) as at:
                    call(counts)
                self.assertEqual((at.exception.detector, at.exception.reason), (detector, reason))
                self.assertIn(f"detector {detector}", str(at.exception))
        with self.assertRaises(ValueError) as at:
            self.g.step({2: (1, -1)})
        self.assertIn("detector 2", str(at.exception))
        self.assertEqual(self.g.step({5: (0, 2)}).second, 2)

    def test_paths_and_texts(self):
        """str, bytes and paths give the same; a refusal names the path"""
        log = [self.g.step({1: (1, 1)}).line() for _ in range(30)]
        for texts in ([path.read_text() for path in FOUR], [path.read_bytes() for path in FOUR]):
            with Guarded(*texts) as other:
                self.assertEqual([other.step({1: (1, 1)}).line() for _ in range(30)], log)
        with self.assertRaises(Refused) as at:
            Controller(FOUR[1], *FOUR[1:])
        self.assertEqual(at.exception.path, str(FOUR[1]))
        self.assertIn(str(FOUR[1]), str(at.exception))
        self.assertEqual(pickle.loads(pickle.dumps(at.exception)).reason, at.exception.reason)

    def test_what_is_told(self):
        self.assertIn("second 0, -", repr(self.g))
        record = self.g.decide(stage=2)
        told = self.g.seconds, self.g.place, self.g.aspects, self.g.fault
        self.assertEqual(told, (1, record.place, record.aspects, record.fault))
        self.assertIn(f"second 1, {record.place} {record.aspects}", repr(self.g))
        self.assertEqual(self.g.record(), record)
        self.g.end()
        self.assertIn("ended", repr(self.g))

    def test_variables_and_timers(self):
        program = "PROGRAM v;\nSeen := Seen + 1; Twice := Seen * 2; IF Seen = 2 THEN Start(Since) END;\nPROG_ENDE: .\n"
        with Guarded(program, *FOUR[1:]) as g:
            for _ in range(5):
                g.step()
            self.assertEqual(g.variables, {"seen": 5, "twice": 10})
            self.assertEqual((g.timers, g.timer("SINCE")), ({"since": 3}, 3))
            g.decide()
            self.assertEqual((g.variables["seen"], g.timers), (5, {"since": 4}))
            for other in ("", "sinc", "seen"):
                with self.assertRaises(KeyError):
                    g.timer(other)
        code = "VAPCODE 1\nVARS 1\nTIMERS 0\nARRAYS 0\nROUTINES 1\n0\nCODE 1\nret\nEND\n"
        with Controller(code, *FOUR[1:], is_code=True) as c:
            for call in (lambda: c.variables, lambda: c.timers, lambda: c.timer("x")):
                with self.assertRaises(NoNames):
                    call()

    def test_mask_is_what_comes(self):
        """each turn that is wished alone comes where the mask says so, and else is refused by its rule"""
        chance = random.Random(4)
        for _ in range(2000):
            mask = self.g.mask()
            turn = chance.choice(mask.turns)
            ends = {other.group: other.is_end for other in mask.turns}
            wishes = "".join("G" if ends[name] != (name == turn.group) else "R" for name in self.g.names)
            record = self.g.wish(wishes)
            told = Turn(turn.group, turn.rule, turn.other) if turn.rule else None
            self.assertEqual([one for one in record.turns if one.group == turn.group], [told] if told else [])
            self.assertEqual(turn.wait == 0, turn.rule is None)


class States(unittest.TestCase):
    def test_restored(self):
        """what was kept in the middle of a run goes on with the same log, in each way"""
        for keep_at in (0, 1, 37, 300):
            g, chance = Guarded(*FOUR), random.Random(keep_at)
            for _ in range(keep_at):
                random_second(g, chance)
            state, at = g.save(), chance.getstate()
            ways = [copy.copy(g), copy.deepcopy(g), g.copy(), pickle.loads(pickle.dumps(g)), Guarded(*FOUR)]
            ways[-1].restore(pickle.loads(pickle.dumps(state)))
            log = [random_second(g, chance).line() for _ in range(200)]
            for other in ways:
                chance.setstate(at)
                self.assertEqual((other.seconds, other.names), (keep_at, g.names))
                self.assertEqual([random_second(other, chance).line() for _ in range(200)], log)
                self.assertEqual((other.aspects, other.record(), other.mask()), (g.aspects, g.record(), g.mask()))
            g.restore(state)
            chance.setstate(at)
            self.assertEqual([random_second(g, chance).line() for _ in range(200)], log)

    @wants_numpy
    def test_restored_after_many(self):
        chance = np.random.default_rng(3)
        counts = np.zeros((400, 2, 64), np.uint32)
        counts[:, :, :12] = chance.random((400, 1, 12)) < 0.1
        with Guarded(*FOUR) as g:
            g.run(counts[:100])
            g.drive(counts[100:250], stages=chance.integers(0, g.stages + 1, 150).repeat(1))
            g.drive(counts[250:300], groups=chance.integers(0, 3, (50, len(g.names))))
            g.decide(stage=2), g.step({1: (1, 0)}), g.decide(stage=2)
            other = g.copy()
            self.assertEqual((other.seconds, other.aspects, other.mask()), (303, g.aspects, g.mask()))
            self.assertEqual(other.run(counts[300:]).told.tobytes(), g.run(counts[300:]).told.tobytes())

    def test_of_other_texts(self):
        with Guarded(*FOUR) as four, Guarded(*TWO) as two, Controller(*FOUR) as program, Guarded(*FOUR, keep=False) as without:
            with self.assertRaises(ValueError):
                two.restore(four.save())
            four.decide(stage=1)
            with self.assertRaises(ValueError):
                program.restore(four.save())
            with self.assertRaises(ValueError):
                without.save()


@wants_numpy
class ManySeconds(unittest.TestCase):
    def setUp(self):
        chance = np.random.default_rng(5)
        self.counts = np.zeros((500, 2, 64), np.uint32)
        self.counts[:, :, :12] = chance.random((500, 1, 12)) < 0.1
        self.stages = chance.integers(0, 5, 500)
        self.g = Guarded(*FOUR)
        self.addCleanup(self.g.end)

    def seen(self, at):
        return {d + 1: tuple(self.counts[at, :, d].tolist()) for d in range(64) if self.counts[at, 0, d]}

    def test_drive(self):
        """many seconds by commands are the single ones: lines of the log, refused stage commands, columns"""
        groups = np.random.default_rng(6).integers(0, 3, (500, len(self.g.names)))
        orders = np.where(np.arange(500)[:, None] % 7 == 0, [[1, 2]], [[0, 0]])
        wishes = [{g: (None, "green", "red")[w] for g, w in enumerate(row)} for row in groups.tolist()]
        with Guarded(*FOUR) as other:
            records = [
                other.decide(self.seen(at), order=tuple(orders[at].tolist()), stage=int(self.stages[at]), groups=wishes[at])
                for at in range(500)
            ]
        run = self.g.drive(self.counts, orders=orders, stages=self.stages, groups=groups)
        self.assertEqual(list(run.records()), records)
        self.assertEqual(list(run.lines()), [record.line() for record in records])
        self.assertEqual(run.aspects.tolist(), [record.aspects for record in records])
        refused = [(record.second, *stage[:2]) for record in records for stage in record.stages]
        self.assertEqual([one[:3] for one in run.stage_refusals.tolist()], refused)
        self.assertTrue(refused)
        columns = run.columns()
        self.assertEqual("".join(str(columns[name][-1]) for name in self.g.names), records[-1].aspects)
        self.assertEqual((self.g.seconds, self.g.record()), (500, records[-1]))

    def test_more_refused_stages_than_a_list_holds(self):
        orders = np.full((500, 2), [3, 1])
        with Guarded(*FOUR) as other:
            records = [other.decide(order=(3, 1)) for _ in range(500)]
        kept, vantulig._controller.LISTED = vantulig._controller.LISTED, 7
        try:
            run = self.g.drive(500, orders=orders)
        finally:
            vantulig._controller.LISTED = kept
        self.assertEqual(list(run.lines()), [record.line() for record in records])
        self.assertGreater(len(run.stage_refusals), 7)

    def test_wrong_arrays(self):
        n = len(self.g.names)
        for words in (
            dict(stages=np.full(500, 99)), dict(stages=np.full(500, -1)), dict(groups=np.full((500, n), 3)),
            dict(orders=np.tile([0, 1], (500, 1))), dict(orders=np.tile([1, 99], (500, 1))),
        ):  # fmt: skip
            with self.subTest(words), self.assertRaises(NoCommand):
                self.g.drive(self.counts, **words)
        for words in (dict(stages=np.zeros(499, int)), dict(stages=np.zeros(500)), dict(groups=np.zeros((500, n + 1), int))):
            with self.subTest(words), self.assertRaises(ValueError):
                self.g.drive(self.counts, **words)
        self.assertEqual(self.g.seconds, 0)

    def test_not_taken(self):
        self.counts[300, 1, 40] = 1
        with self.assertRaises(NotTaken) as at:
            self.g.drive(self.counts, stages=self.stages)
        self.assertEqual((len(at.exception.made), at.exception.detector, at.exception.reason), (300, 41, "RearsAhead"))
        self.assertEqual((self.g.seconds, self.g.decide().second), (300, 301))

    def test_single_second_of_an_array(self):
        with Controller(*FOUR) as a, Controller(*FOUR) as b:
            for at in range(300):
                kind = (np.uint32, np.int64, np.uint8)[at % 3]
                self.assertTrue(a.second(self.counts[at].astype(kind)))
                self.assertEqual(a.record(), b.step(self.seen(at)))
            for wrong in (np.zeros((2, 63), int), np.ones((2, 64)), np.full((2, 64), -1)):
                with self.assertRaises(ValueError):
                    a.second(wrong)
            self.assertEqual(a.second(np.zeros((2, 64), int)), True)

    def test_threads(self):
        """other threads go on while seconds are made, and can't come between them"""
        seen = []
        with Controller(*FOUR) as c:
            worker = threading.Thread(target=lambda: seen.append(len(c.run(np.zeros((200_000, 2, 64), np.uint32)))))
            worker.start()
            busy = 0
            while worker.is_alive():
                try:
                    c.step()
                    if busy:
                        # the seconds are made, and the worker reads them
                        break
                except Busy:
                    busy += 1
            worker.join()
        self.assertEqual(seen, [200_000])
        self.assertGreater(busy, 0)

    def test_many_junctions(self):
        chance = random.Random(8)
        alone = [Guarded(*texts) for texts in (FOUR, TWO, FOUR, TWO)]
        many = Many([Guarded(*texts) for texts in (FOUR, TWO, FOUR, TWO)])
        for second in range(200):
            counts = np.zeros((4, 2, 64), int)
            counts[:, :, 0] = chance.randrange(2)
            seen = {1: (1, 1)} if counts.any() else {}
            stages = [chance.randrange(one.stages + 1) for one in alone]
            if second % 3 == 0:
                records, told = [one.step(seen) for one in alone], many.step(counts)
            elif second % 3 == 1:
                records = [one.decide(seen, stage=stage) for one, stage in zip(alone, stages)]
                told = many.decide(counts, stages=np.array(stages))
            else:
                records = [one.decide(seen, groups={0: "green", 1: "red"}) for one in alone]
                told = many.decide(counts, groups=np.tile([1, 2], (4, 1)))
            for at, record in enumerate(records):
                self.assertEqual(bytes(told["aspects"][at][: told["groups"][at]]).decode(), record.aspects)
                self.assertEqual(many.junctions[at].record(), record)
                self.assertEqual(many.masks[at].tobytes(), alone[at].mask_array().tobytes())
        self.assertEqual(many.junctions[1].copy().mask(), alone[1].mask())
        with self.assertRaises(NoCommand) as at:
            many.decide(stages=np.array([1, 1, 99, 1]))
        self.assertIn("junction 2", str(at.exception))
        counts = np.zeros((4, 2, 64), int)
        counts[3, 1, 0] = 999
        with self.assertRaises(NotTaken) as at:
            many.step(counts)
        self.assertIn("junction 3", str(at.exception))
        self.assertEqual([one.seconds for one in many.junctions], [201, 201, 201, 200])
        many.junctions[0].end()
        with self.assertRaises(Ended):
            many.step()
        with self.assertRaises(ValueError):
            Many([alone[0], alone[0]])


class Logs(unittest.TestCase):
    def test_read(self):
        """what is read of a log is what was told"""
        chance = random.Random(2)
        with Guarded(*FOUR) as g:
            records = [random_second(g, chance) for _ in range(300)]
            text = g.header() + "".join(record.line() for record in records)
            log = read_log(text)
            self.assertEqual((log.names, list(log)), (g.names, records))
        self.assertEqual(read_log(text.encode()).records, records)
        self.assertEqual(len(log.seconds()["second"]), 300)
        refused = sum(len(record.turns) + len(record.stages) for record in records)
        self.assertEqual((len(log.refusals()["rule"]), sum(log.seconds()["refused"])), (refused, refused))
        self.assertGreater(refused, 0)
        self.assertEqual(sum(log.counts()["fronts"]), sum(f for record in records for _, f, _ in record.counts))
        self.assertEqual(log.faults()["second"], [])

    @wants_pandas
    def test_tables(self):
        """each table of a log is one of pandas, and so are the columns of a run"""
        import pandas

        chance = np.random.default_rng(4)
        counts = np.zeros((400, 2, 64), np.uint32)
        counts[:, :, :12] = chance.random((400, 1, 12)) < 0.1
        with Guarded(*FOUR) as g:
            run = g.drive(counts, stages=chance.integers(0, g.stages + 1, 400))
            log = read_log(g.header() + "".join(run.lines()))
            seconds, columns = pandas.DataFrame(log.seconds()), pandas.DataFrame(run.columns())
            self.assertEqual(seconds.shape, (400, 4 + len(g.names)))
            for name in ("second", "place", *g.names):
                self.assertEqual(seconds[name].tolist(), columns[name].tolist())
        self.assertEqual(seconds.refused.tolist(), (columns.stages_refused + columns.turns_refused).tolist())
        refusals = pandas.DataFrame(log.refusals())
        self.assertEqual(refusals.groupby("second").size().sum(), seconds.refused.sum())
        seen = pandas.DataFrame(log.counts())
        self.assertEqual(seen.groupby("detector").fronts.sum().tolist(), counts[:, 0, :12].sum(axis=0).tolist())
        self.assertEqual(len(pandas.DataFrame(log.faults())), 0)

    def test_wrong(self):
        head, line = "VAPLOG 1 K1 K2\n", "1|S1|RG|-|-|-\n"
        self.assertEqual(len(read_log(head + line)), 1)
        for text, at in (
            ("", 1), ("VAPLOG 2 K1\n", 1), (head + line[:-1], 2), (head + "1|S1|RG|-|-\n", 2),
            (head + line + "2|S1|RX|-|-|-\n", 3),
            (head + "1|S1|R|-|-|-\n", 2), (head + "1|T1|RG|-|-|-\n", 2), (head + "1|S1|RG|1:2|-|-\n", 2),
            (head + "1|S1|RG|-|K3:Conflict|-\n", 2), (head + "1|S1|RG|-|K1:Because|-\n", 2),
            (head + "1|S1|RG|-|-|Fault@x\n", 2),
        ):  # fmt: skip
            with self.subTest(text), self.assertRaises(WrongLog) as told:
                read_log(text)
            self.assertEqual(told.exception.line, at)


if __name__ == "__main__":
    unittest.main()
