"""The environment for learners, by the points that Gymnasium's check_env judges, with stand-ins and with classes in Gymnasium's place."""

import inspect
import io
import os
import pathlib
import subprocess
import sys
import tempfile
import textwrap
import unittest

import vantulig

np = vantulig.numpy
if np:
    from vantulig import _spaces
    from vantulig.environment import JunctionEnv, JunctionsEnv
    from vantulig.traffic import Arrivals

EXAMPLES = pathlib.Path(os.environ.get("EXAMPLES", "crates/junction/examples"))
NAMES = ("junction.pua", "times.csv", "intergreens.csv")
TWO, FOUR = (tuple(EXAMPLES / site / name for name in NAMES) for site in ("two_stages", "four_arms"))
# a package in Gymnasium's place: classes of its own, that count what is made of them
STAND_IN = '''
import vantulig._spaces as here
class Env(here.EnvHere):
    is_theirs = True
class _S:
    class Box(here.BoxHere): is_theirs = True
    class Discrete(here.DiscreteHere): is_theirs = True
    class MultiDiscrete(here.MultiDiscreteHere): is_theirs = True
'''


def check_env(case, env):
    """The points of Gymnasium's check_env."""
    case.assertIsInstance(env, _spaces.Env)
    case.assertIn("seed", inspect.signature(env.reset).parameters)
    case.assertIn("options", inspect.signature(env.reset).parameters)
    box = env.observation_space
    case.assertTrue((box.low < box.high).all() and np.isfinite(box.low).all() and np.isfinite(box.high).all())
    case.assertIn(env.action_space.sample(), env.action_space)
    firsts = []
    for seed in (123, 123, 456, None):
        seen, info = env.reset(seed=seed, options={})
        case.assertIn(seen, box)
        case.assertIsInstance(info, dict)
        firsts.append(seen)
    case.assertTrue((firsts[0] == firsts[1]).all())
    steps = [run_of(case, env, seed) for seed in (7, 7, 8)]
    case.assertEqual(steps[0], steps[1])
    case.assertNotEqual(steps[0], steps[2])
    env.close()
    env.close()


def run_of(case, env, seed):
    """An episode of random actions that the mask allows: what was seen and the rewards."""
    seen, info = env.reset(seed=seed)
    env.action_space.seed(seed)
    rows, cut = [], False
    while not cut:
        action = env.action_space.sample(info["mask"])
        case.assertIn(action, env.action_space)
        answer = env.step(action)
        case.assertEqual(len(answer), 5)
        seen, reward, ended, cut, info = answer
        case.assertIn(seen, env.observation_space)
        case.assertIs(type(reward), float)
        case.assertTrue(np.isfinite(reward))
        case.assertIs(type(ended), bool)
        case.assertIs(type(cut), bool)
        case.assertIsInstance(info, dict)
        rows.append((seen.tobytes(), reward, info["record"].line()))
    return rows


@unittest.skipUnless(np, "NumPy is wanted")
class One(unittest.TestCase):
    def test_points(self):
        for site in (TWO, FOUR):
            for actions in ("stages", "groups"):
                with self.subTest(site[0].parent.name, actions=actions):
                    check_env(self, JunctionEnv(*site, actions=actions, seconds=150))

    def test_rendered(self):
        for mode, kind in (("ansi", str), ("rgb_array", np.ndarray)):
            env = JunctionEnv(*TWO, render_mode=mode, seconds=200)
            env.reset(seed=1)
            self.assertIn(mode, env.metadata["render_modes"])
            self.assertIsInstance(env.render(), kind)
            for _ in range(150):
                env.step(2)
            shown = env.render()
            if mode == "ansi":
                self.assertEqual([len(line.split()[1]) for line in shown.splitlines()], [120] * len(env.names))
            else:
                self.assertEqual((shown.dtype, shown.shape), (np.uint8, (10 * len(env.names), 480, 3)))
            env.close()
        with self.assertRaises(ValueError):
            JunctionEnv(*TWO, render_mode="human")
        with self.assertRaises(ValueError):
            JunctionEnv(*TWO, actions="both")

    def test_parts_of_what_is_seen(self):
        env = JunctionEnv(*TWO, traffic=Arrivals(0.5), seconds=400)
        seen, info = env.reset(seed=2)
        with self.assertRaises(RuntimeError):
            JunctionEnv(*TWO).step(0)
        n, turned = len(env.names), 0
        for second in range(1, 401):
            seen, reward, _, cut, info = env.step(1 + second // 40 % 2)
            part = {name: seen[place] for name, place in env.layout.items()}
            letters = "".join("RUGA"[row.argmax()] for row in part["aspects"].reshape(n, 4))
            self.assertEqual(letters, info["record"].aspects)
            self.assertEqual((part["aspects"].sum(), part["stage"].sum()), (n, 1))
            queues = env.traffic.queues()
            self.assertTrue(np.allclose(part["queues"], np.minimum(queues / 20, 1)))
            self.assertEqual(reward, -float(queues.sum()))
            self.assertTrue(((part["turns"] == 1) == (part["waits"] == 0)).all())
            turned += info["refused"]
        self.assertTrue(cut)

    def test_log(self):
        log = io.StringIO()
        env = JunctionEnv(*FOUR, actions="groups", seconds=100, log=log)
        run_of(self, env, 3)
        self.assertEqual(len(vantulig.read_log(log.getvalue())), 100)

    def test_classes_of_gymnasium(self):
        """where Gymnasium can be imported, its classes are taken"""
        with tempfile.TemporaryDirectory() as folder:
            package = pathlib.Path(folder, "gymnasium")
            package.mkdir()
            package.joinpath("__init__.py").write_text("from ._classes import Env\n")
            package.joinpath("spaces.py").write_text("from ._classes import _S\nBox, Discrete, MultiDiscrete = _S.Box, _S.Discrete, _S.MultiDiscrete\n")
            # what the stand-ins are made of is loaded without this package
            bases = inspect.getsource(_spaces).split("def _imported")[0]
            package.joinpath("_classes.py").write_text(bases + STAND_IN.replace("import vantulig._spaces as here", "import sys\nhere = sys.modules[__name__]"))
            program = """
                import sys
                from vantulig.environment import JunctionEnv
                env = JunctionEnv(*map(__import__("pathlib").Path, sys.argv[1:]), actions="groups")
                assert env.is_theirs and env.observation_space.is_theirs and env.action_space.is_theirs
                env.reset(seed=1), env.step(env.action_space.sample()), env.close()
            """
            path = os.pathsep.join([folder, str(pathlib.Path(vantulig.__file__).parent.parent)])
            done = subprocess.run(
                [sys.executable, "-c", textwrap.dedent(program), *map(str, FOUR)],
                env={**os.environ, "PYTHONPATH": path}, capture_output=True, text=True,
            )  # fmt: skip
            self.assertEqual((done.returncode, done.stderr), (0, ""))


@unittest.skipUnless(np, "NumPy is wanted")
class Several(unittest.TestCase):
    def test_points(self):
        """PettingZoo's parallel form: agents, dictionaries of one key an agent, the end, the same from the same seed"""
        for actions in ("stages", "groups"):
            env = JunctionsEnv({"west": TWO, "middle": FOUR, "east": TWO}, actions=actions, seconds=120, render_mode="ansi")
            self.assertIsInstance(env, _spaces.ParallelEnv)
            self.assertEqual((env.possible_agents, env.agents), (["west", "middle", "east"], []))
            self.assertEqual(set(env.render()), set(env.possible_agents))
            self.assertIs(env.observation_space("west"), env.observation_space("west"))
            runs = [self.run_of(env, seed) for seed in (5, 5, 6)]
            self.assertEqual(runs[0], runs[1])
            self.assertNotEqual(runs[0], runs[2])
            with self.assertRaises(RuntimeError):
                env.step({})
            env.close()

    def run_of(self, env, seed):
        seen, infos = env.reset(seed=seed)
        self.assertEqual((list(seen), list(infos), env.agents), (env.possible_agents, env.possible_agents, env.possible_agents))
        for agent in env.agents:
            env.action_space(agent).seed(seed)
        rows = []
        while env.agents:
            actions = {agent: env.action_space(agent).sample(infos[agent]["mask"]) for agent in env.agents}
            seen, rewards, ended, cut, infos = env.step(actions)
            for one in (seen, rewards, ended, cut, infos):
                self.assertEqual(list(one), env.possible_agents)
            for agent in seen:
                self.assertIn(seen[agent], env.observation_space(agent))
            self.assertEqual(set(ended.values()), {False})
            rows.append((sorted(rewards.items()), [seen[agent].tobytes() for agent in seen]))
        self.assertEqual((len(rows), set(cut.values())), (120, {True}))
        return rows

    def test_as_one(self):
        """a junction among several sees what it sees alone"""
        several = JunctionsEnv({"only": FOUR}, seconds=100)
        one = JunctionEnv(*FOUR, seconds=100)
        seen = several.reset(seed=4)[0]["only"]
        self.assertTrue((seen == one.reset(seed=4)[0]).all())
        for second in range(100):
            action = second // 9 % (one.stages + 1)
            a = several.step({"only": action})
            b = one.step(action)
            self.assertTrue((a[0]["only"] == b[0]).all())
            self.assertEqual((a[1]["only"], a[3]["only"]), (b[1], b[3]))


if __name__ == "__main__":
    unittest.main()
