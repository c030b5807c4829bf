"""Tests over small networks that netgenerate makes, from their sites to a run; tools/tests/test_sumo.py runs them where SUMO is
installed."""
import importlib.util
import json
import os
import re
import shutil
import signal
import subprocess
import sys
import tempfile
import time
import unittest
import xml.etree.ElementTree as tree
from pathlib import Path

import check_sites
from common import reading
from test_sumo_loop import HAS_LIBRARY

__all__ = ["Networks", "Calls", "ManyLights"]

HERE = Path(__file__).resolve().parent.parent
JUNCTION, CHECK = os.environ.get("JUNCTION"), os.environ.get("JUNCTION_CHECK")
PAIR = ("--grid --grid.x-number=2 --grid.y-number=1 --grid.length=150 --grid.attach-length=150 -j traffic_light "
        "--no-turnarounds true")
HAS_SUMO = bool(shutil.which("netgenerate") and shutil.which("sumo"))


class InFolder(unittest.TestCase):
    """A folder with a network of two lights and a trip from each border to each other one."""

    words = PAIR + " --crossings.guess --sidewalks.guess"

    def call(self, script, *words, status=0):
        done = subprocess.run([sys.executable, "-B", str(HERE / script), *map(str, words)], cwd=self.folder,
                              capture_output=True, text=True)
        self.assertEqual(done.returncode, status, done.stdout + done.stderr)
        self.assertNotIn("Traceback", done.stderr)
        return done.stdout if status == 0 else done.stdout + done.stderr

    def net(self, words, name="n.net.xml"):
        subprocess.run(["netgenerate", *words.split(), "-o", name], cwd=self.folder, check=True, capture_output=True)
        return name

    def trips(self, name, first=0):
        ways = "".join(f'<trip id="{k}" depart="{first + 2 * k}" from="{a}" to="{b}"/>' for k, (a, b) in enumerate(self.ways()))
        (self.folder / name).write_text(f"<routes>{ways}</routes>")
        return name

    def setUp(self):
        space = tempfile.TemporaryDirectory()
        self.addCleanup(space.cleanup)
        self.folder = Path(space.name)
        self.net(self.words)
        self.trips("trips.xml")

    def ways(self):
        root = tree.parse(self.folder / "n.net.xml").getroot()
        edges = [edge for edge in root.iter("edge") if not edge.get("function")]
        inner = {junction.get("id") for junction in root.iter("junction") if junction.get("type") == "traffic_light"}
        enter = [edge for edge in edges if edge.get("from") not in inner]
        leave = [edge for edge in edges if edge.get("to") not in inner]
        return [(a.get("id"), b.get("id")) for a in enter for b in leave if a.get("from") != b.get("to")]


@unittest.skipUnless(HAS_SUMO, "SUMO isn't there")
class Networks(InFolder):
    """Kinds of networks: each light gets a site, and both judges find nothing in the logs of counts at random or of traffic."""

    def test_sites_and_a_run(self):
        self.assertIn("2 lights, 2 sites", self.call("sites_from_sumo.py", "n.net.xml", "sites"))
        rows = reading.table_of((self.folder / "sites/1/detectors.csv").read_text(), "detector", "kind", "id", "at")
        self.assertEqual({row["kind"] for row in rows}, {"area", "push"})
        minute = ["--seconds", "60", "n.net.xml", "trips.xml", "sites"]
        static = self.call("drive_sumo.py", "--control", "static", "--states", "states.xml", *minute)
        self.assertIn("static: 2 lights, 60 seconds, seed 1", static)
        light = reading.table_of((self.folder / "sites/sites.csv").read_text(), "light")[0]["light"]
        _, records = reading.log_of(self.call("log_from_sumo.py", "states.xml", light, "sites/1"))
        self.assertGreaterEqual(len(records), 60)
        if JUNCTION:
            self.call("drive_sumo.py", "--junction", JUNCTION, "--logs", "logs", *minute)
            if HAS_LIBRARY:
                self.call("drive_sumo.py", "--library", "--logs", "logs_of_library", *minute)
                for log in (self.folder / "logs").iterdir():
                    self.assertEqual((self.folder / "logs_of_library" / log.name).read_bytes(), log.read_bytes(), log.name)
            self.judged("sites", "logs", 2, 60)

    def judged(self, sites, logs, lights, seconds, net="n.net.xml"):
        self.assertRegex(self.call("judge_sumo.py", net, sites, logs),
                         rf"{lights} lights, {lights * seconds} seconds, .* 0 breaches")
        if CHECK:
            told = self.call("check_sites.py", "--logs", logs, JUNCTION, CHECK, sites)
            self.assertIn(f"{lights} sites, {lights * seconds} seconds; 0 with findings of junction_check, 0 not SAFE, 0 inter",
                          told)

    @unittest.skipUnless(JUNCTION, "JUNCTION doesn't name a built program")
    def test_kinds_of_networks(self):
        for name, more in (("bike", "--bikelanes.guess true --sidewalks.guess --crossings.guess"),
                           ("nema", "--tls.default-type NEMA"),
                           ("wide", "--default.lanenumber=3 --turn-lanes 1"), ("left", "--lefthand --default.lanenumber=2"),
                           ("incoming", "--tls.layout incoming --default.lanenumber=2")):
            with self.subTest(name):
                net = self.net(f"{PAIR} {more}", f"{name}.net.xml")
                said = self.call("sites_from_sumo.py", net, name)
                lights = int(re.search(r"(\d+) lights, (\d+) sites", said)[1])
                self.assertEqual(said.strip(), f"{net}: {lights} lights, {lights} sites")
                self.logs_at_random(name)
                self.judged(name, f"{name}_logs", lights, 200, net)

    def logs_at_random(self, sites, program="on_demand.vap"):
        """Logs of counts at random in the place of a run."""
        folder = self.folder / f"{sites}_logs"
        folder.mkdir(exist_ok=True)
        for row in reading.table_of((self.folder / sites / "sites.csv").read_text(), "folder", "detectors"):
            log = folder / f"{row['folder']}.log"
            check_sites.log_at_random(JUNCTION, self.folder / sites / row["folder"], int(row["detectors"]), 200, log, program)

    def test_several_programs_and_offsets(self):
        text = (self.folder / "n.net.xml").read_text()
        logic = re.search(r"<tlLogic.*?</tlLogic>", text, re.DOTALL)[0]
        night = logic.replace('programID="0"', 'programID="night"').replace('offset="0"', 'offset="9"')
        text = text.replace(logic, logic + "\n" + night)
        (self.folder / "two.net.xml").write_text(text)
        said = self.call("sites_from_sumo.py", "--each-program", "two.net.xml", "two")
        self.assertIn("program night: two/1.night", said)
        self.assertTrue((self.folder / "two/1/coordinated.vap").exists())
        self.assertIn("the last one, night, was taken", (self.folder / "two/1/notes.txt").read_text())
        if JUNCTION:
            self.logs_at_random("two", "coordinated.vap")
            self.judged("two", "two_logs", 2, 200, "two.net.xml")

    def test_a_light_over_two_junctions(self):
        """Both lights of the pair become one: its links lie on two junctions, whose ways don't meet."""
        net = self.net(PAIR, "joined.net.xml")
        text = (self.folder / net).read_text()
        (one, first), (other, second) = re.findall(r'<tlLogic id="(\w+)".*?(<phase.*?)\s*</tlLogic>', text, re.DOTALL)
        states = [re.findall(r'state="(\w+)"', phases) for phases in (first, second)]
        count = len(states[0][0])
        for before, after in zip(*states):
            first = first.replace(f'"{before}"', f'"{before}{after}"', 1)
        logic = f'<tlLogic id="{one}" type="static" programID="0" offset="0">{first}</tlLogic>'
        text = re.sub(r"\s*<tlLogic.*</tlLogic>", logic, text, flags=re.DOTALL)
        text = re.sub(rf'tl="{other}" linkIndex="(\d+)"', lambda found: f'tl="{one}" linkIndex="{int(found[1]) + count}"', text)
        (self.folder / net).write_text(text)
        self.assertIn("1 lights, 1 sites", self.call("sites_from_sumo.py", net, "joined"))
        self.assertIn("its links lie on 2 junctions", (self.folder / "joined/1/notes.txt").read_text())
        if JUNCTION:
            self.logs_at_random("joined")
            self.judged("joined", "joined_logs", 1, 200, net)


@unittest.skipUnless(HAS_SUMO, "SUMO isn't there")
class Calls(InFolder):
    """What a user writes, and what is said where something is wrong; SUMO's own control, so that no program is wanted."""

    def setUp(self):
        super().setUp()
        self.call("sites_from_sumo.py", "n.net.xml", "sites")
        self.static = ["--control", "static", "--seconds", "60"]

    def test_a_configuration_with_its_times_and_kept_outputs(self):
        self.trips("seven.xml", 25200)
        (self.folder / "c.sumocfg").write_text(
            '<configuration><input><net-file value="n.net.xml"/><route-files value="seven.xml"/></input>'
            '<time><begin value="7:00:00"/><step-length value="0.5"/></time></configuration>')
        self.assertIn("2 sites", self.call("sites_from_sumo.py", "c.sumocfg", "of_c"))
        said = self.call("drive_sumo.py", *self.static, "--keep", "kept", "c.sumocfg", "sites")
        self.assertRegex(said, r"\n[1-9]\d* vehicles, ")
        self.assertEqual({file.name for file in (self.folder / "kept").iterdir()},
                         {"tripinfo.xml", "summary.xml", "statistics.xml"})

    def test_nobody_departed(self):
        self.trips("seven.xml", 25200)
        said = self.call("drive_sumo.py", *self.static, "n.net.xml", "seven.xml", "sites", status=1)
        self.assertEqual(said, "no vehicle departed from second 0 to 60; the first one departs in second 25200 "
                         "(--begin 25200)\n")

    @unittest.skipUnless(all(map(shutil.which, ("sumo-gui", "xvfb-run", "xauth"))), "sumo-gui or xvfb isn't there")
    def test_sumo_gui_drives_the_same(self):
        words = ["drive_sumo.py", "--json", *self.static, "n.net.xml", "trips.xml", "sites"]
        script = [sys.executable, "-B", str(HERE / words[0]), "--gui", *words[1:]]
        shown = subprocess.run(["xvfb-run", "-a", *script], cwd=self.folder, capture_output=True, text=True, timeout=120)
        self.assertEqual(shown.returncode, 0, shown.stdout + shown.stderr)
        both = [json.loads(text.splitlines()[-1]) for text in (shown.stdout, self.call(*words))]
        self.assertEqual(*[[told_of[key] for key in ("vehicles", "loss", "stops", "queue")] for told_of in both])

    def test_sumo_that_does_not_start_is_a_sentence(self):
        (self.folder / "bad.xml").write_text('<routes><trip id="1" depart="0" from="nowhere" to="there"/></routes>')
        said = self.call("drive_sumo.py", *self.static, "--sumo-words=--ignore-route-errors=false", "n.net.xml", "bad.xml",
                         "sites", status=1)
        self.assertRegex(said, r"^SUMO (doesn't start|ended or refused a call): .*nowhere.*\n$")
        said = self.call("drive_sumo.py", *self.static, "--sumo-words=--no-such-word", "n.net.xml", "trips.xml", "sites",
                         status=1)
        self.assertRegex(said, "^SUMO doesn't start: .*no-such-word.*\n$")

    def test_ctrl_c_ends_with_what_was_driven(self):
        words = [sys.executable, "-B", str(HERE / "drive_sumo.py"), "--control", "static", "--seconds", "604800", "--keep",
                 "kept", "n.net.xml", "trips.xml", "sites"]
        run = subprocess.Popen(words, cwd=self.folder, stdout=subprocess.PIPE, stderr=subprocess.PIPE, text=True)
        for _ in range(600):  # until SUMO writes what it drives
            time.sleep(0.1)
            if (self.folder / "kept/summary.xml").exists() and (self.folder / "kept/summary.xml").stat().st_size > 4000:
                break
        run.send_signal(signal.SIGINT)
        out, errors = run.communicate(timeout=120)
        self.assertEqual(run.returncode, 130, out + errors)
        self.assertRegex(errors, r"^ended by Ctrl-C after \d+ seconds\n$")
        self.assertRegex(out, r"^static: 2 lights, \d+ seconds, seed 1\n")

    @unittest.skipUnless(JUNCTION, "JUNCTION doesn't name a built program")
    def test_ctrl_c_leaves_whole_logs(self):
        words = [sys.executable, "-B", str(HERE / "drive_sumo.py"), "--junction", JUNCTION, "--seconds", "604800", "--logs",
                 "logs", "n.net.xml", "trips.xml", "sites"]
        run = subprocess.Popen(words, cwd=self.folder, stdout=subprocess.PIPE, stderr=subprocess.PIPE, text=True)
        for _ in range(600):  # until the first part of a log is written
            time.sleep(0.1)
            if (self.folder / "logs/1.log").exists() and (self.folder / "logs/1.log").stat().st_size > 0:
                break
        run.send_signal(signal.SIGINT)
        out, errors = run.communicate(timeout=120)
        self.assertEqual(run.returncode, 130, out + errors)
        seconds = int(re.match(r"ended by Ctrl-C after (\d+) seconds\n", errors)[1])
        for number in ("1", "2"):
            files = [self.folder / "sites" / number / name for name in check_sites.FILES[1:]]
            audit = check_sites.run(JUNCTION, "audit", self.folder / f"logs/{number}.log", *files)
            self.assertEqual(audit.stdout.splitlines()[0], f"SAFE {seconds}")

    @unittest.skipUnless(JUNCTION, "JUNCTION doesn't name a built program")
    def test_a_program_with_faults_is_told(self):
        program = self.folder / "sites/1/on_demand.vap"
        program.write_text(program.read_text().replace("GOSUB settle;", "aa := 1 / bb;\nGOSUB settle;"))
        done = self.call("drive_sumo.py", "--junction", JUNCTION, "--seconds", "60", "n.net.xml", "trips.xml", "sites",
                         status=3)
        self.assertRegex(done, r"faults in 60 seconds of 1 light, first \w+: ZeroDivisor@\d+ in second 1\n")

    @unittest.skipUnless(JUNCTION and importlib.util.find_spec("libsumo"), "JUNCTION or libsumo isn't there")
    def test_a_study_without_crossings_says_so(self):
        self.net(PAIR, "plain.net.xml")
        self.call("sites_from_sumo.py", "plain.net.xml", "plain")
        words = ["--junction", JUNCTION, "--period", "3", "--walkers", "5", "--seconds", "60", "plain.net.xml", "1",
                 "vap=vap:plain"]
        self.assertIn("The network has no crossings: people walk on the roadway, and no light knows of them.",
                      self.call("study_sumo.py", *words))


@unittest.skipUnless(HAS_SUMO, "SUMO isn't there")
class ManyLights(unittest.TestCase):
    def test_the_time_grows_with_the_lights(self):
        """Four times the lights take about four times the processor's time, not sixteen times."""
        spent = []
        with tempfile.TemporaryDirectory() as folder:
            for number in (5, 10):
                net = f"{folder}/{number}.net.xml"
                words = (f"--grid --grid.number={number} --grid.length=100 --grid.attach-length=50 -j traffic_light "
                         "--no-turnarounds true")
                subprocess.run(["netgenerate", *words.split(), "-o", net], check=True, capture_output=True)
                before = os.times()
                subprocess.run([sys.executable, "-B", str(HERE / "sites_from_sumo.py"), net, f"{folder}/{number}"], check=True,
                               capture_output=True)
                after = os.times()
                spent.append(after.children_user - before.children_user)
        self.assertLess(spent[1], 8 * spent[0])
