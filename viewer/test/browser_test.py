"""The page in Chromium, opened from the file system: files, keys, mouse, fingers, saving, hostile files, print, dark scheme."""
import base64
import functools
import http.server
import shutil
import sys
import tempfile
import threading
import time
import unittest
from pathlib import Path

sys.dont_write_bytecode = True
import chromium
import firefox

TEST = Path(__file__).resolve().parent
VIEWER = TEST.parent
EXAMPLES = VIEWER.parent / "crates" / "test_told" / "data"
FOUR = EXAMPLES / "four_arms"
RECORDS = VIEWER.parent / "tools" / "records"
FAULTS = TEST / "data" / "faults.log"
LEFT, RIGHT, HOME, END, PAGE_DOWN = "\ue012", "\ue014", "\ue011", "\ue010", "\ue00f"
SHIFT, TAB, ENTER = "\ue008", "\ue004", "\ue007"


class Quiet(http.server.SimpleHTTPRequestHandler):
    """A server that tells nothing of what it serves."""

    def log_message(self, *_):
        pass


class Used:
    """What a user does with the page in any browser."""

    def begin(self, folder):
        """Opens the page anew; what it saves goes into the folder."""
        self.folder = folder
        self.open("about:blank")
        self.save_into(folder)
        self.open((VIEWER / "index.html").as_uri())
        self.errors()

    def text(self, name):
        return self.call("return document.getElementById(arguments[0]).innerText", name)

    def wait(self, script, *words):
        """Waits until a script of the page returns what is true."""
        end = time.time() + 120
        while not (told := self.call(script, *words)):
            if time.time() > end:
                raise AssertionError(f"waited in vain for: {script}")
            time.sleep(0.05)
        return told

    def drop(self, *files):
        """Gives files to the page, and waits until it says what was read."""
        self.call("document.getElementById('said').textContent = ''")
        self.type_into("files", "\n".join(map(str, files)))
        self.wait("return document.getElementById('said').textContent")

    def keys(self, *keys):
        self.press(*keys)
        time.sleep(0.3)


class FirefoxPage(Used, firefox.Firefox):
    """The page in Firefox, of which the test sees what stands on it."""

    def save_into(self, _):
        """Nothing is saved here."""


class Page(Used, chromium.Chromium):
    """The page in Chromium, of which the test sees the state too."""

    def save_into(self, folder):
        self.devtools("Browser.setDownloadBehavior", behavior="allow", downloadPath=str(folder))

    def rest(self):
        """Waits until all files are taken, frames drawn and sums made."""
        self.call("window.isTaken = false; queue.then(() => (window.isTaken = true))")
        self.wait("return window.isTaken && !isDue")
        time.sleep(0.3)

    def take(self, *files):
        self.call("document.getElementById('message').textContent = ''")
        self.type_into("files", "\n".join(map(str, files)))
        self.rest()

    def take_text(self, name, content):
        file = self.folder / name
        file.write_bytes(content)
        self.take(file)
        return file

    def with_shift(self, key):
        steps = [("keyDown", SHIFT), ("keyDown", key), ("keyUp", key), ("keyUp", SHIFT)]
        self.act("key", "keys", [{"type": kind, "value": value} for kind, value in steps])
        time.sleep(0.15)

    def point(self, second, y=120):
        """Where a second lies in the window."""
        box = "const [t, y] = arguments, { left, top } = document.getElementById('cursor').getBoundingClientRect();"
        return self.call(f"{box} return [left + xOf(state.layout, state.view, t + 0.5), top + y].map(Math.round)", second, y)

    def mouse(self, *steps):
        """Moves, presses and releases the mouse: a step is a place, `down` or `up`."""
        kinds = {"down": {"type": "pointerDown", "button": 0}, "up": {"type": "pointerUp", "button": 0}}
        to = lambda x, y: {"type": "pointerMove", "duration": 20, "x": x, "y": y}
        moves = [kinds[step] if isinstance(step, str) else to(*step) for step in steps]
        self.act("pointer", "mouse", moves, parameters={"pointerType": "mouse"})
        time.sleep(0.2)

    def touch(self, kind, *places):
        points = [{"x": x, "y": y, "id": finger} for finger, (x, y) in enumerate(places)]
        self.devtools("Input.dispatchTouchEvent", type=kind, touchPoints=points)
        time.sleep(0.05)


class Judged:
    """Records that are judged, and what all readers of the page need, in both browsers."""

    TABLES = [RECORDS / "german" / name for name in ("times.csv", "intergreens.csv")]

    @classmethod
    def setUpClass(cls):
        cls.profile = Path(tempfile.mkdtemp(prefix="viewer_"))
        cls.addClassCleanup(shutil.rmtree, cls.profile, ignore_errors=True)
        # to begin a browser costs more than most of its tests, so all have one
        cls.browser = cls.kind(cls.profile)
        cls.addClassCleanup(cls.browser.close)

    def setUp(self):
        self.folder = Path(tempfile.mkdtemp(prefix="viewer_"))
        self.addCleanup(shutil.rmtree, self.folder, ignore_errors=True)

    def page(self):
        self.browser.begin(self.folder)
        return self.browser

    def test_a_record_is_judged(self):
        page = self.page()
        page.drop(RECORDS / "german" / "record.txt")
        self.assertEqual(page.text("about"), "record.txt: 1797.7 s in tenths, 6 groups")
        self.assertEqual(page.text("verdict"), "not judged: the table of times and the table of intergreens are missing")
        page.drop(self.TABLES[0])
        self.assertEqual(page.text("verdict"), "not judged: the table of intergreens is missing")
        page.drop(*self.TABLES)
        self.assertEqual(page.text("verdict"), "8 breaches")
        for time_told, words in [("243.5", "Sequence, time 243.5: K2: amber too short, 2.0 s of 3.0 s."),
                                 ("255.2", "MinGreen, time 255.2: K3: green shorter than its minimum, 4.3 s of 6.0 s."),
                                 ("388.3", "Intergreen, time 388.3: F2: green too soon after K3, 3.8 s of 5.0 s.")]:
            page.keys("b")
            self.assertIn(f"Time {time_told} ", page.text("panel"))
            self.assertIn(words, page.text("panel"))
            self.assertIn(words, page.text("said"))
        rows = page.call("return [...document.querySelectorAll('#sums table')].map(({ innerText }) => innerText)[0].split('\\n').length")
        self.assertEqual(rows, 1 + 1 + 8)  # the caption, the head, the breaches
        self.assertEqual(page.errors(), [])

    def test_a_log_with_a_breach(self):
        page = self.page()
        lines = ["VAPLOG 1 K1 K2"] + [f"{k}|-|{letters}|-|-|-" for k, letters in enumerate("RR UR GR GR AR AR AU RG".split(), 11)]
        for name, text in (("part.log", "\n".join(lines) + "\n"), ("t.csv", "group,min_green,red_amber,amber\nK1,10,1,3\nK2,10,1,3\n"),
                           ("i.csv", "from,to,seconds\nK1,K2,5\nK2,K1,5\n")):
            (self.folder / name).write_text(text, encoding="ascii")
        page.drop(*(self.folder / name for name in ("part.log", "t.csv", "i.csv")))
        self.assertEqual(page.text("verdict"), "2 breaches")
        page.keys("b")
        self.assertIn("Second 15 ", page.text("panel"))
        self.assertIn("K1: green shorter than its minimum, 2 s of 10 s.", page.text("panel"))
        page.keys("b")
        self.assertIn("Second 18 ", page.text("panel"))
        self.assertIn("K2: green too soon after K1, 3 s of 5 s.", page.text("panel"))

    def test_letters_can_be_switched_off(self):
        page = self.page()
        page.drop(RECORDS / "german" / "record.txt", *self.TABLES)
        page.call("document.getElementById('letters').checked = false")
        page.keys("b", "b")
        self.assertIn("Time 0.0 ", page.text("panel"))
        page.call("document.getElementById('target').value = 'breach'; document.getElementById('on').click()")
        page.wait("return document.getElementById('panel').innerText.includes('Time 243.5 ')")

    def test_what_screen_readers_need(self):
        page = self.page()
        self.assertEqual(page.call("return document.title"), "A log of junction")
        page.drop(RECORDS / "german" / "record.txt", *self.TABLES)
        self.assertEqual(page.call("return document.title"), "record.txt – log of a signal controller")
        self.assertEqual(page.text("said"), "record.txt: 1797.7 s in tenths, 6 groups; with times, intergreens; 8 breaches.")
        page.keys("b")
        lacking = """return [...document.querySelectorAll('table')].filter((table) => !table.caption
            || [...table.querySelectorAll('th')].some((th) => !th.scope)
            || [...table.tBodies[0].rows].some((row) => row.cells[0].tagName !== 'TH')).map(({ innerText }) => innerText)"""
        self.assertEqual(page.call(lacking), [])
        self.assertEqual(page.call("return document.querySelectorAll('main').length"), 1)
        unnamed = """return [...document.querySelectorAll('button, input, select, canvas[tabindex]')].filter((element) => !element.hidden
            && !(element.innerText || element.getAttribute('aria-label') || (element.labels && element.labels.length))).map(({ id }) => id)"""
        self.assertEqual(page.call(unnamed), [])

    def test_the_diagram_leaves_the_panel_its_place(self):
        page = self.page()
        page.drop(FOUR / "log.txt")
        boxes = "const [one, other] = ['drawn', 'panel'].map((id) => document.getElementById(id).getBoundingClientRect());"
        page.wait(f"{boxes} return document.getElementById('chart').getBoundingClientRect().right <= other.left && one.right <= other.left")


@unittest.skipIf(firefox.MISSING, firefox.MISSING)
class Firefox(Judged, unittest.TestCase):
    kind = FirefoxPage

    def test_a_log_is_read_and_searched(self):
        page = self.page()
        page.drop(*(FOUR / name for name in ("log.txt", "times.csv", "intergreens.csv", "junction.pua", "four_arms.vap")))
        self.assertIn("3,600 seconds, 8 groups; with program, times, intergreens, stages", page.text("about"))
        self.assertEqual(page.text("verdict"), "no breach")
        page.keys("r")
        self.assertIn("K2 may not start: the intergreen from K3 hasn't passed.", page.text("panel"))
        page.keys("s")
        self.assertIn("Second 36 ", page.text("panel"))


@unittest.skipIf(chromium.MISSING, chromium.MISSING)
class Browser(Judged, unittest.TestCase):
    kind = Page

    def test_keys_alone(self):
        page = self.page()
        self.assertIn("Drop a log of junction here", page.text("empty"))
        page.take(*(FOUR / name for name in ("log.txt", "times.csv", "intergreens.csv", "junction.pua", "four_arms.vap")))
        self.assertIn("3,600 seconds, 8 groups; with program, times, intergreens, stages", page.text("about"))
        self.assertIn("K2 may not start: the intergreen from K3 hasn't passed.", page.text("panel"))
        self.assertIn("earliest start second 4.", page.text("panel"))
        page.keys(*[RIGHT] * 30)
        for words in ("Second 31 ", "interstage 1-2, its second 1, since second 30", "31|I1-2+1|AARRRRRR|-|-|-"):
            self.assertIn(words, page.text("panel"))
        self.assertTrue(page.text("said").startswith("Second 31, interstage 1-2"))
        for key, second in [("g", 34), (("s",), 1), ("s", 36), (("r",), 3), (END, 3600), (HOME, 1)]:
            page.with_shift(key[0]) if isinstance(key, tuple) else page.keys(key)
            self.assertIn(f"Second {second} ", page.text("panel"), key)
        page.keys("s", "r")
        self.assertIn("none after second 36", page.text("none"))
        page.keys("j")
        self.assertEqual(page.call("return document.activeElement.id"), "second")
        page.type_into("second", "\b\b1234" + ENTER)
        self.assertEqual(page.call("return [state.chosen, document.activeElement.id]"), [1234, "cursor"])
        page.keys("0")
        self.assertTrue(page.call("return state.view.scale === state.layout.fit"))
        seen = set()
        for _ in range(30):
            page.keys(TAB)
            seen.add(page.call("const { id, innerText } = document.activeElement; return id || innerText.trim()"))
        wanted = "files second back target on out in whole clock svg png print keys cursor".split()
        self.assertLessEqual({*wanted, "save as CSV"}, seen)
        self.assertEqual(page.errors(), [])

    def test_mouse_and_fingers(self):
        page = self.page()
        page.take(FOUR / "log.txt")
        page.call("state.view = { from: 1, scale: 10 }; changed(true)")
        page.rest()
        page.mouse(page.point(40))
        self.assertIn("Second 40 ", page.text("panel"))
        page.mouse(page.point(50), "down", "up")
        self.assertEqual(page.call("return state.chosen"), 50)
        x, y = page.point(60)
        page.mouse((x, y), "down", (x - 100, y), (x - 200, y), "up")
        self.assertEqual(page.call("return [Math.round(state.view.from), state.chosen]"), [21, 50])
        wheel = "new WheelEvent('wheel', { deltaY: -240, clientX: arguments[0], clientY: 200, cancelable: true })"
        page.call(f"document.getElementById('cursor').dispatchEvent({wheel})", x)
        page.rest()
        self.assertGreater(page.call("return state.view.scale"), 13)
        self.assertLessEqual(abs(page.point(80)[0] - x), 17)
        page.call("state.view = { from: 1, scale: 10 }; changed(true)")
        page.rest()
        one, other = page.point(30), page.point(50)
        page.touch("touchStart", one, other)
        page.touch("touchMove", (one[0] - 100, one[1]), (other[0] + 100, other[1]))
        page.touch("touchEnd")
        self.assertAlmostEqual(page.call("return state.view.scale"), 20, delta=0.5)
        self.assertAlmostEqual(page.point(40)[0], (one[0] + other[0]) / 2, delta=20)
        self.assertEqual(page.call("return state.chosen"), 50)

    def test_what_is_saved(self):
        page = self.page()
        page.take(FOUR / "log.txt", FOUR / "times.csv")
        for name in ("svg", "png"):
            page.call("document.getElementById(arguments[0]).click()", name)
        page.call("sumChoice.value = 'seen'; sumChoice.onchange(); sumSave.click()")
        end = time.time() + 30
        names = {f"log_1_300.{ending}" for ending in ("svg", "png", "csv")}
        while time.time() < end and not names <= {file.name for file in self.folder.iterdir()}:
            time.sleep(0.1)
        self.assertLessEqual(names, {file.name for file in self.folder.iterdir()})
        csv = (self.folder / "log_1_300.csv").read_text(encoding="utf-8").split("\n")
        head = "part,name,begun,ended,shortest s,mean s,longest s,seconds,share %"
        self.assertEqual([line.strip() for line in csv[:4]], ["seconds,1,300", "", head, "green,K1,4,4,16,23.2,29,93,31.0"])
        svg = (self.folder / "log_1_300.svg").read_text(encoding="utf-8")
        self.assertIn("<title>Signal timing diagram of log.txt, seconds 1 to 300</title>", svg)
        self.assertTrue((self.folder / "log_1_300.png").read_bytes().startswith(b"\x89PNG"))
        pdf = base64.b64decode(page.devtools("Page.printToPDF", preferCSSPageSize=True)["data"])
        self.assertTrue(pdf.startswith(b"%PDF"))
        self.assertEqual(page.call("return document.getElementById('printed').children.length"), 0)

    def test_faults(self):
        page = self.page()
        page.take(FAULTS)
        page.take_text("some.vap", b"PROGRAM some;\n" + b"\n".join(b"x := %d;" % k for k in range(2, 60)))
        page.keys("f")
        fault = page.call("return [FAULTS[state.log.faults.kind[0]], state.log.faults.line[0]]")
        self.assertIn(f"{fault[0]} in line {fault[1]}: ", page.text("panel"))
        self.assertIn(f"{fault[1]}  x := {fault[1]};", page.text("panel"))
        self.assertIn("Faults, by line", page.text("sums"))
        page.take(FAULTS)  # what came beside the log before isn't that of the next one
        self.assertIsNone(page.call("return state.site.program || null"))

    def test_files_that_are_refused(self):
        page = self.page()
        nothing = "!state.log && document.getElementById('page').hidden"
        no_markup = f"return document.querySelectorAll('img, #message script').length === 0 && {nothing}"
        for name, content, told in [
            ("second.log", b"VAPLOG 1 K1\n1|S1|R|-|-|-\n3|S1|R|-|-|-\n", "3: Second. The line has another number than that"),
            ("markup.log", b"VAPLOG 1 <img/src=x/onerror=alert(1)>\n", "1: Header."),
            ("long.log", b"VAPLOG 1 K1\n" + b"<b>" * 100000, "2: LineTooLong. The line has more bytes than there may be"),
            ("script.log", b"VAPLOG 1 K1\n1|S1|R|-|<script>alert(1)</script>|-\n", "2: Refused."),
            ("empty.log", b"", "1: Header."),
            ("none.log", b"VAPLOG 1 K1\n", "the log has no second."),
        ]:
            page.take_text(name, content)
            self.assertTrue(page.text("message").startswith(f"{name}: {told}"), page.text("message")[:200])
            self.assertTrue(page.call(no_markup), name)
        page.take(FOUR / "log.txt")
        for name, content, told in [
            ("bad.csv", b"group,min_green,red_amber,amber\nK1,0,1,3\n", "2: Number."),
            ("other.pua", b"$SIGNAL_GROUPS\nA\n$STAGES\nS A\n", "its groups aren't those of the log"),
            ("counts.txt", b"\n1:1:0 2:1:1\n", "a file of detectors isn't asked for here"),
            ("text.txt", b"something else", "1: Header."),
        ]:
            page.take_text(name, content)
            self.assertTrue(page.text("message").startswith(f"{name}: {told}"), page.text("message")[:200])
            self.assertIn("3,600 seconds", page.text("about"), "the log that is shown stays")
        gone = "() => Promise.reject(Error('gone'))"
        page.call(f"takeFiles([{{ name: 'folder', size: 5, slice: () => ({{ text: {gone}, arrayBuffer: {gone} }}) }}])")
        page.rest()
        self.assertEqual(page.text("message"), "folder: gone")
        self.assertEqual(page.errors(), [])

    def test_the_beginning_of_a_refused_log(self):
        page = self.page()
        page.take_text("cut.log", b"VAPLOG 1 K1\n1|S1|R|-|-|-\n2|S1|G|-|-|-\n3|S1|G|-|-\n")
        self.assertTrue(page.text("message").startswith("cut.log: 4: Fields."))
        page.call("document.querySelector('#message button').click()")
        page.rest()
        remark = "line 4 is refused (Fields), and what stands before it is shown"
        self.assertEqual(page.text("about"), f"cut.log: 2 seconds, 1 group; {remark}")

    def test_a_log_with_watchers(self):
        page = self.page()
        page.take_text("live.log", b"VAPLOG 1 K1\n1|S1|R|-|-|-\n2|S1|G|-|-|-\nWATCH 1 1 R\n")
        self.assertEqual(page.text("about"), "live.log: 2 seconds, 1 group")
        self.assertEqual(page.text("message"), "")

    def test_a_log_of_one_second(self):
        page = self.page()
        page.take_text("one.log", b"VAPLOG 1 K1\n1|-|G|-|-|Number@0\n")
        self.assertIn("one.log: 1 second, 1 group", page.text("about"))
        self.assertIn("Number in line 0", page.text("panel"))
        self.assertNotIn("stage S", page.text("panel"))
        page.keys(RIGHT, LEFT, "+", "-", "0", "r", "f", "g", "s", "n", PAGE_DOWN)
        self.assertEqual(page.errors(), [])

    def test_a_server_and_addresses(self):
        page = self.page()
        page.open((VIEWER / "index.html").as_uri() + "#log=log.txt")
        page.call("location.reload()")
        told = "return document.getElementById('message').innerText.includes(arguments[0])"
        page.wait(told, "A page opened from a file may not read others")
        folder = self.folder / "served"
        shutil.copytree(VIEWER, folder, ignore=shutil.ignore_patterns("test"))
        for file in FOUR.iterdir():
            shutil.copy(file, folder / file.name)
        server = http.server.ThreadingHTTPServer(("127.0.0.1", 0), functools.partial(Quiet, directory=str(folder)))
        self.addCleanup(server.server_close)
        self.addCleanup(server.shutdown)
        threading.Thread(target=server.serve_forever, daemon=True).start()
        base = f"http://127.0.0.1:{server.server_port}/index.html"
        page.open(f"{base}#log=log.txt&times=times.csv&program=four_arms.vap&second=34")
        page.wait("return document.getElementById('panel').innerText.includes('Second 34 ')")
        self.assertIn("with program, times", page.text("about"))
        for name, words in [("none.txt", "the server answers 404"), ("http://127.0.0.2:9/x", "can't be read")]:
            page.open(f"{base}#log={name}")
            page.wait(told, words)

    def test_the_dark_scheme_and_a_narrow_window(self):
        page = Page(self.profile, is_dark=True, width=700, height=1000)
        self.addCleanup(page.close)
        page.begin(self.folder)
        page.take(EXAMPLES / "left_turn" / "log.txt")
        pixel = "return [...document.getElementById('chart').getContext('2d').getImageData(2, 2, 1, 1).data]"
        self.assertEqual(page.call(pixel), [0x15, 0x19, 0x1D, 255])
        self.assertLessEqual(page.call("return document.documentElement.scrollWidth"), 700)
        ground = "return pictureOf().querySelector('svg > rect').getAttribute('fill')"
        self.assertEqual(page.call(ground), "#fff", "what is saved is light")


if __name__ == "__main__":
    unittest.main()
