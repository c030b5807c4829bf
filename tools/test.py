#!/usr/bin/env python3
"""Tests of the scripts beside this file and below it, of the pages, and of the page in the browser: tools/test.py [NAME..]

Each class of tests is a process of its own, two at once, and tells what became of it as soon as it ends. A test that takes too long
is ended with all that it started, and has failed. What needs a program that isn't there is skipped, and the reason is told. The last
line says how many tests ran, and the status is 0 where none failed."""
import argparse
import importlib.util
import os
import re
import subprocess
import sys
import unittest
from pathlib import Path

HERE = Path(__file__).resolve().parent
TOP = HERE.parent
sys.path[:0] = [str(HERE), str(HERE / "tests")]
sys.dont_write_bytecode = True
from proving import answers
import believe
import crates
import style
import timed_tests
from test_acceptance import *
from test_build import *
from test_charts import *
from test_closed_loop import *
from test_completion import *
from test_fresh import *
from test_install import *
from test_made_files import *
from test_proofs import *
from test_records import *
from test_records_in_tenths import *
from test_release import *
from test_sumo import *
from test_timed import *


class Examples(unittest.TestCase):
    def test_the_gate_runs_the_examples_as_they_stand(self):
        data, examples = TOP / "crates" / "test_told" / "data", TOP / "crates" / "junction" / "examples"
        # Beside the folders of the examples lie files of cases; `tracing` has a program that prints, and is no example.
        files = [file for file in data.glob("*/**/*") if file.is_file() and file.parent.name != "tracing"]
        copies = [file.relative_to(data) for file in files if file.name != "log.txt"]
        plans = [plan.relative_to(examples) for plan in examples.glob("**/junction.pua")]
        self.assertLessEqual(set(plans), set(copies))
        for file in copies:
            self.assertEqual((data / file).read_bytes(), (examples / file).read_bytes(), str(file))


class Reasons(unittest.TestCase):
    """Each reason, rule, fault and warning that the sources can write has its row in docs/reasons.md, A to Z in its part."""

    def words_of(self, source):
        text = (HERE.parent / "crates" / source).read_text(encoding="utf-8")
        return set(re.findall(r'b"([A-Z][A-Za-z]+)"', text))

    def test_each_has_its_row(self):
        page = (HERE.parent / "docs" / "reasons.md").read_text(encoding="utf-8")
        parts = [re.findall(r"^\| `([A-Za-z-]+)", part, re.MULTILINE) for part in page.split("\n## ")]
        _, notes, rules, faults, warnings = parts
        self.assertEqual(parts, [[], sorted(notes), sorted(rules), sorted(faults), sorted(warnings)])
        limits = {"Variables", "Timers", "Arrays", "Cells", "Subroutines", "Labels"}
        self.assertEqual(self.words_of("junction_run/src/reasons.rt") - set(notes) - limits, set())
        self.assertEqual(self.words_of("signal_log/src/words.rt") - set(rules) - set(faults), set())
        told = (HERE.parent / "crates" / "site_findings" / "src" / "warned.rt").read_text(encoding="utf-8")
        self.assertEqual(set(re.findall(r'b"([a-z]+(?:-[a-z]+)+)"', told)), set(warnings))


class Sentences(unittest.TestCase):
    """The sentences of junction_check are those of docs/reasons.md: each reason of its files has its sentences and its row."""

    FILES = {
        "pua": {"PUA"},
        "table": {"times", "intergreens", "times, intergreens"},
        "lex": {"program"},
        "parse": {"program"},
        "check": {"program"},
        "stream": {"detectors"},
        "too_long": {"any"},
        "unread": {"any"},
    }

    def rows_of_the_page(self):
        notes = (HERE.parent / "docs" / "reasons.md").read_text(encoding="utf-8").split("\n## ")[1]
        for line in notes.split("\n"):
            cells = [cell.strip().replace("\\|", "|") for cell in re.split(r"(?<!\\)\|", line)[1:-1]]
            if line.startswith("| `") and cells[1] in set.union(*self.FILES.values()):
                reason, of, *sentences = cells
                word = re.match("`([A-Za-z]+)", reason).group(1)
                yield word, of, *(re.sub(r"\[([^]]*)\]\([^)]*\)", r"\1", sentence) for sentence in sentences)

    def test_each_has_its_row(self):
        text = (HERE.parent / "crates" / "site_findings" / "src" / "sentences.rt").read_text(encoding="utf-8")
        string = r'b"((?:[^"\\]|\\.)*)"'
        table = r"static ([A-Z_]+): Sentences = Sentences \{\s*" + r"\s*".join(f"{field}: {string}," for field in ("means", "often", "cure"))
        told = set()
        alone = {"TOO_LONG": ("too_long", "TooLong"), "UNREAD": ("unread", "ReadFault")}
        for name, *cells in re.findall(table, text, re.DOTALL):
            if name == "MARK":  # another sentence for `Entry`, where a byte order mark is the reason
                continue
            kind, word = alone.get(name) or name.split("_", 1)
            of = self.FILES[kind.lower()]
            sentences = (re.sub(r"\\\n\s*", "", cell).replace('\\"', '"') for cell in cells)
            told.add((word if name in alone else word.title().replace("_", ""), min(of) if len(of) == 1 else "table", *sentences))
        page = {(word, "table" if of in self.FILES["table"] else of, *rest) for word, of, *rest in self.rows_of_the_page()}
        self.assertGreater(len(told), 40)
        self.assertEqual(told, page)


class Crates(unittest.TestCase):
    """Each crate of crates.txt stands on those above it, and has its row in docs/crates.md."""

    def setUp(self):
        text = (TOP / "crates.txt").read_text(encoding="utf-8")
        rows = re.findall(r"^(\w+)[^:#\n]*:(.*)$", text, re.MULTILINE)
        self.uses = {name: used.split() for name, used in rows}

    def test_each_stands_on_those_above(self):
        order = list(self.uses)
        for name, used in self.uses.items():
            late = [one for one in used if one in self.uses and order.index(one) > order.index(name)]
            self.assertEqual(late, [], name)

    def test_each_has_its_row(self):
        """The lists of docs/crates.md are those that tools/crates.py makes, with a row for each crate."""
        self.assertEqual(crates.main(["--check"]), 0, "tools/crates.py")
        page = (TOP / "docs" / "crates.md").read_text(encoding="utf-8")
        self.assertEqual(re.findall(r"^- \[`(\w+)`\]\(\.\./crates/", page, re.MULTILINE), list(self.uses))

    def test_each_begins_with_what_it_is(self):
        for name in self.uses:
            sentence = crates.sentence_of(crates.root_of(name).read_text(encoding="utf-8"))
            self.assertTrue(20 <= len(sentence) <= 700, f"{name}: {sentence}")

    def test_each_call_is_there(self):
        """The calls of the items of docs/proved.md are public words of their crates."""
        page = re.sub(r"\n  +", " ", (TOP / "docs" / "proved.md").read_text(encoding="utf-8"))
        items = re.findall(r"^- `(\w+)`: (`.*?): ", page, re.MULTILINE)
        self.assertGreater(len(items), 50)
        for name, calls in items:
            sources = "\n".join(file.read_text(encoding="utf-8") for file in (TOP / "crates" / name / "src").rglob("*.rt"))
            for call in re.findall(r"`([\w:]+)`", calls):
                for word in call.split("::"):
                    said = re.search(rf"\b(fn|struct|enum|trait|mod) {word}\b|pub use [^;]*\b{word}\b", sources)
                    self.assertTrue(said, f"docs/proved.md: {name} has no {call}")


class Style(unittest.TestCase):
    def test_no_kind_becomes_more(self):
        """What the sources should not have stays below the limits of tools/style.py."""
        places = style.places_in(TOP)
        for kind, most in style.LIMITS.items():
            self.assertLessEqual(len(places[kind]), most, f"{kind}: {places[kind][:5]}")

    def test_each_kind_is_seen(self):
        body = ["fn long()", "{", *["    step();"] * 41, "}"]
        self.assertEqual(list(style.long_bodies(body)), [1])
        self.assertEqual(list(style.long_bodies(body[:2] + body[4:])), [])
        self.assertEqual(list(style.long_bodies(["fn free(_one: One) {}", *["// a line"] * 42, "fn two() {", "}"])), [])
        self.assertEqual(list(style.bare_items(["/// One.", "pub fn one()", "pub fn two()"])), [3])
        self.assertEqual(list(style.unused_imports("ghost use Rattle.a.{used, spare};\nensures { used }\n")), [1])
        self.assertEqual(list(style.meaningless(["-- what it means", "pub a : T", "b", "abbrev pub c : T"])), [4])


class Answers(unittest.TestCase):
    def test_each_file_is_read_and_written_line_by_line(self):
        for file in (TOP / "crates").glob("*/proofs/**/Answers.antt"):
            text = file.read_text(encoding="utf-8")
            written = answers.render(*answers.parse(text))
            lines = [[line for line in it.split("\n") if line.strip()] for it in (text, written)]
            self.assertEqual(*lines, str(file))

    def test_lemmas_that_no_answer_uses_go(self):
        lemmas = "use A.{b}\n\nhalf : ℕ\nhalf = 1\n\nother : ℕ\nother = 2\n\n"
        text = lemmas + "-- why\npub f : goal.f\nf x = record {\n  a = half;\n  b = x\n}\n"
        head, blocks = answers.parse(text)
        self.assertEqual([it.name for it in answers.needed(blocks)], ["half", "f"])
        self.assertEqual(answers.fields_of(blocks[2]), ("", [("a", "half"), ("b", "x")]))
        self.assertEqual(answers.blocks_at(text, {11}), {"f"})


class Believe(unittest.TestCase):
    """docs/believe.md is what its script makes, and has a row for each plain sentence of docs/proved.md."""

    def test_the_page_is_made_anew(self):
        done = subprocess.run([sys.executable, "-B", HERE / "believe.py"], capture_output=True, text=True)
        self.assertEqual((done.returncode, done.stderr), (0, ""))
        is_same = done.stdout == (TOP / "docs" / "believe.md").read_text(encoding="utf-8")
        self.assertTrue(is_same, "tools/believe.py > docs/believe.md")

    def test_the_whole_map_has_each_theorem_and_each_file_behind_the_page(self):
        done = subprocess.run([sys.executable, "-B", HERE / "believe.py", "--whole"], capture_output=True, text=True)
        page = (TOP / "docs" / "believe.md").read_text(encoding="utf-8")
        self.assertEqual((done.returncode, done.stderr, done.stdout[:len(page)]), (0, "", page))
        behind = done.stdout[len(page):]
        self.assertEqual(behind.count("\n### "), len(believe.THEOREMS))
        specs, behind = believe.Specs(), behind.split("\n## File by file\n")[1]
        missing = [file for file, block in specs.blocks.items() if block and believe.link(file) not in behind]
        self.assertEqual(missing, [])

    def test_other_words_are_refused(self):
        done = subprocess.run([sys.executable, "-B", HERE / "believe.py", "--all"], capture_output=True, text=True)
        self.assertEqual((done.returncode, done.stdout), (1, ""))
        self.assertIn("--whole", done.stderr)

    def test_each_plain_sentence_has_its_definitions(self):
        """The calls and laws that say the plain sentences of docs/proved.md have their rows here."""
        plain = (TOP / "docs" / "proved.md").read_text(encoding="utf-8").split("\n## ")[1]
        rows = [row.split(" | ")[1] for row in plain.split("\n") if row.startswith("| ")][1:]
        said = {call for _, call, _ in believe.THEOREMS}
        calls = {word.split("::")[-1] for call in said for word in re.findall(r"`([\w:]+)`", call)}
        self.assertGreater(len(rows), 20)
        for row in rows:
            # `answer` of `live` is a clause of a call
            for word in re.findall(r"`([\w:]+)`(?! of )", row):
                self.assertIn(word.split("::")[-1], calls, row)


class Statuses(unittest.TestCase):
    """The manual pages have the statuses of docs/limits.md."""

    def test_each_page_has_them(self):
        rows = (TOP / "docs" / "limits.md").read_text(encoding="utf-8").split("\n## Limits\n")[0]
        rows = [[cell.strip() for cell in row.split("|")[1:-1]] for row in rows.split("\n") if row.startswith("| ")]
        for name in rows[0][1:-1]:
            told = {row[rows[0].index(name)] for row in rows[1:]} - {""}
            page = (TOP / "docs" / f"{name.strip('`')}.1").read_text(encoding="utf-8")
            part = page.split(".Sh EXIT STATUS")[1].split(".Sh ")[0]
            self.assertEqual(set(re.findall(r"^\.It ([0-9])$", part, re.MULTILINE)), told, name)


class Pages(unittest.TestCase):
    """Links and anchors lead somewhere, and README stays short."""

    PAGES = [file for pattern in ("*.md", "docs/*.md", "crates/**/*.md", "viewer/**/*.md", "library/**/*.md", "bench/*.md") for file in TOP.glob(pattern)]

    def text_of(self, page):
        return re.sub(r"^```.*?^```", "", page.read_text(encoding="utf-8"), flags=re.DOTALL | re.MULTILINE)

    def anchors_of(self, page):
        heads = re.findall(r"^#+ (.*)$", self.text_of(page), re.MULTILINE)
        plain = (re.sub(r"\[([^]]*)\]\([^)]*\)", r"\1", head).lower() for head in heads)
        named = re.findall(r"<a id=\"([\w-]+)\"></a>", self.text_of(page))
        return {re.sub(r"[^\w\- ]", "", head).replace(" ", "-") for head in plain} | set(named)

    def test_links(self):
        for page in self.PAGES:
            for link in re.findall(r"\]\(([^)\s]+)\)", self.text_of(page)):
                if link.startswith(("https:", "http:")):
                    continue
                name, _, anchor = link.partition("#")
                target = (page.parent / name).resolve() if name else page
                self.assertTrue(target.exists(), f"{page.relative_to(TOP)}: {link}")
                if anchor:
                    self.assertIn(anchor, self.anchors_of(target), f"{page.relative_to(TOP)}: {link}")

    def test_each_page_is_reached_from_readme(self):
        reached, left = set(), [TOP / "README.md"]
        while left:
            page = left.pop()
            if page in reached or page.suffix != ".md":
                continue
            reached.add(page)
            links = re.findall(r"\]\(([^)#\s]+)", self.text_of(page))
            left += [file for file in ((page.parent / link).resolve() for link in links if ":" not in link) if file.is_file()]
        self.assertEqual({str(page.relative_to(TOP)) for page in self.PAGES if page.resolve() not in reached}, set())

    # The words of pages, as `wc -w` counts them; all of them are those of docs/, of the examples and of the top. They only fall.
    WORDS = {"README.md": 2400, "docs/DECISIONS.md": 5000, "docs/proved.md": 5000, "": 64600}

    def test_pages_are_short(self):
        self.assertLessEqual((TOP / "README.md").read_text(encoding="utf-8").count("\n"), 160)
        counted = ("*.md", "docs/*.md", "crates/junction/examples/**/*.md")
        words = {str(page.relative_to(TOP)): len(page.read_text(encoding="utf-8").split()) for name in counted for page in TOP.glob(name)}
        words[""] = sum(words.values())
        for page, most in self.WORDS.items():
            self.assertLessEqual(words[page], most, page or "all pages")

    def test_lines_are_short(self):
        for page in self.PAGES:
            for at, line in enumerate(self.text_of(page).split("\n"), 1):
                is_table = line.startswith(("|", "    ", "!["))
                self.assertTrue(is_table or len(line) <= 128, f"{page.relative_to(TOP)}: {at}: {len(line)} columns")


class Helps(unittest.TestCase):
    """Each script of this folder and those below it tells its use."""

    def test_each_script_has_its_help(self):
        for script in sorted(HERE.rglob("*.py")):
            text = script.read_text(encoding="utf-8")
            # the files of tests are unittest's, whose help it is
            if text.startswith("#!") and (script.name == "test_all.py" or not script.name.startswith("test")):
                done = subprocess.run([sys.executable, "-B", script, "--help"], capture_output=True, text=True)
                self.assertEqual((done.returncode, done.stderr), (0, ""), script.name)
                self.assertIn(text.split('"""')[1].split("\n")[0], done.stdout, script.name)


class Pictures(unittest.TestCase):
    """The picture of the page is what the gate expects of the program."""

    def test_the_four_arms(self):
        picture = TOP / "crates" / "junction" / "examples" / "four_arms" / "diagram.svg"
        self.assertEqual(picture.read_bytes(), (TOP / "crates" / "log_report" / "stdout").read_bytes())


# What needs more than Python 3, node and the kit: browsers, SUMO.
FURTHER = {"Browser", "Firefox", "Networks", "Calls", "ManyLights"}


def viewer_tests():
    """The tests of the page in the browser; what needs a program that isn't there is skipped, and said to be."""
    folder = TOP / "viewer" / "test"
    sys.path.insert(0, str(folder))
    spec = importlib.util.spec_from_file_location("viewer_test", folder / "test.py")
    module = importlib.util.module_from_spec(spec)
    spec.loader.exec_module(module)
    module.reporter = [os.environ["LOG_REPORT"]] if os.environ.get("LOG_REPORT") else []
    return unittest.defaultTestLoader.loadTestsFromModule(module)


def main():
    words = argparse.ArgumentParser(description=__doc__, formatter_class=argparse.RawDescriptionHelpFormatter)
    words.add_argument("names", metavar="NAME", nargs="*", help="a class, or CLASS.TEST (all)")
    words.add_argument("--jobs", metavar="N", type=int, default=min(2, len(os.sched_getaffinity(0))), help="so many classes at once")
    words.add_argument("--seconds", metavar="N", type=int, default=300, help="what one test may take (300)")
    words.add_argument("--plain", action="store_true", help="leave out what needs a browser or SUMO")
    words.add_argument("--slow", metavar="N", type=int, default=0, help="tells the seconds of the N slowest tests")
    options = words.parse_args()
    loader, here = unittest.defaultTestLoader, sys.modules[__name__]
    every = unittest.TestSuite([loader.loadTestsFromModule(here), viewer_tests()])
    tests = [test for test in timed_tests.tests_of(every) if not options.names or timed_tests.is_named(test, options.names)]
    tests = [test for test in tests if not options.plain or type(test).__name__ not in FURTHER]
    sys.exit(timed_tests.run(tests, options.jobs, options.seconds, options.slow))


if __name__ == "__main__":
    main()
