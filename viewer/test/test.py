#!/usr/bin/env python3
"""All tests of the page: python3 viewer/test/test.py [LOG_REPORT]

Those of the reader, the tables, the judge and the sums run in node, those of the page in Chromium and in Firefox; where one of
these isn't there its tests are skipped, and said to be. Where a built log_report is named, it is asked about each hostile log too."""
import re
import shutil
import subprocess
import sys
import unittest
from pathlib import Path

sys.dont_write_bytecode = True
from browser_test import Browser, Firefox  # noqa: F401, their tests run here too

TEST = Path(__file__).resolve().parent
VIEWER, REPOSITORY = TEST.parent, TEST.parents[1]
NODE = shutil.which("node")
reporter = []


class Words(unittest.TestCase):
    """The page says what docs say, takes in all its scripts, makes no markup of texts and asks nothing of the network."""

    MARKUP = "innerHTML outerHTML insertAdjacentHTML document.write eval( Function(".split()
    NETWORK = ["http:", "https:", "import ", "XMLHttpRequest", "WebSocket", "sendBeacon"]

    def words_of(self, name):
        text = (VIEWER / "words.js").read_text(encoding="utf-8")
        table = re.search(rf"const {name} = \{{\n(.*?)\n\}};", text, re.DOTALL).group(1)
        return dict(re.findall(r'^  (\w+): "(.*)",$', table, re.MULTILINE))

    def rows_of(self, page, title):
        text = (REPOSITORY / "docs" / page).read_text(encoding="utf-8").split(title)[1]
        rows = re.findall(r"^\| `(\w+)` \| ([^|]*) \|", text, re.MULTILINE)
        return {word: re.sub(r"\[([^]]*)\]\([^)]*\)", r"\1", said) for word, said in rows}

    def test_reasons_are_those_of_log_report(self):
        self.assertEqual(self.words_of("REASONS"), self.rows_of("log_report.md", "| reason | the line |"))

    def test_faults_mean_what_the_page_of_reasons_says(self):
        self.assertEqual(self.words_of("FAULT_MEANS"), self.rows_of("reasons.md", "\n## Faults"))

    def test_scripts_are_all_taken_in(self):
        page = (VIEWER / "index.html").read_text(encoding="utf-8")
        scripts = re.findall(r'<script src="(\w+\.js)">', page)
        self.assertEqual(sorted(scripts), sorted(file.name for file in VIEWER.glob("*.js")))

    def test_no_markup_and_no_network(self):
        for file in [*VIEWER.glob("*.js"), VIEWER / "index.html", VIEWER / "look.css"]:
            text = file.read_text(encoding="utf-8").replace("http://www.w3.org/2000/svg", "")
            for word in self.MARKUP + self.NETWORK:
                self.assertNotIn(word, text, file.name)


@unittest.skipUnless(NODE, "there is no node: apt install nodejs")
class Node(unittest.TestCase):
    """What needs no browser."""

    def run_script(self, name, *words):
        done = subprocess.run([NODE, str(TEST / name), *words], capture_output=True, text=True)
        self.assertEqual(done.returncode, 0, done.stdout[-3000:] + done.stderr[-3000:])

    def test_reader(self):
        self.run_script("reader_test.js", *reporter)

    def test_site(self):
        self.run_script("site_test.js")

    def test_judge(self):
        self.run_script("judge_test.js", *reporter)

    def test_sums(self):
        self.run_script("sums_test.js", str(TEST / "data"))


if __name__ == "__main__":
    reporter = sys.argv[1:2]
    unittest.main(argv=sys.argv[:1], verbosity=2)
