"""Tests of the scripts that try wrong bodies, run all tests and shorten proofs, without the prover."""
import os
import re
import subprocess
import sys
import tempfile
import unittest
from pathlib import Path
from types import SimpleNamespace
from unittest import mock

import test_all
from proving.shorten_checks import dear_functions
from wrong_bodies import figures_of, how_refused, read_table
from proving.wrong_edits import Edit, functions_of
from proving.wrong_runs import REFUSED, SURVIVED, UNCLEAR, Crate, Kit, Run
from proving.wrong_tries import Tries, without

SOURCE = """// A source.
use a::B;

/// Doubles, where it is no `fn other() {`.
#[tactic(auto)]
pub fn twice(n: u8) -> u8
    requires { n ≤ 100 }
    ensures { result ≡ n + n }
{
    n + n
}

impl Count {
    ghost use Rattle.a.specs.B.{c};

    // Counts on.
    fn on(&mut self) {
        self.n += twice(1);
    }
}

impl Display for Count {
    fn fmt(&self) -> bool {
        "{ no brace".is_empty()
    }
}

pub fn even(n: u8) -> bool {
    n == 0 || !even(n - 1)
}
"""


class WrongBodies(unittest.TestCase):
    def setUp(self):
        self.top = Path(tempfile.mkdtemp(prefix="test_proofs_"))
        self.crate = Crate(str(self.top), "a", [], False)
        (self.top / "crates" / "a" / "src").mkdir(parents=True)
        (self.top / "crates" / "a" / "src" / "b.rt").write_text(SOURCE, encoding="utf-8")

    def edit(self, text):
        file = self.top / "one.edit"
        file.write_text(text, encoding="utf-8")
        return Edit(self.crate, str(file))

    def placed(self, old, new):
        edit = self.edit(f"file: src/b.rt\nold: {old}\nnew: {new}\n")
        self.assertIsNone(edit.why)
        edit.place()
        return edit

    def test_functions_of_a_source(self):
        found = functions_of("src/b.rt", SOURCE)
        self.assertEqual([it.full() for it in found], ["b::twice", "b::Count::on", "b::CountDisplay::fmt", "b::even"])
        self.assertEqual([it.in_trait for it in found], [False, False, True, False])
        self.assertTrue(SOURCE[found[0].start :].startswith("/// Doubles"))
        self.assertEqual(SOURCE[found[0].body : found[0].end], "{\n    n + n\n}")

    def test_an_edit_stands_in_its_function(self):
        edit = self.placed("    n + n", "    n + 1")
        self.assertEqual((edit.function.full(), edit.alone), ("b::twice", None))
        self.assertIn("n + 1", edit.body)

    def test_what_is_tried_alone(self):
        self.assertEqual(self.placed("n ≤ 100", "n ≤ 10").alone, "it changes a contract or a signature")
        self.assertEqual(self.placed("no brace", "a brace").alone, "a method of a trait's impl")
        self.assertEqual(self.placed("n == 0", "n == 1").alone, "it may call itself")
        self.assertEqual(self.placed("use a::B;", "use a::C;").alone, "it changes no function's body alone")

    def test_what_cannot_be_applied(self):
        self.assertIn("3 times", self.edit("file: src/b.rt\nold: self\nnew: it\n").why)
        self.assertIn("no file", self.edit("file: src/c.rt\nold: a\nnew: b\n").why)
        self.assertIn("below src/", self.edit("file: ../b.rt\nold: a\nnew: b\n").why)
        self.assertEqual(self.edit("file: src/b.rt\nold:     n + n\nnew:     n + n\n").why, "it changes nothing")

    def test_what_a_run_says(self):
        said = """src/b.rt:3:1: note: a note
fn a::b::twice_as_is: proved
fn a::b::twice_wrong1: no proof: expected answers in ./proofs/b/twice_wrong1/Answers.antt: `search` did not prove `returns`, `two`
note: src/b.rt:20:5: an open goal (`returns`); the facts known there allow values at which this goal is false
fn a::b::twice_wrong2: not proved
proofs/b/twice_wrong2/Answers.antt:4:1: error: `returns`: module `Rattle.a.proofs.b.twice_wrong2.Goals` has no `returns`
fn a::b::twice_wrong3: not proved
proofs/b/twice_wrong3/Answers.antt:4:1: error: module `Rattle.a.proofs.b.twice_wrong3.Goals` has no `then` that can be named from here
proofs/b/twice_wrong3/Answers.antt:7:5: error: 1 declaration that depends on `then`, which was not admitted, was not checked: x
fn a::b::fn::even::on: proved where its callers give what it asks
fn a::b::even: proved
"""
        run = Run(1, said, 1.0)
        self.assertFalse(run.did_not_compile())
        self.assertEqual(run.judged("a", "b::twice_as_is"), (SURVIVED, ""))
        wrong = run.judged("a", "b::twice_wrong1", ("src/b.rt", 18, 24))
        self.assertEqual(wrong, (REFUSED, "returns (false) two (open)"))
        self.assertEqual(run.judged("a", "b::twice_wrong2")[0], UNCLEAR)
        self.assertEqual(run.judged("a", "b::twice_wrong3")[0], UNCLEAR)
        self.assertEqual(run.judged("a", "b::even"), (SURVIVED, ""))
        self.assertTrue(Run(1, "src/b.rt:3:1: error[mismatched-types]: no", 1.0).did_not_compile())

    def test_each_wrong_body_of_the_page_is_there(self):
        page = (test_all.TOP / "docs" / "wrong-bodies.md").read_text(encoding="utf-8")
        rows = re.findall(r"^\| (?!kind|-).*$", page, re.M)
        rows = [re.findall(r"`(\w+)`", cell) for row in rows for cell in row.split("|")[2:4]]
        self.assertGreater(len(rows), 40)
        for crates, names in zip(rows[::2], rows[1::2]):
            found = {(crate, file.stem) for crate in crates for file in (test_all.CRATES / crate).glob("*/*.edit")}
            for name in names:
                self.assertIn(name, {edit for _, edit in found}, crates)
            self.assertEqual({crate for crate, name in found if name in names}, set(crates), names)

    def test_the_page_has_the_figures_of_the_table(self):
        edits = [(file.parents[1].name, file.stem) for part in ("edits", "must-fail") for file in test_all.CRATES.glob(f"*/{part}/*.edit")]
        self.assertEqual(len(edits), len(set(edits)))
        rows = read_table(test_all.TOP / "docs" / "wrong_bodies.csv")
        self.assertEqual(set(rows) - set(edits), set(), "rows of edits that are gone")
        page = (test_all.TOP / "docs" / "wrong-bodies.md").read_text(encoding="utf-8")
        self.assertTrue(figures_of(rows, edits) in " ".join(page.split()), "tools/wrong_bodies.py --figures")

    def test_how_an_edit_was_refused(self):
        how = [how_refused({"goal": it}) for it in ("a (open) b (false)", "a (open) b (open)", "a b", "a (open); left out: b")]
        self.assertEqual(how, ["false", "open", "answer", "open"])

    def test_answers_are_left_out(self):
        text = "use A.{b}\n\npub one : goal.one\none c =\n    b c\n\npub two : goal.two\ntwo c = c"
        self.assertEqual(without(text, {"one"}), "use A.{b}\n\npub two : goal.two\ntwo c = c")
        self.assertEqual(without(text, {"one", "two"}), "")


# In the prover's place: it proves what has none of these words in it, of a function or of the whole crate.
PROVER = """#!/usr/bin/env python3
import sys
text = open("src/b.rt", encoding="utf-8").read()
only = [sys.argv[i + 1] for i, word in enumerate(sys.argv) if word == "--only"]
with open(sys.argv[0] + ".asked", "a", encoding="utf-8") as it:
    it.write(" ".join(only) + "\\n")
wrong = [it for it in only if "n + 1" in text.partition(f"fn {it.split('::')[-1]}(")[2][:120] or "a brace" in text and it.endswith("fmt")]
for it in only:
    print(f"fn a::{it}: " + ("no proof: `search` did not prove `returns`" if it in wrong else "proved"))
print(f"only={len(only)} proved={len(only) - len(wrong)}" if only else "logic=proved functions=4")
sys.exit(1 if wrong else 0)
"""


class Tried(unittest.TestCase):
    """What is asked of the prover for an edit, and what its answers come to."""

    def tried(self, old, new, is_built):
        top = Path(tempfile.mkdtemp(prefix="test_tried_"))
        files = {"crates/a/src/b.rt": SOURCE, "kit/KIT-ID": "a kit\n", "kit/bin/rattle": PROVER, "kit/rlibs/std.rlib/format": ""}
        if is_built:
            files["crates/a/out/rlib/a.rlib/format"] = ""
        for path, text in files.items():
            (top / path).parent.mkdir(parents=True, exist_ok=True)
            (top / path).write_text(text, encoding="utf-8")
        (top / "kit/bin/rattle").chmod(0o755)
        (top / "one.edit").write_text(f"file: src/b.rt\nold: {old}\nnew: {new}\n", encoding="utf-8")
        crate = Crate(str(top), "a", [], False)
        options = SimpleNamespace(work=str(top / "work"), nice=0, prover_jobs=1, most=60, one_by_one=False, verbose=False)
        with mock.patch.dict(os.environ, {"RATTLE_KIT": str(top / "kit")}):
            tries = Tries(crate, Kit({"a": crate}, [], False), options)
        verdict = tries.all([Edit(crate, str(top / "one.edit"))], 10**9)["one"]
        return verdict[:4:3], (top / "kit/bin/rattle.asked").read_text(encoding="utf-8").split("\n")[:-1]

    def test_a_copy_beside_its_function(self):
        self.assertEqual(self.tried("    n + n", "    n + 1", True), ((REFUSED, "beside"), ["b::twice_wrong1"]))
        self.assertEqual(self.tried("    n + n", "    n + 1", False), ((REFUSED, "beside"), ["b::twice_as_is b::twice_wrong1"]))

    def test_what_survives_is_tried_in_its_place_and_in_the_whole_crate(self):
        asked = ["b::twice_wrong1", "b::twice", ""]
        self.assertEqual(self.tried("    n + n", "    2 * n", True), ((SURVIVED, "alone"), asked))

    def test_a_method_of_a_trait_is_tried_with_its_function_alone(self):
        self.assertEqual(self.tried("no brace", "a brace", True), ((REFUSED, "alone"), ["b::CountDisplay::fmt"]))
        asked = ["b::CountDisplay::fmt", "b::CountDisplay::fmt"]
        self.assertEqual(self.tried("no brace", "a brace", False), ((REFUSED, "alone"), asked))


class AllTests(unittest.TestCase):
    def test_crates_of_a_list(self):
        text = "# all\na:\nb tests_may=Threads: a std # above\nc staticlib: a b\n"
        self.assertEqual(test_all.crates_in(text), {"a": [], "b": ["a", "std"], "c": ["a", "b"]})

    def test_a_crate_as_a_module(self):
        root = "//! Tests.\n#![tactic(auto)]\n\n#[cfg(test)]\nmod one;\nuse crate::two::three;\n"
        self.assertEqual(test_all.module_of(root, "a", True), "\nmod one;\nuse crate::a_tests::two::three;\n")

    def test_the_lines_of_the_tool_are_no_output(self):
        self.assertEqual(test_all.told_alone("ok one\n1 passed, 0 failed\nrun=ended status=0\n"), "ok one\n1 passed, 0 failed\n")

    def test_the_first_difference_is_told(self):
        self.assertEqual(test_all.first_difference("a\nb\n", "a\nb\n"), "")
        self.assertEqual(test_all.first_difference("a\nb\n", "a\n"), "line 2\n  is:     b\n  wanted: (the text ends)")

    def call(self, tests, cases, *words):
        """Status and output of the command with a stand-in of `rt` that says this of tests and cases."""
        with tempfile.TemporaryDirectory() as folder:
            rt = Path(folder) / "rt"
            rt.write_text(f"#!/bin/sh\n[ $2 = --test ] && exec cat {folder}/tests\ncat {folder}/cases\n", encoding="utf-8")
            rt.chmod(0o755)
            (Path(folder) / "tests").write_text(tests, encoding="utf-8")
            (Path(folder) / "cases").write_text(cases, encoding="utf-8")
            command = [sys.executable, "-B", test_all.TOP / "tools" / "test_all.py", *words]
            environment = {**os.environ, "PATH": f"{folder}:{os.environ['PATH']}"}
            done = subprocess.run(command, env=environment, capture_output=True, text=True)
            return done.returncode, done.stdout

    def test_the_command_passes_where_all_passed(self):
        cases = (test_all.CRATES / "test_told" / "stdout").read_text(encoding="utf-8")
        tests = "test a::b ... ok\n\ntest result: ok. 1 passed; 0 failed\n"
        status, said = self.call(tests, cases + "run=ended status=0\n", "tests", "cases")
        self.assertEqual(status, 0, said)
        self.assertIn("s  tests: 1 passed (", said)
        self.assertIn(" failed, as they must (", said)
        self.assertRegex(said, r"\nall passed: tests, cases, in [0-9.]+ minutes \([0-9.]+ of a processor\)\n\Z")

    def test_the_command_fails_where_one_failed(self):
        cases = (test_all.CRATES / "test_told" / "stdout").read_text(encoding="utf-8")
        tests = "test a::b ... FAILED\n\ntest result: FAILED. 0 passed; 1 failed\n"
        status, said = self.call(tests, cases.replace("ok ", "FAILED ", 1), "tests", "cases")
        self.assertEqual(status, 1, said)
        self.assertIn("tests: 1 of ", said)
        self.assertIn("what it tells is not crates/test_told/stdout: line 1\n", said)
        self.assertRegex(said, r"\nFAILED: tests, cases, after ")

    def test_what_is_lacking_is_told(self):
        command = [sys.executable, "-B", test_all.TOP / "tools" / "test_all.py", "tests", "cases", "library"]
        done = subprocess.run(command, env={**os.environ, "PATH": "/nowhere"}, capture_output=True, text=True)
        self.assertEqual((done.returncode, done.stderr), (0, ""))
        self.assertIn("tests: skipped: there is no rt\n", done.stdout)

    def test_each_crate_of_tests_is_found(self):
        below = test_all.crates_in((test_all.TOP / "crates.txt").read_text(encoding="utf-8"))
        tested = [name for name in below if test_all.has_tests(test_all.CRATES / name)]
        self.assertTrue(tested)
        for name in tested:
            self.assertIn("test_", name)


class Shorter(unittest.TestCase):
    def test_an_answer_stays_where_its_goal_is_dear(self):
        before = {"a::one": 2.0, "a::two": 0.5}
        self.assertEqual(dear_functions(before, {"a::one": 2.5, "a::two": 1.75, "a::three": 0.75}), {"a::two"})
        self.assertEqual(dear_functions({}, {"a::one": 1.5}), {"a::one"})


if __name__ == "__main__":
    unittest.main()
