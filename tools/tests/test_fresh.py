"""Tests of tools/try_cases.py and of tools/try_fresh.py, without the kit. tools/test.py takes them in."""
import os
import subprocess
import sys
import tempfile
import unittest
from pathlib import Path
from types import SimpleNamespace

HERE = Path(__file__).resolve().parent.parent
TOP = HERE.parent
sys.path.insert(0, str(HERE))
import test_all
import try_cases
import try_fresh

# a program that writes the words behind `say`, lines of a file, or a version, and notes on anything else
PROGRAM = r"""#!/bin/sh
case $1 in
    say) shift; echo "$*" ;;
    show) cat "$2"; echo shown >&2; exit 5 ;;
    --version) echo 'log_report 0.1.0, not proved' ;;
    *) printf 'log_report: Words\n  log_report say WORDS\n' >&2; exit 2 ;;
esac
"""
CASES = r"""This is no part of a case.
### report: words
--- words report say a b
--- out 0
a b
=== report: a part
--- \begin 0
a \
=== report: bytes
--- words report show f
--- \f
\41\
b
--- notes
shown
--- \out 5
A\
b
=== report: a file of the folder
--- words report show more
--- notes
shown
--- same 5 more
=== report: a word a line
--- words report say
a b
c
--- out 0
a b c
=== report: a note
--- words report
--- notes
log_report: Words
--- out 2
=== report: the version
--- words report --version
--- out 0
log_report 0.1.0
=== report: faults
--- words report say b
--- out 0
b
--- each read fails 3
=== report: lines with their numbers, and empty ones
--- \f
\*2 \+ of 2
\*1
--- words report show f
--- notes
shown
--- asked f
--- \out 5
1 of 2
2 of 2

=== report: little room
--- room 1
--- out 0
=== calls
--- words calls a b
--- out 0
"""
FAILING = """=== must fail: another text
--- words report say a
--- out 0
b
=== must fail: another status
--- words report say a
--- out 1
a
=== must fail: a note that is not told
--- words report say a
--- notes
a
--- out 0
a
=== must fail: nothing is wanted
--- words report say a
--- ou 0
=== must fail: by a read
--- words report say a
--- out 0
a
--- each read fails 3
"""


class Cases(unittest.TestCase):
    """Cases by built programs, which here are a shell's script."""

    def setUp(self):
        folder = tempfile.TemporaryDirectory()
        self.addCleanup(folder.cleanup)
        self.room = Path(folder.name)
        (self.room / "bin").mkdir()
        (self.room / "cases").mkdir()
        for name in ("junction", *try_cases.PROGRAMS.values()):
            (self.room / "bin" / name).write_text(PROGRAM, encoding="utf-8")
            (self.room / "bin" / name).chmod(0o755)
        (self.room / "cases" / "one.txt").write_text(CASES, encoding="utf-8")
        (self.room / "cases" / "must_fail.txt").write_text(FAILING, encoding="utf-8")
        (self.room / "cases" / "more").write_text("more\n", encoding="utf-8")

    def call(self, *words):
        words = [sys.executable, "-B", HERE / "try_cases.py", self.room / "bin", *words, "--cases", self.room / "cases"]
        done = subprocess.run(words, capture_output=True, text=True)
        return done.returncode, done.stdout, done.stderr

    def test_all_pass_as_they_must(self):
        self.assertEqual(self.call(), (0, "13 passed, 0 failed, 3 left out\n", ""))
        self.assertEqual(self.call("one"), (0, "9 passed, 0 failed, 2 left out\n", ""))
        self.assertEqual(self.call("one.txt", "=report: a"), (0, "4 passed, 0 failed, 0 left out\n", ""))

    def test_what_differs_is_told(self):
        for old, new, said in [
            ("a b c\n", "a b d\n", "FAILED report: a word a line: out: line 1\n  is:     a b c\n  wanted: a b d\n"),
            ("same 5 more", "same 4 more", "FAILED report: a file of the folder: status 5, wanted 4\n"),
            ("begin 0\na", "begin 0\nb", "FAILED report: a part: begin: line 1\n  is:     a b\n  wanted: b \n"),
            ("log_report: Words", "log_report: Word", "FAILED report: a note: notes: line 1\n"),
        ]:
            (self.room / "cases" / "one.txt").write_text(CASES.replace(old, new), encoding="utf-8")
            status, told, _ = self.call("one")
            self.assertEqual(status, 1, old)
            self.assertIn(said, told)
            self.assertTrue(told.endswith("\n8 passed, 1 failed, 2 left out\n"), told)

    def test_a_case_that_must_fail_and_passes_is_told(self):
        (self.room / "cases" / "must_fail.txt").write_text(FAILING.replace("--- out 1", "--- out 0"), encoding="utf-8")
        status, told, _ = self.call("must_fail")
        self.assertEqual((status, told.splitlines()[0]), (1, "FAILED must fail: another status: it passes, and must fail"))

    def test_what_is_left_out_may_stand_in_a_file_before(self):
        (self.room / "args").write_text("one.txt\nbehind.txt\n", encoding="utf-8")
        (self.room / "cases" / "behind.txt").write_text("=== report: behind\n--- out 0\na b\n", encoding="utf-8")
        self.assertEqual(self.call("behind")[:2], (0, "1 passed, 0 failed, 0 left out\n"))
        (self.room / "args").write_text("behind.txt\none.txt\n", encoding="utf-8")
        self.assertEqual(self.call("behind")[0], 1)

    def test_what_lacks(self):
        self.assertEqual(self.call("two")[:2], (2, ""))
        (self.room / "bin" / "log_report").unlink()
        self.assertEqual(self.call(), (2, "", f"{self.room / 'bin'} lacks log_report\n"))

    def test_where_no_programs_are_built(self):
        """That is a failure only where the cases by programs were asked for."""
        for what, ended in [(["programs"], test_all.Failed), ([], test_all.Skipped)]:
            options = SimpleNamespace(programs=(None, "junction isn't built"), what=what)
            with self.assertRaisesRegex(ended, "junction isn't built"):
                test_all.run_programs(test_all.Progress(), None, self.room, options)

    def test_the_cases_of_the_repository_are_read(self):
        """As many as the driver of cases has, which tells a line of each that passes."""
        self.assertFalse({file.name for file in try_cases.OWN.iterdir()} & {file.name for file in try_cases.DATA.iterdir()})
        self.assertTrue(try_cases.read_cases(try_cases.files_in(try_cases.OWN)))
        cases = try_cases.read_cases(try_cases.files_in(try_cases.DATA))
        told = (TOP / "crates" / "test_told" / "stdout").read_text(encoding="utf-8", errors="replace")
        passed = [line[3:] for line in told.splitlines() if line.startswith("ok ")]
        self.assertEqual([case.name for case in cases if case.file != try_cases.FAILING], passed)
        by_programs = [case for case in cases if case.words()[:1] != [b"driven"]]
        self.assertLess(sum(try_cases.is_left_out(case) for case in by_programs), len(by_programs) // 10)


class Scripts(unittest.TestCase):
    def test_each_script_can_be_called_by_its_name(self):
        scripts = [file for file in HERE.rglob("*.py") if file.read_text(encoding="utf-8").startswith("#!")]
        self.assertGreater(len(scripts), 30)
        self.assertEqual([file.name for file in scripts if not os.access(file, os.X_OK)], [])


class Fresh(unittest.TestCase):
    """The commands that tools/try_fresh.py takes from a page."""

    def test_blocks(self):
        page = "# P\n\n    cd a\n    b\n\nText\n\n    not a command\n\n```sh\none \\\n  two\nthree\n```\n\n```\nshown\n```\n\n## Q\n\n    rt try\n"
        self.assertEqual(try_fresh.commands_of(page), ["cd a\n", "b\n", "one \\\n  two\n", "three\n", "rt try\n"])
        self.assertEqual(try_fresh.commands_of(try_fresh.section_of(page, "Q")), ["rt try\n"])
        packages = try_fresh.packages_of(["apt-get install a\n", "c\n", "d\n"])
        self.assertEqual(packages, (["apt-get install a\n"], ["c\n", "d\n"]))

    def test_the_pages_have_commands(self):
        for page, title in [("README.md", "Try it"), ("docs/archive.md", None)]:
            text = (TOP / page).read_text(encoding="utf-8")
            self.assertTrue(try_fresh.commands_of(try_fresh.section_of(text, title)), page)

    def test_a_script_ends_where_a_block_fails(self):
        with tempfile.TemporaryDirectory() as folder:
            for blocks, status, ended in [
                (["a=1\n", "test $a = 1\n", "(exit 3)    # status 3\n"], 0, 3),
                (["a=1\n", "test $a = 2\n", "touch b\n"], 1, 1),
                (["(exit 3)    # status 2\n", "touch b\n"], 1, 0),
            ]:
                told = Path(folder) / "told"
                told.write_text("", encoding="utf-8")
                script = try_fresh.script_of(blocks, folder).replace("/tmp/told", str(told))
                done = subprocess.run(["bash", "-s"], input=script, text=True)
                self.assertEqual((done.returncode, len(try_fresh.ends_in(told.read_text()))), (status, ended))
            self.assertFalse((Path(folder) / "b").exists())

    def test_what_commands_took(self):
        told = "10.5\n0m0.100s 0m0.020s\n0m1.000s 0m0.030s\n12.25\n0m0.200s 0m0.020s\n1m2.000s 0m0.030s\n13.0\n0m0.2"
        ends = try_fresh.ends_in(told)
        self.assertEqual([at for at, _ in ends], [10.5, 12.25])
        self.assertAlmostEqual(ends[0][1], 1.15)
        self.assertAlmostEqual(ends[1][1], 62.25)
        self.assertEqual(try_fresh.ends_in(""), [])


if __name__ == "__main__":
    unittest.main()
