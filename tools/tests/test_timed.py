"""Tests of the scripts that run tests and commands within a time; tools/test.py runs them."""
import contextlib
import io
import os
import time
import unittest

from common import bounded
import timed_tests

__all__ = ["Bounded", "Timed"]


def is_alive(number):
    """Whether a process runs; one that has ended and that nobody has waited for counts as ended."""
    try:
        with open(f"/proc/{number}/stat", encoding="utf-8") as it:
            return it.read().rpartition(")")[2].split()[0] != "Z"
    except (FileNotFoundError, ProcessLookupError):
        return False


def ends(process):
    """Whether a process that was ended is gone, within a minute: the system may take a moment."""
    end = time.monotonic() + 60
    while is_alive(process) and time.monotonic() < end:
        time.sleep(0.05)
    return not is_alive(process)


class Bounded(unittest.TestCase):
    def test_what_a_command_says(self):
        lines = []
        came = bounded.Calls(1).run(["sh", "-c", "echo one; echo two; echo three >&2; exit 3"], lines.append)
        self.assertEqual((came, lines), ((3, "one\ntwo\n", "three\n"), ["one\n", "two\n"]))

    def test_what_does_not_end_is_ended_with_all_that_it_started(self):
        begun, lines = time.monotonic(), []
        with self.assertRaisesRegex(bounded.Late, "did not end within 0.01 minutes"):
            bounded.Calls(0.01).run(["sh", "-c", "sleep 600 & echo $!; wait"], lines.append)
        self.assertLess(time.monotonic() - begun, 300)
        self.assertTrue(ends(int(lines[0])))

    def test_a_command_leaves_nothing_behind(self):
        lines = []
        status, _, _ = bounded.Calls(1).run(["sh", "-c", "sleep 600 > /dev/null 2>&1 & echo $!"], lines.append)
        self.assertEqual((status, ends(int(lines[0]))), (0, True))

    def test_nothing_begins_after_the_end(self):
        calls = bounded.Calls(1)
        calls.end_all()
        with self.assertRaises(bounded.Late):
            calls.run(["true"])


class Sample(unittest.TestCase):
    def passes(self):
        print("not shown")

    def fails(self):
        print("said before")
        self.fail("on purpose")

    def waits(self):
        time.sleep(600)

    def is_left_out(self):
        self.skipTest("no reason")

    def ends_its_process(self):
        os._exit(1)


class Timed(unittest.TestCase):
    def run_these(self, *names, seconds=60):
        said, faults = io.StringIO(), io.StringIO()
        with contextlib.redirect_stdout(said), contextlib.redirect_stderr(faults):
            status = timed_tests.run([Sample(name) for name in names], 2, seconds, 1)
        return status, said.getvalue(), faults.getvalue()

    def test_what_passes_and_what_is_left_out(self):
        status, said, faults = self.run_these("passes", "is_left_out")
        self.assertEqual((status, faults), (0, ""))
        self.assertIn("s  Sample: 1 passed, 1 skipped (", said)
        self.assertIn("skipped: no reason (1)\n", said)
        self.assertRegex(said, r"Ran 2 tests in \d+ s: 1 passed, 1 skipped\n\Z")
        self.assertNotIn("not shown", said)

    def test_what_fails_is_told_with_what_it_wrote(self):
        status, said, faults = self.run_these("fails", "passes")
        self.assertEqual((status, faults), (1, "FAILED: Sample.fails\n"))
        self.assertIn("AssertionError: on purpose\nsaid before\n", said)
        self.assertIn("2 tests", said)

    def test_what_does_not_end_has_failed_and_the_others_run(self):
        status, said, faults = self.run_these("waits", "passes", seconds=1)
        self.assertEqual((status, faults), (1, "FAILED: Sample.waits\n"))
        self.assertIn("it did not end within 1 seconds", said)
        self.assertIn("1 passed, 1 FAILED", said)

    def test_what_ends_its_process_has_failed_and_the_others_run(self):
        status, said, faults = self.run_these("ends_its_process", "passes")
        self.assertEqual((status, faults), (1, "FAILED: Sample.ends_its_process\n"))
        self.assertIn("1 passed, 1 FAILED", said)

    def test_names(self):
        both = [Sample("passes"), Sample("fails")]
        named = lambda *names: [test.id().split(".")[-1] for test in both if timed_tests.is_named(test, names)]
        self.assertEqual((named("Sample"), named("Sample.fails"), named("Other")), (["passes", "fails"], ["fails"], []))


if __name__ == "__main__":
    unittest.main()
