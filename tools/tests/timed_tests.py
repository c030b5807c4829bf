"""Runs unittest's test cases in processes of their own, several at once, each test with a limit of seconds, and tells what each took."""
import os
import signal
import sys
import tempfile
import time
import traceback
import unittest
from multiprocessing.connection import Pipe, wait

from common import bounded

PASSED, SKIPPED, FAILED = "passed", "skipped", "FAILED"


def name_of(test):
    """A test's class and name; of what a class makes before its tests, what unittest calls it."""
    return ".".join(test.id().split(".")[-2:]) if isinstance(test, unittest.TestCase) else str(test)


class Told(unittest.TestResult):
    """Sends what becomes of each test as soon as it is known."""

    def __init__(self, pipe):
        super().__init__()
        self.pipe, self.begun, self.how, self.why = pipe, 0.0, PASSED, ""

    def startTest(self, test):
        super().startTest(test)
        self.begun, self.how, self.why = time.monotonic(), PASSED, ""
        self.pipe.send(("begun", name_of(test)))

    def stopTest(self, test):
        self.pipe.send(("ended", name_of(test), self.how, self.why, time.monotonic() - self.begun))
        super().stopTest(test)

    def fails(self, test, error):
        self.how = FAILED
        self.why += "".join(traceback.format_exception(*error))
        if not isinstance(test, unittest.TestCase):
            # what a class makes before its tests could not be made
            self.pipe.send(("ended", name_of(test), FAILED, self.why, 0.0))

    def addFailure(self, test, err):
        self.fails(test, err)

    def addError(self, test, err):
        self.fails(test, err)

    def addSubTest(self, test, subtest, err):
        if err:
            self.fails(test, err)

    def addSkip(self, test, reason):
        self.how, self.why = SKIPPED, reason
        if not isinstance(test, unittest.TestCase):
            self.pipe.send(("ended", name_of(test), SKIPPED, reason, 0.0))

    def addUnexpectedSuccess(self, test):
        self.how, self.why = FAILED, "it passes, and was not expected to\n"


def run_here(tests, pipe, file):
    """What a child does: runs these tests, in a session of its own, and sends what became of them."""
    os.setsid()
    signal.signal(signal.SIGTERM, signal.SIG_DFL)
    os.dup2(os.open(os.devnull, os.O_RDONLY), 0)
    for number in (1, 2):
        os.dup2(file, number)
    sys.stdout, sys.stderr = (os.fdopen(number, "w", buffering=1, closefd=False) for number in (1, 2))
    unittest.TestSuite(tests).run(Told(pipe))
    pipe.send(("done",))
    pipe.close()


class Group:
    """The tests of a class, in a process."""

    def __init__(self, name, tests):
        self.name, self.tests, self.left = name, tests, {name_of(test): test for test in tests}
        self.rows, self.open, self.since, self.is_done, self.began = [], None, 0.0, False, None

    def start(self):
        """Begins those that are left, in a child."""
        self.pipe, other = Pipe(duplex=False)
        self.said = tempfile.TemporaryFile()
        self.open, self.since, self.is_done = None, time.monotonic(), False
        self.began = self.began or self.since
        sys.stdout.flush()
        sys.stderr.flush()
        self.child = os.fork()
        if self.child == 0:
            try:
                run_here(list(self.left.values()), other, self.said.fileno())
            except BaseException:
                traceback.print_exc()
            finally:
                os._exit(1)
        other.close()

    def take(self, message):
        """Notes what the process sent."""
        self.since = time.monotonic()
        if message[0] == "begun":
            self.open = message[1]
        elif message[0] == "ended":
            self.row(*message[1:])
        else:
            self.is_done = True

    def row(self, name, how, why, seconds):
        self.open = None
        self.left.pop(name, None)
        if how == FAILED:
            self.said.seek(0)
            why += self.said.read().decode(errors="replace")[-2000:]
        self.rows.append((name, how, why, seconds))

    def end(self, seconds):
        """Ends the child with all that it started, done or not after so many seconds. Answers whether tests are left."""
        if not self.is_done:
            late = time.monotonic() - self.since
            why = f"it did not end within {seconds} seconds\n" if late > seconds else "its process ended\n"
            self.row(self.open or next(iter(self.left), self.name), FAILED, why, late)
        bounded.kill_group(self.child)
        os.waitpid(self.child, 0)
        self.pipe.close()
        self.said.close()
        return not self.is_done and bool(self.left)


def tests_of(suite):
    """The tests of a suite and of those in it."""
    return [test for one in suite for test in (tests_of(one) if isinstance(one, unittest.TestSuite) else [one])]


def is_named(test, names):
    """Whether a test or its class is one of these names."""
    return type(test).__name__ in names or name_of(test) in names


def groups_of(tests):
    """The tests by their classes."""
    groups = {}
    for test in tests:
        groups.setdefault(type(test), []).append(test)
    return [Group(it.__qualname__, its) for it, its in groups.items()]


def run_groups(groups, jobs, seconds, tell):
    """Runs the groups, so many at once, and tells of each that ended."""
    waiting, running = list(groups), []
    try:
        while waiting or running:
            while waiting and len(running) < jobs:
                running.append(waiting.pop(0))
                running[-1].start()
            ready = wait([it.pipe for it in running], timeout=1)
            for group in [it for it in running if it.pipe in ready]:
                try:
                    group.take(group.pipe.recv())
                except EOFError:
                    ready = [*ready, group]
            now = time.monotonic()
            for group in [it for it in running if it.is_done or it in ready or now - it.since > seconds]:
                running.remove(group)
                if group.end(seconds):
                    waiting.insert(0, group)
                else:
                    tell(group)
    finally:
        for group in running:
            group.end(0)


def told(rows):
    """How many became what."""
    came = [how for _, how, _, _ in rows]
    return ", ".join(f"{came.count(how)} {how}" for how in (PASSED, SKIPPED, FAILED) if how in came)


def run(tests, jobs, seconds, slow):
    """Runs tests, and answers the exit status. The slowest ones are told at the end, so many."""
    begun, done = time.monotonic(), []
    signal.signal(signal.SIGTERM, bounded.leave)

    def tell(group):
        done.append(group)
        at, took = time.monotonic() - begun, time.monotonic() - group.began
        print(f"{at:5.0f} s  {group.name}: {told(group.rows)} ({took:.1f} s)", flush=True)
        for name, how, why, _ in group.rows:
            if how == FAILED:
                print(f"FAILED: {name}\n{why}", flush=True)

    run_groups(groups_of(tests), jobs, seconds, tell)
    rows = [row for group in done for row in group.rows]
    reasons = [why for _, how, why, _ in rows if how == SKIPPED]
    for why in sorted(set(reasons)):
        print(f"skipped: {why} ({reasons.count(why)})")
    for name, _, _, took in sorted(rows, key=lambda row: -row[3])[:slow]:
        print(f"{took:8.1f} s  {name}")
    failed = [name for name, how, _, _ in rows if how == FAILED]
    print(f"Ran {len(rows)} tests in {time.monotonic() - begun:.0f} s: {told(rows)}", flush=True)
    for name in failed:
        print(f"FAILED: {name}", file=sys.stderr)
    return 1 if failed or not rows else 0
