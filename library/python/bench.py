"""bench.py PROGRAM PUA TIMES INTERGREENS [JUNCTION]: seconds that are made in a second, by the clock and by what processors
worked; and by the pipe of the built program JUNCTION, with the same counts."""
import random
import resource
import subprocess
import sys
import time

import vantulig
from vantulig import Controller

random.seed(7)
COUNTS = [{d: (1, 1) for d in range(1, 13) if random.random() < 0.125} for _ in range(100_000)]


def worked():
    """what this process and those that have ended worked"""
    both = [resource.getrusage(who) for who in (resource.RUSAGE_SELF, resource.RUSAGE_CHILDREN)]
    return sum(it.ru_utime + it.ru_stime for it in both)


def tell(what, play):
    begin, before = time.monotonic(), worked()
    play()
    clock, work = time.monotonic() - begin, worked() - before
    print(f"Python, {what}: {len(COUNTS) / clock:.0f} seconds a second, {len(COUNTS) / work:.0f} in a second of a processor")


def by_pipe():
    with subprocess.Popen(
        [sys.argv[5], "run", *sys.argv[1:5], "/dev/stdin"], stdin=subprocess.PIPE, stdout=subprocess.PIPE, text=True
    ) as run:
        record = run.stdout.readline()
        for second, counts in enumerate(COUNTS, 1):
            run.stdin.write(" ".join(f"{d}:{f}:{r}" for d, (f, r) in counts.items()) + "\n")
            run.stdin.flush()
            record = run.stdout.readline()
            assert record.startswith(f"{second}|"), record
        run.stdin.close()


def by_calls(step):
    def play():
        with Controller.open(*sys.argv[1:5]) as c:
            for counts in COUNTS:
                step(c, counts)

    return play


def with_aspects(c, counts):
    c.second(counts)
    return c.aspects


tell("second(..) alone", by_calls(Controller.second))
tell("second(..) and aspects", by_calls(with_aspects))
tell("step(..): a Record", by_calls(Controller.step))
tell("step(..).line()", by_calls(lambda c, counts: c.step(counts).line()))


def by_run():
    with Controller.open(*sys.argv[1:5]) as c:
        c.run(COUNTS)


def by_numbers():
    with Controller.open(*sys.argv[1:5]) as c:
        c.run(NUMBERS)


if vantulig.numpy:
    NUMBERS = vantulig.numpy.zeros((len(COUNTS), 2, 64), "uint32")
    for second, counts in enumerate(COUNTS):
        for d in counts:
            NUMBERS[second, :, d - 1] = 1
    tell("run(mappings): an array", by_run)
    tell("run(an array): an array", by_numbers)
if len(sys.argv) > 5:
    tell("the pipe, a line of the log", by_pipe)
