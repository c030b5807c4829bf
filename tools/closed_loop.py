#!/usr/bin/env python3
"""closed_loop.py [OPTIONS] DEMAND PUA TIMES INTERGREENS PROGRAM[@NAME=V1,V2,..]..

Runs programs on the same traffic, with queues that their detectors see: a step between a recording, in which nobody sees that a
green is too short, and a simulation of streets. PROGRAM@MAIN_END=45,36,28 is a program with each of these values of a constant.

DEMAND is a table with the columns group, detectors, per_hour, and where wanted from, to, saturation, stream and kind:

    group,detectors,per_hour,from,to
    K1,1@0 2@40,600,0,1800
    K1,1@0 2@40,900,1800,3600

Detector 1 lies at the stop line, 2 lies 40 m before it. Several rows of a stream are its profile, in seconds. `saturation` is in
vehicles an hour (1800), `stream` a name where a group has several lanes, `kind` is vehicles, or calls of people and trams.

What it is: one lane a stream, vehicles that come by chance (each seed draws the same for all programs), reach the stop line by
--speed, leave one each 3600 / saturation seconds, the first --start-lag seconds after green begins, the last --end-gain seconds
after it ends. Who stands covers the detectors of the place. There is no lane to change, no street that is full, no one who turns
into another's way. Told are means over the seeds with 95 % intervals by Student's t, and the differences of delay from the first
program, seed by seed: mean delay in seconds, who stopped in a hundred, the longest queue, greens that ended with a queue.

It calls the library (the Python module vantulig) in this process, or with --junction FILE that program through a pipe. The runs
are spread over the processors, with --scheduler ADDRESS over the workers of a Dask scheduler."""
import argparse
import concurrent.futures
import csv
import os
import re
import subprocess
import sys
import tempfile
from pathlib import Path
from types import SimpleNamespace

import queues
from common.reading import MOST_DETECTOR, NAME, Refused, table_of, text_of, told, whole_from
from sumo.tables import interval

FIELDS = ["program", "seed", "stream", "vehicles", "delay", "stops", "queue", "greens", "left"]
SHOWN = [("delay", "delay s", 1), ("stops", "stopped %", 0), ("queue", "longest queue", 1)]
NUMBER = re.compile(r"[0-9]{1,6}(\.[0-9]+)?")
CONSTANT = r"\b({})(\s*=\s*)-?[0-9]+\b"


class Library:
    """The controller of the library, in this process."""

    def __init__(self, program, site):
        from vantulig import Controller
        self.controller = Controller(program, *site)
        self.names = self.controller.names

    def second(self, counts):
        if not self.controller.second(counts):
            raise RuntimeError("the controller doesn't take these counts")
        return self.controller.aspects

    def end(self):
        self.controller.end()


class Pipe:
    """`junction run`, fed second by second."""

    def __init__(self, junction, program, files):
        words = [junction, "run", program, *files, "/dev/stdin"]
        self.process = subprocess.Popen(words, stdin=subprocess.PIPE, stdout=subprocess.PIPE, stderr=subprocess.PIPE, text=True)
        self.names = self.process.stdout.readline().split()[2:]
        if not self.names:
            raise RuntimeError(self.process.stderr.read().strip())

    def second(self, counts):
        self.process.stdin.write(" ".join(f"{d}:{f}:{r}" for d, (f, r) in sorted(counts.items())) + "\n")
        self.process.stdin.flush()
        return self.process.stdout.readline().split("|")[2]

    def end(self):
        self.process.stdin.close()
        self.process.stdout.read()
        self.process.wait()


def number_of(row, column, least, most):
    text = row[column]
    if not NUMBER.fullmatch(text) or not least <= float(text) <= most:
        raise Refused(row["line"], f"'{text}' ({column}) is no number from {least} to {most}")
    return float(text)


def detectors_of(row):
    found = []
    for word in row["detectors"].split():
        number, _, metres = word.partition("@")
        if not re.fullmatch("[1-9][0-9]?", number) or int(number) > MOST_DETECTOR or not NUMBER.fullmatch(metres or "0"):
            raise Refused(row["line"], f"'{word}' is no detector from 1 to {MOST_DETECTOR}, as 3 or 3@40")
        found.append((int(number), float(metres or 0)))
    return found


def streams_of(text, seconds):
    """The streams of a demand."""
    streams = {}
    for row in table_of(text, "group", "detectors", "per_hour"):
        row = {"stream": "", "from": "", "to": "", "saturation": "", "kind": "", **row}
        if not NAME.fullmatch(row["group"]):
            raise Refused(row["line"], f"'{row['group']}' is no name of a group")
        if row["kind"].lower() not in ("", "vehicles", "calls"):
            raise Refused(row["line"], f"'{row['kind']}' is neither vehicles nor calls")
        name = row["stream"] or row["group"]
        saturation = number_of(row, "saturation", 1, 10_000) if row["saturation"] else 1800.0
        new = queues.Stream(name, row["group"], detectors_of(row), [], saturation, row["kind"].lower() == "calls")
        stream = streams.setdefault(name, new)
        if (stream.group, stream.detectors, stream.saturation, stream.calls) != (new.group, new.detectors, new.saturation, new.calls):
            raise Refused(row["line"], f"{name} has another group, other detectors, saturation or kind in a row above")
        begin = number_of(row, "from", 0, 604_800) if row["from"] else 0.0
        end = number_of(row, "to", 0, 604_800) if row["to"] else float(seconds)
        if stream.parts and begin < stream.parts[-1][1] or end <= begin:
            raise Refused(row["line"], f"the part from {begin:g} to {end:g} s isn't behind that of the row above")
        stream.parts.append((begin, end, number_of(row, "per_hour", 0, 100_000)))
    if not streams:
        raise Refused(1, "the demand has no row")
    return list(streams.values())


def variants_of(word):
    """Of PROGRAM or PROGRAM@NAME=V1,V2 each name and text."""
    file, sign, rest = word.partition("@")
    with told(file):
        text = Path(file).read_bytes().decode("latin-1")  # so that each byte stays what it is
        if not sign:
            return [(Path(file).name, text)]
        name, _, values = rest.partition("=")
        found = re.findall(CONSTANT.format(re.escape(name)), text, re.IGNORECASE)
        if not NAME.fullmatch(name) or not re.fullmatch("-?[0-9]+(,-?[0-9]+)*", values):
            raise Refused(0, f"'@{rest}' isn't @NAME=V1,V2")
        if len(found) != 1:
            raise Refused(0, f"a number is given to {name} {len(found)} times in the program, where once is wanted")
        put = re.compile(CONSTANT.format(re.escape(name)), re.IGNORECASE)
        return [(f"{Path(file).name} {name}={value}", put.sub(lambda at: at[1] + at[2] + value, text)) for value in values.split(",")]


def run_one(task):
    """One run, on a worker: the rows of its streams."""
    given = SimpleNamespace(**task["given"])
    program = task["text"].encode("latin-1")
    if given.junction:
        file = Path(task["folder"]) / f"program-{os.getpid()}.vap"
        file.write_bytes(program)
        controller = Pipe(given.junction, file, task["files"])
    else:
        controller = Library(program, task["site"])
    try:
        for stream in task["streams"]:
            if stream.group not in controller.names:
                raise RuntimeError(f"the plan has no group {stream.group}")
        numbers = queues.run(controller, task["streams"], task["seed"], given)
    finally:
        controller.end()
    return [{"program": task["program"], "seed": task["seed"], "stream": name, **row} for name, row in numbers.items()]


def run_all(tasks, given):
    """The rows of all runs."""
    if given.scheduler:
        from distributed import Client
        with Client(given.scheduler) as client:
            client.upload_file(queues.__file__)
            return sum(client.gather(client.map(run_one, tasks, pure=False)), [])
    if given.processors == 1:
        return sum(map(run_one, tasks), [])
    with concurrent.futures.ProcessPoolExecutor(given.processors) as pool:
        return sum(pool.map(run_one, tasks), [])


def cell(values, digits):
    mean, half = interval(values)
    return f"{mean:.{digits}f}" + (f" ± {half:.{digits}f}" if half == half else "")


def table_rows(rows, programs, streams):
    """The lines of the table: of each stream a line for each program."""
    yield ["stream", "program", "vehicles", *[title for _, title, _ in SHOWN], "greens with a queue left", "delay to the first"]
    for stream in streams:
        own = {program: sorted((row for row in rows if (row["program"], row["stream"]) == (program, stream.name)),
                               key=lambda row: row["seed"]) for program in programs}
        first = own[programs[0]]
        for program in programs:
            of = own[program]
            left = f"{sum(row['left'] for row in of)} of {sum(row['greens'] for row in of)}" if not stream.calls else "-"
            apart = cell([row["delay"] - other["delay"] for row, other in zip(of, first)], 1) if program != programs[0] else "-"
            yield [stream.name, program, f"{sum(row['vehicles'] for row in of) / len(of):.0f}",
                   *[cell([row[key] for row in of], digits) for key, _, digits in SHOWN], left, apart]


def told_table(rows):
    widths = [max(len(row[k]) for row in rows) for k in range(len(rows[0]))]
    lines = []
    for above, row in zip([rows[0], *rows], rows):
        if row[0] != above[0]:
            lines.append("")
        words = [word.ljust(width) if k < 2 else word.rjust(width) for k, (word, width) in enumerate(zip(row, widths))]
        lines.append("  ".join(words).rstrip())
    return "\n".join(lines)


def seconds(text):
    if not re.fullmatch(r"[0-9](\.[0-9]+)?", text):
        raise argparse.ArgumentTypeError(f"'{text}' is no number of seconds below 10")
    return float(text)


def read_words():
    words = argparse.ArgumentParser(description=__doc__, formatter_class=argparse.RawDescriptionHelpFormatter)
    for name in ("demand", "pua", "times", "intergreens"):
        words.add_argument(name, metavar=name.upper())
    words.add_argument("programs", metavar="PROGRAM", nargs="+")
    words.add_argument("--seconds", type=whole_from(1, 604_800), default=3600, metavar="N", help="of a run, else 3600")
    words.add_argument("--seeds", type=whole_from(1, 1000), default=5, metavar="N", help="seeds 1 to N, else 5")
    words.add_argument("--warm-up", type=whole_from(0, 604_800), default=0, metavar="N", help="who comes before this isn't counted")
    words.add_argument("--start-lag", type=seconds, default=1.0, metavar="S", help="from the begin of green to the first vehicle, else 1")
    words.add_argument("--end-gain", type=seconds, default=1.0, metavar="S", help="of the amber that vehicles still use, else 1")
    words.add_argument("--speed", type=whole_from(1, 200), default=50, metavar="KMH", help="from a detector to the stop line, else 50")
    words.add_argument("--junction", metavar="FILE", help="this program through a pipe, in the place of the library")
    words.add_argument("--processors", type=whole_from(1, 1024), default=os.cpu_count(), metavar="N")
    words.add_argument("--scheduler", metavar="ADDRESS", help="a Dask scheduler")
    words.add_argument("--csv", metavar="FILE", help="write a row for each run and stream")
    return words.parse_args()


def main():
    given = read_words()
    with told(given.demand):
        streams = streams_of(text_of(given.demand), given.seconds)
    programs = dict(one for word in given.programs for one in variants_of(word))
    files = [given.pua, given.times, given.intergreens]
    with told("a file of the site"):
        site = [Path(file).read_bytes() for file in files]
    with tempfile.TemporaryDirectory() as folder:
        task = {"given": vars(given), "streams": streams, "files": [os.path.abspath(file) for file in files], "site": site, "folder": folder}
        tasks = [{**task, "program": name, "text": text, "seed": seed} for name, text in programs.items()
                 for seed in range(1, given.seeds + 1)]
        try:
            rows = run_all(tasks, given)
        except (RuntimeError, OSError, ValueError, ImportError) as fault:
            sys.exit(str(fault))
    if given.csv:
        with told(given.csv), open(given.csv, "w", encoding="utf-8", newline="") as file:
            out = csv.DictWriter(file, FIELDS, lineterminator="\n")
            out.writeheader()
            out.writerows(rows)
    print(told_table(list(table_rows(rows, list(programs), streams))))
    print(f"\n{given.seeds} seeds of {given.seconds} s each; ± is half of a 95 % interval. A model of queues, no street: see --help.")


if __name__ == "__main__":
    main()
