"""Runs of a study: which are wanted, which are there already, and how each is made."""
import csv
import importlib.util
import json
import os
import shutil
import subprocess
import sys
import tempfile
import time
from concurrent.futures import ThreadPoolExecutor, as_completed
from pathlib import Path

import judge_sumo
from common.reading import Refused
from sumo.drive import TABLES, sites_of
from sumo.sums import files_of_sites, run_sum

DRIVE = str(Path(__file__).resolve().parent.parent / "drive_sumo.py")
MEANS = ["loss", "stops", "queue", "walkers_loss"]
COUNTS = ["teleports", "collisions", "emergency_stops", "refused", "faults", "unsafe", "breaches"]
FIELDS = ["net", "demand", "seconds", "name", "seed", "inputs", "vehicles", "people", "walkers", *MEANS, "outside",
          "waiting_outside", *COUNTS, "lights", "clock", "steps", "detectors", "controllers", "signals"]
NOT_JUDGED = ""  # in the column of logs that aren't safe, where no program is there to judge them
OWN_CONTROLS = ("static", "actuated", "delay_based")


def controls_of(words):
    """Of each name the control, the program and the sites."""
    found = {}
    for word in words:
        name, is_one, rest = word.partition("=")
        parts = rest.split(":")
        if not is_one or len(parts) not in (2, 3) or not name or name in found:
            raise Refused(0, f"'{word}' isn't NAME=CONTROL:SITES or NAME=CONTROL:SITES:PROGRAM with a name of its own")
        sites = []
        for site in parts[1].split("+"):
            light, is_light, folder = site.rpartition("=")
            sites.append(light + is_light + str(Path(folder).resolve()))
        found[name] = {"control": parts[0], "program": parts[2] if len(parts) == 3 else "on_demand.vap", "sites": sites}
    return found


def demand_of(given):
    """What the rows call the demand."""
    if given.routes:
        return given.routes.name
    return f"a vehicle each {given.period:g} s" + (f" and a person each {given.walkers:g} s" if given.walkers else "")


def tasks_of(given, controls):
    """All runs that are wanted, seed by seed, each with the checksum of what it comes from."""
    program = shutil.which(given.junction)
    asked = ["--library"] if given.library else ["--junction", str(Path(program).resolve()) if program else given.junction]
    additional = [str(Path(file).resolve()) for file in given.additional]
    words = ["--seconds", str(given.seconds), *(["--begin", str(given.begin)] if given.begin is not None else []),
             *(["--sumo-words", given.sumo_words] if given.sumo_words else [])]
    demand = {"net": str(given.net.resolve()), "seconds": given.seconds, "begin": given.begin or 0, "period": given.period,
              "walkers": given.walkers, "routes": str(given.routes.resolve()) if given.routes else ""}
    tasks = []
    for seed in range(1, given.seeds + 1):
        for name, one in controls.items():
            is_own = one["control"] in OWN_CONTROLS
            files = [demand["net"], *([demand["routes"]] if demand["routes"] else []), *additional,
                     *files_of_sites(one["control"], one["program"], one["sites"]),
                     *([] if is_own or not program else [program, judge_sumo.__file__])]
            lights = [light for light, _ in sites_of(one["sites"])]
            said = [one["control"], one["program"], lights, words, seed, demand["period"], demand["walkers"],
                    given.library and not is_own]
            tasks.append({**demand, "name": name, "seed": seed, "sites": one["sites"], "inputs": run_sum(files, said),
                          "junction": str(Path(program).resolve()) if program and not is_own else "", "is_own": is_own,
                          "words": [*asked, "--control", one["control"], "--program", one["program"], *words,
                                    *(word for file in additional for word in ("--additional", file))]})
    return tasks


def rows_of(file, tasks):
    """The rows of these runs, by their checksums; those of other inputs stay in the file, and are no rows of this study."""
    if not file.exists():
        return {}
    wanted = {(task["name"], str(task["seed"]), task["inputs"]) for task in tasks}
    with open(file, encoding="utf-8", newline="") as lines:
        found = {(row["name"], row["seed"], row.get("inputs")): row for row in csv.DictReader(lines)}
    return {key: row for key, row in found.items() if key in wanted}


def trips_of(task, folder):
    """The files of the demand of a run."""
    if task["routes"]:
        return task["routes"]
    random_trips, files = Path(os.environ["SUMO_HOME"]) / "tools" / "randomTrips.py", []
    for kind, period, more in (("vehicles", task["period"], ["--fringe-factor", "10"]),
                               ("walkers", task["walkers"], ["--pedestrians", "--prefix", "w"])):
        if period:
            files.append(f"{folder}/{kind}.xml")
            words = [random_trips, "-n", task["net"], "-o", files[-1], "-b", task["begin"],
                     "-e", task["begin"] + task["seconds"], "-p", period, "--seed", task["seed"], *more]
            made = subprocess.run([sys.executable, *map(str, words)], capture_output=True, text=True, cwd=folder)
            if made.returncode != 0:
                raise RuntimeError(f"randomTrips.py: {(made.stderr.strip() or 'no word').splitlines()[-1]}")
    return ",".join(files)


def judged(task, logs):
    """How many logs of a run `junction audit` doesn't judge SAFE, and what the second judge finds in them."""
    sites, unsafe = sites_of(task["sites"]), 0
    for _, site in sites:
        words = [task["junction"], "audit", logs / f"{site.name}.log", *(site / name for name in TABLES)]
        said = subprocess.run([*map(str, words)], capture_output=True, text=True)
        unsafe += not said.stdout.startswith(f"SAFE {task['seconds']}\n")
    return {"unsafe": unsafe, "breaches": len(judge_sumo.judge(task["net"], sites, logs)[0])}


def run_one(task):
    """One run, on a worker: what drive_sumo.py tells, and how many logs aren't safe."""
    os.environ.setdefault("SUMO_HOME", "/usr/share/sumo")
    with tempfile.TemporaryDirectory() as name:
        folder = Path(name)
        words = [sys.executable, DRIVE, "--json", *task["words"], "--seed", str(task["seed"])]
        words += ["--logs", str(folder / "logs")] if task["junction"] else []
        if importlib.util.find_spec("libsumo"):  # SUMO without a socket, where this Python has it
            words.append("--libsumo")
        run = subprocess.run([*words, task["net"], trips_of(task, folder), *task["sites"]], capture_output=True, text=True)
        if run.returncode not in (0, 3):
            raise RuntimeError((run.stderr.strip() or f"drive_sumo.py ended with status {run.returncode}").splitlines()[-1])
        told_of = json.loads(run.stdout.splitlines()[-1])
        found = judged(task, folder / "logs") if task["junction"] else dict.fromkeys(
            ("unsafe", "breaches"), 0 if task["is_own"] else NOT_JUDGED)
        return {"faults": 0, "refused": 0, **told_of, **found}


class Progress:
    """Tells how far a study is: on a terminal in one line, and in a file, which is written anew for each run."""

    def __init__(self, file, count):
        self.file, self.count, self.done, self.failed, self.begun = file, count, 0, 0, time.monotonic()
        self.write("begun")

    def write(self, last):
        gone = time.monotonic() - self.begun
        left = gone / self.done * (self.count - self.done) if self.done else None
        text = f"{self.done} of {self.count} runs, {self.failed} failed, {gone:.0f} s" + (
            f", about {left:.0f} s left" if left is not None else "") + f", last: {last}"
        self.file.write_text(text + "\n", encoding="utf-8")
        if sys.stderr.isatty():
            print(f"\r{text}\033[K", end="\n" if self.done == self.count else "", file=sys.stderr, flush=True)

    def end_of(self, task, fault=None):
        self.done += 1
        self.failed += fault is not None
        name = f"{task['name']}, seed {task['seed']}"
        if fault is not None:
            print(f"{name}: {fault}", file=sys.stderr, flush=True)
        self.write(name if fault is None else f"{name} (failed: {fault})")


def results_of(tasks, workers, client):
    """Of each run, as it ends, its task, what came of it, and its fault: by Dask's client, or by processes of this machine."""
    if client:
        from distributed import as_completed as as_ended
        futures = {client.submit(run_one, task, pure=False): task for task in tasks}
        for future in as_ended(futures):
            is_lost = future.status == "error"
            yield futures[future], None if is_lost else future.result(), future.exception() if is_lost else None
        return
    with ThreadPoolExecutor(workers) as pool:
        futures = {pool.submit(run_one, task): task for task in tasks}
        try:
            for future in as_completed(futures):
                fault = future.exception()
                yield futures[future], None if fault else future.result(), fault
        finally:
            pool.shutdown(cancel_futures=True)


def run_all(given, tasks, client=None):
    """Makes the runs that have no row, and writes a row for each as it ends. Gives all rows in the order of the tasks, and how
    many runs failed; each that fails is told with its cause."""
    rows = rows_of(given.to, tasks)
    missing = [task for task in tasks if (task["name"], str(task["seed"]), task["inputs"]) not in rows]
    if missing:
        keep_header(given.to)
        progress = Progress(given.to.with_suffix(".progress"), len(missing))
        common = {"net": given.net.name, "demand": demand_of(given), "seconds": given.seconds}
        with open(given.to, "a", encoding="utf-8", newline="") as lines:
            out = csv.DictWriter(lines, FIELDS, lineterminator="\n", extrasaction="ignore")
            if lines.tell() == 0:
                out.writeheader()
            for task, result, fault in results_of(missing, given.workers, client):
                if fault is None:
                    out.writerow({**result, **common, **{key: task[key] for key in ("name", "seed", "inputs")}})
                    lines.flush()
                progress.end_of(task, fault)
        rows = rows_of(given.to, tasks)
    order = [(task["name"], str(task["seed"]), task["inputs"]) for task in tasks]
    return [rows[key] for key in order if key in rows], sum(1 for key in order if key not in rows)


def keep_header(file):
    """Puts a table of other columns aside, so that rows and header agree."""
    if file.exists():
        with open(file, encoding="utf-8", newline="") as lines:
            if next(csv.reader(lines), None) not in (FIELDS, None):
                file.rename(file.with_suffix(".before.csv"))
