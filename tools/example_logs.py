#!/usr/bin/env python3
"""tools/example_logs.py PROGRAM CHECK REPORT TRACE

Writes what the gate compares of the examples, after a change of an example or of what a log says: in the crate test_told, which
checks, runs and judges them all, copies of their files, their logs, and the cases with the words and what is written. Beside each
example it draws its diagram.svg, and of some with_site.svg. PROGRAM is a built `junction`, and CHECK, REPORT and TRACE are a built
`junction_check`, `log_report` and `junction_trace`. It stops where a call fails, a log isn't safe, or something is found in the
files. Look at the difference before it is committed."""
import argparse
import shutil
import subprocess
import sys
from pathlib import Path

CRATES = Path(__file__).resolve().parent.parent / "crates"
EXAMPLES = CRATES / "junction" / "examples"
DATA = CRATES / "test_told" / "data"
TABLES = ["times.csv", "intergreens.csv"]

# The seconds of a diagram, where they are not the first hundred.
DRAWN = {"four_arms": (1, 60), "green_wave/west": (61, 175), "green_wave/east": (61, 175)}

# Whose diagram is drawn once more with what its site adds, since its stages have names.
SITED = ["left_turn"]

# What is told of the inside of some examples: form, example, and the words behind its files.
TRACED = [
    ("values", "left_turn", []),
    ("values", "coordinated", ["--to", "60"]),
    ("values", "four_arms", ["--from", "30", "--to", "60"]),
    ("how-ended", "left_turn", []),
    ("how-ended", "coordinated", ["--csv"]),
    ("lines", "left_turn", ["--csv"]),
    ("lines", "coordinated", ["--lcov"]),
    ("lines", "four_arms", ["--csv"]),
    ("lines", "left_turn", []),
    ("lines", "coordinated", []),
    ("lines", "four_arms", []),
    ("second", "left_turn", ["20"]),
    ("second", "coordinated", ["52"]),
    ("second", "four_arms", ["30"]),
    ("lines", "crossing_on_demand", ["--add", "left_turn/detectors.txt"]),
]

# A program that prints, which is no example, at the site of one.
SITE = [f"two_stages/{name}" for name in ["junction.pua", *TABLES]]
TRACING = ["trace", "trace", "tracing/tracing.vap", *SITE, "tracing/detectors.txt"]

# The forms whose first word is that of a program.
PROGRAMS = ["report", "trace"]


def call(program, words):
    done = subprocess.run([program, *words], cwd=DATA, stdout=subprocess.PIPE, stderr=subprocess.PIPE)
    if done.returncode != 0:
        sys.exit(f"{' '.join(words)}: status {done.returncode} {done.stderr.decode()}")
    return done.stdout


def calls_of(folder):
    """The words that check the files of the example of a folder, those that run it, and those that judge its log."""
    example = folder.relative_to(EXAMPLES)
    (code,) = folder.glob("*.vap")
    detectors = folder / "detectors.txt"
    if not detectors.exists():
        detectors = folder / "traffic.txt"
    site = [str(example / name) for name in ["junction.pua", *TABLES]]
    for name in [code.name, "junction.pua", *TABLES, detectors.name]:
        (DATA / example).mkdir(parents=True, exist_ok=True)
        shutil.copyfile(folder / name, DATA / example / name)
    words = [str(example / code.name), *site, str(example / detectors.name)]
    return ["check", *words], ["run", *words], ["audit", str(example / "log.txt"), *site]


def case(words, output, file=None):
    """The case of a call: its name, its words and what it writes, or the file that has this."""
    is_of_form = words[0] in PROGRAMS
    form, files = (words[:2], words[2:]) if is_of_form else (words[:1], words[1:])
    behind = files[5:] if words[0] == "trace" else []
    name = " ".join([f"example {files[0].rsplit('/', 1)[0]}:", *form, *behind])
    if any(line[:4] in (b"=== ", b"### ", b"--- ") for line in output.split(b"\n")):
        sys.exit(f"{name}: a line of what it writes begins as one of a case")
    wanted = f"same 0 {file}" if file else "out 0"
    return f"=== {name}\n--- words {' '.join(words)}\n--- {wanted}\n".encode() + (b"" if file else output)


def traced(runs, form, example, behind):
    """The words that tell of the inside of an example, of which `run` has the files."""
    (run,) = (run for run in runs if run[1].startswith(f"{example}/"))
    return ["trace", form, *run[1:], *behind]


def main():
    words = argparse.ArgumentParser(description=__doc__, formatter_class=argparse.RawDescriptionHelpFormatter)
    for name in ("PROGRAM", "CHECK", "REPORT", "TRACE"):
        words.add_argument(name.lower(), metavar=name)
    program, checker, reporter, tracer = (str(Path(word).resolve()) for word in vars(words.parse_args()).values())
    for folder in DATA.iterdir():
        if folder.is_dir() and folder.name != "tracing":
            shutil.rmtree(folder)
    runs, cases = [], []
    for plan in sorted(EXAMPLES.glob("**/junction.pua")):
        check, run, audit = calls_of(plan.parent)
        found = call(checker, check[1:])
        log = call(program, run)
        (DATA / audit[1]).write_bytes(log)
        verdict = call(program, audit)
        if not verdict.startswith(b"SAFE "):
            sys.exit(f"{audit[1]}: {verdict.decode()}")
        example = str(plan.parent.relative_to(EXAMPLES))
        first, last = DRAWN.get(example, (1, min(100, log.count(b"\n") - 1)))
        picture = call(reporter, ["diagram", audit[1], str(first), str(last)])
        (plan.parent / "diagram.svg").write_bytes(picture)
        if example in SITED:
            picture = call(reporter, ["diagram", audit[1], str(first), str(last), "--site", *run[2:5]])
            (plan.parent / "with_site.svg").write_bytes(picture)
        reports = [["report", "text", audit[1], "1", "40"], ["report", "sums", audit[1]]]
        runs.append(run)
        cases += [case(check, found), case(run, log, audit[1]), case(["calls", *run[1:], audit[1]], b""), case(audit, verdict)]
        cases += [case(words, call(reporter, words[1:])) for words in reports]
    traces = [traced(runs, *one) for one in TRACED] + [TRACING]
    cases += [case(words, call(tracer, words[1:])) for words in traces]
    (DATA / "examples.txt").write_bytes(b"".join(cases))


if __name__ == "__main__":
    main()
