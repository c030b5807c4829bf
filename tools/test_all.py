#!/usr/bin/env python3
"""tools/test_all.py [WHAT..] [--only CRATE..] [--cases WORD..] [--jobs N]

Runs every test of the repository without a proof, in some minutes, and tells how far each part is. WHAT is one or more of

  tests     the #[test] functions of all crates, in one crate that is made of them, by one `rt try --test`; --only: of these crates
  cases     the cases of test_told, whose output has to be that of its file `stdout`; --cases: these files of cases alone, or those
            whose names begin with NAME by a word =NAME, and what they tell is written
  programs  the same cases by the four programs, in some seconds, where they are built and as new as their sources
  scripts   tools/test.py: the scripts, the pages' links and rows, and the page in the browser, where its tools are there
  style     tools/style.py: what sources should not have
  pages     tools/check_pages.py: what the pages show, where the four programs are built and as new as their sources
  library   the library's tests, where the proved library and a built `junction` lie in out/ and the compilers are there

and all of them where none is named. What needs a tool that isn't there is told as skipped, and fails nothing. A part that takes more
than --minutes is ended with all that it started, and has failed. The last line says whether all passed, and the exit status is 0 where
they did. What it makes lies in a folder of its own that is removed; --keep FOLDER leaves it there."""
import argparse
import os
import re
import resource
import shutil
import signal
import sys
import tempfile
import threading
import time
from concurrent.futures import ThreadPoolExecutor
from pathlib import Path

from common import bounded
import install

TOP = Path(__file__).resolve().parent.parent
CRATES = TOP / "crates"

# A test may take so many seconds of the clock, on a busy machine too.
SECONDS = "900"

PARTS = ["tests", "cases", "programs", "scripts", "style", "pages", "library"]

# What `rt try` writes of itself below what the program wrote.
TOLD_BY_RT = re.compile(r"^(rt: |checked: |run=|interpreter: |races: |leaks: )")


class Failed(Exception):
    """A part did not pass, with what is to be said of it."""


class Skipped(Exception):
    """A part can't be run here, with what lacks."""


class Progress:
    """Says how far the parts are, one line each time."""

    def __init__(self):
        self.begun, self.lock = time.time(), threading.Lock()

    def say(self, part, text):
        with self.lock:
            print(f"{time.time() - self.begun:5.0f} s  {part}: {text}", flush=True)


def needs(*tools):
    lacking = [tool for tool in tools if not shutil.which(tool)]
    if lacking:
        raise Skipped(f"there is no {', no '.join(lacking)}")


def crates_in(text):
    """The crates of a crates.txt by name, each with what it stands on."""
    below = {}
    for line in text.splitlines():
        head, colon, rest = line.split("#")[0].partition(":")
        if colon:
            below[head.split()[0]] = rest.split()
    return below


def sources(folder):
    return sorted(folder.rglob("*.rt"))


def has_tests(folder):
    return any(re.search(r"^#\[test\]", file.read_text(encoding="utf-8"), re.M) for file in sources(folder / "src"))


def used_by_others(name, below, tested):
    """Whether a crate that stays names this one."""
    return any(name in deps for other, deps in below.items() if other not in tested)


def module_of(text, name, is_root):
    """A source file of a crate as one of a module of the crate that has all tests."""
    text = re.sub(r"\bcrate::", f"crate::{name}_tests::", text)
    if is_root:
        text = re.sub(r"^(//!.*|#!\[.*|#\[cfg\(test\)\])\n", "", text, flags=re.M)
    return text


def copy_sources(name, to):
    for part in ("src", "specs"):
        if (CRATES / name / part).exists():
            shutil.copytree(CRATES / name / part, to / name / part)


def make_crate(work, below, tested):
    """Writes to a folder the repository's sources with one crate more, all_tests, that has each tested crate as a module."""
    (work / "crates").mkdir(parents=True)
    stays = [name for name in below if name not in tested or used_by_others(name, below, tested)]
    for name in stays:
        copy_sources(name, work / "crates")
    src = work / "crates" / "all_tests" / "src"
    src.mkdir(parents=True)
    root, deps = "//! Each crate with tests as a module.\n#![tactic(auto)]\n", []
    for name in tested:
        root += f"#[cfg(test)]\nmod {name}_tests;\n"
        deps += [dep for dep in below[name] if dep not in deps]
        top = CRATES / name / "src"
        for file in sources(top):
            is_root = file == top / "lib.rt"
            to = src / f"{name}_tests.rt" if is_root else src / f"{name}_tests" / file.relative_to(top)
            to.parent.mkdir(parents=True, exist_ok=True)
            to.write_text(module_of(file.read_text(encoding="utf-8"), name, is_root), encoding="utf-8")
    (src / "lib.rt").write_text(root, encoding="utf-8")
    kept = [line for line in (TOP / "crates.txt").read_text(encoding="utf-8").splitlines() if set(crates_in(line)) & set(stays)]
    kept.append("all_tests tests_may=Threads: " + " ".join(deps))
    (work / "crates.txt").write_text("\n".join(kept) + "\n", encoding="utf-8")
    if (TOP / "HANDLES").exists():
        shutil.copy(TOP / "HANDLES", work)
    return work / "crates" / "all_tests"


def count_tests(folder):
    return sum(len(re.findall(r"^#\[test\]", file.read_text(encoding="utf-8"), re.M)) for file in sources(folder))


def run_tests(progress, calls, work, options):
    """All #[test] functions. Answers what passed."""
    needs("rt")
    below = crates_in((TOP / "crates.txt").read_text(encoding="utf-8"))
    tested = [name for name in below if has_tests(CRATES / name) and (not options.only or name in options.only)]
    if not tested:
        raise Failed("no crate of these has a test")
    folder = make_crate(work / "tests", below, tested)
    number = count_tests(folder / "src")
    progress.say("tests", f"{number} functions of {', '.join(tested)} are compiled")
    done = []

    def take(line):
        if re.match(r"^test \S+ \.\.\. ", line):
            done.append(line)
            is_well = line.endswith("... ok\n")
            if not is_well or len(done) % 20 == 0:
                progress.say("tests", f"{len(done)} of {number}" + ("" if is_well else f", {line.strip()}"))

    status, said, faults = calls.run(["rt", "try", "--test", "--seconds", SECONDS], take, cwd=folder)
    counted = re.search(r"^test result: ok\. (\d+) passed; 0 failed", said, re.M)
    if status != 0 or not counted:
        raise Failed(said[-5000:] + faults[-3000:])
    return f"{counted[1]} passed"


def told_alone(text):
    """What the program wrote, without the lines of `rt try`."""
    return "".join(line for line in text.splitlines(True) if not TOLD_BY_RT.match(line))


def first_difference(is_told, wanted):
    """The first line in which two texts differ, with both."""
    one, other = is_told.splitlines(), wanted.splitlines()
    for number in range(max(len(one), len(other))):
        pair = [lines[number] if number < len(lines) else "(the text ends)" for lines in (one, other)]
        if pair[0] != pair[1]:
            return f"line {number + 1}\n  is:     {pair[0]}\n  wanted: {pair[1]}"
    return ""


def run_cases(progress, calls, work, options):
    """The cases of whole calls. Answers what passed; where words name some of them, also what they told."""
    needs("rt")
    crate, words = CRATES / "test_told", options.cases
    asked = words or (crate / "args").read_text(encoding="utf-8").split("\n")[:-1]
    asked = [word if word.startswith("=") or word.endswith(".txt") else f"{word}.txt" for word in asked]
    files = [file.relative_to(crate / "data") for file in sorted((crate / "data").rglob("*")) if file.is_file()]
    data = [word for file in files for word in ("--data", f"{file}=data/{file}")]
    progress.say("cases", f"{len([word for word in asked if not word.startswith('=')])} files of cases are run")
    command = ["rt", "try", "--seconds", SECONDS, *data, "--", *asked]
    _, said, faults = calls.run(command, cwd=crate)
    told = told_alone(said)
    counted = re.search(r"^(\d+) passed, (\d+) failed\n\Z", told, re.M)
    if not counted:
        raise Failed(told[-2000:] + faults[-3000:])
    if words:
        print(told, end="", flush=True)
        if counted[2] != "0":
            raise Failed(f"{counted[2]} failed")
    else:
        wanted = (crate / "stdout").read_text(encoding="utf-8", errors="replace")
        if told != wanted:
            failed = "".join(f"{line}\n" for line in told.splitlines() if line.startswith("FAILED") and line not in wanted)
            (work / "told").write_text(told, encoding="utf-8")
            raise Failed(f"{failed}what it tells is not crates/test_told/stdout: {first_difference(told, wanted)}")
    return counted[0].strip() + ("" if words else ", as they must")


def built_programs(work):
    """A folder of the four programs, or what lacks. What is proved is taken first."""
    for is_proved in (True, False):
        lacking = [why for why in (install.why_not(name, is_proved) for name in install.PROGRAMS) if why]
        if not lacking:
            folder = work / "bin"
            folder.mkdir(exist_ok=True)
            for name in install.PROGRAMS:
                (folder / name).symlink_to(install.built(name, is_proved))
            return folder, ""
    return None, lacking[0]


def run_programs(progress, calls, _work, options):
    """The cases by built programs. Where they were asked for by name and can't be run, that is a failure."""
    folder, lacking = options.programs
    if not folder and "programs" in options.what:
        raise Failed(f"{lacking}: tools/build.py builds them")
    if not folder:
        raise Skipped(lacking)
    progress.say("programs", "the cases are run by built programs")
    status, said, faults = calls.run([sys.executable, "-B", TOP / "tools" / "try_cases.py", folder])
    if status != 0:
        raise Failed(said[-4000:] + faults[-2000:])
    return said.strip()


def run_scripts(progress, calls, _work, options):
    """The tests of the scripts and of the pages, with the programs where they are built."""
    folder, _ = options.programs
    programs = {"JUNCTION": "junction", "JUNCTION_CHECK": "junction_check", "LOG_REPORT": "log_report"} if folder else {}
    environment = {**{name: str(folder / program) for name, program in programs.items()}, **os.environ}
    words = [sys.executable, "-B", TOP / "tools" / "test.py", *(["--plain"] if options.plain else [])]
    told = lambda line: progress.say("scripts", line.strip()) if re.match(r" *\d+ s |skipped: |FAILED: ", line) else None
    status, said, faults = calls.run(words, told, env=environment)
    counted = re.search(r"^Ran \d+ tests in \d+ s: (.*)", said, re.M)
    if status != 0 or not counted:
        raise Failed(said[-6000:] + faults[-3000:])
    return counted[1]


def run_style(_progress, calls, _work, _options):
    """What the sources should not have."""
    status, said, faults = calls.run([sys.executable, "-B", TOP / "tools" / "style.py"])
    if status != 0:
        raise Failed(said + faults[-3000:])
    return "passed"


def run_pages(progress, calls, _work, options):
    """What the pages show."""
    needs("bash", "awk")
    folder, lacking = options.programs
    if not folder:
        raise Skipped(lacking)
    take = lambda line: progress.say("pages", line.rstrip()) if not line.endswith(", 0 wrong\n") else None
    status, said, faults = calls.run([sys.executable, "-B", TOP / "tools" / "check_pages.py", folder], take)
    if status != 0:
        raise Failed(faults[-3000:])
    return f"{said.count(', 0 wrong')} passed"


def run_library(progress, calls, _work, _options):
    """The tests of the library, if what they want is there."""
    needs("make", "cc", "valgrind", "rt")
    proved = [CRATES / "junction_c" / "out" / "libjunction_c.a", CRATES / "junction" / "out" / "junction"]
    lacking = [f"{file.relative_to(TOP)} (`rt lib` and `rt check` make it)" for file in proved if not file.exists()]
    if lacking:
        raise Skipped(f"there is no {', no '.join(lacking)}")
    progress.say("library", "make -C library test is run")
    status, said, faults = calls.run(["make", "-C", TOP / "library", "test", f"JUNCTION={proved[1]}"])
    if status != 0:
        raise Failed(said[-3000:] + faults[-3000:])
    return "passed"


RUNS = {
    "tests": run_tests, "cases": run_cases, "programs": run_programs, "scripts": run_scripts, "style": run_style, "pages": run_pages,
    "library": run_library,
}


def run_part(part, progress, calls, work, options):
    """Runs a part, tells how it ended, and answers whether it passed or was skipped."""
    begun = time.time()
    try:
        ended = RUNS[part](progress, calls, work, options)
    except Skipped as why:
        progress.say(part, f"skipped: {why}")
        return True
    except (Failed, bounded.Late, OSError) as why:
        progress.say(part, f"FAILED\n{why}")
        return False
    progress.say(part, f"{ended} ({time.time() - begun:.0f} s)")
    return True


def words_of():
    words = argparse.ArgumentParser(description=__doc__, formatter_class=argparse.RawDescriptionHelpFormatter)
    words.add_argument("what", metavar="WHAT", nargs="*", default=[])
    words.add_argument("--only", metavar="CRATE", nargs="+", default=[])
    words.add_argument("--cases", metavar="WORD", nargs="+", default=[])
    words.add_argument("--jobs", metavar="N", type=int, default=min(2, len(os.sched_getaffinity(0))), help="so many parts at once (2)")
    words.add_argument("--minutes", metavar="N", type=float, default=30, help="what one part may take (30)")
    words.add_argument("--plain", action="store_true", help="leave out scripts' tests that need more than Python and node")
    words.add_argument("--keep", metavar="FOLDER", help="make it here, and leave it")
    options = words.parse_args()
    if not set(options.what) <= set(PARTS):
        words.error(f"WHAT is one of {', '.join(PARTS)}")
    return options


def main():
    options = words_of()
    parts = options.what or (["tests"] if options.only else []) + (["cases"] if options.cases else []) or PARTS
    work = Path(options.keep or tempfile.mkdtemp(prefix="test_all_"))
    if options.keep:
        shutil.rmtree(work, ignore_errors=True)
        work.mkdir(parents=True)
    progress, calls = Progress(), bounded.Calls(options.minutes)
    for number in (signal.SIGTERM, signal.SIGINT):
        signal.signal(number, calls.end_all)
    try:
        options.programs = built_programs(work)
        with ThreadPoolExecutor(max(1, options.jobs)) as pool:
            passed = list(pool.map(lambda part: run_part(part, progress, calls, work, options), parts))
    finally:
        if not options.keep:
            shutil.rmtree(work, ignore_errors=True)
    failed = [part for part, is_well in zip(parts, passed) if not is_well]
    used = resource.getrusage(resource.RUSAGE_CHILDREN)
    took = f"{(time.time() - progress.begun) / 60:.1f} minutes ({(used.ru_utime + used.ru_stime) / 60:.1f} of a processor)"
    print(f"FAILED: {', '.join(failed)}, after {took}" if failed else f"all passed: {', '.join(parts)}, in {took}")
    sys.exit(1 if failed else 0)


if __name__ == "__main__":
    main()
