#!/usr/bin/env python3
"""tools/check_pages.py FOLDER

Runs what the pages show: README, CONTRIBUTING, those of docs/ and of the examples. FOLDER has the built programs junction,
junction_check, junction_trace and log_report, as tools/install.py lays them. Of each page

- an indented block that begins with PROGRAM is a program, and must compile;
- an indented block that begins with a command is run as it stands, all of a page in one shell, from the top of a copy of the
  repository, for the page of an example from crates/junction there. `rt try -- WORDS` and `rt run -- WORDS` are the program of
  the folder in which they stand; `# status N` behind a command tells how it ends;
- each line of any other indented block must be a line that these commands wrote, or the drawing of a group's aspects, with `.`
  for red;
- a fenced block that is named for a file is that file; any other fenced block is a form, or needs what isn't here, and is not
  run. Of a page whose commands all stand in fenced blocks `sh`, those that begin with a built program, with `sed` or with a
  variable are run.

No command may change a file of the repository. The log of each example is judged too, and must be safe. It prints a line for
each page, and ends with status 1 where one is wrong."""
import argparse
import os
import re
import shutil
import signal
import subprocess
import sys
import tempfile
from pathlib import Path

from common import bounded

ROOT = Path(__file__).resolve().parent.parent
JUNCTION = ROOT / "crates" / "junction"
PROGRAMS = ["junction", "junction_check", "junction_trace", "log_report"]
WORDS = ["rt", "cut", "tr", "tail", "awk", "cd", "grep", "head", "cat", "mkdir", "cmp", "python3", *PROGRAMS, r"tools/\S+"]
COMMAND = re.compile(rf"({'|'.join(WORDS)}) |[A-Z]+=")
DRAWING = re.compile(r"(\w+ )?(\w+) +([.UGA]+)")
STATUS = re.compile(r"(.*\S) +# status (\d+)")
# what the commands of one page may take
MINUTES = 15
COPIED = ["crates/*/examples", "crates/*/data", "tools", "docs"]
SHELL = 'set -e -o pipefail\nrt() { shift 2; "$FOLDER/$(basename "$PWD")" "$@"; }\n'


def parts_of(page):
    """The indented blocks of a page, without their indent, and its fenced blocks that are named for a file. An indented line
    that goes on a paragraph or an item belongs to that."""
    blocks, block, files, name, above = [], [], {}, None, ""
    for line in page.read_text(encoding="utf-8").split("\n") + ["end"]:
        if line.startswith("```"):
            name = line[3:].strip() if name is None else None
        elif name is not None:
            files.setdefault(name, []).append(line)
        elif line.startswith("    ") and (block or not above.strip()):
            block.append(line[4:])
            continue
        above = line
        if block:
            blocks.append(block)
            block = []
    return blocks, {name: lines for name, lines in files.items() if "." in name}


def fenced_commands(page):
    """The lines of the fenced `sh` blocks of a page that run a built program, or make what it reads."""
    begins = re.compile(rf"(?:{'|'.join(PROGRAMS)}|sed) |[A-Z]+=")
    text = page.read_text(encoding="utf-8")
    blocks = re.findall(r"^```sh\n(.*?)^```$", text, re.MULTILINE | re.DOTALL)
    return [line for block in blocks for line in block.split("\n") if begins.match(line)]


def command_of(line):
    """The line for the shell, which ends the page where the command ends otherwise than it is told."""
    found = STATUS.fullmatch(line)
    return f"if {found[1]}; then false; else [ $? = {found[2]} ]; fi" if found else line


def is_program(block):
    return block[0].startswith("PROGRAM ")


def is_command(block):
    return bool(COMMAND.match(block[0] + " "))


def compile_programs(programs, page, folder):
    """What is wrong with the programs that a page shows, and how many there are."""
    blocks = [block for block in parts_of(page)[0] if is_program(block)]
    wrong = []
    for block in blocks:
        file = folder / "shown.vap"
        file.write_text("\n".join(block) + "\n", encoding="utf-8")
        done = subprocess.run([programs / "junction", "compile", file], capture_output=True, text=True, stdin=subprocess.DEVNULL)
        if done.returncode != 0:
            wrong.append(f"{block[0]} {done.stderr.strip()}")
    return wrong, len(blocks)


def drawings_of(lines):
    """Of each group, by its name, its aspects from second 1 on in each of the logs among these lines, with `.` for red."""
    drawings, names = {}, []
    for line in lines:
        fields = line.split("|")
        if line.startswith("VAPLOG 1 "):
            names = line.split()[2:]
            for name in names:
                drawings.setdefault(name, []).append("")
        elif len(fields) == 6 and len(fields[2]) == len(names):
            for name, letter in zip(names, fields[2].replace("R", ".")):
                drawings[name][-1] += letter
    return drawings


def is_drawn(line, drawings):
    """Whether a line is the beginning of a drawing, or any part of one where a word for the junction stands before the group. A
    line of bars alone marks vehicles, and isn't looked at."""
    found = DRAWING.fullmatch(line)
    if not found:
        return set(line) == {" ", "|"}
    drawn = drawings.get(found[2], [])
    return any(found[3] in one if found[1] else one.startswith(found[3]) for one in drawn)


def copy_tree(folder):
    """A copy of what commands of pages read."""
    for pattern in COPIED:
        for source in ROOT.glob(pattern):
            shutil.copytree(source, folder / source.relative_to(ROOT), ignore=shutil.ignore_patterns("__pycache__"))


def changed_files(folder):
    """The files of the copy that are no longer those of the repository."""
    files = [file for pattern in COPIED for top in folder.glob(pattern) for file in top.rglob("*") if file.is_file()]
    pairs = [(file, ROOT / file.relative_to(folder)) for file in files]
    return [file.relative_to(folder) for file, own in pairs if own.is_file() and own.read_bytes() != file.read_bytes()]


def run_page(programs, page, folder):
    """What a page shows and its commands don't write, and how many lines it shows."""
    blocks, files = parts_of(page)
    commands = [block for block in blocks if is_command(block)]
    shown = [line for block in blocks if not is_command(block) and not is_program(block) for line in block]
    if shown and not commands:
        commands = [fenced_commands(page)]
    if not any(commands):
        return [f"no command writes: {line}" for line in shown], len(shown)
    tree, home = folder / "tree", folder / "home"
    home.mkdir()
    copy_tree(tree)
    start = tree / "crates" / "junction" if page.is_relative_to(JUNCTION) else tree
    for name, lines in files.items():
        (start / name).write_text("\n".join(lines) + "\n", encoding="utf-8")
    before = set(folder.rglob("*"))
    text = SHELL + "\n".join(command_of(line) for block in commands for line in block)
    words = {**os.environ, "FOLDER": str(programs), "HOME": str(home), "PATH": f"{programs}:{os.environ['PATH']}"}
    words["PYTHONDONTWRITEBYTECODE"] = "1"
    try:
        status, said, faults = bounded.Calls(MINUTES).run(["bash", "-c", text], cwd=start, env=words)
    except bounded.Late as late:
        return [str(late)], len(shown)
    if status != 0:
        return [f"status {status}: {faults.strip()}"], len(shown)
    written = said.split("\n") + faults.split("\n")
    for file in sorted(set(folder.rglob("*")) - before):
        if file.is_file():
            written += file.read_text(encoding="utf-8").split("\n")
    lines, drawings = set(written), drawings_of(written)
    wrong = [f"isn't written: {line}" for line in shown if line not in lines and not is_drawn(line, drawings)]
    return wrong + [f"a command changes {file}" for file in changed_files(tree)], len(shown) + len(commands)


def audit_run(programs, plan, folder):
    """What is wrong with the log of a junction's run, and how many seconds it has."""
    program = programs / "junction"
    [source] = plan.parent.glob("*.vap")
    [detectors] = [file for file in plan.parent.glob("*.txt") if file.name in ("detectors.txt", "traffic.txt")]
    site = [str(plan), str(plan.with_name("times.csv")), str(plan.with_name("intergreens.csv"))]
    log = folder / "run.log"
    with open(log, "wb") as out:
        subprocess.run([program, "run", str(source), *site, str(detectors)], stdout=out, check=True)
    seconds = log.read_bytes().count(b"\n") - 1
    audit = subprocess.run([program, "audit", str(log), *site], stdout=subprocess.PIPE, text=True, check=True).stdout
    verdict = audit.split("\n")[0]
    return [] if verdict == f"SAFE {seconds}" else [verdict], seconds


def check(page, act, programs, what):
    """Does this with a page or a plan in a folder of its own, and tells how it went."""
    with tempfile.TemporaryDirectory() as folder:
        wrong, count = act(programs, page, Path(folder))
    if wrong or count:
        print(f"{page.relative_to(ROOT)}: {count} {what}, {len(wrong)} wrong", flush=True)
    for line in wrong:
        print(f"    {line}")
    return not wrong


def main():
    words = argparse.ArgumentParser(description=__doc__, formatter_class=argparse.RawDescriptionHelpFormatter)
    words.add_argument("folder", metavar="FOLDER", type=Path)
    programs = words.parse_args().folder.resolve()
    signal.signal(signal.SIGTERM, bounded.leave)
    missing = [name for name in PROGRAMS if not (programs / name).is_file()]
    if missing:
        sys.exit(f"tools/check_pages.py: {programs} has no {', '.join(missing)}")
    pages = [ROOT / "README.md", ROOT / "CONTRIBUTING.md", *sorted((ROOT / "docs").glob("*.md"))]
    examples = sorted(JUNCTION.glob("examples/*.md")) + sorted(JUNCTION.glob("examples/*/README.md"))
    right = [check(page, compile_programs, programs, "programs") for page in pages]
    right += [check(page, run_page, programs, "lines and commands") for page in pages + examples]
    right += [check(plan, audit_run, programs, "seconds judged") for plan in sorted(JUNCTION.glob("examples/**/junction.pua"))]
    sys.exit(0 if all(right) else 1)


if __name__ == "__main__":
    main()
