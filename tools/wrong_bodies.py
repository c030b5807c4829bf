#!/usr/bin/env python3
"""tools/wrong_bodies.py [CRATE..] [--minutes N] [--only PATTERN] [--list | --figures] ..: tries wrong bodies, many in a run of the prover.

A wrong body is an edit that the prover must refuse. It lies in crates/NAME/must-fail/*.edit (the gate tries these too) or
crates/NAME/edits/*.edit (this script alone does), in the form that `rt help` gives. Where the crate is still proved with one, its
contract is too weak.

How it tries many at a time. Of a function with edits the crate gets copies beside it, with the same contract and the same proof
files, under names of their own: one as it is (the control) and one for each edit. The crate's own functions stay as they are, so
each copy is judged alone: it calls what is proved, and nothing calls it. One run of the prover judges all copies of a crate.
There is no control where the crate's own proved library lies there too, and the function has no proof files to be renamed.

What a copy comes to:
  refused    the control is proved, and of the copy an answer is refused or a goal is left open: `(false)` where the prover knows
             values at which the goal is false, `(open)` where it knows none
  weak       as refused, but the edit gives some goals other names, so that their answers had to be left out, and the prover knows
             no values at which what is left open is false: it may be true, and lack an answer. Where such an edit is to count,
             change a value in it and keep the names
  survived   the control and the copy are proved, and so is the crate with this edit alone in its place
  bad        the edit can't be applied, does not compile or can't be read
  unclear    it is known only that the crate is not proved: a proof file names what the edit takes away, say, or the prover met a
             limit of its own
What a copy cannot judge is tried in its place and alone: an edit of a method of a trait's impl, of a function that calls itself,
of a `main` or of what C calls, of a constant or a type, of a contract, of specs/ or proofs/, one of several functions, and any
whose control is not proved.

The libraries below must be proved already, and of these very sources: crates/NAME/out/rlib/NAME.rlib, as `rt ci` and `rt lib` leave
it, or --libraries; with --sources they are read as sources, and what is judged rests on their contracts alone. What the table has
with the same sum (of the edit, the crate, those below it and the kit) is not tried again, so a run that was cut off goes on.
The last line is `N refused, M survived, K not tried`, where bad and unclear ones count as not tried; the status is 1 where some survived.
"""
import argparse
import csv
import datetime
import hashlib
import os
import re
import subprocess
import sys
import threading
import time
from concurrent.futures import ThreadPoolExecutor

from proving.wrong_runs import BAD, REFUSED, SURVIVED, UNCLEAR, WEAK, Kit, crates_of
from proving.wrong_tries import Tries

FIELDS = ["crate", "edit", "verdict", "function", "goal", "how", "seconds", "day", "commit", "kit", "sum"]
TOP = os.path.dirname(os.path.dirname(os.path.abspath(__file__)))


def read_table(path):
    if not os.path.isfile(path):
        return {}
    with open(path, encoding="utf-8", newline="") as it:
        return {(row["crate"], row["edit"]): row for row in csv.DictReader(it)}


def write_table(path, rows):
    with open(f"{path}.new", "w", encoding="utf-8", newline="") as it:
        out = csv.DictWriter(it, FIELDS, lineterminator="\n")
        out.writeheader()
        out.writerows(rows[key] for key in sorted(rows))
    os.replace(f"{path}.new", path)


def commit_of(root):
    def git(*words):
        return subprocess.run(["git", "-C", root, *words], capture_output=True, text=True).stdout.strip()

    return git("rev-parse", "--short", "HEAD") + ("+" if git("status", "--porcelain", "--untracked-files=no", "--", "crates") else "")


def how_refused(row):
    """How a row of the table says that an edit was refused: by values, by an answer or by what is left open."""
    goals = row["goal"].split("; left out:")[0]
    if "(false)" in goals:
        return "false"
    return "open" if len(goals.split()) == 2 * goals.count("(open)") else "answer"


def figures_of(rows, edits):
    """Says what the table has of these edits, pairs of crate and name, in one sentence; docs/wrong-bodies.md has it."""
    here = [rows[it] for it in edits if it in rows]
    came = [row["verdict"] for row in here]
    how = [how_refused(row) for row in here if row["verdict"] == REFUSED]
    tried = sum(came.count(it) for it in (REFUSED, WEAK, SURVIVED))
    by = f"{how.count('answer')} by an answer, {how.count('false')} by values, {how.count('open')} by an open goal"
    rest = f"{came.count(WEAK)} weakly, {came.count(SURVIVED)} survived"
    return f"Of {len(edits)} edits {tried} were tried: {len(how)} refused ({by}), {rest}; {len(edits) - tried} were not."


def tell_figures(edits_of, kit, crates, rows):
    """Says what the table has, and how much of it rests on other sources than stand here."""
    print(figures_of(rows, [(crate.name, edit.name) for crate, edits in edits_of for edit in edits]))
    old = 0
    for crate, edits in edits_of:
        sums = sums_of(crate, edits, kit, crates)
        old += sum(1 for it in edits if (crate.name, it.name) in rows and rows[crate.name, it.name]["sum"] != sums[it.name])
    print(f"{old} of these rows rest on other sources than stand here")


def how_tried(edit):
    """How an edit would be tried."""
    if edit.why:
        return f"BAD: {edit.why}"
    edit.place()
    return f"alone: {edit.alone}" if edit.alone else "beside"


def list_edits(edits_of):
    """Says which edits apply, and how each would be tried."""
    for crate, edits in edits_of:
        for edit in edits:
            how = how_tried(edit)
            print(f"{crate.name}/{edit.name}: {edit.function.full() if edit.function else '-'}: {how}")


class Table:
    """What was tried, in a file, and what is known of the edits of this run."""

    def __init__(self, path, kit, root):
        self.path, self.kit, self.rows, self.known = path, kit, read_table(path), {}
        self.commit, self.day = commit_of(root), datetime.date.today().isoformat()
        self.alone = threading.Lock()

    def left(self, crate, edits, sums, is_anew):
        """The edits that are not known under their sum."""
        todo = []
        for edit in edits:
            row = self.rows.get((crate.name, edit.name))
            if row and row["sum"] == sums[edit.name] and not is_anew and row["verdict"] != UNCLEAR:
                self.known[crate.name, edit.name] = row["verdict"]
            else:
                todo.append(edit)
        return todo

    def keep(self, crate, todo, sums, tries):
        """Takes what the tries of a crate came to into the table, and says how many came to what."""
        with self.alone:
            for edit in todo:
                verdict = tries.results.get(edit.name)
                self.known[crate.name, edit.name] = verdict[0] if verdict else ""
                if verdict:
                    values = [crate.name, edit.name, *verdict[:4], f"{verdict[4]:.1f}", self.day, self.commit, self.kit.line, sums[edit.name]]
                    self.rows[crate.name, edit.name] = dict(zip(FIELDS, values))
            write_table(self.path, self.rows)
            came = [self.known[crate.name, edit.name] or "not tried" for edit in todo]
            told = ", ".join(f"{came.count(it)} {it}" for it in (REFUSED, WEAK, SURVIVED, BAD, UNCLEAR, "not tried") if it in came)
            print(f"{crate.name}: {len(todo)} edits in {tries.runs} runs, {tries.seconds:.0f} processor seconds: {told}", flush=True)

    def tell(self):
        """Says what needs a look, and how many there are of each. Returns how many survived."""
        for (crate, edit), verdict in sorted(self.known.items()):
            if verdict in (SURVIVED, WEAK, BAD, UNCLEAR):
                row = self.rows[crate, edit]
                print(f"{verdict.upper()}: {crate}/{edit}: {row['function']} {row['goal']}")
        came = list(self.known.values())
        count = lambda *these: sum(1 for it in came if it in these)
        print(f"of those refused {count(WEAK)} weakly; of those not tried {count(BAD)} bad, {count(UNCLEAR)} unclear")
        print(f"{count(REFUSED, WEAK)} refused, {count(SURVIVED)} survived, {count('', BAD, UNCLEAR)} not tried")
        return count(SURVIVED)


def words_of():
    words = argparse.ArgumentParser(description=__doc__, formatter_class=argparse.RawDescriptionHelpFormatter)
    add = words.add_argument
    add("crates", nargs="*", metavar="CRATE", help="the crates to try (all with edits)")
    add("--root", default=TOP, help="the top of the repository")
    add("--libraries", action="append", default=[], metavar="FOLDER", help="a folder of proved libraries, NAME.rlib")
    add("--sources", action="store_true", help="read the libraries below as sources, where they are not proved yet")
    add("--table", default=os.path.join(TOP, "docs", "wrong_bodies.csv"), help="the table of what was tried (docs/wrong_bodies.csv)")
    add("--work", default=os.path.join(TOP, "out", "wrong_bodies"), help="where copies of the crates and their kept work go")
    add("--minutes", type=float, default=0, help="begin nothing after so long; the crates tried longest ago come first")
    add("--jobs", type=int, default=1, help="crates at a time")
    add("--prover-jobs", type=int, default=1, help="the prover's own jobs in a run of many edits")
    add("--most", type=int, default=60, help="edits in one run at most")
    add("--nice", type=int, default=15)
    add("--anew", action="store_true", help="try also what was tried and has not changed")
    add("--one-by-one", action="store_true", help="try each edit alone in its place, as rt must-fail does")
    add("--only", default="", metavar="PATTERN", help="the edits in whose crate/name this regular expression is found")
    add("--list", action="store_true", help="try nothing: say which edits apply, and how each would be tried")
    add("--figures", action="store_true", help="try nothing: count what the table has")
    add("--verbose", action="store_true")
    return words.parse_args()


def sums_of(crate, edits, kit, crates):
    """The sums by which rows of a crate's edits hold: of the edit, the crate, those below it and the kit."""
    total = crate.sum(kit, crates)
    return {it.name: hashlib.sha256((total + it.text).encode()).hexdigest()[:16] for it in edits}


def tasks_of(edits_of, kit, table, crates, options):
    """The crates with edits to be tried, those tried longest ago first."""
    tasks = []
    for crate, edits in edits_of:
        sums = sums_of(crate, edits, kit, crates)
        todo = table.left(crate, edits, sums, options.anew)
        lacks = kit.words(crate)[1]
        if todo and lacks:
            print(f"{crate.name}: {len(todo)} not tried: there is no proved library {lacks}")
            table.known.update({(crate.name, it.name): "" for it in todo})
        elif todo:
            oldest = min(table.rows.get((crate.name, it.name), {}).get("day", "") for it in todo)
            tasks.append((oldest, crate, todo, sums))
    return sorted(tasks, key=lambda it: it[0])


def main():
    options = words_of()
    root, options.work = os.path.abspath(options.root), os.path.abspath(options.work)
    crates = crates_of(root)
    kit = Kit(crates, [os.path.abspath(it) for it in options.libraries], options.sources)
    unknown = [it for it in options.crates if it not in crates]
    if unknown:
        sys.exit(f"{unknown[0]} is no crate of crates.txt")
    asked = [crates[it] for it in options.crates] if options.crates else list(crates.values())
    edits_of = [(it, [edit for edit in it.edits() if re.search(options.only, f"{it.name}/{edit.name}")]) for it in asked]
    edits_of = [(crate, edits) for crate, edits in edits_of if edits]
    if options.list:
        list_edits(edits_of)
        return 0
    if options.figures:
        tell_figures(edits_of, kit, crates, read_table(options.table))
        return 0
    table = Table(options.table, kit, root)
    tasks = tasks_of(edits_of, kit, table, crates, options)
    until = time.monotonic() + (options.minutes * 60 if options.minutes else 10**9)

    def one(task):
        _, crate, todo, sums = task
        tries = Tries(crate, kit, options)
        if time.monotonic() < until:
            tries.all(todo, until)
        table.keep(crate, todo, sums, tries)

    with ThreadPoolExecutor(options.jobs) as pool:
        list(pool.map(one, tasks))
    return 1 if table.tell() else 0


if __name__ == "__main__":
    sys.exit(main())
