#!/usr/bin/env python3
"""Makes the proofs of crates shorter, and weakens nothing.

  tools/shorten.py --copy DIR [--libs DIR] [--state DIR] [--minutes N] [--rounds LIST] [--no-margin] [--no-base] [--no-anew]
                   CRATE..

It works on DIR, a clone of the repository, and there on the files crates/CRATE/proofs/**/Answers.antt alone. Contracts,
specs, invariants, files of lemmas and sources are never written. All answers of a crate are tried in one check a round:

  none      every answer is left out; those whose goal the checker then leaves open come back, and so do all of a function whose
            proof takes more than a second longer without them: a goal that is searched for is paid in each later check, in each
            seed and in each edit. A file with none left goes
  clauses   of an answer `record { a = ..; b = .. }` each field is left out whose clause the checker closes by itself
  tactics   each remaining answer of two lines or more is tried as one call of a tactic, with the lemmas that it cites

The checker tries with --margin, which halves its own limits, so that what stays out is not out by a hair. Then it drops
unused imports, and the crate is checked whole, from nothing, without --margin; where a function is not proved its file is put
back, and the crate is checked again. Files that an edit of must-fail/ names are left as they are, and those of functions that
are read with --test alone. Read the difference, and keep what teaches; then prove the crate and try its edits.

  --copy DIR      the clone that is worked on; it is changed
  --libs DIR      a folder with NAME/out/rlib/NAME.rlib of each crate below (default: DIR/crates, as rt lib leaves them)
  --kit DIR       the kit (default: the folder above the program `rattle`)
  --state DIR     where it keeps what it found, so that a later run goes on (default: DIR/../shorten-state)
  --minutes N     begins no check after N minutes; a later run goes on
  --rounds LIST   of none,clauses,tactics (default: all)
  --no-margin     tries with the checker's own limits
  --no-base       does not time the crate as it stood; then an answer stays where its function takes more than a second
  --no-anew       ends with a whole check over what the rounds kept, and not with one from nothing
  --nice N        (default 15)

For each crate it prints the lines and the seconds of processor time of a whole check, before and after. One checker runs at
a time. Exit status: 0, or 3 where the minutes were over."""
import argparse
import json
import os
import re
import shutil
import subprocess
import sys
import time
from pathlib import Path

from proving.answers import Block, blocks_at, fields_of, is_wanted, names, needed, parse, render, with_imports
from proving.shorten_checks import Checks, OutOfTime, dear_functions

class Crate(Checks):
    def __init__(self, args, name):
        self.args, self.name = args, name
        self.folder = Path(args.copy) / "crates" / name
        self.state_file = Path(args.state) / f"{name}.json"
        self.kept = Path(args.state) / f"{name}.kept"
        named = set()
        for edit in self.folder.glob("must-fail/*.edit"):
            lines = edit.read_text(encoding="utf-8").split("\n")
            named |= {line[6:].strip() for line in lines if line.startswith("file: ")}
        self.files = {}
        for file in sorted(self.folder.glob("proofs/**/Answers.antt")):
            self.files[str(file.relative_to(self.folder))] = None
        if self.state_file.exists():
            self.state = json.loads(self.state_file.read_text())
            self.files = dict.fromkeys(self.state["was"])
        else:
            was = {path: (self.folder / path).read_text(encoding="utf-8") for path in self.files if path not in named}
            lines = sum(len(it.read_text(encoding="utf-8").split("\n")) - 1 for it in self.folder.glob("proofs/**/*.antt"))
            self.state = {"was": was, "now": dict(was), "lines": lines, "done": [], "accepted": False, "log": [], "spent": 0}
        self.save()

    def save(self):
        self.state_file.parent.mkdir(parents=True, exist_ok=True)
        self.state_file.write_text(json.dumps(self.state, ensure_ascii=False, indent=1))

    # --- rounds

    def round_none(self):
        self.put(dict.fromkeys(self.state["now"]))
        status, said, _ = self.check(*self.margin())
        goals = self.open_goals(said)
        bad = {path for function in self.unproved(said) for path in self.files_of(function)}
        dear = dear_functions(self.state.get("seconds", {}), self.seconds)
        too_dear = {path for function in dear for path in self.files_of(function)}
        seen = set(re.findall(r"^fn (\S+): ", said, re.M))
        dropped = kept = 0
        for path, text in self.state["now"].items():
            # (the answers of a test's function are read with --test alone, so nothing is known of them)
            parts = path.split("/")[1:-1]
            own = "::".join([self.name, *(it for it in parts if not it.startswith("+"))])
            within = any(it.startswith("+") for it in parts) and any(it.startswith(own + "::") for it in seen)
            if text is None or not (own in seen or within):
                continue
            head, blocks = parse(text)
            wanted = goals.get(path, set())
            if path in too_dear:
                kept += sum(1 for it in blocks if it.goal)
                continue
            if not wanted and path not in bad:
                dropped += sum(1 for it in blocks if it.goal)
                self.state["now"][path] = None
                continue
            if not wanted:
                kept += sum(1 for it in blocks if it.goal)
                continue
            stays = [it for it in blocks if it.goal is None or is_wanted(it.goal, wanted)]
            gone = [it.goal for it in blocks if it not in stays]
            dropped, kept = dropped + len(gone), kept + sum(1 for it in stays if it.goal)
            if gone:
                self.state["now"][path] = render(head, needed(stays))
        self.state["log"].append(f"none: {dropped} answers dropped, {kept} kept")

    def round_clauses(self):
        texts, tried = {}, {}
        for path, text in self.state["now"].items():
            if text is None:
                continue
            head, blocks = parse(text)
            for at, block in enumerate(blocks):
                split = block.goal and "-clause-" not in block.goal and fields_of(block)
                if not split or not block.head():
                    continue
                tried.setdefault(path, []).append(block.goal)
            if path in tried:
                stays = [it for it in blocks if it.goal not in tried[path]]
                texts[path] = render(head, needed(stays)) if any(it.goal for it in stays) else None
        if not tried:
            return
        self.put(texts)
        status, said, _ = self.check(*self.margin())
        goals = self.open_goals(said)
        now, won = {}, 0
        for path, names in tried.items():
            head, blocks = parse(self.state["now"][path])
            made, wanted = [], goals.get(path, set())
            for block in blocks:
                if block.goal not in names:
                    made.append(block)
                    continue
                before, fields = fields_of(block)
                prefix = block.goal + "-clause-"
                needs = [it for it in fields if prefix + it[0] in wanted]
                if not needs or block.goal in wanted:
                    made.append(block)
                    continue
                args = block.head().split(" ", 1)[1]
                lines = []
                for field, value in needs:
                    name = prefix + field
                    top = [f"pub {name} : goal.{name}", *block.unfolding]
                    value = value.strip()
                    body = "\n    " + before.strip() + "\n    " + value if before.strip() else " " + value
                    lines.append("\n".join([*top, f"{name} {args} =" + body]))
                if sum(it.count("\n") + 2 for it in lines) < len(block.text().split("\n")) + 1:
                    made.append(Block("\n\n".join(lines).split("\n")))
                    won += 1
                else:
                    made.append(block)
            now[path] = render(head, needed(made))
        self.trial(now, f"clauses: {len(tried)} files tried, {won} answers split")

    def round_tactics(self):
        for number in range(3):
            if f"tactics {number}" in self.state["done"]:
                continue
            now, count = {}, 0
            for path, text in self.state["now"].items():
                if text is None:
                    continue
                head, blocks = parse(text)
                made = []
                for block in blocks:
                    call = block.goal and block.head() and block.equations() == 1 and self.call_for(block, head, number)
                    if call:
                        lines = [it for it in block.lines if it.startswith("--")]
                        lines += [f"pub {block.name} : goal.{block.goal}", *block.unfolding, f"{block.head()} = {call}"]
                        if len(lines) < block.body_lines():
                            made.append("\n".join(lines))
                            count += 1
                            continue
                    made.append(block)
                if any(isinstance(it, str) for it in made):
                    made = [it if isinstance(it, Block) else Block(it.split("\n")) for it in made]
                    now[path] = render(with_imports(head), needed(made))
            if count:
                self.trial(now, f"tactics {number}: {count} answers tried")
            self.mark(f"tactics {number}")

    def call_for(self, block, head, number):
        """One call of a tactic for an answer: the lemmas that it cites by bare name go in the list."""
        if block.body_lines() < 3 + len(block.unfolding):
            return None
        mine, std = [], []
        for line in "\n".join(head).replace("\n", " ").split("use ")[1:]:
            found = re.match(r"(\S+)\.\{(.*)\}", line)
            if found and ".specs" not in found[1] and ".Goals" not in found[1]:
                imported = [it.strip() for it in found[2].split(",")]
                for name in imported:
                    if re.fullmatch(r"[a-z][\w-]*", name) and names("\n".join(block.lines[1:]), name):
                        (std if found[1].endswith("proofs.Common") else mine).append(name)
        std_words = {"rules", "arith", "refl", "sym", "ap", "subst", "common_steps", "absurd", "tt"}
        lemmas = [it for it in mine if it not in std_words]
        call = [f"grind ({', '.join(['arith', 'common_steps', *lemmas])})",
                f"search ({', '.join(['rules', *lemmas])})", "cc"][number]
        return call if len(call) < 110 else None

    def trial(self, now, what):
        """Keeps of the new texts those blocks that the checker takes, by one check or a few."""
        now = {path: text for path, text in now.items() if text != self.state["now"].get(path)}
        if not now:
            return
        was = {path: self.state["now"][path] for path in now}
        self.put(self.state["now"])
        for turn in range(4):
            self.put(now)
            status, said, _ = self.check(*self.margin())
            bad = {path for function in self.unproved(said) for path in self.files_of(function)}
            spots = self.refused(said)
            goals = self.open_goals(said)
            bad |= {it for it in spots if it in now} | {it for it, wanted in goals.items() if wanted and it in now}
            bad &= set(now)
            if not bad:
                break
            for path in bad:
                old = {it.goal: it for it in parse(was[path])[1] if it.goal}
                head, blocks = parse(now[path])
                hit = blocks_at(now[path], spots.get(path, set()))
                open_here = goals.get(path, set())
                hit |= {it.goal for it in blocks if it.goal and any(is_wanted(it.goal, {goal}) for goal in open_here)}
                changed = [it for it in blocks if it.goal and it.goal in old and it.text() != old[it.goal].text()]
                reverts = {it.goal for it in changed if it.goal in hit}
                if turn < 2 and reverts and len(reverts) < len(changed):
                    whole = parse(was[path])
                    made = [old[it.goal] if it.goal in reverts else it for it in blocks]
                    have = {it.name for it in made}
                    lemmas = [it for it in whole[1] if it.goal is None and it.name not in have]
                    now[path] = render(with_imports(whole[0]), needed(lemmas + made))
                else:
                    now[path] = was[path]
        else:
            now = {path: was[path] for path in now} if bad else now
        won = sum(1 for path in now if now[path] != was[path])
        self.state["now"].update(now)
        self.state["log"].append(f"{what}, {won} files taken")
        self.put(self.state["now"])

    def settle(self):
        """Checks, and puts back the file of each function that is not proved, until all is proved."""
        for turn in range(4):
            self.put(self.state["now"])
            status, said, _ = self.check("--fix-imports")
            if status == 0 and "logic=proved" in said:
                self.state["accepted"], self.state["verdict"] = True, said.strip().split("\n")[-1]
                return
            bad = {path for function in self.unproved(said) for path in self.files_of(function)}
            bad |= {it for it in self.refused(said)}
            bad = {it for it in bad if self.state["now"].get(it) != self.state["was"].get(it)}
            bad = bad or {it for it in self.state["now"]} if turn < 3 else {it for it in self.state["now"]}
            for path in bad:
                if path in self.state["was"]:
                    self.state["now"][path] = self.state["was"][path]
            self.state["log"].append(f"put back: {', '.join(sorted(bad))[:400]}")
        self.put(self.state["now"])

    def finish(self):
        self.state["accepted"] = False
        self.settle()
        for path in self.state["now"]:
            file = self.folder / path
            self.state["now"][path] = file.read_text(encoding="utf-8") if file.exists() else None
        # (the checker may drop imports of any file of proofs; only files of answers are to change)
        others = [f"crates/{self.name}/{it}" for it in ("src", "specs") if (self.folder / it).is_dir()]
        subprocess.run(["git", "checkout", "-q", "HEAD", "--", *others], cwd=self.args.copy)
        if self.args.no_anew:
            return
        status, said, took = self.check(keeps=False)
        self.state["after"] = took if status == 0 else None
        self.state["accepted"] = status == 0 and "logic=proved" in said
        self.state["verdict"] = said.strip().split("\n")[-1]

    def work(self):
        rounds = [it for it in self.args.rounds.split(",") if it]
        if not self.state["was"]:
            print(f"{self.name}: no file of answers")
            return
        if not self.args.no_base and "base" not in self.state["done"]:
            self.put(self.state["was"])
            status, said, took = self.check(keeps=False)
            if status:
                print(f"{self.name}: not proved as it stands, so nothing is tried")
                return
            self.state["before"], self.state["seconds"] = took, self.seconds
            self.mark("base")
        for name in rounds:
            if name not in self.state["done"]:
                self.put(self.state["now"])
                getattr(self, f"round_{name}")()
                self.mark(name)
                self.report(name)
        if "finish" not in self.state["done"]:
            self.finish()
            self.mark("finish")
        self.report("whole check")

    def mark(self, what):
        self.state["done"].append(what)
        self.save()

    def report(self, what):
        was = sum(it.count("\n") for it in self.state["was"].values())
        now = sum(it.count("\n") for it in self.state["now"].values() if it)
        files = sum(1 for it in self.state["now"].values() if it)
        print(f"{self.name}: after {what}: lines of answers {was} -> {now}, "
              f"of all proofs {self.state['lines']} -> {self.state['lines'] - was + now}; "
              f"files {len(self.state['was'])} -> {files}; spent {self.state['spent']:.0f} s; "
              f"accepted: {self.state['accepted']}; whole check {self.state.get('before')} -> {self.state.get('after')} s; "
              f"{self.state['log'][-1:]}", flush=True)


def main():
    if any(it in ("-h", "--help") for it in sys.argv[1:]):
        print(__doc__)
        return 0
    words = argparse.ArgumentParser(usage=__doc__)
    words.add_argument("crates", nargs="+")
    words.add_argument("--copy", required=True)
    words.add_argument("--libs")
    words.add_argument("--kit")
    words.add_argument("--state")
    words.add_argument("--minutes", type=float)
    words.add_argument("--rounds", default="none,clauses,tactics")
    words.add_argument("--no-margin", action="store_true")
    words.add_argument("--no-base", action="store_true")
    words.add_argument("--no-anew", action="store_true")
    words.add_argument("--nice", type=int, default=15)
    args = words.parse_args()
    args.copy = os.path.abspath(args.copy)
    args.libs = os.path.abspath(args.libs or f"{args.copy}/crates")
    args.state = os.path.abspath(args.state or f"{args.copy}/../shorten-state")
    args.kit = args.kit or os.path.dirname(os.path.dirname(os.path.realpath(shutil.which("rattle") or "rattle")))
    if args.minutes:
        Checks.end = time.time() + 60 * args.minutes
    for name in args.crates:
        crate = Crate(args, name)
        try:
            crate.work()
        except OutOfTime:
            crate.put(crate.state["now"])
            crate.save()
            print(f"{name}: the time is over; run it again to go on")
            return 3
        crate.save()
    return 0


if __name__ == "__main__":
    sys.exit(main())
