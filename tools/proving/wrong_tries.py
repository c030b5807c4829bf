"""Tries of the wrong bodies of one crate, many in one run of the prover."""
import os
import re
import shutil
import subprocess
import sys
import time

from proving.wrong_edits import PARTS
from proving.wrong_runs import BAD, NAMES_GONE, REFUSED, SURVIVED, TAKEN_AWAY, UNCLEAR, WEAK, Run

# What is said of a declaration that stands on a refused one.
PASSED_ON = re.compile(r"\A\d+ declarations? that depends? on ")
LIMIT = re.compile(r"antt ran out of|outgrew the memory limit|stopped at the step limit")


def without(text, names):
    """Returns a proof file without the answers of these names, or nothing where it has no other."""
    out, inside = [], None
    for line in text.split("\n"):
        head = re.match(r"(?:abbrev )?pub (\S+)\s*:", line)
        if head:
            inside = head[1] if head[1] in names else None
        elif inside and line and not line[0].isspace() and not line.startswith((f"{inside} ", "unfolding", ")", "}")):
            inside = None
        if not inside:
            out.append(line)
    return "\n".join(out) if not names or any(re.match(r"(?:abbrev )?pub ", it) for it in out) else ""


def linked(folder, to):
    """Copies kept work by links: the prover replaces such files, and changes none."""

    def copy(one, other):
        try:
            return os.link(one, other) if one.endswith(".oantt") else shutil.copy2(one, other)
        except OSError:
            return shutil.copy2(one, other)

    shutil.copytree(folder, to, copy_function=copy)


def stands_in(place, lines):
    """Whether a place of an error, a file, a line and what is said, stands in these lines of a file."""
    return place[0] == lines[0] and lines[1] <= place[1] <= lines[2]


class Tries:
    """The edits of one crate, in as few runs as serve."""

    def __init__(self, crate, kit, options):
        self.crate, self.kit, self.options = crate, kit, options
        self.room = os.path.join(options.work, crate.name)
        self.kept = os.path.join(self.room, "kept")
        self.words, _ = kit.words(crate)
        self.results, self.seconds, self.runs = {}, 0.0, 0

    def copy_with(self, texts):
        """Makes a copy of the crate with these texts in place of its own. Returns its folder."""
        copy = os.path.join(self.room, "copy")
        shutil.rmtree(copy, ignore_errors=True)
        for part in PARTS:
            if os.path.isdir(f"{self.crate.folder}/{part}"):
                shutil.copytree(f"{self.crate.folder}/{part}", f"{copy}/{part}")
        for path, text in texts.items():
            if text is None:
                os.remove(f"{copy}/{path}")
                continue
            os.makedirs(os.path.dirname(f"{copy}/{path}"), exist_ok=True)
            with open(f"{copy}/{path}", "w", encoding="utf-8") as it:
                it.write(text)
        return copy

    def check(self, texts, kept, flags=()):
        """Checks a copy of the crate with these texts in place of its own, over kept work."""
        copy = self.copy_with(texts)
        words = [*self.words, *(["--incremental", kept] if kept else []), *flags]
        with open(f"{self.room}/said", "w+", encoding="utf-8", errors="replace") as out:
            how = {"stdin": subprocess.DEVNULL, "stdout": out, "stderr": subprocess.STDOUT}
            ran = subprocess.Popen(["nice", "-n", str(self.options.nice), *words], cwd=copy, **how)
            _, status, used = os.wait4(ran.pid, 0)
            ran.returncode = os.waitstatus_to_exitcode(status)
            out.seek(0)
            text = out.read()
        seconds = used.ru_utime + used.ru_stime
        self.seconds, self.runs = self.seconds + seconds, self.runs + 1
        shutil.copy(f"{self.room}/said", f"{self.room}/said.{self.runs}")
        self.say(f"run {self.runs}, {seconds:.1f} processor seconds, status {ran.returncode}")
        return Run(ran.returncode, text, seconds)

    def say(self, text):
        if self.options.verbose:
            print(f"  {self.crate.name}: {text}", flush=True)

    def told(self, edit, verdict, function, goal, how, seconds):
        self.results[edit.name] = (verdict, function, goal, how, seconds)
        self.say(f"{edit.name}: {verdict} {function} {goal} ({how})")

    def copies(self, groups):
        """Returns the crate's texts with a control and a copy for each edit of these functions, and where each edit's copy stands."""
        texts, names, lines = {}, {}, {}
        for path in {function.path for function, _ in groups}:
            text, out, at = self.crate.text(path), [], 0
            for function, edits in sorted(((f, e) for f, e in groups if f.path == path), key=lambda it: it[0].end):
                out.append(text[at : function.end])
                at = function.end
                for number, edit in enumerate([None, *edits]):
                    if not edit and not self.wants_control(function):
                        continue
                    name = f"{function.name}_wrong{number}" if number else f"{function.name}_as_is"
                    body = edit.body if edit else text[function.start : function.end]
                    body = re.sub(rf"\bfn {function.name}\b", f"fn {name}", body, count=1)
                    # (a copy calls into the cycle, and nothing in the cycle calls it)
                    body = re.sub(r"#\[cycle\([^)]*\)\]\s*", "", body)
                    line = "".join(out).count("\n") + 3
                    out.append(f"\n\n{body}")
                    key = edit.name if edit else (path, function.start)
                    names[key], lines[key] = function.full(name), (path, line, line + body.count("\n"))
                    texts.update(self.proofs(function, name, edit.dropped if edit else ()))
            texts[path] = "".join(out) + text[at:]
        return texts, names, lines

    def wants_control(self, function):
        """Whether a copy as it is says more than that the crate is proved: where proof files are renamed, or a cycle of calls is left."""
        path = function.full().replace("::", "/")
        has_files = any(os.path.isdir(f"{self.crate.folder}/proofs/{it}") for it in (path, f"{os.path.dirname(path)}/fn/{function.name}"))
        text = self.crate.text(function.path)[function.start : function.end]
        return has_files or "#[cycle" in text or not self.kit.library(self.crate, self.crate.name)

    def is_as_proved(self, ran, function, names):
        """Whether the copy as it is was proved; where none is wanted the crate's own proof has said so."""
        control = names.get((function.path, function.start))
        return control is None or ran.judged(self.crate.name, control)[0] == SURVIVED

    def proofs(self, function, name, dropped):
        """Returns the copies of the function's proof files under another name, without these answers."""
        texts = {}
        was, new = function.full().split("::"), function.full(name).split("::")
        stem = ".".join(["proofs", *was[:-1]])
        for between in ([], ["fn"]):
            one = "/".join(["proofs", *was[:-1], *between, was[-1]])
            other = "/".join(["proofs", *new[:-1], *between, new[-1]])
            for at, _, files in os.walk(f"{self.crate.folder}/{one}"):
                for file in files:
                    path = os.path.relpath(f"{at}/{file}", self.crate.folder)
                    text = self.crate.text(path)
                    for gap in (".", ".fn."):
                        text = re.sub(rf"\b{re.escape(stem + gap + was[-1])}(?=[.\s])", stem + gap + new[-1], text)
                    text = without(text, dropped)
                    if text or one == other:
                        texts[other + path[len(one) :]] = text or None
        return texts

    def gone(self, ran, full):
        """Returns the answers of a function whose goals are gone."""
        folder = f"proofs/{full.replace('::', '/')}/"
        here = [it[2] for it in ran.errors() if it[0].startswith(folder) and NAMES_GONE.search(it[2])]
        return {it[1] for it in (re.match(r"`([^`]*)`: ", said) for said in here) if it}

    def beside(self, edits):
        """Tries edits as copies beside their functions, and returns those to be tried alone."""
        left, alone = list(edits), []
        while left:
            groups = {}
            for edit in left:
                groups.setdefault((edit.function.path, edit.function.start), (edit.function, []))[1].append(edit)
            texts, names, lines = self.copies(list(groups.values()))
            flags = ["--jobs", str(self.options.prover_jobs), *(word for name in names.values() for word in ("--only", name))]
            ran = self.check(texts, self.kept, flags)
            if ran.status not in (0, 1, 3):
                # (killed, most likely for memory)
                half = len(left) // 2
                return alone + (left if half == 0 else self.beside(left[:half]) + self.beside(left[half:]))
            if not ran.did_not_compile():
                left = self.sort_out(ran, left, names, lines, alone)
                continue
            # (without the copies that do not compile)
            hit = [it for it in left if any(stands_in(place, lines[it.name]) for place in ran.errors())]
            if not hit:
                print(f"{self.crate.name}: the copies do not compile: {ran.text[:300]}", file=sys.stderr)
                return alone + left
            alone += hit
            left = [it for it in left if it not in hit]
        return alone

    def sort_out(self, ran, left, names, lines, alone):
        """Tells of the edits of a run, adds those to be tried alone, and returns those to be tried again without some answers."""
        share, again = ran.seconds / len(left), []
        for edit in left:
            full, gone = edit.function.full(), self.gone(ran, names[edit.name]) - edit.dropped
            verdict, goal = ran.judged(self.crate.name, names[edit.name], lines[edit.name])
            if not self.is_as_proved(ran, edit.function, names):
                alone.append(edit)
            elif gone:
                edit.dropped |= gone
                again.append(edit)
            elif verdict == REFUSED and edit.dropped:
                known = REFUSED if "(false)" in goal else WEAK
                self.told(edit, known, full, f"{goal}; left out: {' '.join(sorted(edit.dropped))}", "beside", share)
            elif verdict == REFUSED or TAKEN_AWAY in goal:
                self.told(edit, verdict, full, goal, "beside", share)
            else:
                alone.append(edit)
        return again

    def in_place(self, edit, only=()):
        """Tries one edit alone, in its place: as it is in the whole crate, or of these functions, where a refusal of its own counts."""
        over = os.path.join(self.room, "over")
        shutil.rmtree(over, ignore_errors=True)
        if os.path.isdir(self.kept):
            linked(self.kept, over)
        texts = dict(edit.texts)
        if edit.dropped:
            texts.update(self.proofs(edit.function, edit.function.name, edit.dropped))
        ran = self.check(texts, over, ["--jobs", "1", *(word for name in only for word in ("--only", name))])
        shutil.rmtree(over, ignore_errors=True)
        verdict, full, goal = self.judged_in_place(edit, ran)
        if not only or verdict in (REFUSED, WEAK, BAD):
            self.told(edit, verdict, full, goal, "alone", ran.seconds)

    def alone_in_functions(self, edits):
        """Tries edits in their places, each with its function alone where that is proved as it stands. Returns the others."""
        functions = sorted({it.function.full() for it in edits if it.function})
        proved = functions if self.kit.library(self.crate, self.crate.name) else []
        if len(functions) > len(proved) or len(edits) > 1 and functions:
            # (what they call is proved once, and kept)
            ran = self.check({}, self.kept, ["--jobs", "1", *(word for name in functions for word in ("--only", name))])
            proved = [it for it in functions if ran.judged(self.crate.name, it)[0] == SURVIVED]
        for edit in edits:
            if edit.function and edit.function.full() in proved:
                self.in_place(edit, [edit.function.full()])
        return [it for it in edits if it.name not in self.results]

    def judged_in_place(self, edit, ran):
        """Returns what a run with an edit in its place came to: a verdict, the function, and the goals or the reason."""
        full = edit.function.full() if edit.function else ""
        if ran.is_proved():
            return SURVIVED, full, f"left out: {' '.join(sorted(edit.dropped))}" if edit.dropped else ""
        if ran.did_not_compile():
            first = next((it for it in ran.lines if "error" in it), ran.text[:120])
            return BAD, full, f"does not compile: {first[:120]}"
        if ran.status == 3 and LIMIT.search(ran.text):
            return UNCLEAR, full, "a limit of the prover"
        if ran.status != 1:
            return UNCLEAR, full, f"the check ended with status {ran.status}"
        unread = [
            it
            for it in ran.errors()
            if (it[0].startswith(("src/", "specs/")) or it[0] in edit.texts) and (it[2][:1] != "`" or NAMES_GONE.search(it[2]))
        ]
        if unread:
            return BAD, full, f"cannot be read: {unread[0][2][:120]}"
        verdict, full, goal = self.where_refused(edit, ran, full)
        return UNCLEAR if verdict != REFUSED else WEAK if edit.dropped else REFUSED, full, goal

    def where_refused(self, edit, ran, full):
        """Returns what a run says of the edit's function or, where that is proved, of the first other one that is refused."""
        span = None
        if edit.function:
            line = edit.texts[edit.function.path].count("\n", 0, edit.function.start) + 1
            span = (edit.function.path, line, line + edit.body.count("\n"))
        verdict, goal = ran.judged(self.crate.name, full, span) if full else (UNCLEAR, "")
        if verdict != REFUSED:
            for name in ran.said:
                short = name.partition("::")[2]
                other, goals = ran.judged(self.crate.name, short)
                if other == REFUSED:
                    return REFUSED, short, goals
        if verdict != REFUSED and not edit.function:
            # (a definition that was changed: the lemmas that speak of it are the crate's own)
            lemmas = [it for it in ran.errors() if it[0].startswith("proofs/") and not PASSED_ON.search(it[2]) and not NAMES_GONE.search(it[2])]
            named = [(it[0], re.match(r"`([^`]*)`: ", it[2])) for it in lemmas]
            return next(((REFUSED, file[7:-5], lemma[1]) for file, lemma in named if lemma), (verdict, full, goal))
        return verdict, full, goal

    def all(self, edits, until):
        """Tries edits until that time, and returns what each came to."""
        os.makedirs(self.kept, exist_ok=True)
        alone, together = [], []
        for edit in edits:
            if edit.why:
                self.told(edit, BAD, "", edit.why, "not run", 0)
                continue
            edit.place()
            (alone if edit.alone or self.options.one_by_one else together).append(edit)
        for begin in range(0, len(together), self.options.most):
            if time.monotonic() < until:
                alone += self.beside(together[begin : begin + self.options.most])
        if alone and time.monotonic() < until:
            alone = self.alone_in_functions(alone)
        if len(alone) > 1 and time.monotonic() < until:
            # (what is proved of the whole crate once need not be proved for each)
            if not self.check({}, self.kept, ["--jobs", str(self.options.prover_jobs)]).is_proved():
                print(f"{self.crate.name}: the crate itself is not proved, so no edit is tried alone", flush=True)
                alone = []
        for edit in alone:
            if time.monotonic() < until:
                self.in_place(edit)
        shutil.rmtree(os.path.join(self.room, "copy"), ignore_errors=True)
        return self.results
