"""Checks of a crate whose files of answers are changed, and what the checker says of them."""
import os
import re
import resource
import subprocess
import time
from pathlib import Path


class OutOfTime(Exception):
    """The minutes are over; a later run goes on."""


class Checks:
    """The crate `name` in `folder`, its files of answers in `files`, and what it keeps between runs: `state`, `state_file`, `kept`."""

    # No check begins after this time.
    end = time.time() + 1e9

    def put(self, texts):
        """Writes the files of answers; None stands for no file."""
        for path, text in texts.items():
            file = self.folder / path
            if text is None:
                file.unlink(missing_ok=True)
            else:
                file.parent.mkdir(parents=True, exist_ok=True)
                file.write_text(text, encoding="utf-8")

    def words(self):
        kit, libs = Path(self.args.kit), Path(self.args.libs)
        uses = {}
        for line in (Path(self.args.copy) / "crates.txt").read_text().split("\n"):
            if ":" in line and not line.startswith("#"):
                left, right = line.split("#")[0].split(":", 1)
                uses[left.split()[0]] = right.split()
        root = "src/main.rt" if (self.folder / "src/main.rt").exists() else "src/lib.rt"
        words = [f"{kit}/bin/rattle", "check", "--crate-name", self.name, root, "--extern", f"std={kit}/rlibs/std.rlib"]
        below, todo = [], list(uses.get(self.name, []))
        for name in uses.get(self.name, []):
            own = libs / name / "out/rlib" / f"{name}.rlib"
            words += ["--extern", f"{name}={own if name in uses else f'{kit}/rlibs/{name}.rlib'}"]
        while todo:
            name = todo.pop()
            if name in uses and name not in below:
                below.append(name)
                todo += uses[name]
        words += ["-L", f"dependency={kit}/rlibs"]
        for name in sorted(below):
            words += ["-L", f"dependency={libs / name / 'out/rlib'}"]
        return words + ["--antt-project", f"{kit}/rattle/logic/antt-project.json", "--logic-built", f"{kit}/logic_built",
                        "--links", f"{self.name}=", "--jobs", "1"]

    def check(self, *flags, keeps=True):
        """Runs the checker on the crate, and returns its status, its text and the seconds of processor time."""
        if time.time() > self.end:
            raise OutOfTime
        words = ["nice", "-n", str(self.args.nice), *self.words(), "--progress", *flags]
        if keeps:
            words += ["--incremental", str(self.kept)]
        was = resource.getrusage(resource.RUSAGE_CHILDREN)
        how = {"stdin": subprocess.DEVNULL, "stdout": subprocess.PIPE, "stderr": subprocess.STDOUT}
        ran = subprocess.Popen(words, cwd=self.folder, text=True, errors="replace", **how)
        said = self.timed(ran)
        now = resource.getrusage(resource.RUSAGE_CHILDREN)
        took = now.ru_utime + now.ru_stime - was.ru_utime - was.ru_stime
        self.state["spent"] += took
        number = len(list(self.state_file.parent.glob(f"{self.name}.*.out"))) + 1
        (self.state_file.parent / f"{self.name}.{number}.out").write_text(said)
        print(f"  {self.name}: check {' '.join(flags)}: status {ran.returncode}, {took:.0f} s", flush=True)
        return ran.returncode, said, took

    def timed(self, ran):
        """What a check says, as it says it: keeps the processor seconds that each function took, by its name, in `seconds`."""
        self.seconds, said, last = {}, [], 0.0
        for line in ran.stdout:
            said.append(line)
            found = re.match(r"checked (\S+), \d+ of \d+", line)
            if found:
                now = spent_by(ran.pid, last)
                self.seconds[found[1]], last = now - last, now
        ran.wait()
        return "".join(said)

    def margin(self):
        return [] if self.args.no_margin else ["--margin"]

    def open_goals(self, said):
        """The goals that a check left open, by file: what it offers to write, and the names in its verdicts."""
        found = {path: set() for path in self.files}
        path = None
        for line in said.split("\n"):
            offer = re.match(r"help: \S.*?(?:\./)?(proofs/\S+?/Answers\.antt)", line)
            if offer:
                path = offer[1]
            elif line and not line[0].isspace():
                path = None
            goal = re.match(r"\s+pub (\S+) : goal\.(\S+)", line)
            if goal and path:
                found.setdefault(path, set()).add(goal[2])
            goal = re.match(r"note: `([^`]+)` of (?:\./)?(proofs/\S+?/Answers\.antt) must prove", line)
            if goal:
                found.setdefault(goal[2], set()).add(goal[1])
            verdict = re.match(r"fn (\S+): (no proof|not proved|could not tell)(.*)", line)
            if verdict:
                names = re.search(r"(?:\./)?(proofs/\S+?/Answers\.antt)", verdict[3])
                if names:
                    rest = verdict[3].split("`search` did not prove", 1)
                    found.setdefault(names[1], set()).update(re.findall(r"`([^`]+)`", rest[1]) if len(rest) > 1 else [])
        return found

    def unproved(self, said):
        """The functions that are unproved by their own fault: one that only calls such a one has its own goals closed."""
        return re.findall(r"^fn (\S+): (?:no proof|not proved|could not tell)(?!: it calls)", said, re.M)

    def files_of(self, function):
        """The files of answers that can be the function's own."""
        parts = function.split("::")[1:]
        path = "proofs/" + "/".join(parts) + "/Answers.antt"
        if path in self.files:
            return [path]
        return [it for it in self.files if it.startswith("proofs/" + "/".join(parts[:-1])) and "/+" in it]

    def refused(self, said):
        """The lines at which the checker refuses a file of answers."""
        found = {}
        spot = r"^(?:\S*?: )?(?:\./)?(proofs/\S+?/Answers\.antt):(\d+):\d+:? (?:error|hole|could)"
        for path, line in re.findall(spot, said, re.M):
            found.setdefault(path, set()).add(int(line))
        return found


def spent_by(process, unknown):
    """The processor seconds of a process so far, or what is given where it has ended."""
    try:
        with open(f"/proc/{process}/stat", encoding="ascii", errors="replace") as it:
            fields = it.read().rsplit(")", 1)[1].split()
    except OSError:
        return unknown
    return (int(fields[11]) + int(fields[12])) / os.sysconf("SC_CLK_TCK")


def dear_functions(before, after, most=1.0):
    """The functions whose proof takes more than so many seconds longer than it took before. One that was not timed before is dear."""
    return {name for name, took in after.items() if took - before.get(name, 0.0) > most}
