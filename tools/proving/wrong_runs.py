"""Runs of the prover over a crate, and what they say of its functions."""
import hashlib
import os
import re
import shutil

from proving.wrong_edits import PARTS, Edit, functions_of

REFUSED, WEAK, SURVIVED, BAD, UNCLEAR = "refused", "weak", "survived", "bad", "unclear"

# A proof file that names what the edit took away, or cites what was refused: it shows nothing of the contract.
NAMES_GONE = re.compile(r"\A(`[^`]*`: )?(([^,;]*`[^`]*`: )?module `[^`]*` has no `|.*(has no field|is not in scope|was not admitted))")
TAKEN_AWAY = "a proof file names what it takes away, so it shows nothing of the contract: change a value and keep the names"


class Crate:
    """A crate of the repository: its files, what it stands on, and its edits."""

    def __init__(self, root, name, uses, is_static):
        self.root, self.name, self.uses, self.is_static = root, name, uses, is_static
        self.folder = f"{root}/crates/{name}"
        self.texts, self.found = {}, {}

    def text(self, path):
        if path not in self.texts:
            with open(f"{self.folder}/{path}", encoding="utf-8") as it:
                self.texts[path] = it.read()
        return self.texts[path]

    def functions(self, path):
        if path not in self.found:
            self.found[path] = functions_of(path, self.text(path))
        return self.found[path]

    def edits(self):
        paths = []
        for part in ("must-fail", "edits"):
            folder = f"{self.folder}/{part}"
            if os.path.isdir(folder):
                paths += [f"{folder}/{it}" for it in sorted(os.listdir(folder)) if it.endswith(".edit")]
        return [Edit(self, it) for it in paths]

    def below(self, crates):
        """Returns the repository's own crates that this one stands on, lowest first."""
        found = {}
        for name in self.uses:
            if name in crates and name not in found:
                found.update({it.name: it for it in crates[name].below(crates)})
                found[name] = crates[name]
        return list(found.values())

    def sum(self, kit, crates):
        """Returns a sum of the crate's files, of the sources and definitions of those below, and of the kit."""
        one = hashlib.sha256(kit.line.encode())
        for crate in [self, *sorted(self.below(crates), key=lambda it: it.name)]:
            for part in PARTS if crate is self else PARTS[:2]:
                for at, folders, files in os.walk(f"{crate.folder}/{part}"):
                    folders.sort()
                    for name in sorted(files):
                        one.update(f"{crate.name}/{os.path.relpath(f'{at}/{name}', crate.folder)}\n".encode())
                        with open(f"{at}/{name}", "rb") as it:
                            one.update(it.read())
        return one.hexdigest()[:16]


def crates_of(root):
    """Returns the crates of a repository by name."""
    found = {}
    with open(f"{root}/crates.txt", encoding="utf-8") as it:
        for line in it:
            head, colon, uses = line.partition("#")[0].partition(":")
            if colon:
                name, *more = head.split()
                found[name] = Crate(root, name, uses.split(), "staticlib" in more)
    return found


class Kit:
    """The kit, and where libraries lie."""

    def __init__(self, crates, libraries, from_sources):
        rt = shutil.which("rt")
        self.root = os.environ.get("RATTLE_KIT") or (os.path.dirname(os.path.dirname(os.path.realpath(rt))) if rt else "/opt/rattle")
        self.rattle = f"{self.root}/bin/rattle"
        self.crates, self.libraries, self.from_sources = crates, libraries, from_sources
        with open(f"{self.root}/KIT-ID", encoding="utf-8") as it:
            self.line = it.readline().strip()

    def library(self, crate, name):
        """Returns the folder of a proved library, or None."""
        own = [f"{it}/{name}.rlib" for it in self.libraries]
        own += [f"{crate.root}/crates/{name}/out/rlib/{name}.rlib", f"{self.root}/rlibs/{name}.rlib"]
        return next((it for it in own if os.path.isfile(f"{it}/format")), None)

    def built(self, crate):
        """Returns the words that name the proved libraries which a crate stands on, or the one that is missing."""
        words = []
        for name in dict.fromkeys(["std", *crate.uses]):
            rlib = self.library(crate, name)
            if not rlib:
                return None, name
            words += ["--extern", f"{name}={rlib}"]
        places = [f"{self.root}/rlibs", *self.libraries]
        places += [f"{it.folder}/out/rlib" for it in self.crates.values() if os.path.isdir(f"{it.folder}/out/rlib")]
        return words + [word for it in places for word in ("-L", f"dependency={it}")], None

    def sources(self, crate):
        """Returns the words that name the libraries which a crate stands on, those of the repository as sources."""
        below = crate.below(self.crates)
        of_kit = ["std", "core", *(use for it in [crate, *below] for use in it.uses if use not in self.crates)]
        words = [word for name in dict.fromkeys(of_kit) for word in ("--extern", f"{name}={self.root}/rlibs/{name}.rlib")]
        words += ["-L", f"dependency={self.root}/rlibs"]
        for it in below:
            uses = ",".join(dict.fromkeys(["core", "std", *it.uses]))
            words += ["--lib", f"{it.name}:{uses}={it.folder}/src/lib.rt"]
        return words

    def words(self, crate):
        """Returns the words of a check of the crate, or the library that is missing."""
        main = "src/main.rt" if os.path.isfile(f"{crate.folder}/src/main.rt") else "src/lib.rt"
        words = [self.rattle, "check", "--crate-name", crate.name, main]
        words += ["--crate-type", "staticlib"] if crate.is_static else []
        libraries, missing = (self.sources(crate), None) if self.from_sources else self.built(crate)
        if missing:
            return None, missing
        logic = f"{self.root}/rattle/logic/antt-project.json"
        return [*words, *libraries, "--antt-project", logic, "--logic-built", f"{self.root}/logic_built"], None


class Run:
    """One run of the prover, and what it said."""

    def __init__(self, status, text, seconds):
        self.status, self.text, self.seconds = status, text, seconds
        self.lines = text.split("\n")
        self.said = {it[1]: it[2] for it in (re.match(r"fn (\S+): (.*)", line) for line in self.lines) if it}

    def is_proved(self):
        return self.status == 0 and any(it.startswith("logic=proved") for it in self.lines)

    def did_not_compile(self):
        """Returns whether the front end refused the crate, so that no function was judged."""
        return not self.said and not any(it.startswith(("logic=", "only=")) for it in self.lines)

    def errors(self):
        """Returns the places of errors, as file, line and what is said."""
        found = []
        for number, line in enumerate(self.lines):
            it = re.match(r"(?:\./)?(\S+?):(\d+):\d+: error(?:\[[\w-]+\])?: (.*)", line)
            if it:
                # (what is said may go on in lines that are set in)
                more = next(iter(self.lines[number + 1 : number + 2]), "")
                said = f"{it[3]} {more.strip()}" if more.startswith("  has no") else it[3]
                found.append((it[1], int(it[2]), said))
                continue
            it = re.match(r"\s*--> (?:\./)?(\S+?):(\d+)", line)
            if it:
                found.append((it[1], int(it[2]), "error"))
        return found

    def false_goals(self, span):
        """Returns the open goals in these lines that the prover says are false at some values."""
        found = set()
        for line in self.lines:
            it = re.match(r"note: (?:\./)?(\S+?):(\d+):\d+: .*\(`([^`]*)`\); .*this goal is false", line)
            if it and span and it[1] == span[0] and span[1] <= int(it[2]) <= span[2]:
                found.add(it[3])
        return found

    def goals_of(self, folders, lines, span):
        """Returns the goals below these folders and in these lines that are refused or open, and what is said of names that are gone."""
        goals, gone = [], []
        for file, _, said in self.errors():
            if file.startswith(folders):
                goal = re.match(r"`([^`]*)`: ", said)
                (gone if NAMES_GONE.search(said) else goals).append(goal[1] if goal else said[:60])
        false = self.false_goals(span)
        for line in lines:
            open_ones = re.search(r"did not prove (.*)", line)
            if open_ones:
                goals += [f"{goal} ({'false' if goal in false else 'open'})" for goal in re.findall(r"`([^`]*)`", open_ones[1])]
        return list(dict.fromkeys(goals)), gone

    def judged(self, crate, full, span=None):
        """Returns what the run says of a function (its closures are parts of it): a verdict, and the goals or the reason."""
        words = full.split("::")
        of_closure = "::".join([*words[:-1], "fn", words[-1]])
        folders = (f"proofs/{'/'.join(words)}/", f"proofs/{of_closure.replace('::', '/')}/")
        own, closures = f"{crate}::{full}", (f"{crate}::{of_closure}::", f"{crate}::{full}::")
        lines = [it for name, it in self.said.items() if name == own or name.startswith(closures)]
        if own not in self.said:
            return UNCLEAR, "the prover did not name it"
        goals, gone = self.goals_of(folders, lines, span)
        if all(it.startswith("proved") for it in lines):
            return SURVIVED, ""
        if goals:
            return REFUSED, " ".join(goals[:4]) + (" (and a proof file names what it took away)" if gone else "")
        if gone:
            return UNCLEAR, f"{gone[0]}: {TAKEN_AWAY}"
        if any("could not tell" in it for it in lines):
            return UNCLEAR, "a limit of the prover"
        return UNCLEAR, next(it for it in lines if not it.startswith("proved"))[:120]
