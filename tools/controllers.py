"""Controllers in the loop of another program: a second's counts out, its record in. One protocol, by a pipe to the built
program or by the library in this process:

    controller = Controllers(junction="out/junction").open(program, plan, times, intergreens)
    controller.greet()                    # the log's header; controller.names are its groups
    controller.ask({3: (1, 1)})           # the counts of a second: detector to fronts and rears
    record = controller.answer()          # its record, a line of the log
    aspects_of(record)                    # one letter for each group: R, U, G or A
    controller.end()

Between `ask` and `answer` a pipe's controller works on its own, so of many controllers all are asked first. `Lost` tells that
one has ended by itself, with its second and its status."""
import importlib
import subprocess
import sys
from pathlib import Path

LIBRARY = Path(__file__).resolve().parent.parent / "library" / "python"


class Lost(Exception):
    """A controller has ended before it was told to."""


class NoLibrary(Exception):
    """There is no library to load."""


def line_of(counts):
    """A line of a detector file."""
    seen = (f"{detector}:{fronts}:{rears}" for detector, (fronts, rears) in sorted(counts.items()) if fronts or rears)
    return " ".join(seen) + "\n"


def aspects_of(record):
    """The letters of a record's aspects."""
    return record.split("|", 3)[2]


class PipeController:
    """A `junction run` of its own. Its note, where it has one, stands on standard error."""

    def __init__(self, junction, files):
        words, self.second = [junction, "run", *map(str, files), "/dev/stdin"], 0
        try:
            self.run = subprocess.Popen(words, stdin=subprocess.PIPE, stdout=subprocess.PIPE)
        except OSError as fault:
            raise Lost(f"the built program {junction} can't be started: {fault.strerror} (--junction names it)") from None

    def greet(self):
        header = self.run.stdout.readline().decode("ascii")
        if not header:
            raise Lost(f"the controller didn't begin, and ended with status {self.run.wait()}")
        self.names = header.split()[2:]
        return header

    def ask(self, counts):
        try:
            self.run.stdin.write(line_of(counts).encode("ascii"))
            self.run.stdin.flush()
        except BrokenPipeError:
            pass  # `answer` tells it, with the status

    def answer(self):
        self.second += 1
        record = self.run.stdout.readline().decode("ascii")
        if not record.startswith(f"{self.second}|"):
            raise Lost(f"the controller ended in second {self.second} with status {self.end()}")
        return record

    def end(self):
        """Ends it; gives its status."""
        try:
            self.run.stdin.close()
        except BrokenPipeError:
            pass
        self.run.stdout.close()
        return self.run.wait()


class LibraryController:
    """A controller of the library, in this process."""

    def __init__(self, library, files):
        self.counts = {}
        try:
            self.controller = library.Controller.open(*map(str, files))
        except (OSError, ValueError) as fault:
            raise Lost(f"the controller didn't begin: {fault}") from None

    def greet(self):
        self.names = list(self.controller.names)
        return " ".join(["VAPLOG 1", *self.names]) + "\n"

    def ask(self, counts):
        self.counts = {detector: pair for detector, pair in counts.items() if any(pair)}

    def answer(self):
        try:
            return self.controller.step(self.counts).line().rstrip("\n") + "\n"
        except ValueError as refused:
            raise Lost(f"the controller takes no counts {line_of(self.counts).strip()}: {refused}") from None

    def end(self):
        self.controller.end()
        return 0


def load_library():
    """The package `vantulig`, from library/python or from where Python finds it."""
    if (LIBRARY / "vantulig" / "libjunction.so").exists() and str(LIBRARY) not in sys.path:
        sys.path.insert(0, str(LIBRARY))
    try:
        return importlib.import_module("vantulig")
    except (ImportError, OSError) as fault:
        raise NoLibrary(f"--library: the package `vantulig` isn't there: {fault} (looked for it in {LIBRARY} and where Python "
                        "looks); without --library the built program is asked by a pipe") from None


class Controllers:
    """Opens controllers of one kind: of the built program `junction`, or of the library."""

    def __init__(self, junction="junction", uses_library=False):
        self.junction, self.library = junction, load_library() if uses_library else None

    def open(self, *files):
        """A controller of the files PROGRAM, PUA, TIMES and INTERGREENS, before its first second."""
        if self.library:
            return LibraryController(self.library, files)
        return PipeController(self.junction, files)


def add_options(words):
    """The options that say how controllers are asked."""
    words.add_argument("--junction", default="junction", metavar="PROGRAM", help="the built program, `junction`")
    words.add_argument("--library", action="store_true", help="the Python package `vantulig` in the place of the built program")


def controllers_of(given):
    """The controllers that the options ask for; ends the script where they can't be had."""
    try:
        return Controllers(given.junction, given.library)
    except NoLibrary as fault:
        sys.exit(str(fault))
