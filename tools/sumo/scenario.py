"""SUMO's call, its start, and what came of a run."""
import contextlib
import importlib
import io
import os
import re
import shlex
import subprocess
import sys
import tempfile
import xml.etree.ElementTree as tree
from pathlib import Path

from common.reading import Refused
from sumo.drive import left_alone, sites_of
from sumo.guarded import OWN, own_of
from sumo.network import files_in, is_configuration, read_root

DEFAULTS = {"--time-to-teleport": "300", "--collision.action": "warn", "--collision.check-junctions": "true",
            "--no-step-log": "true", "--no-warnings": "true", "--duration-log.disable": "true", "--ignore-route-errors": "true"}
CLOCK = re.compile(r"(?:(\d+):)?(\d{1,2}):(\d{2}):(\d{2}(?:\.\d+)?)")


class NotStarted(Exception):
    """SUMO doesn't start, or has ended by itself."""


def import_sumo(name):
    """SUMO's module `traci` or `libsumo`, with SUMO_HOME set."""
    os.environ.setdefault("SUMO_HOME", "/usr/share/sumo")
    sys.path.append(str(Path(os.environ["SUMO_HOME"]) / "tools"))
    try:
        return importlib.import_module(name)
    except ImportError as fault:
        python = "; it needs Debian's own /usr/bin/python3" if name == "libsumo" else ""
        sys.exit(f"SUMO's module `{name}` isn't there: {fault} (SUMO_HOME is {os.environ['SUMO_HOME']}{python})")


def seconds_of(text):
    """A time of SUMO's in seconds: a number, or days:hours:minutes:seconds. None where it is no time."""
    found = CLOCK.fullmatch(text)
    if found:
        return 86400 * int(found[1] or 0) + 3600 * int(found[2]) + 60 * int(found[3]) + float(found[4])
    try:
        return float(text)
    except ValueError:
        return None


def value_in(configuration, *options):
    """The value of an option in a configuration, or None."""
    return next((element.get("value") for element in read_root(configuration).iter() if element.tag in options), None)


def set_times(given):
    """The first second, and the steps in a second: what is given, else what the configuration says, else 0 and 1."""
    configuration = given.net if is_configuration(given.net) else None
    if given.begin is None:
        text = value_in(configuration, "begin", "b") if configuration else None
        given.begin = int(seconds_of(text) or 0) if text else 0
    if given.step_length is None:
        text = value_in(configuration, "step-length") if configuration else None
        given.step_length = float(text) if text else 1.0
    given.steps = round(1 / given.step_length) if given.step_length > 0 else 0
    if given.steps < 1 or abs(given.steps * given.step_length - 1) > 1e-9 or (1000 % given.steps):
        raise Refused(0, f"steps of {given.step_length:g} s: a second must have a whole number of them, as 1, 0.5, 0.2 or 0.1")


def files_for(given, folder):
    """The additional files of a run: those of the configuration and of the call, then what the control needs."""
    sites, more = sites_of(given.sites), [str(file) for file in given.additional]
    if is_configuration(given.net):
        more = [str(file) for file in files_in(given.net, "additional-files", "a", "additional")] + more
    own = own_of(given.control)
    if own in ("actuated", "delay_based"):
        more += [str(site / f"{own}.add.xml") for _, site in sites]
    if given.control not in OWN:
        more += [str(site / "detectors.add.xml") for _, site in sites]
    if given.states:
        lines = [f'<timedEvent type="SaveTLSStates" source="{name}" dest="{given.states.resolve()}"/>' for name, _ in sites]
        (folder / "states.add.xml").write_text("\n".join(["<additional>", *lines, "</additional>"]), encoding="utf-8")
        more.append(str(folder / "states.add.xml"))
    return more


def words_for(given):
    """The words that the user passes to SUMO, as options with their values."""
    words, found, k = shlex.split(given.sumo_words), {}, 0
    while k < len(words):
        if not words[k].startswith("-"):
            raise Refused(0, f"'{words[k]}' of --sumo-words stands behind no option of SUMO's")
        name, is_set, value = words[k].partition("=")
        if not is_set and k + 1 < len(words) and not re.match("-[-a-z]", words[k + 1]):
            value, k = words[k + 1], k + 1
        found[name] = value or "true"
        k += 1
    return found


def call_of(given, folder):
    """SUMO's call. What the user passes to SUMO stands in the place of what is else said to it."""
    out = {"--statistic-output": "statistics.xml", "--summary-output": "summary.xml", "--tripinfo-output": "tripinfo.xml"}
    options = {"-c": given.net} if is_configuration(given.net) else {"-n": given.net}
    if given.routes:
        options["-r"] = given.routes
    options.update({"--seed": str(given.seed), "--begin": str(given.begin), "--step-length": f"{given.step_length:g}",
                    "--end": "-1", **DEFAULTS, **{name: str(folder / file) for name, file in out.items()},
                    "--tripinfo-output.write-unfinished": "true"})
    if given.collisions:
        options["--collision-output"] = str(given.collisions)
    if given.gui:
        options.update({"--start": "true", "--quit-on-end": "true"})
    more = files_for(given, folder)
    if more:
        options["-a"] = ",".join(more)
    options.update(words_for(given))
    return ["sumo-gui" if given.gui else "sumo", *(word for pair in options.items() for word in pair)]


@contextlib.contextmanager
def errors_into(file):
    """What is started within writes its errors into a file, and standard error is as before behind it."""
    sys.stderr.flush()
    kept = os.dup(2)
    os.dup2(file.fileno(), 2)
    try:
        yield
    finally:
        os.dup2(kept, 2)
        os.close(kept)


def cause_in(errors, fault):
    """SUMO's own first error as a sentence, with the number of the others."""
    errors.seek(0)
    lines = [line.split("Error:", 1)[1].strip() for line in errors.read().splitlines() if "Error:" in line]
    if not lines:
        return str(fault).strip() or type(fault).__name__
    return lines[0] + (f" (and {len(lines) - 1} more)" if len(lines) > 1 else "")


def start(sumo, call, errors):
    """Starts SUMO; `NotStarted` tells its own first error."""
    with left_alone(), contextlib.redirect_stdout(io.StringIO()), errors_into(errors):
        try:
            if sumo.__name__ == "libsumo":
                sumo.start(call)
            else:  # with a port of its own, else SUMO is started again and again where it doesn't start
                port = importlib.import_module("sumolib.miscutils").getFreeSocketPort()
                sumo.start(call, port=port, stdout=subprocess.DEVNULL)
        except (OSError, RuntimeError, sumo.TraCIException, getattr(sumo, "FatalTraCIError", OSError)) as fault:
            if isinstance(fault, FileNotFoundError):
                raise NotStarted(f"`{call[0]}` isn't there (Debian: apt-get install sumo)") from None
            raise NotStarted(f"SUMO doesn't start: {cause_in(errors, fault)}") from None


def mean_of(numbers):
    numbers = list(numbers)
    return round(sum(numbers) / max(1, len(numbers)), 2)


def result_of(folder):
    """What SUMO wrote of the run. Of people who are still on their way it tells no time loss, so they are left out."""
    root = tree.parse(folder / "tripinfo.xml").getroot()
    trips = list(root.iter("tripinfo"))
    walks = [walk for walk in root.iter("walk") if float(walk.get("arrival")) >= 0]
    steps = tree.parse(folder / "summary.xml").getroot().iter("step")
    statistics = tree.parse(folder / "statistics.xml").getroot()
    return {
        "vehicles": len(trips),
        "loss": mean_of(float(trip.get("timeLoss")) for trip in trips),
        "stops": mean_of(int(trip.get("waitingCount")) for trip in trips),
        "outside": mean_of(float(trip.get("departDelay")) for trip in trips),
        "waiting_outside": int(statistics.find("vehicles").get("waiting")),
        "queue": mean_of(int(step.get("halting")) for step in steps),
        "people": len(list(root.iter("personinfo"))),
        "walkers": len(walks),
        "walkers_loss": mean_of(float(walk.get("timeLoss")) for walk in walks),
        "teleports": int(statistics.find("teleports").get("total")),
        "collisions": int(statistics.find("safety").get("collisions")),
        "emergency_stops": int(statistics.find("safety").get("emergencyStops")),
    }


def first_departure(files):
    """The second in which the first trip, vehicle, person or flow of the files departs; None where there is none."""
    earliest = None
    for file in files:
        for _, element in tree.iterparse(file):
            text = element.get("depart") or element.get("begin")
            if element.tag in ("trip", "vehicle", "flow", "person", "personFlow") and text:
                second = seconds_of(text)
                earliest = second if earliest is None or second is not None and second < earliest else earliest
            element.clear()
    return earliest


def nobody_told(given, seconds):
    """The sentence that nobody departed, and when the first one would."""
    files = given.routes.split(",") if given.routes else files_in(given.net, "route-files", "r", "routes")
    first = first_departure([file for file in files if not str(file).endswith(".gz")])
    later = f"; the first one departs in second {first:g} (--begin {int(first)})" if first is not None else ""
    return f"no vehicle departed from second {given.begin} to {given.begin + seconds}{later}"


@contextlib.contextmanager
def folder_for(keep):
    """The folder of SUMO's outputs: the user's, or one that is gone afterwards."""
    if keep:
        keep.mkdir(parents=True, exist_ok=True)
        yield keep
    else:
        with tempfile.TemporaryDirectory() as name:
            yield Path(name)
