"""Lights of SUMO with a controller each, and the loop that drives them second by second."""
import signal
import sys
import time
from contextlib import contextmanager
from pathlib import Path

import controllers
from common.reading import Refused, number_in, table_of, text_of, told
from sumo.detectors import KINDS

TABLES = ("junction.pua", "times.csv", "intergreens.csv")
LETTERS = {"R": "r", "U": "u", "A": "y"}
CHUNK = 10  # seconds that SUMO drives its own lights without a look at whether the run shall end


def places_in(row, count):
    """The places of the links to which one yields."""
    places = row["yields_to"].split()
    if not all(place.isdigit() and int(place) < count for place in places):
        raise Refused(row["line"], f"'{row['yields_to']}' isn't places of links from 0 to {count - 1}")
    return [int(place) for place in places]


class Light:
    """A traffic light with its controller, its detectors and the letters that SUMO shows."""

    def __init__(self, name, folder, program, opener, log):
        self.name, self.log, self.state, self.detectors, self.seen = name, log, None, {}, {}
        self.seconds, self.faults, self.refused, self.first_fault = 0, 0, 0, None
        self.files = [folder / program, *(folder / table for table in TABLES)]
        with told(folder / "links.csv"):
            rows = table_of(text_of(folder / "links.csv"), "index", "group", "yields_to")
            self.links = [(number_in(row, "index", 9999), row["group"], places_in(row, len(rows))) for row in rows]
        with told(folder / "detectors.csv"):
            self.rows = table_of(text_of(folder / "detectors.csv"), "detector", "kind", "id", "at")
            for row in self.rows:
                if row["kind"] not in KINDS:
                    raise Refused(row["line"], f"'{row['kind']}' is no kind of a detector: {', '.join(KINDS)}")
                number_in(row, "detector", 64)
        self.controller = opener.open(*self.files)

    def begin(self, sumo):
        """Reads the header, and subscribes what the detectors see."""
        self.keep(self.controller.greet())
        unknown = sorted({group for _, group, _ in self.links} - set(self.controller.names))
        if unknown:
            raise controllers.Lost(f"links.csv names the group {unknown[0]}, which the plan doesn't have")
        self.letters = ["r"] * len(sumo.trafficlight.getRedYellowGreenState(self.name))
        self.detectors = {int(row["detector"]): KINDS[row["kind"]](sumo, row["id"], row["at"]) for row in self.rows}

    def keep(self, text):
        if self.log:
            self.log.write(text)

    def look(self):
        """Adds what the detectors saw in this step to the counts of the second."""
        for number, detector in self.detectors.items():
            fronts, rears = detector.counts()
            if fronts or rears:
                before = self.seen.get(number, (0, 0))
                self.seen[number] = before[0] + fronts, before[1] + rears

    def see(self):
        """The counts of the second that ends."""
        seen, self.seen = self.seen, {}
        return seen

    def note(self, record):
        """Counts refusals and faults."""
        fields = record.rstrip("\n").split("|")
        self.seconds += 1
        self.refused += fields[4:5] not in ([], ["-"])
        if fields[5:6] not in ([], ["-"]):
            self.faults += 1
            self.first_fault = self.first_fault or f"{fields[5]} in second {fields[0]}"

    def show(self, record):
        """SUMO's letters for the aspects of the record; None where they stay. A green link that yields to one which isn't red
        is `g`; one that yields to a way outside the light has its own place among these."""
        self.keep(record)
        self.note(record)
        aspects = dict(zip(self.controller.names, controllers.aspects_of(record)))
        shown, letters = [aspects[group] for _, group, _ in self.links], list(self.letters)
        for (index, _, yields), aspect in zip(self.links, shown):
            if aspect == "G":
                letters[index] = "g" if letters[index] == "g" or any(shown[k] != "R" for k in yields) else "G"
            else:
                letters[index] = LETTERS[aspect]
        state = "".join(letters)
        if state == self.state:
            return None
        self.state = state
        return state

    def end(self):
        self.controller.end()
        if self.log:
            self.log.close()


def sites_of(words):
    """Of each light with a site its name and the folder."""
    found = []
    for word in words:
        name, is_one, folder = word.partition("=")
        if is_one:
            found.append((name, Path(folder)))
            continue
        with told(Path(word) / "sites.csv"):
            rows = table_of(text_of(Path(word) / "sites.csv"), "light", "folder")
            found += [(row["light"], Path(word) / row["folder"]) for row in rows if row["folder"]]
    return found


class ProgramOpener:
    """Opens lights whose controllers have a program of their own."""

    def __init__(self, given):
        self.opener, self.program = controllers.controllers_of(given), given.program

    def light(self, name, folder, log):
        return Light(name, folder, self.program, self.opener, log)


def opener_of(sumo, given):
    """What opens the lights of a run."""
    if not given.control.startswith("guarded:"):
        return ProgramOpener(given)
    from sumo.guarded import GuardedOpener  # which stands on this module

    try:
        return GuardedOpener(sumo, given.control, getattr(given, "masks", False))
    except controllers.Lost as lost:
        sys.exit(str(lost))


def open_lights(sumo, given):
    """The lights with their controllers, which all begin at once."""
    opener, lights, name, sites = opener_of(sumo, given), [], "", sites_of(given.sites)
    if given.logs:
        given.logs.mkdir(parents=True, exist_ok=True)
        if len({folder.name for _, folder in sites}) < len(sites):
            sys.exit("--logs: two sites have folders of one name, and their logs would be one file")
    known = set(sumo.trafficlight.getIDList())
    try:
        for name, folder in sites:
            if name not in known:
                raise controllers.Lost(f"the network has no such traffic light, and {folder} is its site")
            log = open(given.logs / f"{folder.name}.log", "w", encoding="ascii") if given.logs else None
            lights.append(opener.light(name, folder, log))
        for light in lights:
            name = light.name
            light.begin(sumo)
    except controllers.Lost as lost:
        sys.exit(f"{name}: {lost}")
    return lights


def answers_of(lights, counts):
    """What the lights show in this second: all are asked, then all answers are read."""
    for light, seen in zip(lights, counts):
        light.controller.ask(seen)
    states = []
    for light in lights:
        try:
            states.append(light.show(light.controller.answer()))
        except controllers.Lost as lost:
            sys.exit(f"{light.name}: {lost}")
    return states


class Stop:
    """Whether Ctrl-C was pressed. The second one ends the script at once."""

    def __init__(self):
        self.is_asked = False

    def ask(self, number, frame):
        if self.is_asked:
            raise KeyboardInterrupt
        self.is_asked = True

    @contextmanager
    def watched(self):
        """Within it Ctrl-C asks for the end of the run."""
        before = signal.signal(signal.SIGINT, self.ask)
        try:
            yield self
        finally:
            signal.signal(signal.SIGINT, before)


@contextmanager
def left_alone():
    """What is started within doesn't hear Ctrl-C: its end is that of its input."""
    before = signal.signal(signal.SIGINT, signal.SIG_IGN)
    try:
        yield
    finally:
        signal.signal(signal.SIGINT, before)


def drive(sumo, lights, seconds, steps, stop, tell):
    """Steps the network with all controllers; the seconds that were driven, and those of the clock in SUMO's steps, detectors,
    controllers and signals."""
    spent, second = [0.0] * 4, 0
    while second < seconds and not stop.is_asked:
        for _ in range(steps):
            moments = [time.perf_counter()]
            sumo.simulationStep()
            moments.append(time.perf_counter())
            for light in lights:
                light.look()
            moments.append(time.perf_counter())
            spent = [gone + after - before for gone, before, after in zip(spent, moments, moments[1:])] + spent[2:]
        moments = [time.perf_counter()]
        states = answers_of(lights, [light.see() for light in lights])
        moments.append(time.perf_counter())
        for light, state in zip(lights, states):
            if state is not None:
                sumo.trafficlight.setRedYellowGreenState(light.name, state)
        moments.append(time.perf_counter())
        spent = spent[:2] + [gone + after - before for gone, before, after in zip(spent[2:], moments, moments[1:])]
        second += 1
        tell(second)
    return second, dict(zip(("steps", "detectors", "controllers", "signals"), (round(part, 2) for part in spent)))


def let_drive(sumo, begin, seconds, stop, tell):
    """Lets SUMO drive its own lights; the seconds that were driven."""
    second = 0
    while second < seconds and not stop.is_asked:
        second = min(second + CHUNK, seconds)
        sumo.simulationStep(float(begin + second))
        tell(second)
    return second
