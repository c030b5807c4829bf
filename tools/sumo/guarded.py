"""Lights whose wishes come from SUMO's own program, or from a function of Python, and whose guard decides what they show.

A control `guarded:static` (`actuated`, `delay_based`) lets each light's program of this type go on: in each second each group
with a green link in that program's phase is wished green, each other one red, and what the guard makes of it is shown.
`guarded:FILE.py:FUNCTION` asks a function in its place: it is called as FUNCTION(light, names, second, counts) and answers a
letter, G or R, for each of the groups `names`."""
import argparse
import collections
import importlib.util
from pathlib import Path

import controllers
from sumo.drive import TABLES, Light
from sumo.masks import Masks

OWN = ("static", "actuated", "delay_based")
PREFIX = "guarded:"


def control_from(plain):
    """What reads the word of an option: one of the plain controls, or a guarded one."""
    def read(word):
        own = word[len(PREFIX):] if word.startswith(PREFIX) else None
        if word in plain or own in OWN or own and own.partition(".py:")[2]:
            return word
        named = ", ".join([*plain, *(PREFIX + name for name in OWN), PREFIX + "FILE.py:FUNCTION"])
        raise argparse.ArgumentTypeError(f"'{word}' is none of {named}")

    return read


def own_of(control):
    """SUMO's program that runs under a control: one of OWN, or None where none is asked for."""
    own = control[len(PREFIX):] if control.startswith(PREFIX) else control
    return own if own in OWN else None


def function_of(control):
    """The function that a control names."""
    file, _, name = control[len(PREFIX):].rpartition(":")
    try:
        spec = importlib.util.spec_from_file_location(Path(file).stem, file)
        module = importlib.util.module_from_spec(spec)
        spec.loader.exec_module(module)
        return getattr(module, name)
    except (OSError, AttributeError, SyntaxError) as fault:
        raise controllers.Lost(f"{control[len(PREFIX):]} isn't there: {fault}") from None


class OwnWishes:
    """What a light's own program wishes: SUMO steps it on while another state is shown."""

    def __init__(self, sumo, name, links):
        self.lights, self.name, self.links = sumo.trafficlight, name, links
        self.program = self.lights.getProgram(name)

    def begin(self, names):
        self.indexes = [[index for index, group, _ in self.links if group == name] for name in names]

    def __call__(self, second, counts):
        for logic in self.lights.getAllProgramLogics(self.name):
            if logic.programID == self.program:
                state = logic.phases[logic.currentPhaseIndex].state
                return "".join("G" if any(state[i] in "Ggu" for i in indexes) else "R" for indexes in self.indexes)
        raise controllers.Lost(f"its own program {self.program} is gone")


class FunctionWishes:
    """What a function wishes of a light."""

    def __init__(self, function, name):
        self.function, self.name = function, name

    def begin(self, names):
        self.names = names

    def __call__(self, second, counts):
        return self.function(self.name, self.names, second, counts)


class GuardedController:
    """The guard of a site in the place of a controller with a program; `compares` is whether each of its seconds is compared
    with the mask before it."""

    def __init__(self, library, files, wishes, compares=False):
        self.counts, self.second, self.wishes, self.rules, self.late = {}, 0, wishes, collections.Counter(), 0
        try:
            self.guarded = library.Guarded.of_files(*files, keep=False)
        except (OSError, ValueError) as fault:
            raise controllers.Lost(f"the guard didn't begin: {fault}") from None
        self.masks = Masks(self.guarded) if compares else None

    def greet(self):
        self.names = list(self.guarded.names)
        self.wishes.begin(self.names)
        return self.guarded.header()

    def ask(self, counts):
        self.counts = counts

    def answer(self):
        self.second += 1
        wish = self.wishes(self.second, self.counts)
        try:
            record = self.guarded.wish(wish, self.counts)
        except (TypeError, ValueError) as refused:
            raise controllers.Lost(f"in second {self.second}: {refused}") from None
        self.rules.update(turn.rule for turn in record.turns)
        self.late += any(asked == "G" != shown for asked, shown in zip(wish, record.aspects))
        if self.masks:
            self.masks.compare(wish, record)
        return record.line()

    def end(self):
        self.guarded.end()
        return 0


class GuardedOpener:
    """Opens guards of lights, as `controllers.Controllers` opens controllers of files."""

    def __init__(self, sumo, control, compares=False):
        self.compares = compares
        try:
            self.library = controllers.load_library()
        except controllers.NoLibrary as fault:
            raise controllers.Lost(str(fault)) from None
        self.sumo, self.function = sumo, None if own_of(control) else function_of(control)

    def light(self, name, folder, log):
        """A light under its guard."""
        return GuardedLight(name, folder, self, log)

    def open_for(self, light):
        wishes = FunctionWishes(self.function, light.name) if self.function else OwnWishes(self.sumo, light.name, light.links)
        return GuardedController(self.library, light.files[1:], wishes, self.compares)


class GuardedLight(Light):
    """A light whose guard is asked by wishes."""

    def __init__(self, name, folder, opener, log):
        super().__init__(name, folder, TABLES[0], self, log)
        self.controller = opener.open_for(self)

    def open(self, *files):
        """None: the guard is opened once the links are known."""
        return None


def refusals_of(lights):
    """What the guards refused: of each rule how many turns, in how many seconds of lights a green came late, and how many masks
    were wrong where they were compared."""
    rules = sum((light.controller.rules for light in lights), collections.Counter())
    told = {"refused_turns": dict(rules.most_common()), "late": sum(light.controller.late for light in lights),
            "light_seconds": sum(light.seconds for light in lights)}
    masks = {light.name: light.controller.masks for light in lights if light.controller.masks}
    if masks:
        told["masks"] = sum(mask.seconds for mask in masks.values())
        told["masks_wrong"] = sum(mask.wrong for mask in masks.values())
        told["first_wrong_mask"] = next((f"{name}: {mask.first}" for name, mask in masks.items() if mask.first), None)
    return told


def line_of(told):
    """The same in words."""
    turns = ", ".join(f"{rule} {count}" for rule, count in told["refused_turns"].items()) or "none"
    masks = f"; {told['masks_wrong']} of {told['masks']} masks were wrong" if "masks" in told else ""
    return f"turns refused: {turns}; a green came late in {told['late']} of {told['light_seconds']} seconds of lights{masks}"
