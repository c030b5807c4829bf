"""The programs of a traffic light in SUMO: which of them runs, and its phases in one order."""
import math
from dataclasses import dataclass

from common.reading import Refused

TYPES = ("static", "actuated", "delay_based")


@dataclass
class Phase:
    """A row of SUMO's program. The times are seconds; `least` and `most` are None where the network gives none."""
    state: str
    duration: float
    least: float | None
    most: float | None


@dataclass
class Program:
    """A light's program: its id, its type, its phases in their order, the seconds by which it begins later than the clock, and
    what is to be told of it."""
    name: str
    kind: str
    phases: list
    offset: float
    notes: list


def seconds_in(phase, number, key, rounds_up):
    """The whole seconds of an attribute of a phase; None where it has none."""
    if not phase.get(key):
        return None
    seconds = float(phase.get(key))
    if seconds != int(seconds) and not rounds_up:
        raise Refused(0, f"phase {number} has the {key} {seconds:g}, and a controller's seconds are whole (--round-up takes "
                         "the next)")
    return float(math.ceil(seconds))


def phases_of(logic, rounds_up):
    """The phases of a program, which must follow each other in one order."""
    phases, count = [], len(logic.findall("phase"))
    for number, phase in enumerate(logic.iter("phase")):
        following = [int(place) for place in (phase.get("next") or "").split()]
        if following and following != [(number + 1) % count]:
            raise Refused(0, f"phase {number} may be followed by phases {following}, so the stages have no single order: take "
                             "`next` out of it")
        times = [seconds_in(phase, number, key, rounds_up) for key in ("duration", "minDur", "maxDur")]
        phases.append(Phase(phase.get("state"), *times))
    return phases


def together(first, second):
    """The letters of two phases that run at once: green where one of them is."""
    return "".join(a if a in "Gg" and b != "G" else b for a, b in zip(first, second))


def rings_of(logic):
    """Of each ring of a NEMA program its phases between the barriers, by their names; 0 is none."""
    values = {param.get("key"): param.get("value", "") for param in logic.iter("param")}
    barriers = [set(values.get(key, "").replace(" ", "").split(",")) for key in ("barrier2Phases", "barrierPhases")]
    rings = [[name for name in values.get(ring, "").replace(" ", "").split(",") if name] for ring in ("ring1", "ring2")]
    if not all(rings) or not all(barriers):
        raise Refused(0, "its program of type NEMA has no rings (ring1, ring2) with barriers (barrier2Phases, barrierPhases)")
    parts = []
    for ring in rings:
        ends = [k for k, name in enumerate(ring) if any(name in barrier for barrier in barriers)]
        if len(ends) != 2:
            raise Refused(0, "the rings of its NEMA program don't have two barriers each")
        halves = ring[:ends[0] + 1], ring[ends[0] + 1:]
        parts.append([[name for name in half if name != "0"] for half in halves])
    return parts


def nema_phases(logic, rounds_up):
    """A stage for each two phases that may run at once, one of each ring, with the longer of their ambers and all-reds
    behind."""
    by_name, phases = {phase.get("name"): phase for phase in logic.iter("phase")}, []
    first, second = rings_of(logic)
    for side in (0, 1):
        for one in first[side] or [None]:
            for other in second[side] or [None]:
                both = [by_name[name] for name in (one, other) if name in by_name]
                if not both:
                    continue
                state = both[0].get("state") if len(both) == 1 else together(both[0].get("state"), both[1].get("state"))
                longest = {key: max(seconds_in(phase, phase.get("name"), key, rounds_up) or 0.0 for phase in both)
                           for key in ("duration", "minDur", "maxDur", "yellow", "red")}
                phases += [Phase(state, longest["duration"], longest["minDur"] or None, longest["maxDur"] or None),
                           Phase("".join("y" if letter in "Gg" else "r" for letter in state), longest["yellow"], None, None)]
                if longest["red"]:
                    phases.append(Phase("r" * len(state), longest["red"], None, None))
    return phases


def has_stages(phases):
    """Whether there are two phases with different greens and no amber: what a controller needs."""
    greens = {tuple(letter in "Gg" for letter in phase.state) for phase in phases
              if any(letter in "Gg" for letter in phase.state) and not any(letter in "yYu" for letter in phase.state)}
    return len(greens) > 1


def make_program(logic, rounds_up):
    """A program of one tlLogic."""
    kind, name, offset = logic.get("type"), logic.get("programID"), float(logic.get("offset") or 0)
    if kind == "NEMA":
        return Program(name, kind, nema_phases(logic, rounds_up), offset,
                       ["stages are the pairs of NEMA phases that may run at once"])
    if kind not in TYPES:
        raise Refused(0, f"its program is of type {kind}, not {', '.join(TYPES)} or NEMA: give it one of these types, with "
                         "phases")
    return Program(name, kind, phases_of(logic, rounds_up), offset, [])


def program_of(logics, wanted=None, rounds_up=False):
    """The program that runs: the last one that is loaded, or the one that is wanted. Where each of several programs has one
    stage alone, their phases are one program."""
    if not logics:
        raise Refused(0, "the network has no such traffic light")
    names = [logic.get("programID") for logic in logics]
    if wanted is not None:
        chosen = [logic for logic in logics if logic.get("programID") == wanted]
        if not chosen:
            raise Refused(0, f"it has the programs {', '.join(names)}, and none of the id {wanted}")
        return make_program(chosen[-1], rounds_up)
    program = make_program(logics[-1], rounds_up)
    if len(logics) == 1:
        return program
    if has_stages(program.phases):
        program.notes.append(f"of the programs {', '.join(names)} the last one, {program.name}, was taken: it is the one that "
                             "runs (--program takes another)")
        return program
    phases = [phase for logic in logics for phase in make_program(logic, rounds_up).phases]
    return Program("+".join(names), program.kind, phases, 0.0,
                   [f"the programs {', '.join(names)} have a stage each, and are the stages of this site"])
