"""Groups, stages and times of a light."""
import math
from dataclasses import dataclass, field

from sumo.clearing import length_of
from common.reading import MOST_DETECTOR, Refused

GREEN, AMBER = "Gg", "Yy"
MOST_GROUPS, MOST_STAGES = 64, 32
MOST_USUAL = 120  # seconds: a fixed green above this is no sign of how long a green may last
NO_ASPECT = {"o": "blinking", "O": "off", "s": "a green arrow"}


@dataclass
class Stage:
    """A stage: the network's phases in which its groups are green, its groups, its maximum green, the lanes that it serves and
    the crossings. A stage in which people walk knows the one without them, by `base`, its place in the list."""
    phases: list
    greens: list
    most: int = 0
    lanes: list = field(default_factory=list)
    walked: list = field(default_factory=list)
    base: int | None = None


def groups_of(light):
    """The groups: links with the same column of letters, in the order of their first link. Gives of each group its letters in
    the phases, and the places of its links."""
    columns = {}
    for place, link in enumerate(light.links):
        if any(link.index >= len(phase.state) for phase in light.phases):
            raise Refused(0, f"link {link.index} has no letter in some phase: give each state as many letters as there are "
                             "links")
        column = "".join(phase.state[link.index] for phase in light.phases)
        wrong = sorted(set(column) - set("GgYyru"))
        if wrong:
            raise Refused(0, f"link {link.index} shows '{wrong[0]}' ({NO_ASPECT.get(wrong[0], 'unknown')}), which is no "
                             "aspect: another program of the light, without it")
        if not set(column) & set(GREEN):
            raise Refused(0, f"link {link.index} is never green: give it a green in some phase, or take it out of the light")
        columns.setdefault(column, []).append(place)
    if len(columns) > MOST_GROUPS:
        raise Refused(0, f"it has {len(columns)} groups, more than {MOST_GROUPS}: part the light")
    return list(columns), list(columns.values())


def runs_of(columns, phases):
    """The runs of phases that follow each other with the same greens and without amber or red-amber, in the order of the
    program: the first may begin at its end. A run is a list of phases; phases with amber are runs of their own, as None."""
    count, runs = len(phases), []
    kinds = []
    for k in range(count):
        now = [column[k] for column in columns]
        is_still = any(letter in GREEN for letter in now) and not any(letter in AMBER + "u" for letter in now)
        kinds.append(tuple(letter in GREEN for letter in now) if is_still else None)
    for k in range(count):
        if k and kinds[k] is not None and kinds[k] == kinds[k - 1]:
            runs[-1].append(k)
        else:
            runs.append([k])
    if len(runs) > 1 and kinds[0] is not None and kinds[0] == kinds[-1]:
        runs[0] = runs.pop() + runs[0]
    return [run for run in runs if kinds[run[0]] is not None]


def stages_of(columns, light, least):
    """The runs of phases that are stages: those in which a group turns green, or which last. Runs with the same greens are one
    stage. A light with one stage alone has all red for the second one."""
    phases, found = light.phases, {}
    runs = runs_of(columns, phases)
    for run in runs:
        now, before = [column[run[0]] for column in columns], [column[run[0] - 1] for column in columns]
        begins = any(a in GREEN and b not in GREEN for a, b in zip(now, before))
        if begins or sum(phases[k].duration for k in run) >= least or len(runs) == 1:
            greens = tuple(group for group, letter in enumerate(now) if letter in GREEN)
            found.setdefault(greens, Stage([], list(greens))).phases.append(run)
    if not found:
        raise Refused(0, "it has no stage: no phase has a green and neither amber nor red-amber, so give its program one")
    if len(found) == 1:  # nothing to choose from: all red is the second stage, which no lane asks for
        found[()] = Stage([], [])
    if len(found) > MOST_STAGES:
        raise Refused(0, f"it has {len(found)} stages, more than {MOST_STAGES}: --least-stage leaves out short ones")
    return list(found.values())


def detectors_of(light):
    """The lanes and the crossings, which have a detector each."""
    lanes = list(dict.fromkeys(link.lane for link in light.links if link.kind != "foot"))
    pushes = list(light.waits)
    if len(lanes) + len(pushes) > MOST_DETECTOR:
        raise Refused(0, f"it has {len(lanes)} lanes and {len(pushes)} crossings, more than {MOST_DETECTOR} detectors: part "
                         "the light")
    return lanes, pushes


def run_length(column, letters, phases):
    """The longest run of letters in a column around the cycle, in seconds, and whether all runs are as long."""
    count, runs, cycle = len(column), [], sum(phase.duration for phase in phases)
    for k in range(count):
        if column[k] in letters and column[k - 1] not in letters:
            seconds = 0.0
            while column[k % count] in letters and seconds <= cycle:
                seconds += phases[k % count].duration
                k += 1
            runs.append(seconds)
    return max(runs, default=0.0), len(set(runs)) < 2


def whole(seconds, what, most):
    """Rounded up to whole seconds, with rounding faults of the sum left out."""
    number = math.ceil(seconds - 1e-6)
    if number > most:
        raise Refused(0, f"{what} takes {number} seconds, more than {most}: give it less in the network's program")
    return number


def seconds_of(stage, phases, key):
    """A stage's shortest or longest run by the network's own times; None where it gives none."""
    sums = [sum(getattr(phases[k], key) for k in run) for run in stage.phases
            if all(getattr(phases[k], key) is not None for k in run)]
    return (min if key == "least" else max)(sums, default=None)


def set_times(site, given):
    """Amber, red-amber and minimum green of each group, and the maximum green of each stage."""
    phases = site.light.phases
    for group, column in enumerate(site.columns):
        name = f"K{group + 1}"
        for letters, what, kept in ((AMBER, "amber", site.amber), ("u", "red-amber", site.red_amber)):
            seconds, is_one = run_length(column, letters, phases)
            kept.append(whole(seconds, f"the {what} of {name}", 9))
            if not is_one:
                site.notes.append(f"{name}: the network's program has several lengths of {what}; the longest was taken")
        links = [site.light.links[place] for place in site.groups[group]]
        walk = max((length_of(link.way) / 2 / given.clear_foot for link in links if link.kind == "foot"), default=0.0)
        own = [seconds_of(stage, phases, "least") for stage in site.stages if group in stage.greens]
        own = [seconds for seconds in own if seconds is not None and any(link.kind != "foot" for link in links)]
        site.least.append(whole(max(given.least_green, min(own, default=0), walk), f"the minimum green of {name}", 255))
    for stage in site.stages:
        longest = seconds_of(stage, phases, "most")
        usual = max((sum(phases[k].duration for k in run) for run in stage.phases), default=0)
        if longest is None:
            longest = max(given.most_green, usual if usual <= MOST_USUAL else 0)
        stage.most = whole(longest, "a maximum green", 9999)
