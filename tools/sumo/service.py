"""Which lanes and which people a stage serves: who asks for it, and who prolongs it."""
from dataclasses import replace

from sumo.stages import GREEN, MOST_STAGES

MOST_INTERSTAGES = 256


def served_of(site):
    """Of each lane, by its place, the stages that serve it: of those in which most of its links are green those that show one
    of them `G`, or `g` where the link never has `G`. So who waits in a lane for another stage, beside a right turn that is
    green, doesn't prolong this one."""
    phases, greens, served = site.light.phases, {}, {}
    for link in site.light.links:
        if link.kind == "foot":
            continue
        lane, letters = site.lanes.index(link.lane), []
        for stage in site.stages:
            shown = {phases[k].state[link.index] for run in stage.phases for k in run}
            letters.append("G" if "G" in shown else "g" if "g" in shown else "r")
        least = "G" if "G" in letters else "g"
        for number, letter in enumerate(letters):
            if letter in GREEN:
                greens[lane, number] = greens.get((lane, number), 0) + 1
            if letter == "G" or letter == least:
                served.setdefault(lane, set()).add(number)
    for lane, numbers in served.items():
        most = max(greens[lane, number] for number in numbers)
        served[lane] = {number for number in numbers if greens[lane, number] == most}
    return served


def set_served(site):
    """Notes of each stage the lanes and the crossings that it serves."""
    for lane, numbers in served_of(site).items():
        for number in numbers:
            site.stages[number].lanes.append(lane)
    for stage in site.stages:
        stage.lanes.sort()
        stage.walked = crossings_of(site, stage.greens)


def walking_of(site):
    """The groups that are people on foot alone."""
    return {group for group, places in enumerate(site.groups)
            if all(site.light.links[place].kind == "foot" for place in places)}


def part_walking(site):
    """Gives each stage in which people walk beside cars one of its own without them: people get their green where somebody
    waits for it, and it ends before that of the cars. Stages of people alone stay. Stages that are the same without people
    become one."""
    walking, bases, walks = walking_of(site), {}, {}
    for stage in site.stages:
        alone = tuple(group for group in stage.greens if group not in walking) or tuple(stage.greens)
        if alone in bases:
            base = bases[alone]
            base.phases += stage.phases
            base.most, base.lanes = max(base.most, stage.most), sorted({*base.lanes, *stage.lanes})
        else:
            bases[alone] = replace(stage, phases=list(stage.phases), greens=list(alone), lanes=list(stage.lanes), walked=[])
        if len(alone) < len(stage.greens):
            walks.setdefault(alone, set()).update(stage.greens)
        else:
            bases[alone].walked = sorted({*bases[alone].walked, *(stage.walked if set(alone) <= walking else [])})
    if len(bases) + len(walks) > MOST_STAGES:
        site.notes.append(f"crossings are green with each stage: parted there would be {len(bases) + len(walks)} stages, more "
                          f"than {MOST_STAGES}")
        return
    places = {alone: place for place, alone in enumerate(bases)}
    site.stages = list(bases.values()) + [
        replace(bases[alone], greens=sorted(greens), base=places[alone], walked=crossings_of(site, greens))
        for alone, greens in walks.items()]


def crossings_of(site, greens):
    """The crossings, by their places, that are green with these groups."""
    return sorted({site.pushes.index(link.to_lane.rsplit("_", 1)[0]) for place, link in enumerate(site.light.links)
                   if link.kind == "foot" and site.of_link[place] in greens})


def bases_of(site):
    """The stages that aren't another one with people on foot."""
    return [stage for stage in site.stages if stage.base is None]


def walks_of(site):
    """Of each such stage the place of the one in which people walk too, or None."""
    of_base = {stage.base: place for place, stage in enumerate(site.stages) if stage.base is not None}
    return [of_base.get(place) for place in range(len(bases_of(site)))]
